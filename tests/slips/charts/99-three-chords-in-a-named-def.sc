$1
A B
A B C

$2
D
$1

Verse
$2
