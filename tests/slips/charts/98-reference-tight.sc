$1
A;G

$2
A$1;C

Verse
$2
