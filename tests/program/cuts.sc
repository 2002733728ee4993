@name The last waltz
  @time   3/4

$1
[G7;C]2

$2

Waltz!slowly
  @bpm 84
C Am F;G7
_repeat 2
_cutStart 1-1
_cutEnd -1
_before D7 = =
_after C
--
  Round   and round _5

Vamp
$1

Spoken
$2
--
She leaves.
