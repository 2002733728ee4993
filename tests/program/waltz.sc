@name Two meters
@bpm 90
@capo 5

Intro!softly
A7 _;%
_repeat 2
_cutEnd 1

Waltz
@time 3/4
@bpm 120
Ebmaj7 = =;F#m
_before G
