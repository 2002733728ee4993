@time 4/4

First
A7 _;%
_repeat 2
_cutEnd 1

Second!with a lead-in
@time 3/4
Ebmaj7 = =;F#m
_before G
