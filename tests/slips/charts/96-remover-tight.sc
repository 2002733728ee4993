@name Song
@bpm 100
@time 4/4


Verse
C G;A=
F
