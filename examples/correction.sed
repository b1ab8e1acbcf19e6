# Makes of drill.txt its correction: the whole form once more, a quarter of an hour later, in the next version, which takes the first one's place.
s/^version 0$/version 1/
/^end /s/08:15:00/08:30:00/
/^start /s/07:45:00/08:00:00/
s/At a quarter to eight/At eight/
s/at a quarter past eight/at half past eight/
s/八时十五分/八时三十分/
s/七时四十五分/八时/
