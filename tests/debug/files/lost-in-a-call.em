init
mac
turns arrive:FFFFFFFFFFFF:60
mac
link up
