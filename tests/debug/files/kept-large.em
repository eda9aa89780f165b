# em_debug --memory 16777216 --budget 16777216 --mac 020000000001
poke 0000000000FFFFFF AB = ok @ a.c:5
poke 0000000001000000 AB = refused Range @ a.c:6
