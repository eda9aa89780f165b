# em_debug --memory 8192 --budget 65536 --base 0000000180000000 --mac 020000000001
poke 0000000180001FFF AB = ok @ a.c:5
poke 0000000180002000 AB = refused Range @ a.c:6
poke 000000017FFFFFFF AB = refused Range @ a.c:7
peek 180001FFE 2 = 00AB
poke 0000000180000