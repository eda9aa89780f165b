# em_debug --base 0x80000000 --memory 8K
poke 80001FFF AB = ok
poke 0 AB = refused Range
poke 80000000 AB = ok