# A driver that gets its rings wrong, and one write of them again.
w RDBAL 2008 @ ring.c:10
w RDLEN 80 @ ring.c:11
w RDT 8 @ ring.c:12
w RDBAL 1000 @ ring.c:14
w RDT 9 @ ring.c:15
w TCTL EN @ tx.c:3
w RDT A @ ring.c:15
