"""The adapter's registers by their offsets, and their bits, by the manual's names (chapter 13)."""

CTRL = 0x0000  # device control
STATUS = 0x0008  # device status
EERD = 0x0014  # EEPROM read
ICR = 0x00C0  # interrupt causes: a read clears them
ICS = 0x00C8  # sets causes
IMS = 0x00D0  # lets causes through to the interrupt line
IMC = 0x00D8  # stops causes
RCTL = 0x0100  # receive control
TCTL = 0x0400  # transmit control
TIPG = 0x0410  # gap between sent frames
RDBAL = 0x2800  # receive ring: its address, the low half
RDBAH = 0x2804  # and the high half
RDLEN = 0x2808  # its length in octets
RDH = 0x2810  # its head
RDT = 0x2818  # its tail
TDBAL = 0x3800  # transmit ring: its address, the low half
TDBAH = 0x3804  # and the high half
TDLEN = 0x3808  # its length in octets
TDH = 0x3810  # its head
TDT = 0x3818  # its tail
GPRC = 0x4074  # good packets received: a read clears it
GPTC = 0x4080  # good packets transmitted: a read clears it
MTA = 0x5200  # multicast table: 128 words, 4 octets apart
RAL0 = 0x5400  # receive address 0, octets 0 to 3
RAH0 = 0x5404  # octets 4 and 5, and AV

# the bits of CTRL and STATUS
CTRL_FD = 1 << 0
CTRL_SLU = 1 << 6
CTRL_RST = 1 << 26
STATUS_FD = 1 << 0
STATUS_LU = 1 << 1

# EERD
EERD_START = 1 << 0
EERD_DONE = 1 << 4
EERD_ADDR_SHIFT = 8
EERD_DATA_SHIFT = 16

# ICR, ICS, IMS and IMC
INT_TXDW = 1 << 0
INT_TXQE = 1 << 1
INT_LSC = 1 << 2
INT_RXDMT0 = 1 << 4
INT_RXO = 1 << 6
INT_RXT0 = 1 << 7

# RCTL
RCTL_EN = 1 << 1
RCTL_UPE = 1 << 3
RCTL_MPE = 1 << 4
RCTL_BAM = 1 << 15
RCTL_BSIZE_2048 = 0 << 16
RCTL_BSIZE_1024 = 1 << 16
RCTL_BSIZE_512 = 2 << 16
RCTL_BSIZE_256 = 3 << 16

# TCTL
TCTL_EN = 1 << 1
TCTL_PSP = 1 << 3
TCTL_CT_SHIFT = 4
TCTL_COLD_SHIFT = 12

# the status of a receive descriptor
RX_DD = 1 << 0
RX_EOP = 1 << 1

# the command of a transmit descriptor
TX_EOP = 1 << 0
TX_IFCS = 1 << 1
TX_RS = 1 << 3

# the status of a transmit descriptor
TX_DD = 1 << 0

# RAH
RAH_AV = 1 << 31
