/* The adapter's registers by their offsets, and their bits, by the manual's names (chapter 13). */
#ifndef REGISTERS_H
#define REGISTERS_H

#define CTRL   0x0000u /* device control */
#define STATUS 0x0008u /* device status */
#define EERD   0x0014u /* EEPROM read */
#define ICR    0x00C0u /* interrupt causes: a read clears them */
#define ICS    0x00C8u /* sets causes */
#define IMS    0x00D0u /* lets causes through to the interrupt line */
#define IMC    0x00D8u /* stops causes */
#define RCTL   0x0100u /* receive control */
#define TCTL   0x0400u /* transmit control */
#define TIPG   0x0410u /* gap between sent frames */
#define RDBAL  0x2800u /* receive ring: its address, the low half */
#define RDBAH  0x2804u /* and the high half */
#define RDLEN  0x2808u /* its length in octets */
#define RDH    0x2810u /* its head */
#define RDT    0x2818u /* its tail */
#define TDBAL  0x3800u /* transmit ring: its address, the low half */
#define TDBAH  0x3804u /* and the high half */
#define TDLEN  0x3808u /* its length in octets */
#define TDH    0x3810u /* its head */
#define TDT    0x3818u /* its tail */
#define GPRC   0x4074u /* good packets received: a read clears it */
#define GPTC   0x4080u /* good packets transmitted: a read clears it */
#define MTA    0x5200u /* multicast table: 128 words, 4 octets apart */
#define RAL0   0x5400u /* receive address 0, octets 0 to 3 */
#define RAH0   0x5404u /* octets 4 and 5, and AV */

/* the bits of CTRL and STATUS */
#define CTRL_FD (1u << 0)
#define CTRL_SLU (1u << 6)
#define CTRL_RST (1u << 26)
#define STATUS_FD (1u << 0)
#define STATUS_LU (1u << 1)

/* EERD */
#define EERD_START (1u << 0)
#define EERD_DONE (1u << 4)
#define EERD_ADDR_SHIFT 8u
#define EERD_DATA_SHIFT 16u

/* ICR, ICS, IMS and IMC */
#define INT_TXDW (1u << 0)
#define INT_TXQE (1u << 1)
#define INT_LSC (1u << 2)
#define INT_RXDMT0 (1u << 4)
#define INT_RXO (1u << 6)
#define INT_RXT0 (1u << 7)

/* RCTL */
#define RCTL_EN (1u << 1)
#define RCTL_UPE (1u << 3)
#define RCTL_MPE (1u << 4)
#define RCTL_BAM (1u << 15)
#define RCTL_BSIZE_2048 (0u << 16)
#define RCTL_BSIZE_1024 (1u << 16)
#define RCTL_BSIZE_512 (2u << 16)
#define RCTL_BSIZE_256 (3u << 16)

/* TCTL */
#define TCTL_EN (1u << 1)
#define TCTL_PSP (1u << 3)
#define TCTL_CT_SHIFT 4u
#define TCTL_COLD_SHIFT 12u

/* the status of a receive descriptor */
#define RX_DD (1u << 0)
#define RX_EOP (1u << 1)

/* the command of a transmit descriptor */
#define TX_EOP (1u << 0)
#define TX_IFCS (1u << 1)
#define TX_RS (1u << 3)

/* the status of a transmit descriptor */
#define TX_DD (1u << 0)

/* RAH */
#define RAH_AV (1u << 31)

#endif
