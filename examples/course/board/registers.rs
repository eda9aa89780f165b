//! The adapter's registers by their offsets, and their bits, by the manual's names (chapter 13).
#![allow(dead_code)]

/// device control
pub const CTRL: u32 = 0x0000;
/// device status
pub const STATUS: u32 = 0x0008;
/// EEPROM read
pub const EERD: u32 = 0x0014;
/// interrupt causes: a read clears them
pub const ICR: u32 = 0x00C0;
/// sets causes
pub const ICS: u32 = 0x00C8;
/// lets causes through to the interrupt line
pub const IMS: u32 = 0x00D0;
/// stops causes
pub const IMC: u32 = 0x00D8;
/// receive control
pub const RCTL: u32 = 0x0100;
/// transmit control
pub const TCTL: u32 = 0x0400;
/// gap between sent frames
pub const TIPG: u32 = 0x0410;
/// receive ring: its address, the low half
pub const RDBAL: u32 = 0x2800;
/// and the high half
pub const RDBAH: u32 = 0x2804;
/// its length in octets
pub const RDLEN: u32 = 0x2808;
/// its head
pub const RDH: u32 = 0x2810;
/// its tail
pub const RDT: u32 = 0x2818;
/// transmit ring: its address, the low half
pub const TDBAL: u32 = 0x3800;
/// and the high half
pub const TDBAH: u32 = 0x3804;
/// its length in octets
pub const TDLEN: u32 = 0x3808;
/// its head
pub const TDH: u32 = 0x3810;
/// its tail
pub const TDT: u32 = 0x3818;
/// good packets received: a read clears it
pub const GPRC: u32 = 0x4074;
/// good packets transmitted: a read clears it
pub const GPTC: u32 = 0x4080;
/// multicast table: 128 words, 4 octets apart
pub const MTA: u32 = 0x5200;
/// receive address 0, octets 0 to 3
pub const RAL0: u32 = 0x5400;
/// octets 4 and 5, and AV
pub const RAH0: u32 = 0x5404;

// the bits of CTRL and STATUS
pub const CTRL_FD: u32 = 1 << 0;
pub const CTRL_SLU: u32 = 1 << 6;
pub const CTRL_RST: u32 = 1 << 26;
pub const STATUS_FD: u32 = 1 << 0;
pub const STATUS_LU: u32 = 1 << 1;

// EERD
pub const EERD_START: u32 = 1 << 0;
pub const EERD_DONE: u32 = 1 << 4;
pub const EERD_ADDR_SHIFT: u32 = 8;
pub const EERD_DATA_SHIFT: u32 = 16;

// ICR, ICS, IMS and IMC
pub const INT_TXDW: u32 = 1 << 0;
pub const INT_TXQE: u32 = 1 << 1;
pub const INT_LSC: u32 = 1 << 2;
pub const INT_RXDMT0: u32 = 1 << 4;
pub const INT_RXO: u32 = 1 << 6;
pub const INT_RXT0: u32 = 1 << 7;

// RCTL
pub const RCTL_EN: u32 = 1 << 1;
pub const RCTL_UPE: u32 = 1 << 3;
pub const RCTL_MPE: u32 = 1 << 4;
pub const RCTL_BAM: u32 = 1 << 15;
pub const RCTL_BSIZE_2048: u32 = 0 << 16;
pub const RCTL_BSIZE_1024: u32 = 1 << 16;
pub const RCTL_BSIZE_512: u32 = 2 << 16;
pub const RCTL_BSIZE_256: u32 = 3 << 16;

// TCTL
pub const TCTL_EN: u32 = 1 << 1;
pub const TCTL_PSP: u32 = 1 << 3;
pub const TCTL_CT_SHIFT: u32 = 4;
pub const TCTL_COLD_SHIFT: u32 = 12;

// the status of a receive descriptor
pub const RX_DD: u8 = 1 << 0;
pub const RX_EOP: u8 = 1 << 1;

// the command of a transmit descriptor
pub const TX_EOP: u8 = 1 << 0;
pub const TX_IFCS: u8 = 1 << 1;
pub const TX_RS: u8 = 1 << 3;

// the status of a transmit descriptor
pub const TX_DD: u8 = 1 << 0;

// RAH
pub const RAH_AV: u32 = 1 << 31;
