//! Numbers and names of bunjelav.h.
//!
//! Written by bindings/tables.py, of the crate em_c: change it there, and run that.

/// How many registers there are.
pub const REGISTERS: usize = 392;

/// Room in which each frame that a machine sends fits.
pub const MOST_SENT: usize = 16_384;

pub(crate) const WATCH_REGISTER: u32 = 1;

pub(crate) const WATCH_OCTETS: u32 = 2;

pub(crate) const WATCH_LINE: u32 = 3;

pub(crate) const WATCH_LINK: u32 = 4;

pub(crate) const WATCH_FRAMES: u32 = 5;

pub(crate) const WATCH_SENT: u32 = 6;

pub(crate) const WATCH_PHY: u32 = 7;

pub(crate) const RING_RX: u32 = 1;

pub(crate) const RING_TX: u32 = 2;

pub(crate) const PROFILE_TABLE: u32 = 0;

pub(crate) const PROFILE_ADAPTER: u32 = 1;

/// Why a call did nothing.
#[derive(Clone, Copy, PartialEq, Eq, Hash, Debug)]
#[non_exhaustive]
pub enum Refusal {
    /// No register lies at the offset.
    NoRegister,
    /// The range leaves guest memory.
    Range,
    /// A memory write outside 1 to 16,384 octets, or a frame outside 14 to 20,000.
    Length,
    /// A descriptor or its buffer leaves guest memory.
    DmaRange,
    /// A transmit descriptor is extended (DEXT).
    Extended,
    /// The gathered octets would exceed 16,380.
    TooLong,
    /// The host refused memory.
    Memory,
    /// The budget lies outside 65,536 to 16,777,216.
    Budget,
    /// The handle holds no machine.
    NotMade,
    /// The handle holds a machine already.
    MadeAlready,
    /// Guest memory can not have that size, or not lie there.
    Size,
    /// So many frames were not sent.
    NoFrame,
    /// What is told has more octets than there is room for.
    Room,
    /// The journal does not hold so many events.
    NoEvent,
    /// The journal holds no change of what is watched.
    NoChange,
    /// A watch of a kind that there is not.
    NoWatch,
    /// No register has the name.
    NoName,
    /// No refusal has the number.
    NoRefusal,
    /// There is no ring of the number.
    NoRing,
    /// The ring has no descriptor of the index.
    NoDescriptor,
    /// A function of the attached memory made the call.
    Busy,
    /// The caller's memory was not read: its function gave false, or no region has all octets.
    Unread,
    /// The caller's memory was not written: its function gave false, or no region has all octets.
    Unwritten,
    /// What is attached has neither both functions nor a region.
    NoRam,
    /// A run is kept from its first event on, and the machine has performed one.
    Begun,
    /// The run is kept already.
    Recorded,
    /// The file was not opened, or not written.
    File,
    /// The run is not kept.
    Unrecorded,
    /// An access of a register that has not four octets.
    Width,
    /// The handle holds no capture.
    NotOpen,
    /// The handle holds a capture already.
    OpenAlready,
    /// Each frame of the capture was handed over, and it ends there.
    CaptureEnd,
    /// The capture's file, or a section of it, begins with no number that is known.
    CaptureMagic,
    /// The capture, or a section of it, has a version that is not known.
    CaptureVersion,
    /// The capture is cut within a header, a record or a block.
    CaptureCut,
    /// A block of the capture has a wrong length.
    CaptureBlock,
    /// The capture has another link type than Ethernet.
    CaptureLink,
    /// A packet of the capture has more octets than its snap length or its block allows.
    CaptureLength,
    /// A packet of the capture is of an interface that its section has not described.
    CaptureInterface,
    /// There is no profile of the number.
    NoProfile,
    /// The octets of a machine do not begin with BUNJELAV.
    StoredMagic,
    /// The octets of a machine have a version that is not known.
    StoredVersion,
    /// The octets of a machine are not as many as they say.
    StoredLength,
    /// The octets of a machine have another check sum than they say.
    StoredSum,
    /// No machine is stored as these octets.
    StoredValue,
    /// Another number, which this binding does not know.
    Other(u32),
}

/// Each refusal with its number.
pub(crate) const REFUSALS: [(Refusal, u32); 45] = [
    (Refusal::NoRegister, 1),
    (Refusal::Range, 2),
    (Refusal::Length, 3),
    (Refusal::DmaRange, 4),
    (Refusal::Extended, 5),
    (Refusal::TooLong, 6),
    (Refusal::Memory, 9),
    (Refusal::Budget, 24),
    (Refusal::NotMade, 26),
    (Refusal::MadeAlready, 27),
    (Refusal::Size, 28),
    (Refusal::NoFrame, 29),
    (Refusal::Room, 30),
    (Refusal::NoEvent, 31),
    (Refusal::NoChange, 32),
    (Refusal::NoWatch, 33),
    (Refusal::NoName, 34),
    (Refusal::NoRefusal, 35),
    (Refusal::NoRing, 36),
    (Refusal::NoDescriptor, 37),
    (Refusal::Busy, 38),
    (Refusal::Unread, 39),
    (Refusal::Unwritten, 40),
    (Refusal::NoRam, 41),
    (Refusal::Begun, 42),
    (Refusal::Recorded, 43),
    (Refusal::File, 44),
    (Refusal::Unrecorded, 45),
    (Refusal::Width, 46),
    (Refusal::NotOpen, 47),
    (Refusal::OpenAlready, 48),
    (Refusal::CaptureEnd, 49),
    (Refusal::CaptureMagic, 50),
    (Refusal::CaptureVersion, 51),
    (Refusal::CaptureCut, 52),
    (Refusal::CaptureBlock, 53),
    (Refusal::CaptureLink, 54),
    (Refusal::CaptureLength, 55),
    (Refusal::CaptureInterface, 56),
    (Refusal::NoProfile, 57),
    (Refusal::StoredMagic, 58),
    (Refusal::StoredVersion, 59),
    (Refusal::StoredLength, 60),
    (Refusal::StoredSum, 61),
    (Refusal::StoredValue, 62),
];

/// By which rule an event did nothing.
#[derive(Clone, Copy, PartialEq, Eq, Hash, Debug)]
#[non_exhaustive]
pub enum Rule {
    /// None: the event did something.
    NoRule,
    /// A receive step was idle: RCTL.EN is clear.
    RxDisabled,
    /// A receive step was idle: the ring has no descriptor.
    RxNoRing,
    /// A receive step was idle: RDH is past the ring.
    RxHeadPast,
    /// A receive step was idle: RDT is past the ring.
    RxTailPast,
    /// A receive step was idle: RDH and RDT are the same.
    RxEmpty,
    /// A receive step was idle: no frame waits in the FIFO.
    RxNoFrame,
    /// A transmit step was idle: TCTL.EN is clear.
    TxDisabled,
    /// A transmit step was idle: the ring has no descriptor.
    TxNoRing,
    /// A transmit step was idle: TDH is past the ring.
    TxHeadPast,
    /// A transmit step was idle: TDT is past the ring.
    TxTailPast,
    /// A transmit step was idle: TDH and TDT are the same.
    TxEmpty,
    /// A frame was dropped: the link is down.
    FrameDown,
    /// A frame was dropped: RCTL.EN is clear.
    FrameDisabled,
    /// A frame was dropped: no filter has its destination, a unicast address.
    FrameUnicast,
    /// A frame was dropped: no filter has its destination, the address of a group.
    FrameMulticast,
    /// A frame was dropped: no filter has its destination, the broadcast address.
    FrameBroadcast,
    /// A frame was dropped: it has fewer than 64 octets with the FCS.
    FrameUndersize,
    /// A frame was dropped: it has more octets with the FCS than RCTL.LPE allows, or in the second profile LPE and SBP.
    FrameOversize,
    /// A frame was dropped: its VLAN is not in VFTA.
    FrameVlan,
    /// A frame was dropped: the FIFO has no room for it.
    FrameMissed,
    /// An access was refused: no register lies at the offset.
    NoRegister,
    /// A memory write was refused: its octets leave guest memory.
    WriteRange,
    /// A memory write was refused: it has no octet, or more than 16,384.
    WriteLength,
    /// A frame was refused: it has fewer than 14 octets, or more than 20,000.
    FrameLength,
    /// A receive step was refused: the descriptor at RDH leaves guest memory.
    RxDescriptor,
    /// A receive step was refused: what is to go into the buffer of the descriptor at RDH leaves guest memory.
    RxBuffer,
    /// A transmit step was refused: the descriptor at TDH leaves guest memory.
    TxDescriptor,
    /// A transmit step was refused: the descriptor at TDH is extended (DEXT).
    TxExtended,
    /// A transmit step was refused: the buffers of the frame hold more than 16,380 octets together, or in the second
    /// profile one of them more than 16,288.
    TxTooLong,
    /// A transmit step was refused: the buffer of the descriptor at TDH leaves guest memory.
    TxBuffer,
    /// An event was refused: the host gave no memory.
    Memory,
    /// A frame was dropped: it is a MAC control frame, no filter has its destination, and RCTL.PMCF is clear.
    FrameControl,
    /// A frame was dropped: the CFI of its tag is not RCTL.CFI.
    FrameCfi,
    /// A frame was dropped: it is a pause frame, and RCTL.DPF is set.
    FramePause,
    /// A transmit step was idle: the link is down, and RCTL.LBM is 0.
    TxLinkDown,
    /// Another number, which this binding does not know.
    Other(u32),
}

/// Each rule with its number.
pub(crate) const RULES: [(Rule, u32); 36] = [
    (Rule::NoRule, 0),
    (Rule::RxDisabled, 1),
    (Rule::RxNoRing, 2),
    (Rule::RxHeadPast, 3),
    (Rule::RxTailPast, 4),
    (Rule::RxEmpty, 5),
    (Rule::RxNoFrame, 6),
    (Rule::TxDisabled, 7),
    (Rule::TxNoRing, 8),
    (Rule::TxHeadPast, 9),
    (Rule::TxTailPast, 10),
    (Rule::TxEmpty, 11),
    (Rule::FrameDown, 12),
    (Rule::FrameDisabled, 13),
    (Rule::FrameUnicast, 14),
    (Rule::FrameMulticast, 15),
    (Rule::FrameBroadcast, 16),
    (Rule::FrameUndersize, 17),
    (Rule::FrameOversize, 18),
    (Rule::FrameVlan, 19),
    (Rule::FrameMissed, 20),
    (Rule::NoRegister, 21),
    (Rule::WriteRange, 22),
    (Rule::WriteLength, 23),
    (Rule::FrameLength, 24),
    (Rule::RxDescriptor, 25),
    (Rule::RxBuffer, 26),
    (Rule::TxDescriptor, 27),
    (Rule::TxExtended, 28),
    (Rule::TxTooLong, 29),
    (Rule::TxBuffer, 30),
    (Rule::Memory, 31),
    (Rule::FrameControl, 32),
    (Rule::FrameCfi, 33),
    (Rule::FramePause, 34),
    (Rule::TxLinkDown, 35),
];

/// By which rule an access of a register has a warning.
#[derive(Clone, Copy, PartialEq, Eq, Hash, Debug)]
#[non_exhaustive]
pub enum Warned {
    /// The register keeps only these bits of what was written.
    BitsDropped,
    /// The tail is at the ring's count of descriptors or past it.
    TailPastRing,
    /// EN is set in RCTL or TCTL while the ring's length is 0.
    EnabledBeforeRing,
    /// The adapter owns a descriptor, at this address (octets), that is all zeros.
    DescriptorUnwritten,
    /// The adapter owns a descriptor, at this address (octets), whose status has DD; of a transmit descriptor, one that
    /// was not written since.
    StatusLeft,
    /// These causes of a ring are let through while the ring's length is 0.
    InterruptsBeforeRings,
    /// A read of ICR gave 0, since an earlier event cleared these causes there, and the frame still waits.
    ReadAgain,
    /// The adapter owns descriptors of a ring that begins at this address, and leaves guest memory.
    RingOutsideMemory,
    /// The adapter is given a receive descriptor, at this address (octets), whose buffer lies over that of another one.
    BuffersOverlap,
    /// The tail went past the head, so that the adapter has fewer descriptors than it was given.
    TailPastHead,
    /// The head is moved by the driver while EN is set in RCTL or TCTL.
    HeadWhileEnabled,
    /// Octets were written that are the adapter's: of this descriptor, at this address (octets), or of its buffer.
    WrittenWhileOwned,
    /// Another number, which this binding does not know.
    Other(u32),
}

/// Each warned with its number.
pub(crate) const WARNINGS: [(Warned, u32); 12] = [
    (Warned::BitsDropped, 1),
    (Warned::TailPastRing, 2),
    (Warned::EnabledBeforeRing, 3),
    (Warned::DescriptorUnwritten, 4),
    (Warned::StatusLeft, 5),
    (Warned::InterruptsBeforeRings, 6),
    (Warned::ReadAgain, 7),
    (Warned::RingOutsideMemory, 8),
    (Warned::BuffersOverlap, 9),
    (Warned::TailPastHead, 10),
    (Warned::HeadWhileEnabled, 11),
    (Warned::WrittenWhileOwned, 12),
];

/// What is wrong with a descriptor.
#[derive(Clone, Copy, PartialEq, Eq, Hash, Debug)]
#[non_exhaustive]
pub enum Trouble {
    /// It lies outside guest memory.
    Outside,
    /// It is a transmit descriptor of the extended format (DEXT), which the adapter refuses (this project's profile).
    Extended,
    /// It is a transmit descriptor, and has no octets to send.
    NoLength,
    /// It is a transmit descriptor, and has more than 16,380 octets to send (this project's profile). What earlier
    /// buffers of its frame have is not counted.
    TooLong,
    /// Its buffer lies outside guest memory, or part of it does.
    BufferOutside,
    /// Its buffer lies over the ring's own descriptors.
    OverRing,
    /// Its buffer lies over that of another descriptor of the ring, which has this index, the lowest such. It does not
    /// where the driver has posted the one's buffer again as the other's.
    OverBuffer,
    /// Another number, which this binding does not know.
    Other(u32),
}

/// Each trouble with its number.
pub(crate) const TROUBLES: [(Trouble, u32); 7] = [
    (Trouble::Outside, 1),
    (Trouble::Extended, 2),
    (Trouble::NoLength, 3),
    (Trouble::TooLong, 4),
    (Trouble::BufferOutside, 5),
    (Trouble::OverRing, 6),
    (Trouble::OverBuffer, 7),
];

/// What kind of event it was, with what came of it.
#[derive(Clone, Copy, PartialEq, Eq, Hash, Debug)]
#[non_exhaustive]
pub enum Kind {
    /// Read.
    Read,
    /// Write.
    Write,
    /// Poke.
    Poke,
    /// Link up.
    LinkUp,
    /// Link down.
    LinkDown,
    /// Receive idle.
    RxIdle,
    /// Wrote.
    Wrote,
    /// Transmit idle.
    TxIdle,
    /// Fetched.
    Fetched,
    /// Sent.
    Sent,
    /// Stored.
    Stored,
    /// Dropped: down.
    Down,
    /// Dropped: disabled.
    Disabled,
    /// Dropped: rejected.
    Rejected,
    /// Dropped: undersize.
    Undersize,
    /// Dropped: oversize.
    Oversize,
    /// Dropped: missed.
    Missed,
    /// Another number, which this binding does not know.
    Other(u32),
}

/// Each kind with its number, and what it is called.
pub(crate) const KINDS: [(Kind, u32, &str); 17] = [
    (Kind::Read, 1, "read"),
    (Kind::Write, 2, "write"),
    (Kind::Poke, 3, "poke"),
    (Kind::LinkUp, 4, "link up"),
    (Kind::LinkDown, 5, "link down"),
    (Kind::RxIdle, 6, "receive idle"),
    (Kind::Wrote, 7, "wrote"),
    (Kind::TxIdle, 8, "transmit idle"),
    (Kind::Fetched, 9, "fetched"),
    (Kind::Sent, 10, "sent"),
    (Kind::Stored, 11, "stored"),
    (Kind::Down, 12, "dropped: down"),
    (Kind::Disabled, 13, "dropped: disabled"),
    (Kind::Rejected, 14, "dropped: rejected"),
    (Kind::Undersize, 15, "dropped: undersize"),
    (Kind::Oversize, 16, "dropped: oversize"),
    (Kind::Missed, 17, "dropped: missed"),
];
