//! Each call of the binding once, and each refusal: what they give was worked out from the manual's tables.
use bunjelav::{offset_of, Asked, Kind, Machine, Name, Octets, Ram, Refusal, Region, Register, Ring, Rule, Stopped};
use bunjelav::{Capture, Captured, CapturedFrame, Trouble, Warned, Watch};
use bunjelav::{Profile, MOST_SENT, REGISTERS};
use std::sync::{Arc, Mutex};

const MAC: [u8; 6] = [0x52, 0x54, 0x00, 0x12, 0x34, 0x56];
const STATUS: u32 = 0x0008;
const ICR: u32 = 0x00C0;
const IMS: u32 = 0x00D0;
const RDT: u32 = 0x2818;
const RDH: u32 = 0x2810;
const BUFFER: u64 = 0x4000;

fn made() -> Machine {
    Machine::new(65_536, 1 << 20, MAC).unwrap()
}

fn frame() -> [u8; 60] {
    let mut frame = [0; 60];
    frame[..6].fill(0xFF);
    frame
}

fn descriptor(length: u8, command: u8) -> [u8; 16] {
    let mut octets = [0; 16];
    octets[..8].copy_from_slice(&BUFFER.to_le_bytes());
    octets[8] = length;
    octets[11] = command;
    octets
}

fn receiving() -> Machine {
    let mut m = made();
    m.set_link(true).unwrap();
    for i in 0..8 {
        m.poke(0x1000 + 16 * i, &descriptor(0, 0)).unwrap();
    }
    for (offset, value) in [(0x2800, 0x1000), (0x2808, 128), (RDT, 4), (0x0100, 0x8002)] {
        m.write(offset, value).unwrap();
    }
    m
}

#[test]
fn makes() {
    assert_eq!(Machine::new(4_097, 1 << 20, MAC).err(), Some(Refusal::Size));
    assert_eq!(Machine::new(4_096, 1, MAC).err(), Some(Refusal::Budget));
    let mut words = [0; 64];
    words[0] = 0x1234;
    let m = Machine::with_eeprom(4_096, 65_536, &words).unwrap();
    assert_eq!((m.look(0x5400), m.memory_size()), (Ok(0x1234), 4_096));
}

#[test]
fn copies() {
    let mut m = receiving();
    m.tag(5);
    m.arrive(&frame()).unwrap();
    m.rx_step().unwrap();
    let mut copy = m.try_clone().unwrap();
    let mut second = copy.try_clone().unwrap();
    assert_eq!((copy.can_go_back(), copy.look(RDH)), (m.can_go_back(), Ok(1)));
    copy.write(IMS, 1).unwrap();
    assert_eq!((copy.event(0).unwrap().tag, copy.look(IMS), m.look(IMS)), (5, Ok(1), Ok(0)));
    assert_eq!(copy.back(2), 2);
    assert_eq!((copy.look(RDH), copy.fifo().frames), (Ok(0), 1));
    assert_eq!((m.look(RDH), m.fifo().frames), (Ok(1), 0));
    drop((m, copy));
    assert!(second.back(usize::MAX) > 10);
    assert_eq!(second.look(RDT), Ok(0));
}

#[test]
fn stores_and_loads() {
    let mut m = receiving();
    m.tag(5);
    for _ in 0..2 {
        m.arrive(&frame()).unwrap();
    }
    m.rx_step().unwrap();
    let octets = m.store().unwrap();
    assert_eq!(&octets[..12], b"BUNJELAV\x01\0\0\0");
    assert_eq!(octets[octets.len() - 12..][..8], (octets.len() as u64).to_le_bytes());
    let mut room = vec![7; octets.len() + 1];
    assert_eq!(m.store_into(&mut room[..octets.len() - 1]), Err(Refusal::Room));
    assert_eq!((room[0], m.store_into(&mut room)), (7, Ok(octets.len())));
    assert_eq!((&room[..octets.len()], room[octets.len()]), (&octets[..], 7));
    let mut loaded = Machine::load(&octets).unwrap();
    assert_eq!((loaded.store().unwrap(), loaded.can_go_back(), loaded.fifo().frames), (octets, 0, 1));
    assert_eq!(loaded.rx_step().unwrap().kind, Kind::Wrote);
    assert_eq!((loaded.event(0).unwrap().tag, loaded.look(RDH), m.look(RDH)), (0, Ok(2), Ok(1)));
    assert_eq!((loaded.back(9), loaded.look(RDH), loaded.fifo().frames), (1, Ok(1), 1));
    assert_eq!(loaded.save("/dev/null"), Err(Refusal::Begun));
}

#[test]
fn loads_no_other_octets() {
    let octets = made().store().unwrap();
    let changed = |at: usize| {
        let mut other = octets.clone();
        other[at] ^= 1;
        Machine::load(&other).err()
    };
    assert_eq!(Machine::load(&[]).err(), Some(Refusal::StoredMagic));
    assert_eq!((changed(7), changed(8)), (Some(Refusal::StoredMagic), Some(Refusal::StoredVersion)));
    assert_eq!((changed(octets.len() - 12), changed(40)), (Some(Refusal::StoredLength), Some(Refusal::StoredSum)));
    assert_eq!(Machine::load(&octets[..99]).err(), Some(Refusal::StoredLength));
    assert!(Machine::load(&octets).is_ok());
    // a new machine has no octet behind its words but counts of 0 and pages of zeros: 3, then 16 of them
    let lists = octets.len() - 12 - 24 - 16;
    let mut other = octets[..lists].to_vec();
    other.extend([0; 24 + 16]);
    other[lists] = 1; // one gathered octet: where the others then begin nothing is so long
    other.extend((octets.len() as u64).to_le_bytes());
    other.extend(sum_of(&other).to_le_bytes());
    assert_eq!(Machine::load(&other).err(), Some(Refusal::StoredValue));
}

/// CRC-32, by its definition.
fn sum_of(octets: &[u8]) -> u32 {
    let bit = |sum: u32, _| if sum & 1 == 1 { sum >> 1 ^ 0xEDB8_8320 } else { sum >> 1 };
    !octets.iter().fold(u32::MAX, |sum, &octet| (0..8).fold(sum ^ u32::from(octet), bit))
}

#[test]
fn copies_nothing_that_is_attached() {
    let mut ram = vec![0; 65_536];
    let mut m = receiving_over(&mut ram);
    let octets = ram.as_mut_ptr();
    // SAFETY: the vector outlives the machine, and nobody uses it while a call lasts.
    unsafe { m.attach_regions(&[Region { base: 0, size: 65_536, octets }]).unwrap() };
    m.rx_step().unwrap();
    let mut copy = m.try_clone().unwrap();
    m.detach();
    copy.poke(0x4000, b"other").unwrap();
    assert_eq!(copy.back(2), 2);
    assert_eq!((&ram[0x4000..0x403C], copy.fifo().frames, m.fifo().frames), (&frame()[..], 1, 0));
}

#[test]
fn reads_and_writes() {
    let mut m = made();
    assert_eq!(m.read(4), Err(Refusal::NoRegister));
    assert_eq!(m.write(4, 1), Err(Refusal::NoRegister));
    assert_eq!(m.look(4), Err(Refusal::NoRegister));
    assert_eq!(m.read(STATUS), Ok(0x81));
    m.set_link(true).unwrap();
    m.write(IMS, 4).unwrap();
    assert!(m.line());
    assert_eq!((m.look(ICR), m.read(ICR), m.read(ICR)), (Ok(4), Ok(4), Ok(0)));
    assert!(!m.line());
    let mut out = [9; 5];
    m.poke(4_094, b"hello").unwrap();
    m.peek(4_094, &mut out).unwrap();
    assert_eq!(&out, b"hello");
    assert_eq!(m.poke(65_535, b"12"), Err(Refusal::Range));
    assert_eq!(m.poke(0, b""), Err(Refusal::Length));
    assert_eq!(m.peek(65_532, &mut out), Err(Refusal::Range));
    assert_eq!(&out, b"hello");
}

#[test]
fn accesses_words_alone() {
    let mut m = made();
    m.write_sized(0x5400, 4, 0xFEDC_BA98_1234_5678).unwrap();
    assert_eq!((m.read_sized(0x5400, 4), m.look(0x5400)), (Ok(0x1234_5678), Ok(0x1234_5678)));
    for octets in [0, 1, 2, 8, u32::MAX] {
        assert_eq!(m.read_sized(0x5400, octets), Err(Refusal::Width));
        assert_eq!(m.write_sized(0x5400, octets, 1), Err(Refusal::Width));
    }
    assert_eq!(m.read_sized(4, 4), Err(Refusal::NoRegister));
    assert_eq!((m.can_go_back(), m.look(0x5400)), (2, Ok(0x1234_5678)));
}

#[test]
fn lists_registers_and_copies_memory() {
    let mut m = made();
    m.write(RDT, 5).unwrap();
    m.poke(4_094, b"hello").unwrap();
    let mut room = [Register::default(); REGISTERS];
    assert_eq!((m.registers(&mut room[..3]), m.registers(&mut room)), (Err(Refusal::Room), Ok(4)));
    assert_eq!(room[..2], [Register { offset: STATUS, value: 0x81 }, Register { offset: RDT, value: 5 }]);
    let mut ram = vec![9; 65_536];
    assert_eq!(m.sync_out(&mut ram[1..]), Err(Refusal::Length));
    assert_eq!((m.sync_out(&mut ram), &ram[4_093..4_100]), (Ok(()), b"\0hello\0".as_slice()));
}

#[test]
fn has_memory_at_a_base() {
    let base = 0x1_8000_0000;
    let mut m = Machine::at(base, 8_192, 1 << 20, MAC).unwrap();
    let mut ram = vec![9; 8_192];
    assert_eq!((m.memory_base(), m.memory_size()), (base, 8_192));
    assert_eq!(m.poke(base + 4_094, b"hello"), Ok(()));
    assert_eq!(m.poke(base - 1, b"hello"), Err(Refusal::Range));
    assert_eq!((m.sync_out(&mut ram), &ram[4_093..4_100]), (Ok(()), b"\0hello\0".as_slice()));
    ram[8_191] = 1;
    assert_eq!((m.sync_in(&ram), m.event(0).unwrap().at), (Ok(1), base + 8_191));
    let refused = [(1, 4_096), (0, 0), (1 << 40, 4_096), (4_096, 1 << 40)];
    for (base, size) in refused {
        assert_eq!(Machine::at(base, size, 1 << 20, MAC).err(), Some(Refusal::Size));
    }
    let most = Machine::at_with_eeprom(0, 1 << 40, 1 << 20, &[0; 64]).unwrap();
    assert_eq!(most.memory_size(), 1 << 40);
}

#[test]
fn is_of_a_profile() {
    const EECD: u32 = 0x10;
    const MDIC: u32 = 0x20;
    let mut m = Machine::of(Profile::Adapter, 0x1000, 8_192, 1 << 20, MAC).unwrap();
    assert_eq!((m.profile(), m.memory_base(), m.read(EECD)), (Profile::Adapter, 0x1000, Ok(0x118)));
    // word 2 of PHY 1
    m.write(MDIC, 0x0822_0000).unwrap();
    assert_eq!(m.look(MDIC), Ok(0x1822_0141));
    // 1234 in the PHY's word 9, which was 0E00 at power on; with a link word 17 has bit 10 too
    assert_eq!(m.last_change(Watch::Phy(9)), Ok(None));
    m.write(MDIC, 0x0429_1234).unwrap();
    m.set_link(true).unwrap();
    assert_eq!(m.last_change(Watch::Phy(9)).unwrap().map(|it| (it.back, it.value)), Some((2, 0x0E00)));
    assert_eq!(m.last_change(Watch::Phy(17)).unwrap().map(|it| (it.back, it.value)), Some((1, 0xA800)));
    assert_eq!(m.last_change(Watch::Phy(32)), Err(Refusal::NoRegister));
    let mut first = Machine::of(Profile::Table, 0, 4_096, 1 << 20, MAC).unwrap();
    assert_eq!((first.profile(), first.read(EECD)), (Profile::Table, Err(Refusal::NoRegister)));
    assert_eq!((made().profile(), Profile::default()), (Profile::Table, Profile::Table));
    assert_eq!(Machine::of(Profile::Adapter, 1, 4_096, 1 << 20, MAC).err(), Some(Refusal::Size));
    let mut words = [0; 64];
    words[0] = 0x5452;
    let mut m = Machine::of_with_eeprom(Profile::Adapter, 0, 4_096, 1 << 20, &words).unwrap();
    assert_eq!((m.read(0x5400), m.profile()), (Ok(0x5452), Profile::Adapter));
    assert_eq!((offset_of("eecd"), Name::of(MDIC).unwrap().to_string()), (Ok(EECD), "MDIC".into()));
}

#[test]
fn copies_memory_in() {
    let mut m = made();
    let mut ram = vec![0; 65_536];
    ram[4_094..4_099].copy_from_slice(b"hello");
    assert_eq!((m.sync_in(&ram), m.sync_in(&ram)), (Ok(2), Ok(0)));
    let event = m.event(0).unwrap();
    assert_eq!((event.kind, event.at, event.length), (Kind::Poke, 4_096, 3));
    let mut out = vec![9; 65_536];
    assert_eq!((m.sync_out(&mut out), out == ram), (Ok(()), true));
    assert_eq!(m.sync_in(&ram[1..]), Err(Stopped { refusal: Refusal::Length, done: 0 }));
    assert_eq!(m.can_go_back(), 2);
}

#[test]
fn receives() {
    let mut m = receiving();
    assert_eq!(m.arrive(&[0; 13]), Err(Refusal::Length));
    for _ in 0..3 {
        assert_eq!(m.arrive(&frame()).unwrap().kind, Kind::Stored);
    }
    assert_eq!(m.last_change(Watch::Frames).unwrap().map(|it| (it.back, it.value)), Some((1, 2)));
    assert_eq!(m.last_change(Watch::Sent), Ok(None));
    let event = m.rx_step().unwrap();
    assert_eq!((event.kind, event.value), (Kind::Wrote, 0));
    assert_eq!((event.at, event.buffer, event.octets), (0x1000, BUFFER, 60));
    assert_eq!((m.run_rx(9), m.run_rx(9), m.look(RDH)), (Ok(2), Ok(0), Ok(3)));
    m.write(0x2800, 65_536).unwrap();
    m.arrive(&frame()).unwrap();
    assert_eq!(m.rx_step(), Err(Refusal::DmaRange));
}

#[test]
fn tells_what_was_done_before_a_refusal() {
    let mut m = receiving();
    for _ in 0..3 {
        m.arrive(&frame()).unwrap();
    }
    m.poke(0x1020, &(1u64 << 63).to_le_bytes()).unwrap();
    let stopped = m.run_rx(9).unwrap_err();
    assert_eq!((stopped, m.look(RDH)), (Stopped { refusal: Refusal::DmaRange, done: 2 }, Ok(2)));
    assert_eq!(stopped.to_string(), "a descriptor or its buffer leaves guest memory, after 2");
    // the refusal alone is what `?` gives where a Refusal is wanted
    fn run(m: &mut Machine) -> Result<usize, Refusal> {
        Ok(m.run_rx(9)?)
    }
    assert_eq!(run(&mut m), Err(Refusal::DmaRange));
}

#[test]
fn refusals_are_errors() {
    fn read(m: &mut Machine) -> Result<u32, Box<dyn std::error::Error>> {
        m.run_rx(1)?;
        Ok(m.read(4)?)
    }
    assert_eq!(read(&mut made()).unwrap_err().to_string(), "no register lies at the offset");
}

#[test]
fn looks_while_events_are_gone_through() {
    let mut m = receiving();
    m.arrive(&frame()).unwrap();
    let m = &m;
    for event in m.events() {
        assert_eq!((m.look(STATUS), m.line(), m.can_go_back() > 0), (Ok(0x83), false, true));
        for other in m.events() {
            assert_ne!(other.kind, Kind::Other(0), "{event}");
        }
    }
}

#[test]
fn sends() {
    let mut m = made();
    m.poke(BUFFER, &frame()).unwrap();
    m.poke(0x2000, &descriptor(60, 1)).unwrap();
    m.poke(0x2010, &descriptor(60, 0x21)).unwrap();
    for (offset, value) in [(0x3800, 0x2000), (0x3808, 128), (0x0400, 2), (0x3818, 1)] {
        m.write(offset, value).unwrap();
    }
    let mut out = [0; 60];
    assert_eq!(m.wire_frame(0, &mut out), Err(Refusal::NoFrame));
    let event = m.tx_step().unwrap();
    assert_eq!((event.kind, event.value, event.length), (Kind::Sent, 0, 60));
    assert_eq!((event.at, event.buffer, event.octets), (0x2000, BUFFER, 60));
    assert_eq!(event.to_string(), "sent 0 60");
    assert_eq!(m.last_change(Watch::Sent).unwrap().map(|it| (it.back, it.value)), Some((1, 0)));
    assert_eq!(m.last_change(Watch::Frames), Ok(None));
    assert_eq!((m.wire_count(), m.wire_frame(0, &mut out[..59])), (1, Err(Refusal::Room)));
    assert_eq!((m.wire_frame(0, &mut out), out), (Ok(60), frame()));
    assert!(m.frames().map(|it| it.to_vec()).eq([frame().to_vec()]));
    assert_eq!(m.wire_next_into(&mut out[..59]), Err(Refusal::Room));
    assert!(m.wire_next().map(|it| it.to_vec()).eq([frame().to_vec()]));
    assert_eq!((m.wire_next_into(&mut out), m.wire_next().count()), (Ok(None), 0));
    assert_eq!((m.let_go(), m.wire_frame(0, &mut out)), (0, Ok(60)));
    m.let_go_always(true);
    assert_eq!((m.wire_next().count(), m.wire_frame(0, &mut out)), (0, Ok(60)));
    // taken back, and sent once more: a new frame
    assert_eq!((m.back(1), m.wire_next().count()), (1, 0));
    assert_eq!(m.run_tx(9), Ok(1));
    assert_eq!((m.wire_next_into(&mut out), m.wire_next_into(&mut out)), (Ok(Some(60)), Ok(None)));
    m.write(0x3818, 2).unwrap();
    assert_eq!(m.run_tx(9), Err(Stopped { refusal: Refusal::Extended, done: 0 }));
}

#[test]
fn goes_back_and_tells_who() {
    let mut m = made();
    assert_eq!((m.back(1), m.can_go_back(), m.event(0)), (0, 0, Err(Refusal::NoEvent)));
    assert_eq!(m.last_change(Watch::Register(RDT)), Ok(None));
    m.tag(77);
    m.write(RDT, 5).unwrap();
    m.poke(0x100, b"ab").unwrap();
    m.set_link(true).unwrap();
    let change = m.last_change(Watch::Register(RDT)).unwrap().unwrap();
    assert_eq!((change.back, change.value), (3, 0));
    let event = m.event(change.back - 1).unwrap();
    assert_eq!((event.kind, event.at, event.value, event.tag), (Kind::Write, RDT as u64, 5, 77));
    assert_eq!(event.to_string(), "write 02818 00000005");
    assert_eq!(m.last_change(Watch::Octets(0x101, 2)).unwrap().unwrap().back, 2);
    assert_eq!(m.last_change(Watch::Link).unwrap().unwrap().back, 1);
    for watch in [Watch::Line, Watch::Frames, Watch::Sent] {
        assert_eq!(m.last_change(watch), Ok(None));
    }
    assert_eq!(m.last_change(Watch::Octets(0, 17)), Err(Refusal::Length));
    assert_eq!(m.last_change(Watch::Octets(1 << 40, 1)), Err(Refusal::Range));
    let kinds: Vec<_> = m.events().map(|it| it.kind).collect();
    assert_eq!(kinds, [Kind::LinkUp, Kind::Poke, Kind::Write]);
    assert_eq!((m.back(2), m.look(RDT), m.back(9), m.look(RDT)), (2, Ok(5), 1, Ok(0)));
}

#[test]
fn names() {
    assert_eq!((offset_of("rah15"), offset_of("RAH16")), (Ok(0x547C), Err(Refusal::NoName)));
    assert_eq!(Name::of(0x5200 + 4 * 127).unwrap().to_string(), "MTA[127]");
    assert_eq!(Name::of(4), Err(Refusal::NoRegister));
    assert_eq!((Refusal::Range.number(), Refusal::Range.to_string()), (2, "the octets leave guest memory".into()));
    assert_eq!(Refusal::NotMade.to_string(), "the handle holds no machine");
    assert_eq!((Refusal::Other(99).number(), Refusal::Other(99).to_string()), (99, "refusal 99".into()));
    assert_eq!(Kind::Other(99).to_string(), "unknown kind 99");
    assert_eq!(bunjelav::version(), env!("CARGO_PKG_VERSION"));
    assert_eq!((Kind::Undersize.to_string(), Kind::LinkUp.to_string()), ("dropped: undersize".into(), "link up".into()));
    assert_eq!((REGISTERS, MOST_SENT), (392, 16_384));
}

#[test]
fn tells_whose_a_descriptor_is() {
    let mut m = made();
    assert_eq!(m.ring(Ring::Rx).map(|ring| (ring.count, ring.buffer, ring.enabled)), Ok((0, 2_048, 0)));
    assert_eq!(m.descriptor(Ring::Rx, 0), Err(Refusal::NoDescriptor));
    for (offset, value) in [(0x2800, 0x1000), (0x2808, 0x80), (RDH, 6), (RDT, 1)] {
        m.write(offset, value).unwrap();
    }
    let ring = m.ring(Ring::Rx).unwrap();
    assert_eq!((ring.base, ring.count, ring.head, ring.tail), (0x1000, 8, 6, 1));
    let adapters = |m: &Machine| -> Vec<u32> {
        (0..8).filter(|index| m.descriptor(Ring::Rx, *index).unwrap().is_adapters).collect()
    };
    assert_eq!(adapters(&m), [0, 6, 7]);
    m.poke(0x1060, &descriptor(60, 7)).unwrap();
    assert_eq!(m.descriptor(Ring::Rx, 6).unwrap().octets, descriptor(60, 7));
    // a head past the ring: all are the driver's
    m.write(RDH, 10).unwrap();
    assert_eq!(adapters(&m), []);
    // the last descriptor of the transmit ring leaves memory
    m.write(0x3800, 65_536 - 0x70).unwrap();
    m.write(0x3808, 0x80).unwrap();
    assert!(m.descriptor(Ring::Tx, 6).is_ok());
    assert_eq!(m.descriptor(Ring::Tx, 7), Err(Refusal::Range));
}

#[test]
fn goes_to_another_thread() {
    let machines: Vec<_> = (0..3)
        .map(|k| {
            std::thread::spawn(move || {
                let mut m = made();
                m.write(RDT, k).unwrap();
                m
            })
        })
        .collect();
    for (k, machine) in machines.into_iter().enumerate() {
        assert_eq!(machine.join().unwrap().look(RDT), Ok(k as u32));
    }
}

#[test]
fn is_looked_at_by_several_threads_at_once() {
    let mut m = receiving();
    assert_eq!(m.fifo_room(), 49_152);
    m.arrive(&frame()).unwrap();
    for tail in [4, 5] {
        m.write(RDT, tail).unwrap();
        std::thread::scope(|scope| {
            for _ in 0..4 {
                scope.spawn(|| {
                    for _ in 0..500 {
                        assert_eq!((m.look(RDT), m.fifo_room(), m.line()), (Ok(tail), 49_092, false));
                        // (that the descriptor which the tail gives has the others' buffer)
                        let warned = m.warnings().unwrap().count();
                        assert_eq!((m.event(0).unwrap().value, warned), (tail, usize::from(tail == 5)));
                    }
                });
            }
        });
    }
}

// ---- memory of the caller's

/// A machine that receives over memory of its caller's, in which the descriptors lie, and a frame that waits.
fn receiving_over(ram: &mut [u8]) -> Machine {
    let mut m = made();
    m.set_link(true).unwrap();
    for i in 0..8 {
        ram[0x1000 + 16 * i..][..16].copy_from_slice(&descriptor(0, 0));
    }
    for (offset, value) in [(0x2800, 0x1000), (0x2808, 128), (RDT, 4), (0x0100, 0x8002)] {
        m.write(offset, value).unwrap();
    }
    m.arrive(&frame()).unwrap();
    m
}

#[test]
fn goes_over_a_slice() {
    let mut ram = vec![0; 65_536];
    let mut m = receiving_over(&mut ram);
    let before = ram.clone();
    let event = m.over(&mut ram[..]).rx_step().unwrap();
    assert_eq!((event.kind, &ram[0x4000..0x403C], ram[0x1008], ram[0x100C] & 1), (Kind::Wrote, &frame()[..], 60, 1));
    // what is brought is an event; what the step wrote is told
    assert_eq!(m.event(1).unwrap().kind, Kind::Poke);
    let written = m.written(0).unwrap().map(|it| (it.address, it.length));
    assert_eq!(written, [(0x4000, 60), (0x1008, 8)]);
    assert_eq!(m.over(&mut ram[..]).back(1), Ok(1));
    assert_eq!(ram, before);
    assert_eq!(m.over(&mut ram[..]).run_rx(9), Ok(1));
    m.over(&mut ram[..]).poke(0x3000, b"hello").unwrap();
    assert_eq!(&ram[0x3000..0x3005], b"hello");
    // nothing is attached outside of it
    m.poke(0x3000, b"there").unwrap();
    assert_eq!(&ram[0x3000..0x3005], b"hello");
    m.over(&mut ram[..]).tx_step().unwrap();
    assert_eq!(m.over(&mut ram[..]).run_tx(9), Ok(0));
    // octets that are not there
    m.arrive(&frame()).unwrap();
    assert_eq!(m.over(&mut ram[..0x4000]).rx_step(), Err(Refusal::Unread));
    assert_eq!(m.over(&mut ram[..0x1000]).run_rx(9), Err(Stopped { refusal: Refusal::Unread, done: 0 }));
    let mut high = Octets { base: 0x1000, octets: &mut ram[0x1000..] };
    assert_eq!(m.over(&mut high).rx_step().map(|it| it.kind), Ok(Kind::Wrote));
    assert_eq!(m.over(&mut high).poke(0x0FFF, b"x"), Err(Refusal::Unwritten));
}

/// Memory that several own, which can refuse.
#[derive(Clone)]
struct Shared(Arc<Mutex<(Vec<u8>, bool)>>);

impl Ram for Shared {
    fn read(&mut self, address: u64, out: &mut [u8]) -> bool {
        let (ram, _) = &*self.0.lock().unwrap();
        out.copy_from_slice(&ram[address as usize..][..out.len()]);
        true
    }

    fn write(&mut self, address: u64, octets: &[u8]) -> bool {
        let (ram, refuses) = &mut *self.0.lock().unwrap();
        if !*refuses {
            ram[address as usize..][..octets.len()].copy_from_slice(octets);
        }
        !*refuses
    }
}

#[test]
fn keeps_memory_that_is_attached() {
    let mut ram = vec![0; 65_536];
    let mut m = receiving_over(&mut ram);
    let shared = Shared(Arc::new(Mutex::new((ram, true))));
    m.attach(shared.clone()).unwrap();
    assert_eq!((m.rx_step(), m.look(RDH)), (Err(Refusal::Unwritten), Ok(0)));
    shared.0.lock().unwrap().1 = false;
    assert_eq!(m.rx_step().unwrap().kind, Kind::Wrote);
    assert_eq!(shared.0.lock().unwrap().0[0x100C] & 1, 1);
    shared.0.lock().unwrap().1 = true;
    assert_eq!(m.try_back(9), Err(Stopped { refusal: Refusal::Unwritten, done: 1 }));
    // it moves with its machine, into another thread too, and another memory for one call does not drop it
    let m = std::thread::spawn(move || {
        let mut m = m;
        m.over(&mut vec![0u8; 65_536][..]).rx_step().unwrap();
        shared.0.lock().unwrap().1 = false;
        m.poke(0x3000, b"hello").unwrap();
        assert_eq!(&shared.0.lock().unwrap().0[0x3000..0x3005], b"hello");
        assert_eq!(Arc::strong_count(&shared.0), 2);
        m.detach();
        assert_eq!(Arc::strong_count(&shared.0), 1);
        m.poke(0x3000, b"there").unwrap();
        assert_eq!(&shared.0.lock().unwrap().0[0x3000..0x3005], b"hello");
        m.attach(shared.clone()).unwrap();
        m.attach(shared.clone()).unwrap();
        assert_eq!(Arc::strong_count(&shared.0), 2);
        drop(m);
        assert_eq!(Arc::strong_count(&shared.0), 1);
    });
    m.join().unwrap();
}

#[test]
fn goes_over_regions() {
    let mut ram = vec![0; 65_536];
    let mut m = receiving_over(&mut ram);
    let octets = ram.as_mut_ptr();
    assert_eq!(unsafe { m.attach_regions(&[]) }, Err(Refusal::NoRam));
    // SAFETY: the vector outlives the machine, and nobody uses it while a call lasts.
    unsafe {
        m.attach_regions(&[
            Region { base: 0, size: 0x4010, octets },
            Region { base: 0x4010, size: 0x1000, octets: octets.add(0x4010) },
        ])
        .unwrap();
    }
    assert_eq!(m.rx_step().unwrap().kind, Kind::Wrote);
    assert_eq!(m.poke(0x500F, b"ab"), Err(Refusal::Unwritten));
    m.detach();
    assert_eq!((&ram[0x4000..0x403C], ram[0x100C] & 1), (&frame()[..], 1));
}

#[test]
fn tells_ranges() {
    let mut m = receiving();
    assert_eq!(m.written(1 << 20), Err(Refusal::NoEvent));
    assert_eq!(m.needs(Ring::Rx).unwrap().reads[0].length, 0);
    m.arrive(&frame()).unwrap();
    let needs = m.needs(Ring::Rx).unwrap();
    assert_eq!((needs.reads[0].address, needs.reads[0].length, needs.reads[1].length), (0x1000, 16, 0));
    m.rx_step().unwrap();
    assert_eq!(m.written(0).unwrap(), needs.writes);
    assert_eq!(m.needs(Ring::Tx).unwrap().reads[0].length, 0);
    let (mut out, count) = ([9; 4], m.can_go_back());
    assert_eq!((m.sync_in_range(0x3000, b"abcd"), m.sync_in_range(0x3000, b"abcd")), (Ok(1), Ok(0)));
    assert_eq!((m.sync_out_range(0x3000, &mut out), &out, m.can_go_back()), (Ok(()), b"abcd", count + 1));
    assert_eq!(m.sync_in_range(65_535, b"ab"), Err(Refusal::Range));
    assert_eq!(m.sync_in_range(0, &[0; 16_385]), Err(Refusal::Length));
    assert_eq!(m.sync_out_range(65_535, &mut out), Err(Refusal::Range));
}

/// The lines that a run left in a file, without its head; the folder's name is left out.
fn lines_of(path: &std::path::Path) -> Vec<String> {
    let text = std::fs::read_to_string(path).unwrap();
    let mut lines = text.lines().map(|line| line.replace("tests/", ""));
    assert_eq!(lines.next().unwrap(), "# em_debug --memory 65536 --budget 1048576 --mac 525400123456");
    lines.collect()
}

#[test]
fn keeps_a_run() {
    let path = std::env::temp_dir().join(format!("bunjelav-{}-run.em", std::process::id()));
    let mut m = made();
    assert!(!m.recording().unwrap());
    m.record_to(&path).unwrap();
    assert_eq!(m.record_to(&path), Err(Refusal::Recorded));
    let line = line!();
    m.set_link(true).unwrap();
    m.write(IMS, 4).unwrap();
    assert_eq!(m.read(IMS), Ok(4));
    assert_eq!(m.write(4, 1), Err(Refusal::NoRegister));
    m.poke(0x3000, b"abc").unwrap();
    assert_eq!((m.sync_in_range(0x3000, b"abd"), m.run_rx(9), m.run_tx(9), m.back(2)), (Ok(1), Ok(0), Ok(0), 2));
    let told = ["link up =ok", "w D0 4 =ok", "r D0 =00000004", "w 4 1 =refused NoRegister",
        "poke 3000 616263 =ok"];
    let mut wanted: Vec<_> = (line + 1..).zip(told).map(|(n, told)| format!("{told} @calls.rs:{n}")).collect();
    for told in ["poke 3002 64 =ok", "rx =idle", "tx =idle", "back 2 =back 2"] {
        wanted.push(format!("{told} @calls.rs:{}", line + 6));
    }
    assert_eq!(lines_of(&path), wanted);
    // through memory that is lent, and a method of the caller's that hands its own caller's place on
    let mut ram = vec![0; 65_536];
    m.over(&mut ram[..]).poke(0, b"x").unwrap();
    wanted.push(format!("poke 0 78 =ok @calls.rs:{}", line!() - 1));
    #[track_caller]
    fn written(m: &mut Machine) {
        m.write(IMS, 8).unwrap();
    }
    written(&mut m);
    wanted.push(format!("w D0 8 =ok @calls.rs:{}", line!() - 1));
    // turned off, a tag stands there
    m.tell_places(false);
    m.write(IMS, 1).unwrap();
    m.tag(0x1234);
    m.write(IMS, 1).unwrap();
    m.tell_places(true);
    wanted.extend(["w D0 1 =ok", "w D0 1 =ok @0x1234"].map(String::from));
    assert_eq!(lines_of(&path), wanted);
    assert!(m.recording().unwrap());
    drop(m);
    assert_eq!(lines_of(&path), wanted);
    std::fs::remove_file(&path).unwrap();
}

#[test]
fn saves_a_run_that_was_not_kept() {
    let path = std::env::temp_dir().join(format!("bunjelav-{}-saved.em", std::process::id()));
    let mut m = made();
    m.tag(0x1234);
    m.write(IMS, 4).unwrap();
    m.arrive(&[0xFF; 14]).unwrap();
    m.save(&path).unwrap();
    assert_eq!(lines_of(&path), ["w D0 4 =ok @0x1234", "arrive FFFFFFFFFFFF0000000000000000 =dropped down @0x1234"]);
    assert_eq!(m.save("/nowhere/saved.em"), Err(Refusal::File));
    assert_eq!(m.back(1), 1);
    assert_eq!(m.save(&path), Err(Refusal::Begun));
    std::fs::remove_file(&path).unwrap();
}

#[test]
fn keeps_a_run_by_a_mapping() {
    let path = std::env::temp_dir().join(format!("bunjelav-{}-mapped.em", std::process::id()));
    let mut m = made();
    m.record_mapped(&path).unwrap();
    assert_eq!(made().record_mapped(&path), Err(Refusal::File));
    assert_eq!(std::io::Error::last_os_error().kind(), std::io::ErrorKind::WouldBlock);
    let line = line!() + 1;
    m.write(IMS, 4).unwrap();
    let wanted = format!("w D0 4 =ok @calls.rs:{line}");
    // ahead of the lines the file is blank
    let lines = lines_of(&path);
    assert_eq!((lines.len(), &lines[0], lines[1].trim()), (2, &wanted, ""));
    assert!(m.recording().unwrap());
    drop(m);
    assert_eq!(lines_of(&path), [wanted]);
    std::fs::remove_file(&path).unwrap();
}

#[test]
fn tells_where_a_run_is_not_kept() {
    let mut m = made();
    assert_eq!(m.record_to("/nowhere/at/all"), Err(Refusal::File));
    assert_eq!(m.record_to("a\0b"), Err(Refusal::File));
    assert_eq!(m.record_to("/dev/full"), Err(Refusal::File));
    assert_eq!(std::io::Error::last_os_error().kind(), std::io::ErrorKind::StorageFull);
    // a pipe that nobody reads any more
    let path = std::env::temp_dir().join(format!("bunjelav-{}-pipe", std::process::id()));
    assert!(std::process::Command::new("mkfifo").arg(&path).status().unwrap().success());
    let reader = std::thread::spawn({
        let path = path.clone();
        move || std::fs::File::open(path).unwrap()
    });
    m.record_to(&path).unwrap();
    drop(reader.join().unwrap());
    m.write(IMS, 4).unwrap();
    assert_eq!(m.read(IMS), Ok(4));
    assert_eq!(m.recording().unwrap_err().kind(), std::io::ErrorKind::BrokenPipe);
    assert!(!m.recording().unwrap());
    m.write(IMS, 8).unwrap();
    assert_eq!(m.record_to(&path), Err(Refusal::Begun));
    std::fs::remove_file(&path).unwrap();
}

/// A machine that sent two frames.
fn sent() -> Machine {
    let mut m = made();
    m.set_link(true).unwrap();
    m.poke(BUFFER, &frame()).unwrap();
    for i in 0..2 {
        m.poke(0x2000 + 16 * i, &descriptor(60, 1)).unwrap();
    }
    for (offset, value) in [(0x3800, 0x2000), (0x3808, 128), (0x0400, 2), (0x3818, 2)] {
        m.write(offset, value).unwrap();
    }
    assert_eq!(m.run_tx(9), Ok(2));
    m
}

#[test]
fn writes_captures_and_reads_them() {
    let path = std::env::temp_dir().join(format!("bunjelav-calls-{}.pcap", std::process::id()));
    let m = sent();
    m.write_pcap(&path).unwrap();
    let captured = |nanoseconds| CapturedFrame { octets: frame().to_vec(), original: 60, nanoseconds: Some(nanoseconds) };
    let mut frames = Capture::open(&path).unwrap();
    assert!(frames.by_ref().eq([Ok(captured(1_000)), Ok(captured(2_000))]));
    assert_eq!((frames.next(), frames.fault()), (None, None));
    m.write_pcap_at(&path, &[7, u64::MAX]).unwrap();
    assert!(Capture::open(&path).unwrap().eq([Ok(captured(7)), Ok(captured(4_294_967_295_999_999_999))]));
    // one by one, and where there is no room
    let octets = std::fs::read(&path).unwrap();
    let mut capture = Capture::of(&octets).unwrap();
    let mut out = [0; 60];
    assert_eq!(capture.next_into(&mut out[..59]), Err(Refusal::Room));
    assert_eq!(capture.next_into(&mut out), Ok(Some(Captured { length: 60, original: 60, nanoseconds: Some(7) })));
    assert_eq!(out, frame());
    assert!(capture.next_into(&mut out).unwrap().is_some());
    assert_eq!((capture.next_into(&mut out), capture.next_into(&mut out)), (Ok(None), Ok(None)));
    // into a machine
    let mut to = receiving();
    for frame in Capture::of(&octets).unwrap() {
        assert_eq!(to.arrive(&frame.unwrap().arriving()).unwrap().kind, Kind::Stored);
    }
    // a frame that was not padded, and one that is long
    let mut short = octets[..24].to_vec();
    short.extend([0; 8]);
    short.extend([14, 0, 0, 0, 14, 0, 0, 0]);
    short.extend([9; 14]);
    short[16..20].fill(0);
    short.extend([0; 8]);
    short.extend(4_000_u32.to_le_bytes());
    short.extend(5_000_u32.to_le_bytes());
    short.extend([8; 4_000]);
    let frames: Vec<CapturedFrame> = Capture::of(&short).unwrap().map(|it| it.unwrap()).collect();
    assert_eq!((frames[0].octets.len(), frames[0].arriving().len(), frames[0].arriving()[14]), (14, 60, 0));
    assert_eq!((frames[1].octets.len(), frames[1].original, frames[1].arriving().len()), (4_000, 5_000, 4_000));
    std::fs::remove_file(&path).unwrap();
}

#[test]
fn tells_what_is_wrong_with_captures() {
    let path = std::env::temp_dir().join(format!("bunjelav-faults-{}.pcap", std::process::id()));
    let m = sent();
    m.write_pcap(&path).unwrap();
    let octets = std::fs::read(&path).unwrap();
    let mut capture = Capture::of(&octets[..octets.len() - 1]).unwrap();
    assert_eq!(capture.fault(), Some(24 + 76));
    assert!(capture.next().unwrap().is_ok());
    let mut out = [0; 60];
    assert_eq!(capture.next_into(&mut out), Err(Refusal::CaptureCut));
    assert_eq!((capture.next(), capture.next()), (Some(Err(Refusal::CaptureCut)), None));
    assert_eq!(Capture::of(b"none").unwrap().next(), Some(Err(Refusal::CaptureMagic)));
    std::fs::remove_file(&path).unwrap();
    assert_eq!(Capture::open(&path).err(), Some(Refusal::File));
    assert_eq!(std::io::Error::last_os_error().kind(), std::io::ErrorKind::NotFound);
    assert_eq!(Capture::open("\0").err(), Some(Refusal::File));
    assert_eq!(m.write_pcap(path.join("none")), Err(Refusal::File));
    assert_eq!(std::io::Error::last_os_error().kind(), std::io::ErrorKind::NotFound);
}

#[test]
#[should_panic(expected = "each frame that was sent has a time")]
fn wants_a_time_for_each_frame() {
    let _ = sent().write_pcap_at("none.pcap", &[1]);
}

#[test]
fn tells_why() {
    let mut m = made();
    let idle = m.tx_step().unwrap();
    let why = m.why(Asked::TxStep, Ok(idle.kind)).unwrap();
    assert_eq!((why.rule, why.text()), (Rule::TxDisabled, "TCTL.EN is clear"));
    for (offset, value) in [(0x2808, 128), (RDT, 16), (0x0100, 2)] {
        m.write(offset, value).unwrap();
    }
    let why = m.why(Asked::RxStep, Ok(Kind::RxIdle)).unwrap();
    assert_eq!((why.rule, why.index, why.count), (Rule::RxTailPast, 16, 8));
    assert_eq!(why.to_string(), "RDT 16 is past the ring of 8");
    let dropped = m.arrive(&frame()).unwrap().kind;
    assert_eq!(m.why(Asked::Arrive(&frame()), Ok(dropped)).unwrap().rule, Rule::FrameDown);
    assert_eq!(m.why(Asked::Read(STATUS), Ok(Kind::Read)), None);
    let refusal = m.poke(65_530, &[7; 16]).unwrap_err();
    let why = m.why(Asked::Poke(65_530, &[7; 16]), Err(refusal)).unwrap();
    assert_eq!((why.address, why.octets, why.memory), (65_530, 16, 65_536));
    assert_eq!(why.text(), "16 octets at 00FFFA, memory ends at 010000");
    let refusal = m.write(4, 1).unwrap_err();
    assert_eq!(m.why(Asked::Write(4, 1), Err(refusal)).unwrap().rule, Rule::NoRegister);
}

#[test]
fn warns() {
    let mut m = made();
    m.write(0x2808, 128).unwrap();
    assert_eq!(m.warnings().unwrap().count(), 0);
    m.write(RDT, 8).unwrap();
    let all: Vec<_> = m.warnings().unwrap().collect();
    assert_eq!((all.len(), all[0].rule, all[0].offset), (1, Warned::TailPastRing, RDT));
    assert_eq!((all[0].index, all[0].count), (8, 8));
    assert_eq!(all[0].text(), "warning tail-past-ring: RDT 8 is past the ring of 8, write an index below that");
}

#[test]
fn tells_of_entries_effects_and_the_fifo() {
    let mut m = receiving();
    m.poke(0x1000, &0x1008u64.to_le_bytes()).unwrap();
    let entry = m.entry(Ring::Rx, 0).unwrap();
    assert_eq!((entry.address, entry.buffer, entry.trouble), (0x1000, 0x1008, Some(Trouble::OverRing)));
    assert!(entry.is_adapters && entry.is_head && !entry.is_tail);
    assert!(entry.text().ends_with("  its buffer lies over the ring"));
    assert_eq!(m.entry(Ring::Rx, 8).err(), Some(Refusal::NoDescriptor));
    assert!(m.ring_text(Ring::Rx).unwrap().starts_with("rx ring at 001000  8 descriptors"));
    assert_eq!(m.effect(0).unwrap(), "  001000  0040 -> 0810\n");
    let all = m.differences(0).unwrap();
    assert_eq!((all.len(), all[0].watch), (1, Watch::Octets(0x1000, 2)));
    assert_eq!((&all[0].before[..3], &all[0].after[..3]), (&[0, 0x40, 0][..], &[8, 0x10, 0][..]));
    let all = m.differences(1).unwrap();
    assert_eq!((all[0].watch, all[0].value, all[0].now), (Watch::Register(0x0100), 0, 0x8002));
    assert_eq!(m.effect(m.can_go_back()).err(), Some(Refusal::NoEvent));
    assert_eq!(m.differences(m.can_go_back()).err(), Some(Refusal::NoEvent));
    assert_eq!(m.fifo_text().unwrap(), "no frame waits\n");
    m.arrive(&frame()).unwrap();
    let mut room = [7; 64];
    assert_eq!((m.fifo().frames, m.fifo().octets, m.fifo().gathered), (1, 60, 0));
    assert_eq!(m.waiting_frame(&mut room[..59]), Err(Refusal::Room));
    assert_eq!(m.waiting_frame(&mut room), Ok(60));
    assert_eq!((&room[..60], &room[60..]), (&frame()[..], &[7; 4][..]));
    assert_eq!(m.gathered(&mut room), Ok(0));
}

#[test]
fn names_bits_and_fields() {
    let all: Vec<_> = bunjelav::fields_of(0x0100).collect();
    assert_eq!((all.len(), all[0].name(), all[0].mask), (17, "EN", 2));
    assert_eq!((all[9].name(), all[9].lowest, all[9].of(0x20000)), ("BSIZE", 0x10000, 2));
    assert_eq!((bunjelav::fields_of(RDT).count(), bunjelav::fields_of(4).count()), (0, 0));
    assert_eq!(bunjelav::words_of(0x0100, 0x8002).unwrap(), "RCTL 00008002 EN BAM BSIZE=2048");
    assert_eq!(bunjelav::words_of(4, 0), Err(Refusal::NoRegister));
}
