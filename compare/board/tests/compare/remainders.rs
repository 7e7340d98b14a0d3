//! Headers with a wrong CRC. What bytes 4 to 187 leave in the register goes with
//! refusal 7 and beside "broken", and 0 with every other answer.

use crate::draw::bonded_calls::{refused, BondedCall};
use crate::draw::faults::{break_rules, of_a_reader, EARLY, LATE, OF_A_HEADER};
use crate::draw::groups::{group, header as header_of, Group};
use crate::draw::packets::{header, stream};
use crate::draw::reserved::reserved_bits;
use crate::draw::{breakable, KINDS};
use crate::events::{BROKEN, JUMP, LONG, NOTHING, OPENED, READY, SHORT, STORED};
use crate::every_byte::{receiver, PID};
use crate::headers::read;
use board::coding::{kind_byte, KIND, SETTING_BYTES};
use board::judge::Judge;
use board::lent::Lent;
use board::random::Random;
use reference::{crc32, Kind, FRAME_BYTES, PACKET_BYTES};

/// The polynomial without its x^32, and what the last bit of a header leaves, if
/// it alone is another.
const POLYNOMIAL: u32 = 0x04C1_1DB7;
/// What an inverted CRC leaves behind anything: it is published as the residue.
const RESIDUE: u32 = 0xC704_DD7B;

/// How often something is drawn.
const CRCS: usize = 2_000;
const TIMES: usize = 40;
const GROUPS: usize = 12;

pub fn round(judge: &mut Judge, random: &mut Random) {
    for kind in KINDS {
        let tried = Tried::new(random, kind);
        single_bits(judge, random, &tried);
        other_crcs(judge, random, &tried);
        two_faults(judge, random, &tried);
        refused_calls(judge, &tried);
        other_events(judge, random, &tried);
    }
    let good = BondedCall::three_frames(random);
    wrong_headers(judge, random, &good);
    other_faults(judge, random, &good);
    frames_missing_or_left_over(judge, random, &good);
    for _ in 0..GROUPS {
        any_group(judge, random);
    }
}

/// The register one bit 0 later.
fn shifted(register: u32) -> u32 {
    (register << 1) ^ ((register >> 31) * POLYNOMIAL)
}

/// What bytes 4 to 187 leave, bit by bit.
fn left_by(packet: &[u8]) -> u32 {
    let bytes = packet[4..PACKET_BYTES].iter();
    bytes.fold(u32::MAX, |register, &byte| {
        let met = register ^ u32::from(byte) << 24;
        (0..8).fold(met, |register, _| shifted(register))
    })
}

/// Makes a right CRC wrong, and a wrong one another.
fn change_crc(random: &mut Random, header: &mut [u8]) {
    header[184] ^= 1 + random.byte_below(255);
    random.fill(&mut header[185..PACKET_BYTES]);
}

/// The answer to a wrong CRC and another fault, which may be looked for first.
fn with_seven(other: u8, packet: &[u8]) -> (u8, u32) {
    match other {
        1..=6 | 17 => (other, 0),
        _ => (7, left_by(packet)),
    }
}

/// What a packet is tried on: the reader of a kind, and receivers behind so many
/// packets of a run.
struct Tried {
    kind: Kind,
    good: Vec<u8>,
    receivers: Vec<Behind>,
}

struct Behind {
    packets: usize,
    state: Vec<u8>,
    store: Vec<u8>,
}

impl Tried {
    /// Waiting, with an open frame that is empty, nearly full and full, and with
    /// a frame ready. The good header is the second of the run.
    fn new(random: &mut Random, kind: Kind) -> Tried {
        let slots = kind.size().slots;
        let behind = |packets| {
            let (state, store) = receiver(random, kind, packets);
            Behind {
                packets,
                state,
                store,
            }
        };
        let receivers = [0, 1, slots, slots + 1, slots + 2].map(behind).into();
        let mut setting = breakable(random, kind);
        setting.continuity_counter = 1;
        let good = header(PID, kind, &setting);
        Tried {
            kind,
            good,
            receivers,
        }
    }

    /// The packet is read and received with this answer of the reader.
    fn expect(&self, judge: &mut Judge, random: &mut Random, packet: &[u8], answer: (u8, u32)) {
        let mut packet = Lent::new(packet);
        let read = read(judge, random, &mut packet, PID, kind_byte(self.kind));
        assert_eq!(read, answer);
        for behind in &self.receivers {
            let event = self.event(behind, answer.0);
            let remainder = if event == BROKEN { answer.1 } else { 0 };
            assert_eq!(behind.receive(judge, &mut packet), (0, event, remainder));
        }
    }

    /// What a refused packet does. With another PID it is no header.
    fn event(&self, behind: &Behind, refusal: u8) -> u8 {
        match (behind.packets, refusal) {
            (0, _) => NOTHING,
            (packets, 4) if packets == self.kind.size().slots + 1 => LONG,
            (_, 4) => STORED,
            _ => BROKEN,
        }
    }
}

impl Behind {
    fn receive(&self, judge: &mut Judge, packet: &mut Lent) -> (u8, u8, u32) {
        let (mut state, mut store) = (Lent::new(&self.state), Lent::new(&self.store));
        judge.receiver_receive(&mut state, packet, &mut store)
    }
}

/// One bit is turned, from the last to the first. Each leaves what the one behind
/// it does, shifted once. The sync's bits are looked for before the CRC.
fn single_bits(judge: &mut Judge, random: &mut Random, tried: &Tried) {
    let mut remainder = POLYNOMIAL;
    for byte in (4..PACKET_BYTES).rev() {
        for bit in 0..8 {
            let mut packet = tried.good.clone();
            packet[byte] ^= 1 << bit;
            let is_sync = byte == 5 || byte == 4 && bit < 5;
            let answer = if is_sync { (6, 0) } else { (7, remainder) };
            tried.expect(judge, random, &packet, answer);
            remainder = shifted(remainder);
        }
    }
}

/// Another CRC stands in the place of the right one.
fn other_crcs(judge: &mut Judge, random: &mut Random, tried: &Tried) {
    let mut packet = tried.good.clone();
    let right = crc32(&packet[4..184]);
    let from_byte_0 = crc32(&packet[..184]);
    let mut crcs = vec![0, u32::MAX, right.swap_bytes(), from_byte_0];
    crcs.extend((0..CRCS).map(|_| random.draw() as u32));
    for crc in crcs {
        packet[184..].copy_from_slice(&crc.to_be_bytes());
        tried.expect(judge, random, &packet, (7, left_by(&packet)));
    }
    packet[184..].copy_from_slice(&(!right).to_be_bytes());
    tried.expect(judge, random, &packet, (7, RESIDUE));
}

/// A wrong CRC and a fault of the header besides, each reserved bit among them.
fn two_faults(judge: &mut Judge, random: &mut Random, tried: &Tried) {
    let kind = tried.kind;
    let others = of_a_reader(kind)[3..].iter().filter(|&&other| other != 7);
    for &other in others {
        let bits = reserved_bits(kind);
        let times = if other == 20 { bits.len() } else { TIMES };
        for bit in bits.into_iter().cycle().take(times) {
            let mut packet = tried.good.clone();
            break_rules(&mut packet, kind, &[other], bit);
            change_crc(random, &mut packet);
            tried.expect(judge, random, &packet, with_seven(other, &packet));
        }
    }
}

/// A call that is refused itself does not look at the packet.
fn refused_calls(judge: &mut Judge, tried: &Tried) {
    let mut wrong = tried.good.clone();
    wrong[187] ^= 1;
    let kind = kind_byte(tried.kind);
    let mut setting = Lent::new(&[0xA5; SETTING_BYTES]);
    let mut cut = Lent::new(&wrong[..PACKET_BYTES - 1]);
    let mut packet = Lent::new(&wrong);
    let read = [
        judge.header_read(&mut cut, 15, 3, &mut setting),
        judge.header_read(
            &mut packet,
            PID,
            kind,
            &mut Lent::new(&[0xA5; SETTING_BYTES - 1]),
        ),
        judge.header_read(&mut packet, 15, 3, &mut setting),
        judge.header_read(&mut packet, PID, 3, &mut setting),
        judge.header_read(&mut packet, PID, kind, &mut setting),
    ];
    assert_eq!(read, [(1, 0), (1, 0), (2, 0), (17, 0), (7, POLYNOMIAL)]);
    for behind in &tried.receivers {
        assert_eq!(behind.receive(judge, &mut cut), (1, 0, 0));
        // The two bytes of the PID, and behind the kind the stage.
        for (at, refusal) in [(0, 2), (KIND + 1, 17)] {
            let mut state = Lent::new(&behind.state);
            state.change(|bytes| bytes[at] = 0xFF);
            let mut store = Lent::new(&behind.store);
            let received = judge.receiver_receive(&mut state, &mut packet, &mut store);
            assert_eq!(received, (refusal, 0, 0));
        }
    }
}

/// Beside everything else that a packet does stands 0. The second header of the
/// run comes behind the first frame, or a later one, or an ordinary packet.
fn other_events(judge: &mut Judge, random: &mut Random, tried: &Tried) {
    let mut later = tried.good.clone();
    later[3] ^= 0x0C;
    let ordinary = stream(random, PID, 1);
    let events = [
        (&tried.good, [OPENED, SHORT, SHORT, READY, SHORT]),
        (&later, [OPENED, SHORT, SHORT, JUMP, SHORT]),
        (&ordinary, [NOTHING, STORED, STORED, LONG, STORED]),
    ];
    for (packet, events) in events {
        for (behind, event) in tried.receivers.iter().zip(events) {
            let received = behind.receive(judge, &mut Lent::new(packet));
            assert_eq!(received, (0, event, 0));
        }
    }
}

/// One header has another CRC, or two have: the first one's is shown.
fn wrong_headers(judge: &mut Judge, random: &mut Random, good: &BondedCall) {
    for _ in 0..TIMES {
        for (first, second) in [(0, 0), (1, 1), (2, 2), (0, 1), (0, 2), (1, 2)] {
            let mut call = good.clone();
            change_crc(random, header_of(&mut call.bytes, second));
            change_crc(random, header_of(&mut call.bytes, first));
            let shown = left_by(header_of(&mut call.bytes, first));
            assert_eq!(call.answers(judge), refused(7, shown));
        }
    }
}

/// A header has another CRC, and there is a fault of the call, or one of any
/// header: before it, behind it, or in itself.
fn other_faults(judge: &mut Judge, random: &mut Random, good: &BondedCall) {
    let mut bits = reserved_bits(Kind::Extended).into_iter().cycle();
    let others = [&EARLY[..], &OF_A_HEADER, &LATE].concat();
    for other in others.into_iter().filter(|&other| other != 7) {
        for (wrong, at) in (0..3).flat_map(|wrong| [(wrong, 0), (wrong, 1), (wrong, 2)]) {
            let mut call = good.clone();
            call.spoil(at, &[other], bits.next().expect("they begin again"));
            let header = header_of(&mut call.bytes, wrong);
            change_crc(random, header);
            let is_before = at < wrong && OF_A_HEADER.contains(&other);
            let (number, remainder) = match is_before || EARLY.contains(&other) {
                true => (other, 0),
                false if at == wrong => with_seven(other, header),
                false => (7, left_by(header)),
            };
            let expected = refused(number, remainder);
            assert_eq!(
                call.answers(judge),
                expected,
                "{other} in {at}, 7 in {wrong}"
            );
        }
    }
}

/// That a frame is missing shows behind all headers; one that is left over is
/// read like the others.
fn frames_missing_or_left_over(judge: &mut Judge, random: &mut Random, good: &BondedCall) {
    let mut missing = good.clone();
    missing.bytes.truncate(2 * FRAME_BYTES);
    assert_eq!(missing.answers(judge), refused(14, 0));
    let mut left_over = good.clone();
    left_over.bytes.extend_from_within(2 * FRAME_BYTES..);
    assert_eq!(left_over.answers(judge), refused(14, 0));
    for (mut call, last) in [(missing, 1), (left_over, 3)] {
        let header = header_of(&mut call.bytes, last);
        change_crc(random, header);
        let shown = left_by(header);
        assert_eq!(call.answers(judge), refused(7, shown));
    }
}

/// Any carriers: each header in turn has another CRC, and one behind it as well.
fn any_group(judge: &mut Judge, random: &mut Random) {
    let Group { bytes, asked } = group(random);
    let frames = bytes.len() / FRAME_BYTES;
    for first in 0..frames {
        let mut call = BondedCall {
            bytes: bytes.clone(),
            asked,
            stream: Vec::new(),
            out: Vec::new(),
        };
        let second = random.between(first, frames - 1);
        change_crc(random, header_of(&mut call.bytes, second));
        change_crc(random, header_of(&mut call.bytes, first));
        let shown = left_by(header_of(&mut call.bytes, first));
        assert_eq!(call.answers(judge), refused(7, shown));
    }
}
