//! Every reserved bit of a header at zero, with a right CRC: by itself, and with
//! each other fault. Of two faults the one that is looked for first answers.

use crate::draw::bonded_calls::BondedCall;
use crate::draw::faults::{break_rules, of_a_reader, Bit, EARLY, LATE, OF_A_HEADER};
use crate::draw::packets::{frames, header};
use crate::draw::reserved::reserved_bits;
use crate::draw::{breakable, pid, KINDS};
use crate::events::{BROKEN, LONG, NOTHING, OPENED, READY, STORED};
use crate::every_byte::{receiver, PID};
use crate::headers::read;
use board::coding::{kind_byte, RECEIVER_BYTES};
use board::judge::Judge;
use board::lent::Lent;
use board::random::Random;
use reference::{Kind, PACKET_BYTES};

/// For faults without a 20.
const ANY_BIT: Bit = (4, 0x80);

pub fn round(judge: &mut Judge, random: &mut Random) {
    for kind in KINDS {
        readers(judge, random, kind);
        runs(judge, random, kind);
        receivers(judge, random, kind);
    }
    let group = BondedCall::three_frames(random);
    groups(judge, &group);
    two_headers(judge, &group);
}

/// The answer to a 20 together with another fault, or alone.
fn with_twenty(other: u8) -> u8 {
    match other {
        1..=7 | 17 => other,
        _ => 20,
    }
}

/// A good header, and how it is read.
struct Reading {
    header: Vec<u8>,
    pid: u16,
    kind: Kind,
}

impl Reading {
    fn answer(&self, judge: &mut Judge, random: &mut Random, refusals: &[u8], bit: Bit) -> u8 {
        let mut packet = self.header.clone();
        break_rules(&mut packet, self.kind, refusals, bit);
        let is_broken = |refusal| refusals.contains(&refusal);
        packet.truncate(PACKET_BYTES - usize::from(is_broken(1)));
        let pid = if is_broken(2) { 15 } else { self.pid };
        let kind = if is_broken(17) {
            3
        } else {
            kind_byte(self.kind)
        };
        read(judge, random, &mut Lent::new(&packet), pid, kind).0
    }
}

fn readers(judge: &mut Judge, random: &mut Random, kind: Kind) {
    let pid = pid(random);
    let header = header(pid, kind, &breakable(random, kind));
    let reading = Reading { header, pid, kind };
    assert_eq!(reading.answer(judge, random, &[], ANY_BIT), 0);
    for &other in of_a_reader(kind) {
        assert_eq!(reading.answer(judge, random, &[other], ANY_BIT), other);
        for bit in reserved_bits(kind) {
            let answer = reading.answer(judge, random, &[20, other], bit);
            assert_eq!(answer, with_twenty(other), "{bit:?} and {other}");
        }
    }
}

/// A run of four frames, whose third header has a bit at zero.
fn runs(judge: &mut Judge, random: &mut Random, kind: Kind) {
    let pid = pid(random);
    let good = frames(random, pid, kind, 4).concat();
    let third = 2 * kind.size().frame_bytes();
    for bit in reserved_bits(kind) {
        let mut state = Lent::new(&random.bytes(RECEIVER_BYTES));
        assert_eq!(judge.receiver_start(&mut state, pid, kind_byte(kind)), 0);
        let mut run = good.clone();
        break_rules(&mut run[third..][..PACKET_BYTES], kind, &[20], bit);
        receive(judge, random, &mut state, &run, kind);
    }
}

/// The second frame is dropped, the third has no header, and the fourth opens.
fn receive(judge: &mut Judge, random: &mut Random, state: &mut Lent, run: &[u8], kind: Kind) {
    let mut store = Lent::new(&random.bytes(kind.size().store_bytes()));
    let packets = kind.size().slots + 1;
    for (number, packet) in run.chunks(PACKET_BYTES).enumerate() {
        let mut packet = Lent::new(packet);
        let received = judge.receiver_receive(state, &mut packet, &mut store);
        let event = match (number / packets, number % packets) {
            (0 | 3, 0) => OPENED,
            (1, 0) => READY,
            (2, 0) => BROKEN,
            (2, _) => NOTHING,
            _ => STORED,
        };
        assert_eq!(received, (0, event, 0), "packet {number}");
        if event == BROKEN {
            let mut out = Lent::new(&random.bytes(PACKET_BYTES));
            let (refusal, _) = judge.receiver_hand_out(state, &mut store, &mut out, 1);
            assert_eq!(refusal, 16, "no frame is ready");
        }
    }
}

/// Behind a whole frame comes the next header, with a bit at zero and another
/// fault. It is broken, but with another PID it is no header and one too many.
fn receivers(judge: &mut Judge, random: &mut Random, kind: Kind) {
    let (state, store) = receiver(random, kind, kind.size().slots + 1);
    let mut setting = breakable(random, kind);
    setting.continuity_counter = 1;
    let good = header(PID, kind, &setting);
    let mut event = |packet: &[u8]| {
        let (mut state, mut store) = (Lent::new(&state), Lent::new(&store));
        let received = judge.receiver_receive(&mut state, &mut Lent::new(packet), &mut store);
        (received.0, received.1)
    };
    assert_eq!(event(&good), (0, READY));
    for &other in &of_a_reader(kind)[3..] {
        let expected = if other == 4 { LONG } else { BROKEN };
        for bit in reserved_bits(kind) {
            let mut packet = good.clone();
            break_rules(&mut packet, kind, &[20, other], bit);
            assert_eq!(event(&packet), (0, expected), "{bit:?} and {other}");
        }
    }
}

/// A bit of any of the three headers, by itself and with a fault of the same
/// header or of the call.
fn groups(judge: &mut Judge, good: &BondedCall) {
    assert_eq!(good.refusals(judge), [0; 3]);
    for other in [&EARLY[..], &OF_A_HEADER, &LATE].concat() {
        let mut alone = good.clone();
        alone.spoil(2, &[other], ANY_BIT);
        assert_eq!(alone.refusals(judge), by_itself(other));
        for (place, bit) in (0..).zip(reserved_bits(Kind::Extended)) {
            let mut group = good.clone();
            group.spoil(place % 3, &[20, other], bit);
            let expected = [with_twenty(other); 3];
            assert_eq!(group.refusals(judge), expected, "{bit:?} and {other}");
        }
    }
}

/// Not every call looks for what is behind the headers.
fn by_itself(refusal: u8) -> [u8; 3] {
    match refusal {
        12 => [0, 12, 0],
        13 | 15 => [0, refusal, refusal],
        _ => [refusal; 3],
    }
}

/// What one header shows comes before the next one's.
fn two_headers(judge: &mut Judge, good: &BondedCall) {
    for (bit, other) in reserved_bits(Kind::Extended)
        .into_iter()
        .zip(OF_A_HEADER.into_iter().cycle())
    {
        for (frames, expected) in [([0, 1], 20), ([2, 1], other)] {
            let mut group = good.clone();
            group.spoil(frames[0], &[20], bit);
            group.spoil(frames[1], &[other], bit);
            assert_eq!(group.refusals(judge), [expected; 3], "{bit:?} and {other}");
        }
    }
}
