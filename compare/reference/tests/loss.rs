//! Runs of our own with packets lost and headers spoiled: what comes out is
//! what arrived whole with the next header directly behind, and nothing else.

mod common;

use common::frames::{drawn_frame, run, Lent};
use common::{clear_reserved, reserved_bits, Random, KINDS, PID};
use reference::{read, Event, Kind};

/// The most headers in a row that may be lost or spoiled; behind one more, a
/// counter would be that of a frame sixteen before.
const MOST_IN_A_ROW: u64 = 15;

struct Sent {
    frame: Vec<u8>,
    header_arrives: bool,
    /// All packets behind the header arrive as they were sent.
    is_whole: bool,
    packets: Vec<Vec<u8>>,
}

/// How a frame fares. One with all of its packets lost leaves no trace, and
/// half of one behind another half may look like a whole one.
fn send(random: &mut Random, kind: Kind, frame: Vec<u8>, header_may_go: bool) -> Sent {
    let mut packets: Vec<Vec<u8>> = frame.chunks_exact(188).map(<[u8]>::to_vec).collect();
    let header_goes = header_may_go && random.below(3) == 0;
    let (half, end) = (packets.len().div_ceil(2), packets.len());
    let (from, to) = match random.below(6) {
        0 => (1, end),
        1 => (1, half),
        2 => (half, end),
        3 => {
            let from = 1 + random.below(end as u64 - 1) as usize;
            (from, from + 1)
        }
        _ => (1, 1),
    };
    packets.drain(from..to);
    if header_goes {
        spoil_or_lose(random, kind, &mut packets);
    }
    Sent {
        frame,
        header_arrives: !header_goes,
        is_whole: from == to,
        packets,
    }
}

fn spoil_or_lose(random: &mut Random, kind: Kind, packets: &mut Vec<Vec<u8>>) {
    match random.below(4) {
        0 => drop(packets.remove(0)),
        // As an ordinary packet it would be stored, were there room.
        1 => packets[0][1..3].fill(0),
        // Only a reserved bit is another, and the CRC is right.
        2 => {
            let bits = reserved_bits(kind);
            let bit = bits[random.below(bits.len() as u64) as usize];
            let header = packets[0].as_mut_slice().try_into();
            clear_reserved(header.expect("a packet"), bit);
        }
        _ => {
            let byte = 4 + random.below(184) as usize;
            packets[0][byte] ^= 0x10;
        }
    }
}

fn send_run(random: &mut Random, kind: Kind, frames: usize) -> Vec<Sent> {
    let mut composer = run(kind);
    let mut gone = 0;
    let mut sent = Vec::new();
    for _ in 0..frames {
        let frame = drawn_frame(random, &mut composer);
        let next = send(random, kind, frame, gone < MOST_IN_A_ROW);
        gone = if next.header_arrives { 0 } else { gone + 1 };
        sent.push(next);
    }
    sent
}

/// Under each number, the packets that are to come out.
fn expected(sent: &[Sent], kind: Kind) -> Vec<Vec<u8>> {
    let mut out = vec![Vec::new(); 16];
    for two in sent.windows(2) {
        if two[0].header_arrives && two[0].is_whole && two[1].header_arrives {
            let header = read(&two[0].frame[..188], PID, kind).unwrap();
            let slots = two[0].frame[188..].chunks_exact(188);
            for (packet, number) in slots.zip(header.relative_ts_number) {
                out[usize::from(number)].extend(packet);
            }
        }
    }
    out
}

fn received(sent: &[Sent], kind: Kind) -> Vec<Vec<u8>> {
    let mut lent = Lent::new(kind);
    let mut out = vec![Vec::new(); 16];
    for packet in sent.iter().flat_map(|sent| &sent.packets) {
        if lent.receive(packet) == Event::Ready {
            for r in 1..=kind.size().streams as u8 {
                out[usize::from(r)].extend(lent.handed_out(r));
            }
        }
    }
    out
}

#[test]
fn whole_frames_come_out_and_nothing_else() {
    let mut random = Random(31);
    for round in 0..90 {
        let kind = KINDS[round % KINDS.len()];
        let sent = send_run(&mut random, kind, 60);
        let (expected, received) = (expected(&sent, kind), received(&sent, kind));
        assert!(expected[1..].iter().any(|packets| !packets.is_empty()));
        assert_eq!(expected[1..], received[1..]);
    }
}

/// Frames 0 to 20, of which some are lost whole from frame 2 on: to a receiver
/// frame 1 stands directly before the header behind them.
fn with_headers_lost(kind: Kind, lost: usize) -> Vec<Sent> {
    let mut random = Random(33);
    let mut composer = run(kind);
    let mut sent = Vec::new();
    for number in 0..21 {
        let frame = drawn_frame(&mut random, &mut composer);
        let arrives = number < 2 || number >= 2 + lost;
        let packets = frame.chunks_exact(188).map(<[u8]>::to_vec);
        sent.push(Sent {
            packets: packets.filter(|_| arrives).collect(),
            header_arrives: arrives,
            is_whole: arrives,
            frame,
        });
    }
    sent
}

#[test]
fn fifteen_headers_in_a_row() {
    for kind in KINDS {
        for lost in 0..=15 {
            let sent = with_headers_lost(kind, lost);
            let (expected, received) = (expected(&sent, kind), received(&sent, kind));
            assert_eq!(expected[1..], received[1..]);
        }
    }
}

/// Why it is fifteen: behind sixteen the counter steps by 1 again.
#[test]
fn sixteen_headers_in_a_row() {
    for kind in KINDS {
        let sent = with_headers_lost(kind, 16);
        let (expected, received) = (expected(&sent, kind), received(&sent, kind));
        assert_ne!(expected[1..], received[1..]);
    }
}
