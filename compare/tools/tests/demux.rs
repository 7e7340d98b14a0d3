//! What demux writes and says, beside the reference's receiver.

use cases::generator::Generator;
use reference::{read, Kind, PACKET_BYTES};
use tools::composing::{compose, Composed, PAIRS};
use tools::damage::{frame_packets, reserved_bits, Lot, Lots};
use tools::program::{option, Folder, Said};
use tools::receiving::{receive, Choice, Counts, Received};

const PID: u16 = 0x1FF0;
const FRAMES: usize = 400;
const KINDS: [Kind; 2] = [Kind::Plain, Kind::Short];

fn composed(kind: Kind, seed: u32) -> Composed {
    compose(&mut Generator::new(seed), kind, FRAMES, PID)
}

/// Some numbers, the identifiers of all streams, and those of none.
fn choices(kind: Kind) -> Vec<Choice> {
    let last = kind.size().streams as u8;
    let numbers = [1, last / 2, last].map(Choice::Number);
    let pairs = PAIRS.map(|(ts_id, network)| Choice::Pair(ts_id, network));
    let none = [Choice::Pair(2, 2)];
    [&numbers[..], &pairs, &none].concat()
}

fn assert_agrees(said: &Said, received: &Received, choice: Choice) {
    let expected = received.stream(choice);
    assert!(said.out == expected, "stream {choice}");
    let packets = expected.len() / 188;
    let counts = received.counts;
    assert_eq!(said.err, format!("{counts}; packets out {packets}\n"));
}

/// From a file that is named, one that is standard input, and a pipe.
fn check(kind: Kind, bytes: &[u8]) -> Counts {
    let folder = Folder::new();
    folder.write("frames", bytes);
    let received = receive(bytes, PID, kind);
    for choice in choices(kind) {
        let words = format!("{}{PID} {choice}", option(kind));
        let named = folder.run("demux", &format!("{words} frames"));
        assert_agrees(&named, &received, choice);
        assert_agrees(&folder.run_on("demux", &words, "frames"), &received, choice);
        assert_agrees(&folder.pipe("demux", &words, bytes), &received, choice);
    }
    received.counts
}

#[test]
fn all_of_each_stream() {
    for kind in KINDS {
        let Composed { bytes, streams } = composed(kind, 1);
        assert_eq!(check(kind, &bytes).ready, FRAMES);
        let received = receive(&bytes, PID, kind);
        for (stream, (ts_id, network)) in streams.iter().zip(PAIRS) {
            assert!(received.stream(Choice::Pair(ts_id, network)) == *stream);
        }
        let [first, second] = [&received.headers[0], &received.headers[1]];
        assert_eq!(first.version_number, second.version_number);
        assert_ne!(first.relative_ts_number, second.relative_ts_number);
    }
}

#[test]
fn the_last_frame_is_not_vouched_for_without_a_header() {
    for kind in KINDS {
        let Composed { mut bytes, .. } = composed(kind, 2);
        bytes.truncate(bytes.len() - 188);
        assert_eq!(check(kind, &bytes).ready, FRAMES - 1);
    }
}

/// Some packets of all kinds have a lot.
fn check_some(kind: Kind, seed: u32, one_in: u16, lot: Lot) -> Counts {
    let Composed { bytes, .. } = composed(kind, seed);
    let mut lots = Lots::whole(&bytes);
    lots.some(&mut Generator::new(seed + 1), one_in, lot);
    check(kind, &lots.arrive(&bytes))
}

#[test]
fn packets_lost() {
    for kind in KINDS {
        let counts = check_some(kind, 3, 1000, Lot::Lost);
        assert!(counts.short > 0 && counts.ready > FRAMES / 2);
        let counts = check_some(kind, 4, 50, Lot::Lost);
        assert!(counts.short > 0 && counts.long > 0 && counts.ready > FRAMES / 8);
    }
}

#[test]
fn packets_too_many() {
    for kind in KINDS {
        let counts = check_some(kind, 5, 500, Lot::Doubled);
        assert!(counts.long > 0 && counts.ready > FRAMES / 2);
        let counts = check_some(kind, 6, 500, Lot::Followed);
        assert!(counts.long > 0 && counts.ready > FRAMES / 2);
    }
}

#[test]
fn packets_without_their_first_byte() {
    for kind in KINDS {
        let counts = check_some(kind, 7, 500, Lot::Spoiled(0));
        assert!(counts.broken > 0 && counts.ready > FRAMES / 2);
        assert_eq!(counts.first_remainder, None);
    }
}

#[test]
fn headers_spoiled() {
    for kind in KINDS {
        let Composed { bytes, .. } = composed(kind, 8);
        let mut lots = Lots::whole(&bytes);
        lots.spoil_headers(&mut Generator::new(9), kind, 8);
        let counts = check(kind, &lots.arrive(&bytes));
        assert!(counts.broken > 0 && counts.long > 0 && counts.ready > FRAMES / 2);
        assert!(counts.first_remainder.is_some());
    }
}

/// What the last byte of a header leaves with all of its bits turned, in the
/// published table of the CRC the last entry.
const LAST_BYTE: u32 = 0xB1F7_40B4;

/// A run of six frames whose headers have these lots, the first being 0.
fn check_headers(kind: Kind, headers: &[(usize, Lot)]) -> Counts {
    let Composed { bytes, .. } = compose(&mut Generator::new(18), kind, 6, PID);
    let mut lots = Lots::whole(&bytes);
    for &(frame, lot) in headers {
        lots.0[frame * frame_packets(kind)] = lot;
    }
    check(kind, &lots.arrive(&bytes))
}

/// The remainder of the first wrong CRC is said, not that of another cause before
/// it, nor a later one.
#[test]
fn the_first_wrong_crc() {
    for kind in KINDS {
        let n = frame_packets(kind);
        for before in [Lot::Spoiled(0), Lot::Spoiled(5), Lot::Foreign(4, 0x80)] {
            let wrong = [(3, Lot::Spoiled(187)), (5, Lot::Spoiled(100))];
            let counts = check_headers(kind, &[&[(1, before)], &wrong[..]].concat());
            assert_eq!(counts.broken, 3);
            assert_eq!(counts.first_remainder, Some((LAST_BYTE, 3 * n)));
        }
        // The packets of the input are counted, and not those that were sent.
        let wrong = [(1, Lot::Lost), (3, Lot::Spoiled(187))];
        let counts = check_headers(kind, &wrong);
        assert_eq!(counts.first_remainder, Some((LAST_BYTE, 3 * n - 1)));
    }
}

/// While no frame is open a wrong CRC drops none.
#[test]
fn wrong_crcs_that_drop_nothing() {
    for kind in KINDS {
        let counts = check_headers(kind, &[(0, Lot::Spoiled(187))]);
        assert_eq!((counts.broken, counts.first_remainder), (0, None));
        let wrong = [(2, Lot::Spoiled(0)), (3, Lot::Spoiled(187))];
        let counts = check_headers(kind, &wrong);
        assert_eq!((counts.broken, counts.first_remainder), (1, None));
    }
}

/// The digits are eight, though the first be zero: the last bit of a header leaves
/// the polynomial. It comes behind a whole frame, or one that lacks packets.
#[test]
fn a_remainder_with_a_zero_in_front() {
    for kind in KINDS {
        let Composed { mut bytes, .. } = compose(&mut Generator::new(19), kind, 6, PID);
        let frame = kind.size().frame_bytes();
        bytes[3 * frame + 187] ^= 1;
        let (front, behind) = bytes.split_at(2 * frame + PACKET_BYTES);
        for lost in [0, 1, 10, frame_packets(kind) - 1] {
            let arrived = [front, &behind[PACKET_BYTES * lost..]].concat();
            let counts = check(kind, &arrived);
            let number = 3 * frame_packets(kind) - lost;
            assert_eq!(counts.first_remainder, Some((0x04C1_1DB7, number)));
            let said = counts.to_string();
            let end = format!(", broken 1 (first remainder 04c11db7 at packet {number})");
            assert!(said.ends_with(&end), "{said}");
        }
    }
}

/// As spoiled ones: a frame without a good header is dropped, and so is the one
/// before it.
#[test]
fn headers_with_a_reserved_bit_at_zero() {
    for kind in KINDS {
        let Composed { bytes, .. } = composed(kind, 13);
        let mut lots = Lots::whole(&bytes);
        lots.make_headers_foreign(&mut Generator::new(14), kind, 8);
        let counts = check(kind, &lots.arrive(&bytes));
        assert!(counts.broken > 0 && counts.ready > FRAMES / 2);
        assert_eq!((counts.short, counts.jump, counts.long), (0, 0, 0));
        assert_eq!(counts.first_remainder, None);
    }
}

/// Each of them, in the header of one frame of six.
#[test]
fn every_reserved_bit_at_zero() {
    for kind in KINDS {
        let Composed { bytes, .. } = compose(&mut Generator::new(15), kind, 6, PID);
        for (byte, bit) in reserved_bits(kind) {
            let mut lots = Lots::whole(&bytes);
            lots.0[3 * frame_packets(kind)] = Lot::Foreign(byte, bit);
            let counts = check(kind, &lots.arrive(&bytes));
            assert_eq!((counts.ready, counts.broken), (4, 1));
        }
    }
}

/// Of a maker whose every header is so nothing comes out.
#[test]
fn no_header_without_a_reserved_bit_at_zero() {
    let folder = Folder::new();
    for kind in KINDS {
        let Composed { bytes, .. } = composed(kind, 16);
        let mut lots = Lots::whole(&bytes);
        lots.make_headers_foreign(&mut Generator::new(17), kind, 1);
        folder.write("frames", &lots.arrive(&bytes));
        let said = folder.run("demux", &format!("{}{PID} 1 frames", option(kind)));
        assert!(said.out.is_empty());
        assert!(said.err.ends_with("(refusal 20)\n"), "{}", said.err);
    }
}

#[test]
fn all_of_it_at_once() {
    for kind in KINDS {
        let Composed { bytes, .. } = composed(kind, 10);
        let mut lots = Lots::whole(&bytes);
        let mut generator = Generator::new(11);
        lots.some(&mut generator, 300, Lot::Lost);
        lots.some(&mut generator, 300, Lot::Doubled);
        lots.some(&mut generator, 1000, Lot::Spoiled(0));
        lots.spoil_headers(&mut generator, kind, 16);
        lots.make_headers_foreign(&mut generator, kind, 32);
        // A whole frame is lost: the counter jumps.
        let n = frame_packets(kind);
        lots.0[n * 100..n * 101].fill(Lot::Lost);
        lots.0[n * 99..n * 100].fill(Lot::Whole);
        lots.0[n * 101] = Lot::Whole;
        let counts = check(kind, &lots.arrive(&bytes));
        assert!(counts.jump > 0 && counts.short > 0 && counts.long > 0 && counts.broken > 0);
    }
}

/// To a receiver of the other kind no header is a good one.
#[test]
fn frames_of_the_other_kind() {
    let folder = Folder::new();
    for (kind, other) in [(Kind::Plain, Kind::Short), (Kind::Short, Kind::Plain)] {
        let Composed { bytes, .. } = composed(kind, 12);
        let refusal = read(&bytes[..PACKET_BYTES], PID, other).expect_err("another kind");
        folder.write("frames", &bytes);
        let said = folder.run("demux", &format!("{}{PID} 1 frames", option(other)));
        assert!(said.out.is_empty());
        let end = format!("(refusal {})\n", refusal.number);
        assert!(said.err.ends_with(&end), "{}", said.err);
    }
}
