//! What the receiver does with runs of our own, where it refuses nothing.

mod common;

use common::faults::{order, refused, spoilt};
use common::frames::{counted_header, drawn_frame, ordinary, run, Lent};
use common::{clear_reserved, reserved_bits, Random, KINDS, PID};
use reference::{read, Event, Kind, Standing};

/// A frame's packets of a stream, by its own header.
fn placed(frame: &[u8], kind: Kind, relative_ts_number: u8) -> Vec<u8> {
    let header = read(&frame[..188], PID, kind).unwrap();
    let slots = frame[188..].chunks_exact(188);
    slots
        .zip(header.relative_ts_number)
        .filter(|&(_, number)| number == relative_ts_number)
        .flat_map(|(packet, _)| packet.to_vec())
        .collect()
}

#[test]
fn a_run_without_loss_comes_out_packet_for_packet() {
    let mut random = Random(21);
    for kind in KINDS {
        let mut composer = run(kind);
        let mut lent = Lent::new(kind);
        let mut before: Option<Vec<u8>> = None;
        for _ in 0..40 {
            let frame = drawn_frame(&mut random, &mut composer);
            let event = lent.receive(&frame[..188]);
            match before {
                None => assert_eq!(event, Event::Opened),
                Some(before) => {
                    assert_eq!(event, Event::Ready);
                    for r in 1..=kind.size().streams as u8 {
                        assert_eq!(lent.handed_out(r), placed(&before, kind, r));
                    }
                }
            }
            for packet in frame[188..].chunks_exact(188) {
                assert_eq!(lent.receive(packet), Event::Stored);
            }
            assert_eq!(lent.store, frame[188..]);
            before = Some(frame);
        }
    }
}

/// A receiver that has opened a frame and stored so many packets.
fn opened(kind: Kind, stored: usize) -> Lent {
    let mut lent = Lent::new(kind);
    lent.receive(&counted_header(kind, 7));
    for number in 0..stored {
        lent.receive(&ordinary(number));
    }
    lent
}

/// What the turned bit of a spoilt header leaves, by Python's zlib.
const WRONG_CRC: Event = Event::Broken {
    remainder: 0x5C79_7F6A,
};
const OTHER_CAUSE: Event = Event::Broken { remainder: 0 };

fn spoilt_header(kind: Kind) -> [u8; 188] {
    let mut packet = counted_header(kind, 8);
    packet[100] ^= 1;
    packet
}

/// The header that is due, but for a reserved bit at zero.
fn foreign_header(kind: Kind, reserved: (usize, u8)) -> [u8; 188] {
    let mut packet = counted_header(kind, 8);
    clear_reserved(&mut packet, reserved);
    packet
}

#[test]
fn while_waiting_only_a_good_header_counts() {
    for kind in KINDS {
        let mut lent = Lent::new(kind);
        let store = lent.store.clone();
        let mut packets = vec![ordinary(0), spoilt_header(kind), [0; 188]];
        let foreign = |bit| foreign_header(kind, bit);
        packets.extend(reserved_bits(kind).into_iter().map(foreign));
        for packet in &packets {
            let before = lent.receiver.clone();
            assert_eq!(lent.receive(packet), Event::Nothing);
            assert_eq!(lent.receiver, before);
        }
        assert_eq!(lent.store, store);
        assert_eq!(lent.receive(&counted_header(kind, 7)), Event::Opened);
    }
}

/// A header PID behind other bits than 000 is a header's all the same.
#[test]
fn broken_packets_drop_the_frame() {
    let mut with_bits = ordinary(0);
    let [high, low] = PID.to_be_bytes();
    with_bits[1..3].copy_from_slice(&[0x40 | high, low]);
    for kind in KINDS {
        let slots = kind.size().slots;
        for stored in [0, 1, slots - 1, slots] {
            for (packet, event) in [
                (&spoilt_header(kind), WRONG_CRC),
                (&with_bits, OTHER_CAUSE),
                (&[0; 188], OTHER_CAUSE),
            ] {
                let mut lent = opened(kind, stored);
                let store = lent.store.clone();
                assert_eq!(lent.receive(packet), event);
                assert_eq!(lent.receiver.standing, Standing::Waiting);
                assert_eq!(lent.store, store);
            }
        }
    }
}

/// Each reserved bit by itself: the frame before is not vouched for, and none
/// opens.
#[test]
fn a_reserved_bit_at_zero_drops_the_frame() {
    for kind in KINDS {
        let slots = kind.size().slots;
        for bit in reserved_bits(kind) {
            for stored in [0, slots] {
                let mut lent = opened(kind, stored);
                let store = lent.store.clone();
                assert_eq!(lent.receive(&foreign_header(kind, bit)), OTHER_CAUSE);
                assert_eq!(lent.receiver.standing, Standing::Waiting);
                assert_eq!(lent.receive(&ordinary(99)), Event::Nothing);
                assert_eq!(lent.store, store);
                assert_eq!(lent.receive(&counted_header(kind, 9)), Event::Opened);
            }
        }
    }
}

/// One packet is written, and every other byte of the store stays.
#[test]
fn packets_are_stored_slot_by_slot() {
    for kind in KINDS {
        for stored in 0..kind.size().slots {
            let mut lent = opened(kind, stored);
            let mut expected = lent.store.clone();
            expected[188 * stored..][..188].copy_from_slice(&ordinary(99));
            assert_eq!(lent.receive(&ordinary(99)), Event::Stored);
            assert_eq!(lent.store, expected);
        }
    }
}

/// Each two faults of a header. What is broken shows the remainder where the
/// reader refuses by 7, and 0 for every other cause; another PID is no header.
#[test]
fn the_remainder_goes_beside_broken() {
    for kind in KINDS {
        let slots = kind.size().slots;
        let of_a_header = &order(kind)[2..];
        for (place, &first) in of_a_header.iter().enumerate() {
            for &second in &of_a_header[place..] {
                let packet = spoilt(kind, &[first, second], (4, 0x80));
                let remainder = refused(first).remainder;
                assert_eq!(remainder != 0, first == 7);
                let event = match first {
                    4 => Event::Stored,
                    _ => Event::Broken { remainder },
                };
                assert_eq!(opened(kind, 0).receive(&packet), event);
                assert_eq!(opened(kind, slots - 1).receive(&packet), event);
                assert_eq!(ready(kind).receive(&packet), event);
                let event = if first == 4 { Event::Long } else { event };
                assert_eq!(opened(kind, slots).receive(&packet), event);
                assert_eq!(Lent::new(kind).receive(&packet), Event::Nothing);
            }
        }
    }
}

/// Nothing is open behind it: the next wrong CRC is nothing, and shows nothing.
#[test]
fn a_second_wrong_crc_is_not_shown() {
    for kind in KINDS {
        let mut lent = opened(kind, 3);
        let spoilt = spoilt_header(kind);
        assert_eq!(lent.receive(&spoilt), WRONG_CRC);
        assert_eq!(lent.receive(&spoilt), Event::Nothing);
        assert_eq!(lent.receive(&counted_header(kind, 9)), Event::Opened);
        assert_eq!(lent.receive(&spoilt), WRONG_CRC);
    }
}

/// Of every event, the eight that there are.
#[test]
fn remainders_of_events() {
    use Event::{Jump, Long, Nothing, Opened, Ready, Short, Stored};
    for event in [
        Nothing,
        Stored,
        Opened,
        Ready,
        Short,
        Jump,
        Long,
        OTHER_CAUSE,
    ] {
        assert_eq!(event.remainder(), 0);
    }
    assert_eq!(WRONG_CRC.remainder(), 0x5C79_7F6A);
}

fn ready(kind: Kind) -> Lent {
    let mut lent = opened(kind, kind.size().slots);
    assert_eq!(lent.receive(&counted_header(kind, 8)), Event::Ready);
    lent
}

fn hand_out_answer(lent: &Lent) -> Result<usize, u8> {
    lent.receiver
        .hand_out(&lent.store, 1, &mut vec![0; 10 * 188])
}

/// Each of the packets that may come behind ends it; a refused call does not.
#[test]
fn a_ready_frame_stays_until_the_next_accepted_packet() {
    for kind in KINDS {
        let behind = [
            (&ordinary(99)[..], Event::Stored),
            (&counted_header(kind, 9), Event::Short),
            (&spoilt_header(kind), WRONG_CRC),
            (&foreign_header(kind, (4, 0x20)), OTHER_CAUSE),
        ];
        for (packet, event) in behind {
            let mut lent = ready(kind);
            assert_eq!(lent.receiver.receive(&mut lent.store, &[]), Err(1));
            assert_eq!(hand_out_answer(&lent), Ok(10));
            assert_eq!(hand_out_answer(&lent), Ok(10));
            assert_eq!(lent.receive(packet), event);
            assert_eq!(hand_out_answer(&lent), Err(16));
        }
    }
}

/// The header that vouches for a frame opens the next one with its own
/// counter and slot numbers.
#[test]
fn a_header_behind_a_dropped_frame_opens_the_next() {
    for kind in KINDS {
        let slots = kind.size().slots;
        for (counter, stored) in [(7, 0), (8, 0), (7, slots), (8, slots), (9, slots - 1)] {
            let mut lent = opened(kind, stored);
            lent.receive(&counted_header(kind, counter));
            for number in 0..slots {
                assert_eq!(lent.receive(&ordinary(number)), Event::Stored);
            }
            let event = lent.receive(&counted_header(kind, counter + 1));
            assert_eq!(event, Event::Ready);
        }
    }
}
