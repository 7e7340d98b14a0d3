//! Each two refusals of the reader at once: the earlier one answers, and a 7 that
//! comes behind another shows nothing.

mod common;

use common::faults::{order, refused, spoilt};
use common::{header, least, reserved_bits, KINDS, PID};
use reference::{read, Kind, Refusal};

fn answer(kind: Kind, refusals: &[u8]) -> Option<Refusal> {
    answer_with(kind, refusals, (4, 0x80))
}

fn answer_with(kind: Kind, refusals: &[u8], reserved: (usize, u8)) -> Option<Refusal> {
    let packet = spoilt(kind, refusals, reserved);
    let pid = if refusals.contains(&2) { 15 } else { PID };
    let length = if refusals.contains(&1) { 187 } else { 188 };
    read(&packet[..length], pid, kind).err()
}

#[test]
fn earlier_refusals_answer() {
    for kind in KINDS {
        for (place, &first) in order(kind).iter().enumerate() {
            for &second in &order(kind)[place..] {
                assert_eq!(answer(kind, &[first, second]), Some(refused(first)));
            }
        }
    }
}

/// Each reserved bit at zero, alone and with each other fault: it is refused
/// behind 1 to 7 and before 8 to 11.
#[test]
fn every_reserved_bit_in_its_place() {
    for kind in KINDS {
        for reserved in reserved_bits(kind) {
            assert_eq!(answer_with(kind, &[], reserved), None);
            for &other in order(kind) {
                let expected = if other <= 7 { other } else { 20 };
                let found = answer_with(kind, &[20, other], reserved);
                assert_eq!(found, Some(refused(expected)), "{reserved:?} and {other}");
            }
        }
    }
}

#[test]
fn all_refusals_at_once() {
    for kind in KINDS {
        for (place, &first) in order(kind).iter().enumerate() {
            assert_eq!(answer(kind, &order(kind)[place..]), Some(refused(first)));
        }
    }
}

#[test]
fn longer_packets() {
    let mut longer = [0; 189];
    longer[..188].copy_from_slice(&header(Kind::Plain, &least(Kind::Plain)));
    assert_eq!(read(&longer, PID, Kind::Plain), Err(1.into()));
    assert_eq!(read(&[], PID, Kind::Plain), Err(1.into()));
}
