//! What the composer writes, where it refuses nothing.

mod common;

use common::frames::{any_frame, ordinary, run, stream, ten_slots};
use common::{good, Random, KINDS, PID};
use reference::{read, Composer, Kind, OpenFrame, Setting};

fn null() -> Vec<u8> {
    [&[0x47, 0x1F, 0xFF, 0x10][..], &[0xFF; 184]].concat()
}

fn begun(kind: Kind, setting: &Setting) -> (Composer, Vec<u8>) {
    let mut composer = run(kind);
    let mut frame = any_frame(kind);
    assert_eq!(composer.begin(&mut frame, setting), Ok(()));
    (composer, frame)
}

#[test]
fn begin_writes_null_packets_and_no_header() {
    for kind in KINDS {
        let setting = ten_slots(kind);
        let (composer, frame) = begun(kind, &setting);
        assert_eq!(frame[..188], [0xA5; 188]);
        assert_eq!(frame[188..], null().repeat(kind.size().slots));
        let filled = [false; 52];
        assert_eq!(composer.open, Some(OpenFrame { setting, filled }));
    }
}

#[test]
fn put_fills_in_rising_order() {
    for kind in KINDS {
        let last = kind.size().slots;
        let mut setting = ten_slots(kind);
        setting.relative_ts_number = [0; 52];
        for slot in [2, 7, last] {
            setting.relative_ts_number[slot - 1] = 1;
        }
        let (mut composer, mut frame) = begun(kind, &setting);
        let lent: Vec<u8> = (0..5).flat_map(ordinary).collect();
        let put = composer.put(&mut frame, 1, &lent);
        assert_eq!((put.placed, put.rest), (Ok(3), &lent[3 * 188..]));
        let mut expected = [vec![0xA5; 188], null().repeat(last)].concat();
        for (number, slot) in [2, 7, last].into_iter().enumerate() {
            expected[188 * slot..][..188].copy_from_slice(&ordinary(number));
        }
        assert_eq!(frame, expected);
    }
}

#[test]
fn put_of_nothing_or_into_nothing() {
    let (mut composer, mut frame) = begun(Kind::Plain, &ten_slots(Kind::Plain));
    assert_eq!(composer.put(&mut frame, 1, &[]).placed, Ok(0));
    let lent: Vec<u8> = (0..10).flat_map(ordinary).collect();
    assert_eq!(composer.put(&mut frame, 1, &lent).placed, Ok(10));
    let before = (composer.clone(), frame.clone());
    let put = composer.put(&mut frame, 1, &lent);
    assert_eq!((put.placed, put.rest), (Ok(0), &lent[..]));
    // With no slot left, not even an unfit packet is to be placed.
    assert_eq!(composer.put(&mut frame, 1, &[0; 188]).placed, Ok(0));
    assert_eq!((composer, frame), before);
}

/// Cut anywhere between packets; a piece that finds no slot comes back whole.
#[test]
fn pieces_equal_the_whole() {
    let mut random = Random(11);
    for round in 0..200 {
        let kind = KINDS[round % KINDS.len()];
        let setting = good(&mut random, kind);
        let (mut whole, mut frame) = begun(kind, &setting);
        let (mut pieces, mut other) = (whole.clone(), frame.clone());
        for r in (1..=15).filter(|&r| setting.is_available(r)) {
            let packets = random.below(9) as usize;
            let lent = stream(&mut random, packets);
            let put = whole.put(&mut frame, r as u8, &lent);
            let mut placed = 0;
            let mut rest = 0;
            let mut left = &lent[..];
            while !left.is_empty() {
                let cut = 188 * random.below(1 + left.len() as u64 / 188) as usize;
                let piece = pieces.put(&mut other, r as u8, &left[..cut]);
                placed += piece.placed.unwrap();
                rest += piece.rest.len();
                left = &left[cut..];
            }
            assert_eq!((put.placed, put.rest.len()), (Ok(placed), rest));
        }
        assert_eq!((whole, frame), (pieces, other));
    }
}

#[test]
fn close_writes_the_header_alone() {
    let mut random = Random(12);
    for round in 0..100 {
        let kind = KINDS[round % KINDS.len()];
        let setting = good(&mut random, kind);
        let (mut composer, mut frame) = begun(kind, &setting);
        for r in (1..=15).filter(|&r| setting.is_available(r)) {
            let packets = random.below(5) as usize;
            composer.put(&mut frame, r as u8, &stream(&mut random, packets));
        }
        let filled = composer.open.as_ref().unwrap().filled;
        let slots = frame[188..].to_vec();
        assert_eq!(composer.close(&mut frame), Ok(()));
        assert_eq!(frame[188..], slots);
        let mut expected = setting;
        expected.continuity_counter = 0;
        expected.version_number = 0;
        for (number, filled) in expected.relative_ts_number.iter_mut().zip(filled) {
            *number = if filled { *number } else { 0 };
        }
        assert_eq!(read(&frame[..188], PID, kind), Ok(expected));
        assert_eq!(composer.open, None);
    }
}

/// Counter and version of the next header, for a setting without packets.
fn closed(composer: &mut Composer, setting: &Setting) -> (u8, u8) {
    let mut frame = any_frame(composer.kind);
    assert_eq!(composer.begin(&mut frame, setting), Ok(()));
    assert_eq!(composer.close(&mut frame), Ok(()));
    let header = read(&frame[..188], composer.pid, composer.kind).unwrap();
    (header.continuity_counter, header.version_number)
}

#[test]
fn what_raises_the_version() {
    let changes: [fn(&mut Setting); 7] = [
        |s| s.slot_allocation_type = 1,
        |s| s.frame_type = 2,
        |s| s.availability = 0x4001,
        |s| s.ts_id[14] = 9,
        |s| s.original_network_id[3] = 9,
        |s| s.receive_status[0] = 3,
        |s| s.emergency_indicator = 1,
    ];
    let mut composer = run(Kind::Extended);
    let mut setting = ten_slots(Kind::Extended);
    setting.original_network_id[14] = 1;
    assert_eq!(closed(&mut composer, &setting), (0, 0));
    assert_eq!(closed(&mut composer, &setting), (1, 0));
    for (number, change) in (1..).zip(changes) {
        change(&mut setting);
        assert_eq!(closed(&mut composer, &setting), (2 * number, number));
        assert_eq!(closed(&mut composer, &setting), (2 * number + 1, number));
    }
    assert_eq!(closed(&mut composer, &ten_slots(Kind::Extended)), (0, 0));
}

#[test]
fn what_does_not_raise_the_version() {
    let changes: [fn(&mut Setting); 7] = [
        |s| s.continuity_counter = 9,
        |s| s.version_number = 5,
        |s| s.relative_ts_number[20] = 1,
        |s| s.auxiliary[27] = 7,
        |s| s.group_id = 200,
        |s| s.number_of_carriers = 8,
        |s| s.frame_position = 3,
    ];
    let mut composer = run(Kind::Extended);
    let mut setting = ten_slots(Kind::Extended);
    assert_eq!(closed(&mut composer, &setting), (0, 0));
    for (number, change) in (1..).zip(changes) {
        change(&mut setting);
        assert_eq!(closed(&mut composer, &setting), (number, 0));
    }
}

/// What an abandoned frame would have announced is forgotten with it.
#[test]
fn an_abandoned_frame_raises_nothing() {
    let mut composer = run(Kind::Plain);
    let setting = ten_slots(Kind::Plain);
    assert_eq!(closed(&mut composer, &setting), (0, 0));
    let mut other = setting.clone();
    other.emergency_indicator = 1;
    let mut frame = any_frame(Kind::Plain);
    assert_eq!(composer.begin(&mut frame, &other), Ok(()));
    composer.put(&mut frame, 1, &ordinary(0));
    assert_eq!(composer.begin(&mut frame, &setting), Ok(()));
    assert_eq!(frame[188..], null().repeat(52));
    assert_eq!(closed(&mut composer, &setting), (1, 0));
}
