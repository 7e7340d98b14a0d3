//! Each two faults of a composer's call at once: the number that stands first
//! in the table answers, and frame and state stay.

mod common;

use common::frames::{any_frame, ordinary, run, ten_slots};
use common::{KINDS, PID};
use reference::{Composer, Kind, OpenFrame, Setting};

/// All that the calls are given.
struct Call {
    state: Composer,
    frame: Vec<u8>,
    setting: Setting,
    relative_ts_number: u8,
    stream: Vec<u8>,
}

type Fault = (u8, fn(&mut Call));

fn open(call: &mut Call) -> &mut OpenFrame {
    let setting = ten_slots(call.state.kind);
    call.state.open.get_or_insert(OpenFrame {
        setting,
        filled: [false; 52],
    })
}

/// What slot 39 is planned for is a stream of every kind, and unavailable.
fn spoil(setting: &mut Setting, refusal: u8) {
    match refusal {
        17 => setting.receive_status[14] = 4,
        8 => setting.frame_type = 4,
        9 => setting.relative_ts_number[38] = 7,
        10 => setting.availability |= 0x3000,
        _ => setting.frame_position = 4,
    }
}

fn open_setting(call: &mut Call) -> &mut Setting {
    &mut open(call).setting
}

/// The faults of a state and of the frame, in order. 17 in the open setting
/// stands behind 16, since with no frame open nothing looks there.
const FRAME: Fault = (1, |call| call.frame.truncate(call.frame.len() - 1));
const STATE_PID: Fault = (2, |call| call.state.pid = 8191);
const STATE_NUMBER: Fault = (17, |call| call.state.version_number = 8);
const NOT_OPEN: Fault = (16, |call| call.state.open = None);
const OPEN_FIELD: Fault = (17, |call| spoil(open_setting(call), 17));
const OPEN_8: Fault = (8, |call| spoil(open_setting(call), 8));
const OPEN_9: Fault = (9, |call| spoil(open_setting(call), 9));
const OPEN_10: Fault = (10, |call| spoil(open_setting(call), 10));
const OPEN_11: Fault = (11, |call| spoil(open_setting(call), 11));
const MARK: Fault = (17, |call| open(call).filled[50] = true);

const BEGIN: [Fault; 14] = [
    FRAME,
    STATE_PID,
    STATE_NUMBER,
    OPEN_FIELD,
    (17, |call| spoil(&mut call.setting, 17)),
    OPEN_8,
    (8, |call| spoil(&mut call.setting, 8)),
    OPEN_9,
    (9, |call| spoil(&mut call.setting, 9)),
    OPEN_10,
    (10, |call| spoil(&mut call.setting, 10)),
    OPEN_11,
    (11, |call| spoil(&mut call.setting, 11)),
    MARK,
];

const PUT: [Fault; 14] = [
    FRAME,
    (1, |call| call.stream.truncate(187)),
    STATE_PID,
    STATE_NUMBER,
    (17, |call| call.relative_ts_number = 16),
    NOT_OPEN,
    OPEN_FIELD,
    OPEN_8,
    OPEN_9,
    OPEN_10,
    OPEN_11,
    MARK,
    (13, |call| call.relative_ts_number = 5),
    (12, |call| call.stream[188] = 0x46),
];

const CLOSE: [Fault; 10] = [
    FRAME,
    STATE_PID,
    STATE_NUMBER,
    NOT_OPEN,
    OPEN_FIELD,
    OPEN_8,
    OPEN_9,
    OPEN_10,
    OPEN_11,
    MARK,
];

/// One packet is placed already, so that a begin, too, changes something.
fn good_call(kind: Kind) -> Call {
    let mut state = run(kind);
    let mut frame = any_frame(kind);
    let setting = ten_slots(kind);
    assert_eq!(state.begin(&mut frame, &setting), Ok(()));
    assert_eq!(state.put(&mut frame, 1, &ordinary(9)).placed, Ok(1));
    Call {
        state,
        frame,
        setting,
        relative_ts_number: 1,
        stream: [ordinary(0), ordinary(1)].concat(),
    }
}

/// The answer to a call with faults. The earlier fault comes last, so that it
/// is there also where both change the same thing.
fn answer(kind: Kind, faults: &[Fault], make: fn(&mut Call) -> u8) -> u8 {
    let mut call = good_call(kind);
    for (_, spoil) in faults.iter().rev() {
        spoil(&mut call);
    }
    let (state, frame) = (call.state.clone(), call.frame.clone());
    let answer = make(&mut call);
    let unaltered = call.state == state && call.frame == frame;
    assert_eq!(unaltered, answer != 0);
    answer
}

/// Only an extended header has what an 11 is about.
fn check_order(faults: &[Fault], make: fn(&mut Call) -> u8) {
    for kind in KINDS {
        let has = |&(refusal, _): &Fault| refusal != 11 || kind == Kind::Extended;
        let faults: Vec<Fault> = faults.iter().copied().filter(has).collect();
        assert_eq!(answer(kind, &[], make), 0);
        for (place, &first) in faults.iter().enumerate() {
            for &second in &faults[place..] {
                assert_eq!(answer(kind, &[first, second], make), first.0);
            }
            assert_eq!(answer(kind, &faults[place..], make), first.0);
        }
    }
}

#[test]
fn begin() {
    check_order(&BEGIN, |call| {
        let begun = call.state.begin(&mut call.frame, &call.setting);
        begun.err().unwrap_or(0)
    });
}

#[test]
fn put() {
    check_order(&PUT, |call| {
        let put = call
            .state
            .put(&mut call.frame, call.relative_ts_number, &call.stream);
        let placed = put.placed.unwrap_or(0);
        assert_eq!(put.rest, &call.stream[188 * placed..]);
        put.placed.err().unwrap_or(0)
    });
}

#[test]
fn close() {
    check_order(&CLOSE, |call| {
        call.state.close(&mut call.frame).err().unwrap_or(0)
    });
}

#[test]
fn start() {
    for kind in KINDS {
        for pid in 0..=u16::MAX {
            let (refusal, state) = Composer::start(pid, kind);
            let accepted = (16..=8190).contains(&pid);
            assert_eq!(refusal, if accepted { 0 } else { 2 });
            let mut expected = run(if accepted { kind } else { Kind::Plain });
            expected.pid = if accepted { pid } else { 0 };
            assert_eq!(state, expected);
        }
    }
}

/// The answers of begin, put and close to a state.
fn answers(state: &Composer) -> [u8; 3] {
    let mut frame = any_frame(state.kind);
    let setting = ten_slots(state.kind);
    let begun = state.clone().begin(&mut frame, &setting);
    let put = state.clone().put(&mut frame, 1, &ordinary(0)).placed;
    let closed = state.clone().close(&mut frame);
    [begun.err(), put.err(), closed.err()].map(|refusal| refusal.unwrap_or(0))
}

fn answers_to(kind: Kind, change: impl Fn(&mut Composer)) -> [[u8; 3]; 2] {
    let mut state = good_call(kind).state;
    change(&mut state);
    let when_open = answers(&state);
    state.open = None;
    [when_open, answers(&state)]
}

const ACCEPTED: [[u8; 3]; 2] = [[0; 3], [0, 16, 16]];
const REFUSED: [[u8; 3]; 2] = [[17; 3]; 2];

#[test]
fn state_numbers_out_of_range() {
    for kind in KINDS {
        let answers = |change: fn(&mut Composer)| answers_to(kind, change);
        assert_eq!(answers(|_| ()), ACCEPTED);
        assert_eq!(answers(|s| s.continuity_counter = 16), REFUSED);
        assert_eq!(answers(|s| s.version_number = 8), REFUSED);
        assert_eq!(answers(|s| s.announced.slot_allocation_type = 2), REFUSED);
        assert_eq!(answers(|s| s.announced.frame_type = 16), REFUSED);
        assert_eq!(answers(|s| s.announced.availability = 0x8000), REFUSED);
        assert_eq!(answers(|s| s.announced.receive_status[0] = 4), REFUSED);
        assert_eq!(answers(|s| s.announced.emergency_indicator = 2), REFUSED);
    }
}

/// What the last header of a short run announced of streams 8 to 15.
#[test]
fn announced_streams_behind_the_last() {
    let changes: [fn(&mut Composer); 8] = [
        |s| s.announced.availability |= 0x0080,
        |s| s.announced.availability |= 0x0001,
        |s| s.announced.ts_id[7] = 1,
        |s| s.announced.ts_id[14] = 0x100,
        |s| s.announced.original_network_id[7] = 0x100,
        |s| s.announced.original_network_id[14] = 1,
        |s| s.announced.receive_status[7] = 1,
        |s| s.announced.receive_status[14] = 3,
    ];
    for change in changes {
        assert_eq!(answers_to(Kind::Short, change), REFUSED);
        assert_eq!(answers_to(Kind::Plain, change), ACCEPTED);
    }
    let changes: [fn(&mut Composer); 3] = [
        |s| s.announced.availability |= 0x0100,
        |s| s.announced.ts_id[6] = 0xFFFF,
        |s| s.announced.receive_status[6] = 3,
    ];
    for change in changes {
        assert_eq!(answers_to(Kind::Short, change), ACCEPTED);
    }
}

/// A mark behind the last slot is on a slot without a stream.
#[test]
fn marks_behind_the_last_slot() {
    for slot in 41..=52 {
        let mut call = good_call(Kind::Short);
        open(&mut call).filled[slot - 1] = true;
        assert_eq!(answers(&call.state), [17; 3]);
        open_setting(&mut call).frame_type = 1;
        assert_eq!(answers(&call.state), [8; 3]);
    }
}

#[test]
fn lengths_and_numbers_besides() {
    for kind in KINDS {
        let mut state = good_call(kind).state;
        let before = state.clone();
        let size = kind.size();
        let other = 9964 + 7708 - size.frame_bytes();
        for length in [0, 188, size.frame_bytes() + 1, other] {
            let mut frame = vec![0xA5; length];
            assert_eq!(state.begin(&mut frame, &ten_slots(kind)), Err(1));
            assert_eq!(state.put(&mut frame, 1, &[]).placed, Err(1));
            assert_eq!(state.close(&mut frame), Err(1));
            assert_eq!(frame, vec![0xA5; length]);
        }
        let mut frame = any_frame(kind);
        let last = size.streams as u8;
        for number in [0, last + 1, 16, 255] {
            assert_eq!(state.put(&mut frame, number, &[]).placed, Err(17));
        }
        for number in 2..=last {
            assert_eq!(state.put(&mut frame, number, &[]).placed, Err(13));
        }
        assert_eq!(state, before);
    }
}

/// A packet with the header PID is a 12 whatever its other bits are, but only
/// where it would be placed.
#[test]
fn packets_not_to_be_placed() {
    let mut call = good_call(Kind::Extended);
    let mut stream: Vec<u8> = (0..10).flat_map(ordinary).collect();
    let [high, low] = PID.to_be_bytes();
    stream[9 * 188..][1..3].copy_from_slice(&[0xE0 | high, low]);
    for first in 0..10 {
        let mut state = call.state.clone();
        let lent = &stream[188 * first..];
        let put = state.put(&mut call.frame, 1, lent);
        if first == 0 {
            assert_eq!((put.placed, put.rest), (Ok(9), &stream[9 * 188..]));
        } else {
            assert_eq!((put.placed, put.rest), (Err(12), lent));
            assert_eq!(state, call.state);
        }
    }
}
