//! Each two faults of a receiver's call at once: the number that stands first
//! in the table answers, and store, buffer and state stay.

mod common;

use common::frames::{counted_header, ordinary, receiver, Lent};
use common::{clear_reserved, reserved_bits, KINDS};
use reference::{Event, Kind, Receiver, Standing};

/// All that the calls are given.
struct Call {
    state: Receiver,
    store: Vec<u8>,
    packet: Vec<u8>,
    relative_ts_number: u8,
    buffer: Vec<u8>,
}

type Fault = (u8, fn(&mut Call));

const STORE: Fault = (1, |call| call.store.truncate(call.store.len() - 1));
const STATE_PID: Fault = (2, |call| call.state.pid = 15);
const STATE_NUMBER: Fault = (17, |call| call.state.relative_ts_number[51] = 16);

const RECEIVE: [Fault; 4] = [
    STORE,
    (1, |call| call.packet.truncate(187)),
    STATE_PID,
    STATE_NUMBER,
];

const HAND_OUT: [Fault; 6] = [
    STORE,
    STATE_PID,
    STATE_NUMBER,
    (17, |call| call.relative_ts_number = 0),
    (16, |call| call.state.standing = Standing::Waiting),
    (15, |call| call.buffer.truncate(10 * 188 - 1)),
];

/// A frame is ready in whose first ten slots stream 1 stands.
fn good_call(kind: Kind) -> Call {
    let mut lent = Lent::new(kind);
    lent.receive(&counted_header(kind, 15));
    for number in 0..kind.size().slots {
        lent.receive(&ordinary(number));
    }
    assert_eq!(lent.receive(&counted_header(kind, 0)), Event::Ready);
    Call {
        state: lent.receiver,
        store: lent.store,
        packet: ordinary(99).to_vec(),
        relative_ts_number: 1,
        buffer: vec![0xA5; 10 * 188],
    }
}

fn answer(kind: Kind, faults: &[Fault], make: fn(&mut Call) -> u8) -> u8 {
    let mut call = good_call(kind);
    for (_, spoil) in faults.iter().rev() {
        spoil(&mut call);
    }
    let before = (call.state.clone(), call.store.clone(), call.buffer.clone());
    let answer = make(&mut call);
    let unaltered = (call.state, call.store, call.buffer) == before;
    assert_eq!(unaltered, answer != 0);
    answer
}

fn check_order(faults: &[Fault], make: fn(&mut Call) -> u8) {
    for kind in KINDS {
        assert_eq!(answer(kind, &[], make), 0);
        for (place, &first) in faults.iter().enumerate() {
            for &second in &faults[place..] {
                assert_eq!(answer(kind, &[first, second], make), first.0);
            }
            assert_eq!(answer(kind, &faults[place..], make), first.0);
        }
    }
}

#[test]
fn receive() {
    check_order(&RECEIVE, |call| {
        let received = call.state.receive(&mut call.store, &call.packet);
        received.err().unwrap_or(0)
    });
}

/// A header that the reader refuses is no fault of the call, as no packet of 188
/// bytes is: faults come before it, and without them it is broken.
fn receive_broken(call: &mut Call, header: &[u8; 188], remainder: u32) -> u8 {
    let length = call.packet.len();
    call.packet.copy_from_slice(&header[..length]);
    let received = call.state.receive(&mut call.store, &call.packet);
    assert!(received.is_err() || received == Ok(Event::Broken { remainder }));
    received.err().unwrap_or(0)
}

#[test]
fn receive_a_header_with_a_reserved_bit_at_zero() {
    check_order(&RECEIVE, |call| {
        let kind = call.state.kind;
        let mut header = counted_header(kind, 1);
        clear_reserved(&mut header, reserved_bits(kind)[4]);
        receive_broken(call, &header, 0)
    });
}

#[test]
fn receive_a_header_with_a_wrong_crc() {
    check_order(&RECEIVE, |call| {
        let mut header = counted_header(call.state.kind, 1);
        header[187] ^= 1;
        receive_broken(call, &header, 0x04C1_1DB7)
    });
}

#[test]
fn hand_out() {
    check_order(&HAND_OUT, |call| {
        let (number, buffer) = (call.relative_ts_number, &mut call.buffer);
        let out = call.state.hand_out(&call.store, number, buffer);
        out.err().unwrap_or(0)
    });
}

#[test]
fn start() {
    for kind in KINDS {
        for pid in 0..=u16::MAX {
            let (refusal, state) = Receiver::start(pid, kind);
            let accepted = (16..=8190).contains(&pid);
            assert_eq!(refusal, if accepted { 0 } else { 2 });
            let mut expected = receiver(if accepted { kind } else { Kind::Plain });
            expected.pid = if accepted { pid } else { 0 };
            assert_eq!(state, expected);
        }
    }
}

fn answers_to(kind: Kind, change: impl Fn(&mut Receiver)) -> [u8; 2] {
    let mut call = good_call(kind);
    change(&mut call.state);
    let out = call.state.hand_out(&call.store, 1, &mut call.buffer);
    let received = call.state.receive(&mut call.store, &call.packet);
    [received.err(), out.err()].map(|refusal| refusal.unwrap_or(0))
}

fn open(continuity_counter: u8, stored: usize) -> Standing {
    Standing::Open {
        continuity_counter,
        stored,
    }
}

#[test]
fn state_numbers_out_of_range() {
    let ready = |continuity_counter| Standing::Ready { continuity_counter };
    for kind in KINDS {
        let slots = kind.size().slots;
        let answers = |standing| answers_to(kind, |state| state.standing = standing);
        assert_eq!(answers(ready(15)), [0, 0]);
        assert_eq!(answers(ready(16)), [17, 17]);
        assert_eq!(answers(open(15, slots)), [0, 16]);
        assert_eq!(answers(open(16, slots)), [17, 17]);
        assert_eq!(answers(open(15, slots + 1)), [17, 17]);
        assert_eq!(answers(open(0, usize::MAX)), [17, 17]);
    }
}

/// In both lists, whether or not a frame is ready.
#[test]
fn slot_numbers_out_of_range() {
    for kind in KINDS {
        let size = kind.size();
        for slot in 1..=52 {
            let last = if slot <= size.slots { size.streams } else { 0 };
            for number in [last, last + 1] {
                let fits = number == last;
                let set = |numbers: &mut [u8; 52]| numbers[slot - 1] = number as u8;
                let now = answers_to(kind, |s| set(&mut s.relative_ts_number));
                let before = answers_to(kind, |s| set(&mut s.relative_ts_number_before));
                let waiting = answers_to(kind, |s| {
                    set(&mut s.relative_ts_number_before);
                    s.standing = Standing::Waiting;
                });
                let expected = if fits { [0, 0] } else { [17, 17] };
                assert_eq!((now, before), (expected, expected), "slot {slot}");
                assert_eq!(waiting, if fits { [0, 16] } else { [17, 17] });
            }
        }
    }
}

#[test]
fn lengths_and_numbers_besides() {
    for kind in KINDS {
        let call = good_call(kind);
        let fixed = call.store.len();
        for length in [0, 188, fixed + 188, 9776 + 7520 - fixed] {
            let mut store = vec![0xA5; length];
            let received = call.state.clone().receive(&mut store, &call.packet);
            assert_eq!(received, Err(1));
            assert_eq!(call.state.hand_out(&store, 1, &mut [0; 1880]), Err(1));
        }
        for length in [0, 189, 376] {
            let mut store = call.store.clone();
            let received = call.state.clone().receive(&mut store, &vec![0x47; length]);
            assert_eq!((received, store), (Err(1), call.store.clone()));
        }
        let last = kind.size().streams as u8;
        for number in [0, last + 1, 16, 255] {
            let out = call.state.hand_out(&call.store, number, &mut [0; 1880]);
            assert_eq!(out, Err(17));
        }
        assert_eq!(call.state.hand_out(&call.store, last, &mut []), Ok(0));
    }
}

/// A stream that the frame lacks needs no room.
#[test]
fn room() {
    for kind in KINDS {
        let call = good_call(kind);
        let mut buffer = [0xA5; 2000];
        let out = call.state.hand_out(&call.store, 2, &mut []);
        assert_eq!(out, Ok(0));
        let out = call.state.hand_out(&call.store, 1, &mut buffer);
        assert_eq!(out, Ok(10));
        assert_eq!(buffer[..1880], call.store[..1880]);
        assert_eq!(buffer[1880..], [0xA5; 120]);
    }
}
