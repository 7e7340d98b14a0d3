//! Each two faults of a spread, a gather or a read_headers at once: the one
//! that is looked for first answers, and all buffers stay.

mod common;

use common::bond_calls::{call_of, good_settings, Call};
use common::{clear_reserved, make_crc_right, reserved_bits};
use reference::{Kind, Refusal, FRAME_BYTES};

/// One fault for each refusal that a header can bring about by itself. Those
/// behind 7 leave the CRC right, and done twice they are the same.
fn spoil(header: &mut [u8; 188], refusal: u8) {
    match refusal {
        3 => header[0] = 0x46,
        4 => header[2] = 0xF1,
        5 => header[3] |= 0x80,
        6 => header[5] = 0,
        7 => header[100] = 1,
        20 => clear_reserved(header, (183, 0x01)),
        8 => header[6] |= 0x0F,
        9 => header[98] |= 1,
        10 => header[20] = 0,
        11 => header[130] &= 0xF0,
        _ => header[128] = 3,
    }
    if refusal > 7 {
        make_crc_right(header);
    }
}

/// A frame behind the last one, the same once more.
fn leave_over(call: &mut Call) {
    if call.group.len() == 7 * FRAME_BYTES {
        call.group.extend_from_within(6 * FRAME_BYTES..);
    }
}

/// The refusal with this number. For a 7 a single bit is turned, the last of byte
/// 100, and by Python's zlib it leaves this.
fn refused(number: u8) -> Refusal {
    let remainder = if number == 7 { 0x5C79_7F6A } else { 0 };
    Refusal { number, remainder }
}

struct Fault {
    refusal: u8,
    make: Box<dyn Fn(&mut Call)>,
}

fn fault(refusal: u8, make: impl Fn(&mut Call) + 'static) -> Fault {
    let make = Box::new(make);
    Fault { refusal, make }
}

/// In the order in which they are looked for.
const OF_A_HEADER: [u8; 11] = [3, 4, 5, 6, 7, 20, 8, 9, 10, 11, 14];

fn header_faults(frame: usize) -> Vec<Fault> {
    let of = |refusal| {
        fault(refusal, move |call| {
            if frame == 7 {
                leave_over(call);
            }
            spoil(call.header(frame), refusal);
        })
    };
    OF_A_HEADER.map(of).into()
}

/// All that comes in front of the headers, in order.
fn early() -> Vec<Fault> {
    vec![
        fault(1, |call| call.group.truncate(call.group.len() - 1)),
        fault(2, |call| call.asked.pid = 15),
        fault(17, |call| call.asked.carriers = 9),
    ]
}

/// What comes behind them, in order: 13, and then the call's own.
fn late(own: Vec<Fault>) -> Vec<Fault> {
    let mut faults = vec![fault(13, |call| call.asked.original_network_id = 0)];
    faults.extend(own);
    faults
}

fn frames_missing() -> Vec<Fault> {
    vec![fault(14, |call| call.group.truncate(6 * FRAME_BYTES))]
}

fn frame_left_over() -> Vec<Fault> {
    let mut faults = header_faults(7);
    faults.push(fault(14, leave_over));
    faults
}

type Answer = fn(&mut Call) -> Result<usize, Refusal>;

/// A call with faults. The earlier fault comes last, so that it is there also
/// where both change the same thing.
fn call_with(faults: &[&Fault]) -> Call {
    let mut call = call_of(&good_settings());
    for fault in faults.iter().rev() {
        (fault.make)(&mut call);
    }
    call
}

/// What spread or gather refuses with.
fn refusal(mut call: Call, make: Answer) -> Option<Refusal> {
    let before = call.clone();
    let answer = make(&mut call);
    assert_eq!(call == before, answer.is_err());
    answer.err()
}

fn check_order(faults: &[Fault], refusal: impl Fn(Call) -> Option<Refusal>) {
    assert_eq!(refusal(call_with(&[])), None);
    for (place, first) in faults.iter().enumerate() {
        for second in &faults[place..] {
            let found = refusal(call_with(&[first, second]));
            let expected = Some(refused(first.refusal));
            assert_eq!(found, expected, "and not {}", second.refusal);
        }
    }
}

fn check_call(
    early: fn() -> Vec<Fault>,
    late: fn() -> Vec<Fault>,
    refusal: impl Fn(Call) -> Option<Refusal> + Copy,
) {
    for end in [frames_missing, frame_left_over] {
        let mut faults = early();
        for frame in [0, 1, 5] {
            faults.extend(header_faults(frame));
        }
        faults.extend(end());
        faults.extend(late());
        check_order(&faults, refusal);
    }
}

#[test]
fn order_of_spread() {
    let first = || {
        let mut faults = early();
        let stream = fault(1, |call| call.stream.truncate(call.stream.len() - 1));
        faults.insert(1, stream);
        faults
    };
    let last = || {
        late(vec![
            fault(15, |call| call.stream.truncate(188 * 69)),
            fault(12, |call| call.stream[188 * 3] = 0x46),
        ])
    };
    check_call(first, last, |call| refusal(call, Call::spread));
}

#[test]
fn order_of_gather() {
    let last = || late(vec![fault(15, |call| call.buffer.truncate(188 * 70 - 1))]);
    check_call(early, last, |call| refusal(call, Call::gather));
}

#[test]
fn order_of_read_headers() {
    check_call(early, Vec::new, |call| call.read_headers().err());
}

/// Every reserved bit of any frame's header, with each other fault of it.
#[test]
fn reserved_bits_in_their_place() {
    for (place, bit) in reserved_bits(Kind::Extended).into_iter().enumerate() {
        let frame = place % 7;
        for other in OF_A_HEADER {
            let mut call = call_of(&good_settings());
            let header = call.header(frame);
            spoil(header, other);
            clear_reserved(header, bit);
            // The CRC is right now, and for a 7 it is not to be.
            header[187] ^= u8::from(other == 7);
            let expected = if other <= 7 { other } else { 20 };
            assert_eq!(call.refusals(), [expected; 2], "{bit:?} and {other}");
            assert_eq!(call.headers_refusal(), expected);
        }
    }
}
