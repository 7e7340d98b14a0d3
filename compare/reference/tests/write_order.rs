//! Each refusal of the writer alone, and each two of them at once: the one
//! that stands first in the table answers, and the buffer stays.

mod common;

use common::{least, KINDS, PID};
use reference::{content, write, Kind, Setting};

/// The writer's refusals in the order of the table.
const ORDER: [u8; 7] = [1, 2, 17, 8, 9, 10, 11];

struct Call {
    length: usize,
    pid: u16,
    setting: Setting,
}

fn spoil(call: &mut Call, refusal: u8) {
    let setting = &mut call.setting;
    match refusal {
        1 => call.length = 187,
        2 => call.pid = 8191,
        17 => setting.version_number = 8,
        8 => setting.frame_type = 4,
        9 => setting.relative_ts_number[39] = 7,
        10 => setting.availability |= 0x6000,
        _ => setting.frame_position = 4,
    }
}

fn answer(kind: Kind, refusals: &[u8]) -> u8 {
    let mut call = Call {
        length: 188,
        pid: PID,
        setting: least(kind),
    };
    for &refusal in refusals {
        spoil(&mut call, refusal);
    }
    let mut buffer = [0xA5; 200];
    let answer = write(&mut buffer[..call.length], call.pid, kind, &call.setting);
    assert_eq!(buffer == [0xA5; 200], answer != 0);
    answer
}

#[test]
fn earlier_refusals_answer() {
    for (place, &first) in ORDER.iter().enumerate() {
        for &second in &ORDER[place..] {
            assert_eq!(answer(Kind::Extended, &[first, second]), first);
        }
    }
}

/// Other headers have no bonding fields: what is an 11 there is a 17 here.
#[test]
fn only_extended_headers_have_an_eleven() {
    for kind in [Kind::Plain, Kind::Short] {
        for first in ORDER {
            let expected = if matches!(first, 1 | 2) { first } else { 17 };
            assert_eq!(answer(kind, &[first, 11]), expected);
        }
        for (place, &first) in ORDER[..6].iter().enumerate() {
            for &second in &ORDER[place..6] {
                assert_eq!(answer(kind, &[first, second]), first);
            }
        }
    }
}

fn answer_to(kind: Kind, change: impl Fn(&mut Setting)) -> u8 {
    let mut setting = least(kind);
    change(&mut setting);
    write(&mut [0; 188], PID, kind, &setting)
}

#[test]
fn first_value_too_large() {
    for kind in KINDS {
        assert_eq!(answer_to(kind, |s| s.continuity_counter = 16), 17);
        assert_eq!(answer_to(kind, |s| s.version_number = 8), 17);
        assert_eq!(answer_to(kind, |s| s.slot_allocation_type = 2), 17);
        assert_eq!(answer_to(kind, |s| s.frame_type = 17), 17);
        assert_eq!(answer_to(kind, |s| s.availability = 0x8000), 17);
        assert_eq!(answer_to(kind, |s| s.emergency_indicator = 2), 17);
        for stream in 0..15 {
            assert_eq!(answer_to(kind, |s| s.receive_status[stream] = 4), 17);
        }
        for slot in 0..52 {
            let number = kind.size().streams as u8 + 1;
            assert_eq!(answer_to(kind, |s| s.relative_ts_number[slot] = number), 17);
        }
    }
}

#[test]
fn parts_that_the_kind_lacks() {
    for kind in [Kind::Plain, Kind::Short] {
        for byte in 0..28 {
            assert_eq!(answer_to(kind, |s| s.auxiliary[byte] = 1), 17);
        }
        assert_eq!(answer_to(kind, |s| s.group_id = 1), 17);
        assert_eq!(answer_to(kind, |s| s.number_of_carriers = 1), 17);
        assert_eq!(answer_to(kind, |s| s.carrier_sequence = 1), 17);
        assert_eq!(answer_to(kind, |s| s.number_of_frames = 3), 17);
        assert_eq!(answer_to(kind, |s| s.frame_position = 1), 17);
    }
    for (kind, bytes) in [(Kind::Plain, 85), (Kind::Extended, 0), (Kind::Short, 131)] {
        assert_eq!(kind.private_data_bytes(), bytes);
        for byte in 0..131 {
            let expected = if byte < bytes { 0 } else { 17 };
            assert_eq!(answer_to(kind, |s| s.private_data[byte] = 255), expected);
        }
    }
}

/// Streams behind the seventh and slots behind the fortieth.
#[test]
fn what_a_short_header_does_not_reach() {
    let answers = |change: &dyn Fn(&mut Setting)| {
        let plain = answer_to(Kind::Plain, change);
        (plain, answer_to(Kind::Short, change))
    };
    for stream in 0..15 {
        let bit = 0x4000 >> stream;
        let expected = if stream < 7 { (0, 0) } else { (0, 17) };
        assert_eq!(answers(&|s| s.availability = bit), expected);
        assert_eq!(answers(&|s| s.ts_id[stream] = 1), expected);
        assert_eq!(answers(&|s| s.ts_id[stream] = 0x8000), expected);
        assert_eq!(answers(&|s| s.original_network_id[stream] = 1), expected);
        assert_eq!(answers(&|s| s.receive_status[stream] = 1), expected);
    }
    for slot in 0..52 {
        let planned = |s: &mut Setting| {
            s.availability = 0x4000;
            s.relative_ts_number[slot] = 1;
        };
        let expected = if slot < 40 { (0, 0) } else { (0, 17) };
        assert_eq!(answers(&planned), expected);
    }
}

/// By themselves the rules of 8 to 11 look at the whole setting. What the kind
/// lacks is a 17, which stands before them.
#[test]
fn rules_of_the_whole_setting() {
    let answer = |change: &dyn Fn(&mut Setting)| {
        let mut setting = least(Kind::Short);
        change(&mut setting);
        content(Kind::Short, &setting).err().unwrap_or(0)
    };
    assert_eq!(answer(&|s| s.relative_ts_number[39] = 7), 9);
    assert_eq!(answer(&|s| s.relative_ts_number[40] = 7), 9);
    assert_eq!(answer(&|s| s.availability = 0x0300), 10);
    assert_eq!(answer(&|s| s.availability = 0x0180), 10);
    let beyond = |s: &mut Setting| {
        s.availability = 0x0080;
        s.relative_ts_number[0] = 8;
    };
    assert_eq!(answer(&beyond), 0);
    assert_eq!(answer(&|s| s.frame_position = 9), 0);
}

/// Values whose low four bits would do are an 11 all the same.
#[test]
fn bonding_fields_too_large_for_their_bits() {
    assert_eq!(answer_to(Kind::Extended, |s| s.number_of_frames = 0x13), 11);
    assert_eq!(answer_to(Kind::Extended, |s| s.frame_position = 0x11), 11);
}

#[test]
fn frame_types() {
    for frame_type in 0..16 {
        let plain = if frame_type == 1 { 0 } else { 8 };
        let extended = if matches!(frame_type, 1 | 2) { 0 } else { 8 };
        let short = if frame_type == 3 { 0 } else { 8 };
        assert_eq!(answer_to(Kind::Plain, |s| s.frame_type = frame_type), plain);
        assert_eq!(
            answer_to(Kind::Extended, |s| s.frame_type = frame_type),
            extended
        );
        assert_eq!(answer_to(Kind::Short, |s| s.frame_type = frame_type), short);
    }
}

#[test]
fn pairs() {
    for kind in KINDS {
        let last = kind.size().streams;
        let answer = |first: u16, ts_id, original_network_id| {
            answer_to(kind, |s| {
                s.availability = first | 0x8000 >> last;
                s.ts_id[last - 1] = ts_id;
                s.original_network_id[last - 1] = original_network_id;
            })
        };
        assert_eq!(answer(0x4000, 0, 0), 10);
        assert_eq!(answer(0x4000, 1, 0), 0);
        assert_eq!(answer(0x4000, 0, 1), 0);
        assert_eq!(answer(0, 0, 0), 0);
        assert_eq!(answer(0x2000, 0, 0), 10);
    }
}
