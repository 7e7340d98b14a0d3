//! What spread and gather refuse, number by number, with all buffers as they
//! were; and what read_headers does of a header.

mod common;

use common::bond_calls::{call_of, good_settings, Call};
use common::frames::ordinary;
use common::groups::{drawn_frames, drawn_settings, group};
use common::{clear_reserved, make_crc_right, reserved_bits, wrong_crc, Random, PID};
use reference::{Kind, Refusal, Setting, FRAME_BYTES};

fn answers_to(change: impl Fn(&mut Call)) -> [u8; 2] {
    let mut call = call_of(&good_settings());
    change(&mut call);
    call.refusals()
}

#[test]
fn one_lengths() {
    assert_eq!(answers_to(|_| ()), [0, 0]);
    for length in [0, 1, 188, FRAME_BYTES - 1, 7 * FRAME_BYTES - 188] {
        assert_eq!(answers_to(|call| call.group.truncate(length)), [1, 1]);
    }
    assert_eq!(answers_to(|call| call.group.push(0x47)), [1, 1]);
    assert_eq!(answers_to(|call| call.stream.push(0x47)), [1, 0]);
    assert_eq!(answers_to(|call| call.stream.truncate(187)), [1, 0]);
}

#[test]
fn two_header_pids() {
    for pid in [0, 15, 8191, 8192, 8192 + PID, u16::MAX] {
        assert_eq!(answers_to(|call| call.asked.pid = pid), [2, 2]);
    }
    for pid in [16, 8190] {
        assert_eq!(answers_to(|call| call.asked.pid = pid), [4, 4]);
    }
}

#[test]
fn seventeen_carrier_counts() {
    for carriers in 0..=u8::MAX {
        let expected = match carriers {
            2 => 0,
            1..=8 => 14,
            _ => 17,
        };
        let answers = answers_to(|call| call.asked.carriers = carriers);
        assert_eq!(answers, [expected; 2]);
    }
}

/// Gives a frame's header another CRC, and answers the refusal that shows it.
fn change_crc(random: &mut Random, call: &mut Call, frame: usize) -> Refusal {
    let header = call.header(frame);
    header[184] ^= 1 + random.byte(255);
    random.fill(&mut header[185..], 256);
    wrong_crc(header)
}

/// Of the first header that has one, whatever the later ones have, and whatever
/// is wrong with the call behind the headers.
#[test]
fn seven_the_first_wrong_crc() {
    let mut random = Random(63);
    for first in 0..7 {
        let mut call = call_of(&good_settings());
        let shown = change_crc(&mut random, &mut call, first);
        assert_eq!(call.answers(), [Err(shown); 3]);
        for second in first + 1..7 {
            let mut call = call.clone();
            let other = change_crc(&mut random, &mut call, second);
            assert_ne!(other.remainder, shown.remainder);
            call.asked.ts_id ^= 1;
            call.stream.clear();
            assert_eq!(call.answers(), [Err(shown); 3]);
        }
    }
}

/// A header before it is refused by another number: then nothing is shown.
#[test]
fn seven_behind_another_refusal() {
    let mut random = Random(64);
    for (first, second) in [(0, 1), (0, 6), (2, 3), (5, 6)] {
        let mut call = call_of(&good_settings());
        change_crc(&mut random, &mut call, second);
        call.header(first)[6] = 0;
        make_crc_right(call.header(first));
        assert_eq!(call.answers(), [Err(8.into()); 3]);
        call.asked.carriers = 9;
        assert_eq!(call.answers(), [Err(17.into()); 3]);
    }
}

/// Each bit alone, in any frame's header.
#[test]
fn twenty_reserved_bits_at_zero() {
    for (place, bit) in reserved_bits(Kind::Extended).into_iter().enumerate() {
        let mut call = call_of(&good_settings());
        clear_reserved(call.header(place % 7), bit);
        assert_eq!((call.refusals(), call.headers_refusal()), ([20; 2], 20));
    }
}

fn answers_of(change: impl Fn(&mut Vec<Setting>)) -> [u8; 2] {
    let mut settings = good_settings();
    change(&mut settings);
    call_of(&settings).refusals()
}

#[test]
fn fourteen_headers_that_differ() {
    for frame in 0..7 {
        assert_eq!(answers_of(|s| s[frame].group_id += 1), [14, 14]);
        assert_eq!(answers_of(|s| s[frame].number_of_carriers = 3), [14, 14]);
        let other = if frame < 3 { 2 } else { 1 };
        assert_eq!(answers_of(|s| s[frame].carrier_sequence = other), [14, 14]);
    }
    // A fourth frame of four has no other number_of_frames, which is an 11.
    for frame in 0..6 {
        let other = if frame < 3 { 4 } else { 3 };
        assert_eq!(answers_of(|s| s[frame].number_of_frames = other), [14, 14]);
    }
    let all_ids = |settings: &mut Vec<Setting>| settings.iter_mut().for_each(|s| s.group_id = 0);
    assert_eq!(answers_of(all_ids), [0, 0]);
}

#[test]
fn fourteen_frames_missing_left_over_or_moved() {
    for frame in 0..7 {
        let missing = answers_of(|settings| {
            settings.remove(frame);
        });
        assert_eq!(missing, [14, 14]);
        let twice = answers_of(|settings| settings.insert(frame, settings[frame].clone()));
        assert_eq!(twice, [14, 14]);
        for other in 0..frame {
            assert_eq!(answers_of(|s| s.swap(frame, other)), [14, 14]);
        }
    }
    for frames in 1..7 {
        assert_eq!(answers_of(|s| s.truncate(frames)), [14, 14]);
    }
    let twice = answers_of(|settings| settings.extend_from_within(..));
    assert_eq!(twice, [14, 14]);
}

/// The first header is right by itself; it is the second that differs from
/// it, and that one's own faults come first.
#[test]
fn fourteen_is_shown_by_the_later_header() {
    let with_spoilt = |frame: usize| {
        let mut settings = good_settings();
        settings[0].group_id += 1;
        let mut call = call_of(&settings);
        call.header(frame)[0] = 0;
        call.refusals()
    };
    assert_eq!(with_spoilt(0), [3, 3]);
    assert_eq!(with_spoilt(1), [3, 3]);
    assert_eq!(with_spoilt(2), [14, 14]);
}

/// The stream has to be named by both identifiers, and be available.
#[test]
fn thirteen_no_header_carries_the_pair() {
    assert_eq!(answers_to(|call| call.asked.ts_id ^= 1), [13, 13]);
    let other_network = answers_to(|call| call.asked.original_network_id ^= 1);
    assert_eq!(other_network, [13, 13]);
    let unavailable = |settings: &mut Vec<Setting>| {
        for setting in settings {
            setting.availability = 0x3000;
            setting.relative_ts_number = [0; 52];
        }
    };
    assert_eq!(answers_of(unavailable), [13, 13]);
    // In one header it is, and has no slot: then the stream is too long.
    let last = |settings: &mut Vec<Setting>| {
        unavailable(settings);
        settings[6].availability = 0x3800;
    };
    assert_eq!(answers_of(last), [15, 0]);
}

#[test]
fn fifteen_too_short_or_too_long() {
    assert_eq!(answers_to(|call| call.stream.truncate(69 * 188)), [15, 0]);
    assert_eq!(answers_to(|call| call.stream.clear()), [15, 0]);
    assert_eq!(answers_to(|call| call.stream.extend(ordinary(0))), [15, 0]);
    for room in [0, 188, 70 * 188 - 1] {
        assert_eq!(answers_to(|call| call.buffer.truncate(room)), [0, 15]);
    }
    assert_eq!(answers_to(|call| call.buffer.push(0xA5)), [0, 0]);
}

/// Whichever packet it is, none is placed. Gather does not look at packets.
#[test]
fn twelve_packets_not_to_be_placed() {
    let [high, low] = PID.to_be_bytes();
    for packet in [0, 1, 35, 69] {
        let sync_byte = answers_to(|call| call.stream[188 * packet] = 0x46);
        assert_eq!(sync_byte, [12, 0]);
        let pid = [0xE0 | high, low];
        let header_pid = answers_to(|call| call.stream[188 * packet..][1..3].copy_from_slice(&pid));
        assert_eq!(header_pid, [12, 0]);
    }
    assert_eq!(answers_to(|call| call.group[188..376].fill(0)), [0, 0]);
}

/// Whatever the lengths, the question and the headers are.
#[test]
fn any_content() {
    let mut random = Random(62);
    let mut refused = [0; 21];
    for _ in 0..400 {
        let frames = drawn_frames(&mut random);
        let settings = drawn_settings(&mut random, &frames);
        let mut call = call_of(&good_settings());
        call.group = group(&mut random, &settings);
        call.asked.carriers = match random.below(8) {
            0 => random.byte(10),
            _ => frames.len() as u8,
        };
        call.buffer.resize(random.below(400_000) as usize, 0xA5);
        let frame = random.below(settings.len() as u64) as usize;
        let place = random.below(188) as usize;
        call.header(frame)[place] ^= random.byte(256);
        if random.below(2) == 0 {
            make_crc_right(call.header(frame));
        }
        for refusal in call.refusals() {
            refused[usize::from(refusal)] += 1;
        }
    }
    assert!([0, 7, 14, 15, 17, 20].iter().all(|&r| refused[r] > 0));
}
