//! What spread and gather write, where they refuse nothing.

mod common;

use common::frames::{ordinary, stream};
use common::groups::{
    asked, bonded_slots, carry, drawn_frames, drawn_settings, group, settings, TS_ID,
};
use common::{least, Random};
use reference::{gather, read_headers, spread, Asked, Carried, Kind, Setting, FRAME_BYTES};

/// The whole stream of a group.
fn gathered(group: &[u8], asked: &Asked) -> Vec<u8> {
    let mut buffer = vec![0xA5; group.len()];
    let packets = gather(group, asked, &mut buffer).unwrap();
    buffer.truncate(188 * packets);
    buffer
}

#[test]
fn a_stream_comes_back() {
    let mut random = Random(51);
    for _ in 0..60 {
        let frames = drawn_frames(&mut random);
        let settings = drawn_settings(&mut random, &frames);
        let mut group = group(&mut random, &settings);
        let asked = asked(frames.len());
        let packets = bonded_slots(&settings).len();
        let lent = stream(&mut random, packets);
        assert_eq!(spread(&mut group, &asked, &lent), Ok(packets));
        assert_eq!(gathered(&group, &asked), lent);
    }
}

#[test]
fn only_bonded_slots_are_written() {
    let mut random = Random(52);
    for _ in 0..60 {
        let frames = drawn_frames(&mut random);
        let settings = drawn_settings(&mut random, &frames);
        let mut group = group(&mut random, &settings);
        let slots = bonded_slots(&settings);
        let lent = stream(&mut random, slots.len());
        let mut expected = group.clone();
        for (&(frame, slot), packet) in slots.iter().zip(lent.chunks_exact(188)) {
            expected[FRAME_BYTES * frame + 188 * slot..][..188].copy_from_slice(packet);
        }
        let answer = spread(&mut group, &asked(frames.len()), &lent);
        assert_eq!(answer, Ok(slots.len()));
        assert!(group == expected);
    }
}

/// Any packets are gathered, also those that spread would not place.
#[test]
fn gather_writes_the_front_of_the_buffer() {
    let mut random = Random(53);
    for _ in 0..60 {
        let frames = drawn_frames(&mut random);
        let settings = drawn_settings(&mut random, &frames);
        let group = group(&mut random, &settings);
        let mut expected = Vec::new();
        for (frame, slot) in bonded_slots(&settings) {
            expected.extend(&group[FRAME_BYTES * frame + 188 * slot..][..188]);
        }
        let packets = expected.len() / 188;
        let behind = random.below(400) as usize;
        let mut buffer = vec![0xA5; expected.len() + behind];
        expected.resize(buffer.len(), 0xA5);
        let answer = gather(&group, &asked(frames.len()), &mut buffer);
        assert_eq!(answer, Ok(packets));
        assert!(buffer == expected);
    }
}

/// All slots of all frames are of the stream.
fn full(frames: &[u8]) -> Vec<Setting> {
    settings(frames, || {
        let mut setting = least(Kind::Extended);
        carry(&mut setting, 1);
        setting.relative_ts_number = [1; 52];
        setting
    })
}

/// The carrier and place of each packet of a spread stream, in its order.
fn places(frames: &[u8]) -> Vec<(u8, usize)> {
    let settings = full(frames);
    let mut group = group(&mut Random(54), &settings);
    let lent: Vec<u8> = (0..52 * settings.len()).flat_map(ordinary).collect();
    spread(&mut group, &asked(frames.len()), &lent).unwrap();
    let mut places = vec![(0, 0); 52 * settings.len()];
    for (frame, setting) in group.chunks_exact(FRAME_BYTES).zip(&settings) {
        for slot in 1..=52 {
            let number = frame[188 * slot + 4..][..8].try_into().unwrap();
            let place = 53 * (usize::from(setting.frame_position) - 1) + slot;
            places[u64::from_be_bytes(number) as usize] = (setting.carrier_sequence, place);
        }
    }
    places
}

#[test]
fn ten_order_of_places() {
    let first = [(2, 1), (1, 1), (2, 2), (1, 2), (2, 3), (1, 3), (2, 4)];
    assert_eq!(places(&[3, 4])[..7], first);
    // The tie goes to the lower carrier, whichever has more frames.
    let first = [(1, 1), (2, 1), (1, 2), (2, 2), (1, 3), (1, 4), (2, 3)];
    assert_eq!(places(&[4, 3])[..7], first);
}

/// Headers, at places 53 and 106, stand between the slots and are skipped.
#[test]
fn one_carrier_is_in_slot_order() {
    let order = places(&[3]);
    assert_eq!(order[..2], [(1, 1), (1, 2)]);
    assert_eq!(order[51..53], [(1, 52), (1, 54)]);
    assert_eq!(order[103..105], [(1, 105), (1, 107)]);
    assert_eq!(order[155], (1, 158));
}

#[test]
fn equal_carriers_take_turns() {
    let order = places(&[4; 8]);
    for (number, (carrier, _)) in order.into_iter().enumerate() {
        assert_eq!(usize::from(carrier), number % 8 + 1);
    }
}

/// A header may carry the stream, be it alone, and give it no slot.
#[test]
fn no_slots_no_packets() {
    let mut settings = settings(&[3], || least(Kind::Extended));
    carry(&mut settings[2], 7);
    let mut group = group(&mut Random(55), &settings);
    let before = group.clone();
    assert_eq!(spread(&mut group, &asked(1), &[]), Ok(0));
    assert_eq!(gather(&group, &asked(1), &mut []), Ok(0));
    assert_eq!(spread(&mut group, &asked(1), &ordinary(0)), Err(15.into()));
    assert!(group == before);
}

/// A stream that is not available has no slots, though its identifiers stand
/// in the header, and slots without a stream are nobody's.
#[test]
fn identifiers_without_availability() {
    let mut settings = full(&[3]);
    for setting in &mut settings[1..] {
        setting.availability = 0;
        setting.relative_ts_number = [0; 52];
    }
    assert_eq!(settings[2].ts_id[0], TS_ID);
    let group = group(&mut Random(56), &settings);
    let expected = &group[188..FRAME_BYTES];
    assert_eq!(gathered(&group, &asked(1)), expected);
}

/// The headers alone tell how many packets spread takes and gather gives, and
/// whether the stream is in one of them.
#[test]
fn what_the_headers_say() {
    let mut random = Random(57);
    for _ in 0..60 {
        let frames = drawn_frames(&mut random);
        let settings = drawn_settings(&mut random, &frames);
        let group = group(&mut random, &settings);
        let mut asked = asked(frames.len());
        let answer = |is_carried, packets| {
            Ok(Carried {
                is_carried,
                packets,
            })
        };
        let packets = bonded_slots(&settings).len();
        assert_eq!(read_headers(&group, &asked), answer(true, packets));
        asked.ts_id += 1;
        assert_eq!(read_headers(&group, &asked), answer(false, 0));
        assert_eq!(read_headers(&group[1..], &asked), Err(1.into()));
        asked.carriers = 9;
        assert_eq!(read_headers(&group, &asked), Err(17.into()));
    }
}
