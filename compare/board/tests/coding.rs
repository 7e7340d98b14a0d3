//! Settings and states come back from their bytes, and bytes that are no value
//! are told.

use board::coding::{
    composer_bytes, composer_of, kind_byte, kind_of, receiver_bytes, receiver_of, setting_bytes,
    setting_of, state_size, COMPOSER_BYTES, FILLED, IS_OPEN, KIND, RECEIVER_BYTES, SETTING_BYTES,
};
use board::random::Random;
use reference::{Composer, Kind, Receiver, Setting, Standing};

fn drawn<const N: usize>(random: &mut Random) -> [u8; N] {
    let mut bytes = [0; N];
    random.fill(&mut bytes);
    bytes
}

/// Any bytes of a state, its kind and marks being values.
fn drawn_composer(random: &mut Random, is_open: bool) -> [u8; COMPOSER_BYTES] {
    let mut bytes = drawn::<COMPOSER_BYTES>(random);
    bytes[KIND] %= 3;
    bytes[IS_OPEN] = is_open.into();
    for mark in &mut bytes[FILLED] {
        *mark %= 2;
    }
    bytes
}

fn drawn_receiver(random: &mut Random, stage: u8) -> [u8; RECEIVER_BYTES] {
    let mut bytes = drawn::<RECEIVER_BYTES>(random);
    bytes[KIND] %= 3;
    bytes[3] = stage;
    if stage == 0 {
        bytes[4] = 0;
    }
    if stage != 1 {
        bytes[5] = 0;
    }
    bytes
}

#[test]
fn any_bytes_are_a_setting() {
    let mut random = Random::new(1);
    for _ in 0..1000 {
        let bytes = drawn::<SETTING_BYTES>(&mut random);
        assert_eq!(setting_bytes(&setting_of(&bytes)), bytes);
    }
    assert_eq!(setting_bytes(&Setting::ZEROS), [0; SETTING_BYTES]);
}

#[test]
fn states_of_composers() {
    let mut random = Random::new(2);
    for _ in 0..1000 {
        let bytes = drawn_composer(&mut random, true);
        let composer = composer_of(&bytes).unwrap();
        assert_eq!(composer_bytes(&composer), bytes);
        let mut closed = drawn_composer(&mut random, false);
        let composer = composer_of(&closed).unwrap();
        assert_eq!(composer.open, None);
        closed[IS_OPEN + 1..].fill(0);
        assert_eq!(composer_bytes(&composer), closed);
    }
}

#[test]
fn states_of_receivers() {
    let mut random = Random::new(3);
    for number in 0..250 {
        let bytes = drawn_receiver(&mut random, number % 3);
        let receiver = receiver_of(&bytes).unwrap();
        assert_eq!(receiver_bytes(&receiver), bytes);
    }
}

/// The byte of a kind, a mark or a stage, one by one.
#[test]
fn bytes_that_are_no_value() {
    let mut random = Random::new(4);
    for value in 2..=u8::MAX {
        for is_open in [false, true] {
            for place in [KIND, IS_OPEN, 384, 424, 435] {
                let mut bytes = drawn_composer(&mut random, is_open);
                bytes[place] = value;
                let is_value = place == KIND && value == 2;
                assert_eq!(composer_of(&bytes).is_some(), is_value);
            }
        }
        for stage in [0, 1, 2] {
            let mut bytes = drawn_receiver(&mut random, stage);
            bytes[KIND] = value;
            assert_eq!(receiver_of(&bytes).is_some(), value == 2);
        }
        let mut bytes = drawn_receiver(&mut random, 1);
        bytes[3] = value.max(3);
        assert_eq!(receiver_of(&bytes), None);
    }
}

#[test]
fn zeros_where_zeros_are_said() {
    let mut random = Random::new(5);
    for (stage, place) in [(0, 4), (0, 5), (2, 5)] {
        let mut bytes = drawn_receiver(&mut random, stage);
        bytes[place] = 1;
        assert_eq!(receiver_of(&bytes), None);
    }
}

/// By the words of niranbok.h: 15 and 7 before the first header.
#[test]
fn fresh_states() {
    for (number, kind) in [Kind::Plain, Kind::Extended, Kind::Short]
        .into_iter()
        .enumerate()
    {
        let number = number as u8;
        let (_, composer) = Composer::start(0x1234, kind);
        let mut expected = [0; COMPOSER_BYTES];
        expected[..5].copy_from_slice(&[0x12, 0x34, number, 15, 7]);
        assert_eq!(composer_bytes(&composer), expected);
        let (_, receiver) = Receiver::start(0x1234, kind);
        let mut expected = [0; RECEIVER_BYTES];
        expected[..3].copy_from_slice(&[0x12, 0x34, number]);
        assert_eq!(receiver_bytes(&receiver), expected);
        assert_eq!(receiver.standing, Standing::Waiting);
    }
}

/// Where the kind is no value, lengths are those of plain headers.
#[test]
fn kinds_and_their_sizes() {
    for number in 0..=u8::MAX {
        let kind = kind_of(number);
        assert_eq!(kind.map(kind_byte), (number <= 2).then_some(number));
        let size = state_size(&[0x12, 0x34, number]);
        let frame = if number == 2 { 7708 } else { 9964 };
        assert_eq!(
            (size.frame_bytes(), size.store_bytes()),
            (frame, frame - 188)
        );
    }
}
