//! Settings that the calls accept, in the bytes of niranbok.h, and one field of
//! them set.

use crate::table::{Kind, Place, Table, EXTENDED, SHORT};

/// A setting of a kind that breaks no rule, with all streams available and none
/// in a slot: each field may then take any value of its range by itself.
pub fn good(table: &Table, kind: Kind) -> Vec<u8> {
    let mut setting = table.zeros("setting");
    let (frame_type, availability, streams) = match kind {
        SHORT => (3, 0x7F00, 7),
        _ => (1, 0x7FFF, 15),
    };
    set(table, &mut setting, "frame_type", 0, frame_type);
    set(table, &mut setting, "availability", 0, availability);
    for stream in 0..streams {
        set(table, &mut setting, "ts_id", stream, 100 + stream as u64);
        let network = 200 + stream as u64;
        set(table, &mut setting, "original_network_id", stream, network);
    }
    if kind == EXTENDED {
        set(table, &mut setting, "number_of_carriers", 0, 8);
        set(table, &mut setting, "carrier_sequence", 0, 1);
        set(table, &mut setting, "number_of_frames", 0, 4);
        set(table, &mut setting, "frame_position", 0, 1);
    }
    setting
}

/// The fields of two bytes: niranbok.h says so beside their places.
pub fn is_word(name: &str) -> bool {
    ["availability", "ts_id", "original_network_id"].contains(&name)
}

pub fn place<'a>(table: &'a Table, name: &str) -> Option<&'a Place> {
    table.places.iter().find(|place| place.name == name)
}

/// How many values a field has: one, or one for each stream, slot or byte.
pub fn count(place: &Place) -> usize {
    place.bytes / if is_word(&place.name) { 2 } else { 1 }
}

/// Sets the value of a field with this number, from 0.
pub fn set(table: &Table, setting: &mut [u8], name: &str, which: usize, value: u64) {
    let place = place(table, name).unwrap_or_else(|| panic!("limits prints no place {name}"));
    assert!(which < count(place), "{name} has no value {which}");
    if is_word(name) {
        let word = u16::try_from(value).expect("a word");
        setting[place.at + 2 * which..][..2].copy_from_slice(&word.to_be_bytes());
    } else {
        setting[place.at + which] = u8::try_from(value).expect("a byte");
    }
}
