//! What this package says of niranbok.h, held against the file.

use board::coding::{kind_byte, setting_bytes, COMPOSER_BYTES, RECEIVER_BYTES, SETTING_BYTES};
use board::judge::{CALLS, EVENTS};
use reference::{Kind, Setting, FRAME_BYTES, PACKET_BYTES, STORE_BYTES};

const HEADER: &str = include_str!("../../../include/niranbok.h");
const ARCHIVE: &str = include_str!("../src/archive.rs");

/// The number that a name is defined as.
fn defined(name: &str) -> usize {
    let define = format!("#define NIRANBOK_{name} ");
    let line = HEADER.lines().find_map(|line| line.strip_prefix(&define));
    let number = line.and_then(|line| line.split(' ').next());
    number.unwrap().parse().unwrap()
}

/// The calls that it declares, in its order.
fn declared() -> Vec<&'static str> {
    let lines = HEADER
        .lines()
        .filter(|line| !line.starts_with([' ', '/', '#']));
    lines
        .filter_map(|line| line.split_once("niranbok_")?.1.split_once('('))
        .map(|(name, _)| name)
        .collect()
}

#[test]
fn every_call_is_judged() {
    let judged: Vec<&str> = CALLS.iter().map(|(_, name, _)| *name).collect();
    assert_eq!(declared(), judged);
    for (place, (call, _, _)) in CALLS.iter().enumerate() {
        assert_eq!(*call as usize, place);
    }
}

/// What stands behind a call's name: its parameters, up to this end.
fn parameters(text: &'static str, name: &str, end: &str) -> Vec<&'static str> {
    let start = format!("niranbok_{name}(");
    let parts = text.split_once(&start).map(|(_, behind)| behind);
    let (parameters, _) = parts.and_then(|parts| parts.split_once(end)).unwrap();
    let parameters = parameters.split(',').map(str::trim);
    parameters.filter(|text| !text.is_empty()).collect()
}

/// A parameter of C as Rust has it.
fn in_rust(parameter: &str) -> String {
    let (of, name) = parameter.rsplit_once(' ').unwrap();
    let pointer = match (name.starts_with('*'), of.starts_with("const ")) {
        (true, true) => "*const ",
        (true, false) => "*mut ",
        (false, _) => "",
    };
    let number = match of.trim_start_matches("const ") {
        "uint8_t" => "u8",
        "uint16_t" => "u16",
        "uint32_t" => "u32",
        "size_t" => "usize",
        other => panic!("{other} is no number of niranbok.h"),
    };
    format!("{}: {pointer}{number}", name.trim_start_matches('*'))
}

/// A parameter too few or of another type would be trusted.
#[test]
fn every_parameter() {
    for (_, name, _) in CALLS {
        let declared = parameters(HEADER, name, ");");
        let declared: Vec<String> = declared.into_iter().map(in_rust).collect();
        assert_eq!(parameters(ARCHIVE, name, ")"), declared, "{name}");
    }
}

/// The calls that read headers tell a remainder, and no other does.
#[test]
fn remainders() {
    let last = |name| parameters(ARCHIVE, name, ")").last().copied();
    let told = CALLS.iter().map(|(_, name, _)| *name);
    let told = told.filter(|name| last(name) == Some("remainder: *mut u32"));
    let expected = [
        "header_read",
        "receiver_receive",
        "read_headers",
        "spread",
        "gather",
    ];
    assert_eq!(told.collect::<Vec<_>>(), expected);
}

#[test]
fn lengths() {
    assert_eq!(defined("PACKET_BYTES"), PACKET_BYTES);
    assert_eq!(defined("FRAME_BYTES"), FRAME_BYTES);
    assert_eq!(defined("STORE_BYTES"), STORE_BYTES);
    let short = Kind::Short.size();
    assert_eq!(defined("SHORT_FRAME_BYTES"), short.frame_bytes());
    assert_eq!(defined("SHORT_STORE_BYTES"), short.store_bytes());
    let private_data = Kind::Plain.private_data_bytes();
    assert_eq!(defined("PRIVATE_DATA_BYTES"), private_data);
    let private_data = Kind::Short.private_data_bytes();
    assert_eq!(defined("SHORT_PRIVATE_DATA_BYTES"), private_data);
    assert_eq!(defined("SETTING_BYTES"), SETTING_BYTES);
    assert_eq!(defined("COMPOSER_BYTES"), COMPOSER_BYTES);
    assert_eq!(defined("RECEIVER_BYTES"), RECEIVER_BYTES);
}

#[test]
fn kinds() {
    let kinds = [
        ("PLAIN", Kind::Plain),
        ("EXTENDED", Kind::Extended),
        ("SHORT_FRAME", Kind::Short),
    ];
    for (name, kind) in kinds {
        assert_eq!(defined(name), kind_byte(kind).into());
    }
}

#[test]
fn events() {
    for (number, event) in EVENTS.iter().enumerate() {
        assert_eq!(defined(&event.to_uppercase()), number);
    }
}

/// Sets a field, or the last of its elements.
type Set = fn(&mut Setting);

/// The names of fields, and where the last byte of each stands behind its
/// start.
const FIELDS: [(&str, usize, Set); 17] = [
    ("CONTINUITY_COUNTER", 0, |s| s.continuity_counter = 7),
    ("VERSION_NUMBER", 0, |s| s.version_number = 7),
    ("SLOT_ALLOCATION_TYPE", 0, |s| s.slot_allocation_type = 7),
    ("FRAME_TYPE", 0, |s| s.frame_type = 7),
    ("AVAILABILITY", 1, |s| s.availability = 7),
    ("TS_ID", 29, |s| s.ts_id[14] = 7),
    ("ORIGINAL_NETWORK_ID", 29, |s| s.original_network_id[14] = 7),
    ("RECEIVE_STATUS", 14, |s| s.receive_status[14] = 7),
    ("EMERGENCY_INDICATOR", 0, |s| s.emergency_indicator = 7),
    ("RELATIVE_TS_NUMBER", 51, |s| s.relative_ts_number[51] = 7),
    ("PRIVATE_DATA", 130, |s| s.private_data[130] = 7),
    ("AUXILIARY", 27, |s| s.auxiliary[27] = 7),
    ("GROUP_ID", 0, |s| s.group_id = 7),
    ("NUMBER_OF_CARRIERS", 0, |s| s.number_of_carriers = 7),
    ("CARRIER_SEQUENCE", 0, |s| s.carrier_sequence = 7),
    ("NUMBER_OF_FRAMES", 0, |s| s.number_of_frames = 7),
    ("FRAME_POSITION", 0, |s| s.frame_position = 7),
];

#[test]
fn fields_of_a_setting() {
    for (name, last, set) in FIELDS {
        let mut setting = Setting::ZEROS;
        set(&mut setting);
        let mut expected = [0; SETTING_BYTES];
        expected[defined(name) + last] = 7;
        assert_eq!(setting_bytes(&setting), expected, "{name}");
    }
}
