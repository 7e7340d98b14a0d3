//! Settings and states to and from the bytes that niranbok.h lays out. Numbers
//! of 16 bits have the high byte first.

use reference::{
    Announced, Composer, Kind, OpenFrame, Receiver, Setting, Size, Standing, SLOTS, STREAMS,
};
use std::ops::Range;

pub const SETTING_BYTES: usize = 298;
pub const COMPOSER_BYTES: usize = 436;
pub const RECEIVER_BYTES: usize = 58;

/// Where the parts of a setting start, the first four being bytes 0 to 3.
const AVAILABILITY: usize = 4;
const TS_ID: usize = 6;
const ORIGINAL_NETWORK_ID: usize = 36;
const RECEIVE_STATUS: Range<usize> = 66..81;
const EMERGENCY_INDICATOR: usize = 81;
const RELATIVE_TS_NUMBER: Range<usize> = 82..134;
const PRIVATE_DATA: Range<usize> = 134..265;
const AUXILIARY: Range<usize> = 265..293;
const BONDING: Range<usize> = 293..298;

/// Where the parts of a composer's state start. What the last header announced
/// is laid out as in a setting, from its slot_allocation_type on.
pub const ANNOUNCED: Range<usize> = 5..85;
pub const IS_OPEN: usize = 85;
pub const OPEN_SETTING: Range<usize> = 86..384;
pub const FILLED: Range<usize> = 384..436;
/// Announced bytes, as they stand in a setting.
const ANNOUNCED_IN_SETTING: Range<usize> = 2..82;

/// Where the slot numbers of a receiver's state stand, two a byte.
pub const NUMBERS: Range<usize> = 6..32;
pub const NUMBERS_BEFORE: Range<usize> = 32..58;

/// Where every state has its kind.
pub const KIND: usize = 2;

pub fn kind_of(byte: u8) -> Option<Kind> {
    match byte {
        0 => Some(Kind::Plain),
        1 => Some(Kind::Extended),
        2 => Some(Kind::Short),
        _ => None,
    }
}

pub fn kind_byte(kind: Kind) -> u8 {
    match kind {
        Kind::Plain => 0,
        Kind::Extended => 1,
        Kind::Short => 2,
    }
}

/// The header PID in front of a state.
pub fn state_pid(state: &[u8]) -> u16 {
    sixteen(state, 0)
}

/// The size of a state's frames: by its kind, and by the plain one where that
/// is no value.
pub fn state_size(state: &[u8]) -> Size {
    let kind = state.get(KIND).and_then(|&kind| kind_of(kind));
    kind.unwrap_or(Kind::Plain).size()
}

fn sixteen(bytes: &[u8], at: usize) -> u16 {
    u16::from_be_bytes([bytes[at], bytes[at + 1]])
}

fn put_sixteen(bytes: &mut [u8], at: usize, number: u16) {
    bytes[at..at + 2].copy_from_slice(&number.to_be_bytes());
}

fn array<const N: usize>(bytes: &[u8]) -> [u8; N] {
    bytes.try_into().expect("the range is as long")
}

/// Any bytes are a setting, good or bad.
pub fn setting_of(bytes: &[u8; SETTING_BYTES]) -> Setting {
    let announced = announced_of(&bytes[ANNOUNCED_IN_SETTING]);
    let [group_id, number_of_carriers, carrier_sequence, number_of_frames, frame_position] =
        array(&bytes[BONDING]);
    Setting {
        continuity_counter: bytes[0],
        version_number: bytes[1],
        slot_allocation_type: announced.slot_allocation_type,
        frame_type: announced.frame_type,
        availability: announced.availability,
        ts_id: announced.ts_id,
        original_network_id: announced.original_network_id,
        receive_status: announced.receive_status,
        emergency_indicator: announced.emergency_indicator,
        relative_ts_number: array(&bytes[RELATIVE_TS_NUMBER]),
        private_data: array(&bytes[PRIVATE_DATA]),
        auxiliary: array(&bytes[AUXILIARY]),
        group_id,
        number_of_carriers,
        carrier_sequence,
        number_of_frames,
        frame_position,
    }
}

pub fn setting_bytes(setting: &Setting) -> [u8; SETTING_BYTES] {
    let mut bytes = [0; SETTING_BYTES];
    bytes[0] = setting.continuity_counter;
    bytes[1] = setting.version_number;
    put_announced(&mut bytes[ANNOUNCED_IN_SETTING], &Announced::of(setting));
    bytes[RELATIVE_TS_NUMBER].copy_from_slice(&setting.relative_ts_number);
    bytes[PRIVATE_DATA].copy_from_slice(&setting.private_data);
    bytes[AUXILIARY].copy_from_slice(&setting.auxiliary);
    bytes[BONDING].copy_from_slice(&[
        setting.group_id,
        setting.number_of_carriers,
        setting.carrier_sequence,
        setting.number_of_frames,
        setting.frame_position,
    ]);
    bytes
}

/// The places in these bytes are those in a setting, less the two in front.
fn announced_of(bytes: &[u8]) -> Announced {
    let at = |place: usize| place - ANNOUNCED_IN_SETTING.start;
    let sixteens = |start: usize| std::array::from_fn(|i| sixteen(bytes, at(start) + 2 * i));
    Announced {
        slot_allocation_type: bytes[0],
        frame_type: bytes[1],
        availability: sixteen(bytes, at(AVAILABILITY)),
        ts_id: sixteens(TS_ID),
        original_network_id: sixteens(ORIGINAL_NETWORK_ID),
        receive_status: array(&bytes[at(RECEIVE_STATUS.start)..at(RECEIVE_STATUS.end)]),
        emergency_indicator: bytes[at(EMERGENCY_INDICATOR)],
    }
}

fn put_announced(bytes: &mut [u8], announced: &Announced) {
    let at = |place: usize| place - ANNOUNCED_IN_SETTING.start;
    bytes[0] = announced.slot_allocation_type;
    bytes[1] = announced.frame_type;
    put_sixteen(bytes, at(AVAILABILITY), announced.availability);
    for i in 0..STREAMS {
        put_sixteen(bytes, at(TS_ID) + 2 * i, announced.ts_id[i]);
        let network = announced.original_network_id[i];
        put_sixteen(bytes, at(ORIGINAL_NETWORK_ID) + 2 * i, network);
    }
    let statuses = at(RECEIVE_STATUS.start)..at(RECEIVE_STATUS.end);
    bytes[statuses].copy_from_slice(&announced.receive_status);
    bytes[at(EMERGENCY_INDICATOR)] = announced.emergency_indicator;
}

/// None where the kind or a mark is no value. Marks are looked at and the
/// setting is not where no frame is open.
pub fn composer_of(bytes: &[u8; COMPOSER_BYTES]) -> Option<Composer> {
    let is_open = mark_of(bytes[IS_OPEN])?;
    let mut filled = [false; SLOTS];
    for (filled, &byte) in filled.iter_mut().zip(&bytes[FILLED]) {
        *filled = mark_of(byte)?;
    }
    let setting = setting_of(&array(&bytes[OPEN_SETTING]));
    Some(Composer {
        pid: state_pid(bytes),
        kind: kind_of(bytes[KIND])?,
        continuity_counter: bytes[3],
        version_number: bytes[4],
        announced: announced_of(&bytes[ANNOUNCED]),
        open: is_open.then_some(OpenFrame { setting, filled }),
    })
}

fn mark_of(byte: u8) -> Option<bool> {
    match byte {
        0 => Some(false),
        1 => Some(true),
        _ => None,
    }
}

/// Where no frame is open, its setting and marks are zeros.
pub fn composer_bytes(composer: &Composer) -> [u8; COMPOSER_BYTES] {
    let mut bytes = [0; COMPOSER_BYTES];
    put_sixteen(&mut bytes, 0, composer.pid);
    bytes[KIND] = kind_byte(composer.kind);
    bytes[3] = composer.continuity_counter;
    bytes[4] = composer.version_number;
    put_announced(&mut bytes[ANNOUNCED], &composer.announced);
    if let Some(open) = &composer.open {
        bytes[IS_OPEN] = 1;
        bytes[OPEN_SETTING].copy_from_slice(&setting_bytes(&open.setting));
        bytes[FILLED].copy_from_slice(&open.filled.map(u8::from));
    }
    bytes
}

/// None where the kind or the stage is no value, or something else than 0
/// stands where 0 has to.
pub fn receiver_of(bytes: &[u8; RECEIVER_BYTES]) -> Option<Receiver> {
    let [kind, stage, continuity_counter, stored] = array(&bytes[2..6]);
    let standing = match (stage, continuity_counter, stored) {
        (0, 0, 0) => Standing::Waiting,
        (1, _, _) => Standing::Open {
            continuity_counter,
            stored: stored.into(),
        },
        (2, _, 0) => Standing::Ready { continuity_counter },
        _ => return None,
    };
    Some(Receiver {
        pid: state_pid(bytes),
        kind: kind_of(kind)?,
        standing,
        relative_ts_number: halves(&bytes[NUMBERS]),
        relative_ts_number_before: halves(&bytes[NUMBERS_BEFORE]),
    })
}

/// The first slot's number is the high half of the first byte.
fn halves(bytes: &[u8]) -> [u8; SLOTS] {
    std::array::from_fn(|slot| match slot % 2 {
        0 => bytes[slot / 2] >> 4,
        _ => bytes[slot / 2] & 15,
    })
}

/// A number above 15 has no half to stand in.
fn put_halves(bytes: &mut [u8], numbers: &[u8; SLOTS]) {
    assert!(numbers.iter().all(|&number| number <= 15));
    let (twos, _) = numbers.as_chunks::<2>();
    for (byte, [high, low]) in bytes.iter_mut().zip(twos) {
        *byte = high << 4 | low;
    }
}

pub fn receiver_bytes(receiver: &Receiver) -> [u8; RECEIVER_BYTES] {
    let mut bytes = [0; RECEIVER_BYTES];
    put_sixteen(&mut bytes, 0, receiver.pid);
    bytes[KIND] = kind_byte(receiver.kind);
    bytes[3..6].copy_from_slice(&match receiver.standing {
        Standing::Waiting => [0, 0, 0],
        Standing::Open {
            continuity_counter,
            stored,
        } => [1, continuity_counter, stored as u8],
        Standing::Ready { continuity_counter } => [2, continuity_counter, 0],
    });
    put_halves(&mut bytes[NUMBERS], &receiver.relative_ts_number);
    put_halves(
        &mut bytes[NUMBERS_BEFORE],
        &receiver.relative_ts_number_before,
    );
    bytes
}
