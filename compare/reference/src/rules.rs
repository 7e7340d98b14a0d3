//! The rules that a setting meets or breaks, each with its refusal number.
//! Writer, reader and composer share 8 to 11. The reader has no 17, because
//! a packet has no room for a field that is too large. It alone has 20, because
//! a setting has no reserved bits.

use crate::announced::Announced;
use crate::layout::{
    FIRST_PID, LAST_CARRIER, LAST_COUNTER, LAST_PID, LAST_VERSION, SLOTS, STREAMS,
};
use crate::setting::{Kind, Setting};
use crate::size::Size;

pub type Checked = Result<(), u8>;

#[inline]
pub fn unless(met: bool, refusal: u8) -> Checked {
    if met {
        Ok(())
    } else {
        Err(refusal)
    }
}

/// Of two settings' answers the one that stands first in the table, both
/// being 8 to 11.
#[inline]
pub fn earlier(one: Checked, other: Checked) -> Checked {
    match (one, other) {
        (Err(one), Err(other)) => Err(one.min(other)),
        (one, other) => one.and(other),
    }
}

#[inline]
pub fn fixed_length(length: usize, fixed: usize) -> Checked {
    unless(length == fixed, 1)
}

/// 2
#[inline]
pub fn header_pid(pid: u16) -> Checked {
    unless((FIRST_PID..=LAST_PID).contains(&pid), 2)
}

/// 17: the number of a stream, which 0 is not.
#[inline]
pub fn stream_number(size: Size, number: u8) -> Checked {
    unless((1..=size.streams).contains(&usize::from(number)), 17)
}

/// 17: a number of each slot, of which 0 is one. Behind the last slot is none.
#[inline(always)]
pub fn slot_numbers_fit(size: Size, numbers: &[u8; SLOTS]) -> Checked {
    let (slots, behind) = numbers.split_at(size.slots);
    unless(are_numbers(size, slots) && any_bit(behind) == 0, 17)
}

#[inline(always)]
fn are_numbers(size: Size, numbers: &[u8]) -> bool {
    usize::from(any_bit(numbers)) <= size.streams
}

/// 17: counter and version, in a setting or in a state.
#[inline]
pub fn counts_fit(continuity_counter: u8, version_number: u8) -> Checked {
    let counter_fits = continuity_counter <= LAST_COUNTER;
    unless(counter_fits && version_number <= LAST_VERSION, 17)
}

/// 17: a field too large for its bits. A part that the kind lacks has none.
pub fn fields_fit(kind: Kind, setting: &Setting) -> Checked {
    by_kind!(kind, kind => fields_fit_kind(kind, setting))
}

#[inline(always)]
fn fields_fit_kind(kind: Kind, setting: &Setting) -> Checked {
    counts_fit(setting.continuity_counter, setting.version_number)?;
    announced_fits(kind.size(), &Announced::of(setting))?;
    slot_numbers_fit(kind.size(), &setting.relative_ts_number)?;
    let behind = any_bit(&setting.private_data[kind.private_data_bytes()..]);
    let lacking = match kind {
        Kind::Plain | Kind::Short => behind | extended_parts(setting),
        Kind::Extended => behind,
    };
    unless(lacking == 0, 17)
}

/// 17: the part between version and slot numbers, in a setting or in a state.
/// Behind the last stream there is nothing.
#[inline(always)]
pub fn announced_fits(size: Size, announced: &Announced) -> Checked {
    let behind = size.streams..STREAMS;
    let met = announced.slot_allocation_type < 2
        && announced.frame_type < 16
        && announced.availability & !size.all_available() == 0
        && any_bit(&announced.receive_status) < 4
        && announced.emergency_indicator < 2
        && any_bit(&announced.receive_status[behind.clone()]) == 0
        && announced.ts_id[behind.clone()].iter().all(|&id| id == 0)
        && announced.original_network_id[behind]
            .iter()
            .all(|&id| id == 0);
    unless(met, 17)
}

fn extended_parts(setting: &Setting) -> u8 {
    any_bit(&setting.auxiliary)
        | setting.group_id
        | setting.number_of_carriers
        | setting.carrier_sequence
        | setting.number_of_frames
        | setting.frame_position
}

/// The bits that one of the bytes has. Where the limit is a power of two, it
/// is above all of them when it is above this.
#[inline]
fn any_bit(bytes: &[u8]) -> u8 {
    bytes.iter().fold(0, |bits, byte| bits | byte)
}

/// 8 to 11, in the order of the table, of all slots and streams of a setting.
/// Those that the kind does not have are zeros, or a 17 came first.
pub fn content(kind: Kind, setting: &Setting) -> Checked {
    by_kind!(kind, kind => content_of_kind(kind, setting))
}

#[inline(always)]
fn content_of_kind(kind: Kind, setting: &Setting) -> Checked {
    unless(kind.frame_types().contains(&setting.frame_type), 8)?;
    unless(numbered_slots_are_available(Size::LARGE, setting), 9)?;
    unless(available_pairs_differ(Size::LARGE, setting), 10)?;
    unless(bonding_is_allowed(kind, setting), 11)
}

/// Number 0 is a slot without a stream, and names nothing: its bit stands in
/// front of stream 1's.
#[inline(always)]
fn numbered_slots_are_available(size: Size, setting: &Setting) -> bool {
    const NO_STREAM: u16 = 1 << STREAMS;
    let numbers = &setting.relative_ts_number[..size.slots];
    let named = numbers
        .iter()
        .fold(0, |bits, number| bits | NO_STREAM >> (number & 15));
    are_numbers(size, numbers) && named & !(NO_STREAM | setting.availability) == 0
}

/// Each pair of an available stream is held against those in front of it.
#[inline(always)]
fn available_pairs_differ(size: Size, setting: &Setting) -> bool {
    let mut pairs = [0; STREAMS];
    let mut count = 0;
    for stream in 0..size.streams {
        if setting.is_available(stream + 1) {
            let [ts_id, network] = [setting.ts_id[stream], setting.original_network_id[stream]];
            pairs[count] = u32::from(ts_id) << 16 | u32::from(network);
            count += 1;
        }
    }
    (1..count).all(|last| !pairs[..last].contains(&pairs[last]))
}

/// Only an extended header has bonding fields to break the rule with.
#[inline(always)]
fn bonding_is_allowed(kind: Kind, setting: &Setting) -> bool {
    kind != Kind::Extended
        || (1..=LAST_CARRIER).contains(&setting.number_of_carriers)
            && (1..=setting.number_of_carriers).contains(&setting.carrier_sequence)
            && (3..=4).contains(&setting.number_of_frames)
            && (1..=setting.number_of_frames).contains(&setting.frame_position)
}
