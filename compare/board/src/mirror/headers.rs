//! The calls on numbers, settings and packets.

use super::{fixed, fixed_length, known_kind, refusal, unless, Checked};
use crate::coding::{setting_bytes, setting_of, SETTING_BYTES};
use reference::{
    content, crc32, fields_fit, fits_a_slot, header_pid, Kind, Refusal, Setting, PACKET_BYTES,
    SLOTS, STREAMS,
};

pub fn crc(bytes: &[u8]) -> u32 {
    crc32(bytes)
}

pub fn pid_allowed(pid: u16) -> bool {
    header_pid(pid).is_ok()
}

fn number_from_1(n: u8, last: usize) -> u8 {
    refusal(unless((1..=last).contains(&usize::from(n)), 17))
}

pub fn slot(n: u8) -> u8 {
    number_from_1(n, SLOTS)
}

pub fn relative_number(n: u8) -> u8 {
    number_from_1(n, STREAMS)
}

pub fn frame_position(n: u8) -> u8 {
    number_from_1(n, 4)
}

fn with_availability(availability: u16) -> Setting {
    Setting {
        availability,
        ..Setting::ZEROS
    }
}

pub fn is_available(r: u8, availability: u16) -> bool {
    with_availability(availability).is_available(r.into())
}

pub fn count_available(availability: u16) -> u32 {
    with_availability(availability).available_streams() as u32
}

pub fn setting_blank(setting: &mut [u8]) -> u8 {
    refusal(blank(setting))
}

fn blank(setting: &mut [u8]) -> Checked {
    fixed_length(setting, SETTING_BYTES)?;
    setting.copy_from_slice(&setting_bytes(&Setting::ZEROS));
    Ok(())
}

pub fn setting_widths(setting: &[u8], kind: u8) -> u8 {
    refusal(checked(setting, kind, fields_fit))
}

pub fn setting_rules(setting: &[u8], kind: u8) -> u8 {
    refusal(checked(setting, kind, content))
}

fn checked(setting: &[u8], kind: u8, check: fn(Kind, &Setting) -> Checked) -> Checked {
    let setting = setting_of(fixed(setting)?);
    check(known_kind(kind)?, &setting)
}

pub fn header_write(packet: &mut [u8], pid: u16, kind: u8, setting: &[u8]) -> u8 {
    refusal(write(packet, pid, kind, setting))
}

fn write(packet: &mut [u8], pid: u16, kind: u8, setting: &[u8]) -> Checked {
    fixed_length(packet, PACKET_BYTES)?;
    let setting = setting_of(fixed(setting)?);
    header_pid(pid)?;
    match reference::write(packet, pid, known_kind(kind)?, &setting) {
        0 => Ok(()),
        refusal => Err(refusal),
    }
}

pub fn header_read(packet: &[u8], pid: u16, kind: u8, setting: &mut [u8]) -> (u8, u32) {
    match read(packet, pid, kind, setting) {
        Ok(()) => (0, 0),
        Err(Refusal { number, remainder }) => (number, remainder),
    }
}

fn read(packet: &[u8], pid: u16, kind: u8, setting: &mut [u8]) -> Result<(), Refusal> {
    fixed_length(packet, PACKET_BYTES)?;
    fixed_length(setting, SETTING_BYTES)?;
    header_pid(pid)?;
    let header = reference::read(packet, pid, known_kind(kind)?)?;
    setting.copy_from_slice(&setting_bytes(&header));
    Ok(())
}

pub fn place_refusal(packet: &[u8], pid: u16) -> u8 {
    refusal(place(packet, pid))
}

fn place(packet: &[u8], pid: u16) -> Checked {
    unless(fits_a_slot(fixed(packet)?, pid), 12)
}
