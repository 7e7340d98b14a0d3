//! The header writer.

use crate::crc::crc32;
use crate::layout::{
    AUXILIARY, BEFORE_COUNTER, BONDING, CRC, PACKET_BYTES, RESERVED, SYNC_BYTE, THIRTEEN_BITS,
    TSMF_SYNC, UNDER_CRC,
};
use crate::numbers::pack;
use crate::rules::{content, fields_fit, header_pid, Checked};
use crate::setting::{Kind, Setting};
use crate::size::Size;

/// Answers 0 and fills the buffer, or answers the refusal and leaves it.
pub fn write(buffer: &mut [u8], pid: u16, kind: Kind, setting: &Setting) -> u8 {
    let Ok(packet) = buffer.try_into() else {
        return 1;
    };
    match check(pid, kind, setting) {
        Ok(()) => {
            fill(packet, pid, kind, setting);
            0
        }
        Err(refusal) => refusal,
    }
}

fn check(pid: u16, kind: Kind, setting: &Setting) -> Checked {
    header_pid(pid)?;
    fields_fit(kind, setting)?;
    content(kind, setting)
}

/// Writes the header of a setting that meets the rules. Reserved bits are
/// ones (J.183, 3.6).
pub(crate) fn fill(packet: &mut [u8; PACKET_BYTES], pid: u16, kind: Kind, setting: &Setting) {
    packet[0] = SYNC_BYTE;
    packet[1..3].copy_from_slice(&pid.to_be_bytes());
    packet[3] = BEFORE_COUNTER | setting.continuity_counter;
    packet[4..6].copy_from_slice(&(!THIRTEEN_BITS | TSMF_SYNC).to_be_bytes());
    packet[6] =
        setting.version_number << 5 | setting.slot_allocation_type << 4 | setting.frame_type;
    by_kind!(kind, kind => sized(packet, kind, setting));
    let crc = crc32(&packet[UNDER_CRC]);
    packet[CRC].copy_from_slice(&crc.to_be_bytes());
}

/// What stands elsewhere in each size.
#[inline(always)]
fn sized(packet: &mut [u8; PACKET_BYTES], kind: Kind, setting: &Setting) {
    let size = kind.size();
    let bytes = &mut packet[size.availability()];
    bytes.copy_from_slice(&available(size, setting).to_be_bytes()[..bytes.len()]);
    identifiers(&mut packet[size.identifiers()], setting);
    let bytes = &mut packet[size.control()];
    bytes.copy_from_slice(&control(size, setting).to_be_bytes()[4 - bytes.len()..]);
    pack(
        &mut packet[size.slot_numbers()],
        size,
        &setting.relative_ts_number,
    );
    if kind == Kind::Extended {
        return extension(packet, setting);
    }
    let private_data = &mut packet[size.private_data()];
    private_data.copy_from_slice(&setting.private_data[..private_data.len()]);
}

/// The bits of all streams and the reserved one behind them, at the front of
/// sixteen.
#[inline(always)]
fn available(size: Size, setting: &Setting) -> u16 {
    setting.availability << 1 | 1 << (15 - size.streams)
}

#[inline(always)]
fn identifiers(bytes: &mut [u8], setting: &Setting) {
    let (pairs, _) = bytes.as_chunks_mut::<4>();
    for ((pair, ts_id), network) in pairs
        .iter_mut()
        .zip(&setting.ts_id)
        .zip(&setting.original_network_id)
    {
        *pair = (u32::from(*ts_id) << 16 | u32::from(*network)).to_be_bytes();
    }
}

/// Two bits for each stream, one reserved bit, and emergency_indicator.
#[inline(always)]
fn control(size: Size, setting: &Setting) -> u32 {
    let statuses = setting.receive_status[..size.streams].iter();
    let statuses = statuses.fold(0, |bits, &status| bits << 2 | u32::from(status));
    statuses << 2 | 0b10 | u32::from(setting.emergency_indicator)
}

/// What stands in the place of private_data in an extended header.
fn extension(packet: &mut [u8; PACKET_BYTES], setting: &Setting) {
    packet[AUXILIARY].copy_from_slice(&setting.auxiliary);
    packet[BONDING].copy_from_slice(&[
        setting.group_id,
        setting.number_of_carriers,
        setting.carrier_sequence,
        setting.number_of_frames << 4 | setting.frame_position,
    ]);
    packet[RESERVED].fill(0xFF);
}
