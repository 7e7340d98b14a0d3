//! The header reader.

use crate::crc::crc32;
use crate::layout::{
    AUXILIARY, BEFORE_COUNTER, BONDING, PACKET_BYTES, RESERVED, SYNC_BYTE, THIRTEEN_BITS,
    TSMF_SYNC, UNDER_CRC,
};
use crate::numbers::unpack;
use crate::packet::{found_pid, sixteen};
use crate::refusal::Refusal;
use crate::rules::{content, header_pid, unless, Checked};
use crate::setting::{Kind, Setting};

/// The setting of a good header, or the refusal.
pub fn read(packet: &[u8], pid: u16, kind: Kind) -> Result<Setting, Refusal> {
    let packet = packet.try_into().map_err(|_| 1)?;
    header_pid(pid)?;
    fixed_bits(packet, pid)?;
    let remainder = remainder(packet);
    if remainder != 0 {
        return Err(Refusal::wrong_crc(remainder));
    }
    by_kind!(kind, kind => reserved_bits(packet, kind))?;
    let setting = by_kind!(kind, kind => fields(packet, kind));
    content(kind, &setting)?;
    Ok(setting)
}

/// 3 to 6. The order is the table's, not that of the bits: the three bits in
/// front of the PID are looked at behind it.
fn fixed_bits(packet: &[u8; PACKET_BYTES], pid: u16) -> Checked {
    unless(packet[0] == SYNC_BYTE, 3)?;
    unless(found_pid(packet) == pid, 4)?;
    unless(packet[1] >> 5 == 0 && packet[3] & 0xF0 == BEFORE_COUNTER, 5)?;
    unless(sixteen(packet, 4) & THIRTEEN_BITS == TSMF_SYNC, 6)
}

/// What the header's own CRC, run through the register behind what it is of,
/// leaves there: zero, if it is right.
fn remainder(packet: &[u8; PACKET_BYTES]) -> u32 {
    crc32(&packet[UNDER_CRC.start..])
}

/// 20: ones in all reserved bits. A zero is another maker's flag, of a dialect
/// that is not J.183's (K8). Of a header with ones nothing is lost: written
/// again, it has the same bytes.
#[inline(always)]
fn reserved_bits(packet: &[u8; PACKET_BYTES], kind: Kind) -> Checked {
    let size = kind.size();
    let before_sync = packet[4] | 0x1F;
    let behind_availability = packet[size.availability().end - 1] | 0xFE;
    let before_emergency = packet[size.control().end - 1] | 0xFD;
    let behind_bonding = match kind {
        Kind::Plain | Kind::Short => 0xFF,
        Kind::Extended => every_bit(&packet[RESERVED]),
    };
    let bits = before_sync & behind_availability & before_emergency & behind_bonding;
    unless(bits == 0xFF, 20)
}

/// The bits that all of the bytes have.
#[inline]
fn every_bit(bytes: &[u8]) -> u8 {
    bytes.iter().fold(0xFF, |bits, byte| bits & byte)
}

#[inline(always)]
fn fields(packet: &[u8; PACKET_BYTES], kind: Kind) -> Setting {
    let size = kind.size();
    let control = &packet[size.control()];
    let mut setting = Setting {
        continuity_counter: packet[3] & 0x0F,
        version_number: packet[6] >> 5,
        slot_allocation_type: packet[6] >> 4 & 1,
        frame_type: packet[6] & 0x0F,
        availability: sixteen(packet, size.availability().start) >> 1 & size.all_available(),
        emergency_indicator: control[control.len() - 1] & 1,
        relative_ts_number: unpack(&packet[size.slot_numbers()], size),
        ..Setting::ZEROS
    };
    identifiers(&packet[size.identifiers()], &mut setting);
    receive_status(control, &mut setting.receive_status[..size.streams]);
    if kind == Kind::Extended {
        extension(packet, &mut setting);
    } else {
        let private_data = &packet[size.private_data()];
        setting.private_data[..private_data.len()].copy_from_slice(private_data);
    }
    setting
}

#[inline(always)]
fn identifiers(bytes: &[u8], setting: &mut Setting) {
    let (pairs, _) = bytes.as_chunks::<4>();
    let ids = setting
        .ts_id
        .iter_mut()
        .zip(&mut setting.original_network_id);
    for ((ts_id, network), &[a, b, c, d]) in ids.zip(pairs) {
        *ts_id = u16::from_be_bytes([a, b]);
        *network = u16::from_be_bytes([c, d]);
    }
}

/// Four statuses a byte; the last two bits of all are not one.
#[inline(always)]
fn receive_status(bytes: &[u8], statuses: &mut [u8]) {
    for (stream, status) in statuses.iter_mut().enumerate() {
        *status = bytes[stream / 4] >> (6 - 2 * (stream % 4)) & 3;
    }
}

/// What stands in the place of private_data; the bytes behind are reserved.
fn extension(packet: &[u8; PACKET_BYTES], setting: &mut Setting) {
    setting.auxiliary.copy_from_slice(&packet[AUXILIARY]);
    setting.group_id = packet[BONDING.start];
    setting.number_of_carriers = packet[BONDING.start + 1];
    setting.carrier_sequence = packet[BONDING.start + 2];
    setting.number_of_frames = packet[BONDING.start + 3] >> 4;
    setting.frame_position = packet[BONDING.start + 3] & 0x0F;
}
