//! Bonding: one stream over the super frames of up to eight carriers. A call
//! looks at everything before it writes anything, so that a refusal leaves
//! all buffers as they were.

mod headers;
mod places;

use crate::layout::{FRAME_BYTES, LAST_CARRIER, PACKET_BYTES};
use crate::packet::fits_a_slot;
use crate::refusal::Refusal;
use crate::rules::{header_pid, unless, Checked};
use headers::bonded;
use places::Bonded;

/// What a call is asked with, besides its buffers. The two identifiers name
/// the bonded stream.
#[derive(Clone, Copy, Debug, PartialEq, Eq)]
pub struct Asked {
    pub carriers: u8,
    pub pid: u16,
    pub ts_id: u16,
    pub original_network_id: u16,
}

/// What the headers of a group say of a stream: whether one of them carries
/// it as available, and how many slots it has.
#[derive(Clone, Copy, Debug, PartialEq, Eq)]
pub struct Carried {
    pub is_carried: bool,
    pub packets: usize,
}

/// Reads the headers alone.
pub fn read_headers(group: &[u8], asked: &Asked) -> Result<Carried, Refusal> {
    whole_frames(group.len())?;
    let bonded = read_group(group, asked)?;
    Ok(Carried {
        is_carried: bonded.is_carried,
        packets: bonded.packets,
    })
}

/// Writes the stream into the bonded slots of the group, in their order.
pub fn spread(group: &mut [u8], asked: &Asked, stream: &[u8]) -> Result<usize, Refusal> {
    whole_frames(group.len())?;
    let (packets, cut) = stream.as_chunks::<PACKET_BYTES>();
    unless(cut.is_empty(), 1)?;
    let bonded = read_carried(group, asked)?;
    unless(packets.len() == bonded.packets, 15)?;
    let all_fit = packets.iter().all(|packet| fits_a_slot(packet, asked.pid));
    unless(all_fit, 12)?;
    let mut packets = packets.iter();
    bonded.for_each_place(|bytes| {
        if let Some(packet) = packets.next() {
            group[bytes].copy_from_slice(packet);
        }
    });
    Ok(bonded.packets)
}

/// Copies the bonded slots, in their order, to the front of the buffer.
pub fn gather(group: &[u8], asked: &Asked, buffer: &mut [u8]) -> Result<usize, Refusal> {
    whole_frames(group.len())?;
    let bonded = read_carried(group, asked)?;
    let (packets, _) = buffer.as_chunks_mut::<PACKET_BYTES>();
    unless(packets.len() >= bonded.packets, 15)?;
    let mut packets = packets.iter_mut();
    bonded.for_each_place(|bytes| {
        if let Some(packet) = packets.next() {
            packet.copy_from_slice(&group[bytes]);
        }
    });
    Ok(bonded.packets)
}

/// 1 for the group; only spread has a second length to look at.
fn whole_frames(length: usize) -> Checked {
    unless(length > 0 && length.is_multiple_of(FRAME_BYTES), 1)
}

/// The bonded slots, behind 2, 17 and all that the headers show.
fn read_group(group: &[u8], asked: &Asked) -> Result<Bonded, Refusal> {
    header_pid(asked.pid)?;
    unless((1..=LAST_CARRIER).contains(&asked.carriers), 17)?;
    bonded(group, asked)
}

/// The same, and behind 13.
fn read_carried(group: &[u8], asked: &Asked) -> Result<Bonded, Refusal> {
    let bonded = read_group(group, asked)?;
    unless(bonded.is_carried, 13)?;
    Ok(bonded)
}
