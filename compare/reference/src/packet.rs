//! What composer, receiver and bonding ask of packets and their slots.

use crate::layout::{PACKET_BYTES, SLOTS, STORE_BYTES, SYNC_BYTE, THIRTEEN_BITS};
use std::ops::Range;

const NULL_PACKET: [u8; PACKET_BYTES] = {
    let mut packet = [0xFF; PACKET_BYTES];
    packet[0] = SYNC_BYTE;
    packet[1] = 0x1F;
    packet[3] = 0x10;
    packet
};

/// The slots of a frame that nothing was put into, for any kind at the front.
pub static NULL_PACKETS: [u8; STORE_BYTES] = {
    let mut packets = [0; STORE_BYTES];
    let mut byte = 0;
    while byte < STORE_BYTES {
        packets[byte] = NULL_PACKET[byte % PACKET_BYTES];
        byte += 1;
    }
    packets
};

/// Stands in every slot that nothing was put into.
pub fn null_packet() -> [u8; PACKET_BYTES] {
    NULL_PACKET
}

/// The bytes of a packet among packets, the first being 0.
#[inline]
pub fn place(number: usize) -> Range<usize> {
    PACKET_BYTES * number..PACKET_BYTES * (number + 1)
}

#[inline]
pub fn sixteen(packet: &[u8; PACKET_BYTES], first: usize) -> u16 {
    u16::from_be_bytes([packet[first], packet[first + 1]])
}

#[inline]
pub fn found_pid(packet: &[u8; PACKET_BYTES]) -> u16 {
    sixteen(packet, 1) & THIRTEEN_BITS
}

/// Whether the packet may stand in a slot. One that may not would make a
/// receiver drop the frame: the composer takes only these, and the receiver
/// stores only these.
#[inline]
pub fn fits_a_slot(packet: &[u8; PACKET_BYTES], header_pid: u16) -> bool {
    packet[0] == SYNC_BYTE && found_pid(packet) != header_pid
}

/// Places of a frame or store, each a bit: slot i is bit i - 1.
#[derive(Clone, Copy)]
pub struct Places(u64);

impl Places {
    /// Those that the condition holds of, places being counted from 0.
    #[inline]
    pub fn where_is(condition: impl Fn(usize) -> bool) -> Places {
        let mut holds = [false; SLOTS.next_multiple_of(8)];
        for (place, holds) in holds.iter_mut().enumerate().take(SLOTS) {
            *holds = condition(place);
        }
        let (eights, _) = holds.as_chunks::<8>();
        let eights = eights.iter().rev();
        Places(eights.fold(0, |bits, eight| bits << 8 | eight_bits(eight)))
    }

    #[inline]
    pub fn count(self) -> usize {
        self.0.count_ones() as usize
    }
}

/// The first one's bit is the lowest. The factor brings each byte's lowest bit
/// to its own place in the highest byte.
#[inline]
fn eight_bits(eight: &[bool; 8]) -> u64 {
    const FACTOR: u64 = 0x0102_0408_1020_4080;
    u64::from_le_bytes(eight.map(u8::from)).wrapping_mul(FACTOR) >> 56
}

/// In rising order.
impl Iterator for Places {
    type Item = usize;

    #[inline]
    fn next(&mut self) -> Option<usize> {
        if self.0 == 0 {
            return None;
        }
        let place = self.0.trailing_zeros() as usize;
        self.0 &= self.0 - 1;
        Some(place)
    }
}
