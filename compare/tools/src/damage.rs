//! What happens to packets on their way.

use cases::generator::Generator;
use cases::make_crc_right;
use reference::{null_packet, Kind, FRAME_BYTES, PACKET_BYTES};

/// A frame's packets, its header first, where the header is not short.
pub const FRAME_PACKETS: usize = FRAME_BYTES / PACKET_BYTES;

/// The same of each kind.
pub fn frame_packets(kind: Kind) -> usize {
    kind.size().frame_bytes() / PACKET_BYTES
}

/// Every reserved bit of a header: its byte, and the bit in it.
pub fn reserved_bits(kind: Kind) -> Vec<(usize, u8)> {
    let [availability, control] = match kind {
        Kind::Plain | Kind::Extended => [8, 72],
        Kind::Short => [7, 37],
    };
    let mut bits = vec![(4, 0x80), (4, 0x40), (4, 0x20)];
    bits.extend([(availability, 0x01), (control, 0x02)]);
    if kind == Kind::Extended {
        bits.extend((131..184).flat_map(|byte| (0..8).map(move |bit| (byte, 1 << bit))));
    }
    bits
}

/// The lot of one packet.
#[derive(Clone, Copy, Debug, PartialEq, Eq)]
pub enum Lot {
    Whole,
    Lost,
    /// All bits of one byte are turned.
    Spoiled(usize),
    /// This bit of this byte is zero, and the CRC right: so another maker has a
    /// header whose reserved bit it is.
    Foreign(usize, u8),
    Doubled,
    /// A null packet comes behind it.
    Followed,
}

/// The lots of a run of whole frames and a last header.
#[derive(Clone)]
pub struct Lots(pub Vec<Lot>);

impl Lots {
    pub fn whole(bytes: &[u8]) -> Lots {
        Lots(vec![Lot::Whole; bytes.len() / PACKET_BYTES])
    }

    /// One packet in so many has this lot.
    pub fn some(&mut self, generator: &mut Generator, one_in: u16, lot: Lot) {
        for old in &mut self.0 {
            if generator.below(one_in) == 0 {
                *old = lot;
            }
        }
    }

    /// One header in so many is spoiled, in any of its bytes.
    pub fn spoil_headers(&mut self, generator: &mut Generator, kind: Kind, one_in: u16) {
        for old in self.0.iter_mut().step_by(frame_packets(kind)) {
            if generator.below(one_in) == 0 {
                *old = Lot::Spoiled(generator.below(PACKET_BYTES as u16).into());
            }
        }
    }

    /// One header in so many has a reserved bit at zero, as often one of those
    /// that every kind has as any.
    pub fn make_headers_foreign(&mut self, generator: &mut Generator, kind: Kind, one_in: u16) {
        let bits = reserved_bits(kind);
        for old in self.0.iter_mut().step_by(frame_packets(kind)) {
            if generator.below(one_in) == 0 {
                let last = [5, bits.len() as u16][usize::from(generator.below(2))];
                let (byte, bit) = bits[usize::from(generator.below(last))];
                *old = Lot::Foreign(byte, bit);
            }
        }
    }

    /// The packets as they arrive.
    pub fn arrive(&self, bytes: &[u8]) -> Vec<u8> {
        let packets = bytes.chunks_exact(PACKET_BYTES);
        let lots = self.0.iter().copied();
        packets.zip(lots).flat_map(arrived).collect()
    }
}

fn arrived((packet, lot): (&[u8], Lot)) -> Vec<u8> {
    match lot {
        Lot::Whole => packet.to_vec(),
        Lot::Lost => Vec::new(),
        Lot::Spoiled(byte) => {
            let mut packet = packet.to_vec();
            packet[byte] ^= 0xFF;
            packet
        }
        Lot::Foreign(byte, bit) => {
            let mut packet = packet.to_vec();
            packet[byte] &= !bit;
            make_crc_right(&mut packet);
            packet
        }
        Lot::Doubled => packet.repeat(2),
        Lot::Followed => [packet, &null_packet()].concat(),
    }
}
