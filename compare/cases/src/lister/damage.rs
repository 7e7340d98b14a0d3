//! Damage to a good header, by the refusal that it is to bring about. It is
//! done to bytes by their places in the header table, not through the writer.

use super::packets::{header, Packet};
use crate::generator::Generator;
use crate::make_crc_right;
use reference::{crc32, Kind, Setting};

/// The longest list below; the shorter ones begin again.
pub const VARIETIES: usize = 13;

/// The first varieties of a 20: a plain header's reserved bits one by one.
pub const RESERVED_BITS: usize = 5;

/// Bits to flip in one byte, for the refusals that one byte can bring about.
const FIRST_BYTES: [(usize, u8); 5] = [(0, 0x47), (0, 0x01), (0, 0x80), (0, 0x33), (0, 0xFF)];
const PID_BITS: [(usize, u8); 5] = [(1, 0x10), (1, 0x01), (2, 0x01), (2, 0x0F), (2, 0x80)];
#[rustfmt::skip]
const FIXED_BITS: [(usize, u8); 7] = [
    (1, 0x80), (1, 0x40), (1, 0x20), (3, 0x10), (3, 0x20), (3, 0x40), (3, 0x80),
];
#[rustfmt::skip]
const SYNC_BITS: [(usize, u8); 13] = [
    (4, 0x10), (4, 0x08), (4, 0x04), (4, 0x02), (4, 0x01), (5, 0x80), (5, 0x40),
    (5, 0x20), (5, 0x10), (5, 0x08), (5, 0x04), (5, 0x02), (5, 0x01),
];
/// Each reserved bit, which a good header has as a one, and some together.
#[rustfmt::skip]
const ZEROS: [(usize, u8); 7] = [
    (4, 0x80), (4, 0x40), (4, 0x20), (8, 0x01), (72, 0x02), (4, 0xA0), (4, 0xE0),
];
/// Reserved bits, too, are under the CRC.
#[rustfmt::skip]
const CRC_BITS: [(usize, u8); 13] = [
    (4, 0x80), (6, 0x20), (6, 0x02), (8, 0x01), (9, 0x40), (68, 0x01), (69, 0x80),
    (72, 0x02), (73, 0x10), (99, 0x01), (183, 0x04), (184, 0x80), (187, 0x01),
];
const FRAME_TYPES: [u8; 5] = [0, 2, 3, 9, 15];
/// Byte, and which half of it names a stream that is not available.
#[rustfmt::skip]
const SLOT_HALVES: [(usize, u8, u8); 5] = [
    (73, 0x0F, 0x30), (73, 0xF0, 0x04), (85, 0xF0, 0x08), (98, 0x0F, 0xC0), (98, 0xF0, 0x0D),
];
/// Available streams, of which the second takes the pair of the first.
const PAIRS: [(usize, usize); 5] = [(1, 2), (1, 15), (14, 15), (15, 2), (2, 14)];

/// A header with streams 1, 2, 14 and 15 available.
pub fn base(generator: &mut Generator) -> Packet {
    let mut setting = Setting {
        frame_type: 1,
        availability: 0x6003,
        ..Setting::ZEROS
    };
    setting.continuity_counter = generator.byte_below(16);
    setting.version_number = generator.byte_below(8);
    for stream in 0..15 {
        setting.ts_id[stream] = generator.draw();
        setting.original_network_id[stream] = generator.draw();
    }
    for number in &mut setting.relative_ts_number {
        *number = [0, 1, 2, 14, 15][usize::from(generator.below(5))];
    }
    generator.fill(
        &mut setting.private_data[..Kind::Plain.private_data_bytes()],
        256,
    );
    header(Kind::Plain, &setting)
}

/// What is under the CRC comes first, so that the CRC is wrong only for a 7.
pub fn damaged(mut packet: Packet, refusals: &[u8], variety: usize) -> Packet {
    for &refusal in refusals {
        damage_under_crc(&mut packet, refusal, variety);
    }
    make_crc_right(&mut packet);
    for &refusal in refusals {
        match refusal {
            3 => flip(&mut packet, &FIRST_BYTES, variety),
            4 => flip(&mut packet, &PID_BITS, variety),
            5 => flip(&mut packet, &FIXED_BITS, variety),
            7 => flip(&mut packet, &CRC_BITS, variety),
            _ => (),
        }
    }
    packet
}

/// The polynomial of the CRC, without its x^32.
pub const POLYNOMIAL: u32 = 0x04C1_1DB7;

/// The packet with a CRC that leaves this in the register. Its 32 bits are turned
/// back out of the register, the last one first.
pub fn leaving(mut packet: Packet, remainder: u32) -> Packet {
    let mut register = remainder;
    for _ in 0..32 {
        let outgoing = register & 1;
        register = (register ^ (outgoing * POLYNOMIAL)) >> 1 | outgoing << 31;
    }
    let crc = crc32(&packet[4..184]) ^ register;
    packet[184..].copy_from_slice(&crc.to_be_bytes());
    packet
}

fn damage_under_crc(packet: &mut Packet, refusal: u8, variety: usize) {
    match refusal {
        6 => flip(packet, &SYNC_BITS, variety),
        20 => flip(packet, &ZEROS, variety),
        8 => packet[6] = packet[6] & 0xF0 | FRAME_TYPES[variety % FRAME_TYPES.len()],
        9 => {
            let (byte, kept, number) = SLOT_HALVES[variety % SLOT_HALVES.len()];
            packet[byte] = packet[byte] & kept | number;
        }
        10 => {
            let (first, second) = PAIRS[variety % PAIRS.len()];
            packet.copy_within(4 * first + 5..4 * first + 9, 4 * second + 5);
        }
        _ => (),
    }
}

fn flip(packet: &mut Packet, list: &[(usize, u8)], variety: usize) {
    let (byte, bits) = list[variety % list.len()];
    packet[byte] ^= bits;
}
