//! The reserved bits of headers, which are ones.

use super::faults::make_crc_right;
use board::random::Random;
use reference::Kind;

/// Every reserved bit of a header: its byte, and the bit in it. Those of an
/// extended header's last bytes come last.
pub fn reserved_bits(kind: Kind) -> Vec<(usize, u8)> {
    let (availability, control) = match kind {
        Kind::Plain | Kind::Extended => (8, 72),
        Kind::Short => (7, 37),
    };
    let mut bits = vec![(4, 0x80), (4, 0x40), (4, 0x20)];
    bits.extend([(availability, 0x01), (control, 0x02)]);
    if kind == Kind::Extended {
        bits.extend((131..184).flat_map(|byte| (0..8).map(move |bit| (byte, 1 << bit))));
    }
    bits
}

/// Makes one of them zero, as often one of the five that every kind has as any.
pub fn clear_one(random: &mut Random, kind: Kind, packet: &mut [u8]) {
    let bits = reserved_bits(kind);
    let last = random.of(&[5, bits.len()]);
    let (byte, bit) = random.of(&bits[..last]);
    packet[byte] &= !bit;
}

/// The same, with the CRC right again: nothing else is wrong then.
pub fn clear_one_alone(random: &mut Random, kind: Kind, packet: &mut [u8]) {
    clear_one(random, kind, packet);
    make_crc_right(packet);
}

/// Mostly ones in all of them, at times with one zero, and seldom as they are.
pub fn set_mostly(random: &mut Random, kind: Kind, packet: &mut [u8]) {
    if random.one_in(16) {
        return;
    }
    for (byte, bit) in reserved_bits(kind) {
        packet[byte] |= bit;
    }
    if random.one_in(6) {
        clear_one(random, kind, packet);
    }
}
