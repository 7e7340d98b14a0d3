//! Faults of a header, by the refusals that they bring about.

use super::{header, least, make_crc_right};
use reference::{Kind, Refusal};

/// All refusals of the reader, in its order.
const ORDER: [u8; 12] = [1, 2, 3, 4, 5, 6, 7, 20, 8, 9, 10, 11];

/// Those that a header of the kind can bring about.
pub fn order(kind: Kind) -> &'static [u8] {
    match kind {
        Kind::Plain | Kind::Short => &ORDER[..11],
        Kind::Extended => &ORDER,
    }
}

/// For a refusal: a byte of the least header, and the bits to flip in it.
fn under_crc(kind: Kind) -> [(u8, usize, u8); 5] {
    let last_slot = match kind {
        Kind::Plain | Kind::Extended => (9, 98, 0x0F),
        Kind::Short => (9, 52, 0x07),
    };
    [
        (6, 5, 0x01),
        (8, 6, 0x02),
        last_slot,
        (10, 7, 0x60),
        (11, 130, 0x05),
    ]
}
/// The same for the CRC itself and the packet_header.
const BESIDES: [(u8, usize, u8); 4] = [(7, 187, 0x01), (3, 0, 0x01), (4, 2, 0x01), (5, 3, 0x20)];

/// The least header with these faults, the 20 being this reserved bit at zero.
pub fn spoilt(kind: Kind, refusals: &[u8], (byte, bit): (usize, u8)) -> [u8; 188] {
    let mut packet = header(kind, &least(kind));
    for (refusal, byte, bits) in under_crc(kind).into_iter().chain([(20, byte, bit)]) {
        if refusals.contains(&refusal) {
            packet[byte] ^= bits;
        }
    }
    make_crc_right(&mut packet);
    for (refusal, byte, bits) in BESIDES {
        if refusals.contains(&refusal) {
            packet[byte] ^= bits;
        }
    }
    packet
}

/// The refusal with this number. For a 7 the last bit of the CRC is turned: with
/// the register at zero, it alone goes out and leaves the polynomial there.
pub fn refused(number: u8) -> Refusal {
    let remainder = if number == 7 { 0x04C1_1DB7 } else { 0 };
    Refusal { number, remainder }
}
