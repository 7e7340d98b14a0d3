//! Slot numbers of some bits each, the highest bit first. Eight numbers take as
//! many bytes as one of them has bits.

use crate::layout::SLOTS;
use crate::size::Size;

const EIGHT: usize = 8;

/// Writes the numbers of a size's slots, each of which fits its bits.
#[inline(always)]
pub fn pack(bytes: &mut [u8], size: Size, numbers: &[u8; SLOTS]) {
    let width = size.width();
    let (eights, rest) = numbers[..size.slots].as_chunks::<EIGHT>();
    let (front, end) = bytes.split_at_mut(eights.len() * width);
    for (bytes, &eight) in front.chunks_exact_mut(width).zip(eights) {
        bytes.copy_from_slice(&packed(width, eight)[..width]);
    }
    let mut eight = [0; EIGHT];
    eight[..rest.len()].copy_from_slice(rest);
    end.copy_from_slice(&packed(width, eight)[..end.len()]);
}

/// Reads them. A slot that the size lacks has number 0.
#[inline(always)]
pub fn unpack(bytes: &[u8], size: Size) -> [u8; SLOTS] {
    let width = size.width();
    let mut numbers = [0; SLOTS];
    let (eights, rest) = numbers[..size.slots].as_chunks_mut::<EIGHT>();
    let (front, end) = bytes.split_at(eights.len() * width);
    for (eight, bytes) in eights.iter_mut().zip(front.chunks_exact(width)) {
        *eight = unpacked(width, bytes);
    }
    rest.copy_from_slice(&unpacked(width, end)[..rest.len()]);
    numbers
}

/// The bits stand at the front. Neighbours are brought together, each two of
/// eight bits, then of sixteen, then of thirty-two.
#[inline(always)]
fn packed(width: usize, numbers: [u8; EIGHT]) -> [u8; EIGHT] {
    let mut bits = u64::from_be_bytes(numbers);
    for (half, ones) in HALVES.into_iter().rev() {
        let kept = half * width / 8;
        let low = ones * ((1 << kept) - 1);
        bits = bits >> (half - kept) & low << kept | bits & low;
    }
    (bits << (64 - 8 * width)).to_be_bytes()
}

/// The same way back.
#[inline(always)]
fn unpacked(width: usize, bytes: &[u8]) -> [u8; EIGHT] {
    let mut eight = [0; EIGHT];
    eight[..bytes.len()].copy_from_slice(bytes);
    let mut bits = u64::from_be_bytes(eight) >> (64 - 8 * width);
    for (half, ones) in HALVES {
        let kept = half * width / 8;
        let low = ones * ((1 << kept) - 1);
        bits = bits << (half - kept) & low << half | bits & low;
    }
    bits.to_be_bytes()
}

/// Halves of so many bits, and the lowest bit of every second one.
const HALVES: [(usize, u64); 3] = [
    (32, 0x0000_0000_0000_0001),
    (16, 0x0000_0001_0000_0001),
    (8, 0x0001_0001_0001_0001),
];

#[cfg(test)]
mod tests {
    use super::{pack, unpack};
    use crate::size::Size;

    /// Bit by bit, as the words say it.
    fn by_bits(size: Size, numbers: &[u8; 52]) -> Vec<u8> {
        let mut bytes = vec![0; size.slot_numbers().len()];
        for (slot, number) in numbers[..size.slots].iter().enumerate() {
            for bit in 0..size.width() {
                let at = slot * size.width() + bit;
                let is_one = number >> (size.width() - 1 - bit) & 1;
                bytes[at / 8] |= is_one << (7 - at % 8);
            }
        }
        bytes
    }

    #[test]
    fn every_number_in_every_slot() {
        for size in [Size::LARGE, Size::SHORT] {
            for slot in 0..size.slots {
                for number in 0..=size.streams as u8 {
                    let mut numbers = [0; 52];
                    numbers[..size.slots].fill(number ^ size.streams as u8);
                    numbers[slot] = number;
                    let mut bytes = by_bits(size, &[0; 52]);
                    pack(&mut bytes, size, &numbers);
                    assert_eq!(bytes, by_bits(size, &numbers));
                    assert_eq!(unpack(&bytes, size), numbers);
                }
            }
        }
    }
}
