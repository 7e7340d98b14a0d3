//! The two sizes of a frame. By Appendix I the numbers of slots and of streams
//! alone say where everything stands in a header.

use crate::layout::{CRC, PACKET_BYTES};
use std::ops::Range;

#[derive(Clone, Copy, Debug, PartialEq, Eq)]
pub struct Size {
    /// N - 1, the slots behind the header's own.
    pub slots: usize,
    /// M, the streams that one frame can carry. With none, which is a slot's
    /// number too, they are a power of two.
    pub streams: usize,
}

impl Size {
    /// Of plain and extended headers.
    pub const LARGE: Size = Size {
        slots: 52,
        streams: 15,
    };
    pub const SHORT: Size = Size {
        slots: 40,
        streams: 7,
    };

    /// The header's slot and those behind it.
    pub const fn frame_bytes(self) -> usize {
        PACKET_BYTES + self.store_bytes()
    }

    /// What a receiver keeps: the slots behind the header's.
    pub const fn store_bytes(self) -> usize {
        PACKET_BYTES * self.slots
    }

    /// The bits of a slot's number.
    pub(crate) const fn width(self) -> usize {
        (self.streams + 1).ilog2() as usize
    }

    /// One bit for each stream, in a setting: stream r has the same in both
    /// sizes.
    pub(crate) const fn all_available(self) -> u16 {
        0x7FFF & !(0x7FFF >> self.streams)
    }

    /// Where the parts of a header stand: one bit for each stream, and one
    /// that is reserved;
    pub(crate) const fn availability(self) -> Range<usize> {
        behind(7, (self.streams + 1) / 8)
    }

    /// four bytes for each stream;
    pub(crate) const fn identifiers(self) -> Range<usize> {
        behind(self.availability().end, 4 * self.streams)
    }

    /// two bits for each stream, one that is reserved, and one;
    pub(crate) const fn control(self) -> Range<usize> {
        behind(self.identifiers().end, (2 * self.streams + 2) / 8)
    }

    /// the bits of each slot;
    pub(crate) const fn slot_numbers(self) -> Range<usize> {
        behind(self.control().end, self.slots * self.width() / 8)
    }

    /// and what is left.
    pub(crate) const fn private_data(self) -> Range<usize> {
        self.slot_numbers().end..CRC.start
    }
}

const fn behind(start: usize, bytes: usize) -> Range<usize> {
    start..start + bytes
}

#[cfg(test)]
mod tests {
    use super::Size;

    /// The numbers that the documents give.
    #[test]
    fn places_in_headers() {
        let large = Size::LARGE;
        assert_eq!(large.availability(), 7..9);
        assert_eq!(large.identifiers(), 9..69);
        assert_eq!(large.control(), 69..73);
        assert_eq!(large.slot_numbers(), 73..99);
        assert_eq!(large.private_data(), 99..184);
        let short = Size::SHORT;
        assert_eq!(short.availability(), 7..8);
        assert_eq!(short.identifiers(), 8..36);
        assert_eq!(short.control(), 36..38);
        assert_eq!(short.slot_numbers(), 38..53);
        assert_eq!(short.private_data(), 53..184);
    }

    #[test]
    fn bits() {
        assert_eq!((Size::LARGE.width(), Size::SHORT.width()), (4, 3));
        let all = (Size::LARGE.all_available(), Size::SHORT.all_available());
        assert_eq!(all, (0x7FFF, 0x7F00));
    }
}
