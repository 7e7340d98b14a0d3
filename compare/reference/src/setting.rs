//! What a header says, apart from its PID and its fixed bits.

use crate::layout::{AUXILIARY_BYTES, PRIVATE_DATA_BYTES, SLOTS, STREAMS};
use crate::size::Size;
use std::ops::RangeInclusive;

/// A header does not show which kind it is; the caller says it.
#[derive(Clone, Copy, Debug, PartialEq, Eq)]
pub enum Kind {
    Plain,
    Extended,
    /// Of a frame with fewer slots and streams; else as a plain one.
    Short,
}

impl Kind {
    #[inline]
    pub const fn size(self) -> Size {
        match self {
            Kind::Plain | Kind::Extended => Size::LARGE,
            Kind::Short => Size::SHORT,
        }
    }

    /// How many bytes of private data a header has.
    #[inline]
    pub const fn private_data_bytes(self) -> usize {
        let private_data = self.size().private_data();
        match self {
            Kind::Plain | Kind::Short => private_data.end - private_data.start,
            Kind::Extended => 0,
        }
    }

    pub(crate) const fn frame_types(self) -> RangeInclusive<u8> {
        match self {
            Kind::Plain => 1..=1,
            Kind::Extended => 1..=2,
            Kind::Short => 3..=3,
        }
    }
}

/// Field names are J.183's. Stream r stands at r - 1, slot i at i - 1. There is
/// room for any kind; what a kind's header has no place for is zeros.
#[derive(Clone, Debug, PartialEq, Eq)]
pub struct Setting {
    pub continuity_counter: u8,
    pub version_number: u8,
    pub slot_allocation_type: u8,
    pub frame_type: u8,
    /// 15 bits; stream 1 is the highest, 0x4000, in every kind.
    pub availability: u16,
    pub ts_id: [u16; STREAMS],
    pub original_network_id: [u16; STREAMS],
    pub receive_status: [u8; STREAMS],
    pub emergency_indicator: u8,
    pub relative_ts_number: [u8; SLOTS],
    /// The front of it in plain headers, all of it in short ones.
    pub private_data: [u8; PRIVATE_DATA_BYTES],
    /// Extended headers only, like all that follows.
    pub auxiliary: [u8; AUXILIARY_BYTES],
    pub group_id: u8,
    pub number_of_carriers: u8,
    pub carrier_sequence: u8,
    pub number_of_frames: u8,
    pub frame_position: u8,
}

impl Setting {
    pub const ZEROS: Setting = Setting {
        continuity_counter: 0,
        version_number: 0,
        slot_allocation_type: 0,
        frame_type: 0,
        availability: 0,
        ts_id: [0; STREAMS],
        original_network_id: [0; STREAMS],
        receive_status: [0; STREAMS],
        emergency_indicator: 0,
        relative_ts_number: [0; SLOTS],
        private_data: [0; PRIVATE_DATA_BYTES],
        auxiliary: [0; AUXILIARY_BYTES],
        group_id: 0,
        number_of_carriers: 0,
        carrier_sequence: 0,
        number_of_frames: 0,
        frame_position: 0,
    };

    /// Whether stream r, 1 to 15, is marked available; no other number is.
    pub fn is_available(&self, relative_ts_number: usize) -> bool {
        (1..=STREAMS).contains(&relative_ts_number)
            && self.availability >> (STREAMS - relative_ts_number) & 1 == 1
    }

    pub fn available_streams(&self) -> usize {
        (1..=STREAMS).filter(|&r| self.is_available(r)).count()
    }
}
