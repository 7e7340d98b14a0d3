//! The part of a header whose change raises the version.

use crate::layout::STREAMS;
use crate::setting::Setting;

/// Slot information, identifiers and control information. Slot numbers and
/// private data stand behind them and are no part of this (J.183, Table 2).
#[derive(Clone, Debug, PartialEq, Eq)]
pub struct Announced {
    pub slot_allocation_type: u8,
    pub frame_type: u8,
    pub availability: u16,
    pub ts_id: [u16; STREAMS],
    pub original_network_id: [u16; STREAMS],
    pub receive_status: [u8; STREAMS],
    pub emergency_indicator: u8,
}

impl Announced {
    /// Before a run's first header. No header has frame_type 0, so the first
    /// one differs from this whatever it announces.
    pub const BLANK: Announced = Announced {
        slot_allocation_type: 0,
        frame_type: 0,
        availability: 0,
        ts_id: [0; STREAMS],
        original_network_id: [0; STREAMS],
        receive_status: [0; STREAMS],
        emergency_indicator: 0,
    };

    #[inline]
    pub fn of(setting: &Setting) -> Announced {
        Announced {
            slot_allocation_type: setting.slot_allocation_type,
            frame_type: setting.frame_type,
            availability: setting.availability,
            ts_id: setting.ts_id,
            original_network_id: setting.original_network_id,
            receive_status: setting.receive_status,
            emergency_indicator: setting.emergency_indicator,
        }
    }

    /// Becomes the setting's, and answers whether it differed.
    pub(crate) fn renew(&mut self, setting: &Setting) -> bool {
        let announced = Announced::of(setting);
        let differed = *self != announced;
        if differed {
            *self = announced;
        }
        differed
    }
}
