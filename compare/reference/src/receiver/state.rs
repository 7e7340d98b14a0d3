//! What a receiver keeps from one call to the next, besides its store. All of
//! it is public, because a saved state may come back with any content.

use crate::layout::{LAST_COUNTER, SLOTS};
use crate::rules::{header_pid, slot_numbers_fit, unless, Checked};
use crate::setting::Kind;
use crate::size::Size;

#[derive(Clone, Debug, PartialEq, Eq)]
pub struct Receiver {
    pub pid: u16,
    pub kind: Kind,
    pub standing: Standing,
    /// The slot numbers of the open frame; slot i stands at i - 1.
    pub relative_ts_number: [u8; SLOTS],
    /// Those of the frame before, by which it is handed out while ready: the
    /// open frame's may differ.
    pub relative_ts_number_before: [u8; SLOTS],
}

#[derive(Clone, Copy, Debug, PartialEq, Eq)]
pub enum Standing {
    Waiting,
    /// A frame is open, with so many packets stored.
    Open {
        continuity_counter: u8,
        stored: usize,
    },
    /// A frame has just opened. None of its packets is stored yet, and the
    /// store still holds the frame before, which is ready.
    Ready {
        continuity_counter: u8,
    },
}

impl Receiver {
    /// 0 and a new receiver, or the refusal and a state that every call
    /// refuses.
    pub fn start(pid: u16, kind: Kind) -> (u8, Receiver) {
        match header_pid(pid) {
            Ok(()) => (0, Receiver::fresh(pid, kind)),
            Err(refusal) => (refusal, Receiver::fresh(0, Kind::Plain)),
        }
    }

    fn fresh(pid: u16, kind: Kind) -> Receiver {
        Receiver {
            pid,
            kind,
            standing: Standing::Waiting,
            relative_ts_number: [0; SLOTS],
            relative_ts_number_before: [0; SLOTS],
        }
    }

    /// Counter and stored packets of the open frame.
    pub(super) fn open_frame(&self) -> Option<(u8, usize)> {
        match self.standing {
            Standing::Waiting => None,
            Standing::Open {
                continuity_counter,
                stored,
            } => Some((continuity_counter, stored)),
            Standing::Ready { continuity_counter } => Some((continuity_counter, 0)),
        }
    }

    pub(super) fn is_ready(&self) -> bool {
        matches!(self.standing, Standing::Ready { .. })
    }

    /// 2 and a state's share of 17.
    pub(super) fn check_pid_and_numbers(&self) -> Checked {
        header_pid(self.pid)?;
        by_kind!(self.kind, kind => self.check_numbers(kind.size()))
    }

    #[inline(always)]
    fn check_numbers(&self, size: Size) -> Checked {
        if let Some((continuity_counter, stored)) = self.open_frame() {
            unless(
                continuity_counter <= LAST_COUNTER && stored <= size.slots,
                17,
            )?;
        }
        slot_numbers_fit(size, &self.relative_ts_number)?;
        slot_numbers_fit(size, &self.relative_ts_number_before)
    }
}
