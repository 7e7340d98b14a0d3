//! What a run keeps from one call to the next. All of it is public, because a
//! saved state may come back with any content.

use crate::announced::Announced;
use crate::layout::{LAST_COUNTER, LAST_VERSION, SLOTS};
use crate::packet::Places;
use crate::rules::header_pid;
use crate::setting::{Kind, Setting};

#[derive(Clone, Debug, PartialEq, Eq)]
pub struct Composer {
    pub pid: u16,
    pub kind: Kind,
    /// Counter and version of the last closed header, and what it announced.
    pub continuity_counter: u8,
    pub version_number: u8,
    pub announced: Announced,
    pub open: Option<OpenFrame>,
}

/// The setting as begin took it: its slot numbers are the plan, and its
/// counter and version are not used. Slot i stands at i - 1.
#[derive(Clone, Debug, PartialEq, Eq)]
pub struct OpenFrame {
    pub setting: Setting,
    pub filled: [bool; SLOTS],
}

impl Composer {
    /// 0 and a new run, or the refusal and a state that every call refuses.
    pub fn start(pid: u16, kind: Kind) -> (u8, Composer) {
        match header_pid(pid) {
            Ok(()) => (0, Composer::fresh(pid, kind)),
            Err(refusal) => (refusal, Composer::fresh(0, Kind::Plain)),
        }
    }

    /// The last values stand where the last header's would, so that the first
    /// close raises both to 0.
    fn fresh(pid: u16, kind: Kind) -> Composer {
        Composer {
            pid,
            kind,
            continuity_counter: LAST_COUNTER,
            version_number: LAST_VERSION,
            announced: Announced::BLANK,
            open: None,
        }
    }
}

impl OpenFrame {
    /// The still empty slots planned for a stream.
    pub(super) fn empty_places(&self, relative_ts_number: u8) -> Places {
        let plan = &self.setting.relative_ts_number;
        Places::where_is(|place| plan[place] == relative_ts_number && !self.filled[place])
    }

    /// The setting as the frame is closed with it: empty slots have number 0.
    pub(super) fn header(&mut self, continuity_counter: u8, version_number: u8) -> &Setting {
        let setting = &mut self.setting;
        setting.continuity_counter = continuity_counter;
        setting.version_number = version_number;
        for (number, &filled) in setting.relative_ts_number.iter_mut().zip(&self.filled) {
            *number *= u8::from(filled);
        }
        setting
    }
}
