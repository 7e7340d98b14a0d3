//! The frame composer. Every call looks at everything before it changes
//! anything, so that a refusal leaves frame and state as they were.

mod checks;
mod state;

use crate::layout::{LAST_COUNTER, LAST_VERSION, PACKET_BYTES, SLOTS};
use crate::packet::{place, NULL_PACKETS};
use crate::rules::Checked;
use crate::setting::Setting;
use crate::write::fill;
pub use state::{Composer, OpenFrame};

/// What a put answers: how many packets it placed, or its refusal, and the
/// rest of the lent stream.
#[derive(Debug, PartialEq, Eq)]
pub struct Put<'a> {
    pub placed: Result<usize, u8>,
    pub rest: &'a [u8],
}

impl Composer {
    /// Abandons a frame that is still open; its header was never written, and
    /// so it raises nothing.
    pub fn begin(&mut self, frame: &mut [u8], setting: &Setting) -> Checked {
        self.check_begin(frame.len(), setting)?;
        let slots = &mut frame[PACKET_BYTES..];
        slots.copy_from_slice(&NULL_PACKETS[..slots.len()]);
        self.open = Some(OpenFrame {
            setting: setting.clone(),
            filled: [false; SLOTS],
        });
        Ok(())
    }

    pub fn put<'a>(
        &mut self,
        frame: &mut [u8],
        relative_ts_number: u8,
        stream: &'a [u8],
    ) -> Put<'a> {
        let placed = self.place(frame, relative_ts_number, stream);
        let taken = PACKET_BYTES * placed.unwrap_or(0);
        let rest = &stream[taken..];
        Put { placed, rest }
    }

    fn place(
        &mut self,
        frame: &mut [u8],
        relative_ts_number: u8,
        stream: &[u8],
    ) -> Result<usize, u8> {
        let places = self.check_put(frame.len(), relative_ts_number, stream)?;
        let open = self.open.as_mut().ok_or(16)?;
        let (packets, _) = stream.as_chunks::<PACKET_BYTES>();
        for (at, packet) in places.zip(packets) {
            frame[place(at + 1)].copy_from_slice(packet);
            open.filled[at] = true;
        }
        Ok(places.count().min(packets.len()))
    }

    /// The open frame's setting becomes the header's, and goes with the frame.
    pub fn close(&mut self, frame: &mut [u8]) -> Checked {
        self.check_close(frame.len())?;
        let open = self.open.as_mut().ok_or(16)?;
        self.continuity_counter = following(self.continuity_counter, LAST_COUNTER);
        if self.announced.renew(&open.setting) {
            self.version_number = following(self.version_number, LAST_VERSION);
        }
        let header = open.header(self.continuity_counter, self.version_number);
        let packet = frame.first_chunk_mut().ok_or(1)?;
        fill(packet, self.pid, self.kind, header);
        self.open = None;
        Ok(())
    }
}

/// The number behind this one, 0 behind the last.
fn following(number: u8, last: u8) -> u8 {
    if number == last {
        0
    } else {
        number + 1
    }
}
