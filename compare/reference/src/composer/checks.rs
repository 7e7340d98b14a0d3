//! What the composer's calls refuse. Each function here is one call's part of
//! the table, read from above.

use super::state::{Composer, OpenFrame};
use crate::layout::PACKET_BYTES;
use crate::packet::{fits_a_slot, Places};
use crate::rules::{
    announced_fits, content, counts_fit, earlier, fields_fit, fixed_length, header_pid,
    stream_number, unless, Checked,
};
use crate::setting::Setting;

impl Composer {
    pub(super) fn check_begin(&self, frame_length: usize, setting: &Setting) -> Checked {
        self.check_length(frame_length)?;
        self.check_pid_and_numbers()?;
        fields_fit(self.kind, setting)?;
        let new = content(self.kind, setting);
        let Some(open) = &self.open else {
            return new;
        };
        earlier(content(self.kind, &open.setting), new)?;
        open.check_marks()
    }

    /// The empty places that the stream's packets go to, as far as both reach.
    pub(super) fn check_put(
        &self,
        frame_length: usize,
        relative_ts_number: u8,
        stream: &[u8],
    ) -> Result<Places, u8> {
        self.check_length(frame_length)?;
        let (packets, cut) = stream.as_chunks::<PACKET_BYTES>();
        unless(cut.is_empty(), 1)?;
        self.check_pid_and_numbers()?;
        stream_number(self.kind.size(), relative_ts_number)?;
        let open = self.check_open()?;
        let available = open.setting.is_available(relative_ts_number.into());
        unless(available, 13)?;
        let places = open.empty_places(relative_ts_number);
        // Packets that find no slot are not looked at.
        let mut taken = packets.iter().take(places.count());
        unless(taken.all(|packet| fits_a_slot(packet, self.pid)), 12)?;
        Ok(places)
    }

    pub(super) fn check_close(&self, frame_length: usize) -> Checked {
        self.check_length(frame_length)?;
        self.check_pid_and_numbers()?;
        self.check_open()?;
        Ok(())
    }

    fn check_length(&self, frame_length: usize) -> Checked {
        fixed_length(frame_length, self.kind.size().frame_bytes())
    }

    /// 2 and a state's share of 17, but for the marks.
    fn check_pid_and_numbers(&self) -> Checked {
        header_pid(self.pid)?;
        counts_fit(self.continuity_counter, self.version_number)?;
        by_kind!(self.kind, kind => announced_fits(kind.size(), &self.announced))?;
        match &self.open {
            Some(open) => fields_fit(self.kind, &open.setting),
            None => Ok(()),
        }
    }

    /// 16, then 8 to 11 and the marks.
    fn check_open(&self) -> Result<&OpenFrame, u8> {
        let open = self.open.as_ref().ok_or(16)?;
        content(self.kind, &open.setting)?;
        open.check_marks()?;
        Ok(open)
    }
}

impl OpenFrame {
    /// Nothing is put into a slot that the plan leaves without a stream.
    fn check_marks(&self) -> Checked {
        let mut amiss = false;
        for (&filled, &number) in self.filled.iter().zip(&self.setting.relative_ts_number) {
            amiss |= filled & (number == 0);
        }
        unless(!amiss, 17)
    }
}
