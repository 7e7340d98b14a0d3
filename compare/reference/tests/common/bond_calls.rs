//! A call of spread and gather that is accepted, for the tests that spoil it.

use super::frames::stream;
use super::groups::{asked, carry, group, settings};
use super::{least, number, Random};
use reference::{gather, read_headers, spread, Asked, Kind, Refusal, Setting, FRAME_BYTES};

/// All that the calls are given.
#[derive(Clone, PartialEq)]
pub struct Call {
    pub group: Vec<u8>,
    pub asked: Asked,
    pub stream: Vec<u8>,
    pub buffer: Vec<u8>,
}

/// Ten slots are bonded. Streams 2 and 3 differ in one bit of their pairs,
/// and stream 1 is unavailable.
fn setting() -> Setting {
    let mut setting = least(Kind::Extended);
    setting.availability = 0x3000;
    setting.original_network_id[1..3].copy_from_slice(&[256, 257]);
    carry(&mut setting, 4);
    setting.relative_ts_number[..10].fill(4);
    setting
}

/// Carriers of three and four frames: frames 0 to 2, and 3 to 6.
pub fn good_settings() -> Vec<Setting> {
    settings(&[3, 4], setting)
}

/// Stream and buffer have room for exactly the bonded slots of the frames.
pub fn call_of(settings: &[Setting]) -> Call {
    let mut random = Random(61);
    Call {
        group: group(&mut random, settings),
        asked: asked(2),
        stream: stream(&mut random, 70),
        buffer: vec![0xA5; 188 * 70],
    }
}

impl Call {
    pub fn header(&mut self, frame: usize) -> &mut [u8; 188] {
        let bytes = &mut self.group[FRAME_BYTES * frame..][..188];
        bytes.try_into().unwrap()
    }

    pub fn spread(&mut self) -> Result<usize, Refusal> {
        spread(&mut self.group, &self.asked, &self.stream)
    }

    pub fn gather(&mut self) -> Result<usize, Refusal> {
        gather(&self.group, &self.asked, &mut self.buffer)
    }

    /// How many packets the headers speak of. Nothing is lent to write to.
    pub fn read_headers(&self) -> Result<usize, Refusal> {
        read_headers(&self.group, &self.asked).map(|carried| carried.packets)
    }

    pub fn headers_refusal(&self) -> u8 {
        number(self.read_headers())
    }

    /// The refusals of both. Without packets everything stays as it was.
    pub fn refusals(&self) -> [u8; 2] {
        [Call::spread, Call::gather].map(|make| {
            let mut call = self.clone();
            let answer = make(&mut call);
            assert_eq!(call == *self, answer.unwrap_or(0) == 0);
            number(answer)
        })
    }

    /// What all three answer.
    pub fn answers(&self) -> [Result<usize, Refusal>; 3] {
        let mut call = self.clone();
        [call.spread(), call.gather(), call.read_headers()]
    }
}
