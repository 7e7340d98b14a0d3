//! The headers of a group, read one after another. Everything that a header
//! shows is refused before the next one is read.

use super::places::Bonded;
use super::Asked;
use crate::layout::{FRAME_BYTES, PACKET_BYTES, STREAMS};
use crate::read::read;
use crate::refusal::Refusal;
use crate::rules::unless;
use crate::setting::{Kind, Setting};

/// 3 to 7, 20, 8 to 11 and 14: the stream's slots in all frames.
pub fn bonded(group: &[u8], asked: &Asked) -> Result<Bonded, Refusal> {
    let mut bonded = Bonded::NONE;
    let mut turn = Turn::first(asked.carriers);
    for (number, frame) in group.chunks_exact(FRAME_BYTES).enumerate() {
        let header = read(&frame[..PACKET_BYTES], asked.pid, Kind::Extended)?;
        unless(turn.is_of(&header), 14)?;
        if header.frame_position == 1 {
            bonded.add_carrier(FRAME_BYTES * number, header.number_of_frames);
        }
        if let Some(r) = relative_number(&header, asked) {
            bonded.add_slots(header.frame_position, &header.relative_ts_number, r);
        }
        turn.go_on(&header);
    }
    // A frame that is missing shows only here: no header is left to tell it.
    unless(turn.carrier_sequence > asked.carriers, 14)?;
    Ok(bonded)
}

/// Where the next frame stands in its group, and what those before it say:
/// the first one of the group its group_id, the first one of the carrier its
/// number_of_frames.
struct Turn {
    carriers: u8,
    carrier_sequence: u8,
    frame_position: u8,
    group_id: Option<u8>,
    number_of_frames: u8,
}

impl Turn {
    fn first(carriers: u8) -> Turn {
        Turn {
            carriers,
            carrier_sequence: 1,
            frame_position: 1,
            group_id: None,
            number_of_frames: 0,
        }
    }

    /// Whether this header's is the turn. A frame that is left over has none.
    fn is_of(&self, header: &Setting) -> bool {
        let same_frames = header.number_of_frames == self.number_of_frames;
        self.carrier_sequence <= self.carriers
            && header.number_of_carriers == self.carriers
            && header.carrier_sequence == self.carrier_sequence
            && header.frame_position == self.frame_position
            && self.group_id.is_none_or(|id| id == header.group_id)
            && (self.frame_position == 1 || same_frames)
    }

    /// The turn behind this header's.
    fn go_on(&mut self, header: &Setting) {
        self.group_id = Some(header.group_id);
        self.number_of_frames = header.number_of_frames;
        if header.frame_position < header.number_of_frames {
            self.frame_position += 1;
        } else {
            self.carrier_sequence += 1;
            self.frame_position = 1;
        }
    }
}

/// The number under which a header carries the stream as available.
fn relative_number(header: &Setting, asked: &Asked) -> Option<u8> {
    let streams = header.ts_id.iter().zip(&header.original_network_id);
    (1..=STREAMS as u8).zip(streams).find_map(|(r, ids)| {
        let is_asked = ids == (&asked.ts_id, &asked.original_network_id);
        (is_asked && header.is_available(r.into())).then_some(r)
    })
}
