//! The bonded slots of a group and their order.

use crate::layout::{LAST_CARRIER, MOST_FRAMES, SLOTS};
use crate::packet::place;
use std::ops::Range;

/// The places of a frame: its slots and its header's own.
const FRAME_PLACES: usize = 1 + SLOTS;
/// Those of a super frame, and the one behind it.
const PLACES: usize = MOST_FRAMES * FRAME_PLACES + 1;

/// A carrier: the byte of the group at which its super frame starts, how many
/// frames that has, and which of its places are bonded. Place p is slot i of
/// frame f with p = 53 (f - 1) + i, and so its packet is packet p.
#[derive(Clone, Copy)]
struct Carrier {
    start: usize,
    frames: usize,
    is_bonded: [bool; PLACES],
}

/// The bonded slots of a group, and whether any header carries the stream.
pub struct Bonded {
    carriers: [Carrier; LAST_CARRIER as usize],
    count: usize,
    pub packets: usize,
    pub is_carried: bool,
}

impl Bonded {
    pub const NONE: Bonded = Bonded {
        carriers: [Carrier {
            start: 0,
            frames: 0,
            is_bonded: [false; PLACES],
        }; LAST_CARRIER as usize],
        count: 0,
        packets: 0,
        is_carried: false,
    };

    pub fn add_carrier(&mut self, start: usize, number_of_frames: u8) {
        self.carriers[self.count].start = start;
        self.carriers[self.count].frames = number_of_frames.into();
        self.count += 1;
    }

    /// The slots with number r in a frame of the last carrier.
    pub fn add_slots(&mut self, frame_position: u8, numbers: &[u8; SLOTS], r: u8) {
        let first = FRAME_PLACES * (usize::from(frame_position) - 1) + 1;
        let places = &mut self.carriers[self.count - 1].is_bonded[first..first + SLOTS];
        let mut count = 0_u8;
        for (is_bonded, &number) in places.iter_mut().zip(numbers) {
            *is_bonded = number == r;
            count += u8::from(number == r);
        }
        self.packets += usize::from(count);
        self.is_carried = true;
    }

    /// The bytes of each bonded slot, in the slots' order. Super frames of 3
    /// and 4 frames last equally long, 53 times 12 steps of time: place p of
    /// 3 frames comes at 4p, and of 4 frames at 3p. So in each 12 steps there
    /// are the first, second and third of four, the first and second of three
    /// between them, and last both the fourth and the third.
    pub fn for_each_place(&self, mut visit: impl FnMut(Range<usize>)) {
        const OF_THREE_AND_FOUR: [[usize; 2]; 6] = [[0, 1], [1, 0], [0, 2], [2, 0], [0, 3], [3, 4]];
        for twelve in 0..FRAME_PLACES {
            for [of_three, of_four] in OF_THREE_AND_FOUR {
                for carrier in &self.carriers[..self.count] {
                    let next = if carrier.frames == 3 {
                        of_three
                    } else {
                        of_four
                    };
                    let p = carrier.frames * twelve + next;
                    if next > 0 && carrier.is_bonded[p] {
                        let Range { start, end } = place(p);
                        visit(carrier.start + start..carrier.start + end);
                    }
                }
            }
        }
    }
}
