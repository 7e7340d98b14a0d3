//! The calls of niranbok.h once more, over the reference: what the archive has
//! to answer and to leave in every byte that it is lent.

mod frames;
mod headers;

use crate::coding::kind_of;
pub use frames::{
    composer_begin, composer_close, composer_put, composer_rest, composer_start, receiver_hand_out,
    receiver_receive, receiver_start,
};
pub use headers::{
    count_available, crc, frame_position, header_read, header_write, is_available, pid_allowed,
    place_refusal, relative_number, setting_blank, setting_rules, setting_widths, slot,
};
use reference::{Asked, Kind, Refusal};

type Checked = Result<(), u8>;

/// The lent bytes as an array, or 1.
fn fixed<const N: usize>(bytes: &[u8]) -> Result<&[u8; N], u8> {
    bytes.try_into().map_err(|_| 1)
}

fn fixed_length(bytes: &[u8], length: usize) -> Checked {
    unless(bytes.len() == length, 1)
}

fn unless(met: bool, refusal: u8) -> Checked {
    if met {
        Ok(())
    } else {
        Err(refusal)
    }
}

fn known_kind(kind: u8) -> Result<Kind, u8> {
    kind_of(kind).ok_or(17)
}

fn refusal(answer: Checked) -> u8 {
    answer.err().unwrap_or(0)
}

fn counted(answer: Result<usize, u8>) -> (u8, usize) {
    match answer {
        Ok(count) => (0, count),
        Err(refusal) => (refusal, 0),
    }
}

pub fn read_headers(group: &[u8], asked: &Asked) -> (u8, u8, usize, u32) {
    match reference::read_headers(group, asked) {
        Ok(carried) => (0, carried.is_carried.into(), carried.packets, 0),
        Err(Refusal { number, remainder }) => (number, 0, 0, remainder),
    }
}

pub fn spread(group: &mut [u8], stream: &[u8], asked: &Asked) -> (u8, usize, u32) {
    bonded(reference::spread(group, asked, stream))
}

pub fn gather(group: &[u8], out: &mut [u8], asked: &Asked) -> (u8, usize, u32) {
    bonded(reference::gather(group, asked, out))
}

fn bonded(answer: Result<usize, Refusal>) -> (u8, usize, u32) {
    match answer {
        Ok(packets) => (0, packets, 0),
        Err(Refusal { number, remainder }) => (number, 0, remainder),
    }
}
