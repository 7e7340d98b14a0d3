//! Groups of bonded carriers, and ways in which they are wrong.

use super::faults::{damage, make_crc_right};
use super::reserved::clear_one;
use super::{availability_bit, good, packets, pid};
use board::random::Random;
use reference::{Asked, Kind, Setting, FRAME_BYTES, PACKET_BYTES};

/// A group in which nothing is wrong, and what to ask it with.
pub struct Group {
    pub bytes: Vec<u8>,
    pub asked: Asked,
}

/// One to eight carriers of three frames, of four, or of both, mostly few. Once
/// in a while no header carries the stream.
pub fn group(random: &mut Random) -> Group {
    let carriers = random.of(&[1, 1, 2, 2, 2, 3, 4, 5, 7, 8]);
    let asked = Asked {
        carriers,
        pid: pid(random),
        ts_id: random.sixteen(),
        original_network_id: random.sixteen(),
    };
    let often = random.of(&[0, 2, 3, 3, 4, 4, 4, 4]);
    let frames = random.of(&[[3, 3], [4, 4], [3, 4], [3, 4]]);
    let group_id = random.byte();
    let mut bytes = Vec::new();
    for carrier_sequence in 1..=carriers {
        let number_of_frames = random.of(&frames);
        for frame_position in 1..=number_of_frames {
            let mut setting = good(random, Kind::Extended);
            setting.group_id = group_id;
            setting.number_of_carriers = carriers;
            setting.carrier_sequence = carrier_sequence;
            setting.number_of_frames = number_of_frames;
            setting.frame_position = frame_position;
            if random.below(4) < often {
                carry(random, &mut setting, &asked);
            }
            if random.one_in(3) {
                name_unavailable(random, &mut setting, &asked);
            }
            bytes.extend(frame(random, &setting, asked.pid));
        }
    }
    Group { bytes, asked }
}

/// A stream becomes the bonded one, with none to all of the slots.
fn carry(random: &mut Random, setting: &mut Setting, asked: &Asked) {
    let r = random.between(1, 15);
    setting.availability |= availability_bit(r);
    setting.ts_id[r - 1] = asked.ts_id;
    setting.original_network_id[r - 1] = asked.original_network_id;
    let share = random.of(&[0, 1, 2, 4, 4, 8]);
    for number in &mut setting.relative_ts_number {
        if random.below(8) < share || usize::from(*number) == r {
            *number = r as u8;
        }
    }
}

/// An unavailable stream, if this one is, has the identifiers as well.
fn name_unavailable(random: &mut Random, setting: &mut Setting, asked: &Asked) {
    let r = random.between(1, 15);
    if !setting.is_available(r) {
        setting.ts_id[r - 1] = asked.ts_id;
        setting.original_network_id[r - 1] = asked.original_network_id;
    }
}

/// The frame of a setting, with any bytes in its slots.
pub fn frame(random: &mut Random, setting: &Setting, pid: u16) -> Vec<u8> {
    let mut frame = random.bytes(FRAME_BYTES);
    let header = packets::header(pid, Kind::Extended, setting);
    frame[..PACKET_BYTES].copy_from_slice(&header);
    frame
}

/// The header of a frame, the first being 0.
pub fn header(group: &mut [u8], frame: usize) -> &mut [u8] {
    &mut group[FRAME_BYTES * frame..][..PACKET_BYTES]
}

/// A header is damaged, or another maker's, or says that it belongs elsewhere.
pub fn spoil_header(random: &mut Random, header: &mut [u8]) {
    match random.below(9) {
        0 => header[127] ^= 1 << random.below(8),
        1 => header[128] = random.byte_below(10),
        2 => header[129] = random.byte_below(10),
        3 => header[130] ^= 0x70,
        4 => header[130] = header[130] & 0xF0 | random.byte_below(6),
        5 => clear_one(random, Kind::Extended, header),
        _ => return damage(random, Kind::Extended, header),
    }
    make_crc_right(header);
}

/// Frames are missing, left over or moved, or bytes are.
pub fn move_frames(random: &mut Random, group: &mut Vec<u8>) {
    let frames = group.len() / FRAME_BYTES;
    let from = FRAME_BYTES * random.below(frames);
    let to = FRAME_BYTES * random.below(frames);
    match random.below(8) {
        0 => group.truncate(group.len() - FRAME_BYTES),
        1 => group.truncate(FRAME_BYTES * random.below(frames)),
        2 => group.extend_from_within(from..from + FRAME_BYTES),
        3 => drop(group.drain(from..from + FRAME_BYTES)),
        4 => group.copy_within(from..from + FRAME_BYTES, to),
        5 => group.truncate(group.len() - 1),
        6 => group.push(0x47),
        _ => group.rotate_left(from),
    }
}

/// All frames of a carrier say that it has one more or fewer.
pub fn change_frames(random: &mut Random, group: &mut [u8], carriers: u8) {
    let carrier = 1 + random.byte_below(carriers.into());
    for frame in group.chunks_exact_mut(FRAME_BYTES) {
        let header = &mut frame[..PACKET_BYTES];
        if header[129] == carrier {
            header[130] ^= 0x70;
            make_crc_right(header);
        }
    }
}

/// The question is another.
pub fn change_question(random: &mut Random, asked: &mut Asked) {
    match random.below(5) {
        0 => asked.carriers = random.of(&[0, 1, 2, 3, 7, 8, 9, 255]),
        1 => asked.pid = super::near_pid(random, asked.pid ^ 1),
        2 => asked.ts_id ^= 1 << random.below(16),
        3 => asked.original_network_id ^= 1 << random.below(16),
        _ => std::mem::swap(&mut asked.ts_id, &mut asked.original_network_id),
    }
}
