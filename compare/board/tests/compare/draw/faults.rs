//! Faults in settings, in headers and in the bytes of states.

use super::availability_bit;
use super::reserved::clear_one;
use board::random::Random;
use reference::{crc32, Kind, Setting, SLOTS, STREAMS};
use std::ops::Range;

/// A byte of a header, and a bit in it.
pub type Bit = (usize, u8);

/// What a reader looks for, in its order; the last in extended headers alone.
const OF_A_READER: [u8; 13] = [1, 2, 17, 3, 4, 5, 6, 7, 20, 8, 9, 10, 11];

/// What a group is looked at for: before its headers, in each, and behind them.
pub const EARLY: [u8; 3] = [1, 2, 17];
pub const OF_A_HEADER: [u8; 11] = [3, 4, 5, 6, 7, 20, 8, 9, 10, 11, 14];
pub const LATE: [u8; 3] = [13, 15, 12];

/// What a header of the kind can be refused for, in the reader's order.
pub fn of_a_reader(kind: Kind) -> &'static [u8] {
    match kind {
        Kind::Plain | Kind::Short => &OF_A_READER[..12],
        Kind::Extended => &OF_A_READER,
    }
}

/// How many sorts of faults there are in a setting.
const SORTS: usize = 18;

/// One field off, mostly by one, or at its end and just right.
pub fn spoil(random: &mut Random, kind: Kind, setting: &mut Setting) {
    let any = random.byte();
    let size = kind.size();
    match random.below(SORTS) {
        0 => setting.continuity_counter = random.of(&[0, 15, 16, 255, any]),
        1 => setting.version_number = random.of(&[0, 7, 8, 255, any]),
        2 => setting.slot_allocation_type = random.of(&[0, 1, 2, 255, any]),
        3 | 4 => setting.frame_type = random.of(&[0, 1, 2, 3, 14, 15, 16, 17, 18, 255]),
        5 => setting.availability |= 0x8000,
        6 => setting.receive_status[random.below(STREAMS)] = random.of(&[0, 3, 4, 255, any]),
        7 => setting.emergency_indicator = random.of(&[0, 1, 2, 255, any]),
        8 => {
            let number = random.of(&[7, 8, 15, 16, 17, 255, any]);
            setting.relative_ts_number[random.below(SLOTS)] = number;
        }
        9 => lacking_part(random, kind, setting),
        10 | 11 => {
            let slot = random.of(&[0, size.slots - 1, 20]);
            setting.relative_ts_number[slot] = random.byte_below(size.streams + 1);
        }
        12 | 13 => setting.availability ^= availability_bit(random.between(1, size.streams)),
        14 | 15 => equal_pairs(random, size.streams, setting),
        _ => bonding(random, setting),
    }
}

/// A byte of a part that the kind has not, at one of its ends or inside.
fn lacking_part(random: &mut Random, kind: Kind, setting: &mut Setting) {
    let value = random.of(&[1, 128, 255]);
    match (kind, random.below(3)) {
        (Kind::Extended, _) => setting.private_data[random.of(&[0, 40, 84, 85, 130])] = value,
        (Kind::Plain, 0) => setting.private_data[random.of(&[85, 86, 108, 130])] = value,
        (Kind::Short, 0) => behind_the_last(random, setting, value),
        (_, 1) => setting.auxiliary[random.of(&[0, 13, 27])] = value,
        _ => *bonding_field(random.below(5), setting) = value,
    }
}

/// Something of streams 8 to 15 or of slots 41 to 52, at an end or inside.
fn behind_the_last(random: &mut Random, setting: &mut Setting, value: u8) {
    let stream = random.of(&[8, 9, 12, 15]);
    let word = u16::from(value) << random.of(&[0, 8]);
    match random.below(6) {
        0 => setting.availability |= availability_bit(stream),
        1 => setting.ts_id[stream - 1] = word,
        2 => setting.original_network_id[stream - 1] = word,
        3 => setting.receive_status[stream - 1] = random.of(&[1, 2, 3, value]),
        _ => {
            let slot = random.of(&[41, 42, 47, 52]);
            setting.relative_ts_number[slot - 1] = random.of(&[1, 7, 8, 15, value]);
        }
    }
}

/// Two available streams with equal pairs, or with a bit between them.
fn equal_pairs(random: &mut Random, last: usize, setting: &mut Setting) {
    let (one, other) = (random.between(1, last), random.between(1, last));
    setting.availability |= availability_bit(one) | availability_bit(other);
    setting.ts_id[one - 1] = setting.ts_id[other - 1];
    setting.original_network_id[one - 1] = setting.original_network_id[other - 1];
    match random.below(4) {
        0 => setting.ts_id[one - 1] ^= 1 << random.below(16),
        1 => setting.original_network_id[one - 1] ^= 1 << random.below(16),
        _ => (),
    }
}

fn bonding_field(field: usize, setting: &mut Setting) -> &mut u8 {
    match field {
        0 => &mut setting.group_id,
        1 => &mut setting.number_of_carriers,
        2 => &mut setting.carrier_sequence,
        3 => &mut setting.number_of_frames,
        _ => &mut setting.frame_position,
    }
}

/// Also values whose low half alone would do.
fn bonding(random: &mut Random, setting: &mut Setting) {
    let field = bonding_field(random.between(1, 4), setting);
    let beside = [field.wrapping_sub(1), field.wrapping_add(1), *field | 16];
    let any = random.byte();
    *field = random.of(&[
        0, 1, 2, 3, 4, 5, 8, 9, 255, any, beside[0], beside[1], beside[2],
    ]);
}

/// Damages a header somewhere. Half of the time its CRC is right again, so
/// that what stands behind 7 is reached.
pub fn damage(random: &mut Random, kind: Kind, packet: &mut [u8]) {
    let (pairs, numbers) = (pairs(kind), slot_numbers(kind));
    for _ in 0..random.of(&[1, 1, 1, 2, 3]) {
        let any = random.below(packet.len());
        let ends = [pairs.start, pairs.end, numbers.start, numbers.end];
        let end = random.of(&ends) - random.below(2);
        let byte = random.of(&[any, any, 0, 1, 2, 3, 4, 5, 6, 7, end, end, 128, 129, 130]);
        packet[byte] ^= 1 << random.below(8);
    }
    match random.below(8) {
        0 | 1 => {
            let [from, to] = [(); 2].map(|_| pairs.start + 4 * random.below(pairs.len() / 4));
            packet.copy_within(from..from + 4, to);
        }
        2 | 3 => packet[numbers.start + random.below(numbers.len())] = random.byte(),
        4 => clear_one(random, kind, packet),
        _ => (),
    }
    if random.one_in(2) {
        make_crc_right(packet);
    }
}

/// Breaks rules in the header of a breakable setting, by their refusals. A 20
/// is this reserved bit at zero, and a 14 another number of carriers than 1.
/// The CRC is wrong for a 7 alone.
pub fn break_rules(packet: &mut [u8], kind: Kind, refusals: &[u8], (byte, bit): Bit) {
    let (pairs, numbers) = (pairs(kind), slot_numbers(kind));
    for refusal in refusals {
        match refusal {
            6 => packet[5] ^= 0x01,
            20 => packet[byte] &= !bit,
            8 => packet[6] |= 0x0F,
            9 => packet[numbers.end - 1] |= kind.size().streams as u8,
            10 => packet.copy_within(pairs.start..pairs.start + 4, pairs.start + 4),
            11 => packet[130] &= 0xF0,
            14 => packet[128] = 2,
            _ => (),
        }
    }
    make_crc_right(packet);
    for refusal in refusals {
        match refusal {
            3 => packet[0] ^= 0x01,
            4 => packet[2] ^= 0x01,
            5 => packet[3] ^= 0x20,
            7 => packet[187] ^= 0x01,
            _ => (),
        }
    }
}

/// Where a header has the identifiers of all streams.
pub fn pairs(kind: Kind) -> Range<usize> {
    match kind {
        Kind::Plain | Kind::Extended => 9..69,
        Kind::Short => 8..36,
    }
}

/// Where it has the numbers of all slots.
fn slot_numbers(kind: Kind) -> Range<usize> {
    match kind {
        Kind::Plain | Kind::Extended => 73..99,
        Kind::Short => 38..53,
    }
}

pub fn make_crc_right(packet: &mut [u8]) {
    let crc = crc32(&packet[4..184]);
    packet[184..188].copy_from_slice(&crc.to_be_bytes());
}

/// A few bytes of a state become others, mostly near ends of ranges.
pub fn change_bytes(random: &mut Random, bytes: &mut [u8]) {
    for _ in 0..random.of(&[1, 1, 1, 2, 4]) {
        let any = random.below(bytes.len());
        let at = random.of(&[any, any, any, any % 7, any % 100]) % bytes.len();
        let drawn = random.byte();
        bytes[at] = match random.below(4) {
            0 => bytes[at].wrapping_add(1),
            1 => bytes[at] ^ 1 << random.below(8),
            _ => random.of(&[0, 1, 2, 3, 4, 7, 8, 15, 16, 40, 41, 52, 53, 255, drawn]),
        };
    }
}
