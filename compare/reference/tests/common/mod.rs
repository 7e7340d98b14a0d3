//! Settings for the tests. Each test file uses a part of this.
#![allow(dead_code)]

pub mod bond_calls;
pub mod faults;
pub mod frames;
pub mod groups;

use reference::{Kind, Refusal, Setting};

pub const KINDS: [Kind; 3] = [Kind::Plain, Kind::Extended, Kind::Short];
pub const PID: u16 = 0x1FF0;

pub struct Random(pub u64);

impl Random {
    /// A number below the limit.
    pub fn below(&mut self, limit: u64) -> u64 {
        self.0 ^= self.0 << 13;
        self.0 ^= self.0 >> 7;
        self.0 ^= self.0 << 17;
        (self.0 >> 20) % limit
    }

    pub fn byte(&mut self, limit: u64) -> u8 {
        self.below(limit) as u8
    }

    pub fn fill(&mut self, bytes: &mut [u8], limit: u64) {
        for byte in bytes {
            *byte = self.byte(limit);
        }
    }
}

/// The least setting that the writer takes.
pub fn least(kind: Kind) -> Setting {
    let mut setting = Setting {
        frame_type: if kind == Kind::Short { 3 } else { 1 },
        ..Setting::ZEROS
    };
    if kind == Kind::Extended {
        setting.number_of_carriers = 1;
        setting.carrier_sequence = 1;
        setting.number_of_frames = 3;
        setting.frame_position = 1;
    }
    setting
}

/// A setting that meets every rule.
pub fn good(random: &mut Random, kind: Kind) -> Setting {
    let mut setting = least(kind);
    setting.continuity_counter = random.byte(16);
    setting.version_number = random.byte(8);
    setting.slot_allocation_type = random.byte(2);
    let size = kind.size();
    setting.availability = (random.below(1 << 15) as u16) >> (15 - size.streams);
    setting.availability <<= 15 - size.streams;
    for stream in 0..size.streams {
        // A few values only, so that pairs share one half often; the
        // network tells the streams apart.
        setting.ts_id[stream] = random.below(3) as u16 * 0x7FFF;
        setting.original_network_id[stream] = (random.below(4096) * 16 + stream as u64) as u16;
    }
    random.fill(&mut setting.receive_status[..size.streams], 4);
    setting.emergency_indicator = random.byte(2);
    random.fill(&mut setting.relative_ts_number[..size.slots], 16);
    let kept = setting.clone();
    for number in &mut setting.relative_ts_number {
        if !kept.is_available(usize::from(*number)) {
            *number = 0;
        }
    }
    let private_data = &mut setting.private_data[..kind.private_data_bytes()];
    random.fill(private_data, 256);
    if kind == Kind::Extended {
        good_extension(random, &mut setting);
    }
    setting
}

fn good_extension(random: &mut Random, setting: &mut Setting) {
    setting.frame_type = 1 + random.byte(2);
    random.fill(&mut setting.auxiliary, 256);
    setting.group_id = random.byte(256);
    setting.number_of_carriers = 1 + random.byte(8);
    setting.carrier_sequence = 1 + random.byte(setting.number_of_carriers.into());
    setting.number_of_frames = 3 + random.byte(2);
    setting.frame_position = 1 + random.byte(setting.number_of_frames.into());
}

/// The header of a setting that the writer takes.
pub fn header(kind: Kind, setting: &Setting) -> [u8; 188] {
    let mut packet = [0; 188];
    assert_eq!(reference::write(&mut packet, PID, kind, setting), 0);
    packet
}

/// The bytes of a header that end in the reserved bit behind the availability,
/// and in emergency_indicator with a reserved bit before it.
pub fn reserved_bytes(kind: Kind) -> [usize; 2] {
    match kind {
        Kind::Plain | Kind::Extended => [8, 72],
        Kind::Short => [7, 37],
    }
}

/// Every reserved bit of a header: its byte, and the bit in it. Extended ones
/// have whole bytes of them besides.
pub fn reserved_bits(kind: Kind) -> Vec<(usize, u8)> {
    let [availability, control] = reserved_bytes(kind);
    let mut bits = vec![(4, 0x80), (4, 0x40), (4, 0x20)];
    bits.extend([(availability, 0x01), (control, 0x02)]);
    if kind == Kind::Extended {
        bits.extend(
            (131..184).flat_map(|byte| [1, 2, 4, 8, 16, 32, 64, 128].map(|bit| (byte, bit))),
        );
    }
    bits
}

/// Makes a reserved bit zero, as only another maker does, and the CRC right.
pub fn clear_reserved(packet: &mut [u8; 188], (byte, bit): (usize, u8)) {
    packet[byte] &= !bit;
    make_crc_right(packet);
}

/// The CRC register bit by bit, as the polynomial says it.
pub fn by_bits(bytes: &[u8]) -> u32 {
    let mut register = u32::MAX;
    for byte in bytes {
        for bit in (0..8).rev() {
            let outgoing = register >> 31 != u32::from(byte >> bit & 1);
            register <<= 1;
            if outgoing {
                register ^= 0x04C1_1DB7;
            }
        }
    }
    register
}

/// A refusal by 7, as the words say it: with what bytes 4 to 187 leave.
pub fn wrong_crc(packet: &[u8]) -> Refusal {
    Refusal {
        number: 7,
        remainder: by_bits(&packet[4..188]),
    }
}

/// The number that a call answers, 0 where it accepts.
pub fn number<T>(answer: Result<T, Refusal>) -> u8 {
    answer.err().map_or(0, |refusal| refusal.number)
}

pub fn make_crc_right(packet: &mut [u8; 188]) {
    let crc = reference::crc32(&packet[4..184]);
    packet[184..].copy_from_slice(&crc.to_be_bytes());
}
