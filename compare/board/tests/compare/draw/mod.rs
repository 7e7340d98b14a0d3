//! What the families draw alike: settings, packets, lengths and numbers.

pub mod bonded_calls;
pub mod faults;
pub mod groups;
pub mod packets;
pub mod reserved;

use board::coding::setting_bytes;
use board::lent::Lent;
use board::random::Random;
use reference::{Kind, Setting};

pub const KINDS: [Kind; 3] = [Kind::Plain, Kind::Extended, Kind::Short];

/// Kinds as numbers, known and unknown.
pub const KIND_BYTES: [u8; 5] = [0, 1, 2, 3, 255];

/// The lengths of frames and stores of all kinds, and those that settings and
/// states had before there was a short kind.
const OTHER_LENGTHS: [usize; 6] = [9964, 7708, 9776, 7520, 252, 390];

/// Header PIDs around the ends of their range.
pub const PIDS: [u16; 10] = [0, 15, 16, 17, 8189, 8190, 8191, 8192, 8208, 65535];

pub fn kind(random: &mut Random) -> Kind {
    random.of(&KINDS)
}

/// A header PID that is allowed.
pub fn pid(random: &mut Random) -> u16 {
    let drawn = random.between(16, 8190) as u16;
    random.of(&[drawn, drawn, 0x1FF0, 16, 8190])
}

/// The number of a stream that the kind has.
pub fn stream_number(random: &mut Random, kind: Kind) -> u8 {
    1 + random.byte_below(kind.size().streams)
}

/// The bits of all streams that the kind has.
pub fn all_streams(kind: Kind) -> u16 {
    let streams = 1..=kind.size().streams;
    streams.fold(0, |bits, r| bits | availability_bit(r))
}

/// The bit of stream r, 1 to 15.
pub fn availability_bit(r: usize) -> u16 {
    0x4000 >> (r - 1)
}

/// A setting that meets every rule.
pub fn good(random: &mut Random, kind: Kind) -> Setting {
    let mut setting = Setting {
        continuity_counter: random.byte_below(16),
        version_number: random.byte_below(8),
        slot_allocation_type: random.byte_below(2),
        frame_type: if kind == Kind::Short { 3 } else { 1 },
        emergency_indicator: random.byte_below(2),
        ..Setting::ZEROS
    };
    let size = kind.size();
    let all = all_streams(kind);
    let drawn = random.sixteen() & all;
    let ends = availability_bit(1) | availability_bit(size.streams);
    setting.availability = random.of(&[drawn, drawn, drawn, all, ends, 0]);
    for status in &mut setting.receive_status[..size.streams] {
        *status = random.byte_below(4);
    }
    identifiers(random, kind, &mut setting);
    plan(random, kind, &mut setting);
    random.fill(&mut setting.private_data[..kind.private_data_bytes()]);
    if kind == Kind::Extended {
        extension(random, &mut setting);
    }
    setting
}

/// A good setting each of whose rules can be broken by itself: streams 1 and 2
/// are available, and the last one is not.
pub fn breakable(random: &mut Random, kind: Kind) -> Setting {
    let mut setting = good(random, kind);
    let last = kind.size().streams;
    setting.availability |= availability_bit(1) | availability_bit(2);
    setting.availability &= !availability_bit(last);
    for stream in 0..last {
        setting.ts_id[stream] = stream as u16;
    }
    plan(random, kind, &mut setting);
    setting
}

/// Available pairs differ, at times in one bit; an unavailable stream may have
/// the pair of another.
fn identifiers(random: &mut Random, kind: Kind, setting: &mut Setting) {
    let base = random.sixteen() & 0xFFF0;
    let apart = random.one_in(2);
    let same = random.of(&[0, 0xFFFF, base]);
    for stream in 0..kind.size().streams {
        let own = base | stream as u16;
        let other = if random.one_in(2) {
            same
        } else {
            random.sixteen()
        };
        let (ts_id, network) = if apart { (own, other) } else { (other, own) };
        setting.ts_id[stream] = ts_id;
        setting.original_network_id[stream] = network;
        if stream > 0 && !setting.is_available(stream + 1) && random.one_in(2) {
            setting.ts_id[stream] = setting.ts_id[stream - 1];
            setting.original_network_id[stream] = setting.original_network_id[stream - 1];
        }
    }
}

/// New slot numbers, all of available streams or 0.
pub fn plan(random: &mut Random, kind: Kind, setting: &mut Setting) {
    let size = kind.size();
    let streams: Vec<u8> = (0..=size.streams)
        .filter(|&r| r == 0 || setting.is_available(r))
        .map(|r| r as u8)
        .collect();
    for number in &mut setting.relative_ts_number[..size.slots] {
        *number = random.of(&streams);
    }
}

fn extension(random: &mut Random, setting: &mut Setting) {
    setting.frame_type = 1 + random.byte_below(2);
    random.fill(&mut setting.auxiliary);
    setting.group_id = random.byte();
    setting.number_of_carriers = 1 + random.byte_below(8);
    setting.carrier_sequence = 1 + random.byte_below(setting.number_of_carriers.into());
    setting.number_of_frames = 3 + random.byte_below(2);
    setting.frame_position = 1 + random.byte_below(setting.number_of_frames.into());
}

pub fn lent_setting(setting: &Setting) -> Lent {
    Lent::new(&setting_bytes(setting))
}

/// The fixed length and those around it.
pub fn lengths(fixed: usize) -> [usize; 5] {
    [0, 1, fixed - 1, fixed, fixed + 1]
}

/// These bytes, cut or with more behind them.
pub fn resized(bytes: &[u8], length: usize) -> Vec<u8> {
    let mut bytes = bytes.to_vec();
    bytes.resize(length, 0x47);
    bytes
}

/// Mostly the fixed length, and now and then another.
pub fn length(random: &mut Random, fixed: usize) -> usize {
    let any = random.below(2 * fixed + 2);
    let other = random.of(&OTHER_LENGTHS);
    match random.below(12) {
        0 => random.of(&[0, 1, fixed - 1, fixed + 1, 188, any, other, other]),
        _ => fixed,
    }
}

/// Mostly this number, and now and then another.
pub fn number(random: &mut Random, right: u8) -> u8 {
    let around = [right.wrapping_sub(1), right.wrapping_add(1)];
    match random.below(12) {
        0 => random.of(&[0, 1, 2, 3, 7, 8, 9, 15, 16, 17, 255, around[0], around[1]]),
        _ => right,
    }
}

/// Mostly this PID, and now and then another.
pub fn near_pid(random: &mut Random, right: u16) -> u16 {
    match random.below(12) {
        0 => random.of(&PIDS),
        1 => right ^ 1 << random.below(16),
        _ => right,
    }
}
