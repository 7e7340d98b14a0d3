//! Groups of bonded carriers for the tests.

use super::{good, header, Random, PID};
use reference::{Asked, Kind, Setting, FRAME_BYTES};

/// The bonded stream. No drawn setting has its TS_id.
pub const TS_ID: u16 = 0x1234;
pub const ORIGINAL_NETWORK_ID: u16 = 0x5678;

pub fn asked(carriers: usize) -> Asked {
    Asked {
        carriers: carriers as u8,
        pid: PID,
        ts_id: TS_ID,
        original_network_id: ORIGINAL_NETWORK_ID,
    }
}

/// Makes stream r the bonded one.
pub fn carry(setting: &mut Setting, r: usize) {
    setting.availability |= 0x4000 >> (r - 1);
    setting.ts_id[r - 1] = TS_ID;
    setting.original_network_id[r - 1] = ORIGINAL_NETWORK_ID;
}

/// The settings of a group, a place for each frame of each carrier. What else
/// a header says is the maker's.
pub fn settings(frames: &[u8], mut make: impl FnMut() -> Setting) -> Vec<Setting> {
    let mut settings = Vec::new();
    for (carrier, &number_of_frames) in frames.iter().enumerate() {
        for frame_position in 1..=number_of_frames {
            settings.push(Setting {
                group_id: 9,
                number_of_carriers: frames.len() as u8,
                carrier_sequence: carrier as u8 + 1,
                number_of_frames,
                frame_position,
                ..make()
            });
        }
    }
    settings
}

/// A setting in which the stream, if carried, has about half of the slots.
pub fn drawn_setting(random: &mut Random, carried: bool) -> Setting {
    let mut setting = good(random, Kind::Extended);
    if carried {
        let r = 1 + random.below(15) as usize;
        carry(&mut setting, r);
        for number in &mut setting.relative_ts_number {
            if random.below(2) == 0 {
                *number = r as u8;
            }
        }
    }
    setting
}

/// The stream is in three of four headers, and in the first one always.
pub fn drawn_settings(random: &mut Random, frames: &[u8]) -> Vec<Setting> {
    let mut drawn = 0;
    settings(frames, || {
        drawn += 1;
        let carried = drawn == 1 || random.below(4) > 0;
        drawn_setting(random, carried)
    })
}

/// The frames of these headers, with any bytes in their slots.
pub fn group(random: &mut Random, settings: &[Setting]) -> Vec<u8> {
    let mut group = vec![0; FRAME_BYTES * settings.len()];
    random.fill(&mut group, 256);
    for (frame, setting) in group.chunks_exact_mut(FRAME_BYTES).zip(settings) {
        frame[..188].copy_from_slice(&header(Kind::Extended, setting));
    }
    group
}

/// One to eight carriers of three or four frames.
pub fn drawn_frames(random: &mut Random) -> Vec<u8> {
    let carriers = 1 + random.below(8);
    (0..carriers).map(|_| 3 + random.byte(2)).collect()
}

/// The bonded slots of a group in order, as frames from 0 and slots from 1.
/// Three and four divide twelve, so that places are put on one scale here.
pub fn bonded_slots(settings: &[Setting]) -> Vec<(usize, usize)> {
    let mut slots = Vec::new();
    for (frame, setting) in settings.iter().enumerate() {
        for slot in 1..=52 {
            let r = usize::from(setting.relative_ts_number[slot - 1]);
            if r > 0 && setting.ts_id[r - 1] == TS_ID {
                let place = 53 * (usize::from(setting.frame_position) - 1) + slot;
                let time = place * 12 / usize::from(setting.number_of_frames);
                slots.push((time, setting.carrier_sequence, (frame, slot)));
            }
        }
    }
    slots.sort_unstable();
    slots.into_iter().map(|(_, _, slot)| slot).collect()
}
