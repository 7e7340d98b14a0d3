//! Packets that are as they should be.

use crate::generator::Generator;
use reference::{write, Kind, Setting, LISTER_PID, STREAMS};

pub type Packet = [u8; 188];

pub fn null() -> Packet {
    let mut packet = [0xFF; 188];
    packet[..4].copy_from_slice(&[0x47, 0x1F, 0xFF, 0x10]);
    packet
}

/// A packet of a stream: any PID but the header's, any content.
pub fn ordinary(generator: &mut Generator) -> Packet {
    let mut packet = [0; 188];
    generator.fill(&mut packet, 256);
    packet[0] = 0x47;
    let pid = generator.below(LISTER_PID).to_be_bytes();
    packet[1] = packet[1] & 0xE0 | pid[0];
    packet[2] = pid[1];
    packet
}

/// The header of a setting that meets the rules.
pub fn header(kind: Kind, setting: &Setting) -> Packet {
    let mut packet = [0; 188];
    let answer = write(&mut packet, LISTER_PID, kind, setting);
    assert_eq!(answer, 0, "the setting breaks a rule");
    packet
}

/// One good header of many: the variety decides what has to come up for
/// certain, and the generator the rest.
pub fn good(generator: &mut Generator, variety: usize) -> Packet {
    header(Kind::Plain, &setting(generator, variety))
}

fn setting(generator: &mut Generator, variety: usize) -> Setting {
    let mut setting = Setting::ZEROS;
    setting.continuity_counter = (variety % 16) as u8;
    setting.version_number = (variety / 4 % 8) as u8;
    setting.slot_allocation_type = (variety / 2 % 2) as u8;
    setting.frame_type = 1;
    setting.availability = availability(generator, variety);
    identifiers(generator, &mut setting, variety);
    generator.fill(&mut setting.receive_status, 4);
    setting.emergency_indicator = (variety / 3 % 2) as u8;
    slots(generator, &mut setting, variety);
    generator.fill(
        &mut setting.private_data[..Kind::Plain.private_data_bytes()],
        256,
    );
    setting
}

/// None to all fifteen from either end, each one alone, each one missing.
fn availability(generator: &mut Generator, variety: usize) -> u16 {
    let all: u16 = 0x7FFF;
    match variety {
        0..16 => all & !(all >> variety),
        16..32 => all >> (31 - variety),
        32..47 => 0x4000 >> (variety - 32),
        47..62 => all & !(0x4000 >> (variety - 47)),
        _ => generator.below(0x8000),
    }
}

/// Pairs that are equal in one half, or equal but not available, are good.
fn identifiers(generator: &mut Generator, setting: &mut Setting, variety: usize) {
    for stream in 0..STREAMS {
        setting.ts_id[stream] = generator.draw();
        setting.original_network_id[stream] = generator.draw();
    }
    match variety % 5 {
        1 => setting.ts_id = [setting.ts_id[0]; STREAMS],
        2 => setting.original_network_id = [setting.original_network_id[0]; STREAMS],
        3 => repeat_unavailable(setting),
        _ => (),
    }
}

/// Gives every unavailable stream the pair of the last available one.
fn repeat_unavailable(setting: &mut Setting) {
    let last = (1..=STREAMS)
        .rev()
        .find(|&r| setting.is_available(r))
        .unwrap_or(1);
    for stream in 1..=STREAMS {
        if !setting.is_available(stream) {
            setting.ts_id[stream - 1] = setting.ts_id[last - 1];
            setting.original_network_id[stream - 1] = setting.original_network_id[last - 1];
        }
    }
}

fn slots(generator: &mut Generator, setting: &mut Setting, variety: usize) {
    let available: Vec<u8> = (0..=15)
        .filter(|&r| r == 0 || setting.is_available(usize::from(r)))
        .collect();
    let last = available.len() - 1;
    for slot in 0..setting.relative_ts_number.len() {
        let chosen = match variety % 6 {
            0 => last,
            1 => 0,
            _ => usize::from(generator.draw()) % available.len(),
        };
        setting.relative_ts_number[slot] = available[chosen];
    }
}
