//! What the work is done on: every slot is planned, and all streams are
//! available.

use reference::{Asked, Kind, Setting, FRAME_BYTES, PACKET_BYTES, SLOTS};

pub const PID: u16 = 0x1FF0;
const NETWORK: u16 = 0x0020;
const FIRST_TS_ID: u16 = 0x4000;

/// The streams take the slots in turn.
pub fn setting(kind: Kind) -> Setting {
    let size = kind.size();
    let mut setting = Setting {
        frame_type: if kind == Kind::Short { 3 } else { 1 },
        ..Setting::ZEROS
    };
    for stream in 0..size.streams {
        setting.availability |= 0x4000 >> stream;
        setting.ts_id[stream] = FIRST_TS_ID + stream as u16;
        setting.original_network_id[stream] = NETWORK;
        setting.receive_status[stream] = (stream % 4) as u8;
    }
    for place in 0..size.slots {
        setting.relative_ts_number[place] = (place % size.streams) as u8 + 1;
    }
    for place in 0..kind.private_data_bytes() {
        setting.private_data[place] = place as u8;
    }
    setting
}

/// So many packets that may stand in slots.
pub fn stream(packets: usize) -> Vec<u8> {
    let mut stream: Vec<u8> = (0..PACKET_BYTES * packets).map(|i| i as u8).collect();
    for packet in stream.chunks_exact_mut(PACKET_BYTES) {
        packet[..4].copy_from_slice(&[0x47, 0x01, 0x00, 0x10]);
    }
    stream
}

/// For each stream as many packets as it has slots.
pub fn streams(kind: Kind) -> Vec<Vec<u8>> {
    let numbers = setting(kind).relative_ts_number;
    let slots = |r| numbers.iter().filter(|&&number| number == r).count();
    let last = kind.size().streams as u8;
    (1..=last).map(|r| stream(slots(r))).collect()
}

pub fn header(kind: Kind, setting: &Setting) -> [u8; PACKET_BYTES] {
    let mut packet = [0; PACKET_BYTES];
    let refusal = reference::write(&mut packet, PID, kind, setting);
    assert_eq!(refusal, 0, "the setting is good");
    packet
}

/// The headers of sixteen frames behind one another.
pub fn counted_headers(kind: Kind) -> Vec<[u8; PACKET_BYTES]> {
    let counted = |continuity_counter| Setting {
        continuity_counter,
        ..setting(kind)
    };
    (0..16)
        .map(|counter| header(kind, &counted(counter)))
        .collect()
}

/// Carriers of so many frames, all of whose slots are of stream 1.
pub fn group(frames: &[u8]) -> (Vec<u8>, Asked) {
    let mut group = Vec::new();
    for (carrier, &number_of_frames) in frames.iter().enumerate() {
        for frame_position in 1..=number_of_frames {
            let setting = Setting {
                relative_ts_number: [1; SLOTS],
                number_of_carriers: frames.len() as u8,
                carrier_sequence: carrier as u8 + 1,
                number_of_frames,
                frame_position,
                ..setting(Kind::Extended)
            };
            group.extend(header(Kind::Extended, &setting));
            group.extend(stream(SLOTS));
        }
    }
    assert!(group.len().is_multiple_of(FRAME_BYTES));
    let asked = Asked {
        carriers: frames.len() as u8,
        pid: PID,
        ts_id: FIRST_TS_ID,
        original_network_id: NETWORK,
    };
    (group, asked)
}
