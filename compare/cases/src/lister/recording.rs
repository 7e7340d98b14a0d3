//! A recording as long as one likes: a good header at the start of every
//! frame, and ordinary packets.

use super::packets::{header, ordinary, Packet};
use crate::generator::Generator;
use reference::{Kind, Setting};
use std::io::{self, Write};

/// The packets of a frame, its header among them.
pub const FRAME_PACKETS: u64 = 53;

/// Packet by packet, so that memory does not grow with the recording.
pub fn write_recording(out: &mut impl Write, packets: u64) -> io::Result<()> {
    let mut generator = Generator::new(4);
    for number in 0..packets {
        let packet = match number % FRAME_PACKETS {
            0 => frame_header(&mut generator, number / FRAME_PACKETS),
            _ => ordinary(&mut generator),
        };
        out.write_all(&packet)?;
    }
    Ok(())
}

/// Counter, version and availability go round with the frames. The streams'
/// pairs differ, and the slots name available streams only.
fn frame_header(generator: &mut Generator, frame: u64) -> Packet {
    let mut setting = Setting {
        frame_type: 1,
        continuity_counter: (frame % 16) as u8,
        version_number: (frame / 16 % 8) as u8,
        availability: (frame % 0x8000) as u16,
        ts_id: std::array::from_fn(|stream| stream as u16),
        ..Setting::ZEROS
    };
    for slot in 0..setting.relative_ts_number.len() {
        let stream = 1 + slot % 15;
        if setting.is_available(stream) {
            setting.relative_ts_number[slot] = stream as u8;
        }
    }
    generator.fill(
        &mut setting.private_data[..Kind::Plain.private_data_bytes()],
        256,
    );
    header(Kind::Plain, &setting)
}
