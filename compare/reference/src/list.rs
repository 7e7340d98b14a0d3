//! The lister: one line for each packet, and one for what is left over.

use crate::layout::{LISTER_PID, PACKET_BYTES};
use crate::read::read;
use crate::refusal::Refusal;
use crate::setting::Kind;
use std::fmt::{Result, Write};

pub fn list(input: &[u8]) -> String {
    let mut lines = String::new();
    write_lines(&mut lines, input).expect("a text takes every line");
    lines
}

fn write_lines(lines: &mut String, input: &[u8]) -> Result {
    let (packets, tail) = input.as_chunks::<PACKET_BYTES>();
    for (number, packet) in packets.iter().enumerate() {
        write_line(lines, number, packet)?;
    }
    if !tail.is_empty() {
        writeln!(lines, "tail {}", tail.len())?;
    }
    Ok(())
}

fn write_line(lines: &mut String, number: usize, packet: &[u8]) -> Result {
    match read(packet, LISTER_PID, Kind::Plain) {
        Ok(setting) => writeln!(
            lines,
            "{number} header {} {} {}",
            setting.continuity_counter,
            setting.version_number,
            setting.available_streams()
        ),
        Err(Refusal {
            number: 7,
            remainder,
        }) => writeln!(lines, "{number} refused 7 {remainder:08x}"),
        Err(refusal) => writeln!(lines, "{number} refused {}", refusal.number),
    }
}
