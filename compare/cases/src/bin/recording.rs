//! Writes a recording of so many packets to a file, for measuring the lister:
//! `recording PACKETS FILE`.

use cases::lister::write_recording;
use std::fs::File;
use std::io::{self, BufWriter, Write};

fn main() -> io::Result<()> {
    let arguments: Vec<String> = std::env::args().collect();
    let [_, packets, file] = &arguments[..] else {
        return Err(io::Error::other("give the number of packets and a file"));
    };
    let packets = packets.parse().map_err(io::Error::other)?;
    let mut out = BufWriter::new(File::create(file)?);
    write_recording(&mut out, packets)?;
    out.flush()
}
