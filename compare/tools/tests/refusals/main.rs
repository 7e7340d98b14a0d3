//! Arguments and inputs that the programs refuse, and what they say then: one
//! line, with nothing on standard output.

mod bond;
mod demux;
mod lines;
mod mux;
mod unbond;

use cases::generator::Generator;
use lines::*;
use reference::{Kind, PACKET_BYTES};
use std::fs::OpenOptions;
use std::os::unix::fs::symlink;
use tools::composing::compose;
use tools::program::{program, start, Folder, Said};
use tools::streams::stream;

const PID: u16 = 0x1FF0;
const FRAMES: usize = 20;

const TOOLS: [&str; 4] = ["mux", "demux", "bond", "unbond"];

/// A folder with what the tools read. `stream` is good for mux and bond,
/// `frames` and `short_frames` for demux and `carrier` for unbond; `header` is a
/// stream with a packet that bears the header PID.
fn folder() -> Folder {
    let mut generator = Generator::new(1);
    let folder = Folder::new();
    let good = stream(&mut generator, 500, PID);
    folder.write("stream", &good);
    folder.write("header", &with_header_pid(&good));
    for (name, kind) in [("frames", Kind::Plain), ("short_frames", Kind::Short)] {
        let composed = compose(&mut generator, kind, FRAMES, PID);
        folder.write(name, &composed.bytes);
    }
    folder.write("empty", &[]);
    folder.run("bond", "8176 1 1 1 stream 3 52 carrier");
    for name in ["stream", "frames", "short_frames", "carrier"] {
        let bytes = folder.read(name);
        folder.write(
            &format!("{name}_tail"),
            &[&bytes[..], &[0x47; 100]].concat(),
        );
        folder.write(&format!("{name}_shifted"), &bytes[3..bytes.len() - 185]);
    }
    folder
}

/// The third packet bears the header PID.
fn with_header_pid(stream: &[u8]) -> Vec<u8> {
    let mut stream = stream.to_vec();
    let packet = &mut stream[2 * PACKET_BYTES..3 * PACKET_BYTES];
    packet[1..3].copy_from_slice(&PID.to_be_bytes());
    stream
}

/// The tool says this and nothing else, and writes nothing.
fn refuses(folder: &Folder, tool: &str, words: &str, line: &str) {
    let Said { out, err } = folder.run(tool, words);
    assert_eq!(err, line, "{tool} {words}");
    assert!(out.is_empty(), "{tool} {words}");
}

/// Of two faults the tool says this one first.
fn refuses_first(folder: &Folder, tool: &str, words: &str, line: &str) {
    let Said { out, err } = folder.run(tool, words);
    assert!(err.starts_with(line), "{tool} {words}: {err}");
    assert!(out.is_empty(), "{tool} {words}");
}

#[test]
fn usage() {
    let folder = Folder::new();
    for (tool, usage) in TOOLS.into_iter().zip(USAGES) {
        refuses(&folder, tool, "", usage);
        refuses(&folder, tool, "16", usage);
        refuses(&folder, "tools", tool, usage);
        refuses(&folder, "/some/where/tools", tool, usage);
        refuses(&folder, &format!("/some/where/{tool}"), "", usage);
    }
    refuses(&folder, "tools", "", NO_TOOL);
    refuses(&folder, "tools", "muxer", NO_TOOL);
    refuses(&folder, "mux", "16 1 1 1", MUX_USAGE);
    refuses(&folder, "mux", "16 1 1 1 stream 1", MUX_USAGE);
    refuses(&folder, "demux", "16 1 frames frames", DEMUX_USAGE);
    for words in ["--short", "--short 16", "--short 16 1 1 1"] {
        refuses(&folder, "mux", words, MUX_USAGE);
        refuses(&folder, "tools", &format!("mux {words}"), MUX_USAGE);
    }
    for words in ["--short", "--short 16", "--short 16 1 frames frames"] {
        refuses(&folder, "demux", words, DEMUX_USAGE);
        refuses(&folder, "tools", &format!("demux {words}"), DEMUX_USAGE);
    }
    refuses(&folder, "bond", "16 1 1 1 stream 3 1", BOND_USAGE);
    refuses(&folder, "bond", "16 1 1 1 stream 3 1 c1 3", BOND_USAGE);
    refuses(&folder, "unbond", "16 1 1", UNBOND_USAGE);
}

/// A link's name says which tool it is, and its arguments are the tool's.
#[test]
fn links() {
    let folder = Folder::new();
    for (tool, usage) in TOOLS.into_iter().zip(USAGES) {
        let link = folder.path(tool);
        symlink(program(), &link).expect("a link");
        let linked = || start(&link, link.as_os_str());
        let output = linked().output().expect("the program runs");
        assert_eq!(String::from_utf8_lossy(&output.stderr), usage);
        let output = linked().arg("mux").output();
        let output = output.expect("the program runs");
        assert_eq!(String::from_utf8_lossy(&output.stderr), usage);
    }
}

#[test]
fn header_pid() {
    let folder = folder();
    let rests = [
        "10 1 1 stream",
        "1 frames",
        "1 1 1 stream 3 52 c1",
        "1 1 carrier",
    ];
    for (tool, rest) in TOOLS.into_iter().zip(rests) {
        for pid in [
            "0",
            "15",
            "8191",
            "65552",
            "x",
            "''",
            "-16",
            "+16",
            "16x",
            "0x",
            "0xF",
            "0x2000",
            "4294967312",
            "18446744073709551632",
        ] {
            refuses(&folder, tool, &format!("{pid} {rest}"), BAD_PID);
        }
    }
}

/// The option stands first, and once; any other word there is the PID.
#[test]
fn option_at_another_place() {
    let folder = folder();
    let mux = |words: &str, line: &str| refuses(&folder, "mux", words, line);
    mux("--short --short 1 1 1 stream", BAD_PID);
    mux("--shorter 1 1 1 stream", BAD_PID);
    mux("-short 1 1 1 stream", BAD_PID);
    let in_the_place_of_slots = format!("stream 1: {BAD_SLOTS}");
    mux("16 --short 1 1 stream", &in_the_place_of_slots);
    let demux = |words: &str, line: &str| refuses(&folder, "demux", words, line);
    demux("--short --short 1 frames", BAD_PID);
    demux("--SHORT 1 frames", BAD_PID);
    demux("0x1FF0 --short frames", BAD_STREAM);
    // Bonding is over extended headers alone.
    refuses(&folder, "bond", "--short 1 1 1 stream 3 52 c1", BAD_PID);
    refuses(&folder, "unbond", "--short 1 1 carrier", BAD_PID);
}

/// What standard output does not take is said once, and is not counted as out.
#[test]
fn output_that_is_full() {
    let folder = folder();
    let words = [
        ("mux", "0x1FF0 10 1 1 stream"),
        ("mux", "--short 0x1FF0 10 1 1 stream"),
        ("demux", "0x1FF0 1:1 frames"),
        ("demux", "--short 0x1FF0 1:1 short_frames"),
        ("unbond", "0x1FF0 1 1 carrier"),
    ];
    for (tool, words) in words {
        let full = OpenOptions::new().write(true).open("/dev/full");
        let mut command = folder.command(tool, words);
        let output = command.stdout(full.expect("/dev/full")).output();
        let output = output.expect("the program runs");
        let err = String::from_utf8(output.stderr).expect("text");
        let (first, rest) = err.split_once('\n').expect("a line");
        assert_eq!(first, "standard output: No space left on device");
        assert!(!rest.contains(first), "{tool}: {err}");
        let out = rest.split("packets out ").nth(1);
        assert!(out.is_none_or(|out| out == "0\n"), "{tool}: {rest}");
    }
}
