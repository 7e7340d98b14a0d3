//! What demux refuses.

use super::{folder, refuses, FRAMES, PID};
use crate::lines::*;
use cases::generator::Generator;
use cases::make_crc_right;
use reference::{read, Kind, FRAME_BYTES, PACKET_BYTES};
use tools::program::option;

#[test]
fn arguments() {
    let folder = folder();
    let refuses = |words: &str, line: &str| refuses(&folder, "demux", words, line);
    for choice in ["0", "16", "x", "''", "17"] {
        refuses(&format!("0x1FF0 {choice} frames"), BAD_STREAM);
    }
    for choice in ["a:b", ":", ":1", "65536:1"] {
        refuses(&format!("0x1FF0 {choice} frames"), BAD_TS_ID);
    }
    for choice in ["1:", "1:b", "1:65536", "1:1:1"] {
        refuses(&format!("0x1FF0 {choice} frames"), BAD_NETWORK_ID);
    }
    refuses("0x1FF0 1 missing", MISSING);
    refuses("15 0 frames", BAD_PID);
    refuses("15 1 missing", BAD_PID);
}

#[test]
fn short_arguments() {
    let folder = folder();
    let refuses = |words: &str, line: &str| {
        let words = format!("--short {words}");
        refuses(&folder, "demux", &words, line);
    };
    for choice in ["0", "8", "15", "16", "x", "''", "17"] {
        refuses(&format!("0x1FF0 {choice} short_frames"), BAD_SHORT_STREAM);
    }
    refuses("0x1FF0 a:b short_frames", BAD_TS_ID);
    refuses("0x1FF0 1:1:1 short_frames", BAD_NETWORK_ID);
    refuses("0x1FF0 1 missing", MISSING);
    refuses("15 8 short_frames", BAD_PID);
}

fn no_header(packets: usize) -> String {
    format!(
        "no header with PID 8176 in {packets} packets: \
         another PID, or not cut on packet borders\n"
    )
}

#[test]
fn inputs() {
    let folder = folder();
    let refuses = |words: &str, line: &str| refuses(&folder, "demux", words, line);
    refuses("0x1FF0 1 frames_tail", TAIL);
    refuses("0x1FF0 1 stream_tail", TAIL);
    refuses("0x1FF0 1 empty", &no_header(0));
    refuses("0x1FF0 1", &no_header(0));
    refuses("0x1FF0 1 stream", &no_header(500));
    refuses("0x1FF0 1:1 stream", &no_header(500));
    refuses("0x1FF0 1 frames_shifted", &no_header(53 * FRAMES));
    refuses("--short 0x1FF0 1 short_frames_tail", TAIL);
    refuses("--short 0x1FF0 1 stream", &no_header(500));
    let words = "--short 0x1FF0 1 short_frames_shifted";
    refuses(words, &no_header(41 * FRAMES));
    let said = folder.run_on("demux", "0x1FF0 1", "frames_tail");
    assert_eq!((said.out, &said.err[..]), (vec![], TAIL));
}

/// What is said of so many packets without a good header, the first one of which
/// is refused so.
fn no_good_header(packets: usize, words: &str, refusal: u8) -> String {
    format!(
        "no header with PID 8176 in {packets} packets; \
         the first with this PID: {words} (refusal {refusal})\n"
    )
}

/// Bits that are turned in one byte of a header, the refusal that this brings
/// about, and its words. The last bit of a header leaves the CRC's polynomial.
const FAULTS: [(usize, u8, u8, &str); 6] = [
    (3, 0x20, 5, "wrong bits in the packet header"),
    (5, 0x01, 6, "no TSMF sync"),
    (187, 0x01, 7, "wrong CRC, remainder 04c11db7"),
    (4, 0x80, 20, RESERVED),
    (8, 0x01, 20, RESERVED),
    (6, 0x03, 8, "frame type of another kind"),
];

/// All headers have the same fault. Of the first it is said which.
#[test]
fn refused_headers() {
    let folder = folder();
    let good = folder.read("frames");
    for (byte, bits, refusal, words) in FAULTS {
        let mut frames = good.clone();
        for frame in frames.chunks_mut(FRAME_BYTES) {
            frame[byte] ^= bits;
            if refusal != 7 {
                make_crc_right(&mut frame[..PACKET_BYTES]);
            }
        }
        folder.write("refused", &frames);
        let line = no_good_header(frames.len() / PACKET_BYTES, words, refusal);
        refuses(&folder, "demux", "0x1FF0 1 refused", &line);
    }
}

const KINDS: [(&str, Kind); 2] = [("frames", Kind::Plain), ("short_frames", Kind::Short)];

/// Frames of a kind, all of whose headers have drawn CRCs.
fn with_wrong_crcs(good: &[u8], kind: Kind, generator: &mut Generator) -> Vec<u8> {
    let mut frames = good.to_vec();
    for frame in frames.chunks_mut(kind.size().frame_bytes()) {
        generator.fill(&mut frame[184..PACKET_BYTES], 256);
    }
    frames
}

/// Of the first header, be it the first packet or not, the remainder is said,
/// whatever the later ones leave.
#[test]
fn headers_with_wrong_crcs() {
    let folder = folder();
    let mut generator = Generator::new(2);
    for (name, kind) in KINDS {
        let good = folder.read(name);
        for packets_in_front in [0, 1, 30] {
            let mut frames = with_wrong_crcs(&good, kind, &mut generator);
            let first = kind.size().frame_bytes();
            frames.drain(..first - PACKET_BYTES * packets_in_front);
            let first = &frames[PACKET_BYTES * packets_in_front..][..PACKET_BYTES];
            let refusal = read(first, PID, kind).expect_err("a wrong CRC");
            let words = format!("wrong CRC, remainder {:08x}", refusal.remainder);
            let line = no_good_header(frames.len() / PACKET_BYTES, &words, 7);
            folder.write("refused", &frames);
            let words = format!("{}0x1FF0 1 refused", option(kind));
            refuses(&folder, "demux", &words, &line);
        }
    }
}

/// Nothing is shown where the first header is refused by another number.
#[test]
fn headers_with_wrong_crcs_behind_another_fault() {
    let folder = folder();
    let mut generator = Generator::new(3);
    for (name, kind) in KINDS {
        let good = folder.read(name);
        let mut frames = with_wrong_crcs(&good, kind, &mut generator);
        frames[4] &= 0x7F;
        make_crc_right(&mut frames[..PACKET_BYTES]);
        folder.write("refused", &frames);
        let line = no_good_header(frames.len() / PACKET_BYTES, RESERVED, 20);
        let words = format!("{}0x1FF0 1 refused", option(kind));
        refuses(&folder, "demux", &words, &line);
    }
}

/// Of a pipe the tail is known only in the end.
#[test]
fn from_a_pipe() {
    let folder = folder();
    let whole = folder.run("demux", "0x1FF0 1:1 frames");
    assert!(!whole.out.is_empty());
    let said = folder.pipe("demux", "0x1FF0 1:1", &folder.read("frames_tail"));
    assert!(said.out == whole.out);
    assert_eq!(said.err, format!("{TAIL}{}", whole.err));
    let said = folder.pipe("demux", "0x1FF0 1:1", &folder.read("frames_shifted"));
    assert_eq!((said.out, said.err), (vec![], no_header(53 * FRAMES)));
}
