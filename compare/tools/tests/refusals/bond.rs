//! What bond refuses.

use super::{folder, refuses, refuses_first};
use crate::lines::*;
use tools::program::Folder;

/// No carrier's file is made.
fn refuses_to_bond(folder: &Folder, words: &str, line: &str) {
    refuses(folder, "bond", words, line);
    assert!(!folder.path("c1").exists(), "bond {words}");
}

#[test]
fn arguments() {
    let folder = folder();
    let refuses = |words: &str, line: &str| refuses_to_bond(&folder, words, line);
    for group in ["256", "x", "''"] {
        refuses(&format!("16 {group} 1 1 stream 3 1 c1"), BAD_GROUP);
    }
    for frames in ["2", "5", "x", "''", "259"] {
        let words = format!("16 1 1 1 stream {frames} 1 c1");
        refuses(&words, &format!("carrier 1: {BAD_FRAMES}"));
    }
    for slots in ["0", "53", "x", "''", "257"] {
        let words = format!("16 1 1 1 stream 4 1 c1 3 {slots} c2");
        refuses(&words, &format!("carrier 2: {BAD_SLOTS}"));
    }
    refuses("16 1 65536 1 stream 3 1 c1", BAD_TS_ID);
    refuses("16 1 1 65536 stream 3 1 c1", BAD_NETWORK_ID);
    refuses("16 1 1 1 missing 3 1 c1", MISSING);
    refuses(
        "16 1 1 1 stream 3 1 no/c1",
        "no/c1: No such file or directory\n",
    );
    let nine: String = (1..=9).map(|c| format!(" 3 1 c{c}")).collect();
    refuses(&format!("16 1 1 1 stream{nine}"), BAD_CARRIERS);
}

#[test]
fn inputs() {
    let folder = folder();
    let refuses = |words: &str, line: &str| refuses(&folder, "bond", words, line);
    for input in ["header", "stream_shifted"] {
        refuses(&format!("0x1FF0 1 1 1 {input} 3 52 c1"), NO_SLOTS_PACKET);
        assert!(folder.read("c1").is_empty());
    }
    refuses("0x1FF0 1 1 1 stream_tail 3 52 c1", TAIL);
    assert!(folder.read("c1") == folder.read("carrier"));
}

#[test]
fn order() {
    let folder = folder();
    let first = |words: &str, line: &str| refuses_first(&folder, "bond", words, line);
    first("15 256 1 1 stream 3 1 c1", BAD_PID);
    first("16 256 65536 1 stream 3 1 c1", BAD_GROUP);
    first("16 1 65536 65536 stream 3 1 c1", BAD_TS_ID);
    first("16 1 1 65536 stream 2 1 c1", BAD_NETWORK_ID);
    first(
        "16 1 1 1 stream 2 0 c1",
        &format!("carrier 1: {BAD_FRAMES}"),
    );
    first(
        "16 1 1 1 stream 3 0 c1 2 1 c2",
        &format!("carrier 1: {BAD_SLOTS}"),
    );
    first(
        "16 1 1 1 missing 3 0 c1",
        &format!("carrier 1: {BAD_SLOTS}"),
    );
    first("16 1 1 1 missing 3 1 no/c1", MISSING);
}
