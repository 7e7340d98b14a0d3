//! What mux refuses.

use super::{folder, refuses, refuses_first};
use crate::lines::*;

#[test]
fn arguments() {
    let folder = folder();
    let refuses = |words: &str, line: &str| refuses(&folder, "mux", words, line);
    for slots in ["0", "53", "x", "''", "268"] {
        let words = format!("16 {slots} 1 1 stream");
        refuses(&words, &format!("stream 1: {BAD_SLOTS}"));
    }
    let second =
        |slots, ts_id, network| format!("16 1 1 1 stream {slots} {ts_id} {network} stream");
    refuses(&second("53", "1", "2"), &format!("stream 2: {BAD_SLOTS}"));
    refuses(&second("52", "1", "2"), BAD_SUM);
    refuses(
        &second("5", "65536", "2"),
        &format!("stream 2: {BAD_TS_ID}"),
    );
    refuses(
        &second("5", "1", "0x10000"),
        &format!("stream 2: {BAD_NETWORK_ID}"),
    );
    refuses(&second("5", "0x1", "01"), SAME);
    refuses("16 1 1 1 missing", MISSING);
    refuses("16 1 1 1 stream 1 1 2 missing", MISSING);
    refuses(
        "16 1 1 1 missing/stream",
        "missing/stream: No such file or directory\n",
    );
    refuses("16 1 1 1 ''", ": No such file or directory\n");
    let sixteen: String = (0..16).map(|k| format!(" 1 {k} 1 stream")).collect();
    refuses(&format!("16{sixteen}"), BAD_STREAMS);
}

#[test]
fn short_arguments() {
    let folder = folder();
    let refuses =
        |words: &str, line: &str| refuses(&folder, "mux", &format!("--short {words}"), line);
    for slots in ["0", "41", "52", "x", "''", "257"] {
        let words = format!("16 {slots} 1 1 stream");
        refuses(&words, &format!("stream 1: {BAD_SHORT_SLOTS}"));
    }
    let second = |slots| format!("16 1 1 1 stream {slots} 1 2 stream");
    refuses(&second("41"), &format!("stream 2: {BAD_SHORT_SLOTS}"));
    refuses(&second("40"), BAD_SHORT_SUM);
    refuses("15 1 1 1 stream", BAD_PID);
    refuses("16 1 65536 1 stream", &format!("stream 1: {BAD_TS_ID}"));
    refuses("16 1 1 1 stream 1 1 1 stream", SAME);
    refuses("16 1 1 1 missing", MISSING);
    let streams = |count| -> String { (0..count).map(|k| format!(" 1 {k} 1 stream")).collect() };
    refuses(&format!("16{}", streams(8)), BAD_SHORT_STREAMS);
    refuses(&format!("16{}", streams(15)), BAD_SHORT_STREAMS);
    let seven = folder.run("mux", &format!("--short 16{}", streams(7)));
    assert_eq!(seven.err, "");
}

#[test]
fn short_inputs() {
    let folder = folder();
    let line = format!("stream 1: {NO_SLOTS_PACKET}");
    refuses(&folder, "mux", "--short 0x1FF0 10 1 1 header", &line);
    let said = folder.run("mux", "--short 0x1FF0 10 1 1 stream_tail");
    assert_eq!(said.err, format!("stream 1: {TAIL}"));
    assert!(said.out == folder.run("mux", "--short 0x1FF0 10 1 1 stream").out);
}

#[test]
fn inputs() {
    let folder = folder();
    let line = format!("stream 1: {NO_SLOTS_PACKET}");
    refuses(&folder, "mux", "0x1FF0 10 1 1 header", &line);
    refuses(&folder, "mux", "0x1FF0 10 1 1 stream_shifted", &line);
    let line = format!("stream 2: {NO_SLOTS_PACKET}");
    refuses(&folder, "mux", "0x1FF0 10 1 1 stream 10 2 1 header", &line);
    let said = folder.run("mux", "0x1FF0 10 1 1 stream_tail");
    assert_eq!(said.err, format!("stream 1: {TAIL}"));
    assert!(said.out == folder.run("mux", "0x1FF0 10 1 1 stream").out);
}

#[test]
fn order() {
    let folder = folder();
    let first = |words: &str, line: &str| refuses_first(&folder, "mux", words, line);
    first("15 0 1 1 stream", BAD_PID);
    first("15 1 1 1 missing", BAD_PID);
    first("16 0 65536 1 stream", &format!("stream 1: {BAD_SLOTS}"));
    first("16 1 65536 65536 stream", &format!("stream 1: {BAD_TS_ID}"));
    first(
        "16 1 1 65536 stream 0 1 1 stream",
        &format!("stream 1: {BAD_NETWORK_ID}"),
    );
    first("16 0 1 1 missing", &format!("stream 1: {BAD_SLOTS}"));
    first("16 52 1 1 missing 1 1 1 stream", BAD_SUM);
    first("--short 15 0 1 1 stream", BAD_PID);
    first("--short 16 40 1 1 missing 1 1 1 stream", BAD_SHORT_SUM);
    first("0x1FF0 1 1 1 header 1 1 1 stream", SAME);
}
