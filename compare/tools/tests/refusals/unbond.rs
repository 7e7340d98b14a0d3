//! What unbond refuses.

use super::{folder, refuses, refuses_first};
use crate::lines::*;

#[test]
fn arguments() {
    let folder = folder();
    let refuses = |words: &str, line: &str| refuses(&folder, "unbond", words, line);
    refuses("16 65536 1 carrier", BAD_TS_ID);
    refuses("16 1 65536 carrier", BAD_NETWORK_ID);
    refuses("16 1 1 missing", MISSING);
    refuses("16 1 1 carrier missing", MISSING);
    refuses(&format!("16 1 1{}", " carrier".repeat(9)), BAD_CARRIERS);
    refuses("15 65536 1 carrier", BAD_PID);
    refuses("16 65536 65536 carrier", BAD_TS_ID);
    refuses("16 1 65536 missing", BAD_NETWORK_ID);
}

#[test]
fn inputs() {
    let folder = folder();
    let whole = folder.run("unbond", "0x1FF0 1 1 carrier");
    assert!(!whole.out.is_empty());
    for input in ["empty", "stream", "carrier_shifted"] {
        let said = folder.run("unbond", &format!("0x1FF0 1 1 {input}"));
        let line = "super frames out 0; dropped 0; packets out 0\n";
        assert!(said.err.ends_with(line), "{input}: {}", said.err);
        assert!(said.out.is_empty());
    }
    let said = folder.run("unbond", "0x1FF0 1 1 carrier_tail");
    assert!(said.out == whole.out);
    assert_eq!(said.err, format!("{TAIL}{}", whole.err));
}

/// A wrong choice of stream or carriers is said once.
#[test]
fn groups() {
    let folder = folder();
    folder.run("bond", "0x1FF0 1 1 1 stream 3 52 a 4 10 b");
    let first = |words: &str, line: &str| refuses_first(&folder, "unbond", words, line);
    let not_carried =
        "super frame: no header carries a stream with these identifiers (refusal 13)\ncarrier 1: ";
    let other_carriers =
        "super frame: the headers are not those of the carriers in their order (refusal 14)\ncarrier 1: ";
    first("0x1FF0 1 2 a b", not_carried);
    first("0x1FF0 2 1 a b", not_carried);
    first("0x1FF0 1 1 b a", other_carriers);
    first("0x1FF0 1 1 a", other_carriers);
    first("0x1FF0 1 1 a a", other_carriers);
    first("0x1FF0 1 1 a b carrier", other_carriers);
    // Other carriers come before no such stream.
    first("0x1FF0 2 1 b a", other_carriers);
}

/// It is said behind a super frame that was dropped for its losses, too.
#[test]
fn of_no_such_stream_behind_a_loss() {
    let folder = folder();
    let carrier = folder.read("carrier");
    folder.write("loss", &[&carrier[..188], &carrier[376..]].concat());
    let said = folder.run("unbond", "0x1FF0 2 1 loss");
    assert!(said.out.is_empty());
    let lines = said.err.matches("(refusal 13)\n");
    assert_eq!(lines.count(), 1, "{}", said.err);
}
