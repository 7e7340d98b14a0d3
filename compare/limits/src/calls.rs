//! What the calls of the archive answer where a field has a value and all else
//! is as it should be.

use crate::groups::{asked, group, open_frame, ready_frame};
use crate::settings::{count, good, is_word, place, set};
use crate::table::{Kind, Table, EXTENDED, SHORT};
use board::archive;

const PID: u16 = 0x1FF0;

/// A call's name, the number that it answers, and whether the kind has what was
/// set.
pub type Answer = (&'static str, u8, bool);

/// The fields that no setting has: numbers that calls take.
pub const KNOWN: [&str; 4] = ["header_pid", "slot", "stream", "carriers"];

const SETTING: [&str; 17] = [
    "continuity_counter",
    "version_number",
    "slot_allocation_type",
    "frame_type",
    "availability",
    "ts_id",
    "original_network_id",
    "receive_status",
    "emergency_indicator",
    "relative_ts_number",
    "private_data",
    "auxiliary",
    "group_id",
    "number_of_carriers",
    "carrier_sequence",
    "number_of_frames",
    "frame_position",
];

/// The largest value that a field's bytes hold, or nothing where it is unknown.
pub fn largest(name: &str) -> Option<u64> {
    if is_word(name) || name == "header_pid" {
        return Some(0xFFFF);
    }
    let known = KNOWN.contains(&name) || SETTING.contains(&name);
    known.then_some(0xFF)
}

/// What the calls that take a field answer to a value of it.
pub fn answers(table: &Table, name: &str, kind: Kind, value: u64) -> Vec<Answer> {
    let byte = value as u8;
    let answers = match name {
        "header_pid" => header_pid(table, kind, value as u16),
        "slot" => slot(table, kind, byte),
        "stream" => stream(table, kind, byte),
        "carriers" => carriers(table, byte),
        _ => return setting(table, name, kind, value),
    };
    answers
        .into_iter()
        .map(|(call, answer)| (call, answer, true))
        .collect()
}

/// A field of a setting, each of its values in turn.
fn setting(table: &Table, name: &str, kind: Kind, value: u64) -> Vec<Answer> {
    let Some(place) = place(table, name) else {
        return vec![("no place in a setting", u8::MAX, true)];
    };
    let mut answers = Vec::new();
    for which in 0..count(place) {
        let mut setting = good(table, kind);
        set(table, &mut setting, name, which, value);
        let is_reached = which < table.reach(kind, place);
        for (call, answer) in setting_calls(table, kind, &setting) {
            answers.push((call, answer, is_reached));
        }
    }
    answers
}

/// The calls that take a setting.
fn setting_calls(table: &Table, kind: Kind, setting: &[u8]) -> [(&'static str, u8); 3] {
    let number = kind.number;
    let mut packet = table.zeros("packet");
    let written = archive::header_write(&mut packet, PID, number, setting);
    let (mut state, mut frame) = (table.zeros("composer"), table.zeros_of(kind, "frame"));
    archive::composer_start(&mut state, PID, number);
    let begun = archive::composer_begin(&mut state, &mut frame, setting);
    let widths = archive::setting_widths(setting, number);
    let rules = archive::setting_rules(setting, number);
    [
        ("header_write", written),
        ("composer_begin", begun),
        (
            "setting_widths, then setting_rules",
            if widths != 0 { widths } else { rules },
        ),
    ]
}

/// The call that is asked for a slot, which knows no short frames, and a plan
/// that has a stream in the slot, where a setting has a place for it.
fn slot(table: &Table, kind: Kind, n: u8) -> Vec<(&'static str, u8)> {
    let mut answers = Vec::new();
    if kind != SHORT {
        answers.push(("slot", archive::slot(n)));
    }
    let places = place(table, "relative_ts_number").map_or(0, count);
    if (1..=places).contains(&n.into()) {
        let mut setting = good(table, kind);
        let which = usize::from(n) - 1;
        set(table, &mut setting, "relative_ts_number", which, 1);
        answers.extend(setting_calls(table, kind, &setting));
    }
    answers
}

/// A header is read, and a group gathered, that has this PID, where one can be
/// written with it.
fn header_pid(table: &Table, kind: Kind, pid: u16) -> Vec<(&'static str, u8)> {
    let number = kind.number;
    let mut packet = table.zeros("packet");
    let written = archive::header_write(&mut packet, pid, number, &good(table, kind));
    let (read, _) = archive::header_read(&packet, pid, number, &mut table.zeros("setting"));
    let composer = archive::composer_start(&mut table.zeros("composer"), pid, number);
    let receiver = archive::receiver_start(&mut table.zeros("receiver"), pid, number);
    let mut answers = vec![
        ("header_write", written),
        ("header_read", read),
        ("composer_start", composer),
        ("receiver_start", receiver),
    ];
    if kind == EXTENDED {
        let mut group = group(table, 1, if written == 0 { pid } else { PID });
        let asked = asked(1, pid);
        answers.push(("read_headers", archive::read_headers(&group, &asked).0));
        answers.push(("spread", archive::spread(&mut group, &[], &asked).0));
        answers.push(("gather", archive::gather(&group, &mut [], &asked).0));
    }
    answers
}

/// The call that is asked for a stream's number knows no short frames.
fn stream(table: &Table, kind: Kind, r: u8) -> Vec<(&'static str, u8)> {
    let (mut state, mut frame) = open_frame(table, kind, PID);
    let (put, _) = archive::composer_put(&mut state, &mut frame, &[], r);
    let (state, store) = ready_frame(table, kind, PID);
    let (handed_out, _) = archive::receiver_hand_out(&state, &store, &mut [], r);
    let mut answers = vec![("composer_put", put), ("receiver_hand_out", handed_out)];
    if kind != SHORT {
        answers.push(("relative_number", archive::relative_number(r)));
    }
    answers
}

/// Carriers of a group that has so many, or, where it cannot, one.
fn carriers(table: &Table, carriers: u8) -> Vec<(&'static str, u8)> {
    let mut group = group(
        table,
        if (1..=8).contains(&carriers) {
            carriers
        } else {
            1
        },
        PID,
    );
    let asked = asked(carriers, PID);
    vec![
        ("read_headers", archive::read_headers(&group, &asked).0),
        ("spread", archive::spread(&mut group, &[], &asked).0),
        ("gather", archive::gather(&group, &mut [], &asked).0),
    ]
}
