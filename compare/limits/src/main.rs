//! Holds the table that the program `limits` prints, read from standard input,
//! to the calls of the archive and to the constants of niranbok.h: for each
//! field and each kind of header the values at and around both ends of the
//! range are handed to the calls that take it.
//!
//!     limits | cargo run -p limits -- ../include/niranbok.h

#![forbid(unsafe_code)]

mod calls;
mod constants;
mod groups;
mod settings;
mod table;

use constants::Constants;
use std::process::ExitCode;
use std::{env, fs, io};
use table::{Kind, Range, Row, Table, EXTENDED, KINDS};

/// What is set where a kind has no place for it, or between two values.
const OUT_OF_RANGE: u8 = 17;

/// What was tried, and what differed.
#[derive(Default)]
struct Tally {
    tried: usize,
    faults: Vec<String>,
}

fn main() -> ExitCode {
    let file = env::args().nth(1).expect("the path of niranbok.h");
    let header = fs::read_to_string(file).expect("niranbok.h is read");
    let printed = io::read_to_string(io::stdin()).expect("the table is read");
    let table = Table::new(&printed);
    let constants = Constants::new(&header);
    let mut tally = Tally::default();
    tally.faults.extend(missing(&table, &constants));
    for row in &table.rows {
        try_row(row, &table, &constants, &mut tally);
    }
    for fault in &tally.faults {
        println!("{fault}");
    }
    let (rows, tried, faults) = (table.rows.len(), tally.tried, tally.faults.len());
    println!("limits: {rows} fields, {tried} answers of the calls, {faults} differ from the table");
    ExitCode::from(u8::from(faults != 0))
}

/// Fields without a row: those that have a range in niranbok.h, those that a
/// setting has, and those that are known here.
fn missing(table: &Table, constants: &Constants) -> Vec<String> {
    let mut names = constants.ranges();
    names.extend(table.places.iter().map(|place| place.name.clone()));
    names.extend(calls::KNOWN.iter().map(|name| name.to_string()));
    names.sort();
    names.dedup();
    let named = |name: &String| table.rows.iter().any(|row| row.name == *name);
    names.retain(|name| !named(name));
    let told = |name: &String| format!("limits prints no field {name}");
    names.iter().map(told).collect()
}

/// The values of a field of so many bytes that tell a range from others.
fn values(row: &Row, range: &Range, step: u64, largest: u64) -> Vec<u64> {
    let around = [range.first, range.last, row.up_to, step, range.last + step];
    let mut values: Vec<u64> = around
        .into_iter()
        .flat_map(|n| [n.saturating_sub(1), n, n + 1])
        .chain([0, largest])
        .filter(|&n| n <= largest)
        .collect();
    values.sort_unstable();
    values.dedup();
    values
}

fn try_row(row: &Row, table: &Table, constants: &Constants, tally: &mut Tally) {
    let Some(largest) = calls::largest(&row.name) else {
        let fault = format!("{}: no call is known that takes it", row.name);
        tally.faults.push(fault);
        return;
    };
    for kind in KINDS {
        match row.of(kind) {
            Some(range) => try_range(row, kind, range, largest, table, constants, tally),
            // A group has extended headers alone.
            None if row.name == "carriers" && kind != EXTENDED => (),
            None => {
                let (name, kind) = (&row.name, kind.name);
                let fault = format!("{name}: limits prints nothing for {kind} headers");
                tally.faults.push(fault);
            }
        }
    }
}

/// All values of a field in a kind of header. A value that the kind has no place
/// for has to be 0.
fn try_range(
    row: &Row,
    kind: Kind,
    range: &Range,
    largest: u64,
    table: &Table,
    constants: &Constants,
    tally: &mut Tally,
) {
    let name = &row.name;
    let step = table.step(kind, name);
    for value in values(row, range, step, largest) {
        let is_inside = range.first < value && value < range.last;
        let is_between = is_inside && !value.is_multiple_of(step);
        let expected = match is_between {
            true => OUT_OF_RANGE,
            false => row.refusal(range, value),
        };
        if !is_between {
            tally
                .faults
                .extend(constants.differ(row, kind, value, expected));
        }
        for (call, answer, is_reached) in calls::answers(table, name, kind, value) {
            let expected = match is_reached {
                true => expected,
                false if value == 0 => 0,
                false => OUT_OF_RANGE,
            };
            tally.tried += 1;
            if answer != expected {
                let kind = kind.name;
                tally.faults.push(format!(
                    "{name} {value}, {kind}: {call} answers {answer}, expected {expected}"
                ));
            }
        }
    }
}
