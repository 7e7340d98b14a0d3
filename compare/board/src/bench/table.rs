//! The table of the benchmark, as plain text and as Markdown.

use super::measure::Row;

const HEADS: [&str; 6] = [
    "ns",
    "archive",
    "Rust",
    "memcpy",
    "archive/Rust",
    "archive/memcpy",
];

fn cells(row: &Row) -> [String; 6] {
    [
        row.name.clone(),
        format!("{:.1}", row.archive),
        format!("{:.1}", row.rust),
        format!("{:.1}", row.copy),
        format!("{:.2}", row.archive / row.rust),
        format!("{:.2}", row.archive / row.copy),
    ]
}

/// Names to the left and numbers to the right of their columns.
fn aligned([name, numbers @ ..]: [String; 6]) -> String {
    let numbers = numbers.map(|number| format!("{number:>16}"));
    format!("{name:<32}{}\n", numbers.concat())
}

pub fn plain(rows: &[Row]) -> String {
    let heads = aligned(HEADS.map(str::to_string));
    rows.iter()
        .fold(heads, |text, row| text + &aligned(cells(row)))
}

pub fn markdown(rows: &[Row]) -> String {
    let line = |cells: [String; 6]| format!("| {} |\n", cells.join(" | "));
    let heads = line(HEADS.map(str::to_string)) + "|---|---:|---:|---:|---:|---:|\n";
    rows.iter()
        .fold(heads, |text, row| text + &line(cells(row)))
}
