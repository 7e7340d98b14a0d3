//! The benchmark: what each side needs for the same work, and a plain copy of
//! the same bytes.

mod frames;
mod groups;
mod headers;
mod inputs;
mod measure;
mod table;

use measure::Row;
use reference::Kind;
pub use table::{markdown, plain};

/// How often all rows are measured, one after another, so that a while in
/// which the machine is busy does not hit one of them alone.
const PASSES: usize = 5;

/// One pass over the rows, for the one that the arguments ask for.
pub fn count() -> Vec<Row> {
    pass()
}

/// All rows, in the order of the table: the best of all passes.
pub fn rows() -> Vec<Row> {
    let mut best = pass();
    for _ in 1..PASSES {
        for (row, other) in best.iter_mut().zip(pass()) {
            row.keep_best(&other);
        }
    }
    best
}

fn pass() -> Vec<Row> {
    let mut rows = vec![
        headers::crc(),
        headers::write(),
        headers::read(),
        frames::compose("compose a frame", Kind::Plain),
        frames::receive("receive a frame, hand out", Kind::Plain),
    ];
    for (name, frames) in [("3 + 4 frames", &[3, 4][..]), ("8 x 4 frames", &[4; 8])] {
        rows.extend(groups::spread_and_gather(name, frames));
    }
    rows.push(frames::compose("compose a short frame", Kind::Short));
    let name = "receive a short frame, hand out";
    rows.push(frames::receive(name, Kind::Short));
    rows
}
