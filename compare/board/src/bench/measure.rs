//! Measuring: the best of many rounds, in each of which all sides take their
//! turn, so that what else the machine does hits all alike.

use std::env;
use std::hint::black_box;
use std::time::{Duration, Instant};

const ROUNDS: usize = 30;
/// About as long as one side's turn lasts.
const TURN: Duration = Duration::from_millis(3);

/// Nanoseconds that one piece of work takes.
pub struct Row {
    pub name: String,
    pub archive: f64,
    pub rust: f64,
    pub copy: f64,
}

impl Row {
    pub fn keep_best(&mut self, other: &Row) {
        self.archive = self.archive.min(other.archive);
        self.rust = self.rust.min(other.rust);
        self.copy = self.copy.min(other.copy);
    }
}

pub fn measure(
    name: &str,
    mut archive: impl FnMut(),
    mut rust: impl FnMut(),
    mut copy: impl FnMut(),
) -> Row {
    if let Some((row, side, times)) = asked() {
        // Each once, since a row may compare what they wrote.
        archive();
        rust();
        copy();
        if row == name {
            match side.as_str() {
                "archive" => turn(&mut archive, times),
                "rust" => turn(&mut rust, times),
                _ => turn(&mut copy, times),
            };
        }
        return Row {
            name: name.to_string(),
            archive: 0.0,
            rust: 0.0,
            copy: 0.0,
        };
    }
    let times = [
        times_in_a_turn(&mut archive),
        times_in_a_turn(&mut rust),
        times_in_a_turn(&mut copy),
    ];
    let mut best = [f64::MAX; 3];
    for _ in 0..ROUNDS {
        let turns = [
            turn(&mut archive, times[0]),
            turn(&mut rust, times[1]),
            turn(&mut copy, times[2]),
        ];
        for side in 0..3 {
            let each = turns[side].as_nanos() as f64 / times[side] as f64;
            best[side] = best[side].min(each);
        }
    }
    Row {
        name: name.to_string(),
        archive: best[0],
        rust: best[1],
        copy: best[2],
    }
}

/// The one row, side and number of times that the arguments ask for, where
/// somebody else counts: `--count ROW SIDE TIMES`.
fn asked() -> Option<(String, String, u32)> {
    let words: Vec<String> = env::args().skip(1).collect();
    match words.as_slice() {
        [count, row, side, times] if count == "--count" => {
            let times = times.parse().expect("a number of times");
            Some((row.clone(), side.clone(), times))
        }
        _ => None,
    }
}

/// How long the work takes so many times.
fn turn(work: &mut impl FnMut(), times: u32) -> Duration {
    let start = Instant::now();
    for _ in 0..times {
        work();
    }
    start.elapsed()
}

fn times_in_a_turn(work: &mut impl FnMut()) -> u32 {
    let mut times = 1;
    while turn(work, times) < TURN {
        times *= 2;
    }
    times
}

/// Copies all bytes, as fast as it goes.
pub fn copy(from: &[u8], to: &mut [u8]) {
    black_box(&mut *to).copy_from_slice(black_box(from));
    black_box(to);
}
