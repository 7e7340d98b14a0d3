//! Both sides over the same inputs, drawn from fixed seeds. Fails at the first
//! difference, and where a number that a call can answer was never reached.

mod any_bytes;
mod composers;
mod draw;
mod edges;
mod events;
mod every_byte;
mod groups;
mod headers;
mod losses;
mod numbers;
mod receivers;
mod remainders;
mod reserved_bits;

use board::judge::{events, table, unreached, Judge, Round};
use board::random::Random;
use std::env;
use std::process::exit;
use std::time::Instant;

/// Fewer calls than this are too few.
const LEAST_CALLS: u64 = 1_000_000;

/// A family of inputs, and how many rounds of it there are.
struct Family {
    name: &'static str,
    rounds: u64,
    run: fn(&mut Judge, &mut Random),
}

const FAMILIES: [Family; 11] = [
    family("numbers", 1, numbers::round),
    family("edges", 4, edges::round),
    family("headers", 40_000, headers::round),
    family("composers", 600, composers::round),
    family("receivers", 600, receivers::round),
    family("groups", 1_000, groups::round),
    family("any bytes", 40_000, any_bytes::round),
    family("every byte", 2, every_byte::round),
    family("losses", 60, losses::round),
    family("reserved bits", 1, reserved_bits::round),
    family("remainders", 1, remainders::round),
];

const fn family(name: &'static str, rounds: u64, run: fn(&mut Judge, &mut Random)) -> Family {
    Family { name, rounds, run }
}

fn main() {
    let mut judge = Judge::default();
    let (times, part) = (number("NIRANBOK_ROUNDS"), number("NIRANBOK_PART"));
    let start = Instant::now();
    for (place, family) in FAMILIES.iter().enumerate() {
        let rounds = (family.rounds * times / part).max(1);
        run(family, place as u64, rounds, &mut judge);
    }
    let seconds = start.elapsed().as_secs_f64();
    println!("\n{}", table(&judge.tally));
    println!("what packets did: {}", events(&judge));
    println!("{} calls in {seconds:.1} s", judge.calls());
    end(&judge, part == 1);
}

/// How many times as many rounds as by default, or which part of them.
fn number(name: &str) -> u64 {
    match env::var(name) {
        Ok(number) => number
            .parse()
            .unwrap_or_else(|_| panic!("{name} is a number from 1 on")),
        Err(_) => 1,
    }
}

fn run(family: &Family, place: u64, rounds: u64, judge: &mut Judge) {
    let (start, before) = (Instant::now(), judge.calls());
    for number in 0..rounds {
        let seed = place << 32 | number;
        judge.round = Round {
            family: family.name,
            number,
            seed,
        };
        (family.run)(judge, &mut Random::new(seed));
    }
    let calls = judge.calls() - before;
    let seconds = start.elapsed().as_secs_f64();
    println!("{:<13} {calls:>8} calls in {seconds:>5.1} s", family.name);
}

/// A part of the rounds need not reach everything.
fn end(judge: &Judge, is_whole: bool) {
    if !is_whole {
        println!("both sides agree");
        return;
    }
    let unreached = unreached(judge);
    for lack in &unreached {
        println!("{lack}");
    }
    let too_few = judge.calls() < LEAST_CALLS;
    if too_few {
        println!("these are less than {LEAST_CALLS} calls");
    }
    if too_few || !unreached.is_empty() {
        exit(1);
    }
    println!("both sides agree");
}
