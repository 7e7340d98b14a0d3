//! The comparison itself: it tells differences, and what was never reached.

use board::judge::{table, unreached, Call, Judge, Round, CALLS};
use board::lent::{Amiss, Lent};
use std::panic::{catch_unwind, AssertUnwindSafe};

/// What a judge says of answers and of lent bytes, nothing if all is right.
fn said(refusal: u8, answers: [u8; 2], lent: &mut Lent) -> Option<String> {
    let round = Round {
        family: "family",
        number: 12,
        seed: 0xABC,
    };
    let mut judge = Judge {
        round,
        ..Judge::default()
    };
    let judged = catch_unwind(AssertUnwindSafe(|| {
        judge.judge(Call::HeaderWrite, refusal, answers, &mut [("packet", lent)]);
    }));
    judged.err().map(|said| *said.downcast().unwrap())
}

#[test]
fn agreement() {
    let mut lent = Lent::new(&[1, 2, 3]);
    lent.archives()[1] = 9;
    lent.ours()[1] = 9;
    assert_eq!(said(0, [0, 0], &mut lent), None);
    assert_eq!(lent.bytes(), [1, 9, 3]);
    assert_eq!(said(8, [8, 8], &mut lent), None);
}

#[test]
fn answers_that_differ() {
    let said = said(8, [9, 8], &mut Lent::new(&[])).unwrap();
    let expected = "header_write: the archive answers 9, the reference 8; \
                    round 12 of family, seed 0x0000000000000abc";
    assert_eq!(said, expected);
}

#[test]
fn bytes_that_differ() {
    let mut lent = Lent::new(&[1, 2, 3]);
    lent.archives()[2] = 9;
    let said = said(0, [0, 0], &mut lent).unwrap();
    let expected = "header_write: packet after answer 0: \
                    Byte { at: 2, archive: 9, expected: 3 }; ";
    assert!(said.starts_with(expected), "{said}");
}

/// Also where both sides do it.
#[test]
fn refusals_that_write() {
    let mut lent = Lent::new(&[1, 2, 3]);
    lent.archives()[0] = 9;
    lent.ours()[0] = 9;
    assert!(said(8, [8, 8], &mut lent).is_some());
}

#[test]
fn numbers_that_a_call_does_not_refuse_with() {
    let said = said(15, [15, 15], &mut Lent::new(&[])).unwrap();
    assert!(said.contains("15 is not a number it refuses with"));
}

/// What a judge says of a remainder, nothing if it is where one is due.
fn said_of_remainder(is_due: bool, remainder: u32) -> Option<String> {
    let judge = Judge::default();
    let judged = catch_unwind(AssertUnwindSafe(|| {
        judge.judge_remainder(Call::Gather, is_due, remainder);
    }));
    judged.err().map(|said| *said.downcast().unwrap())
}

#[test]
fn remainders() {
    assert_eq!(said_of_remainder(true, 0x1A2B), None);
    assert_eq!(said_of_remainder(false, 0), None);
    let said = said_of_remainder(false, 0x1A2B).unwrap();
    let expected = "gather: the remainder is 00001a2b where none is due; ";
    assert!(said.starts_with(expected), "{said}");
    let said = said_of_remainder(true, 0).unwrap();
    assert!(said.contains("00000000 where one is due"), "{said}");
}

#[test]
fn changes_between_calls() {
    let mut lent = Lent::shifted(&[1, 2, 3], 5);
    lent.change(|bytes| bytes[0] = 7);
    assert_eq!(lent.check(true), Ok(()));
    assert_eq!(lent.archives(), [7, 2, 3]);
    lent.ours()[1] = 0;
    let amiss = Amiss::Byte {
        at: 1,
        archive: 2,
        expected: 0,
    };
    assert_eq!(lent.check(false), Err(amiss));
}

#[test]
fn what_is_reached() {
    let mut judge = Judge {
        events: [1; 8],
        ..Judge::default()
    };
    let answers = |refuses: &[u8]| 1 + refuses.len();
    let all: usize = CALLS.iter().map(|(_, _, refuses)| answers(refuses)).sum();
    assert_eq!(unreached(&judge).len(), all + 18);
    for ((_, _, refuses), row) in CALLS.iter().zip(&mut judge.tally) {
        row[0] = 1;
        for &number in *refuses {
            row[usize::from(number)] = 1;
        }
    }
    assert_eq!(unreached(&judge), Vec::<String>::new());
    judge.tally[Call::Gather as usize][14] = 0;
    judge.events[5] = 0;
    let lacks = ["gather never answered 14", "no packet did \"jump\""];
    assert_eq!(unreached(&judge), lacks);
    assert!(table(&judge.tally).lines().count() == CALLS.len() + 2);
}
