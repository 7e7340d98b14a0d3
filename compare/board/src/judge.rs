//! Holds the answers of both sides against each other, and counts them.

use crate::lent::Lent;
use std::fmt::Debug;

/// Refusal numbers, and 0 for none.
pub const NUMBERS: usize = 21;

/// Those among them that no call answers.
const OF_NO_CALL: [usize; 2] = [18, 19];

macro_rules! calls {
    ($($call:ident $name:literal $refuses:expr;)*) => {
        /// A call of niranbok.h.
        #[derive(Clone, Copy, Debug, PartialEq, Eq)]
        pub enum Call { $($call),* }

        /// Each call, its name, and the numbers that it may refuse with, all
        /// as the comments in niranbok.h say.
        pub const CALLS: &[(Call, &str, &[u8])] = &[$((Call::$call, $name, $refuses)),*];
    };
}

calls! {
    Crc "crc" &[];
    PidAllowed "pid_allowed" &[];
    Slot "slot" &[17];
    RelativeNumber "relative_number" &[17];
    FramePosition "frame_position" &[17];
    IsAvailable "is_available" &[];
    CountAvailable "count_available" &[];
    SettingBlank "setting_blank" &[1];
    SettingWidths "setting_widths" &[1, 17];
    SettingRules "setting_rules" &[1, 17, 8, 9, 10, 11];
    HeaderWrite "header_write" &[1, 2, 17, 8, 9, 10, 11];
    HeaderRead "header_read" &[1, 2, 17, 3, 4, 5, 6, 7, 20, 8, 9, 10, 11];
    PlaceRefusal "place_refusal" &[1, 12];
    ComposerStart "composer_start" &[1, 2, 17];
    ComposerBegin "composer_begin" &[1, 2, 17, 8, 9, 10, 11];
    ComposerPut "composer_put" &[1, 2, 17, 16, 8, 9, 10, 11, 13, 12];
    ComposerRest "composer_rest" &[];
    ComposerClose "composer_close" &[1, 2, 17, 16, 8, 9, 10, 11];
    ReceiverStart "receiver_start" &[1, 2, 17];
    ReceiverReceive "receiver_receive" &[1, 2, 17];
    ReceiverHandOut "receiver_hand_out" &[1, 2, 17, 16, 15];
    ReadHeaders "read_headers" &[1, 2, 17, 3, 4, 5, 6, 7, 20, 8, 9, 10, 11, 14];
    Spread "spread" &[1, 2, 17, 3, 4, 5, 6, 7, 20, 8, 9, 10, 11, 14, 13, 15, 12];
    Gather "gather" &[1, 2, 17, 3, 4, 5, 6, 7, 20, 8, 9, 10, 11, 14, 13, 15];
}

/// How often each call answered with each number.
pub type Tally = [[u64; NUMBERS]; CALLS.len()];

/// What receiving a packet did, by the numbers of niranbok.h.
pub const EVENTS: [&str; 8] = [
    "nothing", "opened", "stored", "ready", "short", "jump", "long", "broken",
];

/// The one that a remainder may go with.
pub const BROKEN: u8 = 7;

/// The refusal that a remainder goes with.
pub const WRONG_CRC: u8 = 7;

/// What was drawn when a difference showed: a round of a family of inputs.
#[derive(Clone, Copy, Default)]
pub struct Round {
    pub family: &'static str,
    pub number: u64,
    pub seed: u64,
}

#[derive(Default)]
pub struct Judge {
    pub tally: Tally,
    /// How often an accepted packet did what.
    pub events: [u64; EVENTS.len()],
    pub round: Round,
}

impl Judge {
    pub fn calls(&self) -> u64 {
        self.tally.iter().flatten().sum()
    }

    /// Takes what both sides answered and left in what they were lent. The
    /// refusal is a part of the answer.
    pub fn judge<A: Debug + PartialEq>(
        &mut self,
        call: Call,
        refusal: u8,
        [archive, ours]: [A; 2],
        lent: &mut [(&str, &mut Lent)],
    ) {
        if archive != ours {
            self.fail(
                call,
                &format!("the archive answers {archive:?}, the reference {ours:?}"),
            );
        }
        for (name, lent) in lent {
            if let Err(amiss) = lent.check(refusal != 0) {
                self.fail(call, &format!("{name} after answer {ours:?}: {amiss:?}"));
            }
        }
        self.count(call, refusal);
    }

    /// A remainder is not 0 exactly where one is due.
    pub fn judge_remainder(&self, call: Call, is_due: bool, remainder: u32) {
        if is_due != (remainder != 0) {
            let due = if is_due { "one is" } else { "none is" };
            self.fail(
                call,
                &format!("the remainder is {remainder:08x} where {due} due"),
            );
        }
    }

    fn count(&mut self, call: Call, refusal: u8) {
        let (_, _, refuses) = CALLS[call as usize];
        if refusal != 0 && !refuses.contains(&refusal) {
            self.fail(call, &format!("{refusal} is not a number it refuses with"));
        }
        self.tally[call as usize][usize::from(refusal)] += 1;
    }

    fn fail(&self, call: Call, what: &str) -> ! {
        let (_, name, _) = CALLS[call as usize];
        let Round {
            family,
            number,
            seed,
        } = self.round;
        panic!("{name}: {what}; round {number} of {family}, seed {seed:#018x}");
    }
}

/// What was never reached: numbers that a call can answer, and events.
pub fn unreached(judge: &Judge) -> Vec<String> {
    let mut unreached = Vec::new();
    for ((_, name, refuses), row) in CALLS.iter().zip(&judge.tally) {
        for number in std::iter::once(&0).chain(*refuses) {
            if row[usize::from(*number)] == 0 {
                unreached.push(format!("{name} never answered {number}"));
            }
        }
    }
    for number in (1..NUMBERS).filter(|number| !OF_NO_CALL.contains(number)) {
        if judge.tally.iter().all(|row| row[number] == 0) {
            unreached.push(format!("{number} was never reached"));
        }
    }
    for (event, count) in EVENTS.iter().zip(judge.events) {
        if count == 0 {
            unreached.push(format!("no packet did \"{event}\""));
        }
    }
    unreached
}

/// A line for each call with its numbers, and one for all.
pub fn table(tally: &Tally) -> String {
    let heads = (0..NUMBERS).map(|number| format!("{number:>8}"));
    let mut text = line("", heads);
    let mut all = [0; NUMBERS];
    for ((_, name, _), row) in CALLS.iter().zip(tally) {
        text += &line(name, row.iter().map(cell));
        for (sum, count) in all.iter_mut().zip(row) {
            *sum += count;
        }
    }
    text + &line("all", all.iter().map(cell))
}

fn line(name: &str, cells: impl Iterator<Item = String>) -> String {
    format!("{name:<18}{}\n", cells.collect::<String>())
}

fn cell(count: &u64) -> String {
    match count {
        0 => format!("{:>8}", "."),
        _ => format!("{count:>8}"),
    }
}

pub fn events(judge: &Judge) -> String {
    let counts = EVENTS.iter().zip(judge.events);
    let counts = counts.map(|(event, count)| format!("{event} {count}"));
    counts.collect::<Vec<_>>().join(", ")
}
