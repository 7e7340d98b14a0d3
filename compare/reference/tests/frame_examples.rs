//! Small examples 9, 11 and 12, those about frames.

mod common;

use common::frames::{any_frame, counted_header, ordinary, run, Lent};
use common::{least, KINDS};
use reference::{read, Event, Kind, FRAME_BYTES, STORE_BYTES};

#[test]
fn fixed_lengths() {
    assert_eq!((FRAME_BYTES, STORE_BYTES), (9964, 9776));
    let short = Kind::Short.size();
    assert_eq!((short.frame_bytes(), short.store_bytes()), (7708, 7520));
}

/// The control information changes in every frame, so that both count.
#[test]
fn nine_counter_and_version_begin_again() {
    for kind in KINDS {
        let mut composer = run(kind);
        let mut frame = any_frame(kind);
        for number in 0..40 {
            let mut setting = least(kind);
            setting.emergency_indicator = number % 2;
            assert_eq!(composer.begin(&mut frame, &setting), Ok(()));
            assert_eq!(composer.close(&mut frame), Ok(()));
            let header = read(&frame[..188], composer.pid, kind).unwrap();
            assert_eq!(header.continuity_counter, number % 16);
            assert_eq!(header.version_number, number % 8);
        }
    }
}

/// The event of the next header behind so many packets.
fn event_behind(kind: Kind, packets: usize, counters: [u8; 2]) -> Event {
    let mut lent = Lent::new(kind);
    let event = lent.receive(&counted_header(kind, counters[0]));
    assert_eq!(event, Event::Opened);
    for number in 0..packets {
        assert_eq!(lent.receive(&ordinary(number)), Event::Stored);
    }
    lent.receive(&counted_header(kind, counters[1]))
}

/// 52 packets, or 40.
#[test]
fn eleven_ready_and_short() {
    for (kind, slots) in [(Kind::Plain, 52), (Kind::Extended, 52), (Kind::Short, 40)] {
        for counter in 0..16 {
            let counters = [counter, (counter + 1) % 16];
            assert_eq!(event_behind(kind, slots, counters), Event::Ready);
            assert_eq!(event_behind(kind, slots - 1, counters), Event::Short);
            assert_eq!(event_behind(kind, 0, counters), Event::Short);
        }
    }
}

#[test]
fn eleven_long() {
    for (kind, slots) in [(Kind::Plain, 52), (Kind::Extended, 52), (Kind::Short, 40)] {
        let mut lent = Lent::new(kind);
        lent.receive(&counted_header(kind, 3));
        for number in 0..slots {
            assert_eq!(lent.receive(&ordinary(number)), Event::Stored);
        }
        assert_eq!(lent.receive(&ordinary(slots)), Event::Long);
        assert_eq!(lent.receive(&ordinary(slots + 1)), Event::Nothing);
        assert_eq!(lent.receive(&counted_header(kind, 4)), Event::Opened);
    }
}

#[test]
fn twelve_jump() {
    assert_eq!(event_behind(Kind::Plain, 52, [15, 15]), Event::Jump);
    assert_eq!(event_behind(Kind::Short, 40, [15, 15]), Event::Jump);
    for kind in KINDS {
        for first in 0..16 {
            for second in 0..16 {
                let follows = second == (first + 1) % 16;
                let expected = if follows { Event::Ready } else { Event::Jump };
                let event = event_behind(kind, kind.size().slots, [first, second]);
                assert_eq!(event, expected);
            }
        }
    }
}
