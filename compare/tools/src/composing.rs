//! Frames composed with the reference, of streams whose numbers change.

use crate::streams::stream;
use cases::drawn::make_available;
use cases::generator::Generator;
use reference::{Composer, Kind, Setting, PACKET_BYTES};

/// The identifiers of the streams. Each half alone comes twice.
pub const PAIRS: [(u16, u16); 4] = [(1, 1), (1, 2), (2, 1), (0xFFFF, 0)];

/// For so many frames the streams keep their numbers, and the header its
/// version; the plan changes with every frame.
const FRAMES_OF_A_VERSION: usize = 5;

pub struct Composed {
    /// The frames, and a header behind them.
    pub bytes: Vec<u8>,
    /// What was placed of each of the pairs' streams.
    pub streams: [Vec<u8>; PAIRS.len()],
}

pub fn compose(generator: &mut Generator, kind: Kind, frames: usize, pid: u16) -> Composed {
    let (_, mut composer) = Composer::start(pid, kind);
    let frame_bytes = kind.size().frame_bytes();
    let mut composed = Composed {
        bytes: Vec::new(),
        streams: Default::default(),
    };
    let mut numbers = [None; PAIRS.len()];
    for number in 0..=frames {
        if number.is_multiple_of(FRAMES_OF_A_VERSION) {
            numbers = draw_numbers(generator, kind);
        }
        let setting = draw_setting(generator, kind, &numbers);
        let mut frame = vec![0; frame_bytes];
        composer.begin(&mut frame, &setting).expect("a setting");
        if number < frames {
            for (r, placed) in numbers.iter().zip(&mut composed.streams) {
                let drawn = usize::from(generator.below(30));
                let drawn = stream(generator, drawn, pid);
                if let Some(r) = *r {
                    let put = composer.put(&mut frame, r, &drawn);
                    placed.extend(&drawn[..PACKET_BYTES * put.placed.expect("packets")]);
                }
            }
        }
        composer.close(&mut frame).expect("an open frame");
        composed.bytes.extend(frame);
    }
    composed.bytes.truncate(frame_bytes * frames + PACKET_BYTES);
    composed
}

/// A number for each pair, no two alike; one pair in eight has none.
fn draw_numbers(generator: &mut Generator, kind: Kind) -> [Option<u8>; PAIRS.len()] {
    let streams = kind.size().streams as u8;
    let first = generator.byte_below(streams.into());
    std::array::from_fn(|pair| {
        let number = (first + 4 * pair as u8) % streams + 1;
        (generator.below(8) > 0).then_some(number)
    })
}

/// A setting in which the pairs have these numbers, with a drawn plan. All
/// streams that are not available bear the first pair, which says nothing.
fn draw_setting(
    generator: &mut Generator,
    kind: Kind,
    numbers: &[Option<u8>; PAIRS.len()],
) -> Setting {
    let size = kind.size();
    let mut setting = Setting {
        frame_type: if kind == Kind::Short { 3 } else { 1 },
        ..Setting::ZEROS
    };
    setting.ts_id[..size.streams].fill(PAIRS[0].0);
    setting.original_network_id[..size.streams].fill(PAIRS[0].1);
    for (number, (ts_id, original_network_id)) in numbers.iter().zip(PAIRS) {
        if let Some(r) = *number {
            make_available(&mut setting, r.into(), ts_id, original_network_id);
        }
    }
    for slot in 0..size.slots {
        let pair = usize::from(generator.below(PAIRS.len() as u16));
        setting.relative_ts_number[slot] = numbers[pair].unwrap_or(0);
    }
    setting
}
