//! The rows of bonding: all slots of a group are the stream's.

use super::inputs::{group, stream};
use super::measure::{copy, measure, Row};
use crate::archive;
use reference::{gather, spread, PACKET_BYTES, SLOTS};
use std::hint::black_box;

pub fn spread_and_gather(name: &str, frames: &[u8]) -> [Row; 2] {
    let (mut archives, asked) = group(frames);
    let mut ours = archives.clone();
    let slots = SLOTS * frames.iter().copied().map(usize::from).sum::<usize>();
    let source = stream(slots);
    let mut target = vec![0; PACKET_BYTES * slots];
    let spread = measure(
        &format!("spread, {name}"),
        || {
            let group = black_box(&mut archives[..]);
            let answer = archive::spread(group, black_box(&source), &asked);
            assert_eq!(answer, (0, slots, 0));
        },
        || {
            let group = black_box(&mut ours[..]);
            assert_eq!(spread(group, &asked, black_box(&source)), Ok(slots));
        },
        || copy(&source, &mut target),
    );
    assert!(archives == ours);
    let [mut out, mut our_out] = [target.clone(), target.clone()];
    let gather = measure(
        &format!("gather, {name}"),
        || {
            let out = black_box(&mut out[..]);
            let answer = archive::gather(black_box(&archives), out, &asked);
            assert_eq!(answer, (0, slots, 0));
        },
        || {
            let out = black_box(&mut our_out[..]);
            assert_eq!(gather(black_box(&ours), &asked, out), Ok(slots));
        },
        || copy(&source, &mut target),
    );
    assert!(out == source && our_out == source);
    [spread, gather]
}
