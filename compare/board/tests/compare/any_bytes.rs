//! Settings and states of any bytes: random ones, blank ones, and good ones of
//! which a few bytes are changed, with lengths and numbers that are now and
//! then wrong.

use crate::draw::faults::change_bytes;
use crate::draw::packets::{frames, lent_stream};
use crate::draw::{good, kind, length, near_pid, number, pid, resized, stream_number, KIND_BYTES};
use board::coding::{
    composer_bytes, kind_byte, receiver_bytes, setting_bytes, state_size, COMPOSER_BYTES, KIND,
    RECEIVER_BYTES, SETTING_BYTES,
};
use board::judge::Judge;
use board::lent::Lent;
use board::random::Random;
use reference::{Announced, Composer, Kind, OpenFrame, Receiver, Standing, PACKET_BYTES, SLOTS};

pub fn round(judge: &mut Judge, random: &mut Random) {
    let (pid, kind) = (pid(random), kind(random));
    settings(judge, random, pid, kind);
    composers(judge, random, pid, kind);
    receivers(judge, random, pid, kind);
}

/// The good bytes as they are, with some changed, or any; mostly as many.
fn lent(random: &mut Random, good: &[u8]) -> Lent {
    let mut bytes = good.to_vec();
    match random.below(8) {
        0 => random.fill(&mut bytes),
        1 => random.fill(&mut bytes[3..]),
        2 => bytes[3..].fill(0),
        3 => (),
        _ => change_bytes(random, &mut bytes),
    }
    let length = length(random, bytes.len());
    let shift = random.below(16);
    Lent::shifted(&resized(&bytes, length), shift)
}

fn any(random: &mut Random, fixed: usize) -> Lent {
    let length = length(random, fixed);
    Lent::new(&random.bytes(length))
}

fn lent_setting(random: &mut Random, kind: Kind) -> Lent {
    let setting = setting_bytes(&good(random, kind));
    lent(random, &setting)
}

fn settings(judge: &mut Judge, random: &mut Random, pid: u16, kind: Kind) {
    let mut setting = lent_setting(random, kind);
    let kind = number(random, kind_byte(kind));
    let pid = near_pid(random, pid);
    judge.setting_widths(&mut setting, kind);
    judge.setting_rules(&mut setting, kind);
    judge.header_write(&mut any(random, PACKET_BYTES), pid, kind, &mut setting);
    judge.setting_blank(&mut setting);
    let mut packet = any(random, PACKET_BYTES);
    judge.place_refusal(&mut packet, pid);
    judge.header_read(&mut packet, pid, kind, &mut any(random, SETTING_BYTES));
}

/// Now and then the state is said to be of any kind. Lengths go by that.
fn change_kind(random: &mut Random, state: &mut [u8]) {
    if random.one_in(8) {
        state[KIND] = random.of(&KIND_BYTES);
    }
}

/// A composer's state; its marks are on slots that have a plan.
fn composer(random: &mut Random, pid: u16, kind: Kind) -> Composer {
    let (_, mut composer) = Composer::start(pid, kind);
    composer.continuity_counter = random.byte_below(16);
    composer.version_number = random.byte_below(8);
    if random.one_in(2) {
        composer.announced = Announced::of(&good(random, kind));
    }
    if !random.one_in(4) {
        let setting = good(random, kind);
        if random.one_in(2) {
            composer.announced = Announced::of(&setting);
        }
        let mut filled = [false; SLOTS];
        for (filled, &number) in filled.iter_mut().zip(&setting.relative_ts_number) {
            *filled = number > 0 && random.one_in(2);
        }
        composer.open = Some(OpenFrame { setting, filled });
    }
    composer
}

fn composers(judge: &mut Judge, random: &mut Random, pid: u16, kind: Kind) {
    let mut state = composer_bytes(&composer(random, pid, kind));
    assert_eq!(state.len(), COMPOSER_BYTES);
    change_kind(random, &mut state);
    let mut frame = any(random, state_size(&state).frame_bytes());
    let mut stream = Lent::new(&lent_stream(random, pid));
    for _ in 0..2 {
        let r = stream_number(random, kind);
        let r = number(random, r);
        judge.composer_put(&mut lent(random, &state), &mut frame, &mut stream, r);
        judge.composer_close(&mut lent(random, &state), &mut frame);
        let mut setting = lent_setting(random, kind);
        judge.composer_begin(&mut lent(random, &state), &mut frame, &mut setting);
    }
    let (pid, kind) = (near_pid(random, pid), number(random, kind_byte(kind)));
    judge.composer_start(&mut lent(random, &state), pid, kind);
}

fn receiver(random: &mut Random, pid: u16, kind: Kind) -> Receiver {
    let continuity_counter = random.byte_below(16);
    let slots = kind.size().slots;
    let standing = match random.below(5) {
        0 => Standing::Waiting,
        1 | 2 => Standing::Open {
            continuity_counter,
            stored: random.of(&[0, 1, slots - 1, slots]),
        },
        _ => Standing::Ready { continuity_counter },
    };
    Receiver {
        pid,
        kind,
        standing,
        relative_ts_number: good(random, kind).relative_ts_number,
        relative_ts_number_before: good(random, kind).relative_ts_number,
    }
}

/// The packet is at times a header, whose counter follows at times.
fn receivers(judge: &mut Judge, random: &mut Random, pid: u16, kind: Kind) {
    let mut state = receiver_bytes(&receiver(random, pid, kind));
    assert_eq!(state.len(), RECEIVER_BYTES);
    change_kind(random, &mut state);
    let mut store = any(random, state_size(&state).store_bytes());
    let frame = frames(random, pid, kind, 1).concat();
    for _ in 0..2 {
        let slot = random.of(&[0, 0, 1]);
        let packet = &frame[PACKET_BYTES * slot..][..PACKET_BYTES];
        let mut packet = lent(random, packet);
        judge.receiver_receive(&mut lent(random, &state), &mut packet, &mut store);
        let room = random.of(&[0, 188, 1000, 9776]);
        let mut out = Lent::new(&random.bytes(room));
        let r = stream_number(random, kind);
        let r = number(random, r);
        judge.receiver_hand_out(&mut lent(random, &state), &mut store, &mut out, r);
    }
    let (pid, kind) = (near_pid(random, pid), number(random, kind_byte(kind)));
    judge.receiver_start(&mut lent(random, &state), pid, kind);
}
