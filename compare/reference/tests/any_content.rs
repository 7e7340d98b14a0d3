//! Every call answers, whatever its state, setting, packets and lengths are,
//! and a refusal changes nothing.

mod common;

use common::frames::{ordinary, run};
use common::{good, Random, KINDS, PID};
use reference::{Announced, Composer, Kind, OpenFrame, Receiver, Setting, Standing};

const ROUNDS: usize = 4000;

/// Mostly what is right, and now and then anything.
fn often(random: &mut Random, right: usize) -> usize {
    match random.below(12) {
        0 => random.below(2 * right as u64 + 2) as usize,
        _ => right,
    }
}

fn kind(random: &mut Random) -> Kind {
    KINDS[random.below(KINDS.len() as u64) as usize]
}

/// A good setting, in which now and then one field has any value.
fn setting(random: &mut Random, kind: Kind) -> Setting {
    let mut setting = good(random, kind);
    let value = random.byte(256);
    match random.below(40) {
        0 => setting.continuity_counter = value,
        1 => setting.version_number = value,
        2 => setting.frame_type = value,
        3 => setting.availability = random.below(1 << 16) as u16,
        4 => setting.receive_status[random.below(15) as usize] = value,
        5 => setting.relative_ts_number[random.below(52) as usize] = value,
        6 => setting.private_data[random.below(131) as usize] = value,
        7 => setting.auxiliary[9] = value,
        8 => setting.frame_position = value,
        9 => setting.number_of_carriers = value,
        10 => setting.ts_id[random.below(15) as usize] = value.into(),
        _ => (),
    }
    setting
}

fn composer(random: &mut Random) -> Composer {
    let kind = kind(random);
    let mut composer = run(kind);
    composer.pid = often(random, PID.into()) as u16;
    composer.continuity_counter = random.byte(17);
    composer.version_number = often(random, 7) as u8;
    composer.announced = Announced::of(&setting(random, kind));
    if random.below(4) > 0 {
        let setting = setting(random, kind);
        let mut filled = setting.relative_ts_number.map(|number| number % 3 == 1);
        filled[30] |= random.below(12) == 0;
        composer.open = Some(OpenFrame { setting, filled });
    }
    composer
}

fn streams(random: &mut Random) -> Vec<u8> {
    let mut stream = Vec::new();
    for number in 0..random.below(6) as usize {
        let mut packet = ordinary(number);
        if random.below(20) == 0 {
            packet[0] = random.byte(256);
        }
        stream.extend(packet);
    }
    let length = often(random, stream.len());
    stream.truncate(length);
    stream
}

type ComposerCall<'a> = &'a dyn Fn(&mut Composer, &mut [u8]) -> bool;

/// Whether a call with this state and frame is accepted.
fn accepts(call: ComposerCall, state: &Composer, frame: &[u8]) -> bool {
    let (mut after, mut lent) = (state.clone(), frame.to_vec());
    let accepted = call(&mut after, &mut lent);
    if !accepted {
        assert_eq!((&after, &lent[..]), (state, frame));
    }
    accepted
}

/// Neither nearly all nor nearly none, or the rounds would show little.
fn check_balance(accepted: &[usize]) {
    for count in accepted {
        assert!((ROUNDS / 20..ROUNDS).contains(count), "{accepted:?}");
    }
}

#[test]
fn composers() {
    let mut random = Random(41);
    let mut accepted = [0; 3];
    for _ in 0..ROUNDS {
        let state = composer(&mut random);
        let setting = setting(&mut random, state.kind);
        let fixed = state.kind.size().frame_bytes();
        let frame = vec![0xA5; often(&mut random, fixed)];
        let number = random.byte(17);
        let stream = streams(&mut random);
        let calls: [ComposerCall; 3] = [
            &|state, frame| state.begin(frame, &setting).is_ok(),
            &|state, frame| state.put(frame, number, &stream).placed.is_ok(),
            &|state, frame| state.close(frame).is_ok(),
        ];
        for (call, count) in calls.into_iter().zip(&mut accepted) {
            *count += usize::from(accepts(call, &state, &frame));
        }
    }
    check_balance(&accepted);
}

fn receiver(random: &mut Random) -> Receiver {
    let kind = kind(random);
    let numbers = setting(random, kind).relative_ts_number;
    let continuity_counter = often(random, 15) as u8;
    let standing = match random.below(3) {
        0 => Standing::Waiting,
        1 => Standing::Open {
            continuity_counter,
            stored: often(random, kind.size().slots),
        },
        _ => Standing::Ready { continuity_counter },
    };
    Receiver {
        pid: often(random, PID.into()) as u16,
        kind,
        standing,
        relative_ts_number: numbers,
        relative_ts_number_before: setting(random, kind).relative_ts_number,
    }
}

fn receives(state: &Receiver, store: &[u8], packet: &[u8]) -> bool {
    let (mut after, mut lent) = (state.clone(), store.to_vec());
    let accepted = after.receive(&mut lent, packet).is_ok();
    if !accepted {
        assert_eq!((&after, &lent[..]), (state, store));
    }
    accepted
}

/// The store is of one byte, so that its front is what any slots hold.
fn hands_out(state: &Receiver, store: &[u8], number: u8, room: usize) -> bool {
    let mut buffer = vec![0xA5; room];
    let answer = state.hand_out(store, number, &mut buffer);
    let written = 188 * answer.unwrap_or(0);
    assert_eq!(buffer[..written], store[..written]);
    assert_eq!(buffer[written..], vec![0xA5; room - written]);
    answer.is_ok()
}

#[test]
fn receivers() {
    let mut random = Random(42);
    let mut accepted = [0; 2];
    for _ in 0..ROUNDS {
        let state = receiver(&mut random);
        let fixed = state.kind.size().store_bytes();
        let store = vec![0x5A; often(&mut random, fixed)];
        let packet = vec![random.byte(256); often(&mut random, 188)];
        accepted[0] += usize::from(receives(&state, &store, &packet));
        let number = random.byte(17);
        let room = random.below(3000) as usize;
        accepted[1] += usize::from(hands_out(&state, &store, number, room));
    }
    check_balance(&accepted);
}
