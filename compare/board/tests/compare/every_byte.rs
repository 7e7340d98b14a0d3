//! Good settings, headers and states of which one byte has another value, one
//! byte after the other: also those that a kind does not reach, and that hold
//! zeros.

use crate::draw::faults::make_crc_right;
use crate::draw::packets::{frames, header, stream};
use crate::draw::{good, lent_setting, KINDS};
use crate::headers::read;
use board::coding::{
    composer_bytes, kind_byte, receiver_bytes, setting_bytes, state_size, COMPOSER_BYTES,
    RECEIVER_BYTES, SETTING_BYTES,
};
use board::judge::Judge;
use board::lent::Lent;
use board::random::Random;
use reference::{Composer, Kind, Receiver, PACKET_BYTES};

pub const PID: u16 = 0x1FF0;
/// Values next to the ends of ranges; those of halves of a byte are among them.
const VALUES: [u8; 12] = [0, 1, 2, 3, 4, 7, 8, 0x10, 0x70, 0x77, 0x80, 0xFF];

pub fn round(judge: &mut Judge, random: &mut Random) {
    for kind in KINDS {
        settings(judge, random, kind);
        headers(judge, random, kind);
        composers(judge, random, kind);
        receivers(judge, random, kind);
    }
}

/// The bytes with another value at this place.
fn with(bytes: &[u8], at: usize, value: u8) -> Lent {
    let mut bytes = bytes.to_vec();
    bytes[at] = value;
    Lent::new(&bytes)
}

fn settings(judge: &mut Judge, random: &mut Random, kind: Kind) {
    let setting = setting_bytes(&good(random, kind));
    let mut packet = Lent::new(&random.bytes(PACKET_BYTES));
    for at in 0..SETTING_BYTES {
        for value in VALUES {
            let mut setting = with(&setting, at, value);
            judge.setting_widths(&mut setting, kind_byte(kind));
            judge.setting_rules(&mut setting, kind_byte(kind));
            judge.header_write(&mut packet, PID, kind_byte(kind), &mut setting);
        }
    }
}

/// With the CRC as it was, and right.
fn headers(judge: &mut Judge, random: &mut Random, kind: Kind) {
    let good = header(PID, kind, &good(random, kind));
    for at in 0..PACKET_BYTES {
        for value in VALUES {
            let mut packet = with(&good, at, value);
            read(judge, random, &mut packet, PID, kind_byte(kind));
            packet.change(make_crc_right);
            read(judge, random, &mut packet, PID, kind_byte(kind));
        }
    }
}

/// A run that has closed a frame, with another open or not.
fn composer(random: &mut Random, kind: Kind, is_open: bool) -> Vec<u8> {
    let (_, mut composer) = Composer::start(PID, kind);
    let mut frame = vec![0; kind.size().frame_bytes()];
    composer
        .begin(&mut frame, &good(random, kind))
        .expect("it is good");
    composer.close(&mut frame).expect("a frame is open");
    if is_open {
        let setting = good(random, kind);
        composer.begin(&mut frame, &setting).expect("it is good");
        for r in (1..=7).filter(|&r| setting.is_available(r)) {
            composer.put(&mut frame, r as u8, &stream(random, PID, 1));
        }
    }
    composer_bytes(&composer).to_vec()
}

fn composers(judge: &mut Judge, random: &mut Random, kind: Kind) {
    let mut setting = lent_setting(&good(random, kind));
    let mut stream = Lent::new(&stream(random, PID, 2));
    for is_open in [false, true] {
        let state = composer(random, kind, is_open);
        for at in 0..COMPOSER_BYTES {
            for value in VALUES {
                let state = || with(&state, at, value);
                let length = state_size(state().bytes()).frame_bytes();
                let mut frame = Lent::new(&vec![value; length]);
                judge.composer_put(&mut state(), &mut frame, &mut stream, 1);
                judge.composer_close(&mut state(), &mut frame);
                judge.composer_begin(&mut state(), &mut frame, &mut setting);
            }
        }
    }
}

/// A receiver behind so many packets, and what it is lent.
pub fn receiver(random: &mut Random, kind: Kind, packets: usize) -> (Vec<u8>, Vec<u8>) {
    let (_, mut receiver) = Receiver::start(PID, kind);
    let mut store = vec![0; kind.size().store_bytes()];
    let frames = frames(random, PID, kind, 3).concat();
    for packet in frames.chunks_exact(PACKET_BYTES).take(packets) {
        let received = receiver.receive(&mut store, packet);
        received.expect("a receiver takes any packet");
    }
    (receiver_bytes(&receiver).to_vec(), store)
}

fn receivers(judge: &mut Judge, random: &mut Random, kind: Kind) {
    let slots = kind.size().slots;
    let mut packet = Lent::new(&stream(random, PID, 1));
    for packets in [0, 1, slots, slots + 1, slots + 2, slots + 3] {
        let (state, store) = receiver(random, kind, packets);
        for at in 0..RECEIVER_BYTES {
            for value in VALUES {
                let mut state = with(&state, at, value);
                let mut store = store.clone();
                store.resize(state_size(state.bytes()).store_bytes(), value);
                let mut store = Lent::new(&store);
                let mut out = Lent::new(&store.bytes()[..20 * PACKET_BYTES]);
                judge.receiver_hand_out(&mut state, &mut store, &mut out, 1);
                judge.receiver_receive(&mut state, &mut packet, &mut store);
            }
        }
    }
}
