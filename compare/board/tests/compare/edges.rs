//! Every call with all lengths around the fixed ones and all numbers around
//! the ends of their ranges, each with each.

use crate::draw::faults::make_crc_right;
use crate::draw::groups::{group, Group};
use crate::draw::packets::{frames, stream};
use crate::draw::{good, lengths, lent_setting, plan, resized, KINDS, KIND_BYTES, PIDS};
use board::coding::{
    composer_bytes, kind_byte, receiver_bytes, setting_bytes, COMPOSER_BYTES, RECEIVER_BYTES,
    SETTING_BYTES,
};
use board::judge::Judge;
use board::lent::Lent;
use board::random::Random;
use reference::{Asked, Composer, Event, Kind, Receiver, Size, FRAME_BYTES, PACKET_BYTES};

/// Numbers of streams, slots and carriers around their ends.
const NUMBERS: [u8; 10] = [0, 1, 2, 7, 8, 9, 14, 15, 16, 255];
/// Lengths of streams and of buffers written to.
const STREAMS: [usize; 7] = [0, 1, 187, 188, 189, 376, 9776];

const SIZES: [Size; 2] = [Size::LARGE, Size::SHORT];

/// The lengths around those of both sizes.
fn sized_lengths(of: fn(Size) -> usize) -> Vec<usize> {
    let around = SIZES.map(|size| [of(size) - 1, of(size), of(size) + 1]);
    [&[0, 1][..], around.as_flattened()].concat()
}

pub fn round(judge: &mut Judge, random: &mut Random) {
    for kind in KINDS {
        settings(judge, random, kind);
        emergency(judge, random, kind);
        composers(judge, random, kind);
        receivers(judge, random, kind);
    }
    groups(judge, random);
}

fn settings(judge: &mut Judge, random: &mut Random, kind: Kind) {
    let bytes = setting_bytes(&good(random, kind));
    for length in lengths(SETTING_BYTES) {
        let mut setting = Lent::new(&resized(&bytes, length));
        for kind in KIND_BYTES {
            judge.setting_widths(&mut setting, kind);
            judge.setting_rules(&mut setting, kind);
            for packet_length in lengths(PACKET_BYTES) {
                for pid in PIDS {
                    let mut packet = Lent::new(&random.bytes(packet_length));
                    judge.header_write(&mut packet, pid, kind, &mut setting);
                    judge.place_refusal(&mut packet, pid);
                    judge.header_read(&mut packet, pid, kind, &mut setting);
                }
            }
        }
        judge.setting_blank(&mut setting);
    }
}

/// Both values of emergency_indicator, the last bit of byte 72 or 37, are
/// written, and each is read with the reserved bit before it at 1, and refused
/// with it at 0.
fn emergency(judge: &mut Judge, random: &mut Random, kind: Kind) {
    let (pid, number) = (0x1FF0, kind_byte(kind));
    let byte = if kind == Kind::Short { 37 } else { 72 };
    let mut setting = good(random, kind);
    for bit in [0, 1] {
        setting.emergency_indicator = bit;
        let mut setting = lent_setting(&setting);
        let mut packet = Lent::new(&random.bytes(PACKET_BYTES));
        let refusal = judge.header_write(&mut packet, pid, number, &mut setting);
        assert_eq!(refusal, 0, "a good setting is written");
        assert_eq!(packet.bytes()[byte] & 3, 2 | bit);
        for reserved in [0, 2] {
            packet.change(|bytes| {
                bytes[byte] = bytes[byte] & 0xFD | reserved;
                make_crc_right(bytes);
            });
            let before = random.bytes(SETTING_BYTES);
            let mut read = Lent::new(&before);
            let (refusal, _) = judge.header_read(&mut packet, pid, number, &mut read);
            let (expected, bytes) = match reserved {
                0 => (20, &before[..]),
                _ => (0, setting.bytes()),
            };
            assert_eq!(refusal, expected, "the reserved bit is {reserved}");
            assert_eq!(read.bytes(), bytes);
        }
    }
}

fn starts(judge: &mut Judge, random: &mut Random) {
    for pid in PIDS {
        for kind in KIND_BYTES {
            for length in lengths(COMPOSER_BYTES) {
                judge.composer_start(&mut Lent::new(&random.bytes(length)), pid, kind);
            }
            for length in lengths(RECEIVER_BYTES) {
                judge.receiver_start(&mut Lent::new(&random.bytes(length)), pid, kind);
            }
        }
    }
}

/// A state with an open frame, some of whose slots are filled.
fn open_state(random: &mut Random, pid: u16, kind: Kind) -> Vec<u8> {
    let mut setting = good(random, kind);
    setting.availability |= 0x4000;
    plan(random, kind, &mut setting);
    let (_, mut composer) = Composer::start(pid, kind);
    let mut frame = vec![0; kind.size().frame_bytes()];
    // It may be a 10 now, and the state is then one with no open frame.
    let _ = composer.begin(&mut frame, &setting);
    composer.put(&mut frame, 1, &stream(random, pid, 1));
    composer_bytes(&composer).to_vec()
}

fn composers(judge: &mut Judge, random: &mut Random, kind: Kind) {
    starts(judge, random);
    let pid = 0x1FF0;
    let state = open_state(random, pid, kind);
    let setting = setting_bytes(&good(random, kind));
    let lent = stream(random, pid, 52);
    for length in lengths(COMPOSER_BYTES) {
        for frame_length in sized_lengths(Size::frame_bytes) {
            let state = resized(&state, length);
            let mut frame = Lent::new(&random.bytes(frame_length));
            for length in lengths(SETTING_BYTES) {
                let mut setting = Lent::new(&resized(&setting, length));
                judge.composer_begin(&mut Lent::new(&state), &mut frame, &mut setting);
            }
            for length in STREAMS {
                let mut stream = Lent::new(&resized(&lent, length));
                for r in NUMBERS {
                    judge.composer_put(&mut Lent::new(&state), &mut frame, &mut stream, r);
                }
            }
            judge.composer_close(&mut Lent::new(&state), &mut frame);
        }
    }
}

/// A state with a ready frame, and its store.
fn ready_state(random: &mut Random, pid: u16, kind: Kind) -> (Vec<u8>, Vec<u8>) {
    let (_, mut receiver) = Receiver::start(pid, kind);
    let mut store = vec![0; kind.size().store_bytes()];
    let frames = frames(random, pid, kind, 2);
    let first_and_header = kind.size().slots + 2;
    let mut last = None;
    for packet in frames
        .concat()
        .chunks_exact(PACKET_BYTES)
        .take(first_and_header)
    {
        last = receiver.receive(&mut store, packet).ok();
    }
    assert_eq!(last, Some(Event::Ready));
    (receiver_bytes(&receiver).to_vec(), store)
}

fn receivers(judge: &mut Judge, random: &mut Random, kind: Kind) {
    let pid = 0x1FF0;
    let (state, store) = ready_state(random, pid, kind);
    for length in lengths(RECEIVER_BYTES) {
        for store_length in sized_lengths(Size::store_bytes) {
            let mut lent = Lent::new(&resized(&state, length));
            let mut store = Lent::new(&resized(&store, store_length));
            for length in STREAMS {
                for r in NUMBERS {
                    let mut out = Lent::new(&random.bytes(length));
                    judge.receiver_hand_out(&mut lent, &mut store, &mut out, r);
                }
            }
            for length in lengths(PACKET_BYTES) {
                let mut packet = Lent::new(&random.bytes(length));
                let mut state = Lent::new(&resized(&state, lent.bytes().len()));
                judge.receiver_receive(&mut state, &mut packet, &mut store);
            }
        }
    }
    state_pids(judge, random, &state, kind);
}

/// The PID and the kind of states, with the lengths of both sizes.
fn state_pids(judge: &mut Judge, random: &mut Random, ready: &[u8], kind: Kind) {
    let open = open_state(random, 16, kind);
    let mut setting = Lent::new(&setting_bytes(&good(random, kind)));
    let mut stream = Lent::new(&stream(random, 16, 1));
    let mut packet = Lent::new(stream.bytes());
    for (pid, size) in PIDS
        .into_iter()
        .flat_map(|pid| SIZES.map(|size| (pid, size)))
    {
        let mut frame = Lent::new(&random.bytes(size.frame_bytes()));
        let mut store = Lent::new(&random.bytes(size.store_bytes()));
        let mut out = Lent::new(&random.bytes(size.store_bytes()));
        for kind in KIND_BYTES {
            let of = |state: &[u8]| {
                let mut state = Lent::new(state);
                let [high, low] = pid.to_be_bytes();
                state.change(|bytes| bytes[..3].copy_from_slice(&[high, low, kind]));
                state
            };
            judge.composer_put(&mut of(&open), &mut frame, &mut stream, 1);
            judge.composer_close(&mut of(&open), &mut frame);
            judge.composer_begin(&mut of(&open), &mut frame, &mut setting);
            judge.receiver_hand_out(&mut of(ready), &mut store, &mut out, 1);
            judge.receiver_receive(&mut of(ready), &mut packet, &mut store);
        }
    }
}

/// The lengths go with each number, and the numbers with each other.
fn groups(judge: &mut Judge, random: &mut Random) {
    let Group { bytes, asked } = group(random);
    let frames = [0, 1, FRAME_BYTES - 1, FRAME_BYTES, FRAME_BYTES + 1];
    let whole = [bytes.len() - 1, bytes.len(), bytes.len() + 1];
    let mut out = Lent::new(&random.bytes(9776));
    for length in frames.into_iter().chain(whole) {
        let mut group = Lent::new(&resized(&bytes, length));
        for carriers in NUMBERS.into_iter().chain([asked.carriers]) {
            for pid in [15, 16, 8190, 8191, asked.pid] {
                let asked = Asked {
                    carriers,
                    pid,
                    ..asked
                };
                judge.read_headers(&mut group, &asked);
                judge.gather(&mut group, &mut out, &asked);
                for length in [0, 1, 187, 188, 189] {
                    let mut stream = Lent::new(&random.bytes(length));
                    judge.spread(&mut group, &mut stream, &asked);
                }
            }
        }
    }
}
