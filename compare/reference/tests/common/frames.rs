//! Runs, streams and packets for the tests of composer and receiver.

use super::{good, header, least, Random, PID};
use reference::{Composer, Event, Kind, Receiver, Setting};

pub fn run(kind: Kind) -> Composer {
    let (refusal, composer) = Composer::start(PID, kind);
    assert_eq!(refusal, 0);
    composer
}

pub fn receiver(kind: Kind) -> Receiver {
    let (refusal, receiver) = Receiver::start(PID, kind);
    assert_eq!(refusal, 0);
    receiver
}

/// A packet that may stand in a slot, told apart by the number.
pub fn ordinary(number: usize) -> [u8; 188] {
    let mut packet = [number as u8; 188];
    packet[..4].copy_from_slice(&[0x47, 0x01, 0x00, 0x10]);
    packet[4..12].copy_from_slice(&(number as u64).to_be_bytes());
    packet
}

/// So many packets with the PIDs that a stream may have, often the null one.
pub fn stream(random: &mut Random, packets: usize) -> Vec<u8> {
    let mut stream = vec![0; 188 * packets];
    random.fill(&mut stream, 256);
    for packet in stream.chunks_exact_mut(188) {
        packet[0] = 0x47;
        if random.below(4) == 0 {
            packet[1..4].copy_from_slice(&[0x1F, 0xFF, 0x10]);
        } else {
            packet[1] &= 0xEF;
        }
    }
    stream
}

/// What a frame is composed in.
pub fn any_frame(kind: Kind) -> Vec<u8> {
    vec![0xA5; kind.size().frame_bytes()]
}

/// A frame of the run with a drawn setting and drawn streams.
pub fn drawn_frame(random: &mut Random, composer: &mut Composer) -> Vec<u8> {
    let mut frame = any_frame(composer.kind);
    let setting = good(random, composer.kind);
    assert_eq!(composer.begin(&mut frame, &setting), Ok(()));
    for r in 1..=15 {
        if setting.is_available(r) {
            let packets = random.below(8) as usize;
            let lent = stream(random, packets);
            assert!(composer.put(&mut frame, r as u8, &lent).placed.is_ok());
        }
    }
    assert_eq!(composer.close(&mut frame), Ok(()));
    frame
}

/// A setting with stream 1 available and planned for the first ten slots.
pub fn ten_slots(kind: Kind) -> Setting {
    let mut setting = least(kind);
    setting.availability = 0x4000;
    setting.relative_ts_number[..10].fill(1);
    setting
}

/// A good header with this counter.
pub fn counted_header(kind: Kind, continuity_counter: u8) -> [u8; 188] {
    let mut setting = ten_slots(kind);
    setting.continuity_counter = continuity_counter;
    header(kind, &setting)
}

/// A receiver with its store.
pub struct Lent {
    pub receiver: Receiver,
    pub store: Vec<u8>,
}

impl Lent {
    pub fn new(kind: Kind) -> Lent {
        Lent {
            receiver: receiver(kind),
            store: vec![0xA5; kind.size().store_bytes()],
        }
    }

    pub fn receive(&mut self, packet: &[u8]) -> Event {
        self.receiver.receive(&mut self.store, packet).unwrap()
    }

    /// The ready frame's packets of a stream.
    pub fn handed_out(&self, relative_ts_number: u8) -> Vec<u8> {
        let mut buffer = vec![0; self.store.len()];
        let out = self
            .receiver
            .hand_out(&self.store, relative_ts_number, &mut buffer);
        buffer.truncate(188 * out.unwrap());
        buffer
    }
}
