//! Runs of a receiver: frames of the reference, with packets lost, repeated
//! and spoiled on the way, and its states with bytes changed.

use crate::draw::faults::{change_bytes, damage};
use crate::draw::packets::{frames, make_unfit, ordinary};
use crate::draw::reserved::clear_one_alone;
use crate::draw::{kind, length, near_pid, number, pid, resized};
use crate::events::READY;
use board::coding::{kind_byte, RECEIVER_BYTES};
use board::judge::Judge;
use board::lent::Lent;
use board::random::Random;
use reference::{Kind, PACKET_BYTES};

const FRAMES: usize = 24;

type Packets = Vec<Vec<u8>>;

struct Run {
    pid: u16,
    kind: Kind,
    state: Lent,
    store: Lent,
}

pub fn round(judge: &mut Judge, random: &mut Random) {
    let (pid, kind) = (pid(random), kind(random));
    let mut run = Run {
        pid,
        kind,
        state: Lent::new(&random.bytes(RECEIVER_BYTES)),
        store: Lent::new(&random.bytes(kind.size().store_bytes())),
    };
    let other = near_pid(random, pid);
    let other_kind = number(random, kind_byte(kind));
    judge.receiver_start(&mut run.state, other, other_kind);
    let refusal = judge.receiver_start(&mut run.state, pid, kind_byte(kind));
    assert_eq!(refusal, 0, "PID and kind are right");
    for frame in frames(random, pid, kind, FRAMES) {
        for packet in arriving(random, &frame, pid, kind) {
            run.receive(judge, random, &packet);
        }
    }
}

/// The packets of a frame that arrive, as they do.
fn arriving(random: &mut Random, frame: &[u8], pid: u16, kind: Kind) -> Packets {
    let mut packets: Packets = frame
        .chunks_exact(PACKET_BYTES)
        .map(<[u8]>::to_vec)
        .collect();
    let at = random.below(packets.len());
    match random.below(20) {
        0 => drop(packets.remove(at)),
        1 => packets.insert(at, packets[at].clone()),
        2 => packets.insert(0, packets[0].clone()),
        3 => drop(packets.remove(0)),
        4 => damage(random, kind, &mut packets[0]),
        5 => packets[0][1..3].fill(0),
        6 => make_unfit(random, &mut packets[at], pid),
        7 => packets.truncate(at),
        8 => drop(packets.drain(..at)),
        9 => packets.clear(),
        10 => packets.push(ordinary(random, pid)),
        11 => packets.swap(0, at),
        12 => clear_one_alone(random, kind, &mut packets[0]),
        _ => (),
    }
    packets
}

impl Run {
    fn receive(&mut self, judge: &mut Judge, random: &mut Random, packet: &[u8]) {
        if random.one_in(30) {
            self.odd_calls(judge, random, packet);
        }
        let mut packet = Lent::new(packet);
        let (refusal, event, _) =
            judge.receiver_receive(&mut self.state, &mut packet, &mut self.store);
        assert_eq!(refusal, 0, "a receiver takes any packet");
        if event == READY {
            self.hand_out_all(judge, random);
        }
    }

    /// Every stream, with room for all, for some bytes more, or for too few.
    fn hand_out_all(&mut self, judge: &mut Judge, random: &mut Random) {
        let size = self.kind.size();
        for r in (0..=size.streams as u8 + 1).chain([15, 16]) {
            let mut out = Lent::new(&random.bytes(size.store_bytes()));
            let (_, packets) = self.hand_out(judge, &mut out, r);
            let room = PACKET_BYTES * packets;
            for room in [room, room + random.below(200), room.saturating_sub(1), 0] {
                let mut out = Lent::new(&random.bytes(room));
                self.hand_out(judge, &mut out, r);
            }
        }
    }

    fn hand_out(&mut self, judge: &mut Judge, out: &mut Lent, r: u8) -> (u8, usize) {
        judge.receiver_hand_out(&mut self.state, &mut self.store, out, r)
    }

    /// Hand out at any time, lengths that are wrong, and changed states.
    fn odd_calls(&mut self, judge: &mut Judge, random: &mut Random, packet: &[u8]) {
        let mut out = Lent::new(&random.bytes(2 * PACKET_BYTES));
        let r = random.byte_below(17);
        self.hand_out(judge, &mut out, r);
        let packet_length = length(random, PACKET_BYTES);
        let store_length = length(random, self.kind.size().store_bytes());
        let mut state = self.state.bytes().to_vec();
        if random.one_in(2) {
            change_bytes(random, &mut state);
        }
        let mut state = Lent::new(&state);
        let mut packet = Lent::new(&resized(packet, packet_length));
        let mut store = Lent::new(&resized(self.store.bytes(), store_length));
        judge.receiver_hand_out(&mut state, &mut store, &mut out, r);
        judge.receiver_receive(&mut state, &mut packet, &mut store);
        judge.place_refusal(&mut packet, self.pid);
    }
}
