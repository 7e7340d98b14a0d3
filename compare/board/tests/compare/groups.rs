//! Bonded groups: their headers read, a stream spread and gathered, and all
//! the ways in which a group, a question or a stream can be wrong.

use crate::draw::groups::{
    change_frames, change_question, group, header, move_frames, spoil_header, Group,
};
use crate::draw::packets::{make_unfit, stream};
use board::judge::Judge;
use board::lent::Lent;
use board::random::Random;
use reference::{Asked, FRAME_BYTES, PACKET_BYTES};

/// What the three calls are lent.
struct Call {
    group: Lent,
    asked: Asked,
    stream: Lent,
    out: Lent,
}

pub fn round(judge: &mut Judge, random: &mut Random) {
    let Group { bytes, asked } = group(random);
    let mut lent = Lent::new(&bytes);
    let (refusal, _, packets, _) = judge.read_headers(&mut lent, &asked);
    assert_eq!(refusal, 0, "nothing is wrong with the group");
    let stream = stream(random, asked.pid, packets);
    let mut call = Call {
        group: lent,
        asked,
        out: Lent::new(&random.bytes(stream.len())),
        stream: Lent::new(&stream),
    };
    call.make(judge);
    if packets > 0 {
        assert_eq!(call.out.bytes(), stream, "the stream comes back");
    }
    for _ in 0..12 {
        wrong_headers(judge, random, &mut call);
    }
    for _ in 0..8 {
        wrong_stream(judge, random, &mut call);
        wrong_question(judge, random, &mut call);
    }
    for _ in 0..6 {
        wrong_frames(judge, random, &mut call);
    }
}

impl Call {
    fn make(&mut self, judge: &mut Judge) {
        judge.read_headers(&mut self.group, &self.asked);
        judge.spread(&mut self.group, &mut self.stream, &self.asked);
        judge.gather(&mut self.group, &mut self.out, &self.asked);
    }

    fn frames(&self) -> usize {
        self.group.bytes().len() / FRAME_BYTES
    }
}

/// One header or two that are wrong in any way, and are right again behind
/// the calls.
fn wrong_headers(judge: &mut Judge, random: &mut Random, call: &mut Call) {
    let mut before = Vec::new();
    for _ in 0..random.of(&[1, 1, 2]) {
        let frame = random.below(call.frames());
        let kept = call.group.bytes()[FRAME_BYTES * frame..][..PACKET_BYTES].to_vec();
        let mut spoilt = kept.clone();
        spoil_header(random, &mut spoilt);
        call.group
            .change(|bytes| header(bytes, frame).copy_from_slice(&spoilt));
        before.push((frame, kept));
    }
    call.make(judge);
    for (frame, kept) in before.into_iter().rev() {
        call.group
            .change(|bytes| header(bytes, frame).copy_from_slice(&kept));
    }
}

/// A stream or a buffer too short or too long, or a packet that is unfit.
fn wrong_stream(judge: &mut Judge, random: &mut Random, call: &mut Call) {
    let mut stream = call.stream.bytes().to_vec();
    let length = stream.len();
    match random.below(5) {
        0 => stream.truncate(length.saturating_sub(PACKET_BYTES)),
        1 => stream.extend_from_slice(&[0x47; PACKET_BYTES]),
        2 => stream.push(0x47),
        3 => stream.truncate(PACKET_BYTES * random.below(length / PACKET_BYTES + 1)),
        _ if length == 0 => (),
        _ => {
            let unfit = PACKET_BYTES * random.below(length / PACKET_BYTES);
            make_unfit(random, &mut stream[unfit..], call.asked.pid);
        }
    }
    let any = random.below(length + 400);
    let room = random.of(&[0, length.saturating_sub(1), length, length + 1, any]);
    let out = random.bytes(room);
    let mut stream = Lent::new(&stream);
    judge.spread(&mut call.group, &mut stream, &call.asked);
    judge.gather(&mut call.group, &mut Lent::new(&out), &call.asked);
}

fn wrong_question(judge: &mut Judge, random: &mut Random, call: &mut Call) {
    let right = call.asked;
    for _ in 0..random.of(&[1, 1, 2]) {
        change_question(random, &mut call.asked);
    }
    call.make(judge);
    call.asked = right;
}

/// Frames missing, left over or moved, at times with a wrong header as well.
fn wrong_frames(judge: &mut Judge, random: &mut Random, call: &mut Call) {
    let mut bytes = call.group.bytes().to_vec();
    if random.one_in(3) {
        change_frames(random, &mut bytes, call.asked.carriers);
    }
    move_frames(random, &mut bytes);
    if bytes.len() >= FRAME_BYTES && random.one_in(3) {
        let frame = random.below(bytes.len() / FRAME_BYTES);
        spoil_header(random, header(&mut bytes, frame));
    }
    let mut group = Lent::new(&bytes);
    std::mem::swap(&mut group, &mut call.group);
    call.make(judge);
    call.group = group;
}
