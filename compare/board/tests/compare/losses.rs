//! Runs with packets lost and headers lost or spoiled: what is handed out are
//! the packets of the frames that arrived whole with the next frame's header
//! directly behind, which is told from the damage alone, and nothing else.

use crate::draw::packets::frames;
use crate::draw::reserved::clear_one_alone;
use crate::draw::{kind, pid};
use crate::events::READY;
use board::coding::{kind_byte, RECEIVER_BYTES};
use board::judge::Judge;
use board::lent::Lent;
use board::random::Random;
use reference::{read, Kind, PACKET_BYTES};

const FRAMES: usize = 40;
/// The most headers in a row that may be lost or spoiled.
const MOST_IN_A_ROW: usize = 15;

/// Under each number the packets of its stream.
type Streams = Vec<Vec<u8>>;

/// A frame's packets as they arrive, and what became of it.
struct Arrived {
    packets: Vec<Vec<u8>>,
    header_is_good: bool,
    is_whole: bool,
}

pub fn round(judge: &mut Judge, random: &mut Random) {
    let (pid, drawn) = (pid(random), kind(random));
    let kind = random.of(&[Kind::Short, drawn]);
    let frames = frames(random, pid, kind, FRAMES);
    let arrived = arrive(random, kind, &frames);
    let expected = expected(&frames, &arrived, pid, kind);
    let received = receive(judge, random, &arrived, pid, kind);
    assert!(
        received == expected,
        "other packets come out than arrived whole"
    );
}

/// One packet in so many is lost, one header in so many, and now and then
/// whole frames.
fn arrive(random: &mut Random, kind: Kind, frames: &[Vec<u8>]) -> Vec<Arrived> {
    let one_packet_in = random.of(&[20, 60, 200, 1000]);
    let one_header_in = random.of(&[2, 4, 10]);
    let mut frames_lost = 0;
    let mut headers_gone = 0;
    let mut arrived = Vec::new();
    for frame in frames {
        if random.one_in(12) {
            frames_lost = random.between(1, MOST_IN_A_ROW);
        }
        let may_go = headers_gone < MOST_IN_A_ROW;
        let is_lost = frames_lost > 0 && may_go;
        let is_gone = is_lost || may_go && random.one_in(one_header_in);
        let header_is_good = !is_gone;
        headers_gone = if header_is_good { 0 } else { headers_gone + 1 };
        frames_lost = frames_lost.saturating_sub(1);
        let mut slots: Vec<Vec<u8>> = frame.chunks(PACKET_BYTES).map(<[u8]>::to_vec).collect();
        let header = slots.remove(0);
        let all = slots.len();
        slots.retain(|_| !is_lost && !random.one_in(one_packet_in));
        let is_whole = slots.len() == all;
        let header = match header_is_good {
            true => Some(header),
            false => spoilt(random, kind, header, is_lost),
        };
        arrived.push(Arrived {
            packets: header.into_iter().chain(slots).collect(),
            header_is_good,
            is_whole,
        });
    }
    arrived
}

/// A header that is lost, or that the reader refuses: a bit is turned under the
/// CRC, its PID is another, or its first byte, or a reserved bit is zero.
fn spoilt(random: &mut Random, kind: Kind, mut header: Vec<u8>, is_lost: bool) -> Option<Vec<u8>> {
    match random.below(5) {
        0 => return None,
        _ if is_lost => return None,
        1 => header[random.between(4, 187)] ^= 1 << random.below(8),
        2 => header[2] ^= 1,
        3 => clear_one_alone(random, kind, &mut header),
        _ => header[0] ^= 1 << random.below(8),
    }
    Some(header)
}

fn expected(frames: &[Vec<u8>], arrived: &[Arrived], pid: u16, kind: Kind) -> Streams {
    let mut streams = vec![Vec::new(); 1 + kind.size().streams];
    for (frame, two) in frames.iter().zip(arrived.windows(2)) {
        let comes_out = two[0].header_is_good && two[0].is_whole && two[1].header_is_good;
        if comes_out {
            let (header, slots) = frame.split_at(PACKET_BYTES);
            let header = read(header, pid, kind).expect("the header is good");
            let slots = slots.chunks(PACKET_BYTES);
            for (packet, number) in slots.zip(header.relative_ts_number) {
                streams[usize::from(number)].extend(packet);
            }
        }
    }
    streams[0].clear();
    streams
}

/// A fresh receiver, asked for each stream at every ready frame.
fn receive(
    judge: &mut Judge,
    random: &mut Random,
    arrived: &[Arrived],
    pid: u16,
    kind: Kind,
) -> Streams {
    let size = kind.size();
    let mut state = Lent::new(&random.bytes(RECEIVER_BYTES));
    let mut store = Lent::new(&random.bytes(size.store_bytes()));
    assert_eq!(judge.receiver_start(&mut state, pid, kind_byte(kind)), 0);
    let mut streams = vec![Vec::new(); 1 + size.streams];
    for packet in arrived.iter().flat_map(|frame| &frame.packets) {
        let mut packet = Lent::new(packet);
        let (_, event, _) = judge.receiver_receive(&mut state, &mut packet, &mut store);
        if event != READY {
            continue;
        }
        for (r, stream) in streams.iter_mut().enumerate().skip(1) {
            let mut out = Lent::new(&vec![0xA5; size.store_bytes()]);
            let answer = judge.receiver_hand_out(&mut state, &mut store, &mut out, r as u8);
            assert_eq!(answer.0, 0, "a frame is ready, and there is room");
            stream.extend(&out.bytes()[..PACKET_BYTES * answer.1]);
        }
    }
    streams
}
