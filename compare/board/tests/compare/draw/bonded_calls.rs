//! The three calls on a group, and faults that are made in what they are lent.

use super::faults::{break_rules, Bit};
use super::groups::{frame, header};
use super::packets::stream;
use super::{breakable, pid};
use board::judge::Judge;
use board::lent::Lent;
use board::random::Random;
use reference::{Asked, Kind, PACKET_BYTES};

/// A group, the stream that is bonded in it, and room for it.
#[derive(Clone)]
pub struct BondedCall {
    pub bytes: Vec<u8>,
    pub asked: Asked,
    pub stream: Vec<u8>,
    pub out: Vec<u8>,
}

/// What read_headers, spread and gather answer.
pub type Answers = ((u8, u8, usize, u32), (u8, usize, u32), (u8, usize, u32));

/// All three refuse.
pub fn refused(number: u8, remainder: u32) -> Answers {
    let headers = (number, 0, 0, remainder);
    let stream = (number, 0, remainder);
    (headers, stream, stream)
}

impl BondedCall {
    /// One carrier of three frames, each of whose rules can be broken by itself.
    /// The stream is number 1 in each header, and has a slot at least.
    pub fn three_frames(random: &mut Random) -> BondedCall {
        let asked = Asked {
            carriers: 1,
            pid: pid(random),
            ts_id: 0,
            original_network_id: random.sixteen(),
        };
        let (mut bytes, mut packets) = (Vec::new(), 0);
        for frame_position in 1..=3 {
            let mut setting = breakable(random, Kind::Extended);
            setting.original_network_id[0] = asked.original_network_id;
            setting.relative_ts_number[0] = 1;
            setting.group_id = 7;
            setting.number_of_carriers = 1;
            setting.carrier_sequence = 1;
            setting.number_of_frames = 3;
            setting.frame_position = frame_position;
            let slots = setting.relative_ts_number.iter();
            packets += slots.filter(|&&number| number == 1).count();
            bytes.extend(frame(random, &setting, asked.pid));
        }
        BondedCall {
            bytes,
            asked,
            stream: stream(random, asked.pid, packets),
            out: random.bytes(PACKET_BYTES * packets),
        }
    }

    /// Faults of a frame's header, and of what is lent and asked besides.
    pub fn spoil(&mut self, frame: usize, refusals: &[u8], bit: Bit) {
        let header = header(&mut self.bytes, frame);
        break_rules(header, Kind::Extended, refusals, bit);
        for refusal in refusals {
            match refusal {
                1 => drop(self.bytes.pop()),
                2 => self.asked.pid = 15,
                17 => self.asked.carriers = 9,
                13 => self.asked.ts_id ^= 0x8000,
                15 => {
                    self.stream.extend([0x47; PACKET_BYTES]);
                    self.out.pop();
                }
                12 => self.stream[0] = 0x46,
                _ => (),
            }
        }
    }

    /// Of read_headers, spread and gather.
    pub fn answers(&self, judge: &mut Judge) -> Answers {
        let mut group = Lent::new(&self.bytes);
        let mut stream = Lent::new(&self.stream);
        let mut out = Lent::new(&self.out);
        (
            judge.read_headers(&mut group, &self.asked),
            judge.spread(&mut group, &mut stream, &self.asked),
            judge.gather(&mut group, &mut out, &self.asked),
        )
    }

    /// Their numbers alone.
    pub fn refusals(&self, judge: &mut Judge) -> [u8; 3] {
        let (headers, spread, gather) = self.answers(judge);
        [headers.0, spread.0, gather.0]
    }
}
