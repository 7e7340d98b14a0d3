//! The long input: good headers of all sorts among ordinary packets, each
//! damage alone, each two together, and what looks like damage but is none.

use super::damage::{base, damaged, leaving, POLYNOMIAL, RESERVED_BITS, VARIETIES};
use super::packets::{good, header, null, ordinary, Packet};
use crate::generator::Generator;
use crate::make_crc_right;
use reference::{crc32, read, Kind, Refusal, Setting, LISTER_PID};

const GOOD_HEADERS: usize = 96;
/// What the lister can refuse a packet for, in the reader's order.
const REFUSALS: [u8; 9] = [3, 4, 5, 6, 7, 20, 8, 9, 10];

struct Input {
    generator: Generator,
    bytes: Vec<u8>,
}

impl Input {
    /// The packet is there for one answer, which the reader must give.
    fn push(&mut self, packet: Packet, answer: u8) {
        let found = read(&packet, LISTER_PID, Kind::Plain).err();
        let number = found.map_or(0, |refusal| refusal.number);
        assert_eq!(number, answer, "packet {}", self.bytes.len() / 188);
        self.bytes.extend(packet);
    }

    /// The same for a 7 with this remainder.
    fn push_leaving(&mut self, packet: Packet, remainder: u32) {
        let found = read(&packet, LISTER_PID, Kind::Plain);
        let number = 7;
        assert_eq!(found, Err(Refusal { number, remainder }));
        self.push(packet, number);
    }

    fn push_ordinary(&mut self) {
        let packet = ordinary(&mut self.generator);
        self.push(packet, 4);
    }

    fn push_damaged(&mut self, refusals: &[u8], variety: usize) {
        let packet = damaged(base(&mut self.generator), refusals, variety);
        self.push(packet, refusals[0]);
    }
}

pub fn input() -> Vec<u8> {
    let mut input = Input {
        generator: Generator::new(2),
        bytes: Vec::new(),
    };
    good_headers(&mut input);
    single_damage(&mut input);
    double_damage(&mut input);
    all_damage(&mut input);
    wrong_crcs(&mut input);
    other_counters(&mut input);
    extended_headers(&mut input);
    dialects(&mut input);
    zeros_in_private_data(&mut input);
    single_crc_bits(&mut input);
    remainders(&mut input);
    // A good header but for its last byte.
    let cut = good(&mut input.generator, 15);
    input.bytes.extend(&cut[..187]);
    input.bytes
}

fn good_headers(input: &mut Input) {
    for variety in 0..GOOD_HEADERS {
        let packet = good(&mut input.generator, variety);
        input.push(packet, 0);
        if variety % 3 == 1 {
            input.push_ordinary();
        }
        if variety % 7 == 2 {
            input.push(null(), 4);
        }
    }
}

/// By the refusals' numbers: the sample takes packets of this part by their
/// places, so that 20, which came later, stands last.
fn single_damage(input: &mut Input) {
    let mut refusals = REFUSALS;
    refusals.sort_unstable();
    for refusal in refusals {
        for variety in 0..VARIETIES {
            input.push_damaged(&[refusal], variety);
        }
        input.push_ordinary();
    }
}

fn double_damage(input: &mut Input) {
    let mut variety = 0;
    for (place, first) in REFUSALS.into_iter().enumerate() {
        for &second in &REFUSALS[place + 1..] {
            input.push_damaged(&[first, second], variety);
            input.push_damaged(&[first, second], variety + 1);
            variety += 2;
        }
    }
}

fn all_damage(input: &mut Input) {
    for first in 0..REFUSALS.len() {
        input.push_damaged(&REFUSALS[first..], first);
    }
}

/// A CRC run from byte 0, one inverted at the end, one with its bytes turned.
fn wrong_crcs(input: &mut Input) {
    let packet = base(&mut input.generator);
    let right = crc32(&packet[4..184]);
    for wrong in [
        crc32(&packet[..184]),
        !right,
        right.swap_bytes(),
        0,
        u32::MAX,
    ] {
        let mut spoilt = packet;
        spoilt[184..].copy_from_slice(&wrong.to_be_bytes());
        input.push(spoilt, 7);
    }
}

/// The counter is not under the CRC: a changed one is simply another.
fn other_counters(input: &mut Input) {
    let packet = base(&mut input.generator);
    for counter in 0..16 {
        let mut other = packet;
        other[3] = other[3] & 0xF0 | counter;
        input.push(other, 0);
    }
}

/// The lister takes these for plain ones, whose private data may be anything,
/// bonding fields out of range included.
fn extended_headers(input: &mut Input) {
    let mut setting = Setting {
        frame_type: 1,
        ..Setting::ZEROS
    };
    setting.number_of_carriers = 2;
    setting.carrier_sequence = 1;
    setting.number_of_frames = 4;
    setting.frame_position = 2;
    let mut packet = header(Kind::Extended, &setting);
    input.push(packet, 0);
    packet[128..131].fill(0xFF);
    make_crc_right(&mut packet);
    input.push(packet, 0);
    setting.frame_type = 2;
    input.push(header(Kind::Extended, &setting), 8);
}

/// All reserved bits but one at zero, and all of them, as a maker has them who
/// keeps flags there.
fn dialects(input: &mut Input) {
    let packet = base(&mut input.generator);
    for flag in 0..=RESERVED_BITS {
        let mut dialect = packet;
        for refused in (0..RESERVED_BITS).filter(|&bit| bit != flag) {
            dialect = damaged(dialect, &[20], refused);
        }
        input.push(dialect, 20);
    }
}

/// Private data is not reserved, and what is reserved in an extended header
/// alone is private data here.
fn zeros_in_private_data(input: &mut Input) {
    let mut packet = base(&mut input.generator);
    packet[131..184].fill(0);
    make_crc_right(&mut packet);
    input.push(packet, 0);
    packet[99..184].fill(0);
    make_crc_right(&mut packet);
    input.push(packet, 0);
}

/// One bit of the CRC, from the last to the first: the last one leaves the
/// polynomial, and each other what the one behind it does, shifted once.
fn single_crc_bits(input: &mut Input) {
    let packet = base(&mut input.generator);
    let mut remainder = POLYNOMIAL;
    for bit in 0..32 {
        let mut turned = packet;
        turned[187 - bit / 8] ^= 1 << (bit % 8);
        input.push_leaving(turned, remainder);
        let outgoing = remainder >> 31;
        remainder = (remainder << 1) ^ (outgoing * POLYNOMIAL);
    }
}

/// Every digit at each of its eight places, and one zero to seven in front.
fn remainders(input: &mut Input) {
    let rising =
        |first: u32| (first..first + 8).fold(0, |digits, digit| (digits << 4) | (digit % 16));
    let zeros = |count: u32| 0xFEDC_BA98 >> (4 * count);
    for remainder in (0..16).map(rising).chain((1..8).map(zeros)) {
        let packet = leaving(base(&mut input.generator), remainder);
        input.push_leaving(packet, remainder);
    }
}
