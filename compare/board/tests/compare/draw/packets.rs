//! Packets, streams of them, headers, and frames.

use super::faults::{make_crc_right, pairs};
use super::reserved::set_mostly;
use super::{good, plan};
use board::random::Random;
use reference::{Composer, Kind, Setting, PACKET_BYTES};

/// A packet that may stand in a slot, at times a null packet.
pub fn ordinary(random: &mut Random, header_pid: u16) -> Vec<u8> {
    let mut packet = random.bytes(PACKET_BYTES);
    packet[0] = 0x47;
    if random.one_in(4) {
        packet[1..4].copy_from_slice(&[0x1F, 0xFF, 0x10]);
    }
    let found = u16::from_be_bytes([packet[1], packet[2]]) & 0x1FFF;
    if found == header_pid {
        packet[2] ^= 1;
    }
    packet
}

/// Makes a packet one that may not stand in a slot.
pub fn make_unfit(random: &mut Random, packet: &mut [u8], header_pid: u16) {
    if random.one_in(2) {
        packet[0] ^= 1 << random.below(8);
    } else {
        let [high, low] = header_pid.to_be_bytes();
        let bits = random.byte() & 0xE0;
        packet[1..3].copy_from_slice(&[bits | high, low]);
    }
}

/// So many packets that may stand in slots.
pub fn stream(random: &mut Random, header_pid: u16, packets: usize) -> Vec<u8> {
    let each = (0..packets).map(|_| ordinary(random, header_pid));
    each.collect::<Vec<_>>().concat()
}

/// A stream as a put gets it: now and then with a packet that is unfit, and
/// now and then with a cut one at its end.
pub fn lent_stream(random: &mut Random, header_pid: u16) -> Vec<u8> {
    let packets = random.of(&[0, 1, 2, 3, 4, 5, 8, 41, 53]);
    let mut stream = stream(random, header_pid, packets);
    if packets > 0 && random.one_in(6) {
        let unfit = random.below(packets);
        make_unfit(random, &mut stream[PACKET_BYTES * unfit..], header_pid);
    }
    if random.one_in(20) {
        let length = stream.len() + random.between(1, 187);
        stream.resize(length, 0x47);
    }
    stream
}

/// The header of a setting that meets every rule.
pub fn header(pid: u16, kind: Kind, setting: &Setting) -> Vec<u8> {
    let mut packet = vec![0; PACKET_BYTES];
    let refusal = reference::write(&mut packet, pid, kind, setting);
    assert_eq!(refusal, 0, "a drawn setting is good");
    packet
}

/// A header of any bytes but for what is fixed, and a right CRC. Its reserved
/// bits are mostly ones. Half of the time all streams are available, so that
/// slots may have any number.
pub fn any_header(random: &mut Random, pid: u16, kind: Kind) -> Vec<u8> {
    let mut packet = random.bytes(PACKET_BYTES);
    let [high, low] = pid.to_be_bytes();
    packet[..3].copy_from_slice(&[0x47, high, low]);
    packet[3] = 0x10 | packet[3] & 0x0F;
    packet[4] = 0x1A | packet[4] & 0xE0;
    packet[5] = 0x86;
    let right = if kind == Kind::Short { 3 } else { 1 };
    let frame_type = random.of(&[right, right, right, right, right, 0, 1, 2, 3]);
    packet[6] = packet[6] & 0xF0 | frame_type;
    let pairs = pairs(kind);
    if random.one_in(2) {
        packet[7..pairs.start].fill(0xFF);
    }
    if random.one_in(8) {
        packet.copy_within(pairs.start..pairs.start + 4, pairs.end - 4);
    }
    if kind == Kind::Extended && !random.one_in(4) {
        bonding_fields(random, &mut packet);
    }
    set_mostly(random, kind, &mut packet);
    make_crc_right(&mut packet);
    packet
}

/// Those of a place in a group.
fn bonding_fields(random: &mut Random, packet: &mut [u8]) {
    packet[128] = random.between(1, 8) as u8;
    packet[129] = random.between(1, packet[128].into()) as u8;
    packet[130] = random.of(&[0x31, 0x32, 0x33, 0x41, 0x42, 0x43, 0x44]);
}

/// Frames of one run, as the reference composes them.
pub fn frames(random: &mut Random, pid: u16, kind: Kind, count: usize) -> Vec<Vec<u8>> {
    let (_, mut composer) = Composer::start(pid, kind);
    let mut setting = good(random, kind);
    let mut frames = Vec::new();
    for _ in 0..count {
        if random.one_in(3) {
            setting = good(random, kind);
        }
        plan(random, kind, &mut setting);
        let mut frame = vec![0; kind.size().frame_bytes()];
        composer.begin(&mut frame, &setting).expect("it is good");
        for r in (1..=15).filter(|&r| setting.is_available(r)) {
            let packets = random.below(8);
            let lent = stream(random, pid, packets);
            composer.put(&mut frame, r as u8, &lent);
        }
        composer.close(&mut frame).expect("a frame is open");
        frames.push(frame);
    }
    frames
}
