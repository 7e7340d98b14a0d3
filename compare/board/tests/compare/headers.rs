//! Headers: settings written and read, settings with faults, damaged packets,
//! and headers of any bytes. What is accepted is written again.

use crate::draw::faults::{damage, spoil};
use crate::draw::packets::{any_header, ordinary};
use crate::draw::{good, kind, lent_setting, near_pid, number, pid};
use board::coding::{kind_byte, SETTING_BYTES};
use board::judge::Judge;
use board::lent::Lent;
use board::random::Random;
use reference::{Kind, Setting, PACKET_BYTES};

pub fn round(judge: &mut Judge, random: &mut Random) {
    let kind = kind(random);
    let pid = pid(random);
    let mut setting = good(random, kind);
    let mut packet = Lent::new(&random.bytes(PACKET_BYTES));
    let refusal = check(judge, &mut packet, pid, kind_byte(kind), &setting);
    assert_eq!(refusal, 0, "a good setting is written");
    read_back(judge, &mut packet, pid, kind, &setting);
    for _ in 0..8 {
        damaged(judge, random, packet.bytes(), pid, kind);
    }
    for _ in 0..2 {
        let mut packet = Lent::new(&any_header(random, pid, kind));
        read(judge, random, &mut packet, pid, kind_byte(kind));
    }
    // One fault, and then two and three at once.
    for _ in 0..3 {
        spoil(random, kind, &mut setting);
        let (pid, kind) = (near_pid(random, pid), number(random, kind_byte(kind)));
        let mut packet = Lent::new(&random.bytes(PACKET_BYTES));
        check(judge, &mut packet, pid, kind, &setting);
    }
}

/// The answer of the writer; the two looks at a setting go with it.
fn check(judge: &mut Judge, packet: &mut Lent, pid: u16, kind: u8, setting: &Setting) -> u8 {
    let mut setting = lent_setting(setting);
    judge.setting_widths(&mut setting, kind);
    judge.setting_rules(&mut setting, kind);
    judge.header_write(packet, pid, kind, &mut setting)
}

fn read_back(judge: &mut Judge, packet: &mut Lent, pid: u16, kind: Kind, setting: &Setting) {
    let mut read = Lent::new(&[0xA5; SETTING_BYTES]);
    let answer = judge.header_read(packet, pid, kind_byte(kind), &mut read);
    assert_eq!(answer, (0, 0), "a written header is read");
    assert_eq!(read.bytes(), lent_setting(setting).bytes());
}

/// Now and then the packet is no header at all.
fn damaged(judge: &mut Judge, random: &mut Random, packet: &[u8], pid: u16, kind: Kind) {
    let mut packet = match random.below(12) {
        0 => ordinary(random, pid),
        1 => random.bytes(PACKET_BYTES),
        _ => packet.to_vec(),
    };
    if !random.one_in(12) {
        damage(random, kind, &mut packet);
    }
    let (pid, kind) = (near_pid(random, pid), number(random, kind_byte(kind)));
    let mut packet = Lent::new(&packet);
    read(judge, random, &mut packet, pid, kind);
    judge.place_refusal(&mut packet, pid);
}

/// The answer of the reader. Written again, an accepted header has the bytes
/// that it had.
pub fn read(
    judge: &mut Judge,
    random: &mut Random,
    packet: &mut Lent,
    pid: u16,
    kind: u8,
) -> (u8, u32) {
    let mut setting = Lent::new(&random.bytes(SETTING_BYTES));
    let answer = judge.header_read(packet, pid, kind, &mut setting);
    if answer.0 == 0 {
        let mut again = Lent::new(&random.bytes(PACKET_BYTES));
        let refusal = judge.header_write(&mut again, pid, kind, &mut setting);
        assert_eq!(refusal, 0, "what was read is written");
        assert_eq!(again.bytes(), packet.bytes(), "written again, it differs");
    }
    answer
}
