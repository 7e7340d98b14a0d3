//! The bytes of a short header, worked out by hand from its table.

mod common;

use common::{clear_reserved, header, least, reserved_bits, PID};
use reference::{crc32, read, Kind, Setting};

fn short(change: impl Fn(&mut Setting)) -> [u8; 188] {
    let mut setting = least(Kind::Short);
    change(&mut setting);
    let packet = header(Kind::Short, &setting);
    assert_eq!(read(&packet, PID, Kind::Short), Ok(setting));
    packet
}

/// All streams available, with pairs that differ.
fn all_available(setting: &mut Setting) {
    setting.availability = 0x7F00;
    for stream in 0..7 {
        setting.ts_id[stream] = stream as u16;
    }
}

/// Nothing but what is always there.
#[test]
fn the_least_header() {
    let packet = short(|_| ());
    let mut expected = vec![0x47, 0x1F, 0xF0, 0x10, 0xFA, 0x86, 0x03, 0x01];
    expected.extend([0; 28]);
    expected.extend([0x00, 0x02]);
    expected.extend([0; 15]);
    expected.extend([0; 131]);
    assert_eq!(packet[..184], expected);
    assert_eq!(crc32(&packet[4..]), 0);
}

#[test]
fn counter_version_and_types() {
    assert_eq!(short(|s| s.continuity_counter = 9)[3], 0x19);
    assert_eq!(short(|s| s.version_number = 5)[6], 0xA3);
    assert_eq!(short(|s| s.slot_allocation_type = 1)[6], 0x13);
}

#[test]
fn availability() {
    let packet = short(|s| {
        s.availability = 0x4000 | 0x0100;
        s.ts_id[6] = 1;
    });
    assert_eq!(packet[7], 0x83);
    assert_eq!(short(all_available)[7], 0xFF);
}

#[test]
fn identifiers() {
    let packet = short(|s| {
        s.ts_id[0] = 0x1234;
        s.original_network_id[0] = 0x5678;
        s.ts_id[6] = 0x9ABC;
        s.original_network_id[6] = 0xDEF0;
    });
    assert_eq!(packet[8..12], [0x12, 0x34, 0x56, 0x78]);
    assert_eq!(packet[12..32], [0; 20]);
    assert_eq!(packet[32..36], [0x9A, 0xBC, 0xDE, 0xF0]);
}

#[test]
fn statuses_and_emergency() {
    let of = |emergency| {
        let packet = short(|s| {
            s.receive_status[..7].copy_from_slice(&[2, 1, 0, 0, 0, 0, 3]);
            s.emergency_indicator = emergency;
        });
        [packet[36], packet[37]]
    };
    assert_eq!((of(0), of(1)), ([0x90, 0x0E], [0x90, 0x0F]));
}

/// Slots 1 to 3 are 011 101 111, slot 40 the last three bits.
#[test]
fn slot_numbers() {
    let packet = short(|s| {
        all_available(s);
        s.relative_ts_number[..3].copy_from_slice(&[3, 5, 7]);
        s.relative_ts_number[39] = 6;
    });
    assert_eq!(packet[38..40], [0x77, 0x80]);
    assert_eq!(packet[40..52], [0; 12]);
    assert_eq!((packet[52], packet[53]), (0x06, 0x00));
}

/// Eight slots are three bytes: 001 010 011 100 101 110 111 001.
#[test]
fn eight_slots() {
    let packet = short(|s| {
        all_available(s);
        for slot in 0..40 {
            s.relative_ts_number[slot] = [1, 2, 3, 4, 5, 6, 7, 1][slot % 8];
        }
    });
    assert_eq!(packet[38..53], [0x29, 0xCB, 0xB9].repeat(5));
}

#[test]
fn private_data() {
    let packet = short(|s| s.private_data = std::array::from_fn(|byte| byte as u8 + 1));
    assert_eq!((packet[52], packet[53], packet[183]), (0, 1, 131));
}

/// Read as a plain one, a short header is a 20, or, where ones stand by chance
/// in the other kind's reserved bits, an 8.
#[test]
fn a_short_header_of_another_kind() {
    let packet = short(|_| ());
    assert_eq!(read(&packet, PID, Kind::Plain), Err(20.into()));
    assert_eq!(read(&packet, PID, Kind::Extended), Err(20.into()));
    let packet = short(|s| {
        s.ts_id[0] = 0x0100;
        s.private_data = [0xFF; 131];
    });
    assert_eq!((packet[8], packet[72]), (0x01, 0xFF));
    assert_eq!(read(&packet, PID, Kind::Plain), Err(8.into()));
    assert_eq!(read(&packet, PID, Kind::Extended), Err(8.into()));
}

/// And the other way round.
#[test]
fn a_plain_header_read_as_a_short_one() {
    let mut setting = least(Kind::Plain);
    let packet = header(Kind::Plain, &setting);
    assert_eq!(read(&packet, PID, Kind::Short), Err(20.into()));
    setting.availability = 0x0080;
    setting.ts_id[7] = 0x0200;
    let packet = header(Kind::Plain, &setting);
    assert_eq!((packet[7], packet[37]), (0x01, 0x02));
    assert_eq!(read(&packet, PID, Kind::Short), Err(8.into()));
}

#[test]
fn reserved_bits_at_zero() {
    let bits = [(4, 0x80), (4, 0x40), (4, 0x20), (7, 0x01), (37, 0x02)];
    assert_eq!(reserved_bits(Kind::Short), bits);
    for (byte, bit) in bits {
        let mut packet = short(all_available);
        assert_eq!(packet[byte] & bit, bit);
        clear_reserved(&mut packet, (byte, bit));
        assert_eq!(read(&packet, PID, Kind::Short), Err(20.into()));
    }
}
