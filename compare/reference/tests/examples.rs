//! The first eight of the small examples, the others being about frames.

mod common;

use common::{header, least};
use reference::{crc32, Kind, Setting};

fn plain(change: impl Fn(&mut Setting)) -> [u8; 188] {
    let mut setting = least(Kind::Plain);
    change(&mut setting);
    header(Kind::Plain, &setting)
}

#[test]
fn one_version_and_types() {
    assert_eq!(plain(|s| s.version_number = 5)[6], 0xA1);
}

#[test]
fn two_availability() {
    let packet = plain(|s| {
        s.availability = 0x4000 | 0x2000 | 0x0001;
        s.ts_id[1] = 1;
        s.ts_id[14] = 2;
    });
    assert_eq!(packet[7..9], [0xC0, 0x03]);
}

#[test]
fn three_sync() {
    assert_eq!(plain(|_| ())[4..6], [0xFA, 0x86]);
}

#[test]
fn four_pid_and_counter() {
    assert_eq!(
        plain(|s| s.continuity_counter = 9)[..4],
        [0x47, 0x1F, 0xF0, 0x19]
    );
}

#[test]
fn five_last_ts_id() {
    let packet = plain(|s| {
        s.ts_id[14] = 0x1234;
        s.original_network_id[14] = 0x5678;
    });
    assert_eq!(packet[65..69], [0x12, 0x34, 0x56, 0x78]);
}

#[test]
fn six_first_statuses() {
    let packet = plain(|s| {
        s.receive_status[0] = 2;
        s.receive_status[1] = 1;
    });
    assert_eq!(packet[69], 0x90);
}

#[test]
fn seven_last_status_and_emergency() {
    let of = |emergency| {
        plain(|s| {
            s.receive_status[14] = 3;
            s.emergency_indicator = emergency;
        })[72]
    };
    assert_eq!((of(0), of(1)), (0x0E, 0x0F));
}

#[test]
fn eight_slot_numbers() {
    let packet = plain(|s| {
        s.availability = 0x7FFF;
        s.ts_id = std::array::from_fn(|stream| stream as u16);
        s.relative_ts_number[0] = 3;
        s.relative_ts_number[1] = 12;
        s.relative_ts_number[51] = 7;
    });
    assert_eq!((packet[73], packet[98]), (0x3C, 0x07));
}

#[test]
fn extended_header_by_bytes() {
    let mut setting = least(Kind::Extended);
    setting.frame_type = 2;
    setting.auxiliary[0] = 0x11;
    setting.auxiliary[27] = 0x22;
    setting.group_id = 0x33;
    setting.number_of_carriers = 8;
    setting.carrier_sequence = 7;
    setting.number_of_frames = 4;
    setting.frame_position = 3;
    let packet = header(Kind::Extended, &setting);
    assert_eq!((packet[99], packet[126]), (0x11, 0x22));
    assert_eq!(packet[127..131], [0x33, 8, 7, 0x43]);
    assert_eq!(packet[131..184], [0xFF; 53]);
    assert_eq!(crc32(&packet[4..]), 0);
}
