//! The rows of headers, which are plain.

use super::inputs::{header, setting, PID};
use super::measure::{copy, measure, Row};
use crate::archive;
use crate::coding::{kind_byte, setting_bytes, SETTING_BYTES};
use reference::{crc32, Kind, PACKET_BYTES};
use std::hint::black_box;

pub fn crc() -> Row {
    let packet = header(Kind::Plain, &setting(Kind::Plain));
    let bytes = &packet[4..];
    let mut target = [0; PACKET_BYTES - 4];
    measure(
        "CRC of 184 bytes",
        || assert_eq!(archive::crc(black_box(bytes)), 0),
        || assert_eq!(crc32(black_box(bytes)), 0),
        || copy(bytes, &mut target),
    )
}

pub fn write() -> Row {
    let plain = kind_byte(Kind::Plain);
    let setting = setting(Kind::Plain);
    let bytes = setting_bytes(&setting);
    let source = header(Kind::Plain, &setting);
    let [mut archives, mut ours, mut target] = [[0; PACKET_BYTES]; 3];
    let row = measure(
        "header write",
        || {
            let packet = black_box(&mut archives[..]);
            let refusal = archive::header_write(packet, PID, plain, black_box(&bytes));
            assert_eq!(refusal, 0);
        },
        || {
            let packet = black_box(&mut ours[..]);
            let refusal = reference::write(packet, PID, Kind::Plain, black_box(&setting));
            assert_eq!(refusal, 0);
        },
        || copy(&source, &mut target),
    );
    assert_eq!([archives, ours], [source; 2]);
    row
}

pub fn read() -> Row {
    let plain = kind_byte(Kind::Plain);
    let packet = header(Kind::Plain, &setting(Kind::Plain));
    let mut setting = [0; SETTING_BYTES];
    let mut target = [0; PACKET_BYTES];
    measure(
        "header read",
        || {
            let setting = black_box(&mut setting);
            let answer = archive::header_read(black_box(&packet), PID, plain, setting);
            assert_eq!(answer, (0, 0));
        },
        || {
            let setting = reference::read(black_box(&packet), PID, Kind::Plain);
            assert!(black_box(setting).is_ok());
        },
        || copy(&packet, &mut target),
    )
}
