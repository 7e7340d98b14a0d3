mod common;

use common::{by_bits, Random};
use reference::crc32;

#[test]
fn all_lengths() {
    let mut bytes = [0; 400];
    Random(5).fill(&mut bytes, 256);
    for length in 0..=bytes.len() {
        assert_eq!(crc32(&bytes[..length]), by_bits(&bytes[..length]));
    }
}

#[test]
fn published_check_value() {
    assert_eq!(crc32(b"123456789"), 0x0376_E6E7);
}

#[test]
fn register_starts_with_all_ones() {
    assert_eq!(crc32(b""), 0xFFFF_FFFF);
}

#[test]
fn text_and_its_crc_leave_zero() {
    let text = b"transport streams multiplexing frame";
    let mut both = text.to_vec();
    both.extend_from_slice(&crc32(text).to_be_bytes());
    assert_eq!(crc32(&both), 0);
}
