mod common;

use common::{clear_reserved, good, header, least, make_crc_right, reserved_bits, Random};
use reference::{list, Kind};

#[test]
fn example() {
    let mut input = vec![0; 188];
    input.extend_from_slice(&[0x47, 0x1F, 0xFF, 0x10]);
    input.extend_from_slice(&[0xFF; 184]);
    input.push(0);
    assert_eq!(list(&input), "0 refused 3\n1 refused 4\ntail 1\n");
}

#[test]
fn nothing_for_no_bytes() {
    assert_eq!(list(&[]), "");
}

#[test]
fn headers_and_no_tail() {
    let mut setting = good(&mut Random(4), Kind::Plain);
    setting.continuity_counter = 15;
    setting.version_number = 7;
    setting.availability = 0x7FFF;
    let mut input = header(Kind::Plain, &setting).to_vec();
    input.extend_from_slice(&header(Kind::Plain, &least(Kind::Plain)));
    assert_eq!(list(&input), "0 header 15 7 15\n1 header 0 0 0\n");
}

/// The lister takes every header as plain: what an extended one carries is
/// private data to it, and frame_type 2 is not allowed.
#[test]
fn extended_headers() {
    let mut setting = least(Kind::Extended);
    let mut input = header(Kind::Extended, &setting).to_vec();
    setting.frame_type = 2;
    input.extend_from_slice(&header(Kind::Extended, &setting));
    assert_eq!(list(&input), "0 header 0 0 0\n1 refused 8\n");
}

/// Each reserved bit of a plain header by itself.
#[test]
fn reserved_bits_at_zero() {
    let mut input = Vec::new();
    let mut expected = String::new();
    for (number, bit) in reserved_bits(Kind::Plain).into_iter().enumerate() {
        let mut packet = header(Kind::Plain, &good(&mut Random(8), Kind::Plain));
        clear_reserved(&mut packet, bit);
        input.extend(packet);
        expected += &format!("{number} refused 20\n");
    }
    assert_eq!(expected.lines().count(), 5);
    assert_eq!(list(&input), expected);
}

/// With a wrong CRC it is a 7, here for its last bit, and with another frame_type
/// still a 20.
#[test]
fn reserved_bits_and_another_fault() {
    let mut packet = header(Kind::Plain, &least(Kind::Plain));
    clear_reserved(&mut packet, (72, 0x02));
    let mut input = packet.to_vec();
    packet[187] ^= 1;
    input.extend(packet);
    packet[6] = 2;
    make_crc_right(&mut packet);
    input.extend(packet);
    let lines = "0 refused 20\n1 refused 7 04c11db7\n2 refused 20\n";
    assert_eq!(list(&input), lines);
}

/// What is reserved in an extended header alone is private data to the lister.
#[test]
fn bytes_behind_the_bonding_fields() {
    let mut packet = header(Kind::Extended, &least(Kind::Extended));
    packet[131..184].fill(0);
    make_crc_right(&mut packet);
    assert_eq!(list(&packet), "0 header 0 0 0\n");
}
