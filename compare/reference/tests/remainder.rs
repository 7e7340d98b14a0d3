//! What a refusal by 7 shows: the register that bytes 4 to 187 leave.

mod common;

use common::{
    by_bits, good, header, least, make_crc_right, reserved_bits, wrong_crc, Random, KINDS, PID,
};
use reference::{crc32, list, read, Kind, Refusal};

/// The remainder of a header that is refused by 7.
fn remainder(kind: Kind, packet: &[u8; 188]) -> u32 {
    match read(packet, PID, kind) {
        Err(Refusal {
            number: 7,
            remainder,
        }) => remainder,
        other => panic!("not a 7: {other:?}"),
    }
}

/// The least header of the kind with this CRC in place of its own.
fn with_crc(kind: Kind, crc: u32) -> [u8; 188] {
    let mut packet = header(kind, &least(kind));
    packet[184..].copy_from_slice(&crc.to_be_bytes());
    packet
}

/// A header's own CRC and the remainder with zeros and with ones in its place,
/// from other programs: Python's zlib, bytes and register turned round for its
/// reflected CRC, and long division of polynomials; both gave the same.
#[test]
fn known_answers() {
    let known = [
        (Kind::Plain, 0x2BCC_B35E, 0x6422_F982, 0xA326_24F9),
        (Kind::Extended, 0xF486_9C19, 0xCD11_2882, 0x0A15_F5F9),
        (Kind::Short, 0x14DD_D1DF, 0x2C3F_A97A, 0xEB3B_7401),
    ];
    for (kind, own, of_zeros, of_ones) in known {
        assert_eq!(with_crc(kind, own), header(kind, &least(kind)));
        assert_eq!(remainder(kind, &with_crc(kind, 0)), of_zeros);
        assert_eq!(remainder(kind, &with_crc(kind, u32::MAX)), of_ones);
        // An inverted CRC leaves what is published as the CRC's residue.
        assert_eq!(remainder(kind, &with_crc(kind, !own)), 0xC704_DD7B);
    }
}

/// Of a header with one turned bit the remainder is that bit's alone, whatever
/// the header says. The last bit goes out of a register at zero and leaves the
/// polynomial without its x^32; the bit before it is shifted once more, and so
/// each: bit k from the end leaves x^(32 + k).
#[test]
fn every_single_bit() {
    for kind in KINDS {
        let packet = header(kind, &good(&mut Random(71), kind));
        let mut expected = 0x04C1_1DB7_u32;
        for from_the_end in 0..184 * 8 {
            let mut turned = packet;
            turned[187 - from_the_end / 8] ^= 1 << (from_the_end % 8);
            match [turned[4] & 0x1F, turned[5]] {
                [0x1A, 0x86] => assert_eq!(remainder(kind, &turned), expected),
                _ => assert_eq!(read(&turned, PID, kind), Err(6.into())),
            }
            let outgoing = expected >> 31;
            expected = (expected << 1) ^ (outgoing * 0x04C1_1DB7);
        }
    }
}

/// It is not what all 188 bytes leave, nor what the register held before the CRC,
/// nor the stored CRC.
#[test]
fn of_bytes_4_to_187() {
    let mut random = Random(72);
    for kind in KINDS {
        for _ in 0..500 {
            let mut packet = header(kind, &good(&mut random, kind));
            let [own, stored] = [crc32(&packet[4..184]), random.below(1 << 32) as u32];
            packet[184..].copy_from_slice(&stored.to_be_bytes());
            let found = remainder(kind, &packet);
            assert_eq!(found, by_bits(&packet[4..]));
            let others = [by_bits(&packet), own, stored, own ^ stored];
            assert!(found != 0 && !others.contains(&found));
        }
    }
}

/// The packet_header is not under the CRC: its counter changes nothing.
#[test]
fn the_counter_is_no_part_of_it() {
    for kind in KINDS {
        let mut packet = with_crc(kind, 0);
        let expected = remainder(kind, &packet);
        for counter in 0..16 {
            packet[3] = 0x10 | counter;
            assert_eq!(remainder(kind, &packet), expected);
        }
    }
}

/// With a fault that is looked for first nothing is shown, though the CRC is
/// wrong; one that is looked for later hides nothing.
#[test]
fn two_faults() {
    for kind in KINDS {
        let mut packet = with_crc(kind, 1);
        packet[5] ^= 1;
        assert_eq!(read(&packet, PID, kind), Err(6.into()));
        for (byte, bit) in reserved_bits(kind) {
            let mut packet = header(kind, &good(&mut Random(73), kind));
            packet[byte] ^= bit;
            assert_eq!(read(&packet, PID, kind), Err(wrong_crc(&packet)));
            make_crc_right(&mut packet);
            assert_eq!(read(&packet, PID, kind), Err(20.into()));
            packet[187] ^= 1;
            assert_eq!(remainder(kind, &packet), 0x04C1_1DB7);
        }
    }
}

/// Eight digits, in lower case, with the zeros in front. Shifted three times and
/// five, the polynomial has its letters at other places, and no zero in front.
#[test]
fn as_the_lister_prints_it() {
    let good = header(Kind::Plain, &least(Kind::Plain));
    let lines = [
        (0x01, "04c11db7"),
        (0x02, "09823b6e"),
        (0x08, "2608edb8"),
        (0x20, "9823b6e0"),
    ];
    let mut input = Vec::new();
    let mut expected = String::new();
    for (number, (bit, digits)) in lines.into_iter().enumerate() {
        let mut packet = good;
        packet[187] ^= bit;
        input.extend(packet);
        expected += &format!("{number} refused 7 {digits}\n");
    }
    assert_eq!(list(&input), expected);
}

/// More zeros in front: a drawn CRC comes to them once in a few thousand times.
#[test]
fn zeros_in_front() {
    let mut random = Random(74);
    let packet = loop {
        let packet = with_crc(Kind::Plain, random.below(1 << 32) as u32);
        if remainder(Kind::Plain, &packet) < 1 << 20 {
            break packet;
        }
    };
    let line = list(&packet);
    let digits = line.strip_prefix("0 refused 7 000").unwrap();
    let value = u32::from_str_radix(digits.trim_end(), 16).unwrap();
    assert_eq!((digits.len(), value), (6, by_bits(&packet[4..])));
}
