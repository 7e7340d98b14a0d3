mod common;

use common::{
    clear_reserved, good, header, least, make_crc_right, number, reserved_bits, reserved_bytes,
    wrong_crc, Random, KINDS, PID,
};
use reference::{crc32, read, write, Kind};
use std::ops::Range;

#[test]
fn settings_are_read_back_equal() {
    let mut random = Random(1);
    for round in 0..4000 {
        let kind = KINDS[round % KINDS.len()];
        let setting = good(&mut random, kind);
        let packet = header(kind, &setting);
        assert_eq!(crc32(&packet[4..]), 0);
        assert_eq!(read(&packet, PID, kind), Ok(setting));
    }
}

#[test]
fn every_pid_is_kept() {
    for kind in KINDS {
        for pid in 0..=u16::MAX {
            let mut packet = [0xA5; 188];
            let expected = if (16..=8190).contains(&pid) { 0 } else { 2 };
            assert_eq!(write(&mut packet, pid, kind, &least(kind)), expected);
            match expected {
                0 => assert_eq!(read(&packet, pid, kind), Ok(least(kind))),
                _ => assert_eq!(packet, [0xA5; 188]),
            }
        }
    }
}

#[test]
fn all_bonding_fields() {
    for number in 0..1 << 16 {
        let [number_of_carriers, carrier_sequence] = [number >> 12 & 15, number >> 8 & 15];
        let [number_of_frames, frame_position] = [number >> 4 & 15, number & 15];
        let allowed = (1..=8).contains(&number_of_carriers)
            && carrier_sequence >= 1
            && carrier_sequence <= number_of_carriers
            && (number_of_frames == 3 || number_of_frames == 4)
            && frame_position >= 1
            && frame_position <= number_of_frames;
        let mut setting = least(Kind::Extended);
        setting.number_of_carriers = number_of_carriers as u8;
        setting.carrier_sequence = carrier_sequence as u8;
        setting.number_of_frames = number_of_frames as u8;
        setting.frame_position = frame_position as u8;
        let expected = if allowed { 0 } else { 11 };
        assert_eq!(
            write(&mut [0; 188], PID, Kind::Extended, &setting),
            expected
        );
    }
}

#[test]
fn every_reserved_bit_at_zero_is_refused() {
    let mut random = Random(2);
    for kind in KINDS {
        let bits = reserved_bits(kind);
        let bytes_of_them = if kind == Kind::Extended { 53 } else { 0 };
        assert_eq!(bits.len(), 3 + 1 + 1 + 8 * bytes_of_them);
        let whole = header(kind, &good(&mut random, kind));
        for (byte, bit) in bits {
            let mut packet = whole;
            assert_eq!(packet[byte] & bit, bit, "written as 1");
            packet[byte] ^= bit;
            assert_eq!(read(&packet, PID, kind), Err(wrong_crc(&packet)));
            make_crc_right(&mut packet);
            assert_eq!(
                read(&packet, PID, kind),
                Err(20.into()),
                "byte {byte}, bit {bit}"
            );
        }
    }
}

#[test]
fn all_reserved_bits_at_zero_are_refused() {
    for kind in KINDS {
        let mut packet = header(kind, &good(&mut Random(5), kind));
        for bit in reserved_bits(kind) {
            clear_reserved(&mut packet, bit);
        }
        assert_eq!(packet[4], 0x1A);
        assert_eq!(read(&packet, PID, kind), Err(20.into()));
    }
}

/// Where plain and short headers have private data.
fn private_data(kind: Kind) -> Range<usize> {
    match kind {
        Kind::Plain => 99..184,
        Kind::Extended => panic!("an extended header has none"),
        Kind::Short => 53..184,
    }
}

#[test]
fn private_data_is_not_reserved() {
    for kind in [Kind::Plain, Kind::Short] {
        let mut setting = good(&mut Random(6), kind);
        let mut packet = header(kind, &setting);
        packet[private_data(kind)].fill(0);
        make_crc_right(&mut packet);
        setting.private_data = [0; 131];
        assert_eq!(read(&packet, PID, kind), Ok(setting));
    }
}

/// A header in which up to four bits are other ones than the writer's, and the
/// CRC is right.
fn changed(random: &mut Random, kind: Kind) -> [u8; 188] {
    let mut packet = header(kind, &good(random, kind));
    for _ in 0..=random.below(4) {
        let byte = 3 + random.below(181) as usize;
        packet[byte] ^= 1 << random.below(8);
    }
    make_crc_right(&mut packet);
    packet
}

/// The bytes of an accepted header are those that its setting is written as.
#[test]
fn accepted_headers_are_written_again_equal() {
    let mut random = Random(7);
    for kind in KINDS {
        let mut answers = [0; 21];
        for _ in 0..4000 {
            let packet = changed(&mut random, kind);
            let answer = read(&packet, PID, kind);
            answers[usize::from(number(answer.clone()))] += 1;
            if let Ok(setting) = answer {
                assert_eq!(header(kind, &setting), packet);
            }
        }
        assert!(answers[0] > 1000 && answers[20] > 10, "{answers:?}");
    }
}

/// The bit before it is reserved: written as 1, and refused as 0.
#[test]
fn emergency_is_the_last_bit_of_its_byte() {
    let mut random = Random(4);
    for kind in KINDS {
        let mut setting = good(&mut random, kind);
        let mut packet = header(kind, &setting);
        let [_, byte] = reserved_bytes(kind);
        for last in 0..4 {
            packet[byte] = packet[byte] & 0xFC | last;
            make_crc_right(&mut packet);
            setting.emergency_indicator = last & 1;
            let expected = if last < 2 {
                Err(20.into())
            } else {
                Ok(setting.clone())
            };
            assert_eq!(read(&packet, PID, kind), expected);
            assert_eq!(header(kind, &setting)[byte], packet[byte] | 2);
        }
    }
}

/// Every bit outside the packet_header is under the CRC.
#[test]
fn one_flipped_bit_is_refused() {
    for kind in KINDS {
        let packet = header(kind, &good(&mut Random(3), kind));
        for bit in 0..188 * 8 {
            let mut spoilt = packet;
            spoilt[bit / 8] ^= 0x80 >> (bit % 8);
            let expected = match bit {
                0..8 => Some(3.into()),
                11..24 => Some(4.into()),
                8..11 | 24..28 => Some(5.into()),
                28..32 => None,
                35..48 => Some(6.into()),
                _ => Some(wrong_crc(&spoilt)),
            };
            assert_eq!(read(&spoilt, PID, kind).err(), expected, "bit {bit}");
        }
    }
}
