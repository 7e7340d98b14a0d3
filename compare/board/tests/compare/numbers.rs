//! The calls on numbers, with all of them, and the CRC with all short lengths.

use board::judge::Judge;
use board::lent::Lent;
use board::random::Random;

pub fn round(judge: &mut Judge, random: &mut Random) {
    for n in 0..=u8::MAX {
        judge.slot(n);
        judge.relative_number(n);
        judge.frame_position(n);
        for availability in [0, 0x7FFF, 0x8000, u16::MAX, random.sixteen()] {
            judge.is_available(n, availability);
        }
    }
    for number in 0..=u16::MAX {
        judge.pid_allowed(number);
        judge.count_available(number);
        judge.is_available(random.byte_below(17), number);
    }
    crcs(judge, random);
    rests(judge, random);
}

fn crcs(judge: &mut Judge, random: &mut Random) {
    for length in 0..=600 {
        judge.crc(&mut Lent::new(&random.bytes(length)));
        judge.crc(&mut Lent::new(&vec![random.byte(); length]));
    }
    for _ in 0..40 {
        let length = random.below(100_000);
        judge.crc(&mut Lent::new(&random.bytes(length)));
    }
}

/// Also behind more packets than there are, and than bytes can be counted.
fn rests(judge: &mut Judge, random: &mut Random) {
    for length in [0, 1, 187, 188, 189, 376, 9776, 9777] {
        let mut stream = Lent::new(&random.bytes(length));
        for placed in 0..60 {
            judge.composer_rest(&mut stream, placed);
        }
        for part in [1, 2, 188, 189].map(|parts| usize::MAX / parts) {
            for placed in [part, part.wrapping_add(1), part.wrapping_add(length)] {
                judge.composer_rest(&mut stream, placed);
            }
        }
    }
}
