//! What the tests of the programs draw alike.

use crate::generator::Generator;
use reference::{Setting, PACKET_BYTES};

pub fn make_available(setting: &mut Setting, r: usize, ts_id: u16, original_network_id: u16) {
    setting.availability |= availability_bit(r);
    setting.ts_id[r - 1] = ts_id;
    setting.original_network_id[r - 1] = original_network_id;
}

/// Stream 1 has the highest of the fifteen bits.
fn availability_bit(r: usize) -> u16 {
    0x4000 >> (r - 1)
}

/// So many packets. A PID below 4,096 is never the header's.
pub fn stream(generator: &mut Generator, packets: usize) -> Vec<u8> {
    let mut stream = vec![0; PACKET_BYTES * packets];
    for packet in stream.chunks_exact_mut(PACKET_BYTES) {
        generator.fill(packet, 256);
        packet[0] = 0x47;
        packet[1] %= 16;
    }
    stream
}
