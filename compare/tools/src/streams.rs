//! Streams to be carried.

use cases::drawn;
use cases::generator::Generator;
use reference::{fits_a_slot, null_packet, PACKET_BYTES};

/// So many packets of various PIDs, none the header's; one in eight is a null
/// packet.
pub fn stream(generator: &mut Generator, packets: usize, header_pid: u16) -> Vec<u8> {
    let mut stream = drawn::stream(generator, packets);
    let (packets, _) = stream.as_chunks_mut();
    for packet in packets {
        if generator.below(8) == 0 {
            *packet = null_packet();
        }
        if !fits_a_slot(packet, header_pid) {
            packet[2] ^= 1;
        }
    }
    stream
}

/// The stream with null packets behind it, to a multiple of so many packets.
pub fn padded(stream: &[u8], multiple: usize) -> Vec<u8> {
    let mut padded = stream.to_vec();
    while !padded.len().is_multiple_of(multiple * PACKET_BYTES) {
        padded.extend(null_packet());
    }
    padded
}
