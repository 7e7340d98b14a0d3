//! Cases for comparing another implementation with the reference: inputs
//! with their expected outputs, the same in every run.

pub mod drawn;
pub mod generator;
pub mod lister;
pub mod output;

/// Puts the CRC of bytes 4 to 183 into its place.
pub fn make_crc_right(packet: &mut [u8]) {
    let crc = reference::crc32(&packet[4..184]);
    packet[184..188].copy_from_slice(&crc.to_be_bytes());
}
