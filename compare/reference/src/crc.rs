//! The CRC of H.222.0, eight bytes at a time.

/// The polynomial without its x^32, which the shift itself takes away.
const POLYNOMIAL: u32 = 0x04C1_1DB7;

/// What a byte leaves in an empty register, with so many bytes 0 behind it.
static LEAVES: [[u32; 256]; 8] = leaves();

const fn leaves() -> [[u32; 256]; 8] {
    let mut leaves = [[0; 256]; 8];
    let mut byte = 0;
    while byte < 256 {
        let mut register = (byte as u32) << 24;
        let mut shifts = 0;
        while shifts < 64 {
            let outgoing = register >> 31;
            register = (register << 1) ^ (outgoing * POLYNOMIAL);
            shifts += 1;
            if shifts % 8 == 0 {
                leaves[shifts / 8 - 1][byte] = register;
            }
        }
        byte += 1;
    }
    leaves
}

/// The register after all bytes: all ones at the start, highest bit first,
/// nothing inverted at the end. Behind its own CRC a text leaves zero.
pub fn crc32(bytes: &[u8]) -> u32 {
    let (eights, rest) = bytes.as_chunks::<8>();
    let mut register = u32::MAX;
    for &eight in eights {
        register = behind_eight(register, eight);
    }
    for &byte in rest {
        register = register << 8 ^ LEAVES[0][usize::from((register >> 24) as u8 ^ byte)];
    }
    register
}

/// The register meets the first four bytes; each byte then leaves its own.
#[inline]
fn behind_eight(register: u32, eight: [u8; 8]) -> u32 {
    let met = u64::from_be_bytes(eight) ^ u64::from(register) << 32;
    let met = met.to_be_bytes();
    let leaves = |place: usize| LEAVES[7 - place][usize::from(met[place])];
    (leaves(0) ^ leaves(1) ^ leaves(2) ^ leaves(3))
        ^ (leaves(4) ^ leaves(5) ^ leaves(6) ^ leaves(7))
}
