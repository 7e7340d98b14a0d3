//! What the calls that read headers refuse with.

/// The number, and beside 7 the value that the CRC register was left with, so
/// that two sites can compare their failing headers. Beside any other it is 0.
#[derive(Clone, Copy, Debug, PartialEq, Eq)]
pub struct Refusal {
    pub number: u8,
    pub remainder: u32,
}

impl Refusal {
    /// 7; a register at zero is no fault.
    pub(crate) fn wrong_crc(remainder: u32) -> Refusal {
        Refusal {
            number: 7,
            remainder,
        }
    }
}

/// A number that has nothing beside it.
impl From<u8> for Refusal {
    fn from(number: u8) -> Refusal {
        Refusal {
            number,
            remainder: 0,
        }
    }
}
