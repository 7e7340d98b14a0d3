//! Lent bytes, twice: what the archive is lent, between red zones, and what
//! the reference is lent; and how both were before the call.

use std::env;
use std::sync::OnceLock;

/// Bytes in front of and behind what the archive is lent.
const ZONE: usize = 64;

/// Whether what is lent stands alone in its block, for a tool that watches
/// every access: NIRANBOK_BARE is set.
fn is_bare() -> bool {
    static BARE: OnceLock<bool> = OnceLock::new();
    *BARE.get_or_init(|| env::var_os("NIRANBOK_BARE").is_some())
}

pub struct Lent {
    /// Zone, lent bytes, zone. The first zone may be some bytes longer, so
    /// that what is lent starts anywhere.
    zoned: Vec<u8>,
    start: usize,
    ours: Vec<u8>,
    before: Vec<u8>,
}

/// What is amiss with lent bytes after a call.
#[derive(Debug, PartialEq, Eq)]
pub enum Amiss {
    /// A byte outside of what was lent is another.
    RedZone,
    /// The byte at this place is not what it has to be.
    Byte {
        at: usize,
        archive: u8,
        expected: u8,
    },
}

impl Lent {
    pub fn new(bytes: &[u8]) -> Lent {
        Lent::shifted(bytes, bytes.len() % 7)
    }

    /// So many bytes behind where it would start else.
    pub fn shifted(bytes: &[u8], shift: usize) -> Lent {
        let (start, behind) = match is_bare() {
            true => (0, 0),
            false => (ZONE + shift, ZONE),
        };
        let mut zoned: Vec<u8> = (0..start + bytes.len() + behind).map(pattern).collect();
        zoned[start..start + bytes.len()].copy_from_slice(bytes);
        Lent {
            zoned,
            start,
            ours: bytes.to_vec(),
            before: bytes.to_vec(),
        }
    }

    /// Changes lent bytes between two calls.
    pub fn change(&mut self, change: impl Fn(&mut [u8])) {
        change(self.archives());
        change(&mut self.ours);
        change(&mut self.before);
    }

    /// What the archive is lent.
    pub fn archives(&mut self) -> &mut [u8] {
        let end = self.start + self.ours.len();
        &mut self.zoned[self.start..end]
    }

    /// What the reference is lent.
    pub fn ours(&mut self) -> &mut [u8] {
        &mut self.ours
    }

    /// The bytes as the last call left them.
    pub fn bytes(&self) -> &[u8] {
        &self.ours
    }

    /// Looks at all bytes behind a call: refused, it has changed none; else
    /// both sides have changed the same.
    pub fn check(&mut self, was_refused: bool) -> Result<(), Amiss> {
        let end = self.start + self.ours.len();
        let (front, behind) = (&self.zoned[..self.start], &self.zoned[end..]);
        if !is_pattern(front, 0) || !is_pattern(behind, end) {
            return Err(Amiss::RedZone);
        }
        let archives = &self.zoned[self.start..end];
        if was_refused {
            equal(archives, &self.before)?;
        }
        equal(archives, &self.ours)?;
        self.before.copy_from_slice(&self.ours);
        Ok(())
    }
}

/// What a red zone holds at this place.
fn pattern(place: usize) -> u8 {
    (place * 37 + 11) as u8
}

fn is_pattern(zone: &[u8], start: usize) -> bool {
    let mut places = zone.iter().zip(start..);
    places.all(|(&byte, place)| byte == pattern(place))
}

fn equal(archive: &[u8], expected: &[u8]) -> Result<(), Amiss> {
    if archive == expected {
        return Ok(());
    }
    let mut bytes = archive.iter().zip(expected);
    let at = bytes.position(|(one, other)| one != other).unwrap_or(0);
    Err(Amiss::Byte {
        at,
        archive: archive[at],
        expected: expected[at],
    })
}

#[cfg(test)]
mod tests {
    use super::{Amiss, Lent};

    #[test]
    fn bytes_outside_of_what_is_lent() {
        for length in [0, 1, 188] {
            let lent = Lent::new(&vec![0xA5; length]);
            let (start, end) = (lent.start, lent.start + length);
            for place in [0, start - 1, end, end + 63] {
                let mut lent = Lent::new(&vec![0xA5; length]);
                assert_eq!(lent.check(false), Ok(()));
                lent.zoned[place] ^= 1;
                assert_eq!(lent.check(false), Err(Amiss::RedZone));
            }
        }
    }
}
