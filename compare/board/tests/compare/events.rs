//! What packets do, by the numbers of niranbok.h.

pub const NOTHING: u8 = 0;
pub const OPENED: u8 = 1;
pub const STORED: u8 = 2;
pub const READY: u8 = 3;
pub const SHORT: u8 = 4;
pub const JUMP: u8 = 5;
pub const LONG: u8 = 6;
pub const BROKEN: u8 = 7;
