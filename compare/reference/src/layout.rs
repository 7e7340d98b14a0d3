//! The fixed numbers of J.183's Appendix I and of the extended header.

use crate::size::Size;
use std::ops::Range;

/// A header fills one slot, and a slot has the size of a packet.
pub const PACKET_BYTES: usize = 188;
/// The most streams and slots that a frame has; a setting has room for them.
pub const STREAMS: usize = Size::LARGE.streams;
pub const SLOTS: usize = Size::LARGE.slots;
/// The most that is left for private_data, in a short header.
pub const PRIVATE_DATA_BYTES: usize = 131;
/// The auxiliary information at the front of an extended header's private data.
pub const AUXILIARY_BYTES: usize = 28;

/// Frame and store of plain and extended headers.
pub const FRAME_BYTES: usize = Size::LARGE.frame_bytes();
pub const STORE_BYTES: usize = Size::LARGE.store_bytes();

/// The continuity counter and the version begin again at 0 behind these.
pub const LAST_COUNTER: u8 = 15;
pub const LAST_VERSION: u8 = 7;

pub const SYNC_BYTE: u8 = 0x47;
/// The fixed bits in front of the continuity counter, in their byte.
pub const BEFORE_COUNTER: u8 = 0b0001 << 4;
/// The 13 bits of a PID, and of the sync, in their two bytes.
pub const THIRTEEN_BITS: u16 = 0x1FFF;
pub const TSMF_SYNC: u16 = 0x1A86;

/// Where the parts of an extended header stand, in the place of private data.
pub const AUXILIARY: Range<usize> = 99..127;
pub const BONDING: Range<usize> = 127..131;
pub const RESERVED: Range<usize> = 131..184;
/// The CRC leaves out the packet_header, which is in front of these bytes.
pub const UNDER_CRC: Range<usize> = 4..184;
pub const CRC: Range<usize> = 184..188;

/// The carriers of a group are numbered from 1 to at most this.
pub const LAST_CARRIER: u8 = 8;
/// A super frame has at most so many frames.
pub const MOST_FRAMES: usize = 4;

pub const FIRST_PID: u16 = 16;
pub const LAST_PID: u16 = 8190;
/// The header PID that the lister looks for.
pub const LISTER_PID: u16 = 0x1FF0;
