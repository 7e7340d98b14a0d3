//! TSMF header, composer, receiver and bonding of ITU-T J.183, plain, extended
//! and short, written from the documents alone, so that another implementation
//! can be compared with them. Nothing is allocated but the lister's text.

#![forbid(unsafe_code)]

/// What a kind's size decides, with the kind as a constant in each of the three
/// copies: so loops have fixed lengths.
macro_rules! by_kind {
    ($given:expr, $kind:ident => $answer:expr) => {{
        use crate::setting::Kind;
        match $given {
            Kind::Plain => {
                let $kind = Kind::Plain;
                $answer
            }
            Kind::Extended => {
                let $kind = Kind::Extended;
                $answer
            }
            Kind::Short => {
                let $kind = Kind::Short;
                $answer
            }
        }
    }};
}

mod announced;
mod bond;
mod composer;
mod crc;
mod layout;
mod list;
mod numbers;
mod packet;
mod read;
mod receiver;
mod refusal;
mod rules;
mod setting;
mod size;
mod write;

pub use announced::Announced;
pub use bond::{gather, read_headers, spread, Asked, Carried};
pub use composer::{Composer, OpenFrame, Put};
pub use crc::crc32;
pub use layout::{
    AUXILIARY_BYTES, FRAME_BYTES, LISTER_PID, PACKET_BYTES, PRIVATE_DATA_BYTES, SLOTS, STORE_BYTES,
    STREAMS,
};
pub use list::list;
pub use packet::{fits_a_slot, null_packet};
pub use read::read;
pub use receiver::{Event, Receiver, Standing};
pub use refusal::Refusal;
pub use rules::{content, fields_fit, header_pid};
pub use setting::{Kind, Setting};
pub use size::Size;
pub use write::write;
