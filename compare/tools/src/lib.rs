//! The programs mux, demux, bond and unbond, run on drawn streams. What they
//! write is held to the reference.

#![forbid(unsafe_code)]

pub mod composing;
pub mod damage;
pub mod group;
pub mod program;
pub mod receiving;
pub mod streams;
