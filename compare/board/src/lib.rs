//! The product's archive and the reference over the same inputs: what is
//! compared, and what is measured.

#![deny(unsafe_code)]

pub mod archive;
pub mod bench;
pub mod calls;
pub mod coding;
pub mod judge;
pub mod lent;
pub mod mirror;
pub mod random;
