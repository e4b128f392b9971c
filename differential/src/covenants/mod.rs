//! Covenants: reading with an allowance, decoding whole or from a position, writing, single items and runs.

pub mod build;
pub mod decode;
pub mod decode_from;
pub mod encode;
pub mod items;
pub mod lent;
pub mod read;
pub mod runs;
