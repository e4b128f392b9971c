//! Name states: their records read under a key, and written.

pub mod build;
pub mod decode;
pub mod encode;
pub mod original;
