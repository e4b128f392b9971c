//! Compares Turgamysk's answers with the original's, and records the original's.

pub mod amounts;
pub mod covenants;
pub mod hashes;
pub mod kind;
pub mod name_states;
pub mod names;
pub mod oracle;
pub mod random;
pub mod record;
pub mod room;
pub mod sheets;
pub mod tally;
pub mod wire;
