//! Module 1: the reads of the original's `Decoder` at a position, the writes of its `Encoder` at an offset, and
//! outpoints.

pub mod reads;
pub mod writes;

use turgamysk::Outpoint;

/// Positions, sizes and maxima at the ends of their type and around the forms of a compact size.
const SIZES: [usize; 10] = [
    0,
    1,
    31,
    32,
    252,
    253,
    65_536,
    usize::MAX - 1,
    usize::MAX,
    1 << 63,
];

/// An outpoint of the original.
pub fn our_outpoint(outpoint: &hns_primitives::Outpoint) -> Outpoint {
    Outpoint {
        transaction_hash: turgamysk::TransactionHash(outpoint.transaction_hash.into_bytes()),
        index: outpoint.index,
    }
}
