//! Names, their hashes, and the commitments of bids.

use crate::entries::{self, Bytes32};
use crate::primitives::{Dollarydoos, NameHash};
use crate::refusal::Refusal;

/// Whether the bytes are a name: 1 to 63 of 0-9 and a-z, with `-` and `_` neither first nor last, and none of the five
/// reserved words.
///
/// ```
/// assert!(turgamysk::validate_name(b"a-b"));
/// assert!(!turgamysk::validate_name(b"-b"));
/// assert!(!turgamysk::validate_name(b"localhost"));
/// ```
pub fn validate_name(name: &[u8]) -> bool {
    entries::validate_name(name) == 0
}

/// The SHA3-256 of a name; [`Refusal::InvalidName`] where the bytes are none.
///
/// ```
/// use turgamysk::{NameHash, Refusal, hash_name, sha3_256};
///
/// assert_eq!(hash_name(b"a"), Ok(NameHash(sha3_256(b"a"))));
/// assert_eq!(hash_name(b""), Err(Refusal::InvalidName {}));
/// ```
pub fn hash_name(name: &[u8]) -> Result<NameHash, Refusal> {
    let mut digest = [0; 32];
    match entries::hash_name(name, &mut digest) {
        0 => Ok(NameHash(digest)),
        number => Err(Refusal::of_answer(number, [0; 3])),
    }
}

/// The commitment of a bid: BLAKE2b-256 of the 8 bytes of the value, the lowest first, and of the nonce.
///
/// ```
/// use turgamysk::{Dollarydoos, blake2b_256, blind_bid};
///
/// assert_eq!(blind_bid(Dollarydoos(0), &[0; 32]), blake2b_256(&[0; 40]));
/// ```
pub fn blind_bid(value: Dollarydoos, nonce: &Bytes32) -> Bytes32 {
    let mut digest = [0; 32];
    entries::blind_bid(value.0, nonce, &mut digest);
    digest
}
