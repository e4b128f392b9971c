//! The two hashes.

use crate::entries::{self, Bytes32};

/// SHA3-256 (FIPS 202).
///
/// ```
/// let digest = turgamysk::sha3_256(b"");
/// assert_eq!(digest[..4], [0xa7, 0xff, 0xc6, 0xf8]);
/// ```
pub fn sha3_256(message: &[u8]) -> Bytes32 {
    let mut digest = [0; 32];
    entries::sha3_256(message, &mut digest);
    digest
}

/// BLAKE2b with a result of 32 bytes and no key (RFC 7693).
///
/// ```
/// let digest = turgamysk::blake2b_256(b"");
/// assert_eq!(digest[..4], [0x0e, 0x57, 0x51, 0xc0]);
/// ```
pub fn blake2b_256(message: &[u8]) -> Bytes32 {
    let mut digest = [0; 32];
    entries::blake2b_256(message, &mut digest);
    digest
}

/// [`blake2b_256`] of the 8 bytes of a value, the lowest first, and of the 32 bytes after them.
///
/// ```
/// use turgamysk::{blake2b_256, blake2b_256_value_nonce};
///
/// assert_eq!(blake2b_256_value_nonce(0, &[0; 32]), blake2b_256(&[0; 40]));
/// ```
pub fn blake2b_256_value_nonce(value: u64, nonce: &Bytes32) -> Bytes32 {
    let mut digest = [0; 32];
    entries::blake2b_256_value_nonce(value, nonce, &mut digest);
    digest
}
