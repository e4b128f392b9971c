use super::Bytes32;

mod c {
    unsafe extern "C" {
        pub fn turgamysk_sha3_256(message: *const u8, length: usize, digest: *mut u8);
        pub fn turgamysk_blake2b_256(message: *const u8, length: usize, digest: *mut u8);
        pub fn turgamysk_blake2b_256_value_nonce(value: u64, nonce: *const u8, digest: *mut u8);
    }
}

/// SHA3-256 of a message, into `digest`.
pub fn sha3_256(message: &[u8], digest: &mut Bytes32) {
    unsafe { c::turgamysk_sha3_256(message.as_ptr(), message.len(), digest.as_mut_ptr()) }
}

/// BLAKE2b with a result of 32 bytes and no key of a message, into `digest`.
pub fn blake2b_256(message: &[u8], digest: &mut Bytes32) {
    unsafe { c::turgamysk_blake2b_256(message.as_ptr(), message.len(), digest.as_mut_ptr()) }
}

/// BLAKE2b as above of the 8 bytes of `value`, the lowest first, and the nonce, into `digest`.
pub fn blake2b_256_value_nonce(value: u64, nonce: &Bytes32, digest: &mut Bytes32) {
    unsafe { c::turgamysk_blake2b_256_value_nonce(value, nonce.as_ptr(), digest.as_mut_ptr()) }
}
