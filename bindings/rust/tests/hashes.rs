//! The hashes on messages of no bytes, few and many.

use turgamysk::{blake2b_256, blake2b_256_value_nonce, sha3_256};

fn hex(bytes: &[u8]) -> String {
    bytes.iter().map(|byte| format!("{byte:02x}")).collect()
}

#[test]
fn sha3_256_has_the_published_digests() {
    let empty = "a7ffc6f8bf1ed76651c14756a061d662f580ff4de43b49fa82d80a4b80f8434a";
    let abc = "3a985da74fe225b2045c172d6bd390bd855f086e3e9d525b46bfe24511431532";
    assert_eq!(hex(&sha3_256(&[])), empty);
    assert_eq!(hex(&sha3_256(b"abc")), abc);
}

#[test]
fn blake2b_256_has_the_published_digests() {
    let empty = "0e5751c026e543b2e8ab2eb06099daa1d1e5df47778f7787faab45cdf12fe3a8";
    let abc = "bddd813c634239723171ef3fee98579b94964e3bb1cb3e427262c8c068d52319";
    assert_eq!(hex(&blake2b_256(&[])), empty);
    assert_eq!(hex(&blake2b_256(b"abc")), abc);
}

#[test]
fn long_messages_are_hashed_to_their_last_byte() {
    let mut message = vec![0; 1 << 20];
    let (sha3, blake2b) = (sha3_256(&message), blake2b_256(&message));
    message[(1 << 20) - 1] = 1;
    assert_ne!(sha3_256(&message), sha3);
    assert_ne!(blake2b_256(&message), blake2b);
}

#[test]
fn a_value_and_a_nonce_are_forty_bytes() {
    let nonce: [u8; 32] = std::array::from_fn(|place| place as u8);
    for value in [0, 1, 255, 256, 1 << 63, u64::MAX] {
        let mut message = value.to_le_bytes().to_vec();
        message.extend(nonce);
        assert_eq!(
            blake2b_256_value_nonce(value, &nonce),
            blake2b_256(&message)
        );
    }
}
