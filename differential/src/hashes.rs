//! SHA3-256 and BLAKE2b-256 against Debian's crates, and the commitment of a value and a nonce against the original.

use crate::kind::Kind;
use crate::random::Random;
use crate::tally::{Case, Tally};
use blake2b_simd::Params;
use sha3::{Digest, Sha3_256};
use turgamysk::entries;

const ONCE: usize = 1000;
const POOL: usize = 1 << 20;
/// Bytes on either side of a digest, which must stay as they are.
const GUARD: usize = 8;

pub struct Hashes {
    pool: Vec<u8>,
    params: Params,
}

impl Default for Hashes {
    fn default() -> Self {
        let mut pool = vec![0; POOL];
        Random::new(1).fill(&mut pool);
        let mut params = Params::new();
        params.hash_length(32);
        Self { pool, params }
    }
}

type Guarded = [u8; 32 + 2 * GUARD];

/// A digest between two guards of one pattern.
pub fn digest_into(pattern: u8, fill: impl FnOnce(&mut [u8; 32])) -> Guarded {
    let mut guarded = [pattern; 32 + 2 * GUARD];
    let digest = &mut guarded[GUARD..GUARD + 32];
    fill(digest.try_into().expect("32 bytes"));
    guarded
}

impl Hashes {
    fn compare(&self, tally: &mut Tally, message: &[u8], pattern: u8) {
        let ours = digest_into(pattern, |digest| entries::sha3_256(message, digest));
        let theirs = digest_into(pattern, |digest| {
            Sha3_256::new_with_prefix(message).finalize_into(digest.into());
        });
        tally.compare(0, &ours, &theirs, || Case {
            entry: "turgamysk_sha3_256",
            input: message.to_vec(),
            with: String::new(),
        });
        let ours = digest_into(pattern, |digest| entries::blake2b_256(message, digest));
        let theirs = digest_into(pattern, |digest| {
            digest.copy_from_slice(self.params.hash(message).as_bytes());
        });
        tally.compare(0, &ours, &theirs, || Case {
            entry: "turgamysk_blake2b_256",
            input: message.to_vec(),
            with: String::new(),
        });
    }
}

impl Kind for Hashes {
    fn name(&self) -> &'static str {
        "hashes"
    }

    fn weight(&self) -> u64 {
        2
    }

    fn exhaustive(&mut self, tally: &mut Tally) {
        for length in 0..=ONCE {
            self.compare(tally, &self.pool[length..2 * length], 0);
            self.compare(tally, &vec![0; length], 0xff);
        }
    }

    fn random(&mut self, random: &mut Random, tally: &mut Tally) {
        let length = match random.below(2000) {
            0 => random.below(100_000),
            1..=20 => random.below(5000),
            _ => random.below(300),
        };
        let place = random.below(POOL);
        self.pool[place] = self.pool[place].wrapping_add(random.byte() | 1);
        let start = random.below(POOL - length);
        self.compare(tally, &self.pool[start..start + length], random.byte());
    }
}

/// The commitment, under its two names.
pub struct Commitments;

fn compare_commitment(tally: &mut Tally, value: u64, nonce: &[u8; 32], pattern: u8) {
    let case = |entry| Case {
        entry,
        input: nonce.to_vec(),
        with: format!("value {value}"),
    };
    let theirs = digest_into(pattern, |digest| {
        *digest = hns_covenants::blind_bid(value, nonce);
    });
    let ours = digest_into(pattern, |digest| {
        entries::blake2b_256_value_nonce(value, nonce, digest);
    });
    tally.compare(0, &ours, &theirs, || {
        case("turgamysk_blake2b_256_value_nonce")
    });
    let ours = digest_into(pattern, |digest| entries::blind_bid(value, nonce, digest));
    tally.compare(0, &ours, &theirs, || case("turgamysk_blind_bid"));
}

impl Kind for Commitments {
    fn name(&self) -> &'static str {
        "commitments"
    }

    fn weight(&self) -> u64 {
        3
    }

    fn exhaustive(&mut self, tally: &mut Tally) {
        for bit in 0..64 {
            compare_commitment(tally, 1 << bit, &[0; 32], 0);
            compare_commitment(tally, (1 << bit) - 1, &[0xff; 32], 0xff);
        }
        for bit in 0..256 {
            let mut nonce = [0; 32];
            nonce[bit / 8] = 1 << (bit % 8);
            compare_commitment(tally, 0, &nonce, 0);
        }
    }

    fn random(&mut self, random: &mut Random, tally: &mut Tally) {
        let nonce = random.bytes32();
        compare_commitment(tally, random.any_size(), &nonce, random.byte());
    }
}
