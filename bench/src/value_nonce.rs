//! BLAKE2b-256 of a value and a nonce. The references need the 40 bytes in a row, and lay them out within the time.

use crate::blake2b_256::{chosen, portable, reference};
use crate::bytes::message;
use crate::task::{Heading, Label, Task};
use crate::timing::Side;
use blake2b_simd::Params;
use std::hint::black_box;
use turgamysk::entries::{self, Bytes32};

const VALUES: [u64; 6] = [0, 1, 255, 2_040_000_000_000_000, 1 << 63, u64::MAX];

fn nonce() -> Bytes32 {
    message(32).try_into().expect("32 bytes")
}

#[inline(never)]
fn laid_out(params: &Params, value: u64, nonce: &Bytes32, digest: &mut Bytes32) {
    let mut message = [0; 40];
    message[..8].copy_from_slice(&value.to_le_bytes());
    message[8..].copy_from_slice(nonce);
    reference(params, &message, digest);
}

pub fn agree() {
    let (chosen, nonce) = (chosen(), nonce());
    for value in VALUES {
        let (mut ours, mut theirs) = ([0; 32], [0; 32]);
        entries::blake2b_256_value_nonce(value, &nonce, &mut ours);
        laid_out(&chosen, value, &nonce, &mut theirs);
        assert_eq!(ours, theirs, "BLAKE2b-256 of value {value} and a nonce");
    }
}

fn reference_side<'a>(name: &'static str, params: Params, nonce: &'a Bytes32) -> Side<'a> {
    let mut digest = [0; 32];
    Side::new(name, move || {
        laid_out(
            &params,
            black_box(VALUES[3]),
            black_box(nonce),
            black_box(&mut digest),
        )
    })
}

pub fn table(task: &mut dyn Task) {
    let nonce = nonce();
    let mut digest = [0; 32];
    let ours = Side::new("turgamysk", || {
        entries::blake2b_256_value_nonce(
            black_box(VALUES[3]),
            black_box(&nonce),
            black_box(&mut digest),
        )
    });
    let plain = reference_side("portable", portable(), &nonce);
    let simd = reference_side("SIMD", chosen(), &nonce);
    let title = "BLAKE2b-256 of a value and a nonce";
    task.table(Heading::new(title, "bytes", &[1.0, 0.9]));
    task.row(Label::Bytes(40), vec![ours, plain, simd]);
}
