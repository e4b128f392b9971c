//! BLAKE2b-256 against Debian's `blake2b_simd` crate: its portable code, and the code that it chooses on this machine.

use crate::bytes::{LENGTHS, compared, message};
use crate::task::{Heading, Label, Task};
use crate::timing::Side;
use blake2b_simd::Params;
use blake2b_simd::benchmarks::force_portable;
use std::hint::black_box;
use turgamysk::entries::{self, Bytes32};

/// What the crate chooses itself: SIMD, where the machine has it.
pub fn chosen() -> Params {
    let mut params = Params::new();
    params.hash_length(32);
    params
}

pub fn portable() -> Params {
    let mut params = chosen();
    force_portable(&mut params);
    params
}

#[inline(never)]
pub fn reference(params: &Params, message: &[u8], digest: &mut Bytes32) {
    digest.copy_from_slice(params.hash(message).as_bytes());
}

pub fn agree() {
    let (chosen, portable) = (chosen(), portable());
    for length in compared() {
        let message = message(length);
        let (mut ours, mut theirs) = ([0; 32], [0; 32]);
        entries::blake2b_256(&message, &mut ours);
        for params in [&chosen, &portable] {
            reference(params, &message, &mut theirs);
            assert_eq!(ours, theirs, "BLAKE2b-256 of {length} bytes");
        }
    }
}

pub fn sides(message: &[u8]) -> Vec<Side<'_>> {
    let (chosen, portable) = (chosen(), portable());
    let (mut ours, mut plain, mut simd) = ([0; 32], [0; 32], [0; 32]);
    vec![
        Side::new("turgamysk", move || {
            entries::blake2b_256(black_box(message), black_box(&mut ours))
        }),
        Side::new("portable", move || {
            reference(&portable, black_box(message), black_box(&mut plain))
        }),
        Side::new("SIMD", move || {
            reference(&chosen, black_box(message), black_box(&mut simd))
        }),
    ]
}

pub fn table(task: &mut dyn Task) {
    task.table(Heading::new("BLAKE2b-256", "bytes", &[1.0, 0.9]));
    for length in LENGTHS {
        task.row(Label::Bytes(length), sides(&message(length)));
    }
}
