//! SHA3-256 against Debian's `sha3` crate.

use crate::bytes::{LENGTHS, compared, message};
use crate::task::{Heading, Label, Task};
use crate::timing::Side;
use sha3::{Digest as _, Sha3_256};
use std::hint::black_box;
use turgamysk::entries::{self, Bytes32};

#[inline(never)]
fn reference(message: &[u8], digest: &mut Bytes32) {
    Sha3_256::new_with_prefix(message).finalize_into(digest.into());
}

pub fn agree() {
    for length in compared() {
        let message = message(length);
        let (mut ours, mut theirs) = ([0; 32], [0; 32]);
        entries::sha3_256(&message, &mut ours);
        reference(&message, &mut theirs);
        assert_eq!(ours, theirs, "SHA3-256 of {length} bytes");
    }
}

pub fn sides(message: &[u8]) -> Vec<Side<'_>> {
    let (mut ours, mut theirs) = ([0; 32], [0; 32]);
    vec![
        Side::new("turgamysk", move || {
            entries::sha3_256(black_box(message), black_box(&mut ours))
        }),
        Side::new("sha3", move || {
            reference(black_box(message), black_box(&mut theirs))
        }),
    ]
}

pub fn table(task: &mut dyn Task) {
    task.table(Heading::new("SHA3-256", "bytes", &[1.0]));
    for length in LENGTHS {
        task.row(Label::Bytes(length), sides(&message(length)));
    }
}
