//! Times from 1 KiB to 16 MiB: what the growth is, and not only what one size takes.

use crate::bytes::{GROWTH, message};
use crate::covenants::{encoded, register};
use crate::task::{Heading, Label, Task};
use crate::timing::Side;
use crate::{blake2b_256, links, sha3_256, sheets};
use hns_covenants::{Covenant, CovenantError};
use hns_encoding::Decoder;
use std::hint::black_box;
use turgamysk::entries;

pub const TABLES: [fn(&mut dyn Task); 4] = [sha3_256, blake2b_256, run, links];

/// Covenants in a row, of about `bytes` bytes together.
fn covenants(bytes: usize) -> Vec<u8> {
    let covenant = encoded(&register());
    let count = (bytes + covenant.len() / 2) / covenant.len();
    covenant.repeat(count)
}

/// Every covenant of a run is made and dropped; their number.
#[inline(never)]
fn decode_run(bytes: &[u8]) -> Result<usize, CovenantError> {
    let mut decoder = Decoder::new(bytes);
    let mut count = 0;
    while decoder.remaining() > 0 {
        black_box(&Covenant::decode_from(&mut decoder)?);
        count += 1;
    }
    Ok(count)
}

fn read_run(bytes: &[u8]) -> entries::RunAnswer {
    entries::covenant_read_run(bytes)
}

/// Both sides read as many covenants, and refuse each beginning of a run that ends within one; both accept the sheets.
pub fn agree() {
    for length in GROWTH {
        let bytes = covenants(length);
        let ours = read_run(&bytes);
        assert_eq!(ours.stop.number, 0);
        assert_eq!(Some(ours.covenants), decode_run(&bytes).ok());
        links::accepted(&sheets::of_size(length));
    }
    let (bytes, one) = (covenants(GROWTH[0]), encoded(&register()).len());
    for cut in 0..bytes.len() {
        let refused = cut % one != 0;
        assert_eq!(read_run(&bytes[..cut]).stop.number != 0, refused);
        assert_eq!(decode_run(&bytes[..cut]).is_err(), refused);
    }
}

fn sha3_256(task: &mut dyn Task) {
    task.table(Heading::growth("Growth of SHA3-256"));
    for length in GROWTH {
        task.row(Label::Bytes(length), sha3_256::sides(&message(length)));
    }
}

/// The reference is the faster of the two.
fn blake2b_256(task: &mut dyn Task) {
    task.table(Heading::growth("Growth of BLAKE2b-256"));
    for length in GROWTH {
        let message = message(length);
        let mut sides = blake2b_256::sides(&message);
        sides.remove(1);
        task.row(Label::Bytes(length), sides);
    }
}

fn run(task: &mut dyn Task) {
    task.table(Heading::growth("Growth of a run of covenants"));
    for length in GROWTH {
        let bytes = covenants(length);
        let ours = Side::new("turgamysk", || {
            black_box(read_run(black_box(&bytes)));
        });
        let theirs = Side::new("hns-rs decode_from", || {
            black_box(decode_run(black_box(&bytes)).is_ok());
        });
        task.row(Label::Bytes(bytes.len()), vec![ours, theirs]);
    }
}

fn links(task: &mut dyn Task) {
    task.table(Heading::growth("Growth of links, by longer items"));
    for length in GROWTH {
        let sheets = sheets::of_size(length);
        task.row(Label::Bytes(sheets::size(&sheets)), links::sides(&sheets));
    }
}
