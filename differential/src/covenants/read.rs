//! `decode_from_with_limit` at a position of larger bytes, under an allowance, without its directory.

use super::build;
use crate::kind::{Kind, short_inputs};
use crate::oracle;
use crate::random::Random;
use crate::tally::{Case, Tally};
use turgamysk::entries;

/// The allowances under which every short input is read.
pub(super) const LIMITS: [usize; 7] = [0, 1, 2, 3, 4, 1_000_009, usize::MAX];
pub(super) const LARGEST: usize = 1_000_009;

#[derive(Default)]
pub struct Read {
    bytes: Vec<u8>,
}

fn compare(tally: &mut Tally, bytes: &[u8], position: usize, limit: usize) {
    let ours = entries::covenant_read(bytes, position, limit);
    let theirs = oracle::covenant_read(bytes, position, limit);
    if position > bytes.len() {
        tally.known("cursor-beyond");
    }
    tally.compare(theirs.stop.number, &ours, &theirs, || Case {
        entry: "turgamysk_covenant_read",
        input: bytes.to_vec(),
        with: format!("position {position}, limit {limit}"),
    });
}

impl Kind for Read {
    fn name(&self) -> &'static str {
        "covenant read"
    }

    fn weight(&self) -> u64 {
        30
    }

    fn exhaustive(&mut self, tally: &mut Tally) {
        short_inputs(3, |bytes| {
            for limit in LIMITS {
                compare(tally, bytes, 0, limit);
            }
        });
        build::compact_forms(|bytes| {
            for limit in (0..16).chain(LIMITS) {
                compare(tally, bytes, 0, limit);
            }
        });
        build::around_largest(|bytes| {
            for limit in [
                bytes.len() - 1,
                bytes.len(),
                LARGEST - 1,
                LARGEST,
                usize::MAX,
            ] {
                compare(tally, bytes, 0, limit);
            }
        });
        for position in [1, 2, 3, 4, 1_000_009, usize::MAX - 1, usize::MAX] {
            for limit in LIMITS {
                compare(tally, &[], position, limit);
                compare(tally, &[0, 0, 0], position, limit);
            }
        }
    }

    fn random(&mut self, random: &mut Random, tally: &mut Tally) {
        let (position, limit) = draw(&mut self.bytes, random);
        compare(tally, &self.bytes, position, limit);
    }
}

/// A covenant, half of the time damaged, inside larger bytes; and a position and an allowance for it.
pub(super) fn draw(bytes: &mut Vec<u8>, random: &mut Random) -> (usize, usize) {
    bytes.clear();
    put_before(bytes, random);
    let start = bytes.len();
    build::put_covenant(bytes, random);
    let size = bytes.len() - start;
    if random.once_in(2) {
        build::damage(bytes, start, random);
    }
    if random.once_in(3) {
        let after = random.between(1, 9);
        bytes.resize(bytes.len() + after, random.byte());
    }
    (place(bytes, start, random), limit(size, random))
}

/// Bytes before the covenant, half of the time.
fn put_before(bytes: &mut Vec<u8>, random: &mut Random) {
    if random.once_in(2) {
        return;
    }
    let length = random.between(1, 20);
    bytes.resize(length, 0);
    random.fill(bytes);
}

/// Mostly where the covenant starts; else anywhere, and rarely beyond the end.
fn place(bytes: &[u8], start: usize, random: &mut Random) -> usize {
    match random.below(64) {
        0 => bytes.len() + random.between(1, 3),
        1 => usize::MAX - random.below(3),
        2..=5 => random.below(bytes.len() + 1),
        _ => start,
    }
}

/// An allowance around the covenant's size, below it, or without effect.
fn limit(size: usize, random: &mut Random) -> usize {
    match random.below(8) {
        0 => size.saturating_sub(1),
        1 => size,
        2 => size + 1,
        3 => random.below(size + 4),
        4 => random.of(&LIMITS),
        5 => LARGEST + random.below(3) - 1,
        _ => LARGEST,
    }
}
