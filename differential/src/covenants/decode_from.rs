//! `decode_from_with_limit` at a position of larger bytes, under an allowance, with its directory; and `decode_from`.

use super::build;
use super::lent::Lent;
use super::read::{LARGEST, LIMITS, draw};
use crate::kind::{Kind, short_inputs};
use crate::oracle;
use crate::random::Random;
use crate::tally::{Case, Tally};
use turgamysk::entries;

#[derive(Default)]
pub struct DecodeFrom {
    bytes: Vec<u8>,
    lent: Lent,
}

impl DecodeFrom {
    fn compare(&mut self, tally: &mut Tally, bytes: &[u8], position: usize, limit: usize) {
        let directory = &mut self.lent.directory;
        let ours = entries::covenant_decode_from(bytes, position, limit, directory);
        let (theirs, covenant) = oracle::covenant_decode_from(bytes, position, limit);
        let filled = self.lent.is_filled(bytes, position, covenant.as_ref());
        if position > bytes.len() {
            tally.known("cursor-beyond");
        }
        tally.compare(theirs.stop.number, &(ours, filled), &(theirs, true), || {
            Case {
                entry: "turgamysk_covenant_decode_from",
                input: bytes.to_vec(),
                with: format!(
                    "position {position}, limit {limit}; true: the directory is as expected"
                ),
            }
        });
    }

    fn exhaust(&mut self, tally: &mut Tally, bytes: &[u8], positions: usize) {
        for position in 0..positions {
            for limit in LIMITS {
                self.lent.poison_some();
                self.compare(tally, bytes, position, limit);
            }
        }
    }
}

impl Kind for DecodeFrom {
    fn name(&self) -> &'static str {
        "covenant from"
    }

    fn weight(&self) -> u64 {
        10
    }

    fn exhaustive(&mut self, tally: &mut Tally) {
        short_inputs(2, |bytes| self.exhaust(tally, bytes, bytes.len() + 2));
        build::compact_forms(|bytes| self.exhaust(tally, bytes, 2));
        build::around_largest(|bytes| {
            for limit in [bytes.len() - 1, bytes.len(), LARGEST - 1, LARGEST] {
                self.lent.poison_all();
                self.compare(tally, bytes, 0, limit);
            }
        });
        for position in [LARGEST, usize::MAX - 1, usize::MAX] {
            for limit in LIMITS {
                self.lent.poison_all();
                self.compare(tally, &[0, 0, 0], position, limit);
            }
        }
    }

    fn random(&mut self, random: &mut Random, tally: &mut Tally) {
        let mut bytes = std::mem::take(&mut self.bytes);
        let (position, limit) = draw(&mut bytes, random);
        self.lent.poison_all();
        self.compare(tally, &bytes, position, limit);
        self.bytes = bytes;
    }
}
