//! `verify_covenant_links` over two sheets: ours against the original's.

use super::build::{self, Pair, Piece, Sheets, fault};
use super::judge::damage_one;
use super::verify::answer;
use crate::kind::Kind;
use crate::random::Random;
use crate::tally::{Case, Tally};
use turgamysk::entries;

/// The kinds that are gone through with every fault: all rows and columns of the table, and two that share the last.
const KINDS: [u8; 14] = [0, 1, 2, 3, 4, 5, 6, 7, 8, 9, 10, 11, 12, 255];

#[derive(Default)]
pub struct Links {
    sheets: Sheets,
}

fn compare(tally: &mut Tally, sheets: &Sheets) {
    let verified = answer(sheets);
    if verified.panicked {
        tally.known("item_u8-empty");
    }
    let theirs = verified.answer;
    let ours = entries::verify_covenant_links(&sheets.transaction, &sheets.coins);
    tally.compare(theirs.stop.number, &ours, &theirs, || Case {
        entry: "turgamysk_verify_covenant_links",
        input: sheets.transaction.clone(),
        with: format!("coins {:02x?}", sheets.coins),
    });
}

/// The sets of at most two faults.
fn few_faults() -> Vec<u32> {
    let one = |number: u32| 1 << number;
    let mut sets = vec![0];
    for first in 0..fault::COUNT {
        sets.extend((first..fault::COUNT).map(|second| one(first) | one(second)));
    }
    sets
}

impl Links {
    /// A pair after one that passes, and alone.
    fn compare_behind(&mut self, tally: &mut Tally, first: &Pair, pair: Pair) {
        let pairs = [first.clone(), pair];
        for pairs in [&pairs[..], &pairs[1..]] {
            self.sheets.lay(pairs, pairs.len(), &[]);
            compare(tally, &self.sheets);
        }
    }

    /// Every row and column with every set of at most two faults, and without a partner.
    fn rows(&mut self, tally: &mut Tally) {
        let mut random = Random::new(0);
        let first = build::pair(0, 0, 0, &mut random);
        let sets = few_faults();
        for spent in KINDS {
            for created in KINDS {
                for faults in &sets {
                    let pair = build::pair(spent, created, *faults, &mut random);
                    self.compare_behind(tally, &first, pair);
                }
            }
            let pair = build::pair(spent, 0, 0, &mut random);
            let pairs = [first.clone(), pair];
            for partners in 0..2 {
                self.sheets.lay(&pairs, partners, &[]);
                compare(tally, &self.sheets);
            }
        }
    }

    /// Every pair of bytes as kinds, and every kind of an output past the inputs.
    fn kinds(&mut self, tally: &mut Tally) {
        let mut random = Random::new(1);
        let mut pair = build::pair(0, 0, 0, &mut random);
        for spent in 0..=255 {
            for created in 0..=255 {
                (pair.coin.kind, pair.output.kind) = (spent, created);
                self.sheets.lay(std::slice::from_ref(&pair), 1, &[]);
                compare(tally, &self.sheets);
            }
        }
        for kind in 0..=255 {
            let other = Piece {
                kind,
                ..Piece::default()
            };
            for others in [vec![other.clone()], vec![Piece::default(), other]] {
                self.sheets.lay(&[], 0, &others);
                compare(tally, &self.sheets);
            }
        }
    }

    /// Inputs and coins that differ in number: the counts of a head, and what stands after it.
    fn counts(&mut self, tally: &mut Tally) {
        let mut random = Random::new(2);
        let pairs = [(); 4].map(|()| build::pair(0, 0, 0, &mut random));
        for inputs in 0..=pairs.len() {
            for coins in 0..=pairs.len() {
                self.sheets.lay(&pairs[..coins], 0, &[]);
                let coin_sheet = std::mem::take(&mut self.sheets.coins);
                self.sheets.lay(&pairs[..inputs], 0, &[]);
                self.sheets.coins = coin_sheet;
                compare(tally, &self.sheets);
            }
        }
    }
}

impl Links {
    /// As many records as a head can tell of: all right, or wrong in the last.
    fn most(&mut self, tally: &mut Tally) {
        const MOST: usize = 1023;
        let mut random = Random::new(3);
        let mut pairs: Vec<Pair> = (0..MOST)
            .map(|number| build::pair(6, [7, 8, 9, 11][number % 4], 0, &mut random))
            .collect();
        for faults in [
            0,
            fault::STARTS_DIFFER,
            fault::OUTPOINT_INDEX,
            fault::NULL_INPUT,
        ] {
            pairs[MOST - 1] = build::pair(3, 4, faults, &mut random);
            self.sheets.lay(&pairs, MOST, &[]);
            compare(tally, &self.sheets);
            self.sheets.lay(&pairs, MOST - 1, &[]);
            compare(tally, &self.sheets);
        }
        let others = vec![Piece::default(); MOST - 1];
        let last = &pairs[..1];
        self.sheets.lay(last, 1, &others);
        compare(tally, &self.sheets);
    }
}

impl Kind for Links {
    fn name(&self) -> &'static str {
        "links"
    }

    fn weight(&self) -> u64 {
        8
    }

    fn exhaustive(&mut self, tally: &mut Tally) {
        self.rows(tally);
        self.kinds(tally);
        self.counts(tally);
        self.most(tally);
    }

    fn random(&mut self, random: &mut Random, tally: &mut Tally) {
        build::draw(&mut self.sheets, random);
        if random.once_in(4) {
            damage_one(&mut self.sheets, random);
        }
        compare(tally, &self.sheets);
    }
}
