//! Runs of back-to-back covenants.

use super::build;
use crate::kind::{Kind, short_inputs};
use crate::oracle;
use crate::random::Random;
use crate::tally::{Case, Tally};
use turgamysk::entries::{self, RunAnswer, StepAnswer};

#[derive(Default)]
pub struct Runs {
    bytes: Vec<u8>,
}

/// The allowance for each covenant: the default, which is the original's `decode_from`, or one that is named.
#[derive(Clone, Copy)]
enum Allowance {
    Default,
    Limit(usize),
}

impl Allowance {
    const fn bytes(self) -> usize {
        match self {
            Self::Default => 1_000_009,
            Self::Limit(limit) => limit,
        }
    }

    fn next(self, bytes: &[u8], position: usize, count: usize) -> (&'static str, StepAnswer) {
        match self {
            Self::Default => (
                "turgamysk_covenant_run_next",
                entries::covenant_run_next(bytes, position, count),
            ),
            Self::Limit(limit) => (
                "turgamysk_covenant_run_next_with_limit",
                entries::covenant_run_next_with_limit(bytes, limit, position, count),
            ),
        }
    }

    fn read(self, bytes: &[u8]) -> Vec<(&'static str, RunAnswer)> {
        match self {
            Self::Default => vec![
                (
                    "turgamysk_covenant_read_run",
                    entries::covenant_read_run(bytes),
                ),
                (
                    "turgamysk_covenant_import_archive",
                    entries::covenant_import_archive(bytes),
                ),
            ],
            Self::Limit(limit) => vec![(
                "turgamysk_covenant_read_run_with_limit",
                entries::covenant_read_run_with_limit(bytes, limit),
            )],
        }
    }
}

/// The original's covenants one after the other: each step as ours has it, and how the run ended.
fn compare(tally: &mut Tally, bytes: &[u8], allowance: Allowance) {
    let mut position = 0;
    for count in 0.. {
        let theirs = compare_one(tally, bytes, allowance, position, count);
        if theirs.ended || theirs.stop.number != 0 {
            return compare_whole(tally, bytes, allowance, &theirs);
        }
        position = theirs.stop.position;
    }
}

fn compare_one(
    tally: &mut Tally,
    bytes: &[u8],
    allowance: Allowance,
    position: usize,
    count: usize,
) -> StepAnswer {
    let theirs = step(bytes, allowance.bytes(), position, count);
    let (entry, ours) = allowance.next(bytes, position, count);
    tally.compare(theirs.stop.number, &ours, &theirs, || Case {
        entry,
        input: bytes.to_vec(),
        with: format!(
            "limit {}, position {position}, count {count}",
            allowance.bytes()
        ),
    });
    theirs
}

fn compare_whole(tally: &mut Tally, bytes: &[u8], allowance: Allowance, last: &StepAnswer) {
    let theirs = RunAnswer {
        stop: last.stop,
        covenants: last.covenants,
    };
    for (entry, ours) in allowance.read(bytes) {
        tally.compare(theirs.stop.number, &ours, &theirs, || Case {
            entry,
            input: bytes.to_vec(),
            with: format!("limit {}", allowance.bytes()),
        });
    }
}

/// "It ends with their count when no bytes are left, or with the first refusal and the count before it."
fn step(bytes: &[u8], limit: usize, position: usize, count: usize) -> StepAnswer {
    if position == bytes.len() {
        return StepAnswer {
            ended: true,
            covenants: count,
            ..StepAnswer::default()
        };
    }
    let read = oracle::covenant_read(bytes, position, limit);
    let is_read = read.stop.number == 0;
    StepAnswer {
        stop: read.stop,
        ended: false,
        kind: read.kind,
        count: read.count,
        used: read.used,
        covenants: count.wrapping_add(usize::from(is_read)),
    }
}

/// A step from any place, with any count before it.
fn compare_step(tally: &mut Tally, bytes: &[u8], random: &mut Random) {
    let position = random.below(bytes.len() + 3);
    let count = random.of(&[0, 1, 1000, usize::MAX - 1, usize::MAX]);
    let limit = random.of(&[0, 1, 2, 30, 1_000_009, usize::MAX]);
    for allowance in [Allowance::Default, Allowance::Limit(limit)] {
        if position > bytes.len() {
            tally.known("cursor-beyond");
        }
        compare_one(tally, bytes, allowance, position, count);
    }
}

impl Kind for Runs {
    fn name(&self) -> &'static str {
        "covenant run"
    }

    fn weight(&self) -> u64 {
        5
    }

    fn exhaustive(&mut self, tally: &mut Tally) {
        short_inputs(2, |bytes| compare(tally, bytes, Allowance::Default));
    }

    fn random(&mut self, random: &mut Random, tally: &mut Tally) {
        self.bytes.clear();
        for _ in 0..random.below(6) {
            let start = self.bytes.len();
            build::put_covenant(&mut self.bytes, random);
            if random.once_in(10) {
                build::damage(&mut self.bytes, start, random);
            }
        }
        let limit = if random.once_in(4) {
            random.below(300)
        } else {
            1_000_009
        };
        compare(tally, &self.bytes, Allowance::Default);
        compare(tally, &self.bytes, Allowance::Limit(limit));
        compare_step(tally, &self.bytes, random);
    }
}
