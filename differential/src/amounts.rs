//! Sums and differences of amounts.

use crate::kind::Kind;
use crate::random::Random;
use crate::tally::{Case, Tally};
use hns_primitives::{ArithmeticError, Dollarydoos};
use turgamysk::entries::{self, AmountAnswer};

pub struct Amounts;

fn answer(amount: Result<Dollarydoos, ArithmeticError>) -> AmountAnswer {
    match amount {
        Ok(amount) => AmountAnswer {
            outcome: 0,
            value: amount.get(),
        },
        Err(ArithmeticError::Overflow) => AmountAnswer {
            outcome: 1,
            value: 0,
        },
        Err(ArithmeticError::Underflow) => AmountAnswer {
            outcome: 2,
            value: 0,
        },
    }
}

fn compare(tally: &mut Tally, amount: u64, other: u64) {
    let case = |entry| Case {
        entry,
        input: amount.to_le_bytes().to_vec(),
        with: format!("{amount} and {other}"),
    };
    let (one, two) = (Dollarydoos::new(amount), Dollarydoos::new(other));
    let theirs = answer(one.checked_add(two));
    let ours = entries::checked_add(amount, other);
    tally.compare(0, &ours, &theirs, || case("turgamysk_checked_add"));
    let theirs = answer(one.checked_sub(two));
    let ours = entries::checked_sub(amount, other);
    tally.compare(0, &ours, &theirs, || case("turgamysk_checked_sub"));
}

/// 0, every power of two and its neighbours, and the largest amounts.
fn edges() -> Vec<u64> {
    let powers = (0..64).map(|bit| 1_u64 << bit);
    let mut edges: Vec<u64> = powers
        .flat_map(|power| [power - 1, power, power + 1])
        .collect();
    edges.extend([u64::MAX - 1, u64::MAX]);
    edges
}

impl Kind for Amounts {
    fn name(&self) -> &'static str {
        "amounts"
    }

    fn weight(&self) -> u64 {
        2
    }

    fn exhaustive(&mut self, tally: &mut Tally) {
        let edges = edges();
        for amount in &edges {
            for other in &edges {
                compare(tally, *amount, *other);
            }
        }
        for amount in 0..256 {
            for other in 0..256 {
                compare(tally, amount, other);
                compare(tally, u64::MAX - amount, other);
            }
        }
    }

    /// Any two amounts, or a second one around where the sum overflows or the difference underflows.
    fn random(&mut self, random: &mut Random, tally: &mut Tally) {
        let amount = random.any_size();
        let near = random.below(5) as u64;
        let other = match random.below(4) {
            0 => (u64::MAX - amount).wrapping_add(near).wrapping_sub(2),
            1 => amount.wrapping_add(near).wrapping_sub(2),
            _ => random.any_size(),
        };
        compare(tally, amount, other);
    }
}
