//! Sums and differences of amounts, at the ends of their type and around them.

use turgamysk::entries::{self, AmountAnswer};
use turgamysk::{ArithmeticError, Dollarydoos};

/// Every power of two, and its neighbours.
fn amounts() -> Vec<u64> {
    let powers = (0..64).map(|bit| 1_u64 << bit);
    let mut amounts: Vec<u64> = powers
        .flat_map(|power| [power - 1, power, power + 1])
        .collect();
    amounts.extend([u64::MAX - 1, u64::MAX]);
    amounts
}

#[test]
fn sums_and_differences_are_those_of_the_numbers() {
    for amount in amounts() {
        for other in amounts() {
            let sum = Dollarydoos(amount).checked_add(Dollarydoos(other));
            let expected = amount.checked_add(other).map(Dollarydoos);
            assert_eq!(sum, expected.ok_or(ArithmeticError::Overflow));
            let difference = Dollarydoos(amount).checked_sub(Dollarydoos(other));
            let expected = amount.checked_sub(other).map(Dollarydoos);
            assert_eq!(difference, expected.ok_or(ArithmeticError::Underflow));
        }
    }
}

#[test]
fn an_answer_without_an_amount_has_a_zero_there() {
    let answer = |outcome| AmountAnswer { outcome, value: 0 };
    assert_eq!(entries::checked_add(u64::MAX, 1), answer(1));
    assert_eq!(entries::checked_add(u64::MAX, u64::MAX), answer(1));
    assert_eq!(entries::checked_sub(0, 1), answer(2));
    assert_eq!(entries::checked_sub(0, u64::MAX), answer(2));
    assert_eq!(entries::checked_sub(7, 7), answer(0));
}
