//! What every kind of cases has.

use crate::random::Random;
use crate::tally::Tally;

pub trait Kind {
    fn name(&self) -> &'static str;

    /// Its share of the random cases: cheap ones have more.
    fn weight(&self) -> u64;

    /// The cases that are gone through once, whatever the seed.
    fn exhaustive(&mut self, tally: &mut Tally);

    /// One random case.
    fn random(&mut self, random: &mut Random, tally: &mut Tally);
}

/// Every input of at most `longest` bytes.
pub fn short_inputs(longest: u32, mut each: impl FnMut(&[u8])) {
    for length in 0..=longest {
        for number in 0..1_u64 << (8 * length) {
            each(&number.to_le_bytes()[..length as usize]);
        }
    }
}
