//! Which ways a division in half limbs can take, counted, so that a run shows that it took them all.

use oracle::grouped;
use std::fmt;

const NAMES: [&str; 10] = [
    "no quotient of a word",
    "product of one limb",
    "upper digit: 0 without a guess",
    "upper digit: guess right",
    "upper digit: guess 1 too large",
    "upper digit: guess 2 too large",
    "lower digit: guess right",
    "lower digit: guess 1 too large",
    "lower digit: guess 2 too large",
    "a guess above 2^32 - 1",
];
const NONE: usize = 0;
const ONE_LIMB: usize = 1;
const NO_GUESS: usize = 2;
const UPPER: usize = 3;
const LOWER: usize = 6;
const ABOVE: usize = 9;

const HALF: u128 = 0xffff_ffff;

#[derive(Clone, Copy, Default)]
pub struct Ways([u64; NAMES.len()]);

impl Ways {
    /// Counts the ways of a * b / d. A digit's guess divides by the upper half of the divisor alone, both shifted up by its leading zeros.
    pub fn count(&mut self, a: u64, b: u64, d: u64) {
        let product = u128::from(a) * u128::from(b);
        if product >> 64 >= d.into() {
            self.0[NONE] += 1;
            return;
        }
        if product >> 64 == 0 {
            self.0[ONE_LIMB] += 1;
            return;
        }
        let shift = d.leading_zeros();
        let (divisor, product) = (u128::from(d << shift), product << shift);
        let upper = product >> 32;
        if product >> 64 < divisor >> 32 {
            self.0[NO_GUESS] += 1;
        } else {
            self.guess(UPPER, upper, divisor);
        }
        self.guess(LOWER, (upper % divisor) << 32 | product & HALF, divisor);
    }

    fn guess(&mut self, digit: usize, number: u128, divisor: u128) {
        let guess = (number >> 32) / (divisor >> 32);
        self.0[digit + (guess - number / divisor) as usize] += 1;
        self.0[ABOVE] += u64::from(guess > HALF);
    }

    pub fn add(&mut self, other: &Ways) {
        self.0.iter_mut().zip(other.0).for_each(|(sum, more)| *sum += more);
    }

    /// The first way that was not taken.
    pub fn missed(&self) -> Option<&'static str> {
        self.0.iter().position(|&times| times == 0).map(|at| NAMES[at])
    }
}

/// The rows of a table, beside those of another run.
pub struct Table<'a>(pub &'a Ways, pub &'a Ways);

impl fmt::Display for Table<'_> {
    fn fmt(&self, text: &mut fmt::Formatter) -> fmt::Result {
        for (name, (left, right)) in NAMES.iter().zip(self.0 .0.iter().zip(self.1 .0)) {
            writeln!(text, "| {name} | {} | {} |", grouped(*left), grouped(right))?;
        }
        Ok(())
    }
}
