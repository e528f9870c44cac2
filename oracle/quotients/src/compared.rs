//! Two multiply-and-divides held to each other.

use crate::inputs::Triple;
use crate::ways::Ways;
use crate::{door, model};
use std::fmt;

/// A multiply-and-divide of words, and one of a signed word.
#[derive(Clone, Copy)]
pub struct Tried {
    pub words: fn(u64, u64, u64) -> Option<(u64, u64)>,
    pub signed: fn(i64, u64, u64) -> Option<(i64, i64)>,
}

pub const PROVED: Tried = Tried { words: door::mul_div, signed: door::signed_mul_div };

pub struct Difference(String);

impl fmt::Display for Difference {
    fn fmt(&self, text: &mut fmt::Formatter) -> fmt::Result {
        text.write_str(&self.0)
    }
}

/// Compares it with whole numbers on each input, and counts the ways.
pub fn compare(tried: Tried, inputs: impl Iterator<Item = Triple>, ways: &mut Ways) -> Result<u64, Difference> {
    let mut count = 0;
    for [a, b, d] in inputs {
        let (found, wanted) = ((tried.words)(a, b, d), model::mul_div(a, b, d));
        if found != wanted {
            return Err(Difference(format!("{a} * {b} / {d}: {found:?}, where {wanted:?} is right")));
        }
        let x = a as i64;
        let (found, wanted) = ((tried.signed)(x, b, d), model::signed_mul_div(x, b, d));
        if found != wanted {
            return Err(Difference(format!("{x} * {b} / {d}, signed: {found:?}, where {wanted:?} is right")));
        }
        ways.count(a, b, d);
        count += 1;
    }
    Ok(count)
}
