//! The edges alone find each slip of a division in half limbs, so that a run without a difference says something.

use crate::compared::{compare, Tried};
use crate::inputs::{edge_words, edges};
use crate::model;
use crate::ways::Ways;

const HALF: u64 = 0xffff_ffff;

#[derive(Clone, Copy, PartialEq)]
enum Slip {
    None,
    NotLowered,
    LoweredOnceTooOften,
    SecondLoweringMissed,
    GuessAboveAHalfTaken,
    HalvesExchanged,
    RemainderNotShiftedBack,
}

/// A digit and what it leaves.
fn digit(slip: Slip, rest: u64, half: u64, divisor: u64) -> (u64, u64) {
    let (upper, lower) = (divisor >> 32, divisor & HALF);
    let guess = rest / upper;
    let (mut digit, mut left) = (i128::from(guess), i128::from(rest - guess * upper) << 32 | i128::from(half));
    left -= i128::from(guess) * i128::from(lower);
    let most = match slip {
        Slip::NotLowered => 0,
        Slip::SecondLoweringMissed => 1,
        Slip::GuessAboveAHalfTaken if guess > HALF => 0,
        _ => 2,
    };
    let mut lowered = 0;
    while left < 0 && lowered < most {
        (digit, left, lowered) = (digit - 1, left + i128::from(divisor), lowered + 1);
    }
    if slip == Slip::LoweredOnceTooOften && lowered > 0 {
        (digit, left) = (digit - 1, left + i128::from(divisor));
    }
    (digit as u64, left as u64)
}

fn mul_div(slip: Slip, a: u64, b: u64, d: u64) -> Option<(u64, u64)> {
    let product = u128::from(a) * u128::from(b);
    if product >> 64 >= d.into() {
        return None;
    }
    if product >> 64 == 0 {
        return Some((product as u64 / d, product as u64 % d));
    }
    let shift = d.leading_zeros();
    let (divisor, product) = (d << shift, product << shift);
    let (mut first, mut second) = (product as u64 >> 32, product as u64 & HALF);
    if slip == Slip::HalvesExchanged {
        (first, second) = (second, first);
    }
    let (top, rest) = digit(slip, (product >> 64) as u64, first, divisor);
    let (bottom, rest) = digit(slip, rest, second, divisor);
    let remainder = if slip == Slip::RemainderNotShiftedBack { rest } else { rest >> shift };
    Some(((top << 32).wrapping_add(bottom), remainder))
}

/// Whether the edges show a difference.
fn found(words: fn(u64, u64, u64) -> Option<(u64, u64)>) -> bool {
    let tried = Tried { words, signed: model::signed_mul_div };
    edge_words().into_iter().any(|divisor| compare(tried, edges(divisor), &mut Ways::default()).is_err())
}

#[test]
fn no_difference_without_a_slip() {
    assert!(!found(|a, b, d| mul_div(Slip::None, a, b, d)));
}

#[test]
fn each_slip_is_found() {
    assert!(found(|a, b, d| mul_div(Slip::NotLowered, a, b, d)), "not lowered");
    assert!(found(|a, b, d| mul_div(Slip::LoweredOnceTooOften, a, b, d)), "lowered once too often");
    assert!(found(|a, b, d| mul_div(Slip::SecondLoweringMissed, a, b, d)), "second lowering missed");
    assert!(found(|a, b, d| mul_div(Slip::GuessAboveAHalfTaken, a, b, d)), "a guess above 2^32 - 1 taken");
    assert!(found(|a, b, d| mul_div(Slip::HalvesExchanged, a, b, d)), "halves exchanged");
    assert!(found(|a, b, d| mul_div(Slip::RemainderNotShiftedBack, a, b, d)), "remainder not shifted back");
}
