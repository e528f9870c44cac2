//! The same in whole numbers of 128 bits.

/// a * b / d and a * b % d, where d is not 0 and the quotient is a word.
pub fn mul_div(a: u64, b: u64, d: u64) -> Option<(u64, u64)> {
    let (product, d) = (u128::from(a) * u128::from(b), u128::from(d));
    if d == 0 {
        return None;
    }
    Some((u64::try_from(product / d).ok()?, (product % d) as u64))
}

/// x * m / d rounded toward zero and what that drops, where d is not 0 and both are below 2^63 in size.
pub fn signed_mul_div(x: i64, m: u64, d: u64) -> Option<(i64, i64)> {
    let (product, d) = (i128::from(x) * i128::from(m), i128::from(d));
    if d == 0 {
        return None;
    }
    let word = |number: i128| (number.unsigned_abs() < 1 << 63).then_some(number as i64);
    Some((word(product / d)?, word(product % d)?))
}
