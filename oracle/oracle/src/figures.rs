//! Figures as people read them.

/// Digits in threes.
pub fn grouped(number: u64) -> String {
    let digits = number.to_string();
    let threes: Vec<&[u8]> = digits.as_bytes().rchunks(3).rev().collect();
    String::from_utf8(threes.join(&b',')).expect("digits")
}
