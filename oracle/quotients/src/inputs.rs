//! What is multiplied and divided: every edge, and numbers at random.

use oracle::Rng;

/// A factor, a factor and a divisor.
pub type Triple = [u64; 3];

/// Every power of two and its neighbours, and every pair of halves at the edges of a half: the divisors 2^32, 2^63, 2^64 - 1, and the one with
/// the least upper half, 2^31, and the largest lower one, 2^32 - 1, among them.
pub fn edge_words() -> Vec<u64> {
    let mut words = vec![0];
    for power in (0..64).map(|bit| 1u64 << bit) {
        words.extend([power - 1, power, power.wrapping_add(1)]);
    }
    const HALVES: [u64; 8] = [0, 1, 0x7fff_ffff, 0x8000_0000, 0x8000_0001, 0xffff_0000, 0xffff_fffe, 0xffff_ffff];
    words.extend(HALVES.iter().flat_map(|high| HALVES.map(|low| high << 32 | low)));
    words.sort_unstable();
    words.dedup();
    words
}

/// All products of two edge words by this divisor, and of every edge word those with another factor that are a multiple of the divisor or one
/// below a multiple.
pub fn edges(divisor: u64) -> impl Iterator<Item = Triple> {
    let words = edge_words();
    let products = words.clone().into_iter().flat_map(move |a| words.clone().into_iter().map(move |b| [a, b, divisor]));
    let near = edge_words().into_iter().flat_map(move |a| {
        let below = inverse(a, divisor).map(|inverse| [a, divisor - inverse, divisor]);
        [[a, divisor, divisor]].into_iter().chain(below)
    });
    products.chain(near)
}

/// The number below d whose product with a is 1 above a multiple of d, where there is one.
fn inverse(a: u64, d: u64) -> Option<u64> {
    if d < 2 {
        return None;
    }
    let (mut left, mut right) = ((i128::from(d), 0), (i128::from(a % d), 1));
    while right.0 != 0 {
        let times = left.0 / right.0;
        (left, right) = (right, (left.0 - times * right.0, left.1 - times * right.1));
    }
    (left.0 == 1).then_some(left.1.rem_euclid(d.into()) as u64)
}

/// Words of any length, words of long runs of equal bits, and divisors that give a quotient of any length and next to no remainder or nearly all.
pub fn random(rng: &mut Rng) -> Triple {
    match rng.below(4) {
        0 => [0; 3].map(|_| any_length(rng)),
        1 => [0; 3].map(|_| runs(rng)),
        kind => {
            let [a, b, quotient] = if kind == 2 { [0; 3].map(|_| any_length(rng)) } else { [0; 3].map(|_| runs(rng)) };
            let divisor = u128::from(a) * u128::from(b) / u128::from(quotient.max(1)) + u128::from(rng.below(2));
            [a, b, u64::try_from(divisor).unwrap_or(u64::MAX)]
        }
    }
}

fn any_length(rng: &mut Rng) -> u64 {
    rng.word() >> rng.below(64)
}

fn runs(rng: &mut Rng) -> u64 {
    let bits = rng.word();
    (0..5).fold(0, |word, turn| word ^ (u64::MAX >> (bits >> (6 * turn) & 63)))
}
