//! The proved multiply-and-divide, through the door: all unsafe code of this crate.

mod c {
    extern "C" {
        pub fn door_mul_div(a: u64, b: u64, d: u64, answer: *mut u64, answer_words: usize) -> u8;
        pub fn door_signed_mul_div(x: u64, m: u64, d: u64, answer: *mut u64, answer_words: usize) -> u8;
    }
}

pub fn mul_div(a: u64, b: u64, d: u64) -> Option<(u64, u64)> {
    let mut answer = [0; 2];
    // SAFETY: the words lent are this function's own.
    let exact = unsafe { c::door_mul_div(a, b, d, answer.as_mut_ptr(), answer.len()) };
    (exact == 1).then_some((answer[0], answer[1]))
}

pub fn signed_mul_div(x: i64, m: u64, d: u64) -> Option<(i64, i64)> {
    let mut answer = [0; 2];
    // SAFETY: the words lent are this function's own.
    let exact = unsafe { c::door_signed_mul_div(x as u64, m, d, answer.as_mut_ptr(), answer.len()) };
    (exact == 1).then_some((answer[0] as i64, answer[1] as i64))
}
