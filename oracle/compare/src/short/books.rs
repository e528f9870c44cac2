//! Small books for short inputs, in the text of `*.tables`. Staker 7 and offer 5 are in most of them; 2 is the payout caller.

pub const BOOKS: &[(&str, &str)] = &[
    ("fresh", "rooms 2 2\nsettings 1 0 0 0"),
    (
        "one staker in each pool",
        "rooms 8 8
stake 0 7 2000000 1000 0
stake 1 7 2000000 1000 5
stake 2 7 2000000 1000 0
stake 3 7 2000000 1000 5
offer 0 5 1000000 0
offer 1 5 1000000 250000
offer 2 5 1000000 1000000
offer 3 5 1000000 1
balances 2000000 2000000 2000000 2000000
unpaid 1000000 750000 0 999999
settings 1 2 0 500",
    ),
    (
        "paused",
        "rooms 8 8
stake 0 7 2000000 1000 0
stake 3 7 2000000 1000 5
offer 0 5 1000000 0
offer 3 5 1000000 1
balances 2000000 0 0 2000000
unpaid 1000000 0 0 999999
settings 1 2 1 500",
    ),
    (
        "no payout caller",
        "rooms 8 8
stake 1 7 2000000 1000 0
stake 3 7 2000000 1000 5
offer 1 5 1000000 0
offer 3 5 1000000 1
balances 0 2000000 0 2000000
unpaid 0 1000000 0 999999
settings 1 0 0 500",
    ),
    (
        // Each pool takes a loss in its own way: 1, 1, 1; 5, -5, 1; a wiped row last; below zero as a whole.
        "a few units",
        "rooms 14 4
stake 0 6 1 1000 0
stake 0 7 1 1000 0
stake 0 8 1 1000 0
stake 1 6 5 1000 0
stake 1 7 -5 1000 3
stake 1 8 1 1000 0
stake 2 6 4 1000 0
stake 2 7 3 1000 0
stake 2 8 0 0 9
stake 3 6 -7 1000 0
stake 3 7 3 1000 2
offer 0 5 3 0
offer 1 5 1 0
offer 2 5 9 2
offer 3 5 2 1
balances 3 1 7 -4
unpaid 3 1 7 1
settings 1 2 0 1000000",
    ),
    (
        "no free row",
        "rooms 3 2
stake 1 7 2000000 1000 0
stake 2 8 0 0 1
stake 3 7 2000000 1000 5
offer 1 5 1000000 0
offer 3 5 1000000 1
balances 0 2000000 0 2000000
unpaid 0 1000000 0 999999
settings 1 2 0 500",
    ),
    (
        "figures on their limits",
        "rooms 12 6
stake 0 6 -1000000000000000 0 0
stake 0 7 1000000000000000 0 1000000000000000
stake 0 8 1000000000000000 17179869183 999999999999999
stake 1 6 999999999999999 1000 0
stake 1 7 -999999999999999 1000 0
stake 1 8 1000000000000000 1000 0
stake 2 7 -1000000000000000 1000 1
stake 3 6 1000000000000000 1000 0
stake 3 7 1000000000000000 1000 999999999999999
stake 3 8 -999999999999999 1000 0
offer 0 5 1000000000000000 0
offer 1 5 999999999999999 0
offer 2 5 1 0
offer 3 5 1000000000000000 999999999999999
balances 1000000000000000 1000000000000000 -1000000000000000 1000000000000001
unpaid 1000000000000000 999999999999999 1 1
settings 1 2 0 1000000",
    ),
    (
        "not well formed",
        "rooms 4 4
stake 1 7 2000000 1000 0
offer 1 5 1000000 0
balances 0 2000001 0 0
unpaid 0 1000000 0 0
settings 1 2 0 500",
    ),
];
