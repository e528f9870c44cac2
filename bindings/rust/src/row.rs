//! A call as a row of a database.

/// The fields of a record, as wide as a database has them. An operation uses some of them, under names of its own
/// ([`FORMS`](crate::form::FORMS)); the others are 0.
///
/// A row may hold anything. The library judges it where it is written ([`write_record`](crate::log::write_record)).
#[derive(Clone, Copy, Debug, Default, PartialEq, Eq)]
pub struct Row {
    /// 1 stake, 2 withdraw, 3 pay, 4 reserve, 5 claim, 6 rate, 7 pause, 8 unpause, 9 payout caller.
    pub operation: u64,
    /// 0 Conservative, 1 Balanced, 2 Aggressive, 3 flat.
    pub pool: u64,
    /// What the registry says of an invoice: 0 not configured, 1 not defaulted, 2 defaulted.
    pub reply: u64,
    /// The time, in seconds.
    pub now: u64,
    pub signer: u64,
    /// The staker, invoice, offer or payout caller.
    pub subject: u64,
    /// A payment's beneficiary, or a claim's lender.
    pub other: u64,
    /// An amount, or a rate in basis points.
    pub amount: i64,
}
