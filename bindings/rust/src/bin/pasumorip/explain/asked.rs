//! What a line asks for, as the object of a sentence.

use crate::figures::grouped;
use pasumorip::form::Form;
use pasumorip::record::Record;
use pasumorip::{Call, Flaw, Operation, Reply};

pub fn asked(record: &Record, call: &Result<Call, Flaw>) -> String {
    match call {
        Ok(call) => operation(&call.operation),
        Err(_) => match Form::of(record.operation) {
            Some(form) => format!("a {} that is no call", form.name.replace('_', " ")),
            None => "nothing that is a call".to_string(),
        },
    }
}

fn operation(operation: &Operation) -> String {
    match operation {
        Operation::Stake { pool, staker, amount } => {
            format!("a stake of {} in the {} pool by account {staker}", grouped(*amount), pool.name())
        }
        Operation::Withdraw { pool, staker, amount } => {
            format!("a withdrawal of {} from the {} pool by account {staker}", grouped(*amount), pool.name())
        }
        Operation::Pay { pool, reply, invoice, beneficiary, amount } => format!(
            "a direct payment of {} from the {} pool to account {beneficiary} for invoice {invoice}, {}",
            grouped(*amount),
            pool.name(),
            registry(*reply)
        ),
        Operation::Reserve { pool, offer, amount } => {
            format!("cover of {} for offer {offer} in the {} pool", grouped(*amount), pool.name())
        }
        Operation::Claim { pool, offer, lender, amount } => format!(
            "a claim of {} on the cover of offer {offer} in the {} pool for lender {lender}",
            grouped(*amount),
            pool.name()
        ),
        Operation::Rate { rate } => format!("a rate of {} basis points for the flat pool", grouped(*rate)),
        Operation::Pause => "a pause".to_string(),
        Operation::Unpause => "the end of a pause".to_string(),
        Operation::PayoutCaller { caller } => format!("account {caller} as payout caller"),
    }
}

fn registry(reply: Reply) -> &'static str {
    match reply {
        Reply::NotConfigured => "with no registry configured",
        Reply::NotDefaulted => "which the registry does not have as defaulted",
        Reply::Defaulted => "which the registry has as defaulted",
    }
}
