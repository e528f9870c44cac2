//! The operations of a log as a table: what each is called, and which fields of a record it uses under which names.

use Slot::{Amount, Now, Other, Pool, Reply, Signer, Subject};

/// A field of a record that an operation may use.
#[derive(Clone, Copy, Debug, PartialEq, Eq)]
pub enum Slot {
    Pool,
    Reply,
    Subject,
    Other,
    Amount,
    Now,
    Signer,
}

/// An operation's name and number, and the fields that it uses, in the order in which people name them.
#[derive(Debug)]
pub struct Form {
    pub name: &'static str,
    pub operation: u8,
    pub fields: &'static [(&'static str, Slot)],
}

pub const STAKE: u8 = 1;
pub const WITHDRAW: u8 = 2;
pub const PAY: u8 = 3;
pub const RESERVE: u8 = 4;
pub const CLAIM: u8 = 5;
pub const RATE: u8 = 6;
pub const PAUSE: u8 = 7;
pub const UNPAUSE: u8 = 8;
pub const PAYOUT_CALLER: u8 = 9;

/// Every operation, ascending by number from 1.
pub const FORMS: [Form; 9] = [
    Form {
        name: "stake",
        operation: STAKE,
        fields: &[("pool", Pool), ("staker", Subject), ("amount", Amount), ("now", Now), ("signer", Signer)],
    },
    Form {
        name: "withdraw",
        operation: WITHDRAW,
        fields: &[("pool", Pool), ("staker", Subject), ("amount", Amount), ("now", Now), ("signer", Signer)],
    },
    Form {
        name: "pay",
        operation: PAY,
        fields: &[
            ("pool", Pool),
            ("reply", Reply),
            ("invoice", Subject),
            ("beneficiary", Other),
            ("amount", Amount),
            ("now", Now),
            ("signer", Signer),
        ],
    },
    Form {
        name: "reserve",
        operation: RESERVE,
        fields: &[("pool", Pool), ("offer", Subject), ("amount", Amount), ("now", Now), ("signer", Signer)],
    },
    Form {
        name: "claim",
        operation: CLAIM,
        fields: &[
            ("pool", Pool),
            ("offer", Subject),
            ("lender", Other),
            ("amount", Amount),
            ("now", Now),
            ("signer", Signer),
        ],
    },
    Form {
        name: "rate",
        operation: RATE,
        fields: &[("pool", Pool), ("rate", Amount), ("now", Now), ("signer", Signer)],
    },
    Form { name: "pause", operation: PAUSE, fields: &[("now", Now), ("signer", Signer)] },
    Form { name: "unpause", operation: UNPAUSE, fields: &[("now", Now), ("signer", Signer)] },
    Form {
        name: "payout_caller",
        operation: PAYOUT_CALLER,
        fields: &[("caller", Subject), ("now", Now), ("signer", Signer)],
    },
];

impl Form {
    /// The form of an operation's number.
    pub fn of(operation: u8) -> Option<&'static Form> {
        FORMS.iter().find(|form| form.operation == operation)
    }

    pub fn named(name: &str) -> Option<&'static Form> {
        FORMS.iter().find(|form| form.name == name)
    }

    /// What the operation calls a slot, where it uses it.
    pub fn name_of(&self, slot: Slot) -> Option<&'static str> {
        self.fields.iter().find(|(_, used)| *used == slot).map(|(name, _)| *name)
    }
}
