//! Accounts, and the one that signed the call under way.

use std::cell::Cell;
use std::panic::resume_unwind;

/// An account by its number; 0 is the contract's own.
#[derive(Clone, Debug, PartialEq, Eq, PartialOrd, Ord)]
pub struct Address(pub u64);

/// What `require_auth` panics with.
pub struct NotSigned;

// An address carries no environment here, so the signer stands beside the call and not in it.
thread_local! {
    static SIGNER: Cell<Option<u64>> = const { Cell::new(None) };
}

/// Runs a call that this account has signed.
pub fn signed_by<T>(signer: &Address, call: impl FnOnce() -> T) -> T {
    struct Cleared;
    impl Drop for Cleared {
        fn drop(&mut self) {
            SIGNER.set(None);
        }
    }
    SIGNER.set(Some(signer.0));
    let _cleared = Cleared;
    call()
}

impl Address {
    pub fn require_auth(&self) {
        if SIGNER.get() != Some(self.0) {
            resume_unwind(Box::new(NotSigned));
        }
    }
}
