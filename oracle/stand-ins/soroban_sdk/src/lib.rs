//! A plain stand-in for `soroban_sdk`: what the insurance module needs to compile and behave, and no more.

mod address;
mod collections;
mod env;
pub mod token;
mod value;

pub use address::{signed_by, Address, NotSigned};
pub use collections::{Map, Vec};
pub use env::{Deployer, Env, Events, Ledger, Space, Storage};
pub use soroban_macros::{contract, contractimpl, contracttype};
pub use value::{BytesN, Stored, String, Symbol, Val};

/// A short name, as the module's storage keys and event topics are.
#[macro_export]
macro_rules! symbol_short {
    ($name:literal) => {
        $crate::Symbol::Short($name)
    };
}
