//! A plain stand-in for `invofi_common`: one admin, the pause, the registry's reply, and stubs for versions and upgrades.

mod admin;
mod registry;
mod upgrade;

pub use admin::{
    assert_threshold, init_admin_config, load_admin_config, save_admin_config, validate_signers, AdminConfig,
};
pub use registry::{set_reply, Invoice, InvoiceStatus, RegistryClient};
pub use upgrade::{
    begin_upgrade, commit_rollback, complete_upgrade, contract_version, initialize_contract_version, rollback_target,
};

use soroban_sdk::{symbol_short, Env};

#[derive(Clone, Copy, Debug, PartialEq, Eq)]
pub enum ContractError {
    ContractPaused,
    Unauthorized,
    InvalidInput,
    InvalidTransition,
    InsufficientBalance,
}

/// The module's `pause` and `unpause` write the flag that is read here.
pub fn assert_not_paused(env: &Env) {
    if env.storage().instance().get(&symbol_short!("paused")).unwrap_or(false) {
        env.panic_with_error(ContractError::ContractPaused);
    }
}
