//! The admin: one signer, and a threshold of one.

use crate::ContractError;
use soroban_sdk::{contracttype, symbol_short, Address, Env, Vec};

#[contracttype]
#[derive(Clone, Debug, PartialEq, Eq)]
pub struct AdminConfig {
    pub signers: Vec<Address>,
    pub threshold: u32,
}

pub fn init_admin_config(env: &Env, admin: &Address) {
    let mut signers = Vec::new(env);
    signers.push_back(admin.clone());
    save_admin_config(env, &AdminConfig { signers, threshold: 1 });
}

pub fn load_admin_config(env: &Env) -> AdminConfig {
    env.storage().instance().get(&symbol_short!("admincfg")).unwrap_or_else(|| panic!("Not initialized"))
}

pub fn save_admin_config(env: &Env, config: &AdminConfig) {
    env.storage().instance().set(&symbol_short!("admincfg"), config);
}

/// At least `threshold` of the configured signers signed, and nobody else is named.
pub fn assert_threshold(env: &Env, config: &AdminConfig, signers: &Vec<Address>) {
    for signer in signers.iter() {
        signer.require_auth();
        if !config.signers.iter().any(|admin| admin == signer) {
            env.panic_with_error(ContractError::Unauthorized);
        }
    }
    if signers.len() < config.threshold {
        env.panic_with_error(ContractError::Unauthorized);
    }
}

pub fn validate_signers(env: &Env, signers: &Vec<Address>, threshold: u32) {
    if threshold == 0 || threshold > signers.len() {
        env.panic_with_error(ContractError::InvalidInput);
    }
}
