//! Versions and upgrades: stubs, since no call of document 01 comes here.

use soroban_sdk::{BytesN, Env, String};

pub fn initialize_contract_version(_env: &Env, _version: &str) {}

pub fn contract_version(_env: &Env) -> String {
    String(std::string::String::new())
}

pub fn begin_upgrade(_env: &Env, _current: &BytesN<32>, _new: &BytesN<32>, _version: &String) {}

pub fn complete_upgrade(_env: &Env) {}

pub fn rollback_target(env: &Env) -> (BytesN<32>, String) {
    (BytesN([0; 32]), contract_version(env))
}

pub fn commit_rollback(_env: &Env, _version: &String) {}
