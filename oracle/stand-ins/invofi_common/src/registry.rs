//! The registry: it knows one reply, that of the call under way.

use soroban_sdk::{contracttype, symbol_short, Address, Env, Symbol};

#[contracttype]
#[derive(Clone, Copy, Debug, PartialEq, Eq)]
#[repr(u32)]
pub enum InvoiceStatus {
    Overdue = 0,
    Defaulted = 1,
}

pub struct Invoice {
    pub status: InvoiceStatus,
}

/// The status that every invoice is said to have.
pub fn set_reply(env: &Env, status: InvoiceStatus) {
    env.storage().instance().set(&symbol_short!("reply"), &status);
}

pub struct RegistryClient {
    env: Env,
}

impl RegistryClient {
    pub fn new(env: &Env, _registry: &Address) -> Self {
        RegistryClient { env: env.clone() }
    }

    pub fn get_invoice(&self, _invoice: &Symbol) -> Invoice {
        let status = self.env.storage().instance().get(&symbol_short!("reply"));
        Invoice { status: status.unwrap_or_else(|| panic!("no reply is set")) }
    }
}
