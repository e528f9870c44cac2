//! The environment of a call: storage, clock and the transfers made.

use crate::token::Transfer;
use crate::{Address, BytesN, Stored, Symbol, Val};
use std::any::Any;
use std::cell::RefCell;
use std::collections::BTreeMap;
use std::panic::resume_unwind;
use std::rc::Rc;

#[derive(Clone, Default)]
struct State {
    timestamp: u64,
    instance: BTreeMap<Symbol, Val>,
    persistent: BTreeMap<Symbol, Val>,
    transfers: Vec<Transfer>,
}

/// Clones share one state, as the module expects; `fork` copies it.
#[derive(Clone, Default)]
pub struct Env {
    state: Rc<RefCell<State>>,
}

impl Env {
    /// An environment of its own with the same storage, a new time and no transfers yet.
    pub fn fork(&self, timestamp: u64) -> Env {
        let state = State { timestamp, transfers: Vec::new(), ..self.state.borrow().clone() };
        Env { state: Rc::new(RefCell::new(state)) }
    }

    /// The next call on this same storage: a new time and no transfers yet.
    pub fn begin(&self, timestamp: u64) {
        let mut state = self.state.borrow_mut();
        state.timestamp = timestamp;
        state.transfers.clear();
    }

    pub fn transfers(&self) -> Vec<Transfer> {
        self.state.borrow().transfers.clone()
    }

    pub(crate) fn record(&self, transfer: Transfer) {
        self.state.borrow_mut().transfers.push(transfer);
    }

    pub fn storage(&self) -> Storage {
        Storage(self.clone())
    }

    pub fn ledger(&self) -> Ledger {
        Ledger(self.clone())
    }

    pub fn events(&self) -> Events {
        Events
    }

    pub fn deployer(&self) -> Deployer {
        Deployer
    }

    pub fn current_contract_address(&self) -> Address {
        Address(0)
    }

    /// Unwinds with the error itself, so that whoever catches it can tell which it is.
    pub fn panic_with_error<E: Any + Send>(&self, error: E) -> ! {
        resume_unwind(Box::new(error))
    }
}

pub struct Storage(Env);

impl Storage {
    pub fn instance(&self) -> Space {
        Space { env: self.0.clone(), of: |state| &mut state.instance }
    }

    pub fn persistent(&self) -> Space {
        Space { env: self.0.clone(), of: |state| &mut state.persistent }
    }
}

/// One of the two kinds of storage.
pub struct Space {
    env: Env,
    of: fn(&mut State) -> &mut BTreeMap<Symbol, Val>,
}

impl Space {
    pub fn get<V: Stored>(&self, key: &Symbol) -> Option<V> {
        (self.of)(&mut self.env.state.borrow_mut()).get(key).map(V::load)
    }

    pub fn set<V: Stored>(&self, key: &Symbol, value: &V) {
        (self.of)(&mut self.env.state.borrow_mut()).insert(key.clone(), value.store());
    }

    pub fn remove(&self, key: &Symbol) {
        (self.of)(&mut self.env.state.borrow_mut()).remove(key);
    }
}

pub struct Ledger(Env);

impl Ledger {
    pub fn timestamp(&self) -> u64 {
        self.0.state.borrow().timestamp
    }
}

/// Events are of no account here.
pub struct Events;

impl Events {
    pub fn publish<T, D>(&self, _topics: T, _data: D) {}
}

pub struct Deployer;

impl Deployer {
    pub fn update_current_contract_wasm(&self, _wasm_hash: BytesN<32>) {}
}
