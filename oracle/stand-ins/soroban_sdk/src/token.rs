//! A token that only writes down what it is told to move.

use crate::{Address, Env};

#[derive(Clone, Debug, PartialEq, Eq)]
pub struct Transfer {
    pub from: Address,
    pub to: Address,
    pub amount: i128,
}

pub struct TokenClient {
    env: Env,
}

impl TokenClient {
    pub fn new(env: &Env, _token: &Address) -> Self {
        TokenClient { env: env.clone() }
    }

    pub fn transfer(&self, from: &Address, to: &Address, amount: &i128) {
        self.env.record(Transfer { from: from.clone(), to: to.clone(), amount: *amount });
    }

    pub fn transfer_from(&self, _spender: &Address, from: &Address, to: &Address, amount: &i128) {
        self.transfer(from, to, amount);
    }

    /// No call of document 01 asks for it.
    pub fn balance(&self, _account: &Address) -> i128 {
        unimplemented!("the stand-in keeps no token balances")
    }
}
