//! Calls into the insurance module, with its panics read as codes.

use crate::answer::Code;
use crate::limits::FLAT;
use crate::operation::Operation;
use insurance::{InsuranceContract as Module, InsuranceTier};
use invofi_common::{ContractError, InvoiceStatus};
use soroban_sdk::{signed_by, symbol_short, Address, Env, NotSigned, Symbol, Vec};
use std::any::Any;
use std::cell::Cell;
use std::panic::{catch_unwind, resume_unwind, set_hook, take_hook, AssertUnwindSafe};
use std::sync::Once;

/// The tier of a pool; None is the flat pool.
pub fn tier(pool: u8) -> Option<InsuranceTier> {
    match pool {
        0 => Some(InsuranceTier::Conservative),
        1 => Some(InsuranceTier::Balanced),
        2 => Some(InsuranceTier::Aggressive),
        FLAT => None,
        _ => unreachable!("pool {pool} is Malformed"),
    }
}

/// A module with the given admin and nothing else.
pub fn construct(admin: u64) -> Env {
    let env = Env::default();
    let token = env.current_contract_address();
    Module::__constructor(env.clone(), Address(admin), token);
    env
}

/// The two numbers that the operation answers. Where it is refused the environment is spoilt and to be thrown away.
pub fn run(env: &Env, signer: u64, operation: &Operation) -> Result<(i128, i128), Code> {
    let signer = Address(signer);
    let call = || signed_by(&signer, || dispatch(env, &signer, operation));
    quietly(call).map_err(code_of)
}

fn dispatch(env: &Env, signer: &Address, operation: &Operation) -> (i128, i128) {
    let mut signers = Vec::new(env);
    signers.push_back(signer.clone());
    match *operation {
        Operation::Stake { pool, staker, amount } => {
            match tier(pool) {
                Some(tier) => Module::stake_tier(env.clone(), Address(staker), tier, amount.into()),
                None => Module::stake(env.clone(), Address(staker), amount.into()),
            }
            (0, 0)
        }
        Operation::Withdraw { pool, staker, amount } => {
            match tier(pool) {
                Some(tier) => Module::unstake_tier(env.clone(), Address(staker), tier, amount.into()),
                None => Module::unstake(env.clone(), Address(staker), amount.into()),
            }
            (0, 0)
        }
        Operation::Pay { pool, reply, invoice, beneficiary, amount } => {
            configure_registry(env, reply);
            let (invoice, beneficiary, amount) = (Symbol::Number(invoice), Address(beneficiary), amount.into());
            let paid = match tier(pool) {
                Some(tier) => Module::pay_out_tier(env.clone(), invoice, tier, beneficiary, amount),
                None => Module::pay_out(env.clone(), invoice, beneficiary, amount),
            };
            (paid, 0)
        }
        Operation::Reserve { pool, offer, amount } => {
            let (offer, amount) = (Symbol::Number(offer), amount.into());
            let granted = match tier(pool) {
                Some(tier) => Module::reserve_payout_tier(env.clone(), offer, tier, amount),
                None => Module::reserve_payout(env.clone(), offer, amount),
            };
            (granted, 0)
        }
        Operation::Claim { pool, offer, lender, amount } => {
            let (offer, lender, amount) = (Symbol::Number(offer), Address(lender), amount.into());
            match tier(pool) {
                Some(tier) => Module::claim_payout_tier(env.clone(), offer, tier, lender, amount),
                None => Module::claim_payout(env.clone(), offer, lender, amount),
            }
        }
        Operation::Rate { rate } => {
            // A rate that has no u32 is above the limit and refused whatever comes of it here.
            Module::set_yield_rate(env.clone(), signers, u32::try_from(rate).unwrap_or(u32::MAX));
            (0, 0)
        }
        Operation::Pause => {
            Module::pause(env.clone(), signers);
            (0, 0)
        }
        Operation::Unpause => {
            Module::unpause(env.clone(), signers);
            (0, 0)
        }
        Operation::PayoutCaller { caller } => {
            Module::set_payout_caller(env.clone(), signers, Address(caller));
            (0, 0)
        }
    }
}

/// What the module says is accrued at the environment's time.
pub fn accrued(env: Env, pool: u8, account: u64) -> i128 {
    match tier(pool) {
        Some(tier) => Module::accrued_tier_yield(env, Address(account), tier),
        None => Module::accrued_yield(env, Address(account)),
    }
}

/// The registry's reply is the call's: 0 not configured, 1 not Defaulted, 2 Defaulted.
fn configure_registry(env: &Env, reply: u8) {
    let registry = symbol_short!("registry");
    if reply == 0 {
        env.storage().instance().remove(&registry);
    } else {
        env.storage().instance().set(&registry, &env.current_contract_address());
        let status = if reply == 1 { InvoiceStatus::Overdue } else { InvoiceStatus::Defaulted };
        invofi_common::set_reply(env, status);
    }
}

/// A panic that is no refusal goes on as a panic.
fn code_of(panic: Box<dyn Any + Send>) -> Code {
    if panic.is::<NotSigned>() {
        return Code::NotAllowed;
    }
    if let Some(error) = panic.downcast_ref::<ContractError>() {
        return match error {
            ContractError::ContractPaused => Code::Paused,
            ContractError::Unauthorized => Code::NotAllowed,
            ContractError::InvalidInput => Code::InvalidInput,
            ContractError::InvalidTransition => Code::InvalidTransition,
            ContractError::InsufficientBalance => Code::InsufficientBalance,
        };
    }
    match panic.downcast_ref::<&str>() {
        Some(&"No payout caller configured") => Code::NoPayer,
        Some(&"Registry not configured") => Code::NoRegistry,
        _ => resume_unwind(panic),
    }
}

thread_local! {
    static QUIET: Cell<bool> = const { Cell::new(false) };
}

/// Catches a panic without the message that panics print: a refusal is an answer.
fn quietly<T>(call: impl FnOnce() -> T) -> Result<T, Box<dyn Any + Send>> {
    static HOOK: Once = Once::new();
    HOOK.call_once(|| {
        let loud = take_hook();
        set_hook(Box::new(move |info| {
            if !QUIET.get() {
                loud(info);
            }
        }));
    });
    QUIET.set(true);
    let result = catch_unwind(AssertUnwindSafe(call));
    QUIET.set(false);
    result
}
