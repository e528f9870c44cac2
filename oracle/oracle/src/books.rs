//! The module's storage read as rows and figures, and written from them.

use crate::limits::{FLAT, POOLS};
use crate::module::{self, tier};
use crate::operation::Operation;
use insurance::{InsuranceContract as Module, InsuranceTier, PoolRecord};
use soroban_sdk::{contracttype, symbol_short, Address, Env, Map, Stored, Symbol};
use std::collections::BTreeMap;

#[derive(Clone, Debug, Default, PartialEq, Eq)]
pub struct StakeRow {
    pub pool: u8,
    pub account: u64,
    pub stake: i128,
    pub since: u64,
    pub accrual: i128,
}

#[derive(Clone, Debug, Default, PartialEq, Eq)]
pub struct OfferRow {
    pub pool: u8,
    pub offer: u64,
    pub reserved: i128,
    pub paid: i128,
}

/// A payout caller of 0 is none.
#[derive(Clone, Debug, PartialEq, Eq)]
pub struct Settings {
    pub admin: u64,
    pub caller: u64,
    pub paused: bool,
    pub rate: u32,
}

/// Rows ascend by pool, then number; there is none without figures.
#[derive(Clone, Debug, PartialEq, Eq)]
pub struct Books {
    pub stakes: Vec<StakeRow>,
    pub offers: Vec<OfferRow>,
    pub balances: [i128; POOLS as usize],
    pub unpaid: [i128; POOLS as usize],
    pub settings: Settings,
}

// The module's keys are private to it; these are stored as the same fields.
#[contracttype]
#[derive(Clone)]
struct TierStakeKey {
    staker: Address,
    tier: InsuranceTier,
}

#[contracttype]
#[derive(Clone)]
struct TierOfferKey {
    offer_id: Symbol,
    tier: InsuranceTier,
}

fn map<K: Stored + Clone, V: Stored>(env: &Env, name: Symbol) -> Map<K, V> {
    env.storage().persistent().get(&name).unwrap_or_else(|| Map::new(env))
}

fn number(symbol: Symbol) -> u64 {
    match symbol {
        Symbol::Number(number) => number,
        Symbol::Short(name) => panic!("{name} is no offer"),
    }
}

/// A figure of both the flat map and the tiers' map, by pool and account.
fn by_account<V: Stored>(env: &Env, flat: Symbol, tiers: Symbol) -> impl Iterator<Item = ((u8, u64), V)> {
    let flat: Map<Address, V> = map(env, flat);
    let tiers: Map<TierStakeKey, V> = map(env, tiers);
    let flat: Vec<_> = flat.iter().map(|(staker, v)| ((FLAT, staker.0), v)).collect();
    let tiers: Vec<_> = tiers.iter().map(|(key, v)| ((key.tier as u8, key.staker.0), v)).collect();
    tiers.into_iter().chain(flat)
}

fn by_offer(env: &Env, flat: Symbol, tiers: Symbol) -> impl Iterator<Item = ((u8, u64), i128)> {
    let flat: Map<Symbol, i128> = map(env, flat);
    let tiers: Map<TierOfferKey, i128> = map(env, tiers);
    let flat: Vec<_> = flat.iter().map(|(offer, v)| ((FLAT, number(offer)), v)).collect();
    let tiers: Vec<_> = tiers.iter().map(|(key, v)| ((key.tier as u8, number(key.offer_id)), v)).collect();
    tiers.into_iter().chain(flat)
}

fn read_stakes(env: &Env) -> Vec<StakeRow> {
    let mut rows: BTreeMap<(u8, u64), StakeRow> = BTreeMap::new();
    for (key, stake) in by_account(env, symbol_short!("stakes"), symbol_short!("tstakes")) {
        rows.entry(key).or_default().stake = stake;
    }
    for (key, accrual) in by_account(env, symbol_short!("yld_acc"), symbol_short!("tyld_acc")) {
        rows.entry(key).or_default().accrual = accrual;
    }
    for (key, since) in by_account(env, symbol_short!("stk_ts"), symbol_short!("tstk_ts")) {
        rows.entry(key).or_default().since = since;
    }
    rows.into_iter()
        .map(|((pool, account), row)| {
            // The module leaves the time of a wiped stake behind and never reads it again.
            let since = if row.stake == 0 { 0 } else { row.since };
            StakeRow { pool, account, since, ..row }
        })
        .filter(|row| row.stake != 0 || row.accrual != 0)
        .collect()
}

fn read_offers(env: &Env) -> Vec<OfferRow> {
    let mut rows: BTreeMap<(u8, u64), OfferRow> = BTreeMap::new();
    for (key, reserved) in by_offer(env, symbol_short!("resrvd"), symbol_short!("tresrv")) {
        rows.entry(key).or_default().reserved = reserved;
    }
    for (key, paid) in by_offer(env, symbol_short!("paid"), symbol_short!("tpaid")) {
        rows.entry(key).or_default().paid = paid;
    }
    rows.into_iter().map(|((pool, offer), row)| OfferRow { pool, offer, ..row }).collect()
}

/// A pool's balance and unpaid reserved sum.
pub fn pool_figures(env: &Env, pool: u8) -> (i128, i128) {
    match tier(pool) {
        Some(tier) => {
            let PoolRecord { balance, reserved, .. } = Module::get_pool(env.clone(), tier);
            (balance, reserved)
        }
        None => {
            let unpaid = env.storage().instance().get(&symbol_short!("tot_out")).unwrap_or(0);
            (Module::get_pool_total(env.clone()), unpaid)
        }
    }
}

pub fn read(env: &Env) -> Books {
    let figures: Vec<(i128, i128)> = (0..POOLS).map(|pool| pool_figures(env, pool)).collect();
    Books {
        stakes: read_stakes(env),
        offers: read_offers(env),
        balances: std::array::from_fn(|pool| figures[pool].0),
        unpaid: std::array::from_fn(|pool| figures[pool].1),
        settings: Settings {
            admin: Module::get_admin(env.clone()).0,
            caller: Module::get_payout_caller(env.clone()).map_or(0, |caller| caller.0),
            paused: Module::contract_is_paused(env.clone()),
            rate: Module::get_yield_rate(env.clone()),
        },
    }
}

/// Puts one figure of every row into the flat map and the tiers' map, each stored once.
fn put<V: Stored>(env: &Env, flat: Symbol, tiers: Symbol, rows: impl Iterator<Item = ((u8, u64), V)>) {
    let mut flat_entries: Map<Address, V> = Map::new(env);
    let mut tier_entries: Map<TierStakeKey, V> = Map::new(env);
    for ((pool, account), value) in rows {
        let staker = Address(account);
        match tier(pool) {
            Some(tier) => tier_entries.set(TierStakeKey { staker, tier }, value),
            None => flat_entries.set(staker, value),
        }
    }
    env.storage().persistent().set(&flat, &flat_entries);
    env.storage().persistent().set(&tiers, &tier_entries);
}

fn put_offers(env: &Env, flat: Symbol, tiers: Symbol, rows: impl Iterator<Item = ((u8, u64), i128)>) {
    let mut flat_entries: Map<Symbol, i128> = Map::new(env);
    let mut tier_entries: Map<TierOfferKey, i128> = Map::new(env);
    for ((pool, offer), value) in rows {
        let offer_id = Symbol::Number(offer);
        match tier(pool) {
            Some(tier) => tier_entries.set(TierOfferKey { offer_id, tier }, value),
            None => flat_entries.set(offer_id, value),
        }
    }
    env.storage().persistent().set(&flat, &flat_entries);
    env.storage().persistent().set(&tiers, &tier_entries);
}

fn put_pool(env: &Env, pool: u8, balance: i128, reserved: i128) {
    match tier(pool) {
        Some(tier) => {
            let name = symbol_short!("pools");
            let mut pools: Map<InsuranceTier, PoolRecord> = map(env, name.clone());
            pools.set(tier, PoolRecord { balance, reserved, ..Module::get_pool(env.clone(), tier) });
            env.storage().persistent().set(&name, &pools);
        }
        None => {
            env.storage().instance().set(&symbol_short!("pooltot"), &balance);
            env.storage().instance().set(&symbol_short!("tot_out"), &reserved);
        }
    }
}

/// A module whose storage holds these books. Settings go in by the module's own calls, the pause last since it stops the others.
pub fn write(books: &Books) -> Env {
    let Settings { admin, caller, paused, rate } = books.settings;
    let env = module::construct(admin);
    let set = |operation| module::run(&env, admin, &operation).expect("the admin may set everything");
    set(Operation::Rate { rate: rate.into() });
    if caller != 0 {
        set(Operation::PayoutCaller { caller });
    }
    let staked = || books.stakes.iter().filter(|row| row.stake != 0);
    let stakes = staked().map(|row| ((row.pool, row.account), row.stake));
    let since = staked().map(|row| ((row.pool, row.account), row.since));
    let accruals = books.stakes.iter().map(|row| ((row.pool, row.account), row.accrual));
    put(&env, symbol_short!("stakes"), symbol_short!("tstakes"), stakes);
    put(&env, symbol_short!("stk_ts"), symbol_short!("tstk_ts"), since);
    put(&env, symbol_short!("yld_acc"), symbol_short!("tyld_acc"), accruals);
    let reserved = books.offers.iter().map(|row| ((row.pool, row.offer), row.reserved));
    let paid = books.offers.iter().map(|row| ((row.pool, row.offer), row.paid));
    put_offers(&env, symbol_short!("resrvd"), symbol_short!("tresrv"), reserved);
    put_offers(&env, symbol_short!("paid"), symbol_short!("tpaid"), paid);
    for pool in 0..POOLS {
        put_pool(&env, pool, books.balances[usize::from(pool)], books.unpaid[usize::from(pool)]);
    }
    if paused {
        set(Operation::Pause);
    }
    env
}
