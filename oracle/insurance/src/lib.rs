//! The insurance module, byte for byte, over the stand-ins.

// Its `#![no_std]` stands at the head of a crate and means nothing in a module.
#![allow(unused_attributes)]

// It names test files of its own, which are not read; so this crate is empty where it is built as a test.
#[cfg(not(test))]
include!(concat!(env!("OUT_DIR"), "/module.rs"));

#[cfg(not(test))]
pub use module::{InsuranceContract, InsuranceTier, PoolRecord};
