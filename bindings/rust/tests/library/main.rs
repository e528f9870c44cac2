//! The library through this crate, held to the kept histories and to rules written plainly.

mod accrued;
mod front_office;
mod halving;
mod histories;
mod kept;
mod lent;
mod lookups;
mod numbers;
mod questions;
mod records;
mod slips;
mod verdict;
mod writing;
