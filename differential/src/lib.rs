//! The published Rust as judge, call by call. README.md says what this is and how it is run.

#[cfg(feature = "library")]
pub mod bench;
mod chart;
pub mod compare;
pub mod generate;
#[cfg(feature = "library")]
pub mod growth;
#[cfg(feature = "library")]
pub mod library;
pub mod notation;
#[cfg(feature = "library")]
pub mod part;
#[cfg(feature = "library")]
pub mod plot;
pub mod power;
pub mod questions;
pub mod reading;
pub mod record;
pub mod reference;
pub mod rows;
pub mod shrink;
pub mod side;
#[cfg(feature = "library")]
pub mod stack;
pub mod theorems;
pub mod usage;
