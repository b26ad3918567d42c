//! Stands in for smlang; the macro and the rules it follows are in
//! `macros/src/statemachine.rs`.
#![no_std]

pub use macros::statemachine;
