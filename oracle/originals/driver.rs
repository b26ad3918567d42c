//! The crate root of each chip driver: the original file and nothing else.
//! What the original finds at `crate::` it finds here too.
#![no_std]

include!(concat!(env!("OUT_DIR"), "/original.rs"));
include!(concat!(env!("OUT_DIR"), "/compiled.rs"));

pub use original::*;
