//! Stands in for encdec, which packs the settings for the EEPROM. Its derives
//! are empty here: what they hide is the packing, and no call of a channel packs.
#![no_std]

pub use macros::{Decode, Encode};
