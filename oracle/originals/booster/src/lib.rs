//! The firmware's crate as far as a channel needs it. Two modules are original
//! files, `linear_transformation` and `hardware::rf_channel`; what stands
//! around them is ours.

include!(concat!(env!("OUT_DIR"), "/compiled.rs"));
include!(concat!(env!("OUT_DIR"), "/linear_transformation.rs"));

pub mod hardware;
pub mod settings;

/// Stands in for the firmware's error type: the two cases a channel names.
#[derive(Debug)]
pub enum Error {
    Bounds,
    Interface,
}
