//! What the programs share: hex, a line of a trace, a slot that holds a channel
//! of the original, questions for its drivers.

pub mod deep;
pub mod hex;
pub mod questions;
pub mod random;
pub mod slot;
pub mod trace;
pub mod value;

/// What was compiled of the original: file, SHA-256, bytes.
pub fn compiled() -> impl Iterator<Item = &'static (&'static str, &'static str, usize)> {
    [
        booster::COMPILED,
        ad5627::COMPILED,
        ads7924::COMPILED,
        dac7571::COMPILED,
        max6642_original::COMPILED,
        mcp3221::COMPILED,
    ]
    .into_iter()
    .flatten()
}
