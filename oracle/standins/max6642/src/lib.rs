//! Stands in for the temperature chip's driver inside a channel: document 01
//! gives the temperature of a call as an f32 or as failed, not as bytes.
//!
//! The original driver is compiled too (`max6642-original`) and can be asked by
//! itself. What this hides: its two transfers, its diode fault, and that the
//! chip gives quarters from 0 to 130.75 only.

use std::marker::PhantomData;

#[derive(Debug)]
pub struct TemperatureFailed;

pub struct Max6642<I2C>(PhantomData<I2C>);

impl<I2C> Max6642<I2C> {
    pub fn att94(_: I2C) -> Self {
        Max6642(PhantomData)
    }

    pub fn get_remote_temperature(&mut self) -> Result<f32, TemperatureFailed> {
        bench::with(|b| b.given.temperature).ok_or(TemperatureFailed)
    }
}
