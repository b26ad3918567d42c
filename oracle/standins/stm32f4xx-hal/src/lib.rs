//! Stands in for stm32f4xx-hal, the processor: its bus, pins and converter are
//! the bench's.

pub use embedded_hal as hal;

pub mod adc;
pub mod gpio;
pub mod i2c;

pub mod pac {
    pub struct ADC3;
    pub struct I2C1;
}
