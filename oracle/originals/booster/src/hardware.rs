//! Stands in for the firmware's hardware module: the types a channel is built
//! on, and three submodules of which the text is not at hand.

use stm32f4xx_hal as hal;

include!(concat!(env!("OUT_DIR"), "/rf_channel.rs"));

pub type I2C = hal::i2c::I2c<hal::pac::I2C1>;
pub type I2cBusManager = embedded_hal_bus::util::AtomicCell<I2C>;
pub type I2cProxy = embedded_hal_bus::i2c::AtomicDevice<'static, I2C>;

/// The firmware's millisecond timer: the tick of the call. It never fails, and
/// it stands still during a call, which the real one does not.
pub struct SystemTimer;

impl minimq::embedded_time::Clock for SystemTimer {
    fn try_now(
        &self,
    ) -> Result<minimq::embedded_time::Instant<Self>, minimq::embedded_time::clock::Error> {
        Ok(minimq::embedded_time::Instant::new(bench::with(|b| {
            b.given.tick
        })))
    }
}

/// Waits are logged and take no time.
pub mod delay {
    pub struct AsmDelay;

    impl super::hal::hal::delay::DelayNs for AsmDelay {
        fn delay_ns(&mut self, ns: u32) {
            bench::wait((ns / 1_000).try_into().expect("a wait that fits no row"))
        }
    }
}

/// Constants and the watchdog flag, as document 01 gives them.
pub mod platform {
    /// Not at hand; document 01 sends 3.2 at the start.
    pub const BIAS_DAC_VCC: f32 = 3.2;
    pub const MAXIMUM_REFLECTED_POWER_DBM: f32 = 30.0;

    pub fn watchdog_detected() -> bool {
        bench::with(|b| b.given.watchdog)
    }
}
