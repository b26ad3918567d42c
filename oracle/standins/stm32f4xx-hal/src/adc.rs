//! The converter of the two power detectors. Document 01 gives millivolts, so a
//! sample is its millivolts; what this hides is the conversion between them.

use crate::gpio::Detector;
use std::marker::PhantomData;

pub mod config {
    #[allow(non_camel_case_types)]
    pub enum SampleTime {
        Cycles_480,
    }
}

pub struct Adc<PERIPHERAL>(PhantomData<PERIPHERAL>);

impl<P> Adc<P> {
    pub fn on_bench() -> Self {
        Adc(PhantomData)
    }

    pub fn convert(&mut self, pin: &impl Detector, _: config::SampleTime) -> u16 {
        bench::with(|b| b.given.millivolts[pin.number()])
    }

    pub fn sample_to_millivolts(&self, sample: u16) -> u16 {
        sample
    }
}
