//! Pins. An output logs every setting, also one that changes nothing, and is
//! read back as it was last set; an input is what the call is given.
//!
//! What it could hide: an output that is held against its driver.

use std::marker::PhantomData;

pub struct Analog;
pub struct Input;
pub struct Output;

/// A pin by its number on the bench.
pub struct ErasedPin<MODE>(u8, PhantomData<MODE>);

impl<MODE> ErasedPin<MODE> {
    pub fn on_bench(number: u8) -> Self {
        ErasedPin(number, PhantomData)
    }
}

impl ErasedPin<Output> {
    pub fn set_high(&mut self) {
        bench::set_pin(self.0, true)
    }

    pub fn set_low(&mut self) {
        bench::set_pin(self.0, false)
    }

    pub fn is_set_high(&self) -> bool {
        bench::with(|b| b.outputs[self.0 as usize])
    }

    pub fn is_set_low(&self) -> bool {
        !self.is_set_high()
    }
}

impl ErasedPin<Input> {
    pub fn is_high(&self) -> bool {
        bench::with(|b| b.given.inputs[self.0 as usize])
    }

    pub fn is_low(&self) -> bool {
        !self.is_high()
    }
}

/// A pin the converter can read: which detector of the bench hangs on it.
pub trait Detector {
    fn number(&self) -> usize;
}

macro_rules! ports {
    ($($port:ident: $($pin:ident)*;)*) => {$(
        pub mod $port {$(
            pub struct $pin<MODE>(usize, std::marker::PhantomData<MODE>);

            impl<MODE> $pin<MODE> {
                pub fn on_bench(detector: usize) -> Self {
                    $pin(detector, std::marker::PhantomData)
                }
            }

            impl<MODE> super::Detector for $pin<MODE> {
                fn number(&self) -> usize {
                    self.0
                }
            }
        )*}
    )*};
}
ports! {
    gpioa: PA0 PA1 PA2 PA3;
    gpioc: PC0 PC1 PC2 PC3;
    gpiof: PF3 PF4 PF5 PF6 PF7 PF8 PF9 PF10;
}
