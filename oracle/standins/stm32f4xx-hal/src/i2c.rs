//! The processor's I2C: every transaction is a transfer of the bench.
//!
//! What it could hide: the several ways in which a transfer fails, which
//! document 01 and the channel treat alike.

use embedded_hal::i2c::{ErrorType, I2c as Bus, Operation};
use std::marker::PhantomData;

pub struct I2c<PERIPHERAL>(PhantomData<PERIPHERAL>);

/// A failed transfer.
#[derive(Debug)]
pub struct BusFailed;

impl<P> I2c<P> {
    pub fn on_bench() -> Self {
        I2c(PhantomData)
    }
}

impl<P> ErrorType for I2c<P> {
    type Error = BusFailed;
}

impl<P> Bus for I2c<P> {
    fn transaction(&mut self, address: u8, steps: &mut [Operation]) -> Result<(), BusFailed> {
        let acknowledged = match steps {
            [Operation::Write(out)] => bench::transfer(address, out, &mut []),
            [Operation::Read(data)] => bench::transfer(address, &[], data),
            [Operation::Write(out), Operation::Read(data)] => bench::transfer(address, out, data),
            _ => panic!("a transaction that document 01 has no row for"),
        };
        acknowledged.then_some(()).ok_or(BusFailed)
    }
}
