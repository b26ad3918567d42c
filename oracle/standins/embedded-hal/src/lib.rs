//! Stands in for embedded-hal 1.0: the bus and delay traits of the drivers.
//!
//! Its public rule: `read`, `write` and `write_read` are one transaction each,
//! of one read, one write, or a write and a read.
//! What it could hide: error kinds and ten-bit addresses, which nobody here uses.
#![no_std]

pub mod i2c {
    pub trait ErrorType {
        type Error: core::fmt::Debug;
    }

    pub enum Operation<'a> {
        Read(&'a mut [u8]),
        Write(&'a [u8]),
    }

    pub trait I2c: ErrorType {
        fn transaction(&mut self, address: u8, steps: &mut [Operation]) -> Result<(), Self::Error>;

        fn read(&mut self, address: u8, data: &mut [u8]) -> Result<(), Self::Error> {
            self.transaction(address, &mut [Operation::Read(data)])
        }

        fn write(&mut self, address: u8, out: &[u8]) -> Result<(), Self::Error> {
            self.transaction(address, &mut [Operation::Write(out)])
        }

        fn write_read(
            &mut self,
            address: u8,
            out: &[u8],
            data: &mut [u8],
        ) -> Result<(), Self::Error> {
            self.transaction(address, &mut [Operation::Write(out), Operation::Read(data)])
        }
    }
}

pub mod delay {
    pub trait DelayNs {
        fn delay_ns(&mut self, ns: u32);

        fn delay_us(&mut self, us: u32) {
            self.delay_ns(us * 1_000)
        }

        fn delay_ms(&mut self, ms: u32) {
            self.delay_us(ms * 1_000)
        }
    }
}
