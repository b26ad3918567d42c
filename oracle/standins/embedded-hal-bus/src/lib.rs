//! Stands in for embedded-hal-bus: one bus shared by several drivers.
//!
//! Its public rule: a device passes each transaction on to the bus; a bus that
//! is in use is an error of its own, `Busy`.
//! What it could hide: `Busy`. With one thread and no interrupt it cannot come.

pub mod util {
    use std::cell::RefCell;

    pub struct AtomicCell<T>(pub(crate) RefCell<T>);

    impl<T> AtomicCell<T> {
        pub fn new(bus: T) -> Self {
            AtomicCell(RefCell::new(bus))
        }
    }
}

pub mod i2c {
    use super::util::AtomicCell;
    use embedded_hal::i2c::{ErrorType, I2c, Operation};

    pub struct AtomicDevice<'a, T>(&'a AtomicCell<T>);

    #[derive(Debug)]
    pub enum AtomicError<E> {
        Busy,
        Other(E),
    }

    impl<'a, T> AtomicDevice<'a, T> {
        pub fn new(bus: &'a AtomicCell<T>) -> Self {
            AtomicDevice(bus)
        }
    }

    impl<T: I2c> ErrorType for AtomicDevice<'_, T> {
        type Error = AtomicError<T::Error>;
    }

    impl<T: I2c> I2c for AtomicDevice<'_, T> {
        fn transaction(&mut self, address: u8, steps: &mut [Operation]) -> Result<(), Self::Error> {
            let mut bus = self.0 .0.try_borrow_mut().map_err(|_| AtomicError::Busy)?;
            bus.transaction(address, steps).map_err(AtomicError::Other)
        }
    }
}
