//! Stands in for minimq, of which a channel uses only the embedded_time that it
//! passes on.
//!
//! It decides one thing, the order of two instants. Document 01's clock is used
//! for it: one is later than another exactly if their difference mod 2^32 is 1
//! to 2^31 - 1. So the order of instants is not compared with the original's:
//! embedded-time's own rule, for equal ticks and for differences of half the
//! range, is not in the text at hand.
#![no_std]

pub mod embedded_time {
    use core::{cmp::Ordering, fmt, marker::PhantomData, ops::Add};

    pub trait Clock: Sized {
        fn try_now(&self) -> Result<Instant<Self>, clock::Error>;
    }

    pub mod clock {
        #[derive(Debug)]
        pub enum Error {}
    }

    pub mod duration {
        pub struct Milliseconds(pub u32);

        pub trait Extensions {
            fn milliseconds(self) -> Milliseconds;
        }

        impl Extensions for u32 {
            fn milliseconds(self) -> Milliseconds {
                Milliseconds(self)
            }
        }
    }

    /// A time of a clock whose ticks are milliseconds.
    pub struct Instant<C>(u32, PhantomData<C>);

    impl<C> Instant<C> {
        pub fn new(ticks: u32) -> Self {
            Instant(ticks, PhantomData)
        }
    }

    impl<C> Copy for Instant<C> {}

    impl<C> Clone for Instant<C> {
        fn clone(&self) -> Self {
            *self
        }
    }

    impl<C> fmt::Debug for Instant<C> {
        fn fmt(&self, f: &mut fmt::Formatter) -> fmt::Result {
            write!(f, "{}", self.0)
        }
    }

    impl<C> Add<duration::Milliseconds> for Instant<C> {
        type Output = Self;

        fn add(self, wait: duration::Milliseconds) -> Self {
            Instant::new(self.0.wrapping_add(wait.0))
        }
    }

    impl<C> PartialEq for Instant<C> {
        fn eq(&self, other: &Self) -> bool {
            self.0 == other.0
        }
    }

    impl<C> PartialOrd for Instant<C> {
        fn partial_cmp(&self, other: &Self) -> Option<Ordering> {
            Some(match self.0.wrapping_sub(other.0) {
                0 => Ordering::Equal,
                1..=0x7FFF_FFFF => Ordering::Greater,
                _ => Ordering::Less,
            })
        }
    }
}
