//! Stands in for bit_field 0.10: the four methods the drivers use, on u8.
//!
//! Its public rule: bit 0 is the lowest; a range excludes its end; a value that
//! does not fit its range and a bit past the width are panics.
//! What it could hide: nothing the drivers do; they use constant ranges.
#![no_std]

use core::ops::Range;

pub trait BitField {
    fn get_bits(&self, range: Range<usize>) -> Self;
    fn set_bit(&mut self, bit: usize, value: bool) -> &mut Self;
    fn set_bits(&mut self, range: Range<usize>, value: Self) -> &mut Self;
}

fn mask(range: &Range<usize>) -> u8 {
    assert!(range.start < range.end && range.end <= 8);
    ((1u16 << (range.end - range.start)) - 1) as u8
}

impl BitField for u8 {
    fn get_bits(&self, range: Range<usize>) -> u8 {
        (*self >> range.start) & mask(&range)
    }

    fn set_bit(&mut self, bit: usize, value: bool) -> &mut u8 {
        self.set_bits(bit..bit + 1, value as u8)
    }

    fn set_bits(&mut self, range: Range<usize>, value: u8) -> &mut u8 {
        let mask = mask(&range);
        assert!(value & !mask == 0);
        *self = (*self & !(mask << range.start)) | (value << range.start);
        self
    }
}
