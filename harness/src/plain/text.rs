//! The answer's text, in a buffer on the stack that is never cleared.

use super::refused;
use std::mem::MaybeUninit;

pub struct Text<const CAPACITY: usize> {
    bytes: [MaybeUninit<u8>; CAPACITY],
    /// Bytes in front of this are written.
    len: usize,
}

impl<const CAPACITY: usize> Text<CAPACITY> {
    #[inline(always)]
    pub fn new() -> Self {
        Text {
            bytes: [const { MaybeUninit::uninit() }; CAPACITY],
            len: 0,
        }
    }

    pub fn len(&self) -> usize {
        self.len
    }

    #[inline(always)]
    pub fn push<const N: usize>(&mut self, text: &[u8; N]) {
        self.bytes[self.len..][..N].write_copy_of_slice(text);
        self.len += N;
    }

    /// Appends the decimal digits of a number below 1,000,000,000 and one more byte.
    #[inline(always)]
    pub fn number(&mut self, value: u32, end: u8) {
        if value < 10 {
            return self.push(&[b'0' + value as u8, end]);
        }
        if value < 100 {
            let (tens, ones) = (value / 10, value % 10);
            return self.push(&[b'0' + tens as u8, b'0' + ones as u8, end]);
        }
        self.long_number(value, end);
    }

    fn long_number(&mut self, value: u32, end: u8) {
        let digits = match value {
            0..=999 => 3,
            1_000..=9_999 => 4,
            10_000..=99_999 => 5,
            100_000..=999_999 => 6,
            1_000_000..=9_999_999 => 7,
            10_000_000..=99_999_999 => 8,
            _ => 9,
        };
        let slots = &mut self.bytes[self.len..][..digits + 1];
        slots[digits].write(end);
        let mut left = value;
        for slot in slots[..digits].iter_mut().rev() {
            slot.write(b'0' + (left % 10) as u8);
            left /= 10;
        }
        self.len += digits + 1;
    }

    /// Appends a number with its minus sign, if it has one, and one more byte.
    pub fn signed(&mut self, value: i64, end: u8) {
        if value < 0 {
            self.push(b"-");
        }
        let mut left = value.unsigned_abs();
        if left < 1_000_000_000 {
            return self.number(left as u32, end);
        }
        let digits = left.ilog10() as usize + 1;
        let slots = &mut self.bytes[self.len..][..digits + 1];
        slots[digits].write(end);
        for slot in slots[..digits].iter_mut().rev() {
            slot.write(b'0' + (left % 10) as u8);
            left /= 10;
        }
        self.len += digits + 1;
    }

    /// Ends a list that began at `start` and whose items have a comma behind them.
    pub fn end_list(&mut self, start: usize) {
        if self.len == start {
            self.push(b"none\n");
        } else {
            self.bytes[self.len - 1].write(b'\n');
        }
    }

    /// Hands the text over: its length, or 9 if the output is shorter.
    #[inline(always)]
    pub fn copy_to(&self, out: &mut [u8]) -> Result<i64, i64> {
        // Safety: every byte in front of `len` has been written.
        let text = unsafe { self.bytes[..self.len].assume_init_ref() };
        match out.get_mut(..text.len()) {
            Some(out) => {
                out.copy_from_slice(text);
                Ok(text.len() as i64)
            }
            None => Err(refused(9, 0)),
        }
    }
}
