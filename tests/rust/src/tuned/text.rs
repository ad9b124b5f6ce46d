//! Text into a borrowed buffer, numbers two digits at a time.

use crate::plain;
use crate::plain::text::Text;

/// The numbers 0 to 99, two digits each.
static PAIRS: [[u8; 2]; 100] = {
    let mut pairs = [[0; 2]; 100];
    let mut number = 0;
    while number < 100 {
        pairs[number] = [b'0' + (number / 10) as u8, b'0' + (number % 10) as u8];
        number += 1;
    }
    pairs
};

/// The plain writer but for numbers.
pub struct Writer<'a>(plain::text::Writer<'a>);

impl<'a> Writer<'a> {
    pub fn new(out: &'a mut [u8]) -> Writer<'a> {
        Writer(plain::text::Writer::new(out))
    }

    /// How many bytes were written.
    pub fn length(&self) -> usize {
        self.0.length()
    }
}

impl Text for Writer<'_> {
    #[inline]
    fn bytes(&mut self, bytes: &[u8]) {
        self.0.bytes(bytes);
    }

    #[inline]
    fn number(&mut self, mut number: u64) {
        let next = self.0.next(digits(number));
        let mut end = next.len();
        while number >= 100 {
            end -= 2;
            next[end..][..2].copy_from_slice(&PAIRS[(number % 100) as usize]);
            number /= 100;
        }
        match next {
            [first, second, ..] if number >= 10 => [*first, *second] = PAIRS[number as usize],
            [first, ..] => *first = b'0' + number as u8,
            [] => (),
        }
    }
}

/// How many decimal digits a number has: most have few, or those of a take.
#[inline]
fn digits(number: u64) -> usize {
    match number {
        0..10 => 1,
        10..100 => 2,
        100..1_000 => 3,
        1_000..10_000 => 4,
        1_000_000_000..10_000_000_000 => 10,
        _ => number.ilog10() as usize + 1,
    }
}
