//! Text into a borrowed buffer, or only its length.

/// What takes text.
pub trait Text {
    fn bytes(&mut self, bytes: &[u8]);

    fn number(&mut self, number: u64);

    /// A space and a number.
    fn and(&mut self, number: u64) {
        self.bytes(b" ");
        self.number(number);
    }
}

/// Counts bytes.
#[derive(Default)]
pub struct Counter(pub usize);

impl Text for Counter {
    fn bytes(&mut self, bytes: &[u8]) {
        self.0 += bytes.len();
    }

    fn number(&mut self, number: u64) {
        self.0 += digits(number);
    }
}

/// Writes bytes to a buffer with room for them.
pub struct Writer<'a> {
    out: &'a mut [u8],
    at: usize,
}

impl<'a> Writer<'a> {
    pub fn new(out: &'a mut [u8]) -> Writer<'a> {
        Writer { out, at: 0 }
    }

    /// How many bytes were written.
    pub fn length(&self) -> usize {
        self.at
    }

    /// The next bytes of the buffer.
    pub(crate) fn next(&mut self, length: usize) -> &mut [u8] {
        let next = &mut self.out[self.at..][..length];
        self.at += length;
        next
    }
}

impl Text for Writer<'_> {
    fn bytes(&mut self, bytes: &[u8]) {
        self.next(bytes.len()).copy_from_slice(bytes);
    }

    fn number(&mut self, mut number: u64) {
        for digit in self.next(digits(number)).iter_mut().rev() {
            *digit = b'0' + (number % 10) as u8;
            number /= 10;
        }
    }
}

/// How many decimal digits a number has.
fn digits(number: u64) -> usize {
    number.checked_ilog10().map_or(1, |log| log as usize + 1)
}
