//! Decimal digits, two at a time.

const PAIRS: [[u8; 2]; 100] = pairs();

const fn pairs() -> [[u8; 2]; 100] {
    let mut all = [[0; 2]; 100];
    let mut n = 0;
    while n < 100 {
        all[n] = [b'0' + n as u8 / 10, b'0' + n as u8 % 10];
        n += 1;
    }
    all
}

/// The most digits of a number.
const MOST: usize = 39;

/// Numbers that have digits.
pub trait Integer: Copy {
    /// Writes the digits at the end of the room, and says where they begin.
    fn write(self, room: &mut [u8; MOST]) -> usize;
}

impl Integer for u32 {
    fn write(self, room: &mut [u8; MOST]) -> usize {
        write_digits(u64::from(self), room, MOST)
    }
}

impl Integer for usize {
    fn write(self, room: &mut [u8; MOST]) -> usize {
        write_digits(self as u64, room, MOST)
    }
}

impl Integer for u128 {
    fn write(self, room: &mut [u8; MOST]) -> usize {
        let (mut left, mut at) = (self, MOST);
        while left > u128::from(u64::MAX) {
            at -= 1;
            room[at] = b'0' + (left % 10) as u8;
            left /= 10;
        }
        write_digits(left as u64, room, at)
    }
}

/// Writes the digits so that they end at `end`, and says where they begin.
pub fn write_digits(n: u64, room: &mut [u8], end: usize) -> usize {
    let (mut left, mut at) = (n, end);
    while left >= 10 {
        at -= 2;
        room[at..at + 2].copy_from_slice(&PAIRS[(left % 100) as usize]);
        left /= 100;
    }
    if left > 0 || at == end {
        at -= 1;
        room[at] = b'0' + left as u8;
    }
    at
}

pub struct Buffer([u8; MOST]);

impl Buffer {
    pub fn new() -> Buffer {
        Buffer([0; MOST])
    }

    pub fn format(&mut self, n: impl Integer) -> Digits<'_> {
        let at = n.write(&mut self.0);
        Digits(&self.0[at..])
    }
}

/// The digits of a number, of which only the bytes are asked.
pub struct Digits<'a>(&'a [u8]);

impl<'a> Digits<'a> {
    pub fn as_bytes(self) -> &'a [u8] {
        self.0
    }
}
