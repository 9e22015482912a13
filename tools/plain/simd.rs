//! Vectors of the processor as arrays, lane by lane.

use std::array;
use std::ops::{BitAnd, BitOr, Not};

/// Four words.
#[allow(non_camel_case_types)]
#[derive(Clone, Copy)]
pub struct u64x4([u64; 4]);

impl u64x4 {
    pub fn from_array(lanes: [u64; 4]) -> u64x4 {
        u64x4(lanes)
    }

    /// The first four words.
    pub fn from_slice(words: &[u64]) -> u64x4 {
        let mut lanes = [0; 4];
        lanes.copy_from_slice(&words[..4]);
        u64x4(lanes)
    }

    pub fn to_array(self) -> [u64; 4] {
        self.0
    }

    pub fn copy_to_slice(self, into: &mut [u64]) {
        into[..4].copy_from_slice(&self.0);
    }

    pub fn count_ones(self) -> u64x4 {
        u64x4(self.0.map(|word| u64::from(word.count_ones())))
    }

    pub fn strict_reduce_sum(self) -> u64 {
        self.0.iter().sum()
    }

    pub fn reduce_or(self) -> u64 {
        self.0.iter().fold(0, |all, word| all | word)
    }

    pub fn to_le_bytes(self) -> u8x32 {
        let mut bytes = [0; 32];
        for (into, word) in bytes.chunks_exact_mut(8).zip(self.0) {
            into.copy_from_slice(&word.to_le_bytes());
        }
        u8x32(bytes)
    }

    pub fn from_le_bytes(bytes: u8x32) -> u64x4 {
        let mut words = [0; 4];
        for (word, piece) in words.iter_mut().zip(bytes.0.chunks_exact(8)) {
            *word = u64::from_le_bytes(piece.try_into().expect("eight bytes"));
        }
        u64x4(words)
    }
}

impl BitAnd for u64x4 {
    type Output = u64x4;

    fn bitand(self, other: u64x4) -> u64x4 {
        u64x4(array::from_fn(|lane| self.0[lane] & other.0[lane]))
    }
}

impl BitOr for u64x4 {
    type Output = u64x4;

    fn bitor(self, other: u64x4) -> u64x4 {
        u64x4(array::from_fn(|lane| self.0[lane] | other.0[lane]))
    }
}

impl Not for u64x4 {
    type Output = u64x4;

    fn not(self) -> u64x4 {
        u64x4(self.0.map(|word| !word))
    }
}

/// 32 bytes.
#[allow(non_camel_case_types)]
#[derive(Clone, Copy)]
pub struct u8x32([u8; 32]);

impl u8x32 {
    /// The first 32 bytes.
    pub fn from_slice(bytes: &[u8]) -> u8x32 {
        let mut lanes = [0; 32];
        lanes.copy_from_slice(&bytes[..32]);
        u8x32(lanes)
    }

    pub fn to_array(self) -> [u8; 32] {
        self.0
    }
}

/// 64 bytes.
#[allow(non_camel_case_types)]
#[derive(Clone, Copy)]
pub struct u8x64([u8; 64]);

impl u8x64 {
    pub fn from_array(lanes: [u8; 64]) -> u8x64 {
        u8x64(lanes)
    }

    pub fn simd_eq(self, other: u8x64) -> Mask {
        Mask(self.0 == other.0)
    }
}

/// Whether two vectors are the same in all lanes.
pub struct Mask(bool);

impl Mask {
    pub fn all(self) -> bool {
        self.0
    }
}
