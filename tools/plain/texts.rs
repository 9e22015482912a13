//! Calls on texts and iterators whose names Rust's own calls have: those with `_in` are passed an allocator.

use crate::alloc::{AllocError, Global};
use crate::vec::Vec;
use std::fmt::Display;

pub trait FromStrIn: Sized {
    fn from_str(alloc: Global, text: &str) -> Result<Self, AllocError>;
}

impl FromStrIn for String {
    fn from_str(_: Global, text: &str) -> Result<String, AllocError> {
        Ok(text.to_owned())
    }
}

pub trait ToStringIn: Display {
    fn to_string_in(&self, _: Global) -> Result<String, AllocError> {
        Ok(self.to_string())
    }
}

impl<T: Display> ToStringIn for T {}

pub trait CollectIn: Iterator + Sized {
    fn collect_in(self, alloc: Global) -> Result<Vec<Self::Item>, AllocError> {
        let mut all = Vec::new(alloc);
        for x in self {
            all.push(x)?;
        }
        Ok(all)
    }
}

impl<I: Iterator> CollectIn for I {}
