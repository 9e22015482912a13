//! `Vec`, whose calls that take memory may fail.

use crate::alloc::{AllocError, AllocFailed, Global};
use std::borrow::Borrow;
use std::ops::{Deref, DerefMut};

#[derive(Clone, PartialEq, Eq, Hash)]
pub struct Vec<T>(std::vec::Vec<T>);

impl<T> Vec<T> {
    pub fn new(_: Global) -> Vec<T> {
        Vec(std::vec::Vec::new())
    }

    pub fn reserve(&mut self, more: usize) -> Result<(), AllocError> {
        self.0.try_reserve(more).map_err(|_| AllocError)
    }

    pub fn reserve_exact(&mut self, more: usize) -> Result<(), AllocError> {
        self.0.try_reserve_exact(more).map_err(|_| AllocError)
    }

    pub fn push(&mut self, value: T) -> Result<(), AllocFailed<T>> {
        if self.0.len() == self.0.capacity() && self.reserve(1).is_err() {
            return Err(AllocFailed(value));
        }
        self.0.push(value);
        Ok(())
    }

    pub fn insert(&mut self, at: usize, value: T) -> Result<(), AllocFailed<T>> {
        if self.0.len() == self.0.capacity() && self.reserve(1).is_err() {
            return Err(AllocFailed(value));
        }
        self.0.insert(at, value);
        Ok(())
    }

    pub fn remove(&mut self, at: usize) -> T {
        self.0.remove(at)
    }

    pub fn retain(&mut self, stays: impl FnMut(&T) -> bool) {
        self.0.retain(stays);
    }

    pub fn clear(&mut self) {
        self.0.clear();
    }

    pub fn as_slice(&self) -> &[T] {
        &self.0
    }
}

impl<T: Copy> Vec<T> {
    pub fn filled(alloc: Global, value: T, count: usize) -> Result<Vec<T>, AllocError> {
        let mut all = Vec::new(alloc);
        all.reserve_exact(count)?;
        all.0.resize(count, value);
        Ok(all)
    }

    pub fn from_slice(alloc: Global, slice: &[T]) -> Result<Vec<T>, AllocError> {
        let mut all = Vec::new(alloc);
        all.reserve_exact(slice.len())?;
        all.0.extend_from_slice(slice);
        Ok(all)
    }

    pub fn resize(&mut self, count: usize, value: T) -> Result<(), AllocError> {
        self.reserve(count.saturating_sub(self.0.len()))?;
        self.0.resize(count, value);
        Ok(())
    }

    pub fn extend_from_slice(&mut self, slice: &[T]) -> Result<(), AllocError> {
        self.reserve(slice.len())?;
        self.0.extend_from_slice(slice);
        Ok(())
    }
}

impl<T> Deref for Vec<T> {
    type Target = [T];

    fn deref(&self) -> &[T] {
        &self.0
    }
}

impl<T> DerefMut for Vec<T> {
    fn deref_mut(&mut self) -> &mut [T] {
        &mut self.0
    }
}

impl<T> Borrow<[T]> for Vec<T> {
    fn borrow(&self) -> &[T] {
        &self.0
    }
}
