//! The allocator that is passed, and its failures.

use std::io;

/// The one allocator.
#[derive(Clone, Copy)]
pub struct Global;

/// There is no memory.
#[derive(Debug, Clone, Copy)]
pub struct AllocError;

/// There is no memory for a value, which is handed back.
pub struct AllocFailed<T>(pub T);

impl<T> From<AllocFailed<T>> for AllocError {
    fn from(_: AllocFailed<T>) -> AllocError {
        AllocError
    }
}

impl<T> From<AllocFailed<T>> for io::Error {
    fn from(_: AllocFailed<T>) -> io::Error {
        io::ErrorKind::OutOfMemory.into()
    }
}
