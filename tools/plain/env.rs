//! What `main` is handed: the allocator, the standard streams and the words of the program.

use crate::alloc::Global;
use std::io::{self, Read, Write};

/// The process that the program runs in.
pub struct HostRuntime;

impl HostRuntime {
    pub fn alloc(&self) -> Global {
        Global
    }

    pub fn stdin(&self) -> impl Read {
        streams::unbuffered(io::stdin())
    }

    pub fn stdout(&self) -> impl Write {
        streams::unbuffered(io::stdout())
    }

    pub fn stderr(&self) -> impl Write {
        streams::unbuffered(io::stderr())
    }
}

/// Each read and each write is a call of the system, as Rattle's library has it.
#[cfg(unix)]
mod streams {
    use std::fs::File;
    use std::os::fd::AsFd;

    pub fn unbuffered(stream: impl AsFd) -> File {
        File::from(
            stream
                .as_fd()
                .try_clone_to_owned()
                .expect("a descriptor is left"),
        )
    }
}

/// Elsewhere the streams are Rust's.
#[cfg(not(unix))]
mod streams {
    pub fn unbuffered<S>(stream: S) -> S {
        stream
    }
}

/// The words that the program was called with, its own name first. One that isn't UTF-8 is `InvalidData`.
pub fn args(_: &HostRuntime) -> io::Result<impl Iterator<Item = String>> {
    let words: Result<Vec<String>, _> =
        std::env::args_os().map(|word| word.into_string()).collect();
    words
        .map(Vec::into_iter)
        .map_err(|_| io::ErrorKind::InvalidData.into())
}
