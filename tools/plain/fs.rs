//! Files are opened in the process that the program runs in.

use crate::env::HostRuntime;
use std::io;

pub struct File;

impl File {
    /// Each read is a call of the system, as Rattle's library has it.
    pub fn open(_: &HostRuntime, path: &str) -> io::Result<std::fs::File> {
        std::fs::File::open(path)
    }
}
