//! What Rattle's library does otherwise than Rust's, as the sources call it, over Rust's library: calls that take memory are passed an
//! allocator and return a result, and vectors of the processor are arrays. Beside it the few calls of `clap`, `indexmap`, `itoa` and `memchr`
//! that the sources make.
#![allow(clippy::new_without_default, clippy::len_without_is_empty)]

pub mod alloc;
pub mod clap;
pub mod env;
pub mod fs;
pub mod indexmap;
pub mod itoa;
pub mod memchr;
pub mod simd;
pub mod texts;
pub mod vec;

pub mod prelude {
    pub use crate::env::HostRuntime;
    pub use crate::texts::{CollectIn, FromStrIn, ToStringIn};
    pub use crate::vec::Vec;
}

/// `format!(in alloc; ..)`.
#[macro_export]
macro_rules! format {
    (in $alloc:expr; $($said:tt)*) => {{
        let _: $crate::alloc::Global = $alloc;
        Ok::<String, $crate::alloc::AllocError>(::std::format!($($said)*))
    }};
}

/// `vec![in alloc; x; n]`.
#[macro_export]
macro_rules! vec {
    (in $alloc:expr; $x:expr; $n:expr) => {
        $crate::vec::Vec::filled($alloc, $x, $n)
    };
}
