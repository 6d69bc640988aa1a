//! The linearizer of openqasm 0.1.2, its four files unchanged.
//!
//! Without the standard library an f32 has no `sin`, `powf`, `exp`, `ln` and `sqrt` of its own, so that
//! value.rs calls the ones of the stand-in `num`, which tell that they were called. Feature `plain` has the
//! files over the real standard library.
#![cfg_attr(not(feature = "plain"), no_std)]
#![allow(dead_code, unexpected_cfgs, unused_imports, unused_variables)]

#[cfg(not(feature = "plain"))]
#[macro_use]
extern crate alloc;
#[cfg(not(feature = "plain"))]
#[macro_use]
extern crate standard as std;

pub mod ast {
    #[cfg(not(feature = "plain"))]
    use alloc::{boxed::Box, vec::Vec};
    include!(concat!(env!("OUT_DIR"), "/ast/mod.rs"));
}

pub mod translate {
    #[cfg(not(feature = "plain"))]
    use alloc::{boxed::Box, vec::Vec};
    include!(concat!(env!("OUT_DIR"), "/translate/mod.rs"));
}

/// A place in an image as a span of the crate, whose fields are its own.
pub mod place {
    use crate::ast::FileSpan;

    pub fn span(place: usize) -> FileSpan {
        FileSpan { start: place, end: place, file: 0 }
    }

    pub fn of(span: FileSpan) -> u64 {
        span.start as u64
    }
}
