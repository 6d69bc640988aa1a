//! A stand-in for the parts of `std` that the four files use, over `core` and `alloc`.
//!
//! For one thread: `thread_local!` here is a plain static.
#![no_std]

extern crate alloc;

pub use alloc::rc;
pub use core::{cell, error, fmt, mem, ops};

pub mod collections;

pub struct Local<T>(pub T);

// One thread only, as said above.
unsafe impl<T> Sync for Local<T> {}

impl<T> Local<T> {
    pub fn with<R>(&self, used: impl FnOnce(&T) -> R) -> R {
        used(&self.0)
    }
}

#[macro_export]
macro_rules! thread_local {
    (static $name:ident: $kind:ty = $value:expr;) => {
        static $name: $crate::Local<$kind> = $crate::Local($value);
    };
}
