//! What the signatures of the libraries name of `json`.
#![no_std]

/// JSON that is being written.
pub struct Writer(core::marker::PhantomData<u8>);
