//! The name that the libraries derive from `thiserror`.
#![no_std]

pub trait Error {}
