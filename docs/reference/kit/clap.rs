//! What the sources of the libraries name of `clap`.
#![no_std]

use core::marker::PhantomData;

/// Why a command line is rejected, or the text that it requests.
pub struct Error;

pub struct Arg<'a>(PhantomData<&'a str>);

pub enum ArgAction {}

pub struct ArgMatches<'a>(PhantomData<&'a str>);

pub struct Command<'a>(PhantomData<&'a str>);

#[macro_export]
macro_rules! value_parser {
    ($kind:ty) => {};
}

pub mod error {
    pub enum ErrorKind {}
}

pub mod parser {
    pub enum ValueSource {}
}
