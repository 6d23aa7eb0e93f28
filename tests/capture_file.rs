//! Tests of the crate `capture_file`.

mod classic;
mod comments;
mod interfaces;
mod pcapng;
mod reader;
mod statistics;
