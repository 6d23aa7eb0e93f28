//! The root of the crate that is built of the compared files of `etherparse` 0.19.0 and of these stand-ins.
#![allow(unexpected_cfgs, deprecated, mismatched_lifetime_syntaxes, elided_lifetimes_in_paths)]

extern crate alloc;

pub mod checksum;
pub mod err;

mod helpers;
pub(crate) use helpers::*;

mod len_source;
pub use len_source::*;

mod ip;
pub use ip::*;

mod transport;
pub use transport::*;
