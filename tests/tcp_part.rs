//! Tests of the crate `tcp_part`.

mod tcp_header;
mod tcp_options;
mod tcp_slice;
mod translation;
mod validity;
