//! Tests of the crate `net_base`.

mod ip_headers;
mod tcp_errors;
mod values;
