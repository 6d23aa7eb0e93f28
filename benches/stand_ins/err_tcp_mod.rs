//! The modules of `src/err/tcp` that are compared.

mod header_error;
pub use header_error::*;
mod header_slice_error;
pub use header_slice_error::*;
