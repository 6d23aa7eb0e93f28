//! Tests of the crate `capture_summary`.

mod choice;
mod endpoints;
mod files;
mod kinds;
mod protocols;
mod summary;
mod times;
