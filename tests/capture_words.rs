//! Tests of the crate `capture_words`.

mod facts;
mod times;
