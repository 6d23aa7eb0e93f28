//! Tests of the crate `word_sum`.

mod checksum;
mod checksum_change;
