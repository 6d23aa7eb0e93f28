//! What the sources of the libraries name of `jiff_core`.
#![no_std]

pub mod civil {
    /// A date.
    pub struct Date {}
}

pub mod num {
    pub fn div_rem_floor(_number: i128, _divisor: u128) -> (i128, u128) {
        loop {}
    }
}
