//! Stands in for `icmpv4::RedirectHeader`, as plain data.

use super::RedirectCode;

#[derive(Clone, Debug, PartialEq, Eq)]
pub struct RedirectHeader {
    pub code: RedirectCode,
    pub gateway_internet_address: [u8; 4],
}
