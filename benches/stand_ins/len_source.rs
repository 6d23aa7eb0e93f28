//! Stands in for `LenSource`, with the two variants that are used.

#[derive(Clone, Copy, Debug, Eq, PartialEq, Hash)]
pub enum LenSource {
    Slice,
    UdpHeaderLen,
}
