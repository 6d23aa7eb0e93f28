//! Stands in for the error types of `etherparse`, as plain data. The texts are those of this library.

pub mod tcp;

#[derive(Clone, Copy, Debug, Eq, PartialEq, Hash)]
pub enum Layer {
    UdpHeader,
    UdpPayload,
    TcpHeader,
    Icmpv4,
    Icmpv4Timestamp,
    Icmpv4TimestampReply,
    Icmpv6,
}

#[derive(Clone, Debug, Eq, PartialEq, Hash)]
pub struct LenError {
    pub required_len: usize,
    pub len: usize,
    pub len_source: crate::LenSource,
    pub layer: Layer,
    pub layer_start_offset: usize,
}

impl LenError {
    pub const fn add_offset(self, offset: usize) -> Self {
        LenError {
            required_len: self.required_len,
            len: self.len,
            len_source: self.len_source,
            layer: self.layer,
            layer_start_offset: self.layer_start_offset + offset,
        }
    }
}

impl core::fmt::Display for LenError {
    fn fmt(&self, f: &mut core::fmt::Formatter<'_>) -> core::fmt::Result {
        write!(
            f,
            "Length Error: layer {:?} at offset {} requires length {}, the length is {} (from {:?}).",
            self.layer, self.layer_start_offset, self.required_len, self.len, self.len_source
        )
    }
}

impl core::error::Error for LenError {}

#[derive(Clone, Copy, Debug, Eq, PartialEq, Hash)]
pub enum ValueType {
    UdpPayloadLengthIpv4,
    UdpPayloadLengthIpv6,
    TcpPayloadLengthIpv4,
    TcpPayloadLengthIpv6,
    Icmpv6PayloadLength,
}

#[derive(Clone, Debug, Eq, PartialEq, Hash)]
pub struct ValueTooBigError<T> {
    pub actual: T,
    pub max_allowed: T,
    pub value_type: ValueType,
}

impl<T: core::fmt::Display> core::fmt::Display for ValueTooBigError<T> {
    fn fmt(&self, f: &mut core::fmt::Formatter<'_>) -> core::fmt::Result {
        write!(
            f,
            "Value Error: {:?} {} is above {}.",
            self.value_type, self.actual, self.max_allowed
        )
    }
}

impl<T: core::fmt::Display + core::fmt::Debug> core::error::Error for ValueTooBigError<T> {}
