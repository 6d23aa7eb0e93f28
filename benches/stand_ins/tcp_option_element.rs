//! Stands in for `TcpOptionElement`, as plain data.

#[derive(Clone, Debug, Eq, PartialEq)]
pub enum TcpOptionElement {
    Noop,
    MaximumSegmentSize(u16),
    WindowScale(u8),
    SelectiveAcknowledgementPermitted,
    SelectiveAcknowledgement((u32, u32), [Option<(u32, u32)>; 3]),
    Timestamp(u32, u32),
}
