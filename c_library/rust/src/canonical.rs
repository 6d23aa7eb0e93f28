// SPDX-FileCopyrightText: 2026 The etherparse_transport developers
// SPDX-License-Identifier: MIT OR Apache-2.0
//! Headers with every bit cleared that has no meaning to the library.
use crate::{Error, answer, sys};

/// A protocol, by the number that IP has for it.
#[repr(u32)]
#[derive(Clone, Copy, Debug, PartialEq, Eq, Hash)]
pub enum Protocol {
    /// ICMPv4.
    Icmpv4 = sys::PROTOCOL_ICMPV4,
    /// TCP.
    Tcp = sys::PROTOCOL_TCP,
    /// UDP.
    Udp = sys::PROTOCOL_UDP,
    /// ICMPv6.
    Icmpv6 = sys::PROTOCOL_ICMPV6,
}

/// Writes the header at the front of the bytes with every bit cleared that has no meaning at the front of a buffer, and returns how
/// many bytes it has, at most 60. The checksum is that of the packet: where a bit was cleared it may be wrong.
///
/// Errors: those of reading such a packet, though of UDP the length field is not looked at; `BufferTooSmall`; the buffer is as it was.
///
/// ```
/// use etherparse_transport_c::canonical::{Protocol, write_header};
/// let mut buffer = [0; 60];
/// let written = write_header(Protocol::Icmpv4, &[3, 4, 0, 0, 1, 2, 0x05, 0xDC], &mut buffer)?;
/// assert_eq!(buffer[..written], [3, 4, 0, 0, 0, 0, 0x05, 0xDC]);
/// # Ok::<(), etherparse_transport_c::Error>(())
/// ```
pub fn write_header(protocol: Protocol, bytes: &[u8], buffer: &mut [u8]) -> Result<usize, Error> {
    let (mut written, mut error) = (0, sys::Error::default());
    // SAFETY: each pointer is that of a live reference, and no two overlap.
    let status = unsafe {
        sys::etherparse_canonical_header(
            protocol as u32,
            bytes.as_ptr(),
            bytes.len(),
            buffer.as_mut_ptr(),
            buffer.len(),
            &mut written,
            &mut error,
        )
    };
    answer(status, written, error)
}
