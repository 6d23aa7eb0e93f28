// SPDX-FileCopyrightText: 2026 The etherparse_transport developers
// SPDX-License-Identifier: MIT OR Apache-2.0
//! ICMPv4 (RFC 792).
use crate::{Error, Verdict, answer, sys, verdict};

/// The fields of an ICMPv4 header. The kind is one of `sys::ICMPV4_KIND_..`; a field that it does not have is 0.
pub use crate::sys::Icmpv4Header as Header;

/// An ICMPv4 packet that was read.
#[derive(Clone, Copy, Debug, PartialEq, Eq, Hash)]
pub struct Packet<'a> {
    /// The header.
    pub header: Header,
    /// What comes behind the header.
    pub payload: &'a [u8],
}

impl<'a> Packet<'a> {
    /// Reads the packet that the bytes are, all of them.
    ///
    /// Errors: `Length`, where the bytes are fewer than 8, or a timestamp message of code 0 is not 20 bytes long.
    ///
    /// ```
    /// use etherparse_transport_c::{icmpv4, sys};
    /// let packet = icmpv4::Packet::read(&[8, 0, 0x19, 0x2C, 0, 1, 0, 2, b'p', b'i', b'n', b'g'])?;
    /// assert_eq!((packet.header.kind, packet.header.id), (sys::ICMPV4_KIND_ECHO_REQUEST, 1));
    /// assert_eq!(packet.payload, b"ping");
    /// # Ok::<(), etherparse_transport_c::Error>(())
    /// ```
    pub fn read(bytes: &'a [u8]) -> Result<Packet<'a>, Error> {
        let (mut read, mut error) = (sys::Icmpv4Packet::default(), sys::Error::default());
        // SAFETY: each pointer is that of a live reference, and no two overlap.
        let status = unsafe { sys::etherparse_icmpv4_packet_read(bytes.as_ptr(), bytes.len(), &mut read, &mut error) };
        answer(status, (), error)
            .map(|()| Packet { header: read.header, payload: &bytes[read.payload_offset..][..read.payload_len] })
    }
}

/// Writes the header at the front of a buffer, and returns how many bytes it has: 8, or of a timestamp message 20. Kind, code,
/// checksum and the fields of the kind are written; of kind 0 type, code and the bytes behind the checksum.
///
/// Errors: `MessageUnknown`, `BufferTooSmall`; the buffer is as it was.
///
/// ```
/// use etherparse_transport_c::{icmpv4, sys};
/// let kind = sys::ICMPV4_KIND_DESTINATION_UNREACHABLE;
/// let header = icmpv4::Header { kind, code_u8: 4, next_hop_mtu: 1400, ..Default::default() };
/// let mut buffer = [0xEE; 8];
/// assert_eq!(icmpv4::write_header(&header, &mut buffer)?, 8);
/// assert_eq!(buffer, [3, 4, 0, 0, 0, 0, 0x05, 0x78]);
/// # Ok::<(), etherparse_transport_c::Error>(())
/// ```
pub fn write_header(header: &Header, buffer: &mut [u8]) -> Result<usize, Error> {
    let (mut written, mut error) = (0, sys::Error::default());
    // SAFETY: as above.
    let status =
        unsafe { sys::etherparse_icmpv4_header_write(header, buffer.as_mut_ptr(), buffer.len(), &mut written, &mut error) };
    answer(status, written, error)
}

/// Writes an ICMPv4 error about a packet into the buffer, and returns its length. The error is an IPv4 packet from this source to the source
/// of the packet, with right checksums, and quotes the packet from its first byte on. It has at most 576 bytes. The checksum of the header is
/// not used.
///
/// Errors: `MessageUnknown`, `NoIcmpError`, the errors of the IP header, `IcmpErrorLaterFragment`, `IcmpErrorAboutError`,
/// `IcmpErrorAboutGroup`, `IcmpErrorPacketSource`, `IcmpErrorSource`, `BufferTooSmall`; the buffer is as it was.
///
/// ```
/// use etherparse_transport_c::{icmpv4, ip, sys};
/// let packet = [0x45, 0, 0, 20, 0, 0, 0, 0, 1, 17, 0, 0, 192, 168, 1, 1, 198, 51, 100, 7];
/// let expired = icmpv4::Header { kind: sys::ICMPV4_KIND_TIME_EXCEEDED, ..Default::default() };
/// let mut buffer = [0; 576];
/// let len = icmpv4::error_about(&packet, &expired, [192, 168, 1, 254], 64, &mut buffer)?;
/// assert_eq!((len, buffer[20], &buffer[28..len]), (48, 11, &packet[..]));
/// assert_eq!(ip::Packet::read(&buffer[..len])?.verdict, ip::ChecksumVerdict::Right);
/// # Ok::<(), etherparse_transport_c::Error>(())
/// ```
pub fn error_about(packet: &[u8], header: &Header, source: [u8; 4], time_to_live: u8, buffer: &mut [u8]) -> Result<usize, Error> {
    let (mut written, mut error) = (0, sys::Error::default());
    let (start, len) = (packet.as_ptr(), packet.len());
    let (room, room_len) = (buffer.as_mut_ptr(), buffer.len());
    // SAFETY: each pointer is that of a live reference, and no two overlap.
    let status = unsafe {
        sys::etherparse_icmpv4_error_about(start, len, header, &source, time_to_live, room, room_len, &mut written, &mut error)
    };
    answer(status, written, error)
}

/// The packet that an error is about, as far as the message contains it. The error is destination unreachable, source quench, redirect,
/// time exceeded or parameter problem. The length field of RFC 4884 ends the packet if it counts at least 128 bytes.
///
/// Errors: as [`Packet::read`], and `NoIcmpError` for another message.
///
/// ```
/// use etherparse_transport_c::{ErrorKind, icmpv4};
/// let quoted = icmpv4::quoted_packet(&[11, 0, 0, 0, 0, 0, 0, 0, 0x45, 0, 0, 20])?;
/// assert_eq!(quoted, [0x45, 0, 0, 20]);
/// let error = icmpv4::quoted_packet(&[8, 0, 0, 0, 0, 0, 0, 0]).unwrap_err();
/// assert_eq!(error.kind(), ErrorKind::NoIcmpError);
/// # Ok::<(), etherparse_transport_c::Error>(())
/// ```
pub fn quoted_packet(bytes: &[u8]) -> Result<&[u8], Error> {
    let (mut offset, mut len, mut error) = (0, 0, sys::Error::default());
    let (start, bytes_len) = (bytes.as_ptr(), bytes.len());
    // SAFETY: as above.
    let status = unsafe { sys::etherparse_icmpv4_quoted_packet(start, bytes_len, &mut offset, &mut len, &mut error) };
    answer(status, (), error).map(|()| &bytes[offset..][..len])
}

/// What to store in bytes 2 and 3 of the packet that the bytes are, whatever stands there.
///
/// Errors: as [`Packet::read`].
///
/// ```
/// use etherparse_transport_c::icmpv4;
/// assert_eq!(icmpv4::checksum(&[8, 0, 0, 0, 0, 1, 0, 2, b'p', b'i', b'n', b'g'])?, 0x192C);
/// # Ok::<(), etherparse_transport_c::Error>(())
/// ```
pub fn checksum(bytes: &[u8]) -> Result<u16, Error> {
    let (mut checksum, mut error) = (0, sys::Error::default());
    // SAFETY: as above.
    let status = unsafe { sys::etherparse_icmpv4_checksum(bytes.as_ptr(), bytes.len(), &mut checksum, &mut error) };
    answer(status, checksum, error)
}

/// Stores in bytes 2 and 3 what [`checksum`] returns. No other byte changes, and the test of the bytes then says that the checksum is
/// right.
///
/// Errors: as [`Packet::read`]; the bytes are as they were.
pub fn store_checksum(bytes: &mut [u8]) -> Result<(), Error> {
    let mut error = sys::Error::default();
    // SAFETY: as above.
    let status = unsafe { sys::etherparse_icmpv4_checksum_store(bytes.as_mut_ptr(), bytes.len(), &mut error) };
    answer(status, (), error)
}

/// Tests the checksum of the packet that the bytes are.
///
/// Errors: as [`Packet::read`].
pub fn test_checksum(bytes: &[u8]) -> Result<Verdict, Error> {
    let mut error = sys::Error::default();
    // SAFETY: as above.
    let status = unsafe { sys::etherparse_icmpv4_checksum_test(bytes.as_ptr(), bytes.len(), &mut error) };
    verdict(status, error)
}
