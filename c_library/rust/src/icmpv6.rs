// SPDX-FileCopyrightText: 2026 The etherparse_transport developers
// SPDX-License-Identifier: MIT OR Apache-2.0
//! ICMPv6 (RFC 4443; RFC 4861).
use crate::{Error, Verdict, answer, sys, verdict};

/// The fields of an ICMPv6 header. The kind is one of `sys::ICMPV6_KIND_..`; a field that it does not have is 0.
pub use crate::sys::Icmpv6Header as Header;

/// An ICMPv6 packet that was read.
#[derive(Clone, Copy, Debug, PartialEq, Eq, Hash)]
pub struct Packet<'a> {
    /// The header.
    pub header: Header,
    /// What comes behind the header.
    pub payload: &'a [u8],
}

impl<'a> Packet<'a> {
    /// Reads the packet that the bytes are, all of them.
    ///
    /// Errors: `Length`, where the bytes are fewer than 8 or more than 4,294,967,295.
    ///
    /// ```
    /// use etherparse_transport_c::{icmpv6, sys};
    /// let packet = icmpv6::Packet::read(&[2, 0, 0, 0, 0, 0, 0x05, 0x00, 0x60])?;
    /// assert_eq!((packet.header.kind, packet.header.mtu), (sys::ICMPV6_KIND_PACKET_TOO_BIG, 1280));
    /// assert_eq!(packet.payload, [0x60]);
    /// # Ok::<(), etherparse_transport_c::Error>(())
    /// ```
    pub fn read(bytes: &'a [u8]) -> Result<Packet<'a>, Error> {
        let (mut read, mut error) = (sys::Icmpv6Packet::default(), sys::Error::default());
        // SAFETY: each pointer is that of a live reference, and no two overlap.
        let status = unsafe { sys::etherparse_icmpv6_packet_read(bytes.as_ptr(), bytes.len(), &mut read, &mut error) };
        answer(status, (), error)
            .map(|()| Packet { header: read.header, payload: &bytes[read.payload_offset..][..read.payload_len] })
    }
}

/// Writes the header, 8 bytes, at the front of a buffer, and returns how many bytes it has. Kind, code, checksum and the fields
/// of the kind are written; of kind 0 type, code and the bytes behind the checksum.
///
/// Errors: `MessageUnknown`, `BufferTooSmall`; the buffer is as it was.
///
/// ```
/// use etherparse_transport_c::{icmpv6, sys};
/// let kind = sys::ICMPV6_KIND_NEIGHBOR_ADVERTISEMENT;
/// let header = icmpv6::Header { kind, flags: sys::ICMPV6_NEIGHBOR_SOLICITED, ..Default::default() };
/// let mut buffer = [0xEE; 8];
/// assert_eq!(icmpv6::write_header(&header, &mut buffer)?, 8);
/// assert_eq!(buffer, [136, 0, 0, 0, 0x40, 0, 0, 0]);
/// # Ok::<(), etherparse_transport_c::Error>(())
/// ```
pub fn write_header(header: &Header, buffer: &mut [u8]) -> Result<usize, Error> {
    let (mut written, mut error) = (0, sys::Error::default());
    // SAFETY: as above.
    let status =
        unsafe { sys::etherparse_icmpv6_header_write(header, buffer.as_mut_ptr(), buffer.len(), &mut written, &mut error) };
    answer(status, written, error)
}

/// Writes an ICMPv6 error about a packet into the buffer, and returns its length. The error is an IPv6 packet from this source to the source
/// of the packet, with a right checksum, and quotes the packet from its first byte on. It has at most 1280 bytes. The checksum of the header is
/// not used.
///
/// Errors: `MessageUnknown`, `NoIcmpError`, the errors of the IP header, `IcmpErrorLaterFragment`, `IcmpErrorAboutError`,
/// `IcmpErrorAboutGroup`, `IcmpErrorPacketSource`, `IcmpErrorSource`, `BufferTooSmall`; the buffer is as it was.
///
/// ```
/// use etherparse_transport_c::{icmpv6, ip, sys};
/// let mut packet = [0; 41];
/// packet[..8].copy_from_slice(&[0x60, 0, 0, 0, 0, 1, 17, 64]);
/// (packet[8], packet[24]) = (0x20, 0x20);
/// let too_big = icmpv6::Header { kind: sys::ICMPV6_KIND_PACKET_TOO_BIG, mtu: 1280, ..Default::default() };
/// let (mut router, mut buffer) = ([0; 16], [0; 1280]);
/// router[0] = 0x20;
/// let len = icmpv6::error_about(&packet, &too_big, router, 64, &mut buffer)?;
/// assert_eq!((len, buffer[40], &buffer[48..len]), (89, 2, &packet[..]));
/// assert_eq!(ip::Packet::read(&buffer[..len])?.verdict, ip::ChecksumVerdict::Right);
/// # Ok::<(), etherparse_transport_c::Error>(())
/// ```
pub fn error_about(packet: &[u8], header: &Header, source: [u8; 16], hop_limit: u8, buffer: &mut [u8]) -> Result<usize, Error> {
    let (mut written, mut error) = (0, sys::Error::default());
    let (start, len) = (packet.as_ptr(), packet.len());
    let (room, room_len) = (buffer.as_mut_ptr(), buffer.len());
    // SAFETY: each pointer is that of a live reference, and no two overlap.
    let status = unsafe {
        sys::etherparse_icmpv6_error_about(start, len, header, &source, hop_limit, room, room_len, &mut written, &mut error)
    };
    answer(status, written, error)
}

/// The packet that an error is about, as far as the message contains it. Each type below 128 is an error. The length field of RFC 4884 ends
/// the packet if it counts at least 128 bytes.
///
/// Errors: as [`Packet::read`], and `NoIcmpError` for another message.
///
/// ```
/// use etherparse_transport_c::{ErrorKind, icmpv6};
/// let quoted = icmpv6::quoted_packet(&[1, 0, 0, 0, 0, 0, 0, 0, 0x60, 0, 0, 0, 0, 0, 17, 64])?;
/// assert_eq!(quoted, [0x60, 0, 0, 0, 0, 0, 17, 64]);
/// let error = icmpv6::quoted_packet(&[128, 0, 0, 0, 0, 0, 0, 0]).unwrap_err();
/// assert_eq!(error.kind(), ErrorKind::NoIcmpError);
/// # Ok::<(), etherparse_transport_c::Error>(())
/// ```
pub fn quoted_packet(bytes: &[u8]) -> Result<&[u8], Error> {
    let (mut offset, mut len, mut error) = (0, 0, sys::Error::default());
    let (start, bytes_len) = (bytes.as_ptr(), bytes.len());
    // SAFETY: as above.
    let status = unsafe { sys::etherparse_icmpv6_quoted_packet(start, bytes_len, &mut offset, &mut len, &mut error) };
    answer(status, (), error).map(|()| &bytes[offset..][..len])
}

/// What to store in bytes 2 and 3 of the packet that the bytes are, whatever stands there.
///
/// Errors: as [`Packet::read`].
///
/// ```
/// use etherparse_transport_c::icmpv6;
/// let bytes = [128, 0, 0, 0, 0, 1, 0, 2, b'p', b'i', b'n', b'g'];
/// assert_eq!(icmpv6::checksum(&bytes, [0xFE; 16], [0xFE; 16])?, 0xB0F5);
/// # Ok::<(), etherparse_transport_c::Error>(())
/// ```
pub fn checksum(bytes: &[u8], source: [u8; 16], destination: [u8; 16]) -> Result<u16, Error> {
    let (mut checksum, mut error) = (0, sys::Error::default());
    // SAFETY: as above.
    let status =
        unsafe { sys::etherparse_icmpv6_checksum(bytes.as_ptr(), bytes.len(), &source, &destination, &mut checksum, &mut error) };
    answer(status, checksum, error)
}

/// Stores in bytes 2 and 3 what [`checksum`] returns. No other byte changes, and the test of the bytes then says that the checksum is
/// right.
///
/// Errors: as [`Packet::read`]; the bytes are as they were.
///
/// ```
/// use etherparse_transport_c::{Verdict, icmpv6};
/// let (source, destination) = ([0xFE; 16], [0xFD; 16]);
/// let mut bytes = [128, 0, 0, 0, 0, 1, 0, 2, b'p', b'i', b'n', b'g'];
/// icmpv6::store_checksum(&mut bytes, source, destination)?;
/// assert_eq!(icmpv6::test_checksum(&bytes, source, destination)?, Verdict::Right);
/// # Ok::<(), etherparse_transport_c::Error>(())
/// ```
pub fn store_checksum(bytes: &mut [u8], source: [u8; 16], destination: [u8; 16]) -> Result<(), Error> {
    let mut error = sys::Error::default();
    // SAFETY: as above.
    let status =
        unsafe { sys::etherparse_icmpv6_checksum_store(bytes.as_mut_ptr(), bytes.len(), &source, &destination, &mut error) };
    answer(status, (), error)
}

/// Tests the checksum of the packet that the bytes are.
///
/// Errors: as [`Packet::read`].
pub fn test_checksum(bytes: &[u8], source: [u8; 16], destination: [u8; 16]) -> Result<Verdict, Error> {
    let mut error = sys::Error::default();
    // SAFETY: as above.
    let status = unsafe { sys::etherparse_icmpv6_checksum_test(bytes.as_ptr(), bytes.len(), &source, &destination, &mut error) };
    verdict(status, error)
}
