// SPDX-FileCopyrightText: 2026 The etherparse_transport developers
// SPDX-License-Identifier: MIT OR Apache-2.0
//! UDP (RFC 768).
use crate::{Error, LenSource, Verdict, answer, sys, verdict};

/// The four fields of a UDP header.
pub use crate::sys::UdpHeader as Header;

/// A UDP packet that was read.
#[derive(Clone, Copy, Debug, PartialEq, Eq, Hash)]
pub struct Packet<'a> {
    /// The header.
    pub header: Header,
    /// What comes behind the header.
    pub payload: &'a [u8],
    /// Where the length of the payload came from.
    pub payload_len_source: LenSource,
}

/// The packet whose places were read in these bytes.
fn packet<'a>(bytes: &'a [u8], read: &sys::UdpPacket) -> Packet<'a> {
    Packet {
        header: read.header,
        payload: &bytes[read.payload_offset..][..read.payload_len],
        payload_len_source: LenSource::from_number(read.payload_len_source),
    }
}

impl<'a> Packet<'a> {
    /// Reads the packet at the front of the bytes: as many of them as its length field counts, or all where that is 0.
    ///
    /// Errors: `Length`, where the bytes are fewer than 8, or fewer than the length field counts, or that field is 1 to 7.
    ///
    /// ```
    /// use etherparse_transport_c::udp;
    /// let packet = udp::Packet::read(&[0, 53, 0, 80, 0, 9, 0, 0, 1, 2, 3])?;
    /// assert_eq!((packet.header.destination_port, packet.payload), (80, [1].as_slice()));
    /// # Ok::<(), etherparse_transport_c::Error>(())
    /// ```
    pub fn read(bytes: &'a [u8]) -> Result<Packet<'a>, Error> {
        let (mut read, mut error) = (sys::UdpPacket::default(), sys::Error::default());
        // SAFETY: each pointer is that of a live reference, and no two overlap.
        let status = unsafe { sys::etherparse_udp_packet_read(bytes.as_ptr(), bytes.len(), &mut read, &mut error) };
        answer(status, (), error).map(|()| packet(bytes, &read))
    }

    /// Reads the packet at the front of the bytes, and all of them where the length field cannot be true.
    ///
    /// Errors: `Length`, where the bytes are fewer than 8.
    ///
    /// ```
    /// use etherparse_transport_c::{LenSource, udp};
    /// let packet = udp::Packet::read_lax(&[0, 53, 0, 80, 0, 99, 0, 0, 1, 2, 3])?;
    /// assert_eq!((packet.payload.len(), packet.payload_len_source), (3, LenSource::Slice));
    /// # Ok::<(), etherparse_transport_c::Error>(())
    /// ```
    pub fn read_lax(bytes: &'a [u8]) -> Result<Packet<'a>, Error> {
        let (mut read, mut error) = (sys::UdpPacket::default(), sys::Error::default());
        // SAFETY: as above.
        let status = unsafe { sys::etherparse_udp_packet_read_lax(bytes.as_ptr(), bytes.len(), &mut read, &mut error) };
        answer(status, (), error).map(|()| packet(bytes, &read))
    }
}

/// Writes the header, 8 bytes, at the front of a buffer, and returns how many bytes it has.
///
/// Errors: `BufferTooSmall`; the buffer is as it was.
///
/// ```
/// use etherparse_transport_c::udp;
/// let header = udp::Header { source_port: 53, destination_port: 80, length: 8, checksum: 0 };
/// let mut buffer = [0; 8];
/// assert_eq!(udp::write_header(&header, &mut buffer)?, 8);
/// assert_eq!(buffer, [0, 53, 0, 80, 0, 8, 0, 0]);
/// # Ok::<(), etherparse_transport_c::Error>(())
/// ```
pub fn write_header(header: &Header, buffer: &mut [u8]) -> Result<usize, Error> {
    let (mut written, mut error) = (0, sys::Error::default());
    // SAFETY: as above.
    let status = unsafe { sys::etherparse_udp_header_write(header, buffer.as_mut_ptr(), buffer.len(), &mut written, &mut error) };
    answer(status, written, error)
}

/// What to store in bytes 6 and 7 of the packet at the front of the bytes over IPv4, whatever stands there; never 0.
///
/// Errors: as [`Packet::read`], and `ValueTooBig` where the payload is longer than 65,527 bytes.
///
/// ```
/// use etherparse_transport_c::udp;
/// let bytes = [0x00, 0x15, 0x04, 0xD2, 0x00, 0x0B, 0, 0, b'a', b'b', b'c'];
/// assert_eq!(udp::checksum_ipv4(&bytes, [192, 168, 1, 1], [192, 168, 1, 2])?, 0xB33A);
/// # Ok::<(), etherparse_transport_c::Error>(())
/// ```
pub fn checksum_ipv4(bytes: &[u8], source: [u8; 4], destination: [u8; 4]) -> Result<u16, Error> {
    let (mut checksum, mut error) = (0, sys::Error::default());
    // SAFETY: as above.
    let status =
        unsafe { sys::etherparse_udp_checksum_ipv4(bytes.as_ptr(), bytes.len(), &source, &destination, &mut checksum, &mut error) };
    answer(status, checksum, error)
}

/// What to store in bytes 6 and 7 of the packet at the front of the bytes over IPv6, whatever stands there; never 0.
///
/// Errors: as [`Packet::read`], and `ValueTooBig` where the payload is longer than 4,294,967,287 bytes.
pub fn checksum_ipv6(bytes: &[u8], source: [u8; 16], destination: [u8; 16]) -> Result<u16, Error> {
    let (mut checksum, mut error) = (0, sys::Error::default());
    // SAFETY: as above.
    let status =
        unsafe { sys::etherparse_udp_checksum_ipv6(bytes.as_ptr(), bytes.len(), &source, &destination, &mut checksum, &mut error) };
    answer(status, checksum, error)
}

/// Stores in bytes 6 and 7 what [`checksum_ipv4`] returns. No other byte changes, and the test of the bytes then says that the checksum
/// is right.
///
/// Errors: as [`checksum_ipv4`]; the bytes are as they were.
///
/// ```
/// use etherparse_transport_c::udp;
/// let mut bytes = [0x00, 0x15, 0x04, 0xD2, 0x00, 0x0B, 0, 0, b'a', b'b', b'c'];
/// udp::store_checksum_ipv4(&mut bytes, [192, 168, 1, 1], [192, 168, 1, 2])?;
/// assert_eq!(bytes[6..8], [0xB3, 0x3A]);
/// # Ok::<(), etherparse_transport_c::Error>(())
/// ```
pub fn store_checksum_ipv4(bytes: &mut [u8], source: [u8; 4], destination: [u8; 4]) -> Result<(), Error> {
    let mut error = sys::Error::default();
    // SAFETY: as above.
    let status =
        unsafe { sys::etherparse_udp_checksum_store_ipv4(bytes.as_mut_ptr(), bytes.len(), &source, &destination, &mut error) };
    answer(status, (), error)
}

/// Stores in bytes 6 and 7 what [`checksum_ipv6`] returns. No other byte changes, and the test of the bytes then says that the checksum
/// is right.
///
/// Errors: as [`checksum_ipv6`]; the bytes are as they were.
pub fn store_checksum_ipv6(bytes: &mut [u8], source: [u8; 16], destination: [u8; 16]) -> Result<(), Error> {
    let mut error = sys::Error::default();
    // SAFETY: as above.
    let status =
        unsafe { sys::etherparse_udp_checksum_store_ipv6(bytes.as_mut_ptr(), bytes.len(), &source, &destination, &mut error) };
    answer(status, (), error)
}

/// Tests the checksum of the packet at the front of the bytes over IPv4.
///
/// Errors: as [`checksum_ipv4`].
///
/// ```
/// use etherparse_transport_c::{Verdict, udp};
/// let unsummed = [0, 53, 0, 80, 0, 8, 0, 0];
/// assert_eq!(udp::test_checksum_ipv4(&unsummed, [10, 0, 0, 1], [10, 0, 0, 2])?, Verdict::Absent);
/// # Ok::<(), etherparse_transport_c::Error>(())
/// ```
pub fn test_checksum_ipv4(bytes: &[u8], source: [u8; 4], destination: [u8; 4]) -> Result<Verdict, Error> {
    let mut error = sys::Error::default();
    // SAFETY: as above.
    let status = unsafe { sys::etherparse_udp_checksum_test_ipv4(bytes.as_ptr(), bytes.len(), &source, &destination, &mut error) };
    verdict(status, error)
}

/// Tests the checksum of the packet at the front of the bytes over IPv6. A receiver discards a packet without a checksum, but for
/// tunnels that allow it (RFC 8200, section 8.1; RFC 6935).
///
/// Errors: as [`checksum_ipv6`].
pub fn test_checksum_ipv6(bytes: &[u8], source: [u8; 16], destination: [u8; 16]) -> Result<Verdict, Error> {
    let mut error = sys::Error::default();
    // SAFETY: as above.
    let status = unsafe { sys::etherparse_udp_checksum_test_ipv6(bytes.as_ptr(), bytes.len(), &source, &destination, &mut error) };
    verdict(status, error)
}
