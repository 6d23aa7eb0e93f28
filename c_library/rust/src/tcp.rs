// SPDX-FileCopyrightText: 2026 The etherparse_transport developers
// SPDX-License-Identifier: MIT OR Apache-2.0
//! TCP (RFC 9293) and its options.
use crate::{Error, Verdict, answer, sys, verdict};

/// The fields of a TCP header but its options. The flags are a number, of which [`sys::TCP_FIN`] to [`sys::TCP_NS`] are the bits.
pub use crate::sys::TcpHeader as Header;

/// A TCP packet that was read.
#[derive(Clone, Copy, Debug, PartialEq, Eq, Hash)]
pub struct Packet<'a> {
    /// The header.
    pub header: Header,
    /// The option bytes.
    pub options: &'a [u8],
    /// What comes behind header and options.
    pub payload: &'a [u8],
}

impl<'a> Packet<'a> {
    /// Reads the header at the front of the bytes; all bytes behind it are the payload.
    ///
    /// Errors: `Length`, where the bytes are fewer than 20, or fewer than the data offset counts; `DataOffset`, where that is below 5.
    ///
    /// ```
    /// use etherparse_transport_c::{sys, tcp};
    /// let bytes = [0, 80, 0x30, 0x39, 0, 0, 0, 1, 0, 0, 0, 2, 0x50, 0x18, 0, 9, 0, 0, 0, 0, b'h', b'i'];
    /// let packet = tcp::Packet::read(&bytes)?;
    /// assert_eq!((packet.header.sequence_number, packet.payload), (1, b"hi".as_slice()));
    /// assert_eq!(packet.header.flags, sys::TCP_ACK | sys::TCP_PSH);
    /// # Ok::<(), etherparse_transport_c::Error>(())
    /// ```
    pub fn read(bytes: &'a [u8]) -> Result<Packet<'a>, Error> {
        let (mut read, mut error) = (sys::TcpPacket::default(), sys::Error::default());
        // SAFETY: each pointer is that of a live reference, and no two overlap.
        let status = unsafe { sys::etherparse_tcp_packet_read(bytes.as_ptr(), bytes.len(), &mut read, &mut error) };
        answer(status, (), error).map(|()| Packet {
            header: read.header,
            options: &bytes[read.options_offset..][..read.options_len],
            payload: &bytes[read.payload_offset..][..read.payload_len],
        })
    }

    /// The options, up to the end of the list or the first fault.
    ///
    /// ```
    /// use etherparse_transport_c::tcp;
    /// let bytes = [0, 80, 0, 81, 0, 0, 0, 1, 0, 0, 0, 0, 0x60, 0x02, 0, 9, 0, 0, 0, 0, 2, 4, 0x05, 0xB4];
    /// let options: Result<Vec<_>, _> = tcp::Packet::read(&bytes)?.options_iter().collect();
    /// assert_eq!(options?, [tcp::TcpOption::maximum_segment_size(1460)]);
    /// # Ok::<(), etherparse_transport_c::Error>(())
    /// ```
    pub fn options_iter(&self) -> Options<'a> {
        Options::new(self.options)
    }

    /// The options of every kind, up to the end of the list or the first fault.
    pub fn raw_options_iter(&self) -> RawOptions<'a> {
        RawOptions::new(self.options)
    }
}

/// Writes the header with these option bytes at the front of a buffer, and returns how many bytes it has, 20 to 60. Zeros behind
/// the options fill the last word of four bytes. The data offset is made from the options.
///
/// Errors: `OptionsTooLong`, `FlagsUnknown`, `BufferTooSmall`; the buffer is as it was.
///
/// ```
/// use etherparse_transport_c::{sys, tcp};
/// let header = tcp::Header { source_port: 80, flags: sys::TCP_SYN, ..Default::default() };
/// let mut buffer = [0xEE; 60];
/// assert_eq!(tcp::write_header(&header, &[3, 3, 7], &mut buffer)?, 24);
/// assert_eq!((&buffer[12..14], &buffer[20..24]), ([0x60, 0x02].as_slice(), [3, 3, 7, 0].as_slice()));
/// # Ok::<(), etherparse_transport_c::Error>(())
/// ```
pub fn write_header(header: &Header, options: &[u8], buffer: &mut [u8]) -> Result<usize, Error> {
    let (mut written, mut error) = (0, sys::Error::default());
    // SAFETY: as above.
    let status = unsafe {
        sys::etherparse_tcp_header_write(
            header,
            options.as_ptr(),
            options.len(),
            buffer.as_mut_ptr(),
            buffer.len(),
            &mut written,
            &mut error,
        )
    };
    answer(status, written, error)
}

/// Stores the header in the packet at the front of the bytes, in place of the one that is there. Options and payload stay.
///
/// Errors: as [`Packet::read`], and `FlagsUnknown`; the bytes are as they were.
///
/// ```
/// use etherparse_transport_c::tcp;
/// let mut bytes = [0, 80, 0, 81, 0, 0, 0, 1, 0, 0, 0, 0, 0x60, 0x02, 0, 9, 0, 0, 0, 0, 2, 4, 0x05, 0xB4];
/// let header = tcp::Packet::read(&bytes)?.header;
/// tcp::store_header(&tcp::Header { source_port: 443, ..header }, &mut bytes)?;
/// assert_eq!((&bytes[..4], &bytes[20..]), ([1, 0xBB, 0, 81].as_slice(), [2, 4, 0x05, 0xB4].as_slice()));
/// # Ok::<(), etherparse_transport_c::Error>(())
/// ```
pub fn store_header(header: &Header, bytes: &mut [u8]) -> Result<(), Error> {
    let mut error = sys::Error::default();
    // SAFETY: as above.
    let status = unsafe { sys::etherparse_tcp_header_store(header, bytes.as_mut_ptr(), bytes.len(), &mut error) };
    answer(status, (), error)
}

/// What to store in bytes 16 and 17 of the packet that the bytes are over IPv4, whatever stands there.
///
/// Errors: as [`Packet::read`], and `ValueTooBig` where the bytes are more than 65,535.
pub fn checksum_ipv4(bytes: &[u8], source: [u8; 4], destination: [u8; 4]) -> Result<u16, Error> {
    let (mut checksum, mut error) = (0, sys::Error::default());
    // SAFETY: as above.
    let status =
        unsafe { sys::etherparse_tcp_checksum_ipv4(bytes.as_ptr(), bytes.len(), &source, &destination, &mut checksum, &mut error) };
    answer(status, checksum, error)
}

/// What to store in bytes 16 and 17 of the packet that the bytes are over IPv6, whatever stands there.
///
/// Errors: as [`Packet::read`], and `ValueTooBig` where the bytes are more than 4,294,967,295.
pub fn checksum_ipv6(bytes: &[u8], source: [u8; 16], destination: [u8; 16]) -> Result<u16, Error> {
    let (mut checksum, mut error) = (0, sys::Error::default());
    // SAFETY: as above.
    let status =
        unsafe { sys::etherparse_tcp_checksum_ipv6(bytes.as_ptr(), bytes.len(), &source, &destination, &mut checksum, &mut error) };
    answer(status, checksum, error)
}

/// Stores in bytes 16 and 17 what [`checksum_ipv4`] returns. No other byte changes, and the test of the bytes then says that the checksum
/// is right.
///
/// Errors: as [`checksum_ipv4`]; the bytes are as they were.
pub fn store_checksum_ipv4(bytes: &mut [u8], source: [u8; 4], destination: [u8; 4]) -> Result<(), Error> {
    let mut error = sys::Error::default();
    // SAFETY: as above.
    let status =
        unsafe { sys::etherparse_tcp_checksum_store_ipv4(bytes.as_mut_ptr(), bytes.len(), &source, &destination, &mut error) };
    answer(status, (), error)
}

/// Stores in bytes 16 and 17 what [`checksum_ipv6`] returns. No other byte changes, and the test of the bytes then says that the checksum
/// is right.
///
/// Errors: as [`checksum_ipv6`]; the bytes are as they were.
pub fn store_checksum_ipv6(bytes: &mut [u8], source: [u8; 16], destination: [u8; 16]) -> Result<(), Error> {
    let mut error = sys::Error::default();
    // SAFETY: as above.
    let status =
        unsafe { sys::etherparse_tcp_checksum_store_ipv6(bytes.as_mut_ptr(), bytes.len(), &source, &destination, &mut error) };
    answer(status, (), error)
}

/// Tests the checksum of the packet that the bytes are over IPv4.
///
/// Errors: as [`checksum_ipv4`].
///
/// ```
/// use etherparse_transport_c::{Verdict, tcp};
/// let syn = [
///     0xC3, 0x50, 0, 0x50, 0, 0, 0, 1, 0, 0, 0, 0, 0x70, 0x02, 0xFF, 0xF0, 0x37, 0x39, 0, 0, 2, 4, 0x05, 0xB4, 3, 3, 7, 0,
/// ];
/// assert_eq!(tcp::test_checksum_ipv4(&syn, [192, 168, 1, 1], [192, 168, 1, 2])?, Verdict::Right);
/// # Ok::<(), etherparse_transport_c::Error>(())
/// ```
pub fn test_checksum_ipv4(bytes: &[u8], source: [u8; 4], destination: [u8; 4]) -> Result<Verdict, Error> {
    let mut error = sys::Error::default();
    // SAFETY: as above.
    let status = unsafe { sys::etherparse_tcp_checksum_test_ipv4(bytes.as_ptr(), bytes.len(), &source, &destination, &mut error) };
    verdict(status, error)
}

/// Tests the checksum of the packet that the bytes are over IPv6.
///
/// Errors: as [`checksum_ipv6`].
pub fn test_checksum_ipv6(bytes: &[u8], source: [u8; 16], destination: [u8; 16]) -> Result<Verdict, Error> {
    let mut error = sys::Error::default();
    // SAFETY: as above.
    let status = unsafe { sys::etherparse_tcp_checksum_test_ipv6(bytes.as_ptr(), bytes.len(), &source, &destination, &mut error) };
    verdict(status, error)
}

/// A TCP option: its kind, and its values.
#[repr(transparent)]
#[derive(Clone, Copy, Debug, PartialEq, Eq, Hash)]
pub struct TcpOption(sys::TcpOption);

impl TcpOption {
    /// An option of this kind with these values, at most 8 of them; `None` of more. Whether the kind has such values is told where
    /// the option is written.
    pub fn new(kind: u32, values: &[u32]) -> Option<TcpOption> {
        let mut option = sys::TcpOption { kind, value_count: values.len() as u32, values: [0; 8] };
        option.values.get_mut(..values.len())?.copy_from_slice(values);
        Some(TcpOption(option))
    }

    /// An option with one or two values.
    const fn of(kind: u32, value_count: u32, first: u32, second: u32) -> TcpOption {
        TcpOption(sys::TcpOption { kind, value_count, values: [first, second, 0, 0, 0, 0, 0, 0] })
    }

    /// No operation: one byte between options.
    pub const fn noop() -> TcpOption {
        TcpOption::of(sys::TCP_OPTION_NOOP, 0, 0, 0)
    }

    /// The largest segment that the sender accepts, in bytes.
    pub const fn maximum_segment_size(size: u16) -> TcpOption {
        TcpOption::of(sys::TCP_OPTION_MAXIMUM_SEGMENT_SIZE, 1, size as u32, 0)
    }

    /// By how many bits the window is shifted.
    pub const fn window_scale(shift: u8) -> TcpOption {
        TcpOption::of(sys::TCP_OPTION_WINDOW_SCALE, 1, shift as u32, 0)
    }

    /// Selective acknowledgements are permitted.
    pub const fn sack_permitted() -> TcpOption {
        TcpOption::of(sys::TCP_OPTION_SACK_PERMITTED, 0, 0, 0)
    }

    /// A timestamp value and its echo reply.
    pub const fn timestamp(value: u32, echo_reply: u32) -> TcpOption {
        TcpOption::of(sys::TCP_OPTION_TIMESTAMP, 2, value, echo_reply)
    }

    /// The blocks that were received, by their left and right edges; `None` of no block and of more than four.
    ///
    /// ```
    /// use etherparse_transport_c::tcp::TcpOption;
    /// assert_eq!(TcpOption::sack(&[(1, 2), (3, 4)]).unwrap().values(), [1, 2, 3, 4]);
    /// assert!(TcpOption::sack(&[]).is_none() && TcpOption::sack(&[(0, 0); 5]).is_none());
    /// ```
    pub fn sack(blocks: &[(u32, u32)]) -> Option<TcpOption> {
        if blocks.is_empty() || blocks.len() > 4 {
            return None;
        }
        let mut option = sys::TcpOption { kind: sys::TCP_OPTION_SACK, ..Default::default() };
        for (edges, block) in option.values.chunks_exact_mut(2).zip(blocks) {
            edges.copy_from_slice(&[block.0, block.1]);
            option.value_count += 2;
        }
        Some(TcpOption(option))
    }

    /// The kind: the first byte of the option, one of `sys::TCP_OPTION_..`.
    pub fn kind(&self) -> u32 {
        self.0.kind
    }

    /// The values that an option of this kind has.
    pub fn values(&self) -> &[u32] {
        &self.0.values[..self.0.value_count as usize]
    }
}

/// Reads option bytes, one option after the other. After a fault there is no further one.
#[derive(Clone, Debug)]
pub struct Options<'a> {
    options: &'a [u8],
    place: usize,
}

impl<'a> Options<'a> {
    /// The options in these bytes.
    pub fn new(options: &'a [u8]) -> Options<'a> {
        Options { options, place: 0 }
    }
}

impl Iterator for Options<'_> {
    type Item = Result<TcpOption, Error>;

    fn next(&mut self) -> Option<Result<TcpOption, Error>> {
        let (mut option, mut error) = (sys::TcpOption::default(), sys::Error::default());
        // SAFETY: as above.
        let status = unsafe {
            sys::etherparse_tcp_option_next(self.options.as_ptr(), self.options.len(), &mut self.place, &mut option, &mut error)
        };
        if status == sys::STATUS_OPTIONS_END { None } else { Some(answer(status, TcpOption(option), error)) }
    }
}

impl core::iter::FusedIterator for Options<'_> {}

/// A TCP option as it stands, known or not.
#[derive(Clone, Copy, Debug, PartialEq, Eq, Hash)]
pub struct RawOption<'a> {
    /// The kind: the first byte of the option.
    pub kind: u32,
    /// The value, behind kind and length byte.
    pub value: &'a [u8],
}

/// Reads option bytes, one option of any kind after the other. After a fault there is no further one.
///
/// ```
/// use etherparse_transport_c::tcp::{RawOption, RawOptions};
/// let mut options = RawOptions::new(&[28, 4, 0x80, 0x0A, 0]);
/// assert_eq!(options.next(), Some(Ok(RawOption { kind: 28, value: &[0x80, 0x0A] })));
/// assert_eq!(options.next(), None);
/// ```
#[derive(Clone, Debug)]
pub struct RawOptions<'a> {
    options: &'a [u8],
    place: usize,
}

impl<'a> RawOptions<'a> {
    /// The options in these bytes.
    pub fn new(options: &'a [u8]) -> RawOptions<'a> {
        RawOptions { options, place: 0 }
    }
}

impl<'a> Iterator for RawOptions<'a> {
    type Item = Result<RawOption<'a>, Error>;

    fn next(&mut self) -> Option<Result<RawOption<'a>, Error>> {
        let (mut read, mut error) = (sys::TcpRawOption::default(), sys::Error::default());
        // SAFETY: as above.
        let status = unsafe {
            sys::etherparse_tcp_raw_option_next(self.options.as_ptr(), self.options.len(), &mut self.place, &mut read, &mut error)
        };
        if status == sys::STATUS_OPTIONS_END {
            return None;
        }
        let options = self.options;
        Some(
            answer(status, (), error)
                .map(|()| RawOption { kind: read.kind, value: &options[read.value_offset..][..read.value_len] }),
        )
    }
}

impl core::iter::FusedIterator for RawOptions<'_> {}

/// Writes the bytes of some options at the front of a buffer, as [`write_header`] takes them, and returns how many bytes they have,
/// 0 to 40. Zeros behind them fill the last word of four bytes.
///
/// Errors, in this order: `OptionUnknown` or `OptionValues` of the first option that is none, however many there are; `OptionsTooLong`
/// with the number of bytes that all options need; `BufferTooSmall`. The buffer is as it was.
///
/// ```
/// use etherparse_transport_c::tcp::{Options, TcpOption, write_options};
/// let options = [TcpOption::maximum_segment_size(1460), TcpOption::window_scale(7)];
/// let mut buffer = [0; 40];
/// let written = write_options(&options, &mut buffer)?;
/// assert_eq!(buffer[..written], [2, 4, 0x05, 0xB4, 3, 3, 7, 0]);
/// assert!(Options::new(&buffer[..written]).eq(options.map(Ok)));
/// let refused = write_options(&[TcpOption::window_scale(7); 41], &mut buffer).unwrap_err();
/// assert_eq!(refused.kind(), etherparse_transport_c::ErrorKind::OptionsTooLong { len: 123 });
/// # Ok::<(), etherparse_transport_c::Error>(())
/// ```
pub fn write_options(options: &[TcpOption], buffer: &mut [u8]) -> Result<usize, Error> {
    let (mut written, mut error) = (0, sys::Error::default());
    // SAFETY: as above; a `TcpOption` is a `sys::TcpOption`.
    let status = unsafe {
        sys::etherparse_tcp_options_write(
            options.as_ptr().cast(),
            options.len(),
            buffer.as_mut_ptr(),
            buffer.len(),
            &mut written,
            &mut error,
        )
    };
    answer(status, written, error)
}
