// SPDX-FileCopyrightText: 2026 The etherparse_transport developers
// SPDX-License-Identifier: MIT OR Apache-2.0
//! The way to the transport layer through IP.
use crate::canonical::Protocol;
use crate::{Error, Text, Verdict, answer, sys, verdict};

/// The fields of an IPv4 header that a caller chooses, for [`write_packet_ipv4`].
pub use crate::sys::Ipv4Header;
/// The fields of an IPv6 header that a caller chooses, for [`write_packet_ipv6`].
pub use crate::sys::Ipv6Header;

/// The addresses that a checksum is taken of, or those of the IP header itself.
#[derive(Clone, Copy, Debug, PartialEq, Eq, Hash)]
pub enum Addresses {
    /// Those of an IPv4 header.
    Ipv4 {
        /// The source.
        source: [u8; 4],
        /// The destination; in a [`Transport`] the last address of a source route.
        destination: [u8; 4],
    },
    /// Those of an IPv6 header and its extension headers.
    Ipv6 {
        /// The source; in a [`Transport`] a home address, if there is one.
        source: [u8; 16],
        /// The destination; in a [`Transport`] the last address of a routing header, or `None` where that is not known.
        destination: Option<[u8; 16]>,
    },
}

/// What an IP packet carries.
#[derive(Clone, Copy, Debug, PartialEq, Eq, Hash)]
pub struct Transport<'a> {
    /// The addresses.
    pub addresses: Addresses,
    /// The protocol of the payload, by the number that IP has for it.
    pub protocol: u32,
    /// What comes behind all headers, without the padding behind a packet that states its length.
    pub payload: &'a [u8],
    /// The payload is a part of a packet's only.
    pub is_fragment: bool,
    /// The IP header counts more bytes than there are.
    pub is_cut_off: bool,
    /// The IP header states no length, and all bytes are counted.
    pub is_length_missing: bool,
    /// The offset of the fragment is above 0, so no transport header begins the payload.
    pub is_later_fragment: bool,
    /// The hops that are left: the time to live of IPv4, or the hop limit of IPv6.
    pub hop_limit: u8,
    /// The place of the payload in the payload of the whole packet, in bytes, or 0 if the packet is not a fragment.
    pub fragment_offset: u16,
    /// What the fragments of a packet share: 16 bits of IPv4, or 32 bits of a fragment header of IPv6, or 0.
    pub identification: u32,
    /// The flag "don't fragment" of IPv4 is set. It is false over IPv6.
    pub dont_fragment: bool,
    /// The type of service of IPv4, or the traffic class of IPv6.
    pub traffic_class: u8,
}

/// The first four bytes of an address.
fn ipv4_address(address: [u8; 16]) -> [u8; 4] {
    let [a, b, c, d, ..] = address;
    [a, b, c, d]
}

/// The addresses of this version, with a destination if it is known.
fn addresses(version: u32, source: [u8; 16], destination: [u8; 16], has_destination: u32) -> Addresses {
    if version == 4 {
        Addresses::Ipv4 { source: ipv4_address(source), destination: ipv4_address(destination) }
    } else {
        Addresses::Ipv6 { source, destination: (has_destination != 0).then_some(destination) }
    }
}

/// The transport whose places were found in these bytes.
fn transport<'a>(bytes: &'a [u8], found: &sys::IpTransport) -> Transport<'a> {
    Transport {
        addresses: addresses(found.version, found.source, found.destination, found.has_destination),
        protocol: found.protocol,
        payload: &bytes[found.payload_offset..][..found.payload_len],
        is_fragment: found.is_fragment != 0,
        is_cut_off: found.is_cut_off != 0,
        is_length_missing: found.is_length_missing != 0,
        is_later_fragment: found.is_later_fragment != 0,
        hop_limit: found.hop_limit as u8,
        fragment_offset: found.fragment_offset as u16,
        identification: found.identification,
        dont_fragment: found.dont_fragment != 0,
        traffic_class: found.traffic_class as u8,
    }
}

impl<'a> Transport<'a> {
    /// Finds the transport in the IP packet at the front of the bytes, behind the options of IPv4 or the extension headers of IPv6.
    ///
    /// Errors: `IpHeaderCutOff`, `IpVersion`, `IpHeaderLength`, `IpTotalLength`, `IpPacketCutOff`, `IpExtensionCutOff`, and the four whose
    /// names begin with `IpJumboPayload`.
    ///
    /// ```
    /// use etherparse_transport_c::ip::{Addresses, Transport};
    /// let packet = [0x45, 0, 0, 21, 0, 0, 0, 0, 64, 17, 0, 0, 10, 0, 0, 1, 10, 0, 0, 2, 0xAA, 0, 0];
    /// let transport = Transport::read(&packet)?;
    /// assert_eq!((transport.protocol, transport.payload), (17, [0xAA].as_slice()));
    /// assert_eq!((transport.hop_limit, transport.is_later_fragment), (64, false));
    /// assert_eq!(transport.addresses, Addresses::Ipv4 { source: [10, 0, 0, 1], destination: [10, 0, 0, 2] });
    /// # Ok::<(), etherparse_transport_c::Error>(())
    /// ```
    pub fn read(bytes: &'a [u8]) -> Result<Transport<'a>, Error> {
        let (mut found, mut error) = (sys::IpTransport::default(), sys::Error::default());
        // SAFETY: each pointer is that of a live reference, and no two overlap.
        let status = unsafe { sys::etherparse_transport_in_ip(bytes.as_ptr(), bytes.len(), &mut found, &mut error) };
        answer(status, (), error).map(|()| transport(bytes, &found))
    }

    /// Like [`Transport::read`], but also accepts a packet that is cut off, and a packet whose header states no length. The payload of a
    /// packet that is cut off is the bytes that are there. In a packet without a length all bytes are counted, and `is_length_missing` is
    /// true: IPv4 with total length 0, and IPv6 with payload length 0, no jumbo payload length and another next header than 59.
    ///
    /// Errors: as [`Transport::read`], except `IpPacketCutOff`, `IpJumboPayloadMissing`, and `IpTotalLength` with a total length of 0.
    ///
    /// ```
    /// use etherparse_transport_c::ip::Transport;
    /// let packet = [0x45, 0, 0, 99, 0, 0, 0, 0, 64, 17, 0, 0, 10, 0, 0, 1, 10, 0, 0, 2, 0xAA];
    /// let transport = Transport::read_lax(&packet)?;
    /// assert!(transport.is_cut_off && !transport.is_length_missing && transport.payload == [0xAA]);
    /// let packet = [0x45, 0, 0, 0, 0, 0, 0, 0, 64, 17, 0, 0, 10, 0, 0, 1, 10, 0, 0, 2, 0xAA];
    /// let transport = Transport::read_lax(&packet)?;
    /// assert!(transport.is_length_missing && !transport.is_cut_off && transport.payload == [0xAA]);
    /// # Ok::<(), etherparse_transport_c::Error>(())
    /// ```
    pub fn read_lax(bytes: &'a [u8]) -> Result<Transport<'a>, Error> {
        let (mut found, mut error) = (sys::IpTransport::default(), sys::Error::default());
        // SAFETY: as above.
        let status = unsafe { sys::etherparse_transport_in_ip_lax(bytes.as_ptr(), bytes.len(), &mut found, &mut error) };
        answer(status, (), error).map(|()| transport(bytes, &found))
    }
}

/// Why a checksum is not tested.
#[non_exhaustive]
#[derive(Clone, Copy, Debug, PartialEq, Eq, Hash)]
pub enum Untested {
    /// The packet is a fragment, and the checksum covers all of them.
    Fragment,
    /// Not all bytes of the packet are there.
    CutOff,
    /// A routing header does not say which address is the final one.
    UnknownDestination,
    /// Another protocol than UDP, TCP, ICMPv4 over IPv4 and ICMPv6 over IPv6.
    OtherProtocol,
    /// The length field of a UDP packet is 0, which is malformed.
    ZeroLength,
    /// The packet is longer than a length of IP can count.
    TooLong,
    /// A reason that this crate does not know, by its number.
    Other(u32),
}

impl Untested {
    /// The reason with this number.
    pub(crate) fn from_number(number: u32) -> Untested {
        match number {
            sys::VERDICT_UNTESTED_FRAGMENT => Untested::Fragment,
            sys::VERDICT_UNTESTED_CUT_OFF => Untested::CutOff,
            sys::VERDICT_UNTESTED_UNKNOWN_DESTINATION => Untested::UnknownDestination,
            sys::VERDICT_UNTESTED_OTHER_PROTOCOL => Untested::OtherProtocol,
            sys::VERDICT_UNTESTED_ZERO_LENGTH => Untested::ZeroLength,
            sys::VERDICT_UNTESTED_TOO_LONG => Untested::TooLong,
            number => Untested::Other(number),
        }
    }
}

/// What is said of the checksum of an IP packet.
#[derive(Clone, Copy, Debug, PartialEq, Eq, Hash)]
pub enum ChecksumVerdict {
    /// The checksum is right.
    Right,
    /// A UDP packet over IPv4 without a checksum.
    Absent,
    /// The checksum is wrong.
    Wrong {
        /// The one that would be right.
        expected: u16,
    },
    /// The checksum is wrong, and is the sum of the pseudo header alone, which a host leaves for its network card.
    Partial {
        /// The one that would be right.
        expected: u16,
    },
    /// The checksum is not tested.
    Untested(Untested),
}

impl ChecksumVerdict {
    fn of(packet: &sys::IpPacket) -> ChecksumVerdict {
        let expected = packet.expected_checksum;
        match packet.verdict {
            sys::VERDICT_RIGHT => ChecksumVerdict::Right,
            sys::VERDICT_ABSENT => ChecksumVerdict::Absent,
            sys::VERDICT_WRONG => ChecksumVerdict::Wrong { expected },
            sys::VERDICT_PARTIAL => ChecksumVerdict::Partial { expected },
            number => ChecksumVerdict::Untested(Untested::from_number(number)),
        }
    }

    /// The number of the verdict in [`sys`].
    pub const fn number(self) -> u32 {
        match self {
            ChecksumVerdict::Right => sys::VERDICT_RIGHT,
            ChecksumVerdict::Absent => sys::VERDICT_ABSENT,
            ChecksumVerdict::Wrong { .. } => sys::VERDICT_WRONG,
            ChecksumVerdict::Partial { .. } => sys::VERDICT_PARTIAL,
            ChecksumVerdict::Untested(reason) => match reason {
                Untested::Fragment => sys::VERDICT_UNTESTED_FRAGMENT,
                Untested::CutOff => sys::VERDICT_UNTESTED_CUT_OFF,
                Untested::UnknownDestination => sys::VERDICT_UNTESTED_UNKNOWN_DESTINATION,
                Untested::OtherProtocol => sys::VERDICT_UNTESTED_OTHER_PROTOCOL,
                Untested::ZeroLength => sys::VERDICT_UNTESTED_ZERO_LENGTH,
                Untested::TooLong => sys::VERDICT_UNTESTED_TOO_LONG,
                Untested::Other(number) => number,
            },
        }
    }

    /// The name of the verdict in the header in C.
    ///
    /// ```
    /// use etherparse_transport_c::ip::{ChecksumVerdict, Untested};
    /// assert_eq!(&*ChecksumVerdict::Right.name(), "ETHERPARSE_VERDICT_RIGHT");
    /// assert_eq!(&*ChecksumVerdict::Untested(Untested::CutOff).name(), "ETHERPARSE_VERDICT_UNTESTED_CUT_OFF");
    /// ```
    pub fn name(self) -> Text {
        Text::verdict_name(self.number())
    }
}

/// An IP packet that was read, and the verdict on its checksum.
#[derive(Clone, Copy, Debug, PartialEq, Eq, Hash)]
pub struct Packet<'a> {
    /// What the packet carries.
    pub transport: Transport<'a>,
    /// The protocol whose header the payload begins with; `None` of a fragment, of another protocol, and of ICMP of the other version.
    pub header_protocol: Option<Protocol>,
    /// The verdict.
    pub verdict: ChecksumVerdict,
}

/// The packet whose places were found in these bytes.
fn packet<'a>(bytes: &'a [u8], found: &sys::IpPacket) -> Packet<'a> {
    let protocols = [Protocol::Icmpv4, Protocol::Tcp, Protocol::Udp, Protocol::Icmpv6];
    Packet {
        transport: transport(bytes, &found.transport),
        header_protocol: protocols.into_iter().find(|protocol| *protocol as u32 == found.header_protocol),
        verdict: ChecksumVerdict::of(found),
    }
}

impl<'a> Packet<'a> {
    /// Finds the transport in the IP packet at the front of the bytes, and tests its checksum.
    ///
    /// Errors: as [`Transport::read`], and as `read` of the protocol's packet.
    ///
    /// ```
    /// use etherparse_transport_c::{canonical::Protocol, ip::{ChecksumVerdict, Packet}};
    /// let bytes = [0x45, 0, 0, 28, 0, 0, 0, 0, 64, 17, 0, 0, 10, 0, 0, 1, 10, 0, 0, 2, 0, 21, 4, 210, 0, 8, 0, 0];
    /// let packet = Packet::read(&bytes)?;
    /// assert_eq!((packet.header_protocol, packet.verdict), (Some(Protocol::Udp), ChecksumVerdict::Absent));
    /// # Ok::<(), etherparse_transport_c::Error>(())
    /// ```
    pub fn read(bytes: &'a [u8]) -> Result<Packet<'a>, Error> {
        let (mut found, mut error) = (sys::IpPacket::default(), sys::Error::default());
        // SAFETY: each pointer is that of a live reference, and no two overlap.
        let status = unsafe { sys::etherparse_packet_verdict(bytes.as_ptr(), bytes.len(), &mut found, &mut error) };
        answer(status, (), error).map(|()| packet(bytes, &found))
    }

    /// Like [`Packet::read`], but finds the transport as [`Transport::read_lax`] does. UDP in a packet that is cut off is read as by
    /// [`udp::Packet::read_lax`](crate::udp::Packet::read_lax), and its checksum is not tested. The checksum of a packet without a length is
    /// tested if a pseudo header can count its bytes.
    ///
    /// Errors: as [`Transport::read_lax`], and as `read` of the protocol's packet, or `read_lax` of UDP in a packet that is cut off.
    ///
    /// ```
    /// use etherparse_transport_c::ip::{ChecksumVerdict, Packet, Untested};
    /// let mut bytes = [0x45, 0, 0, 99, 0, 0, 0, 0, 64, 17, 0, 0, 10, 0, 0, 1, 10, 0, 0, 2, 0, 21, 4, 210, 0, 79, 0, 1];
    /// let packet = Packet::read_lax(&bytes)?;
    /// assert_eq!((packet.transport.is_cut_off, packet.verdict), (true, ChecksumVerdict::Untested(Untested::CutOff)));
    /// // Without a length.
    /// (bytes[3], bytes[25]) = (0, 8);
    /// let packet = Packet::read_lax(&bytes)?;
    /// assert_eq!((packet.transport.is_length_missing, packet.verdict), (true, ChecksumVerdict::Wrong { expected: 0xE6F4 }));
    /// # Ok::<(), etherparse_transport_c::Error>(())
    /// ```
    pub fn read_lax(bytes: &'a [u8]) -> Result<Packet<'a>, Error> {
        let (mut found, mut error) = (sys::IpPacket::default(), sys::Error::default());
        // SAFETY: as above.
        let status = unsafe { sys::etherparse_packet_verdict_lax(bytes.as_ptr(), bytes.len(), &mut found, &mut error) };
        answer(status, (), error).map(|()| packet(bytes, &found))
    }
}

/// The addresses of the IP header at the front of the bytes. Under a source route, a routing header or a home address they differ from the
/// addresses of a [`Transport`], which the checksum covers. The destination is never `None`.
///
/// Errors: `IpHeaderCutOff`, `IpVersion`, `IpHeaderLength`.
///
/// ```
/// use etherparse_transport_c::ip::{self, Addresses, Transport};
/// // The source route leads to 10.0.0.3.
/// let packet = [
///     0x47, 0, 0, 28, 0, 0, 0, 0, 64, 17, 0, 0, 10, 0, 0, 1, 10, 0, 0, 2,
///     131, 7, 4, 10, 0, 0, 3, 0,
/// ];
/// let source = [10, 0, 0, 1];
/// assert_eq!(ip::header_addresses(&packet)?, Addresses::Ipv4 { source, destination: [10, 0, 0, 2] });
/// assert_eq!(Transport::read(&packet)?.addresses, Addresses::Ipv4 { source, destination: [10, 0, 0, 3] });
///
/// let mut header = [0; 40];
/// header[0] = 0x60;
/// header[8..24].fill(1);
/// header[24..].fill(2);
/// assert_eq!(ip::header_addresses(&header)?, Addresses::Ipv6 { source: [1; 16], destination: Some([2; 16]) });
/// # Ok::<(), etherparse_transport_c::Error>(())
/// ```
pub fn header_addresses(bytes: &[u8]) -> Result<Addresses, Error> {
    let (mut found, mut error) = (sys::IpAddresses::default(), sys::Error::default());
    // SAFETY: each pointer is that of a live reference, and no two overlap.
    let status = unsafe { sys::etherparse_ip_header_addresses(bytes.as_ptr(), bytes.len(), &mut found, &mut error) };
    answer(status, (), error).map(|()| {
        if found.version == 4 {
            Addresses::Ipv4 { source: ipv4_address(found.source), destination: ipv4_address(found.destination) }
        } else {
            Addresses::Ipv6 { source: found.source, destination: Some(found.destination) }
        }
    })
}

/// What to store in bytes 10 and 11 of the IPv4 header at the front of the bytes, whatever stands there.
///
/// Errors: `IpHeaderCutOff`, `IpVersion` for another version than 4, `IpHeaderLength`.
///
/// ```
/// use etherparse_transport_c::{Verdict, ip};
/// let mut packet = [0x45, 0, 0, 31, 0, 0, 0x40, 0, 64, 17, 0, 0, 192, 168, 1, 1, 192, 168, 1, 2, 0xAA];
/// assert_eq!(ip::ipv4_header_checksum(&packet)?, 0xB77A);
/// assert_eq!(ip::test_ipv4_header_checksum(&packet)?, Verdict::Wrong);
/// ip::store_ipv4_header_checksum(&mut packet)?;
/// assert_eq!(packet[10..12], [0xB7, 0x7A]);
/// assert_eq!(ip::test_ipv4_header_checksum(&packet)?, Verdict::Right);
/// # Ok::<(), etherparse_transport_c::Error>(())
/// ```
pub fn ipv4_header_checksum(bytes: &[u8]) -> Result<u16, Error> {
    let (mut checksum, mut error) = (0, sys::Error::default());
    // SAFETY: as above.
    let status = unsafe { sys::etherparse_ipv4_header_checksum(bytes.as_ptr(), bytes.len(), &mut checksum, &mut error) };
    answer(status, checksum, error)
}

/// Stores in bytes 10 and 11 what [`ipv4_header_checksum`] returns. No other byte changes.
///
/// Errors: as [`ipv4_header_checksum`]; the bytes are as they were.
pub fn store_ipv4_header_checksum(bytes: &mut [u8]) -> Result<(), Error> {
    let mut error = sys::Error::default();
    // SAFETY: as above.
    let status = unsafe { sys::etherparse_ipv4_header_checksum_store(bytes.as_mut_ptr(), bytes.len(), &mut error) };
    answer(status, (), error)
}

/// Tests the checksum of the IPv4 header at the front of the bytes, which no other call tests.
///
/// Errors: as [`ipv4_header_checksum`].
pub fn test_ipv4_header_checksum(bytes: &[u8]) -> Result<Verdict, Error> {
    let mut error = sys::Error::default();
    // SAFETY: as above.
    let status = unsafe { sys::etherparse_ipv4_header_checksum_test(bytes.as_ptr(), bytes.len(), &mut error) };
    verdict(status, error)
}

/// Turns the echo request in the IP packet at the front of the bytes into its reply, in place, and returns the length of the reply. The
/// reply goes from the destination of the request to its source, without IPv4 options. The bytes behind the reply stay.
///
/// Errors: as [`Transport::read`]; `EchoFragment`, `EchoNoRequest`, `EchoHasOptions`, `Length`, `ChecksumWrong`, `EchoHeaderChecksumWrong`,
/// `EchoRequestSource`, `EchoReplySource`. The bytes are as they were.
///
/// ```
/// use etherparse_transport_c::{ErrorKind, ip};
/// let mut packet = [
///     0x45, 0, 0, 28, 0, 0, 0, 0, 64, 1, 0xF6, 0xDD, 192, 0, 2, 1, 192, 0, 2, 2,
///     8, 0, 0xF7, 0xFD, 0, 1, 0, 1,
/// ];
/// assert_eq!(ip::answer_echo(&mut packet, 64)?, 28);
/// assert_eq!(packet[12..20], [192, 0, 2, 2, 192, 0, 2, 1]);
/// assert_eq!(packet[20..], [0, 0, 0xFF, 0xFD, 0, 1, 0, 1]);
/// let error = ip::answer_echo(&mut packet, 64).unwrap_err();
/// assert_eq!(error.kind(), ErrorKind::EchoNoRequest);
/// # Ok::<(), etherparse_transport_c::Error>(())
/// ```
pub fn answer_echo(packet: &mut [u8], hop_limit: u8) -> Result<usize, Error> {
    let (mut reply_len, mut error) = (0, sys::Error::default());
    // SAFETY: each pointer is that of a live reference, and no two overlap.
    let status = unsafe { sys::etherparse_echo_answer(packet.as_mut_ptr(), packet.len(), hop_limit, &mut reply_len, &mut error) };
    answer(status, reply_len, error)
}

/// Turns the echo request in an IPv4 packet into its reply from this source, otherwise as [`answer_echo`]. If the request was sent to a
/// multicast or broadcast address, pass an address of the host.
///
/// Errors: as [`answer_echo`], and `EchoNoRequest` for an IPv6 packet.
pub fn answer_echo_ipv4(packet: &mut [u8], source: [u8; 4], time_to_live: u8) -> Result<usize, Error> {
    let (mut reply_len, mut error) = (0, sys::Error::default());
    let (start, len) = (packet.as_mut_ptr(), packet.len());
    // SAFETY: as above.
    let status = unsafe { sys::etherparse_echo_answer_ipv4(start, len, &source, time_to_live, &mut reply_len, &mut error) };
    answer(status, reply_len, error)
}

/// Turns the echo request in an IPv6 packet into its reply from this source, otherwise as [`answer_echo`]. If the request was sent to a
/// multicast address, pass an address of the host.
///
/// Errors: as [`answer_echo`], and `EchoNoRequest` for an IPv4 packet.
pub fn answer_echo_ipv6(packet: &mut [u8], source: [u8; 16], hop_limit: u8) -> Result<usize, Error> {
    let (mut reply_len, mut error) = (0, sys::Error::default());
    let (start, len) = (packet.as_mut_ptr(), packet.len());
    // SAFETY: as above.
    let status = unsafe { sys::etherparse_echo_answer_ipv6(start, len, &source, hop_limit, &mut reply_len, &mut error) };
    answer(status, reply_len, error)
}

/// Whether the second packet is the reply to the echo request in the first packet. It is not if one of the packets is refused. Bytes after
/// a packet are ignored, and the checksums of the request are not tested.
///
/// ```
/// use etherparse_transport_c::ip;
/// let request = [
///     0x45, 0, 0, 28, 0, 0, 0, 0, 64, 1, 0xF6, 0xDD, 192, 0, 2, 1, 192, 0, 2, 2,
///     8, 0, 0xF7, 0xFD, 0, 1, 0, 1,
/// ];
/// let mut reply = request;
/// assert!(!ip::is_reply_to(&request, &reply));
/// ip::answer_echo(&mut reply, 64)?;
/// assert!(ip::is_reply_to(&request, &reply));
/// assert!(!ip::is_reply_to(&reply, &request));
/// reply[27] = 2;
/// assert!(!ip::is_reply_to(&request, &reply));
/// # Ok::<(), etherparse_transport_c::Error>(())
/// ```
pub fn is_reply_to(request: &[u8], reply: &[u8]) -> bool {
    let mut error = sys::Error::default();
    // SAFETY: each pointer is that of a live reference, and the error overlaps no packet.
    let status = unsafe { sys::etherparse_echo_is_reply(request.as_ptr(), request.len(), reply.as_ptr(), reply.len(), &mut error) };
    status == sys::OK
}

/// Whether the second packet is the reply to the echo request in the first packet, from the address of any host, otherwise as
/// [`is_reply_to`]. A host that answers a request to an anycast address replies from its own address.
///
/// ```
/// use etherparse_transport_c::ip;
/// let request = [
///     0x45, 0, 0, 28, 0, 0, 0, 0, 64, 1, 0xF6, 0xDD, 192, 0, 2, 1, 192, 0, 2, 2,
///     8, 0, 0xF7, 0xFD, 0, 1, 0, 1,
/// ];
/// // The reply comes from 192.0.2.3.
/// let mut reply = request;
/// reply[12..20].copy_from_slice(&[192, 0, 2, 3, 192, 0, 2, 1]);
/// reply[20..24].copy_from_slice(&[0, 0, 0xFF, 0xFD]);
/// ip::store_ipv4_header_checksum(&mut reply)?;
/// assert!(ip::is_reply_from_any(&request, &reply) && !ip::is_reply_to(&request, &reply));
/// # Ok::<(), etherparse_transport_c::Error>(())
/// ```
pub fn is_reply_from_any(request: &[u8], reply: &[u8]) -> bool {
    let mut error = sys::Error::default();
    // SAFETY: each pointer is that of a live reference, and the error overlaps no packet.
    let status =
        unsafe { sys::etherparse_echo_is_reply_from_any(request.as_ptr(), request.len(), reply.as_ptr(), reply.len(), &mut error) };
    status == sys::OK
}

/// Whether the checksum of UDP, TCP or ICMPv6 in the IP packet at the front of the bytes is partial: the sum of only the pseudo header. A
/// host leaves the rest to its network card. The payload is not read. A fragment and any other protocol have no partial checksum.
///
/// Errors: as [`Packet::read`].
///
/// ```
/// use etherparse_transport_c::ip;
/// let mut packet = [
///     0x45, 0, 0, 31, 0, 7, 0, 0, 64, 17, 0xF7, 0x73, 192, 168, 1, 1, 192, 168, 1, 2,
///     0, 21, 4, 210, 0, 11, 0x83, 0x70, b'a', b'b', b'c',
/// ];
/// assert!(ip::is_checksum_partial(&packet)?);
/// assert_eq!(ip::store_checksum(&mut packet)?, 0xB33A);
/// assert!(!ip::is_checksum_partial(&packet)?);
/// assert_eq!(ip::Packet::read(&packet)?.verdict, ip::ChecksumVerdict::Right);
/// # Ok::<(), etherparse_transport_c::Error>(())
/// ```
pub fn is_checksum_partial(bytes: &[u8]) -> Result<bool, Error> {
    let (mut is_partial, mut error) = (0, sys::Error::default());
    // SAFETY: each pointer is that of a live reference, and no two overlap.
    let status = unsafe { sys::etherparse_packet_checksum_is_partial(bytes.as_ptr(), bytes.len(), &mut is_partial, &mut error) };
    answer(status, (), error).map(|()| is_partial != 0)
}

/// Stores the right checksum of UDP, TCP or ICMP in the IP packet at the front of the bytes, and returns it. No other byte changes. A UDP
/// packet over IPv4 without a checksum gets a checksum.
///
/// Errors: as [`Packet::read`], where places count from the first byte of the transport; `ChecksumUntested` if the verdict of
/// [`Packet::read`] is [`ChecksumVerdict::Untested`]. The bytes are as they were.
///
/// ```
/// use etherparse_transport_c::{ErrorKind, ip};
/// // A first fragment.
/// let mut packet = [0x45, 0, 0, 28, 0, 0, 0x20, 0, 64, 17, 0, 0, 10, 0, 0, 1, 10, 0, 0, 2, 0, 21, 4, 210, 0, 8, 0, 0];
/// let error = ip::store_checksum(&mut packet).unwrap_err();
/// assert_eq!(error.kind(), ErrorKind::ChecksumUntested { reason: ip::Untested::Fragment });
/// assert_eq!(error.to_string(), "Checksum Error: the packet is a fragment.");
/// packet[6] = 0;
/// assert_eq!(ip::store_checksum(&mut packet)?, 0xE6F4);
/// # Ok::<(), etherparse_transport_c::Error>(())
/// ```
pub fn store_checksum(packet: &mut [u8]) -> Result<u16, Error> {
    let (mut checksum, mut error) = (0, sys::Error::default());
    // SAFETY: as above.
    let status = unsafe { sys::etherparse_packet_checksum_store(packet.as_mut_ptr(), packet.len(), &mut checksum, &mut error) };
    answer(status, (), error).map(|()| checksum)
}

/// Lowers the time to live of an IPv4 packet or the hop limit of an IPv6 packet by one, as a router does. The checksum of an IPv4 header is
/// updated: a right checksum stays right, and a wrong checksum stays wrong. No other byte changes. Only the IP header is read.
///
/// Errors: `IpHeaderCutOff`, `IpVersion` and `IpHeaderLength` of the IP header, and `HopLimitExpired` if the hop limit is 0 or 1. The bytes
/// are as they were.
///
/// ```
/// use etherparse_transport_c::{ErrorKind, ip};
/// let mut packet = [0x45, 0, 0, 20, 0, 0, 0, 0, 2, 17, 0x35, 0x86, 192, 168, 1, 1, 192, 168, 1, 2];
/// ip::lower_hop_limit(&mut packet)?;
/// assert_eq!((packet[8], packet[10], packet[11]), (1, 0x36, 0x86));
/// let error = ip::lower_hop_limit(&mut packet).unwrap_err();
/// assert_eq!(error.kind(), ErrorKind::HopLimitExpired { hop_limit: 1 });
/// assert_eq!(error.to_string(), "Hop Limit Error: the hop limit is 1.");
/// # Ok::<(), etherparse_transport_c::Error>(())
/// ```
pub fn lower_hop_limit(packet: &mut [u8]) -> Result<(), Error> {
    let mut error = sys::Error::default();
    // SAFETY: as above.
    let status = unsafe { sys::etherparse_hop_limit_lower(packet.as_mut_ptr(), packet.len(), &mut error) };
    answer(status, (), error)
}

/// Lowers the maximum segment size of a SYN to at most `most`, as a router in front of a tunnel does, and returns the size that the packet
/// contained. If it is at most `most`, the packet is as it was. The checksum of TCP is updated: a right checksum stays right, and a wrong
/// checksum stays wrong. No other byte changes. A partial checksum becomes wrong.
///
/// Errors: those of [`Transport::read_lax`] for the IP headers, `ProtocolUnknown` if the protocol is not TCP, `SegmentSizeLaterFragment`, `Length`
/// or `DataOffset` of the TCP header, `SegmentSizeNoSyn`, `OptionCutOff` or `OptionSize` of an option, and `SegmentSizeNoOption`. The
/// bytes are as they were.
///
/// ```
/// use etherparse_transport_c::ip;
/// let mut packet = [
///     0x45, 0, 0, 44, 0, 0, 0, 0, 64, 6, 0xF7, 0x78, 192, 168, 1, 1, 192, 168, 1, 2, 0xC3, 0x50, 0, 80, 0, 0, 0, 1, 0, 0, 0, 0, 0x60, 2,
///     0x20, 0, 0x31, 0x31, 0, 0, 2, 4, 0x05, 0xB4,
/// ];
/// assert_eq!(ip::lower_maximum_segment_size(&mut packet, 1360)?, 1460);
/// assert_eq!((&packet[36..38], &packet[42..]), (&[0x31, 0x95][..], &[0x05, 0x50][..]));
/// packet[33] = 0x10;
/// let error = ip::lower_maximum_segment_size(&mut packet, 1360).unwrap_err();
/// assert_eq!(error.to_string(), "Maximum Segment Size Error: the segment is not a SYN.");
/// # Ok::<(), etherparse_transport_c::Error>(())
/// ```
pub fn lower_maximum_segment_size(packet: &mut [u8], most: u16) -> Result<u16, Error> {
    let (mut size, mut error) = (0, sys::Error::default());
    // SAFETY: as above.
    let status =
        unsafe { sys::etherparse_maximum_segment_size_lower(packet.as_mut_ptr(), packet.len(), most, &mut size, &mut error) };
    answer(status, (), error).map(|()| size)
}

/// What [`translate_ipv4`] replaces. `None` keeps what the packet contains.
#[derive(Clone, Copy, Debug, Default, PartialEq, Eq, Hash)]
pub struct Ipv4Translation {
    /// The new source address.
    pub source: Option<[u8; 4]>,
    /// The new destination address.
    pub destination: Option<[u8; 4]>,
    /// The new source port of UDP and TCP, and the new identifier of an ICMP request.
    pub source_port: Option<u16>,
    /// The new destination port of UDP and TCP, and the new identifier of an ICMP reply.
    pub destination_port: Option<u16>,
}

impl Ipv4Translation {
    /// The translation as the library has it.
    fn to_sys(self) -> sys::Ipv4Translation {
        sys::Ipv4Translation {
            source: self.source.unwrap_or_default(),
            destination: self.destination.unwrap_or_default(),
            source_port: self.source_port.unwrap_or_default(),
            destination_port: self.destination_port.unwrap_or_default(),
            has_source: self.source.is_some().into(),
            has_destination: self.destination.is_some().into(),
            has_source_port: self.source_port.is_some().into(),
            has_destination_port: self.destination_port.is_some().into(),
        }
    }
}

/// Translates the IPv4 packet at the front of the bytes, in place, as an address translator does. It replaces addresses, and ports or the
/// identifier of an ICMP query, and updates the checksums. A receiver accepts the packet if it accepted it before.
///
/// The packet that an ICMP error is about is translated with source and destination exchanged, whatever its total length is. In a later
/// fragment only the addresses are replaced. A packet that is cut off is translated as [`Transport::read_lax`] reads it.
///
/// Errors: as [`Transport::read_lax`]; `IpVersion` for an IPv6 packet; `TranslateSourceRoute`, `TranslateProtocol`, `TranslateHeaderCutOff`,
/// `TranslateIcmpMessage`, `TranslateQuotedPacket`. The bytes are as they were.
///
/// ```
/// use etherparse_transport_c::ip::{self, ChecksumVerdict, Ipv4Translation};
/// let mut packet = [
///     0x45, 0, 0, 31, 0, 7, 0, 0, 64, 17, 0xF7, 0x73, 192, 168, 1, 1, 192, 168, 1, 2,
///     0, 21, 4, 210, 0, 11, 0xB3, 0x3A, b'a', b'b', b'c',
/// ];
/// let outbound = Ipv4Translation { source: Some([203, 0, 113, 7]), source_port: Some(40001), ..Default::default() };
/// ip::translate_ipv4(&mut packet, &outbound)?;
/// assert_eq!(packet[10..16], [0x7D, 0x15, 203, 0, 113, 7]);
/// assert_eq!(packet[20..28], [0x9C, 0x41, 4, 210, 0, 11, 0x9C, 0xAF]);
/// let inbound = Ipv4Translation { destination: Some([10, 0, 0, 1]), destination_port: Some(5000), ..Default::default() };
/// ip::translate_ipv4(&mut packet, &inbound)?;
/// assert_eq!(packet[16..24], [10, 0, 0, 1, 0x9C, 0x41, 0x13, 0x88]);
/// assert_eq!(ip::Packet::read(&packet)?.verdict, ChecksumVerdict::Right);
/// # Ok::<(), etherparse_transport_c::Error>(())
/// ```
pub fn translate_ipv4(packet: &mut [u8], new: &Ipv4Translation) -> Result<(), Error> {
    let mut error = sys::Error::default();
    // SAFETY: each pointer is that of a live reference, and no two overlap.
    let status = unsafe { sys::etherparse_translate_ipv4(packet.as_mut_ptr(), packet.len(), &new.to_sys(), &mut error) };
    answer(status, (), error)
}

/// Translates the IPv4 packet at the front of the bytes, in place, and the packet that an ICMP error is about by a translation of its own.
/// `quoted` replaces source and destination of that packet, which went in the other direction (RFC 5508, section 4).
///
/// Errors: as [`translate_ipv4`]. The ports of `quoted` count for the packet that an ICMP error is about. The bytes are as they were.
///
/// ```
/// use etherparse_transport_c::ip::{self, Ipv4Translation};
/// // A router, 10.0.0.9, reports that a packet to 10.0.0.1 took too long.
/// let mut packet = [
///     0x45, 0, 0, 56, 0, 0, 0, 0, 64, 1, 0, 0, 10, 0, 0, 9, 198, 51, 100, 7, 11, 0, 0, 0, 0, 0, 0, 0,
///     0x45, 0, 0, 28, 0, 0, 0, 0, 1, 17, 0, 0, 198, 51, 100, 7, 10, 0, 0, 1, 0, 53, 0x13, 0x88, 0, 8, 0, 0,
/// ];
/// let new = Ipv4Translation { source: Some([203, 0, 113, 9]), ..Default::default() };
/// let quoted = Ipv4Translation { destination: Some([203, 0, 113, 7]), destination_port: Some(40001), ..Default::default() };
/// ip::translate_ipv4_with_quoted(&mut packet, &new, &quoted)?;
/// assert_eq!((packet[15], &packet[44..52]), (9, [203, 0, 113, 7, 0, 53, 0x9C, 0x41].as_slice()));
/// # Ok::<(), etherparse_transport_c::Error>(())
/// ```
pub fn translate_ipv4_with_quoted(packet: &mut [u8], new: &Ipv4Translation, quoted: &Ipv4Translation) -> Result<(), Error> {
    let mut error = sys::Error::default();
    let (new, quoted) = (new.to_sys(), quoted.to_sys());
    // SAFETY: each pointer is that of a live reference, and no two overlap.
    let status =
        unsafe { sys::etherparse_translate_ipv4_with_quoted(packet.as_mut_ptr(), packet.len(), &new, &quoted, &mut error) };
    answer(status, (), error)
}

/// What [`translate_ipv6`] replaces. `None` keeps what the packet contains.
#[derive(Clone, Copy, Debug, Default, PartialEq, Eq, Hash)]
pub struct Ipv6Translation {
    /// The new source address.
    pub source: Option<[u8; 16]>,
    /// The new destination address.
    pub destination: Option<[u8; 16]>,
    /// The new source port of UDP and TCP, and the new identifier of an ICMP request.
    pub source_port: Option<u16>,
    /// The new destination port of UDP and TCP, and the new identifier of an ICMP reply.
    pub destination_port: Option<u16>,
}

impl Ipv6Translation {
    /// The translation as the library has it.
    fn to_sys(self) -> sys::Ipv6Translation {
        sys::Ipv6Translation {
            source: self.source.unwrap_or_default(),
            destination: self.destination.unwrap_or_default(),
            source_port: self.source_port.unwrap_or_default(),
            destination_port: self.destination_port.unwrap_or_default(),
            has_source: self.source.is_some().into(),
            has_destination: self.destination.is_some().into(),
            has_source_port: self.source_port.is_some().into(),
            has_destination_port: self.destination_port.is_some().into(),
        }
    }
}

/// Translates the IPv6 packet at the front of the bytes, in place, otherwise as [`translate_ipv4`]. Extension headers that contain no other
/// address are skipped: hop-by-hop options, fragment headers, routing headers without segments left, destination options without a home
/// address.
///
/// Errors: as [`translate_ipv4`], except `TranslateSourceRoute`. An IPv4 packet is refused with `IpVersion`, and a packet with another
/// extension header with `TranslateProtocol`.
///
/// ```
/// use etherparse_transport_c::ErrorKind;
/// use etherparse_transport_c::ip::{self, Ipv6Translation};
/// let mut packet = [0; 48];
/// packet[..7].copy_from_slice(&[0x60, 0, 0, 0, 0, 8, 17]);
/// packet[40..46].copy_from_slice(&[0, 6, 0, 7, 0, 8]);
/// let outbound = Ipv6Translation { source: Some([1; 16]), source_port: Some(0x0304), ..Default::default() };
/// ip::translate_ipv6(&mut packet, &outbound)?;
/// assert_eq!((packet[23], packet[39], &packet[40..44]), (1, 0, [3, 4, 0, 7].as_slice()));
/// let inbound = Ipv6Translation { destination: Some([2; 16]), destination_port: Some(0x0506), ..Default::default() };
/// ip::translate_ipv6(&mut packet, &inbound)?;
/// assert_eq!((packet[23], packet[39], &packet[40..44]), (1, 2, [3, 4, 5, 6].as_slice()));
///
/// // 59 is the number of no next header.
/// packet[6] = 59;
/// let error = ip::translate_ipv6(&mut packet, &inbound).unwrap_err();
/// assert_eq!(error.kind(), ErrorKind::TranslateProtocol { protocol: 59 });
/// # Ok::<(), etherparse_transport_c::Error>(())
/// ```
pub fn translate_ipv6(packet: &mut [u8], new: &Ipv6Translation) -> Result<(), Error> {
    let mut error = sys::Error::default();
    // SAFETY: each pointer is that of a live reference, and no two overlap.
    let status = unsafe { sys::etherparse_translate_ipv6(packet.as_mut_ptr(), packet.len(), &new.to_sys(), &mut error) };
    answer(status, (), error)
}

/// Translates the IPv6 packet at the front of the bytes, in place, and the packet that an ICMP error is about by a translation of its own,
/// otherwise as [`translate_ipv4_with_quoted`].
///
/// Errors: as [`translate_ipv6`]. The ports of `quoted` count for the packet that an ICMP error is about. The bytes are as they were.
pub fn translate_ipv6_with_quoted(packet: &mut [u8], new: &Ipv6Translation, quoted: &Ipv6Translation) -> Result<(), Error> {
    let mut error = sys::Error::default();
    let (new, quoted) = (new.to_sys(), quoted.to_sys());
    // SAFETY: each pointer is that of a live reference, and no two overlap.
    let status =
        unsafe { sys::etherparse_translate_ipv6_with_quoted(packet.as_mut_ptr(), packet.len(), &new, &quoted, &mut error) };
    answer(status, (), error)
}

/// The ends of a flow, as one of its packets names them.
#[derive(Clone, Copy, Debug, PartialEq, Eq, Hash)]
pub struct FlowEnds {
    /// The addresses, as in a [`Transport`].
    pub addresses: Addresses,
    /// The protocol of the payload, by the number that IP has for it.
    pub protocol: u32,
    /// The payload is a part of a packet's only.
    pub is_fragment: bool,
    /// The offset of the fragment is above 0, so no port is known.
    pub is_later_fragment: bool,
    /// The source port of UDP and TCP, or the identifier of an ICMP request, if the packet contains it.
    pub source_port: Option<u16>,
    /// The destination port of UDP and TCP, or the identifier of an ICMP reply, if the packet contains it.
    pub destination_port: Option<u16>,
}

/// The flow that an IP packet belongs to.
#[derive(Clone, Copy, Debug, PartialEq, Eq, Hash)]
pub struct Flow {
    /// The ends of the packet itself.
    pub ends: FlowEnds,
    /// The ends of the packet that an ICMP error quotes, which went in the other direction.
    pub quoted: Option<FlowEnds>,
}

/// The ends with these fields.
fn ends(found: &sys::FlowEnds) -> FlowEnds {
    FlowEnds {
        addresses: addresses(found.version, found.source, found.destination, found.has_destination),
        protocol: found.protocol,
        is_fragment: found.is_fragment != 0,
        is_later_fragment: found.is_later_fragment != 0,
        source_port: (found.has_source_port != 0).then_some(found.source_port),
        destination_port: (found.has_destination_port != 0).then_some(found.destination_port),
    }
}

/// The flow that the IP packet at the front of the bytes belongs to: its addresses, its protocol, and its ports or the identifier of an
/// ICMP query; and the same of the packet that an ICMP error quotes. The packet may be cut off or state no length. No checksum is tested.
///
/// Errors: as [`Transport::read_lax`].
///
/// ```
/// use etherparse_transport_c::ip;
/// let packet = [0x45, 0, 0, 28, 0, 0, 0, 0, 64, 17, 0, 0, 10, 0, 0, 1, 10, 0, 0, 2, 0x13, 0x88, 0, 53, 0, 8, 0, 0];
/// let flow = ip::flow(&packet)?;
/// assert_eq!((flow.ends.source_port, flow.ends.destination_port, flow.quoted), (Some(5000), Some(53), None));
/// # Ok::<(), etherparse_transport_c::Error>(())
/// ```
pub fn flow(bytes: &[u8]) -> Result<Flow, Error> {
    let (mut found, mut error) = (sys::PacketFlow::default(), sys::Error::default());
    // SAFETY: each pointer is that of a live reference, and no two overlap.
    let status = unsafe { sys::etherparse_flow(bytes.as_ptr(), bytes.len(), &mut found, &mut error) };
    answer(status, (), error)
        .map(|()| Flow { ends: ends(&found.ends), quoted: (found.quoted.version != 0).then(|| ends(&found.quoted)) })
}

/// A fragment of an IP packet. All fragments of one packet share the addresses, the identification, and over IPv4 the protocol.
#[derive(Clone, Copy, Debug, PartialEq, Eq, Hash)]
pub struct Fragment<'a> {
    /// The version, 4 or 6.
    pub version: u32,
    /// The protocol in the IPv4 header. It is 0 over IPv6, where the fragments of one packet may differ in it.
    pub protocol: u32,
    /// The identification: 16 bits over IPv4, 32 bits over IPv6.
    pub identification: u32,
    /// The place of the first byte in the payload of the whole packet, in bytes.
    pub offset: u32,
    /// Whether more fragments follow.
    pub more_fragments: bool,
    /// The source in the IP header. An IPv4 address is in the first four bytes, with 0 behind it.
    pub source: [u8; 16],
    /// The destination in the IP header, in the same form.
    pub destination: [u8; 16],
    /// The payload of the fragment, without padding.
    pub payload: &'a [u8],
}

impl<'a> Fragment<'a> {
    /// Reads the fragment in the IP packet at the front of the bytes. If an IPv6 packet has several fragment headers, the first is read.
    ///
    /// Errors: as [`Transport::read`], `ReassemblyHeaderChainCutOff`, and `ReassemblyNoFragment` if the packet is whole.
    ///
    /// ```
    /// use etherparse_transport_c::ip::Fragment;
    /// let packet = [0x45, 0, 0, 22, 0, 7, 0x20, 3, 64, 17, 0, 0, 10, 0, 0, 1, 10, 0, 0, 2, b'a', b'b'];
    /// let fragment = Fragment::read(&packet)?;
    /// assert_eq!((fragment.identification, fragment.offset, fragment.more_fragments, fragment.payload), (7, 24, true, &b"ab"[..]));
    /// # Ok::<(), etherparse_transport_c::Error>(())
    /// ```
    pub fn read(bytes: &'a [u8]) -> Result<Fragment<'a>, Error> {
        let (mut found, mut error) = (sys::Fragment::default(), sys::Error::default());
        // SAFETY: each pointer is that of a live reference, and no two overlap.
        let status = unsafe { sys::etherparse_fragment_read(bytes.as_ptr(), bytes.len(), &mut found, &mut error) };
        answer(status, (), error).map(|()| Fragment {
            version: found.version,
            protocol: found.protocol,
            identification: found.identification,
            offset: found.offset,
            more_fragments: found.more_fragments != 0,
            source: found.source,
            destination: found.destination,
            payload: &bytes[found.payload_offset..found.payload_offset + found.payload_len],
        })
    }
}

/// The length of a `room` for [`reassemble`] that is enough for every packet, in bytes.
pub const REASSEMBLY_ROOM_MAX_LEN: usize = 65_791;

/// Puts a packet together from its fragments, and returns it at the front of `packet`. The fragments are IP packets, one after another in
/// `packets`, in any order and possibly repeated, and `lens` contains the length of each. `room` is memory in which the call works:
/// [`REASSEMBLY_ROOM_MAX_LEN`] bytes are enough.
///
/// Errors: those of [`Fragment::read`], all others whose names begin with `Reassembly`, and `BufferTooSmall` if the packet does not fit. If
/// bytes are missing, this is `ReassemblyIncomplete`. `packet` is then as it was.
///
/// ```
/// use etherparse_transport_c::ip::{self, REASSEMBLY_ROOM_MAX_LEN};
/// let packets = [
///     0x45, 0, 0, 28, 0, 7, 0x20, 0, 64, 17, 0, 0, 10, 0, 0, 1, 10, 0, 0, 2, 0, 1, 0, 2, 0, 9, 0, 0, // the first eight bytes
///     0x45, 0, 0, 21, 0, 7, 0, 1, 64, 17, 0, 0, 10, 0, 0, 1, 10, 0, 0, 2, b'x',
/// ];
/// let (mut room, mut buffer) = ([0; REASSEMBLY_ROOM_MAX_LEN], [0; 64]);
/// let packet = ip::reassemble(&packets, &[28, 21], &mut room, &mut buffer)?;
/// assert_eq!((packet.len(), &packet[2..4], &packet[20..]), (29, &[0, 29][..], &[0, 1, 0, 2, 0, 9, 0, 0, b'x'][..]));
/// # Ok::<(), etherparse_transport_c::Error>(())
/// ```
pub fn reassemble<'a>(packets: &[u8], lens: &[usize], room: &mut [u8], packet: &'a mut [u8]) -> Result<&'a mut [u8], Error> {
    let (mut written, mut error) = (0, sys::Error::default());
    let (from, from_len, lens, lens_len) = (packets.as_ptr(), packets.len(), lens.as_ptr(), lens.len());
    let (room, room_len, to, to_len) = (room.as_mut_ptr(), room.len(), packet.as_mut_ptr(), packet.len());
    // SAFETY: each pointer is that of a live reference, and no two overlap.
    let status = unsafe {
        sys::etherparse_reassembly_packet(from, from_len, lens, lens_len, room, room_len, to, to_len, &mut written, &mut error)
    };
    answer(status, (), error).map(|()| &mut packet[..written])
}

/// Writes an IPv4 packet to the front of a buffer, and returns its length: an IP header without options, and the message after it, which is
/// a transport header and its payload. The checksums, the total length, and the length field of UDP are computed.
///
/// Errors: `ProtocolUnknown` if the protocol is none of UDP, TCP and ICMPv4; `Length` and `DataOffset` of the header; `ValueTooBig` if the
/// packet is longer than 65,535 bytes; `BufferTooSmall`. The buffer is as it was.
///
/// ```
/// use etherparse_transport_c::ip::{self, ChecksumVerdict, Ipv4Header};
/// let header = Ipv4Header { source: [192, 168, 1, 1], destination: [192, 168, 1, 2], time_to_live: 64, protocol: 17 };
/// let mut buffer = [0; 40];
/// let len = ip::write_packet_ipv4(&header, &[0, 21, 4, 210, 0, 0, 0, 0, b'a', b'b', b'c'], &mut buffer)?;
/// assert_eq!((len, &buffer[20..31]), (31, [0, 21, 4, 210, 0, 11, 0xB3, 0x3A, b'a', b'b', b'c'].as_slice()));
/// assert_eq!(ip::Packet::read(&buffer[..len])?.verdict, ChecksumVerdict::Right);
/// # Ok::<(), etherparse_transport_c::Error>(())
/// ```
pub fn write_packet_ipv4(header: &Ipv4Header, message: &[u8], buffer: &mut [u8]) -> Result<usize, Error> {
    let (mut written, mut error) = (0, sys::Error::default());
    let (from, from_len, to, to_len) = (message.as_ptr(), message.len(), buffer.as_mut_ptr(), buffer.len());
    // SAFETY: each pointer is that of a live reference, and no two overlap.
    let status = unsafe { sys::etherparse_write_packet_ipv4(header, from, from_len, to, to_len, &mut written, &mut error) };
    answer(status, written, error)
}

/// The same as [`write_packet_ipv4`] for an IPv6 packet without extension headers.
///
/// Errors: as [`write_packet_ipv4`], with ICMPv6 instead of ICMPv4. `ValueTooBig` if the message is longer than 65,535 bytes.
///
/// ```
/// use etherparse_transport_c::ip::{self, ChecksumVerdict, Ipv6Header};
/// let header = Ipv6Header { source: [1; 16], destination: [2; 16], hop_limit: 64, next_header: 58 };
/// let mut buffer = [0; 48];
/// let len = ip::write_packet_ipv6(&header, &[128, 0, 0, 0, 0, 7, 0, 1], &mut buffer)?;
/// assert_eq!((len, ip::Packet::read(&buffer)?.verdict), (48, ChecksumVerdict::Right));
/// # Ok::<(), etherparse_transport_c::Error>(())
/// ```
pub fn write_packet_ipv6(header: &Ipv6Header, message: &[u8], buffer: &mut [u8]) -> Result<usize, Error> {
    let (mut written, mut error) = (0, sys::Error::default());
    let (from, from_len, to, to_len) = (message.as_ptr(), message.len(), buffer.as_mut_ptr(), buffer.len());
    // SAFETY: as above.
    let status = unsafe { sys::etherparse_write_packet_ipv6(header, from, from_len, to, to_len, &mut written, &mut error) };
    answer(status, written, error)
}

/// A prefix of IPv6 addresses that contain an IPv4 address (RFC 6052, section 2.2): the address that begins with the prefix, and the length
/// in bits.
pub use crate::sys::Prefix64;

/// Translates an IPv4 packet to IPv6 (RFC 7915, section 4), writes the IPv6 packet into the buffer, and returns its length. IPv4 addresses
/// follow these prefixes. UDP, TCP and ICMP echo messages are translated, and ICMP errors with the packet that they quote. A message of
/// another protocol is copied. A receiver accepts the message of the translated packet if it accepts the message of the packet.
///
/// Errors: `PrefixLength`, `PrefixReservedOctet`, `PrefixSuffix`, `SiitNoHeader`, the other errors that begin with `Siit`, `IpTotalLength`,
/// `TranslateSourceRoute`, `IpPacketCutOff`, `BufferTooSmall`; the buffer is as it was.
///
/// ```
/// use etherparse_transport_c::{ErrorKind, ip::{self, Prefix64}};
/// let packet = [
///     0x45, 0, 0, 31, 0, 7, 0, 0, 64, 17, 0xF7, 0x73, 192, 168, 1, 1, 192, 168, 1, 2, 0, 21, 4, 210, 0, 11, 0xB3, 0x3A, 97, 98, 99,
/// ];
/// let prefix = Prefix64 { address: [0x20, 1, 0x0D, 0xB8, 0, 0x64, 0, 0, 0, 0, 0, 0, 0, 0, 0, 0], len: 96 };
/// let mut buffer = [0; 64];
/// let len = ip::ipv4_to_ipv6(&packet, &prefix, &prefix, &mut buffer)?;
/// assert_eq!((len, &buffer[..8], &buffer[20..24]), (51, &[0x60, 0, 0, 0, 0, 11, 17, 63][..], &[192, 168, 1, 1][..]));
/// assert_eq!(ip::Packet::read(&buffer[..len])?.verdict, ip::ChecksumVerdict::Right);
/// let mut back = [0; 64];
/// assert_eq!(ip::ipv6_to_ipv4(&buffer[..len], &prefix, &prefix, 7, &mut back)?, 31);
/// assert_eq!((&back[..8], &back[12..31]), (&packet[..8], &packet[12..]));
/// let error = ip::ipv4_to_ipv6(&packet, &prefix, &Prefix64 { len: 33, ..prefix }, &mut buffer).unwrap_err();
/// assert_eq!(error.kind(), ErrorKind::PrefixLength);
/// # Ok::<(), etherparse_transport_c::Error>(())
/// ```
pub fn ipv4_to_ipv6(packet: &[u8], source: &Prefix64, destination: &Prefix64, buffer: &mut [u8]) -> Result<usize, Error> {
    let (mut written, mut error) = (0, sys::Error::default());
    let (start, len) = (packet.as_ptr(), packet.len());
    let (room, room_len) = (buffer.as_mut_ptr(), buffer.len());
    // SAFETY: each pointer is that of a live reference, and no two that are written through overlap another.
    let status = unsafe { sys::etherparse_ipv4_to_ipv6(start, len, source, destination, room, room_len, &mut written, &mut error) };
    answer(status, written, error)
}

/// Translates an IPv6 packet to IPv4 (RFC 7915, section 5), with this identification, otherwise as [`ipv4_to_ipv6`]. A fragment becomes a
/// fragment with the identification of its fragment header.
///
/// Errors: as [`ipv4_to_ipv6`].
///
/// ```
/// use etherparse_transport_c::{ErrorKind, ip::{self, Prefix64}};
/// let mut fragment = [
///     0x60, 0, 0, 0, 0, 16, 44, 63, 0x20, 1, 0x0D, 0xB8, 0, 0x64, 0, 0, 0, 0, 0, 0, 192, 168, 1, 1, 0x20, 1, 0x0D, 0xB8, 0, 0x64, 0, 0, 0, 0,
///     0, 0, 192, 168, 1, 2, 17, 0, 0, 1, 0xAB, 0xCD, 0x12, 0x34, 0, 21, 4, 210, 0, 11, 0x57, 0,
/// ];
/// let prefix = Prefix64 { address: [0x20, 1, 0x0D, 0xB8, 0, 0x64, 0, 0, 0, 0, 0, 0, 0, 0, 0, 0], len: 96 };
/// let mut buffer = [0; 28];
/// // A first, a later and an atomic fragment: the flags and the offset, and the checksum, which a later fragment does not have.
/// for (offset, flags, checksum) in [(1, [0x20, 0], [0xB3, 0x3A]), (16, [0, 2], [0x57, 0]), (0, [0, 0], [0xB3, 0x3A])] {
///     fragment[43] = offset;
///     assert_eq!(ip::ipv6_to_ipv4(&fragment, &prefix, &prefix, 7, &mut buffer)?, 28);
///     assert_eq!((&buffer[4..6], &buffer[6..8], &buffer[26..]), (&[0x12, 0x34][..], &flags[..], &checksum[..]));
/// }
/// (fragment[40], fragment[43]) = (58, 1);
/// let error = ip::ipv6_to_ipv4(&fragment, &prefix, &prefix, 7, &mut buffer).unwrap_err();
/// assert_eq!(error.kind(), ErrorKind::SiitIcmpFragment);
/// # Ok::<(), etherparse_transport_c::Error>(())
/// ```
pub fn ipv6_to_ipv4(
    packet: &[u8],
    source: &Prefix64,
    destination: &Prefix64,
    identification: u16,
    buffer: &mut [u8],
) -> Result<usize, Error> {
    let (mut written, mut error) = (0, sys::Error::default());
    let (start, len) = (packet.as_ptr(), packet.len());
    let (room, room_len) = (buffer.as_mut_ptr(), buffer.len());
    // SAFETY: each pointer is that of a live reference, and no two that are written through overlap another.
    let status = unsafe {
        sys::etherparse_ipv6_to_ipv4(start, len, source, destination, identification, room, room_len, &mut written, &mut error)
    };
    answer(status, written, error)
}
