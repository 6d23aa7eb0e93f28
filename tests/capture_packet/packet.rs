use crate::expect::{append, expect_at, expect_equal, expect_ok, joined};
use crate::packets::{IPV4_UDP, UDP_OVER_IPV4};
use capture_file::{ByteOrder, LinkType};
use capture_packet::{
    Arp, Content, HopLimit, LinkHeaderCutOff, NetworkProtocol, Packet, Refusal, Transport, Verdict,
    read_packet,
};
use etherparse_transport::err::tcp::{HeaderError, HeaderSliceError};
use etherparse_transport::err::{Layer, LenError};
use etherparse_transport::ip::{IpAddresses, IpError};
use etherparse_transport::{
    ChecksumVerdict, Icmpv4Slice, Icmpv6Slice, IpNumber, LenSource, Proto, TcpSlice,
    TransportSlice, UdpSlice, Untested, ip_number,
};
use std::process::Abort;

const BIG: ByteOrder = ByteOrder::BigEndian;

const LITTLE: ByteOrder = ByteOrder::LittleEndian;

/// Verdicts on packets that are not refused.
pub(crate) const RIGHT: Verdict = Verdict::Checksum(ChecksumVerdict::Right);

const FRAGMENT: Verdict = Verdict::Checksum(ChecksumVerdict::Untested(Untested::Fragment));

pub(crate) const CUT_OFF: Verdict = Verdict::Checksum(ChecksumVerdict::Untested(Untested::CutOff));

const UNKNOWN_DESTINATION: Verdict = Verdict::Checksum(ChecksumVerdict::Untested(
    Untested::UnknownDestination,
));

pub(crate) const OTHER_PROTOCOL: Verdict = Verdict::Checksum(ChecksumVerdict::Untested(
    Untested::OtherProtocol,
));

/// Two Ethernet addresses.
const ADDRESSES: [u8; 12] = [2, 0, 0, 0, 0, 2, 2, 0, 0, 0, 0, 1];

/// The addresses over IPv6, 2001:db8::1 and 2001:db8::2.
pub(crate) const IPV6_SOURCE: [u8; 16] = [0x20, 1, 0x0d, 0xb8, 0, 0, 0, 0, 0, 0, 0, 0, 0, 0, 0, 1];

pub(crate) const IPV6_DESTINATION: [u8; 16] = [
    0x20, 1, 0x0d, 0xb8, 0, 0, 0, 0, 0, 0, 0, 0, 0, 0, 0, 2,
];

/// UDP with the right checksum over IPv6, with a wrong checksum, and without a checksum.
pub(crate) const UDP_OVER_IPV6: [u8; 11] = [0, 53, 4, 210, 0, 11, 0xDA, 0xF9, 97, 98, 99];

const UDP_WRONG: [u8; 11] = [0, 53, 4, 210, 0, 11, 0x12, 0x34, 97, 98, 99];

/// A UDP packet whose checksum is only the sum of the pseudo header over IPv4.
const UDP_PARTIAL: [u8; 11] = [0, 53, 4, 210, 0, 11, 0x14, 0x1F, 97, 98, 99];

const UDP_ABSENT: [u8; 11] = [0, 53, 4, 210, 0, 11, 0, 0, 97, 98, 99];

/// A UDP packet whose sum is all ones, so that its computed checksum is 0.
const UDP_ALL_ONES: [u8; 11] = [0, 53, 4, 210, 0, 11, 0, 1, 0xE6, 0xCE, 0];

/// UDP packets with a length field of 0, which counts less than a header, and of 12, which counts more bytes than the packet has.
const UDP_OF_0: [u8; 11] = [0, 53, 4, 210, 0, 0, 0x22, 0x6C, 97, 98, 99];

const UDP_OF_12: [u8; 11] = [0, 53, 4, 210, 0, 12, 0x22, 0x6C, 97, 98, 99];

/// TCP segments with a bit of byte 12 that has no meaning: with the right checksums over IPv4 and over IPv6, and with a wrong checksum.
const TCP_OVER_IPV4: [u8; 23] = [
    0, 80, 4, 210, 0, 0, 0, 1, 0, 0, 0, 0, 0x5E, 0x12, 0x20, 0, 0xA4, 0x47, 0, 0, 97, 98, 99,
];

const TCP_OVER_IPV6: [u8; 23] = [
    0, 80, 4, 210, 0, 0, 0, 1, 0, 0, 0, 0, 0x5E, 0x12, 0x20, 0, 0x5C, 0xD5, 0, 0, 97, 98, 99,
];

const TCP_WRONG: [u8; 23] = [
    0, 80, 4, 210, 0, 0, 0, 1, 0, 0, 0, 0, 0x5E, 0x12, 0x20, 0, 0, 0x47, 0, 0, 97, 98, 99,
];

/// A TCP header with a data offset of 4, which is below 5.
const TCP_OF_4_WORDS: [u8; 23] = [
    0, 80, 4, 210, 0, 0, 0, 1, 0, 0, 0, 0, 0x40, 0x12, 0x20, 0, 0xA4, 0x47, 0, 0, 97, 98, 99,
];

/// The first 19 bytes of TCP headers with a data offset of 5 and of 4.
const TCP_CUT: [u8; 19] = [
    0, 80, 4, 210, 0, 0, 0, 1, 0, 0, 0, 0, 0x5E, 0x12, 0x20, 0, 0xA4, 0x47, 0,
];

const TCP_OF_4_WORDS_CUT: [u8; 19] = [
    0, 80, 4, 210, 0, 0, 0, 1, 0, 0, 0, 0, 0x40, 0x12, 0x20, 0, 0xA4, 0x47, 0,
];

/// Echo requests with their right checksums, and with wrong checksums.
const ECHO_OVER_IPV4: [u8; 9] = [8, 0, 0x96, 0xFC, 0, 1, 0, 2, 97];

const ECHO_OVER_IPV6: [u8; 9] = [128, 0, 0xC3, 0x43, 0, 1, 0, 2, 97];

const ECHO_OVER_IPV4_WRONG: [u8; 9] = [8, 0, 0x96, 0, 0, 1, 0, 2, 97];

const ECHO_OVER_IPV6_WRONG: [u8; 9] = [128, 0, 0, 0x43, 0, 1, 0, 2, 97];

/// The headers of a packet.
#[derive(Clone, Copy, Debug, PartialEq, Eq)]
enum Header {
    /// IPv4 with this first byte, total length, byte of flags and protocol, from 10.0.0.1 to 10.0.0.2.
    Ipv4(u8, u8, u8, u8),
    /// IPv6 with this payload length and next header, from 2001:db8::1 to 2001:db8::2.
    Ipv6(u8, u8),
    /// These bytes.
    Bytes(&'static [u8]),
}

/// Whole packets of the transports above.
const V4_UDP: Header = Header::Ipv4(0x45, 31, 0x40, 17);

const V4_TCP: Header = Header::Ipv4(0x45, 43, 0x40, 6);

const V4_ICMP: Header = Header::Ipv4(0x45, 29, 0x40, 1);

const V6_UDP: Header = Header::Ipv6(11, 17);

const V6_TCP: Header = Header::Ipv6(23, 6);

const V6_ICMP: Header = Header::Ipv6(9, 58);

/// The first 19 bytes of an IPv4 header, of UDP.
const V4_CUT: Header = Header::Bytes(&[
    0x45, 0, 0, 60, 0, 1, 0, 0, 64, 17, 0, 0, 10, 0, 0, 1, 10, 0, 0,
]);

/// The bytes of these headers.
fn header_of(rt: &(impl Abort + AllocGlobal), header: Header) -> Vec<u8> {
    match header {
        Header::Ipv4(first, total_len, flags, protocol) => {
            let header = [
                first, 0, 0, total_len, 0, 1, flags, 0, 64, protocol, 0, 0, 10, 0, 0, 1, 10, 0, 0,
                2,
            ];
            joined(rt, &[&header])
        }
        Header::Ipv6(payload_len, next_header) => {
            let first = [0x60, 0, 0, 0, 0, payload_len, next_header, 63];
            joined(rt, &[&first, &IPV6_SOURCE, &IPV6_DESTINATION])
        }
        Header::Bytes(bytes) => joined(rt, &[bytes]),
    }
}

/// A packet of these headers and these bytes after them.
fn packet_of(rt: &(impl Abort + AllocGlobal), header: Header, payload: &[u8]) -> Vec<u8> {
    let mut packet = header_of(rt, header);
    append(rt, &mut packet, payload);
    packet
}

/// Reads the packet in a frame without a link header.
pub(crate) fn read_raw(frame: &[u8], is_cut: bool) -> Packet<'_> {
    read_packet(LinkType::RawIp, BIG, frame, is_cut, false)
}

/// What a packet is, without its fields.
#[derive(Clone, Copy, Debug, PartialEq, Eq)]
enum Kind {
    /// Nothing is read.
    Unread,
    /// The headers are refused or cut off, and the addresses are read.
    IpHeader,
    /// Another protocol than IP.
    NotIp,
    /// An IP packet with this protocol, or with a protocol other than UDP, TCP, ICMPv4 and ICMPv6.
    Ip(Option<Proto>),
}

/// The kind of a packet.
fn kind_of(packet: &Packet<'_>) -> Kind {
    match &packet.content {
        Content::Unread => Kind::Unread,
        Content::IpHeader(_) => Kind::IpHeader,
        Content::NotIp(_) => Kind::NotIp,
        Content::Ip { proto, .. } => Kind::Ip(*proto),
    }
}

/// The addresses 10.0.0.1 and 10.0.0.2.
const OVER_IPV4: IpAddresses = IpAddresses::Ipv4 {
    source: &[10, 0, 0, 1],
    destination: &[10, 0, 0, 2],
};

const OVER_IPV6: IpAddresses = IpAddresses::Ipv6 {
    source: &IPV6_SOURCE,
    destination: Some(&IPV6_DESTINATION),
};

/// A packet between these addresses with this transport.
fn content_of<'a>(
    addresses: IpAddresses<'a>,
    protocol: IpNumber,
    transport: TransportSlice<'a>,
) -> Content<'a> {
    Content::Ip {
        addresses,
        protocol,
        proto: Some(transport.proto()),
        payload_len: transport.payload().len(),
        transport: Transport::Read(transport),
    }
}

/// A packet over IPv4 with this transport.
pub(crate) fn over_ipv4(protocol: IpNumber, transport: TransportSlice<'_>) -> Content<'_> {
    content_of(OVER_IPV4, protocol, transport)
}

/// A packet over IPv6 with this transport.
pub(crate) fn over_ipv6(protocol: IpNumber, transport: TransportSlice<'_>) -> Content<'_> {
    content_of(OVER_IPV6, protocol, transport)
}

/// The packet of `IPV4_UDP` and `UDP_OVER_IPV4`.
fn udp_packet(rt: &impl Abort) -> Packet<'static> {
    let udp = expect_ok(rt, UdpSlice::from_slice(&UDP_OVER_IPV4));
    let content = over_ipv4(ip_number::UDP, TransportSlice::Udp(udp));
    let mut packet = Packet::in_no_tunnel(content, RIGHT);
    packet.hop_limit = Some(HopLimit::Ipv4(64));
    packet
}

/// The link type, the byte order, and the link header in front of an IPv4 packet.
type LinkRow = (LinkType, ByteOrder, &'static [u8]);

#[rattlefmt::skip]
static LINK_HEADERS: [LinkRow; 36] = [
    (LinkType::Ethernet, BIG, &[2, 0, 0, 0, 0, 2, 2, 0, 0, 0, 0, 1, 8, 0]),
    (LinkType::Ethernet, BIG, &[2, 0, 0, 0, 0, 2, 2, 0, 0, 0, 0, 1, 0x81, 0, 0, 1, 8, 0]),
    (
        LinkType::Ethernet, BIG,
        &[2, 0, 0, 0, 0, 2, 2, 0, 0, 0, 0, 1, 0x88, 0xA8, 0, 1, 0x91, 0, 0, 2, 0x81, 0, 0, 3, 8, 0],
    ),
    (LinkType::LinuxCooked, BIG, &[2, 0, 0, 0, 0, 2, 2, 0, 0, 0, 0, 1, 0, 1, 8, 0]),
    (LinkType::LinuxCooked, BIG, &[2, 0, 0, 0, 0, 2, 2, 0, 0, 0, 0, 1, 0, 1, 0x81, 0, 0, 1, 8, 0]),
    (LinkType::RawIp, BIG, &[]),
    (LinkType::CiscoHdlc, BIG, &[0x0F, 0, 8, 0]),
    (LinkType::CiscoHdlc, BIG, &[0x8F, 0, 0x81, 0, 0, 1, 8, 0]),
    (LinkType::Ethernet, BIG, &[2, 0, 0, 0, 0, 2, 2, 0, 0, 0, 0, 1, 5, 0xFF, 0xAA, 0xAA, 3, 0, 0, 0, 8, 0]),
    (
        LinkType::Ethernet, BIG,
        &[2, 0, 0, 0, 0, 2, 2, 0, 0, 0, 0, 1, 0, 47, 0xAA, 0xAA, 3, 0, 0, 0, 0x81, 0, 0, 1, 8, 0],
    ),
    (LinkType::LinuxCooked, BIG, &[2, 0, 0, 0, 0, 2, 2, 0, 0, 0, 0, 1, 0, 1, 0, 4, 0xAA, 0xAA, 3, 0, 0, 0, 8, 0]),
    (LinkType::BsdLoopback, BIG, &[0, 0, 0, 2]),
    (LinkType::BsdLoopback, BIG, &[2, 0, 0, 0]),
    (LinkType::BsdLoopback, LITTLE, &[0, 0, 0, 30]),
    (LinkType::OpenBsdLoopback, LITTLE, &[28, 0, 0, 0]),
    (LinkType::BsdLoopback, LITTLE, &[2, 0, 0, 0]),
    (LinkType::BsdLoopback, LITTLE, &[24, 0, 0, 0]),
    (LinkType::BsdLoopback, LITTLE, &[28, 0, 0, 0]),
    (LinkType::BsdLoopback, LITTLE, &[30, 0, 0, 0]),
    (LinkType::OpenBsdLoopback, LITTLE, &[0, 0, 0, 24]),
    (LinkType::LinuxCooked2, BIG, &[8, 0, 0, 0, 0, 0, 0, 1, 0, 1, 0, 6, 0, 0, 0, 0, 0, 0, 0, 0]),
    (
        LinkType::LinuxCooked2, BIG,
        &[0x81, 0, 0, 0, 0, 0, 0, 1, 0, 1, 0, 6, 0, 0, 0, 0, 0, 0, 0, 0, 0, 1, 8, 0],
    ),
    (LinkType::Ethernet, BIG, &[2, 0, 0, 0, 0, 2, 2, 0, 0, 0, 0, 1, 0x81, 0, 0, 1, 0, 47, 0xAA, 0xAA, 3, 0, 0, 0, 8, 0]),
    (
        LinkType::LinuxCooked, BIG,
        &[2, 0, 0, 0, 0, 2, 2, 0, 0, 0, 0, 1, 0, 1, 0x88, 0xA8, 0, 1, 0x81, 0, 0, 2, 5, 0xFF, 0xAA, 0xAA, 3, 0, 0, 0, 8, 0],
    ),
    (LinkType::PppOverEthernet, BIG, &[0x11, 0, 0, 1, 0, 34, 0, 0x21]),
    (
        LinkType::Pflog, BIG,
        &[
            45, 2, 0, 0, 0, 0, 0, 0, 0, 0, 0, 0, 0, 0, 0, 0, 0, 0, 0, 0, 0, 0, 0, 0, 0, 0, 0, 0, 0, 0,
            0, 0, 0, 0, 0, 0, 0, 0, 0, 0, 0, 0, 0, 0, 0, 0, 0, 0,
        ],
    ),
    (LinkType::Ipnet, BIG, &[1, 2, 0, 1, 0, 0, 0, 40, 0, 0, 0, 0, 0, 0, 0, 0, 0, 0, 0, 0, 0, 0, 0, 0]),
    (
        LinkType::InfiniBand, BIG,
        &[
            0x60, 0, 0, 0, 0, 40, 27, 64, 0, 0, 0, 0, 0, 0, 0, 0, 0, 0, 0, 0, 0, 0, 0, 0, 0, 0, 0, 0, 0, 0,
            0, 0, 0, 0, 0, 0, 0, 0, 0, 0, 8, 0, 0, 1,
        ],
    ),
    (LinkType::Nflog, BIG, &[2, 0, 0, 5, 8, 0, 1, 0, 8, 0, 3, 0, 7, 0, 10, 0, 65, 66, 0, 0, 36, 0, 9, 0]),
    (LinkType::Nflog, LITTLE, &[2, 0, 0, 5, 0, 8, 0, 1, 8, 0, 3, 0, 0, 12, 0x80, 20, 0, 8, 0, 9, 0, 1, 0, 0, 0, 36, 0, 9]),
    (LinkType::Nflog, LITTLE, &[10, 0, 0, 5, 36, 0, 9, 0]),
    (LinkType::Ppi, BIG, &[0, 0, 8, 0, 1, 0, 0, 0, 2, 0, 0, 0, 0, 2, 2, 0, 0, 0, 0, 1, 8, 0]),
    (LinkType::Ppi, BIG, &[0, 7, 12, 0, 101, 0, 0, 0, 2, 0, 0, 0]),
    (LinkType::Pktap, BIG, &[12, 0, 0, 0, 1, 0, 0, 0, 1, 0, 0, 0, 2, 0, 0, 0, 0, 2, 2, 0, 0, 0, 0, 1, 0x81, 0, 0, 1, 8, 0]),
    (LinkType::Pktap, BIG, &[13, 0, 0, 0, 1, 0, 0, 0, 12, 0, 0, 0, 9]),
    (LinkType::Pktap, BIG, &[12, 0, 0, 0, 1, 0, 0, 0, 0, 0, 0, 0, 2, 0, 0, 0]),
];

/// Stops the test unless the packet after the link header of a row is read, and the padding after it is not.
fn expect_linked(rt: &(impl Abort + AllocGlobal), row: &LinkRow) {
    let (link_type, order, header) = *row;
    let parts: [&[u8]; 4] = [header, &IPV4_UDP, &UDP_OVER_IPV4, &[0; 3]];
    let frame = joined(rt, &parts);
    let packet = read_packet(link_type, order, &frame, false, false);
    let expected = udp_packet(rt);
    expect_at(rt, row, &packet, &expected);
    let kind = Kind::Ip(Some(Proto::Udp));
    expect_at(rt, row, &kind_of(&packet), &kind);
}

#[test]
fn link_headers_are_passed_over(rt: HostRuntime) {
    for row in &LINK_HEADERS {
        expect_linked(&rt, row);
    }
}

/// The link type, the byte order, the bytes of a frame, and its network protocol. The error is the length of the link header within which
/// the frame ends, or 0 if the frame is a refused IP packet.
type NetworkRow = (
    LinkType,
    ByteOrder,
    &'static [u8],
    Result<NetworkProtocol, usize>,
);

#[rattlefmt::skip]
static NETWORKS: [NetworkRow; 65] = [
    (LinkType::Ethernet, BIG, &[7, 0, 0, 3, 0, 0, 0, 0, 0, 0, 0, 0, 8, 6], Ok(NetworkProtocol::EtherType(0x0806))),
    (
        LinkType::Ethernet, LITTLE, &[7, 0, 0, 3, 0, 0, 0, 0, 0, 0, 0, 0, 0x81, 0, 0, 1, 8, 6, 0x81, 0],
        Ok(NetworkProtocol::EtherType(0x0806)),
    ),
    (LinkType::LinuxCooked, BIG, &[7, 0, 0, 3, 0, 0, 0, 0, 0, 0, 8, 0, 0, 0, 8, 6], Ok(NetworkProtocol::EtherType(0x0806))),
    (LinkType::Ethernet, BIG, &[7, 0, 0, 3, 0, 0, 0, 0, 0, 0, 0, 0, 8], Err(14)),
    (LinkType::Ethernet, BIG, &[7, 0, 0, 3, 0, 0, 0, 0, 0, 0, 0, 0, 0x81, 0, 0, 1, 8], Err(18)),
    (LinkType::Ethernet, BIG, &[7, 0, 0, 3, 0, 0, 0, 0, 0, 0, 0, 0, 0x81, 0, 0, 1, 0x91, 0], Err(22)),
    (LinkType::LinuxCooked, BIG, &[7, 0, 0, 3, 0, 0, 0, 0, 0, 0, 8, 0, 8, 0, 8], Err(16)),
    (LinkType::LinuxCooked2, BIG, &[7, 0, 0, 3, 0, 0, 0, 0, 0, 0, 0, 0, 0, 0, 0, 0, 0, 0, 0], Err(20)),
    (LinkType::BsdLoopback, LITTLE, &[7, 0, 0, 3, 0, 0, 0, 0, 0, 0], Ok(NetworkProtocol::AddressFamily(0x0300_0007))),
    (LinkType::BsdLoopback, BIG, &[7, 0, 0, 3, 0, 0, 0, 0, 0, 0], Ok(NetworkProtocol::AddressFamily(0x0700_0003))),
    (LinkType::OpenBsdLoopback, LITTLE, &[7, 0, 0, 3, 0, 0, 0, 0, 0, 0], Ok(NetworkProtocol::AddressFamily(0x0700_0003))),
    (
        LinkType::LinuxCooked, BIG, &[7, 0, 0, 3, 0, 0, 0, 0, 0, 0, 8, 0, 0, 0, 0, 4, 0x42, 0x42, 3],
        Ok(NetworkProtocol::Llc { dsap: 0x42, ssap: 0x42 }),
    ),
    (LinkType::LinuxCooked, BIG, &[7, 0, 0, 3, 0, 0, 0, 0, 0, 0, 8, 0, 0, 0, 0, 1, 0x42, 0x42, 3], Ok(NetworkProtocol::EtherType(1))),
    (LinkType::LinuxCooked2, BIG, &[0, 4, 0, 3, 0, 0, 0, 0, 0, 0, 0, 0, 0, 0, 0, 0, 0, 0, 0, 0, 0x42, 0x42], Err(23)),
    (LinkType::BsdLoopback, BIG, &[0, 0, 2, 0], Ok(NetworkProtocol::AddressFamily(512))),
    (LinkType::BsdLoopback, LITTLE, &[0, 2, 0, 0], Ok(NetworkProtocol::AddressFamily(512))),
    (LinkType::CiscoHdlc, BIG, &[7, 0, 0, 3, 0, 0, 0, 0, 0, 0], Ok(NetworkProtocol::EtherType(3))),
    (LinkType::RawIp, BIG, &[7, 0, 0, 3, 0, 0, 0, 0, 0, 0], Err(0)),
    (
        LinkType::Ethernet, BIG, &[7, 0, 0, 3, 0, 0, 0, 0, 0, 0, 0, 0, 0x81, 0, 0, 1, 0, 3, 0x42, 0x43, 3],
        Ok(NetworkProtocol::Llc { dsap: 0x42, ssap: 0x43 }),
    ),
    (LinkType::Ethernet, BIG, &[7, 0, 0, 3, 0, 0, 0, 0, 0, 0, 0, 0, 0x81, 0, 0, 1, 0, 3, 0x42, 0x42], Err(21)),
    (
        LinkType::Ethernet, BIG, &[7, 0, 0, 3, 0, 0, 0, 0, 0, 0, 0, 0, 0x81, 0, 0, 1, 5, 0xFF, 0xAA, 0xAA, 3, 0, 0, 0, 8, 6],
        Ok(NetworkProtocol::EtherType(0x0806)),
    ),
    (
        LinkType::Ethernet, BIG, &[7, 0, 0, 3, 0, 0, 0, 0, 0, 0, 0, 0, 0x81, 0, 0, 1, 5, 0xFF, 0xAA, 0xAA, 3, 0, 0, 0, 0x81, 0],
        Ok(NetworkProtocol::EtherType(0x8100)),
    ),
    (
        LinkType::Ethernet, BIG, &[7, 0, 0, 3, 0, 0, 0, 0, 0, 0, 0, 0, 0x81, 0, 0, 1, 6, 0, 0xAA, 0xAA, 3],
        Ok(NetworkProtocol::EtherType(0x0600)),
    ),
    (LinkType::CiscoHdlc, BIG, &[0x0F, 0, 0x05, 0xFF, 0xAA, 0xAA, 3], Ok(NetworkProtocol::EtherType(0x05FF))),
    (LinkType::PppOverEthernet, BIG, &[0x11, 9, 0, 0, 0, 0], Ok(NetworkProtocol::EtherType(0x8863))),
    (LinkType::PppOverEthernet, BIG, &[0x11, 0, 0, 1, 0], Err(6)),
    (LinkType::PppOverEthernet, BIG, &[0x11, 0, 0, 1, 0, 2, 0xC0, 0x21], Ok(NetworkProtocol::PppProtocol(0xC021))),
    (LinkType::Pflog, BIG, &[45], Err(2)),
    (LinkType::Pflog, BIG, &[44, 2], Ok(NetworkProtocol::LinkType(117))),
    (LinkType::Pflog, BIG, &[61, 2, 0], Err(64)),
    (LinkType::Pflog, BIG, &[64, 24, 0], Err(64)),
    (
        LinkType::Pflog, BIG,
        &[
            48, 3, 0, 0, 0, 0, 0, 0, 0, 0, 0, 0, 0, 0, 0, 0, 0, 0, 0, 0, 0, 0, 0, 0, 0, 0, 0, 0, 0, 0,
            0, 0, 0, 0, 0, 0, 0, 0, 0, 0, 0, 0, 0, 0, 0, 0, 0, 0,
        ],
        Ok(NetworkProtocol::AddressFamily(3)),
    ),
    (LinkType::Ipnet, BIG, &[1, 2, 0], Err(24)),
    (
        LinkType::Ipnet, BIG, &[1, 24, 0, 0, 0, 0, 0, 0, 0, 0, 0, 0, 0, 0, 0, 0, 0, 0, 0, 0, 0, 0, 0, 0],
        Ok(NetworkProtocol::AddressFamily(24)),
    ),
    (LinkType::Prism, BIG, &[0, 0, 0, 0x44, 0, 0, 0], Err(8)),
    (LinkType::Prism, BIG, &[0, 0, 0, 0x44, 0, 0, 0, 0x90], Err(146)),
    (LinkType::Prism, BIG, &[0x80, 0x21, 0x10, 1, 0, 0, 0, 64], Err(66)),
    (LinkType::Prism, BIG, &[0x80, 0x21, 0x10, 2, 0, 0, 0, 7], Ok(NetworkProtocol::LinkType(119))),
    (LinkType::Avs, BIG, &[0x80, 0x21, 0x10, 1, 0, 0, 0], Err(8)),
    (LinkType::Avs, BIG, &[0x80, 0x21, 0x10, 1, 0, 0, 1, 0], Err(258)),
    (LinkType::Avs, BIG, &[0x80, 0x21, 0x10, 1, 0, 0, 0, 7], Ok(NetworkProtocol::LinkType(163))),
    (LinkType::InfiniBand, BIG, &[0x60, 0, 0], Err(44)),
    (
        LinkType::InfiniBand, BIG,
        &[
            0x60, 0, 0, 0, 0, 40, 27, 64, 0, 0, 0, 0, 0, 0, 0, 0, 0, 0, 0, 0, 0, 0, 0, 0, 0, 0, 0, 0, 0, 0,
            0, 0, 0, 0, 0, 0, 0, 0, 0, 0, 8, 6, 0, 0,
        ],
        Ok(NetworkProtocol::EtherType(0x0806)),
    ),
    (LinkType::Nflog, BIG, &[2, 0, 0, 5, 8, 0, 1], Err(8)),
    (LinkType::Nflog, BIG, &[2, 1, 0, 5, 8, 0, 9, 0], Ok(NetworkProtocol::LinkType(239))),
    (LinkType::Nflog, BIG, &[2, 0, 0, 5, 8, 0, 0, 0], Ok(NetworkProtocol::LinkType(239))),
    (LinkType::Nflog, BIG, &[2, 0, 0, 5, 8, 0, 1, 1], Ok(NetworkProtocol::LinkType(239))),
    (LinkType::Nflog, BIG, &[2, 0, 0, 5, 3, 0, 9, 0], Ok(NetworkProtocol::LinkType(239))),
    (LinkType::Nflog, BIG, &[7, 0, 0, 5, 4, 0, 9, 0], Ok(NetworkProtocol::AddressFamily(7))),
    (LinkType::Nflog, BIG, &[2, 0, 0, 5, 9, 0, 1, 0, 8, 0, 3, 0, 0], Err(16)),
    (LinkType::Nflog, BIG, &[2, 0, 0, 5, 8, 0, 1, 0, 8, 0, 3, 0], Ok(NetworkProtocol::LinkType(239))),
    (LinkType::Nflog, BIG, &[2, 0, 0, 5, 8, 0, 1, 0, 8, 0, 3, 0, 8], Err(16)),
    (LinkType::Nflog, BIG, &[2, 0, 0, 5, 0xFF, 0xFF, 0, 1], Err(0x1_0004)),
    (LinkType::Ppi, BIG, &[0, 0, 8, 0, 1, 0, 0], Err(8)),
    (LinkType::Ppi, BIG, &[1, 0, 8, 0, 1, 0, 0, 0], Ok(NetworkProtocol::LinkType(192))),
    (LinkType::Ppi, BIG, &[0, 0, 7, 0, 1, 0, 0, 0], Ok(NetworkProtocol::LinkType(192))),
    (LinkType::Ppi, BIG, &[0, 0, 8, 0, 147, 0, 0, 0], Ok(NetworkProtocol::LinkType(147))),
    (LinkType::Ppi, BIG, &[0, 0, 9, 0, 101, 0, 0, 0], Err(9)),
    (LinkType::Ppi, BIG, &[0, 0, 9, 0, 1, 0, 0, 0, 0], Err(23)),
    (LinkType::Pktap, BIG, &[12, 0, 0, 0, 1, 0, 0, 0, 1, 0, 0], Err(12)),
    (LinkType::Pktap, BIG, &[11, 0, 0, 0, 1, 0, 0, 0, 1, 0, 0, 0], Ok(NetworkProtocol::LinkType(258))),
    (LinkType::Pktap, BIG, &[12, 0, 0, 0, 0, 0, 0, 0, 1, 0, 0, 0], Ok(NetworkProtocol::LinkType(258))),
    (LinkType::Pktap, BIG, &[12, 0, 0, 0, 1, 0, 0, 0, 2, 1, 0, 0], Ok(NetworkProtocol::LinkType(258))),
    (LinkType::Pktap, BIG, &[0, 0, 0, 0x80, 1, 0, 0, 0, 12, 0, 0, 0], Err(0x8000_0000)),
    (LinkType::Pktap, BIG, &[12, 0, 0, 0, 1, 0, 0, 0, 0, 0, 0, 0, 7, 0, 0, 3], Ok(NetworkProtocol::AddressFamily(0x0300_0007))),
];

/// Stops the test unless the frame of a row contains the protocol of the row, or is refused.
fn expect_network(rt: &impl Abort, row: &NetworkRow) {
    let (link_type, order, frame, expected) = *row;
    let len = frame.len();
    let is_arp = expected == Ok(NetworkProtocol::EtherType(0x0806));
    let mut expected = match expected {
        Ok(protocol) => Packet::in_no_tunnel(Content::NotIp(protocol), OTHER_PROTOCOL),
        Err(0) => Packet::in_no_tunnel(
            Content::Unread,
            Verdict::Refused(Refusal::Ip(IpError::Version { version: 0 })),
        ),
        Err(required_len) => Packet::in_no_tunnel(
            Content::Unread,
            Verdict::Refused(Refusal::Link(LinkHeaderCutOff { required_len, len })),
        ),
    };
    if is_arp {
        expected.arp = Some(Arp::CutOff);
    }
    let packet = read_packet(link_type, order, frame, false, false);
    expect_at(rt, row, &packet, &expected);
}

#[test]
fn other_networks_and_cut_link_headers(rt: HostRuntime) {
    for row in &NETWORKS {
        expect_network(&rt, row);
    }
}

#[test]
fn link_headers_of_cut_frames_are_not_refused(rt: HostRuntime) {
    let packet = read_packet(LinkType::Ethernet, BIG, &ADDRESSES, true, false);
    let expected = Packet::in_no_tunnel(Content::Unread, CUT_OFF);
    expect_equal(&rt, &packet, &expected);
}

/// The headers of a packet, its transport, and the verdict on the checksum.
type ChecksumRow = (Header, &'static [u8], ChecksumVerdict);

#[rattlefmt::skip]
static CHECKSUMS: [ChecksumRow; 15] = [
    (V4_UDP, &UDP_OVER_IPV4, ChecksumVerdict::Right),
    (V4_UDP, &UDP_WRONG, ChecksumVerdict::Wrong { expected: 0x226C }),
    (V4_UDP, &UDP_PARTIAL, ChecksumVerdict::Partial { expected: 0x226C }),
    (V4_UDP, &UDP_ABSENT, ChecksumVerdict::Absent),
    (V4_UDP, &UDP_ALL_ONES, ChecksumVerdict::Wrong { expected: 0xFFFF }),
    (V6_UDP, &UDP_OVER_IPV6, ChecksumVerdict::Right),
    (V6_UDP, &UDP_ABSENT, ChecksumVerdict::Wrong { expected: 0xDAF9 }),
    (V4_TCP, &TCP_OVER_IPV4, ChecksumVerdict::Right),
    (V4_TCP, &TCP_WRONG, ChecksumVerdict::Wrong { expected: 0xA447 }),
    (V6_TCP, &TCP_OVER_IPV6, ChecksumVerdict::Right),
    (V6_TCP, &TCP_OVER_IPV4, ChecksumVerdict::Wrong { expected: 0x5CD5 }),
    (V4_ICMP, &ECHO_OVER_IPV4, ChecksumVerdict::Right),
    (V4_ICMP, &ECHO_OVER_IPV4_WRONG, ChecksumVerdict::Wrong { expected: 0x96FC }),
    (V6_ICMP, &ECHO_OVER_IPV6, ChecksumVerdict::Right),
    (V6_ICMP, &ECHO_OVER_IPV6_WRONG, ChecksumVerdict::Wrong { expected: 0xC343 }),
];

/// The content of a packet with this transport. The length of the transport shows its protocol.
fn content<'a>(rt: &impl Abort, header: Header, bytes: &'a [u8]) -> Content<'a> {
    let is_v4 = matches!(header, Header::Ipv4(..));
    let (protocol, transport) = match bytes.len() {
        11 => (
            ip_number::UDP,
            TransportSlice::Udp(expect_ok(rt, UdpSlice::from_slice(bytes))),
        ),
        23 => (
            ip_number::TCP,
            TransportSlice::Tcp(expect_ok(rt, TcpSlice::from_slice(bytes))),
        ),
        _ if is_v4 => (
            ip_number::ICMP,
            TransportSlice::Icmpv4(expect_ok(rt, Icmpv4Slice::from_slice(bytes))),
        ),
        _ => (
            ip_number::IPV6_ICMP,
            TransportSlice::Icmpv6(expect_ok(rt, Icmpv6Slice::from_slice(bytes))),
        ),
    };
    if is_v4 {
        over_ipv4(protocol, transport)
    } else {
        over_ipv6(protocol, transport)
    }
}

/// The hop limit of a packet with these headers.
fn hop_limit_of(header: Header) -> Option<HopLimit> {
    match header {
        Header::Ipv4(..) => Some(HopLimit::Ipv4(64)),
        Header::Ipv6(..) => Some(HopLimit::Ipv6(63)),
        Header::Bytes(_) => None,
    }
}

/// Stops the test unless the transport of a row is read, and its checksum has the verdict of the row.
fn expect_checksum(rt: &(impl Abort + AllocGlobal), row: &ChecksumRow) {
    let (header, transport, verdict) = *row;
    let content = content(rt, header, transport);
    let mut expected = Packet::in_no_tunnel(content, Verdict::Checksum(verdict));
    expected.hop_limit = hop_limit_of(header);
    let frame = packet_of(rt, header, transport);
    let packet = read_raw(&frame, false);
    expect_at(rt, row, &packet, &expected);
}

#[test]
fn checksums_are_tested(rt: HostRuntime) {
    for row in &CHECKSUMS {
        expect_checksum(&rt, row);
    }
}

/// The header of a datagram with a length field of 0 is refused, so that only its ports are read.
#[test]
fn headers_with_a_length_of_0_are_not_read(rt: HostRuntime) {
    let frame = packet_of(&rt, V4_UDP, &UDP_OF_0);
    let content = Content::Ip {
        addresses: OVER_IPV4,
        protocol: ip_number::UDP,
        proto: Some(Proto::Udp),
        transport: Transport::Ports {
            source: 53,
            destination: 1234,
            payload: &UDP_OF_0,
        },
        payload_len: 11,
    };
    let mut expected = Packet::in_no_tunnel(content, Verdict::untested(Untested::ZeroLength));
    expected.hop_limit = Some(HopLimit::Ipv4(64));
    expect_equal(&rt, &read_raw(&frame, false), &expected);
}

/// The first byte of a packet and its number of bytes, and its hop limit. Each further byte is the number of its place.
type HopLimitRow = (u8, u8, Option<HopLimit>);

#[rattlefmt::skip]
static HOP_LIMITS: [HopLimitRow; 8] = [
    (0x45, 20, Some(HopLimit::Ipv4(8))), (0x45, 19, None), (0x44, 20, Some(HopLimit::Ipv4(8))), (0x44, 19, None),
    (0x60, 40, Some(HopLimit::Ipv6(7))), (0x60, 39, None), (0x50, 40, None), (0x45, 1, None),
];

/// Bytes that begin with this byte, `len` together. Each further byte is the number of its place.
fn counted_bytes(rt: &(impl Abort + AllocGlobal), first: u8, len: u8) -> Vec<u8> {
    let mut bytes = joined(rt, &[&[first]]);
    for byte in 1..len {
        append(rt, &mut bytes, &[byte]);
    }
    bytes
}

/// Stops the test unless the packet of a row has the hop limit of the row.
fn expect_hop_limit(rt: &(impl Abort + AllocGlobal), row: &HopLimitRow) {
    let (first, len, hop_limit) = *row;
    let bytes = counted_bytes(rt, first, len);
    let packet = read_raw(&bytes, false);
    expect_at(rt, row, &packet.hop_limit, &hop_limit);
}

#[test]
fn hop_limits_of_complete_headers(rt: HostRuntime) {
    for row in &HOP_LIMITS {
        expect_hop_limit(&rt, row);
    }
}

/// Whether no transport of this packet is read.
fn is_unread(packet: &Packet<'_>) -> bool {
    matches!(
        &packet.content,
        Content::Unread
            | Content::IpHeader(_)
            | Content::Ip {
                transport: Transport::Unread(_) | Transport::Ports { .. },
                ..
            }
    )
}

/// Stops the test unless this packet is refused for this reason, and its payload is not read.
fn expect_refusal(
    rt: &(impl Abort + AllocGlobal),
    header: Header,
    payload: &[u8],
    refusal: &Refusal,
) {
    let frame = packet_of(rt, header, payload);
    let packet = read_raw(&frame, false);
    expect_at(rt, &header, &is_unread(&packet), &true);
    let found = match &packet.verdict {
        Verdict::Refused(found) => Some(found),
        _ => None,
    };
    expect_at(rt, &header, &found, &Some(refusal));
}

/// The headers of a packet, the bytes after them, and why it is refused.
type RefusedRow = (Header, &'static [u8], Refusal);

#[rattlefmt::skip]
static REFUSED: [RefusedRow; 6] = [
    (Header::Bytes(&[]), &[], Refusal::Ip(IpError::HeaderCutOff { required_len: 1, len: 0 })),
    (Header::Bytes(&[0x50]), &[], Refusal::Ip(IpError::Version { version: 5 })),
    (Header::Ipv4(0x44, 31, 0, 17), &UDP_OVER_IPV4, Refusal::Ip(IpError::HeaderLength { header_len: 16 })),
    (Header::Ipv4(0x45, 19, 0, 17), &[], Refusal::Ip(IpError::TotalLength { total_len: 19, header_len: 20 })),
    (
        Header::Ipv6(4, 0), &[17, 0, 0, 0],
        Refusal::Ip(IpError::ExtensionHeaderCutOff { protocol: IpNumber(0), offset: 40, required_len: 8, len: 4 }),
    ),
    (
        V4_TCP, &TCP_OF_4_WORDS,
        Refusal::Transport(Proto::Tcp, HeaderSliceError::Content(HeaderError::DataOffsetTooSmall { data_offset: 4 })),
    ),
];

#[test]
fn packets_are_refused(rt: HostRuntime) {
    for (header, payload, refusal) in &REFUSED {
        expect_refusal(&rt, *header, payload, refusal);
    }
}

/// The headers of a packet, its transport, the protocol and the layer that is refused, the number of bytes that it needs, and the number of
/// bytes present.
type LengthRow = (Header, &'static [u8], Proto, Layer, usize, usize);

#[rattlefmt::skip]
static WRONG_LENGTHS: [LengthRow; 4] = [
    (V4_UDP, &UDP_OF_12, Proto::Udp, Layer::UdpPayload, 12, 11),
    (Header::Ipv4(0x45, 39, 0, 6), &TCP_OF_4_WORDS_CUT, Proto::Tcp, Layer::TcpHeader, 20, 19),
    (Header::Ipv4(0x45, 27, 0, 1), &[8, 0, 0x96, 0xFC, 0, 1, 0], Proto::Icmpv4, Layer::Icmpv4, 8, 7),
    (Header::Ipv6(7, 58), &[128, 0, 0xC3, 0x43, 0, 1, 0], Proto::Icmpv6, Layer::Icmpv6, 8, 7),
];

/// Stops the test unless the transport of a row is refused for the length of the row.
fn expect_wrong_length(rt: &(impl Abort + AllocGlobal), row: &LengthRow) {
    let (header, transport, proto, layer, required_len, len) = *row;
    let error = LenError {
        required_len,
        len,
        len_source: LenSource::Slice,
        layer,
        layer_start_offset: 0,
    };
    let refusal = Refusal::Transport(proto, HeaderSliceError::Len(error));
    expect_refusal(rt, header, transport, &refusal);
}

#[test]
fn lengths_are_refused(rt: HostRuntime) {
    for row in &WRONG_LENGTHS {
        expect_wrong_length(&rt, row);
    }
}

/// The ports of a transport whose header is not read.
fn ports_of(packet: &Packet<'_>) -> Option<(u16, u16)> {
    match &packet.content {
        Content::Ip {
            transport: Transport::Ports {
                source,
                destination,
                ..
            },
            ..
        } => Some((*source, *destination)),
        _ => None,
    }
}

/// The headers of a packet, the bytes after them, whether its frame is cut, and its ports if only these are read.
type PortsRow = (Header, &'static [u8], bool, Option<(u16, u16)>);

const OF_UDP: Option<(u16, u16)> = Some((53, 1234));

const OF_TCP: Option<(u16, u16)> = Some((80, 1234));

#[rattlefmt::skip]
static PORTS: [PortsRow; 14] = [
    (V4_UDP, &UDP_OF_12, false, OF_UDP),
    (V4_UDP, &UDP_OVER_IPV4, false, None),
    (V4_TCP, &TCP_OF_4_WORDS, false, OF_TCP),
    (Header::Ipv4(0x45, 24, 0, 17), &[0, 53, 4, 210], false, OF_UDP),
    (Header::Ipv4(0x45, 23, 0, 17), &[0, 53, 4], false, None),
    (Header::Ipv4(0x45, 40, 0, 6), &[0, 80, 4, 210], false, OF_TCP),
    (Header::Ipv4(0x45, 40, 0, 6), &[0, 80, 4, 210], true, OF_TCP),
    (Header::Ipv4(0x45, 40, 0, 6), &[0, 80, 4], true, None),
    (Header::Ipv4(0x45, 31, 0x20, 17), &UDP_OVER_IPV4, false, OF_UDP),
    (Header::Ipv4(0x45, 31, 0x21, 17), &UDP_OVER_IPV4, false, None),
    (Header::Ipv4(0x45, 31, 1, 17), &UDP_OVER_IPV4, false, None),
    (Header::Ipv4(0x45, 31, 0x20, 1), &UDP_OVER_IPV4, false, None),
    (Header::Ipv4(0x45, 31, 0x20, 47), &UDP_OVER_IPV4, false, None),
    (Header::Ipv4(0x45, 27, 0, 1), &[8, 0, 0x96, 0xFC, 0, 1, 0], false, None),
];

/// Fragments over IPv6, with extension headers before the transport. In the last row, bytes of an option look like a fragment header.
#[rattlefmt::skip]
static PORTS_OF_FRAGMENTS: [PortsRow; 6] = [
    (Header::Ipv6(19, 44), &[17, 0, 0, 1, 0, 0, 0, 1, 0, 53, 4, 210, 0, 11, 0xDA, 0xF9, 97, 98, 99], false, OF_UDP),
    (Header::Ipv6(19, 44), &[17, 0, 0, 9, 0, 0, 0, 1, 0, 53, 4, 210, 0, 11, 0xDA, 0xF9, 97, 98, 99], false, None),
    (Header::Ipv6(19, 44), &[17, 0, 1, 0, 0, 0, 0, 1, 0, 53, 4, 210, 0, 11, 0xDA, 0xF9, 97, 98, 99], false, None),
    (
        Header::Ipv6(27, 60),
        &[44, 0, 1, 4, 0, 0, 0, 0, 17, 0, 0, 1, 0, 0, 0, 1, 0, 53, 4, 210, 0, 11, 0xDA, 0xF9, 97, 98, 99],
        false, OF_UDP,
    ),
    (
        Header::Ipv6(27, 60),
        &[44, 0, 1, 4, 0, 0, 0, 0, 17, 0, 0, 8, 0, 0, 0, 1, 0, 53, 4, 210, 0, 11, 0xDA, 0xF9, 97, 98, 99],
        false, None,
    ),
    (
        Header::Ipv6(27, 44),
        &[60, 0, 0, 1, 0, 0, 0, 1, 17, 0, 0, 8, 0, 0, 0, 0, 0, 53, 4, 210, 0, 11, 0xDA, 0xF9, 97, 98, 99],
        false, OF_UDP,
    ),
];

/// Stops the test unless the packet of a row has the ports of the row, although its transport header is not read.
fn expect_ports(rt: &(impl Abort + AllocGlobal), row: &PortsRow) {
    let (header, payload, is_cut, ports) = *row;
    let frame = packet_of(rt, header, payload);
    let packet = read_raw(&frame, is_cut);
    expect_at(rt, row, &ports_of(&packet), &ports);
}

#[test]
fn ports_of_transports_that_are_not_read(rt: HostRuntime) {
    for row in &PORTS {
        expect_ports(&rt, row);
    }
}

#[test]
fn ports_of_fragments_over_ipv6(rt: HostRuntime) {
    for row in &PORTS_OF_FRAGMENTS {
        expect_ports(&rt, row);
    }
}

/// Whether a packet with refused headers has the addresses 10.0.0.1 and 10.0.0.2, or 2001:db8::1 and 2001:db8::2.
fn has_addresses(packet: &Packet<'_>) -> bool {
    match &packet.content {
        Content::IpHeader(
            IpAddresses::Ipv4 {
                source,
                destination,
            },
        ) => **source == [10, 0, 0, 1] && **destination == [10, 0, 0, 2],
        Content::IpHeader(
            IpAddresses::Ipv6 {
                source,
                destination: Some(destination),
            },
        ) => **source == IPV6_SOURCE && **destination == IPV6_DESTINATION,
        _ => false,
    }
}

/// The headers of a packet, which are refused or cut off, the bytes after them, whether its frame is cut, and whether its addresses are
/// read.
type AddressesRow = (Header, &'static [u8], bool, bool);

#[rattlefmt::skip]
static OF_REFUSED: [AddressesRow; 9] = [
    (Header::Ipv4(0x45, 19, 0, 17), &[], false, true),
    (Header::Ipv4(0x44, 31, 0, 17), &UDP_OVER_IPV4, false, true),
    (Header::Ipv4(0x46, 31, 0, 17), &[1, 2, 3], false, true),
    (Header::Ipv4(0x46, 31, 0, 17), &[1, 2, 3], true, true),
    (V4_CUT, &[], true, false),
    (Header::Ipv6(4, 0), &[17, 0, 0, 0], false, true),
    (Header::Ipv6(0, 0), &[17, 0, 0, 0], false, true),
    (Header::Ipv6(9, 60), &[17, 0, 1, 4], true, true),
    (Header::Bytes(&[0x60; 39]), &[], false, false),
];

/// Stops the test unless the packet of a row, whose headers are refused, has addresses or not.
fn expect_addresses(rt: &(impl Abort + AllocGlobal), row: &AddressesRow) {
    let (header, payload, is_cut, is_there) = *row;
    let frame = packet_of(rt, header, payload);
    let packet = read_raw(&frame, is_cut);
    expect_at(rt, row, &has_addresses(&packet), &is_there);
    let kind = if is_there {
        Kind::IpHeader
    } else {
        Kind::Unread
    };
    expect_at(rt, row, &kind_of(&packet), &kind);
}

#[test]
fn addresses_of_packets_that_are_refused(rt: HostRuntime) {
    for row in &OF_REFUSED {
        expect_addresses(&rt, row);
    }
}

const UDP: Kind = Kind::Ip(Some(Proto::Udp));

const TCP: Kind = Kind::Ip(Some(Proto::Tcp));

const ICMPV4: Kind = Kind::Ip(Some(Proto::Icmpv4));

/// The headers of a packet, the bytes after them, whether its frame is cut, the kind of the packet, and the verdict on it.
type VerdictRow = (Header, &'static [u8], bool, Kind, Verdict);

#[rattlefmt::skip]
static VERDICTS: [VerdictRow; 23] = [
    (Header::Ipv4(0x45, 31, 0x20, 17), &UDP_OVER_IPV4, false, UDP, FRAGMENT),
    // A fragment that is cut off is reported as a fragment.
    (Header::Ipv4(0x45, 40, 0x20, 17), &UDP_OVER_IPV4, false, UDP, FRAGMENT),
    (Header::Ipv4(0x45, 31, 0, 17), &UDP_OVER_IPV4, true, UDP, RIGHT),
    (Header::Ipv4(0x45, 32, 0, 17), &UDP_OVER_IPV4, true, UDP, CUT_OFF),
    (Header::Ipv4(0x45, 32, 0, 17), &UDP_OVER_IPV4, false, UDP, CUT_OFF),
    (Header::Ipv4(0x45, 60, 0, 6), &TCP_CUT, false, TCP, CUT_OFF),
    (Header::Ipv6(8, 0), &[17, 0, 1, 2], false, Kind::IpHeader, CUT_OFF),
    (V4_CUT, &[], false, Kind::Unread, Verdict::Refused(Refusal::Ip(IpError::HeaderCutOff { required_len: 20, len: 19 }))),
    (Header::Ipv4(0x45, 60, 0, 6), &TCP_OVER_IPV4, true, TCP, CUT_OFF),
    (Header::Ipv4(0x45, 60, 0, 6), &TCP_CUT, true, TCP, CUT_OFF),
    (
        Header::Ipv4(0x45, 60, 0, 6), &TCP_OF_4_WORDS, true, TCP,
        Verdict::Refused(Refusal::Transport(Proto::Tcp, HeaderSliceError::Content(HeaderError::DataOffsetTooSmall { data_offset: 4 }))),
    ),
    (Header::Ipv4(0x45, 60, 0, 1), &ECHO_OVER_IPV4, true, ICMPV4, CUT_OFF),
    (V4_CUT, &[], true, Kind::Unread, CUT_OFF),
    (
        Header::Ipv4(0x44, 60, 0, 17), &[], true, Kind::IpHeader,
        Verdict::Refused(Refusal::Ip(IpError::HeaderLength { header_len: 16 })),
    ),
    (Header::Ipv6(8, 0), &[17, 0, 1, 2], true, Kind::IpHeader, CUT_OFF),
    (
        Header::Ipv6(4, 0), &[17, 0, 1, 2], true, Kind::IpHeader,
        Verdict::Refused(Refusal::Ip(IpError::ExtensionHeaderCutOff { protocol: IpNumber(0), offset: 40, required_len: 8, len: 4 })),
    ),
    (
        Header::Ipv6(19, 43), &[17, 0, 1, 1, 0, 0, 0, 0, 0, 53, 4, 210, 0, 11, 0xDA, 0xF9, 97, 98, 99], false, UDP,
        UNKNOWN_DESTINATION,
    ),
    (Header::Ipv6(9, 1), &ECHO_OVER_IPV4, false, Kind::Ip(None), OTHER_PROTOCOL),
    (Header::Ipv4(0x45, 31, 0, 50), &UDP_OVER_IPV4, false, Kind::Ip(None), OTHER_PROTOCOL),
    // No checksum of another protocol is read, also if the packet is a fragment or cut off.
    (Header::Ipv4(0x45, 31, 0x20, 89), &UDP_OVER_IPV4, false, Kind::Ip(None), OTHER_PROTOCOL),
    (Header::Ipv4(0x45, 40, 0x20, 58), &UDP_OVER_IPV4, false, Kind::Ip(None), OTHER_PROTOCOL),
    (Header::Ipv4(0x45, 32, 0, 50), &UDP_OVER_IPV4, false, Kind::Ip(None), OTHER_PROTOCOL),
    (Header::Ipv6(16, 44), &[47, 0, 0, 1, 0, 0, 0, 7, 0, 0, 8, 0, 1, 2, 3, 4], true, Kind::Ip(None), OTHER_PROTOCOL),
];

/// Stops the test unless the packet of a row has the kind and the verdict of the row.
fn expect_verdict(rt: &(impl Abort + AllocGlobal), row: &VerdictRow) {
    let (header, payload, is_cut, kind, verdict) = row;
    let frame = packet_of(rt, *header, payload);
    let packet = read_raw(&frame, *is_cut);
    expect_at(rt, row, &packet.verdict, verdict);
    expect_at(rt, row, &kind_of(&packet), kind);
}

#[test]
fn packets_are_not_looked_at(rt: HostRuntime) {
    for row in &VERDICTS {
        expect_verdict(&rt, row);
    }
}

/// UDP whose length field counts less than a header.
const UDP_OF_5: [u8; 11] = [0, 53, 4, 210, 0, 5, 0x22, 0x6C, 97, 98, 99];

/// The headers of a packet, the bytes after them, the length of its payload, and the number of bytes of the payload that are present.
type PayloadRow = (Header, &'static [u8], usize, usize);

#[rattlefmt::skip]
static PAYLOADS: [PayloadRow; 14] = [
    (V4_UDP, &UDP_OVER_IPV4, 3, 3),
    (V6_TCP, &TCP_OVER_IPV6, 3, 3),
    (Header::Ipv4(0x45, 120, 0, 6), &TCP_OVER_IPV4, 80, 3),
    (Header::Ipv4(0x45, 120, 0, 6), &TCP_CUT, 100, 19),
    (Header::Ipv4(0x45, 120, 0, 1), &ECHO_OVER_IPV4, 92, 1),
    (Header::Ipv4(0x45, 120, 0x20, 17), &UDP_OVER_IPV4, 100, 11),
    (Header::Ipv4(0x45, 120, 0, 50), &UDP_OVER_IPV4, 100, 11),
    (Header::Ipv6(100, 6), &TCP_OVER_IPV6, 80, 3),
    (Header::Ipv6(100, 0), &[17, 0, 1, 4, 0, 0, 0, 0, 0, 53, 4, 210, 0, 92, 0xDA, 0xF9, 97], 84, 1),
    // A UDP datagram ends where its length field states it, unless the field counts no header or more bytes than the IP header.
    (Header::Ipv4(0x45, 120, 0, 17), &UDP_OVER_IPV4, 3, 3),
    (Header::Ipv4(0x45, 120, 0, 17), &UDP_OF_12, 4, 3),
    (Header::Ipv4(0x45, 120, 0, 17), &UDP_OF_5, 92, 3),
    (Header::Ipv4(0x45, 32, 0, 17), &[0, 53, 4, 210, 0, 200, 0x22, 0x6C, 97, 98, 99], 4, 3),
    (Header::Ipv4(0x45, 0, 0, 6), &TCP_OVER_IPV4, 3, 3),
];

/// Stops the test unless the payload of a row has the length of the row, and as many bytes are present.
fn expect_payload(rt: &(impl Abort + AllocGlobal), row: &PayloadRow) {
    let (header, payload, len, present_len) = *row;
    let frame = packet_of(rt, header, payload);
    let packet = read_raw(&frame, true);
    let found = match &packet.content {
        Content::Ip {
            transport,
            payload_len,
            ..
        } => Some((*payload_len, transport.payload().len())),
        _ => None,
    };
    expect_at(rt, row, &found, &Some((len, present_len)));
}

#[test]
fn lengths_of_payloads(rt: HostRuntime) {
    for row in &PAYLOADS {
        expect_payload(&rt, row);
    }
}

/// Packets with a total length or a payload length of 0. If a header that must follow is missing, they are cut off or refused.
#[rattlefmt::skip]
static WITHOUT_LENGTH: [VerdictRow; 20] = [
    (Header::Ipv4(0x45, 0, 0x40, 17), &UDP_OVER_IPV4, false, UDP, Verdict::LengthMissing),
    (Header::Ipv4(0x45, 0, 0x40, 6), &TCP_WRONG, true, TCP, Verdict::LengthMissing),
    (Header::Ipv4(0x45, 0, 0x40, 1), &ECHO_OVER_IPV4, false, ICMPV4, Verdict::LengthMissing),
    (Header::Ipv4(0x45, 0, 0, 50), &UDP_OVER_IPV4, false, Kind::Ip(None), OTHER_PROTOCOL),
    (Header::Ipv4(0x45, 0, 0x20, 50), &UDP_OVER_IPV4, true, Kind::Ip(None), OTHER_PROTOCOL),
    (Header::Ipv4(0x45, 0, 0x20, 17), &UDP_OVER_IPV4, false, UDP, FRAGMENT),
    (Header::Ipv6(0, 6), &TCP_OVER_IPV6, false, TCP, Verdict::LengthMissing),
    (
        Header::Ipv6(0, 0), &[17, 0, 1, 4, 0, 0, 0, 0, 0, 53, 4, 210, 0, 11, 0xDA, 0xF9, 97, 98, 99], false, UDP,
        Verdict::LengthMissing,
    ),
    (Header::Ipv6(0, 59), &[], false, Kind::Ip(None), OTHER_PROTOCOL),
    // The transport header is incomplete or malformed.
    (Header::Ipv6(0, 6), &TCP_CUT, true, TCP, CUT_OFF),
    (Header::Ipv4(0x45, 0, 0, 17), &UDP_OF_12, true, UDP, CUT_OFF),
    (
        Header::Ipv4(0x45, 0, 0, 6), &TCP_OF_4_WORDS, true, TCP,
        Verdict::Refused(Refusal::Transport(Proto::Tcp, HeaderSliceError::Content(HeaderError::DataOffsetTooSmall { data_offset: 4 }))),
    ),
    // An extension header is incomplete.
    (Header::Ipv4(0x45, 0, 0, 51), &[17, 4, 0, 0], true, Kind::IpHeader, CUT_OFF),
    (Header::Ipv6(0, 0), &[60, 0, 1, 4, 0, 0, 0, 0, 17, 0], true, Kind::IpHeader, CUT_OFF),
    (Header::Ipv6(0, 60), &[17, 0, 1, 4], true, Kind::IpHeader, CUT_OFF),
    (Header::Ipv6(0, 60), &[], true, Kind::IpHeader, CUT_OFF),
    (
        Header::Ipv6(0, 60), &[17, 0, 1, 4], false, Kind::IpHeader,
        Verdict::Refused(Refusal::Ip(IpError::ExtensionHeaderCutOff { protocol: IpNumber(60), offset: 40, required_len: 8, len: 4 })),
    ),
    // A packet of 40 bytes is whole, although the capture cut its frame: only this header states its length.
    (
        Header::Ipv4(0x4A, 40, 0, 51), &[0; 20], true, Kind::IpHeader,
        Verdict::Refused(Refusal::Ip(IpError::ExtensionHeaderCutOff { protocol: IpNumber(51), offset: 40, required_len: 8, len: 0 })),
    ),
    (Header::Ipv4(0x45, 19, 0, 17), &UDP_OVER_IPV4, true, Kind::IpHeader,
     Verdict::Refused(Refusal::Ip(IpError::TotalLength { total_len: 19, header_len: 20 }))),
    (
        Header::Ipv6(0, 17), &[0, 53, 4, 210, 0, 11, 0xDA], false, UDP,
        Verdict::Refused(Refusal::Transport(Proto::Udp, HeaderSliceError::Len(UDP_HEADER_OF_7))),
    ),
];

/// Only 7 of the 8 bytes of a UDP header.
const UDP_HEADER_OF_7: LenError = LenError {
    required_len: 8,
    len: 7,
    len_source: LenSource::Slice,
    layer: Layer::UdpHeader,
    layer_start_offset: 0,
};

#[test]
fn packets_that_state_no_length(rt: HostRuntime) {
    for row in &WITHOUT_LENGTH {
        expect_verdict(&rt, row);
    }
}
