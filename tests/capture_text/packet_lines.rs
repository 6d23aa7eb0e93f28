use super::{expect_line, expect_line_of, expect_transport, expect_verdict, line_of};
use crate::expect::{expect_all_written, expect_ok, expect_some, expect_written};
use crate::packets::{OVER_IPV4, OVER_IPV6};
use crate::summaries::first_info;
use capture_file::KeptText;
use capture_file::reader::PacketInterface;
use capture_packet::{
    Content, HopLimit, LinkHeaderCutOff, NetworkKind, NetworkProtocol, Packet, Refusal, Transport,
    Tunnel, Verdict, VirtualNetwork,
};
use capture_summary::FrameLen;
use capture_text::write_packet_line;
use capture_words::Times;
use etherparse_transport::err::tcp::{HeaderError, HeaderSliceError};
use etherparse_transport::err::{Layer, LenError, LenSource};
use etherparse_transport::ip::{IpAddresses, IpError};
use etherparse_transport::{
    ChecksumVerdict, IpNumber, Proto, TransportSlice, UdpSlice, Untested, ip_number,
};
use std::process::Abort;

/// A UDP datagram from port 49152 to port 53, of 9 bytes.
const DATAGRAM: [u8; 9] = [0xC0, 0, 0, 53, 0, 9, 0, 0, 7];

/// Bytes from which the ports 53 and 4000 are read.
const PORTS: [u8; 5] = [0, 53, 15, 160, 7];

/// Bytes from which nothing is read.
const UNREAD: [u8; 3] = [1, 2, 3];

/// These bytes as a transport. Their length shows which of the three it is.
fn transport_of<'a>(rt: &impl Abort, bytes: &'a [u8]) -> Transport<'a> {
    match bytes.len() {
        9 => Transport::Read(TransportSlice::Udp(expect_ok(rt, UdpSlice::from_slice(bytes)))),
        5 => Transport::Ports {
            source: 53,
            destination: 4000,
            payload: bytes,
        },
        _ => Transport::Unread(bytes),
    }
}

/// The datagram over IPv4, with a payload of this length.
fn datagram_over_ipv4(rt: &impl Abort, payload_len: usize) -> Content<'static> {
    Content::Ip {
        addresses: OVER_IPV4,
        protocol: ip_number::UDP,
        proto: Some(Proto::Udp),
        transport: transport_of(rt, &DATAGRAM),
        payload_len,
    }
}

#[test]
fn whole_lines(rt: HostRuntime) {
    let wanted = [
        "192.0.2.1:49152 > 192.0.2.2:53 ",
        "UDP length 9, payload 1",
        "; checksum wrong, 1A2B expected",
    ];
    let verdict = Verdict::Checksum(ChecksumVerdict::Wrong { expected: 0x1A2B });
    expect_line(&rt, datagram_over_ipv4(&rt, 1), verdict, wanted);
}

/// The tunnels of a packet, and their text.
#[rattlefmt::skip]
static TUNNELS: [(&[(IpAddresses, u8, Option<VirtualNetwork>)], &str); 7] = [
    (&[(OVER_IPV4, 4, None)], "192.0.2.1 > 192.0.2.2 IPv4 | "),
    (&[(OVER_IPV4, 41, None)], "192.0.2.1 > 192.0.2.2 IPv6 | "),
    (&[(OVER_IPV6, 47, None)], "2001:db8::1 > 2001:db8::2 GRE | "),
    (&[(UNKNOWN, 41, None)], ":: > unknown IPv6 | "),
    (&[(OVER_IPV4, 47, None), (OVER_IPV6, 4, None)], "192.0.2.1 > 192.0.2.2 GRE | 2001:db8::1 > 2001:db8::2 IPv4 | "),
    (&[(OVER_IPV4, 17, Some(VirtualNetwork { kind: NetworkKind::Vxlan, id: 42 }))], "192.0.2.1 > 192.0.2.2 UDP, VXLAN, VNI 42 | "),
    (&[(OVER_IPV6, 17, Some(VirtualNetwork { kind: NetworkKind::Geneve, id: 0 }))], "2001:db8::1 > 2001:db8::2 UDP, Geneve, VNI 0 | "),
];

/// Stops the test unless the line of a packet in these tunnels contains this text.
fn expect_tunnels(
    rt: &(impl Abort + AllocGlobal),
    tunnels: &[(IpAddresses<'static>, u8, Option<VirtualNetwork>)],
    wanted: &str,
) {
    let content = Content::IpHeader(OVER_IPV4);
    let mut packet = Packet::in_no_tunnel(content, Verdict::untested(Untested::CutOff));
    for (addresses, protocol, network) in tunnels {
        let tunnel = Tunnel {
            addresses: *addresses,
            protocol: IpNumber(*protocol),
            network: *network,
        };
        expect_some(rt, packet.tunnels.try_push(tunnel).ok());
    }
    let end = "192.0.2.1 > 192.0.2.2; checksum not looked at: cut off";
    expect_line_of(rt, &packet, ["", wanted, end]);
}

#[test]
fn tunnels(rt: HostRuntime) {
    for (tunnels, wanted) in &TUNNELS {
        expect_tunnels(&rt, tunnels, wanted);
    }
}

/// Protocols other than IP, and the text of each.
#[rattlefmt::skip]
const NETWORK_PROTOCOLS: [(NetworkProtocol, &str); 12] = [
    (NetworkProtocol::EtherType(0x0805), "ether type 0805"),
    (NetworkProtocol::AddressFamily(7), "address family 7"),
    (NetworkProtocol::Ieee80211 { frame_control: 0x0841 }, "IEEE 802.11 frame control 0841"),
    (NetworkProtocol::Radiotap { version: 1, len: 8 }, "radiotap version 1 length 8"),
    (NetworkProtocol::Llc { dsap: 0x42, ssap: 3 }, "LLC DSAP 42 SSAP 03"),
    (NetworkProtocol::Llc { dsap: 0x42, ssap: 0x42 }, "STP"),
    (NetworkProtocol::Llc { dsap: 3, ssap: 0x42 }, "LLC DSAP 03 SSAP 42"),
    (NetworkProtocol::Snap { organization_code: 0x0C, protocol: 0x2000 }, "SNAP 00000C 2000"),
    (NetworkProtocol::PppProtocol(0xC022), "PPP protocol C022"),
    (NetworkProtocol::FrameRelay { header: 0x01_417F }, "Frame Relay 01417F"),
    (NetworkProtocol::Nlpid(8), "NLPID 08"),
    (NetworkProtocol::Nlpid(0x83), "IS-IS"),
];

#[test]
fn other_network_protocols(rt: HostRuntime) {
    for (protocol, wanted) in &NETWORK_PROTOCOLS {
        let verdict = Verdict::untested(Untested::OtherProtocol);
        expect_line(&rt, Content::NotIp(*protocol), verdict, ["", wanted, ""]);
    }
}

/// Addresses, and their text.
static OF_REFUSED: [(IpAddresses, &str); 2] = [
    (OVER_IPV4, "192.0.2.1 > 192.0.2.2"),
    (OVER_IPV6, "2001:db8::1 > 2001:db8::2"),
];

#[test]
fn addresses_of_refused_packets(rt: HostRuntime) {
    for (addresses, wanted) in &OF_REFUSED {
        let verdict = Verdict::untested(Untested::CutOff);
        let wanted = ["", wanted, "; checksum not looked at: cut off"];
        expect_line(&rt, Content::IpHeader(*addresses), verdict, wanted);
    }
}

/// The unspecified address over IPv6, and a final destination that is not known.
const UNKNOWN: IpAddresses = IpAddresses::Ipv6 {
    source: &[0; 16],
    destination: None,
};

/// Addresses, the number of a protocol, the bytes of a transport, and their text.
type AddressesRow = (IpAddresses<'static>, u8, &'static [u8], &'static str);

#[rattlefmt::skip]
static ADDRESSES: [AddressesRow; 15] = [
    (OVER_IPV4, 17, &DATAGRAM, "192.0.2.1:49152 > 192.0.2.2:53 UDP length 9, payload 1"),
    (OVER_IPV6, 17, &DATAGRAM, "[2001:db8::1]:49152 > [2001:db8::2]:53 UDP length 9, payload 1"),
    (UNKNOWN, 17, &DATAGRAM, "[::]:49152 > unknown:53 UDP length 9, payload 1"),
    (OVER_IPV4, 6, &UNREAD, "192.0.2.1 > 192.0.2.2 TCP, payload 3"),
    (OVER_IPV4, 17, &UNREAD, "192.0.2.1 > 192.0.2.2 UDP, payload 3"),
    (OVER_IPV4, 1, &UNREAD, "192.0.2.1 > 192.0.2.2 ICMPv4, payload 3"),
    (OVER_IPV4, 58, &UNREAD, "192.0.2.1 > 192.0.2.2 protocol 58, payload 3"),
    (OVER_IPV4, 47, &UNREAD, "192.0.2.1 > 192.0.2.2 GRE, payload 3"),
    (OVER_IPV4, 48, &UNREAD, "192.0.2.1 > 192.0.2.2 protocol 48, payload 3"),
    (OVER_IPV6, 58, &UNREAD, "2001:db8::1 > 2001:db8::2 ICMPv6, payload 3"),
    (OVER_IPV6, 1, &UNREAD, "2001:db8::1 > 2001:db8::2 protocol 1, payload 3"),
    (UNKNOWN, 17, &UNREAD, ":: > unknown UDP, payload 3"),
    (OVER_IPV4, 17, &PORTS, "192.0.2.1:53 > 192.0.2.2:4000 UDP, payload 5"),
    (OVER_IPV6, 6, &PORTS, "[2001:db8::1]:53 > [2001:db8::2]:4000 TCP, payload 5"),
    (UNKNOWN, 6, &PORTS, "[::]:53 > unknown:4000 TCP, payload 5"),
];

/// Stops the test unless the addresses and the transport of a row have the text of the row.
fn expect_addresses(rt: &(impl Abort + AllocGlobal), row: &AddressesRow) {
    let (addresses, protocol, bytes, wanted) = *row;
    let transport = transport_of(rt, bytes);
    let wanted = ["", wanted, ""];
    expect_transport(rt, addresses, IpNumber(protocol), transport, wanted);
}

#[test]
fn addresses_and_ports(rt: HostRuntime) {
    for row in &ADDRESSES {
        expect_addresses(&rt, row);
    }
}

#[test]
fn a_payload_that_is_cut_off(rt: HostRuntime) {
    let wanted = [
        "192.0.2.1:49152 > 192.0.2.2:53 ",
        "UDP length 9, payload 1400, 1 captured",
        "; checksum not looked at: cut off",
    ];
    let verdict = Verdict::untested(Untested::CutOff);
    expect_line(&rt, datagram_over_ipv4(&rt, 1400), verdict, wanted);
}

/// Lengths of frames, and the text of an ARP packet in each.
#[rattlefmt::skip]
const LENGTHS: [(Option<FrameLen>, &str); 5] = [
    (Some(FrameLen { original: 42, captured: 42 }), "length 42: ARP"),
    (Some(FrameLen { original: 1514, captured: 96 }), "length 1514, 96 captured: ARP"),
    (Some(FrameLen { original: 60, captured: 64 }), "length 60, 64 captured: ARP"),
    (Some(FrameLen { original: 0, captured: 0 }), "length 0: ARP"),
    (None, "length unknown: ARP"),
];

/// Stops the test unless an ARP packet in a frame of this length has this text.
fn expect_length(rt: &(impl Abort + AllocGlobal), len: Option<FrameLen>, wanted: &str) {
    let content = Content::NotIp(NetworkProtocol::EtherType(0x0806));
    let packet = Packet::in_no_tunnel(content, Verdict::untested(Untested::OtherProtocol));
    let line = line_of(rt, len, &packet);
    expect_all_written(rt, &line, &["1 00:00:00.000000 ", wanted, "\n"]);
}

#[test]
fn lengths_of_frames(rt: HostRuntime) {
    for (len, wanted) in &LENGTHS {
        expect_length(&rt, *len, wanted);
    }
}

/// Hop limits, whether the line is verbose, and the text.
#[rattlefmt::skip]
const HOP_LIMITS: [(Option<HopLimit>, bool, &str); 5] = [
    (Some(HopLimit::Ipv4(64)), true, "1 - length unknown: 192.0.2.1 > 192.0.2.2, time to live 64; checksum not looked at: cut off\n"),
    (Some(HopLimit::Ipv6(255)), true, "1 - length unknown: 192.0.2.1 > 192.0.2.2, hop limit 255; checksum not looked at: cut off\n"),
    (None, true, "1 - length unknown: 192.0.2.1 > 192.0.2.2; checksum not looked at: cut off\n"),
    (Some(HopLimit::Ipv4(64)), false, "1 - length unknown: 192.0.2.1 > 192.0.2.2; checksum not looked at: cut off\n"),
    (Some(HopLimit::Ipv6(255)), false, "1 - length unknown: 192.0.2.1 > 192.0.2.2; checksum not looked at: cut off\n"),
];

/// Stops the test unless a packet with this hop limit has this text.
fn expect_hop_limit(
    rt: &(impl Abort + AllocGlobal),
    hop_limit: Option<HopLimit>,
    verbose: bool,
    wanted: &str,
) {
    let content = Content::IpHeader(OVER_IPV4);
    let mut packet = Packet::in_no_tunnel(content, Verdict::untested(Untested::CutOff));
    packet.hop_limit = hop_limit;
    let times = Times::SinceFirst;
    let mut line = Vec::new(rt.alloc());
    let info = first_info(None, None);
    let written = write_packet_line(&mut line, times, verbose, &info, &packet);
    expect_ok(rt, written);
    expect_written(rt, &line, wanted);
}

/// Interfaces by number, name, and whether the name is cut, each with its text in a line.
#[rattlefmt::skip]
static INTERFACES: [(u32, &[u8], bool, &str); 5] = [
    (1, b"eth0", false, " eth0"),
    (0, b"", false, " interface 0"),
    (3, b"Ethernet 2", false, " Ethernet 2"),
    (2, b"a\nb\x1B\xC3\xA9", true, " a\\x0Ab\\x1B\u{E9}..."),
    (2, b"\xFFb", false, " \\xFFb"),
];

/// Stops the test unless the line of a packet of this interface has this text.
fn expect_interface(
    rt: &(impl Abort + AllocGlobal),
    number: u32,
    name: &[u8],
    is_cut: bool,
    wanted: &str,
) {
    let mut name = KeptText::new(name);
    name.is_cut = is_cut;
    let mut info = first_info(None, None);
    info.texts.interface = Some(PacketInterface { number, name });
    let packet = Packet::in_no_tunnel(Content::Unread, Verdict::untested(Untested::CutOff));
    let mut line = Vec::new(rt.alloc());
    let written = write_packet_line(&mut line, Times::SinceFirst, true, &info, &packet);
    expect_ok(rt, written);
    let end = " length unknown: checksum not looked at: cut off\n";
    expect_all_written(rt, &line, &["1 -", wanted, end]);
}

#[test]
fn interfaces(rt: HostRuntime) {
    for (number, name, is_cut, wanted) in &INTERFACES {
        expect_interface(&rt, *number, name, *is_cut, wanted);
    }
}

/// Comments of a packet, the number of its other comments, whether the line is verbose, and the end of the line.
#[rattlefmt::skip]
static COMMENTS: [(&[&[u8]], u64, bool, &str); 6] = [
    (&[], 0, true, ""),
    (&[b"lost here"], 0, false, ""),
    (&[b"lost here"], 0, true, "; comment \"lost here\""),
    (&[b"", b"a\nb\x1B\xC3\xA9"], 0, true, "; comment \"\"; comment \"a\\x0Ab\\x1B\u{E9}\""),
    (&[b"1", b"2", b"3", b"4"], 3, true, "; comment \"1\"; comment \"2\"; comment \"3\"; comment \"4\"; more comments 3"),
    (&[b"1", b"2", b"3", b"4"], 3, false, ""),
];

/// Stops the test unless the line of a packet with these comments ends like this.
fn expect_comments(
    rt: &(impl Abort + AllocGlobal),
    comments: &[&[u8]],
    more: u64,
    verbose: bool,
    wanted: &str,
) {
    let mut info = first_info(None, None);
    for comment in comments {
        let text = KeptText::new(comment);
        expect_some(rt, info.texts.comments.texts.try_push(text).ok());
    }
    info.texts.comments.more = more;
    let packet = Packet::in_no_tunnel(Content::Unread, Verdict::untested(Untested::CutOff));
    let mut line = Vec::new(rt.alloc());
    let written = write_packet_line(&mut line, Times::SinceFirst, verbose, &info, &packet);
    expect_ok(rt, written);
    let before = "1 - length unknown: checksum not looked at: cut off";
    expect_all_written(rt, &line, &[before, wanted, "\n"]);
}

#[test]
fn comments(rt: HostRuntime) {
    for (comments, more, verbose, wanted) in &COMMENTS {
        expect_comments(&rt, comments, *more, *verbose, wanted);
    }
}

#[test]
fn hop_limits(rt: HostRuntime) {
    for (hop_limit, verbose, wanted) in &HOP_LIMITS {
        expect_hop_limit(&rt, *hop_limit, *verbose, wanted);
    }
}

/// Verdicts on checksums, and the text of each. A UDP packet with a length field of 0 is refused.
#[rattlefmt::skip]
const CHECKSUMS: [(ChecksumVerdict, &str); 10] = [
    (ChecksumVerdict::Right, "checksum right"),
    (ChecksumVerdict::Wrong { expected: 0x0A }, "checksum wrong, 000A expected"),
    (ChecksumVerdict::Partial { expected: 0x0A }, "checksum not filled in"),
    (ChecksumVerdict::Absent, "checksum none"),
    (ChecksumVerdict::Untested(Untested::Fragment), "checksum not looked at: a fragment"),
    (ChecksumVerdict::Untested(Untested::CutOff), "checksum not looked at: cut off"),
    (ChecksumVerdict::Untested(Untested::UnknownDestination), "checksum not looked at: the final destination is not known"),
    (ChecksumVerdict::Untested(Untested::OtherProtocol), "checksum not looked at: another protocol"),
    (ChecksumVerdict::Untested(Untested::TooLong), "checksum not looked at: too long"),
    (ChecksumVerdict::Untested(Untested::ZeroLength), "refused: UDP header needs 8 bytes, the UDP length is 0"),
];

#[test]
fn verdicts_without_an_error(rt: HostRuntime) {
    for (verdict, wanted) in &CHECKSUMS {
        expect_verdict(&rt, Verdict::Checksum(*verdict), ["", wanted, ""]);
    }
}

#[test]
fn a_packet_that_states_no_length(rt: HostRuntime) {
    let wanted = "checksum not looked at: no length stated";
    expect_verdict(&rt, Verdict::LengthMissing, ["", wanted, ""]);
}

#[test]
fn a_packet_that_is_too_long(rt: HostRuntime) {
    let verdict = Verdict::TooLong {
        required_len: 600_000,
    };
    let wanted = "checksum not looked at: 600000 bytes, more than 524288";
    expect_verdict(&rt, verdict, ["", wanted, ""]);
}

/// Why a layer of at least 8 bytes is refused if there are 7.
fn too_short(layer: Layer) -> LenError {
    LenError {
        required_len: 8,
        len: 7,
        len_source: LenSource::Slice,
        layer,
        layer_start_offset: 0,
    }
}

/// A link header of 14 bytes, without its last byte.
const LINK: Refusal = Refusal::Link(LinkHeaderCutOff {
    required_len: 14,
    len: 13,
});

const DATA_OFFSET: HeaderError = HeaderError::DataOffsetTooSmall { data_offset: 4 };

/// A UDP header that is longer than its length field states.
const BY_FIELD: LenError = LenError {
    required_len: 8,
    len: 7,
    len_source: LenSource::UdpHeaderLen,
    layer: Layer::UdpHeader,
    layer_start_offset: 0,
};

/// A TCP header that is cut off, 34 bytes after the beginning of the packet.
const FROM_BYTE_34: LenError = LenError {
    required_len: 8,
    len: 7,
    len_source: LenSource::Slice,
    layer: Layer::TcpHeader,
    layer_start_offset: 34,
};

/// Refusals, and the text of each.
#[rattlefmt::skip]
const REFUSALS: [(Refusal, &str); 4] = [
    (LINK, "link header needs 14 bytes, has 13"),
    (Refusal::Transport(Proto::Tcp, HeaderSliceError::Content(DATA_OFFSET)), "TCP data offset 4, below 5"),
    (Refusal::Transport(Proto::Udp, HeaderSliceError::Len(BY_FIELD)), "UDP header needs 8 bytes, the UDP length is 7"),
    (Refusal::Transport(Proto::Tcp, HeaderSliceError::Len(FROM_BYTE_34)), "TCP header at byte 34 needs 8 bytes, has 7"),
];

#[test]
fn refusals(rt: HostRuntime) {
    for (refusal, wanted) in REFUSALS {
        expect_verdict(&rt, Verdict::Refused(refusal), ["refused: ", wanted, ""]);
    }
}

/// Layers, and the name of each.
#[rattlefmt::skip]
const LAYERS: [(Layer, &str); 7] = [
    (Layer::UdpHeader, "UDP header"),
    (Layer::UdpPayload, "UDP datagram"),
    (Layer::TcpHeader, "TCP header"),
    (Layer::Icmpv4, "ICMPv4 message"),
    (Layer::Icmpv4Timestamp, "ICMPv4 timestamp message"),
    (Layer::Icmpv4TimestampReply, "ICMPv4 timestamp reply message"),
    (Layer::Icmpv6, "ICMPv6 message"),
];

#[test]
fn refused_layers(rt: HostRuntime) {
    for (layer, name) in &LAYERS {
        let refusal = Refusal::Transport(Proto::Udp, HeaderSliceError::Len(too_short(*layer)));
        let wanted = ["refused: ", name, " needs 8 bytes, has 7"];
        expect_verdict(&rt, Verdict::Refused(refusal), wanted);
    }
}

/// Errors of IP headers, and the text of each.
#[rattlefmt::skip]
const IP_ERRORS: [(IpError, &str); 10] = [
    (IpError::HeaderCutOff { required_len: 20, len: 15 }, "refused: IP header needs 20 bytes, has 15"),
    (IpError::Version { version: 5 }, "refused: IP version 5"),
    (IpError::HeaderLength { header_len: 16 }, "refused: IPv4 header length 16, below 20"),
    (IpError::TotalLength { total_len: 19, header_len: 20 }, "refused: IPv4 total length 19, below the header length 20"),
    (IpError::PacketCutOff { required_len: 47, len: 46 }, "refused: IP packet needs 47 bytes, has 46"),
    (IpError::ExtensionHeaderCutOff { protocol: ip_number::IPV6_DESTINATION_OPTIONS, offset: 40, required_len: 16, len: 15 },
     "refused: IP extension header 60 at byte 40 needs 16 bytes, has 15"),
    (IpError::JumboPayloadMissing, "refused: IPv6 payload length 0 without a jumbo payload option"),
    (IpError::JumboPayloadLength { jumbo_payload_len: 65535 }, "refused: IPv6 jumbo payload length 65535, not above 65535"),
    (IpError::JumboPayloadUnexpected { payload_len: 24 }, "refused: IPv6 payload length 24 with a jumbo payload option"),
    (IpError::JumboPayloadFragment { offset: 48 }, "refused: IPv6 fragment header at byte 48 with a jumbo payload option"),
];

#[test]
fn refused_headers_of_ip(rt: HostRuntime) {
    for (error, wanted) in &IP_ERRORS {
        expect_verdict(&rt, Verdict::Refused(Refusal::Ip(*error)), ["", wanted, ""]);
    }
}
