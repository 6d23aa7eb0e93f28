//! The rows of the tables in which packets are counted.

use crate::expect::expect_at;
use capture_file::LinkType;
use capture_packet::{LinkHeaderCutOff, Refusal, Verdict};
use capture_summary::{LinkKind, RefusalKind, VerdictKind};
use etherparse_transport::err::tcp::{HeaderError, HeaderSliceError};
use etherparse_transport::err::{Layer, LenError, LenSource};
use etherparse_transport::ip::IpError;
use etherparse_transport::{ChecksumVerdict, IpNumber, Proto, Untested};
use std::process::Abort;

/// A verdict, its kind, and the kind of the refusal, of a packet that is refused.
type VerdictRow = (Verdict, VerdictKind, Option<RefusalKind>);

#[rattlefmt::skip]
static VERDICTS: [VerdictRow; 12] = [
    (Verdict::Checksum(ChecksumVerdict::Right), VerdictKind::Right, None),
    (Verdict::Checksum(ChecksumVerdict::Wrong { expected: 0x1A2B }), VerdictKind::Wrong, None),
    (Verdict::Checksum(ChecksumVerdict::Partial { expected: 0x1A2B }), VerdictKind::Partial, None),
    (Verdict::Checksum(ChecksumVerdict::Absent), VerdictKind::Absent, None),
    (Verdict::Checksum(ChecksumVerdict::Untested(Untested::Fragment)), VerdictKind::Fragment, None),
    (Verdict::Checksum(ChecksumVerdict::Untested(Untested::CutOff)), VerdictKind::CutOff, None),
    (Verdict::Checksum(ChecksumVerdict::Untested(Untested::UnknownDestination)), VerdictKind::UnknownDestination, None),
    (Verdict::Checksum(ChecksumVerdict::Untested(Untested::OtherProtocol)), VerdictKind::OtherProtocol, None),
    (Verdict::Checksum(ChecksumVerdict::Untested(Untested::TooLong)), VerdictKind::TooLong, None),
    (Verdict::LengthMissing, VerdictKind::LengthMissing, None),
    (Verdict::TooLong { required_len: 600_000 }, VerdictKind::TooLong, None),
    // The length field counts less than a header, so this packet is refused.
    (Verdict::Checksum(ChecksumVerdict::Untested(Untested::ZeroLength)), VerdictKind::Refused, Some(RefusalKind::UdpLength)),
];

/// A UDP packet of 11 bytes whose length field is 12.
const UDP_LENGTH: HeaderSliceError = HeaderSliceError::Len(LenError {
    required_len: 12,
    len: 11,
    len_source: LenSource::Slice,
    layer: Layer::UdpPayload,
    layer_start_offset: 0,
});

/// A TCP header that is cut off.
const TCP_LENGTH: HeaderSliceError = HeaderSliceError::Len(LenError {
    required_len: 20,
    len: 19,
    len_source: LenSource::Slice,
    layer: Layer::TcpHeader,
    layer_start_offset: 0,
});

const DATA_OFFSET: HeaderSliceError = HeaderSliceError::Content(HeaderError::DataOffsetTooSmall {
    data_offset: 4,
});

/// Messages of ICMP that are cut off.
const ICMPV4_LENGTH: HeaderSliceError = HeaderSliceError::Len(LenError {
    required_len: 8,
    len: 7,
    len_source: LenSource::Slice,
    layer: Layer::Icmpv4,
    layer_start_offset: 0,
});

const ICMPV6_LENGTH: HeaderSliceError = HeaderSliceError::Len(LenError {
    required_len: 8,
    len: 7,
    len_source: LenSource::Slice,
    layer: Layer::Icmpv6,
    layer_start_offset: 0,
});

/// Why packets are refused, and the kind of each refusal.
#[rattlefmt::skip]
static REFUSALS: [VerdictRow; 16] = [
    (Verdict::Refused(Refusal::Link(LinkHeaderCutOff { required_len: 14, len: 13 })), VerdictKind::Refused, Some(RefusalKind::LinkHeader)),
    (
        Verdict::Refused(Refusal::Ip(IpError::HeaderCutOff { required_len: 1, len: 0 })),
        VerdictKind::Refused, Some(RefusalKind::IpHeaderCutOff),
    ),
    (Verdict::Refused(Refusal::Ip(IpError::Version { version: 5 })), VerdictKind::Refused, Some(RefusalKind::IpVersion)),
    (Verdict::Refused(Refusal::Ip(IpError::HeaderLength { header_len: 16 })), VerdictKind::Refused, Some(RefusalKind::IpHeaderLength)),
    (
        Verdict::Refused(Refusal::Ip(IpError::TotalLength { total_len: 19, header_len: 20 })),
        VerdictKind::Refused, Some(RefusalKind::IpTotalLength),
    ),
    (
        Verdict::Refused(Refusal::Ip(IpError::PacketCutOff { required_len: 47, len: 46 })),
        VerdictKind::Refused, Some(RefusalKind::IpPacketCutOff),
    ),
    (
        Verdict::Refused(Refusal::Ip(IpError::ExtensionHeaderCutOff { protocol: IpNumber(0), offset: 40, required_len: 8, len: 4 })),
        VerdictKind::Refused, Some(RefusalKind::IpExtensionHeader),
    ),
    (Verdict::Refused(Refusal::Ip(IpError::JumboPayloadMissing)), VerdictKind::Refused, Some(RefusalKind::IpExtensionHeader)),
    (
        Verdict::Refused(Refusal::Ip(IpError::JumboPayloadLength { jumbo_payload_len: 65535 })),
        VerdictKind::Refused, Some(RefusalKind::IpExtensionHeader),
    ),
    (
        Verdict::Refused(Refusal::Ip(IpError::JumboPayloadUnexpected { payload_len: 24 })),
        VerdictKind::Refused, Some(RefusalKind::IpExtensionHeader),
    ),
    (
        Verdict::Refused(Refusal::Ip(IpError::JumboPayloadFragment { offset: 48 })),
        VerdictKind::Refused, Some(RefusalKind::IpExtensionHeader),
    ),
    (Verdict::Refused(Refusal::Transport(Proto::Udp, UDP_LENGTH)), VerdictKind::Refused, Some(RefusalKind::UdpLength)),
    (Verdict::Refused(Refusal::Transport(Proto::Tcp, TCP_LENGTH)), VerdictKind::Refused, Some(RefusalKind::TcpLength)),
    (Verdict::Refused(Refusal::Transport(Proto::Tcp, DATA_OFFSET)), VerdictKind::Refused, Some(RefusalKind::TcpDataOffset)),
    (Verdict::Refused(Refusal::Transport(Proto::Icmpv4, ICMPV4_LENGTH)), VerdictKind::Refused, Some(RefusalKind::Icmpv4Length)),
    (Verdict::Refused(Refusal::Transport(Proto::Icmpv6, ICMPV6_LENGTH)), VerdictKind::Refused, Some(RefusalKind::Icmpv6Length)),
];

/// Stops the test unless the verdict of a row has the kinds of the row.
fn expect_kinds(rt: &impl Abort, row: &VerdictRow) {
    let (verdict, kind, refusal) = row;
    expect_at(rt, row, &VerdictKind::of(verdict), kind);
    expect_at(rt, row, &RefusalKind::of(verdict), refusal);
}

#[test]
fn kinds_of_verdicts(rt: HostRuntime) {
    for row in &VERDICTS {
        expect_kinds(&rt, row);
    }
}

#[test]
fn kinds_of_refusals(rt: HostRuntime) {
    for row in &REFUSALS {
        expect_kinds(&rt, row);
    }
}

/// What a capture states about a link type, the row of the link type, and its name.
type LinkRow = (Option<Result<LinkType, u16>>, LinkKind, &'static str);

#[rattlefmt::skip]
static LINKS: [LinkRow; 23] = [
    (Some(Ok(LinkType::BsdLoopback)), LinkKind::Known(LinkType::BsdLoopback), "BSD loopback"),
    (Some(Ok(LinkType::Ethernet)), LinkKind::Known(LinkType::Ethernet), "Ethernet"),
    (Some(Ok(LinkType::Ppp)), LinkKind::Known(LinkType::Ppp), "PPP"),
    (Some(Ok(LinkType::PppHdlc)), LinkKind::Known(LinkType::PppHdlc), "PPP or Cisco HDLC"),
    (Some(Ok(LinkType::PppOverEthernet)), LinkKind::Known(LinkType::PppOverEthernet), "PPP over Ethernet"),
    (Some(Ok(LinkType::RawIp)), LinkKind::Known(LinkType::RawIp), "raw IP"),
    (Some(Ok(LinkType::CiscoHdlc)), LinkKind::Known(LinkType::CiscoHdlc), "Cisco HDLC"),
    (Some(Ok(LinkType::Ieee80211)), LinkKind::Known(LinkType::Ieee80211), "IEEE 802.11"),
    (Some(Ok(LinkType::FrameRelay)), LinkKind::Known(LinkType::FrameRelay), "Frame Relay"),
    (Some(Ok(LinkType::OpenBsdLoopback)), LinkKind::Known(LinkType::OpenBsdLoopback), "OpenBSD loopback"),
    (Some(Ok(LinkType::LinuxCooked)), LinkKind::Known(LinkType::LinuxCooked), "Linux cooked"),
    (Some(Ok(LinkType::Pflog)), LinkKind::Known(LinkType::Pflog), "PFLOG"),
    (Some(Ok(LinkType::Prism)), LinkKind::Known(LinkType::Prism), "Prism"),
    (Some(Ok(LinkType::Radiotap)), LinkKind::Known(LinkType::Radiotap), "radiotap"),
    (Some(Ok(LinkType::Avs)), LinkKind::Known(LinkType::Avs), "AVS"),
    (Some(Ok(LinkType::Ppi)), LinkKind::Known(LinkType::Ppi), "PPI"),
    (Some(Ok(LinkType::Ipnet)), LinkKind::Known(LinkType::Ipnet), "Solaris ipnet"),
    (Some(Ok(LinkType::Nflog)), LinkKind::Known(LinkType::Nflog), "NFLOG"),
    (Some(Ok(LinkType::InfiniBand)), LinkKind::Known(LinkType::InfiniBand), "IP over InfiniBand"),
    (Some(Ok(LinkType::Pktap)), LinkKind::Known(LinkType::Pktap), "PKTAP"),
    (Some(Ok(LinkType::LinuxCooked2)), LinkKind::Known(LinkType::LinuxCooked2), "Linux cooked version 2"),
    (Some(Err(147)), LinkKind::Other, "another link type"),
    (None, LinkKind::Unknown, "unknown"),
];

/// Stops the test unless the link type of a row is counted in the row with its name.
fn expect_link(rt: &impl Abort, row: &LinkRow) {
    let (link_type, kind, name) = *row;
    expect_at(rt, row, &LinkKind::of(link_type), &kind);
    expect_at(rt, row, &kind.name(), &name);
}

#[test]
fn names_of_link_types(rt: HostRuntime) {
    for row in &LINKS {
        expect_link(&rt, row);
    }
}
