//! Clones a value of each public type. The result is Ok and the same value. The modules `laws` prove this for every value.

use crate::expect::{expect_clone, expect_equal, expect_ok, expect_some};
use etherparse_transport::checksum::Sum16BitWords;
use etherparse_transport::checksum_change::ChecksumChange;
use etherparse_transport::err::packet::{
    AnswerEchoError, BuildSliceWriteError, LowerHopLimitError, LowerMaximumSegmentSizeError,
    TranslateError, TransportChecksumError, WriteChecksumError,
};
use etherparse_transport::err::tcp::{HeaderError, HeaderSliceError};
use etherparse_transport::err::{Layer, LenError, TextPart, ValueTooBigError, ValueType};
use etherparse_transport::ip::{IpError, Ipv4Translation, Ipv6Translation, flow, transport_in_ip};
use etherparse_transport::{
    ChecksumVerdict, IcmpEchoHeader, Icmpv4Header, Icmpv4Slice, Icmpv4Type, Icmpv6Header,
    Icmpv6Slice, Icmpv6Type, IpNumber, Ipv4Header, Ipv4HeaderSlice, Ipv6Header, Ipv6HeaderSlice,
    LenSource, Proto, TcpHeaderSlice, TcpOptionElement, TcpOptionReadError, TcpOptionWriteError,
    TcpOptions, TcpRawOption, TcpRawOptionError, TcpRawOptionsIterator, TcpSlice, TransportHeader,
    TransportSlice, UdpHeaderSlice, UdpSlice, Untested, icmpv4, icmpv6,
};

/// A UDP packet over IPv4, from port 53 to port 1234, with length 8.
static IPV4_PACKET: [u8; 28] = [
    0x45, 0, 0, 28, 0, 0, 0, 0, 64, 17, 0, 0, 192, 0, 2, 1, 192, 0, 2, 2, 0, 53, 4, 210, 0, 8, 0, 0,
];

/// A TCP header with a window scale option and a no-operation option.
static SEGMENT: [u8; 24] = [
    0, 80, 4, 210, 0, 0, 0, 1, 0, 0, 0, 2, 0x60, 0x12, 1, 0, 0, 0, 0, 0, 3, 3, 7, 1,
];

#[test]
fn errors_are_cloned(rt: HostRuntime) {
    let len_error = LenError {
        required_len: 8,
        len: 7,
        len_source: LenSource::Slice,
        layer: Layer::UdpHeader,
        layer_start_offset: 20,
    };
    let too_big = ValueTooBigError {
        actual: 65_536usize,
        max_allowed: 65_535,
        value_type: ValueType::UdpPayloadLengthIpv4,
    };
    let offset = HeaderError::DataOffsetTooSmall { data_offset: 4 };
    expect_clone(&rt, &Layer::Icmpv6);
    expect_clone(&rt, &LenSource::UdpHeaderLen);
    expect_clone(&rt, &ValueType::Icmpv6PayloadLength);
    expect_clone(&rt, &offset);
    expect_clone(&rt, &HeaderSliceError::Content(offset));
    expect_clone(&rt, &HeaderSliceError::Len(len_error));
    expect_clone(&rt, &TransportChecksumError::PayloadLen(too_big));
    expect_clone(&rt, &BuildSliceWriteError::Icmpv4InIpv6);
    expect_clone(&rt, &AnswerEchoError::NoEchoRequest);
    expect_clone(&rt, &LowerHopLimitError::Expired { hop_limit: 1 });
    expect_clone(&rt, &LowerMaximumSegmentSizeError::NoSyn);
    expect_clone(&rt, &TranslateError::Protocol(IpNumber(47)));
    expect_clone(&rt, &WriteChecksumError::Untested(Untested::Fragment));
    expect_clone(&rt, &TcpOptionReadError::UnknownId(34));
    expect_clone(&rt, &TcpOptionWriteError::NotEnoughSpace(41));
    expect_clone(&rt, &TcpRawOptionError::NoLengthByte { kind: 34 });
    expect_clone(&rt, &IpError::JumboPayloadMissing);
    expect_clone(&rt, &IpError::Version { version: 5 }.text());
    expect_clone(&rt, &TextPart::Number(5));
}

#[test]
fn headers_and_slices_are_cloned(rt: HostRuntime) {
    let (_, packet) = IPV4_PACKET.split_at(20);
    let udp = expect_ok(&rt, UdpSlice::from_slice(packet));
    let tcp = expect_ok(&rt, TcpSlice::from_slice(&SEGMENT));
    let ipv4 = expect_some(&rt, Ipv4HeaderSlice::from_slice(&IPV4_PACKET));
    let ipv6 = expect_some(&rt, Ipv6HeaderSlice::from_slice(&[0x60; 40]));
    expect_clone(&rt, &udp);
    expect_clone(&rt, &expect_ok(&rt, UdpHeaderSlice::from_slice(packet)));
    expect_clone(&rt, &udp.to_header());
    expect_clone(&rt, &tcp);
    expect_clone(&rt, &expect_ok(&rt, TcpHeaderSlice::from_slice(&SEGMENT)));
    expect_clone(&rt, &tcp.to_header());
    expect_clone(&rt, &expect_ok(&rt, Icmpv4Slice::from_slice(&[8; 8])));
    expect_clone(&rt, &expect_ok(&rt, Icmpv6Slice::from_slice(&[128; 8])));
    expect_clone(&rt, &Ipv4Header::from(&ipv4));
    expect_clone(&rt, &Ipv6Header::from(&ipv6));
    expect_clone(&rt, &ipv4);
    expect_clone(&rt, &ipv6);
    expect_clone(&rt, &IpNumber(135));
    expect_clone(&rt, &TransportSlice::Udp(udp));
    expect_clone(&rt, &TransportHeader::Tcp(tcp.to_header()));
}

#[test]
fn options_are_cloned(rt: HostRuntime) {
    let options = TcpOptions::from([3, 3, 7, 1]);
    expect_clone(&rt, &TcpOptionElement::WindowScale(7));
    expect_clone(&rt, &options.elements_iter());
    expect_clone(
        &rt,
        &TcpRawOption {
            kind: 34,
            value: &[1, 2],
        },
    );
    expect_clone(&rt, &TcpRawOptionsIterator::from_slice(&[34, 2]));
    expect_clone(&rt, &options);
}

#[test]
fn messages_are_cloned(rt: HostRuntime) {
    let redirect = icmpv4::RedirectHeader {
        code: icmpv4::RedirectCode::RedirectForHost,
        gateway_internet_address: [192, 0, 2, 1],
    };
    let timestamp = icmpv4::TimestampMessage {
        id: 1,
        seq: 2,
        originate_timestamp: 3,
        receive_timestamp: 4,
        transmit_timestamp: 5,
    };
    let problem = icmpv6::ParameterProblemHeader {
        code: icmpv6::ParameterProblemCode::OptionTooBig,
        pointer: 40,
    };
    expect_clone(&rt, &IcmpEchoHeader { id: 1, seq: 2 });
    expect_clone(
        &rt,
        &icmpv4::DestUnreachableHeader::FragmentationNeeded { next_hop_mtu: 1280 },
    );
    expect_clone(
        &rt,
        &icmpv4::ParameterProblemHeader::PointerIndicatesError(8),
    );
    expect_clone(&rt, &redirect.code);
    expect_clone(&rt, &redirect);
    expect_clone(
        &rt,
        &icmpv4::TimeExceededCode::FragmentReassemblyTimeExceeded,
    );
    expect_clone(
        &rt,
        &Icmpv4Header::new(Icmpv4Type::TimestampReply(expect_ok(&rt, timestamp.clone()))),
    );
    expect_clone(
        &rt,
        &Icmpv4Type::TimestampRequest(expect_ok(&rt, timestamp.clone())),
    );
    expect_clone(&rt, &timestamp);
    expect_clone(&rt, &icmpv6::DestUnreachableCode::Port);
    expect_clone(&rt, &problem.code);
    expect_clone(&rt, &icmpv6::TimeExceededCode::HopLimitExceeded);
    expect_clone(
        &rt,
        &icmpv6::RouterAdvertisementHeader::from_bytes([64, 0xC0, 7, 8]),
    );
    expect_clone(
        &rt,
        &icmpv6::NeighborAdvertisementHeader::from_bytes([0xE0, 0, 0, 0]),
    );
    expect_clone(
        &rt,
        &Icmpv6Header::new(Icmpv6Type::PacketTooBig { mtu: 1280 }),
    );
    expect_clone(&rt, &Icmpv6Type::ParameterProblem(problem));
}

#[test]
fn packets_and_sums_are_cloned(rt: HostRuntime) {
    let found = expect_ok(&rt, transport_in_ip(&IPV4_PACKET));
    expect_clone(&rt, &found.addresses);
    expect_clone(&rt, &found);
    expect_clone(&rt, &Proto::Icmpv6);
    expect_clone(&rt, &ChecksumVerdict::Untested(Untested::CutOff));
    expect_clone(&rt, &Untested::Fragment);
    expect_clone(&rt, &Ipv4Translation::default());
    expect_clone(&rt, &expect_ok(&rt, flow(&IPV4_PACKET)));
    expect_clone(&rt, &Ipv6Translation::default());
    let sum = Sum16BitWords::new().add_2bytes([1, 2]);
    let change = ChecksumChange::new().replace_2bytes([1, 2], [3, 4]);
    expect_equal(&rt, &expect_ok(&rt, sum.clone()).ones_complement(), &0xFEFD);
    expect_clone(&rt, &change);
    expect_equal(&rt, &change.apply(0xFEFD), &0xFCFB);
}
