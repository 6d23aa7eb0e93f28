//! Constants and codes under their public names, and calls over several protocols.

use crate::expect::{
    bytes_to, expect_bytes, expect_debug_text, expect_equal, expect_ok, expect_some,
};
use etherparse_transport::checksum::Sum16BitWords;
use etherparse_transport::checksum_change::{
    ChecksumChange, updated_checksum, updated_udp_checksum,
};
use etherparse_transport::err::tcp::{HeaderError, HeaderSliceError};
use etherparse_transport::err::{Layer, LenError, ValueTooBigError, ValueType};
use etherparse_transport::ip::{
    FixedHeader, IpAddresses, IpError, TransportInIp, fixed_header, transport_in_ip,
    transport_in_ip_lax,
};
use etherparse_transport::{
    IcmpEchoHeader, Icmpv4Header, Icmpv4Slice, Icmpv4Type, Icmpv6Header, Icmpv6Slice, Icmpv6Type,
    IpNumber, Ipv4Header, Ipv4HeaderSlice, Ipv6Header, Ipv6HeaderSlice, LenSource, Proto,
    TcpHeader, TcpHeaderSlice, TcpOptionElement, TcpOptionReadError, TcpOptionWriteError,
    TcpOptions, TcpOptionsIterator, TcpRawOption, TcpRawOptionError, TcpRawOptionsIterator,
    UdpHeader, UdpHeaderSlice, UdpSlice, canonical_header, icmpv4, icmpv6, ip_number, tcp_option,
};
use std::process::Abort;

#[rattlefmt::skip]
static PROTOCOL_NUMBERS: [(IpNumber, u8); 14] = [
    (ip_number::IPV6_HEADER_HOP_BY_HOP, 0),
    (ip_number::ICMP, 1),
    (ip_number::TCP, 6),
    (ip_number::UDP, 17),
    (ip_number::IPV6_ROUTE_HEADER, 43),
    (ip_number::IPV6_FRAGMENTATION_HEADER, 44),
    (ip_number::ENCAPSULATING_SECURITY_PAYLOAD, 50),
    (ip_number::AUTHENTICATION_HEADER, 51),
    (ip_number::IPV6_ICMP, 58),
    (ip_number::IPV6_NO_NEXT_HEADER, 59),
    (ip_number::IPV6_DESTINATION_OPTIONS, 60),
    (ip_number::MOBILITY_HEADER, 135),
    (ip_number::HIP, 139),
    (ip_number::SHIM6, 140),
];

#[test]
fn ip_addresses_and_protocol_numbers(rt: HostRuntime) {
    for (protocol, number) in &PROTOCOL_NUMBERS {
        expect_equal(&rt, protocol, &IpNumber(*number));
    }
    let slice = expect_some(&rt, Ipv4HeaderSlice::from_slice(&[0x45; 20]));
    let header = Ipv4Header::from(&slice);
    let none = Ipv4Header::default();
    let read = (slice.source(), slice.destination());
    expect_equal(&rt, &read, &([0x45; 4], [0x45; 4]));
    expect_equal(&rt, &header.source, &[0x45; 4]);
    expect_equal(&rt, &none.source, &[0; 4]);
    expect_equal(&rt, &none.destination, &[0; 4]);
    let slice = expect_some(&rt, Ipv6HeaderSlice::from_slice(&[0x60; 40]));
    let header = Ipv6Header::from(&slice);
    let none = Ipv6Header::default();
    let read = (slice.source(), slice.destination());
    expect_equal(&rt, &read, &([0x60; 16], [0x60; 16]));
    expect_equal(&rt, &header.source, &[0x60; 16]);
    expect_equal(&rt, &none.source, &[0; 16]);
    expect_equal(&rt, &none.destination, &[0; 16]);
}

static PACKET: [u8; 23] = [
    0x45, 0, 0, 22, 0, 0, 0, 0, 64, 17, 0, 0, 1, 2, 3, 4, 5, 6, 7, 8, 9, 10, 11,
];

#[test]
fn ip_packets(rt: HostRuntime) {
    let transport = TransportInIp {
        addresses: IpAddresses::Ipv4 {
            source: &[1, 2, 3, 4],
            destination: &[5, 6, 7, 8],
        },
        protocol: ip_number::UDP,
        payload: &[9, 10],
        payload_offset: 20,
        is_fragment: false,
        is_later_fragment: false,
        is_cut_off: false,
        is_length_missing: false,
        fixed_header: FixedHeader::Ipv4 {
            source: &[1, 2, 3, 4],
            destination: &[5, 6, 7, 8],
            time_to_live: 64,
            protocol: ip_number::UDP,
        },
        header_len: 20,
        counted_len: 22,
    };
    expect_equal(&rt, &fixed_header(&PACKET), &Some(transport.fixed_header));
    let cut_off = IpError::PacketCutOff {
        required_len: 22,
        len: 21,
    };
    let is_cut_off = TransportInIp {
        payload: &[9],
        is_cut_off: true,
        ..transport
    };
    expect_read(&rt, &PACKET, &Ok(transport), &transport);
    expect_read(&rt, bytes_to(&rt, &PACKET, 21), &Err(cut_off), &is_cut_off);
}

/// The strict call and the lax one return these.
fn expect_read(
    rt: &impl Abort,
    packet: &[u8],
    strict: &Result<TransportInIp<'_>, IpError>,
    lax: &TransportInIp<'_>,
) {
    expect_equal(rt, &transport_in_ip(packet), strict);
    expect_equal(rt, &expect_ok(rt, transport_in_ip_lax(packet)), lax);
}

#[test]
fn received_checksums(rt: HostRuntime) {
    let bytes = expect_ok(&rt, UdpHeader::without_ipv4_checksum(0, 0, 0)).to_bytes();
    let udp = expect_ok(&rt, UdpSlice::from_slice(&bytes));
    let bytes = TcpHeader::default().to_bytes();
    let tcp = expect_ok(&rt, TcpHeaderSlice::from_slice(&bytes));
    let icmpv4 = expect_ok(
        &rt,
        Icmpv4Slice::from_slice(&[8, 0, 0xF7, 0xFF, 0, 0, 0, 0]),
    );
    let icmpv6 = expect_ok(
        &rt,
        Icmpv6Slice::from_slice(&[0x80, 0, 0x7F, 0xBD, 0, 0, 0, 0]),
    );
    let are_valid = [
        udp.is_checksum_valid_ipv4([0; 4], [0; 4]),
        udp.is_checksum_valid_ipv6([0; 16], [0; 16]),
        tcp.is_checksum_valid_ipv4([0; 4], [0; 4], &[]),
        tcp.is_checksum_valid_ipv6([0; 16], [0; 16], &[]),
        icmpv4.is_checksum_valid(),
        icmpv6.is_checksum_valid([0; 16], [0; 16]),
    ];
    expect_equal(&rt, &are_valid, &[true, false, false, false, true, true]);
}

#[test]
fn sums(rt: HostRuntime) {
    let sum = Sum16BitWords::new()
        .add_2bytes([0, 1])
        .add_4bytes([0, 1, 0, 1])
        .add_16bytes([0, 1, 0, 1, 0, 1, 0, 1, 0, 1, 0, 1, 0, 1, 0, 1])
        .add_slice(&[0, 1, 1]);
    expect_equal(&rt, &sum.ones_complement(), &0xFEF3);
    expect_equal(&rt, &sum.to_ones_complement_with_no_zero(), &0xFEF3);
}

#[test]
fn checksum_changes(rt: HostRuntime) {
    let (old, new) = ([1; 16], [2; 16]);
    let change = ChecksumChange::new()
        .replace_2bytes([1; 2], [2; 2])
        .replace_4bytes([1; 4], [2; 4])
        .replace_16bytes(old, new)
        .replace_slice(&old, &new);
    let back = change.reversed();
    let checksums = [
        change.apply(0xFFFE),
        change.apply_udp(0xFFFE),
        back.apply(0xECEB),
        change.and(back).apply(0x1234),
        updated_checksum(0xFFFE, &old, &new),
        updated_udp_checksum(0xFFFE, &old, &new),
    ];
    let expected = [0xECEB, 0xECEB, 0xFFFE, 0x1234, 0xF7F6, 0xF7F6];
    expect_equal(&rt, &checksums, &expected);
}

/// A UDP header without a payload and without a checksum.
fn udp_header(rt: &impl Abort, source_port: u16, destination_port: u16) -> UdpHeader {
    expect_ok(
        rt,
        UdpHeader::without_ipv4_checksum(source_port, destination_port, 0),
    )
}

#[test]
fn translations(rt: HostRuntime) {
    let mut udp = udp_header(&rt, 1, 2);
    udp.translate_source_ipv4([0; 4], [1; 4], 3);
    udp.translate_destination_ipv4([0; 4], [1; 4], 4);
    expect_equal(&rt, &udp, &udp_header(&rt, 3, 4));
    udp.translate_source_ipv6([0; 16], [1; 16], 5);
    udp.translate_destination_ipv6([0; 16], [1; 16], 6);
    expect_equal(&rt, &udp, &udp_header(&rt, 5, 6));
    let mut tcp = TcpHeader::new(1, 2, 0, 0);
    tcp.translate_source_ipv4([0; 4], [0; 4], 3);
    tcp.translate_destination_ipv4([0; 4], [0; 4], 4);
    expect_equal(&rt, &(tcp.source_port, tcp.destination_port), &(3, 4));
    tcp.translate_source_ipv6([0; 16], [0; 16], 5);
    tcp.translate_destination_ipv6([0; 16], [0; 16], 6);
    expect_equal(&rt, &(tcp.source_port, tcp.destination_port), &(5, 6));
    let echo = IcmpEchoHeader { id: 1, seq: 2 };
    let translated = IcmpEchoHeader { id: 3, seq: 2 };
    let mut icmpv4 = Icmpv4Header::new(Icmpv4Type::EchoRequest(echo));
    let mut icmpv6 = Icmpv6Header::new(Icmpv6Type::EchoRequest(echo));
    let replaced = (icmpv4.translate_echo_id(3), icmpv6.translate_echo_id(3));
    expect_equal(&rt, &replaced, &(Some(1), Some(1)));
    icmpv6.translate_address([0; 16], [0; 16]);
    expect_equal(&rt, &icmpv6.icmp_type, &Icmpv6Type::EchoRequest(translated));
}

#[test]
fn udp_checksums(rt: HostRuntime) {
    let over_ipv4 = Ipv4Header::default();
    let over_ipv6 = Ipv6Header::default();
    let header = udp_header(&rt, 0, 0);
    let expected = UdpHeader {
        length: 8,
        ..UdpHeader::default()
    };
    expect_equal(&rt, &header, &expected);
    let with_ipv4 = expect_ok(&rt, UdpHeader::with_ipv4_checksum(0, 0, &over_ipv4, &[]));
    let with_ipv6 = expect_ok(&rt, UdpHeader::with_ipv6_checksum(0, 0, &over_ipv6, &[]));
    expect_sum(&rt, Ok(with_ipv4.checksum));
    expect_sum(&rt, Ok(with_ipv6.checksum));
    expect_sum(&rt, header.calc_checksum_ipv4(&over_ipv4, &[]));
    expect_sum(&rt, header.calc_checksum_ipv4_raw([0; 4], [0; 4], &[]));
    expect_sum(&rt, header.calc_checksum_ipv6(&over_ipv6, &[]));
    expect_sum(&rt, header.calc_checksum_ipv6_raw([0; 16], [0; 16], &[]));
}

/// The checksum of a header of zeros with length 8.
fn expect_sum(rt: &impl Abort, sum: Result<u16, ValueTooBigError<usize>>) {
    expect_equal(rt, &sum, &Ok(0xFFDE));
}

#[test]
fn tcp_raw_options(rt: HostRuntime) {
    let mut header = TcpHeader::default();
    expect_ok(&rt, header.set_options_raw(&[34, 3, 7, 1, 30, 1]));
    let bytes = header.to_bytes();
    let slice = expect_ok(&rt, TcpHeaderSlice::from_slice(&bytes));
    let mut options = header.raw_options_iterator();
    expect_equal(&rt, &slice.raw_options_iterator(), &options);
    let option = TcpRawOption {
        kind: 34,
        value: &[7],
    };
    expect_equal(&rt, &options.next(), &Some(Ok(option)));
    expect_bytes(&rt, options.rest(), &[1, 30, 1, 0, 0]);
    let mut options = TcpRawOptionsIterator::from_slice(&[30, 1]);
    let fault = TcpRawOptionError::LengthBelowTwo { kind: 30, len: 1 };
    expect_equal(&rt, &options.next(), &Some(Err(fault)));
}

#[test]
fn tcp_options_of_arrays(rt: HostRuntime) {
    expect_options_len(&rt, &TcpOptions::from([1; 4]), 4);
    expect_options_len(&rt, &TcpOptions::from([1; 8]), 8);
    expect_options_len(&rt, &TcpOptions::from([1; 12]), 12);
    expect_options_len(&rt, &TcpOptions::from([1; 16]), 16);
    expect_options_len(&rt, &TcpOptions::from([1; 20]), 20);
    expect_options_len(&rt, &TcpOptions::from([1; 24]), 24);
    expect_options_len(&rt, &TcpOptions::from([1; 28]), 28);
    expect_options_len(&rt, &TcpOptions::from([1; 32]), 32);
    expect_options_len(&rt, &TcpOptions::from([1; 36]), 36);
    expect_options_len(&rt, &TcpOptions::from([1; 40]), 40);
}

/// The options have this length.
fn expect_options_len(rt: &impl Abort, options: &TcpOptions, len: usize) {
    expect_equal(rt, &options.len(), &len);
}

#[rattlefmt::skip]
static TCP_CONSTANTS: [(u8, u8); 24] = [
    (etherparse_transport::TCP_MINIMUM_DATA_OFFSET, 5),
    (etherparse_transport::TCP_MAXIMUM_DATA_OFFSET, 15),
    (TcpHeader::MIN_DATA_OFFSET, 5),
    (TcpHeader::MAX_DATA_OFFSET, 15),
    (etherparse_transport::TCP_OPTION_ID_END, 0),
    (etherparse_transport::TCP_OPTION_ID_NOP, 1),
    (etherparse_transport::TCP_OPTION_ID_MAXIMUM_SEGMENT_SIZE, 2),
    (etherparse_transport::TCP_OPTION_ID_WINDOW_SCALE, 3),
    (etherparse_transport::TCP_OPTION_ID_SELECTIVE_ACK_PERMITTED, 4),
    (etherparse_transport::TCP_OPTION_ID_SELECTIVE_ACK, 5),
    (etherparse_transport::TCP_OPTION_ID_TIMESTAMP, 8),
    (tcp_option::KIND_END, 0),
    (tcp_option::KIND_NOOP, 1),
    (tcp_option::KIND_MAXIMUM_SEGMENT_SIZE, 2),
    (tcp_option::KIND_WINDOW_SCALE, 3),
    (tcp_option::KIND_SELECTIVE_ACK_PERMITTED, 4),
    (tcp_option::KIND_SELECTIVE_ACK, 5),
    (tcp_option::KIND_TIMESTAMP, 8),
    (tcp_option::LEN_END, 1),
    (tcp_option::LEN_NOOP, 1),
    (tcp_option::LEN_MAXIMUM_SEGMENT_SIZE, 4),
    (tcp_option::LEN_WINDOW_SCALE, 3),
    (tcp_option::LEN_SELECTIVE_ACK_PERMITTED, 2),
    (tcp_option::LEN_TIMESTAMP, 10),
];

#[test]
fn tcp_constants(rt: HostRuntime) {
    let lengths = [
        etherparse_transport::TCP_MINIMUM_HEADER_SIZE,
        TcpHeader::MIN_LEN,
        TcpHeader::MAX_LEN,
    ];
    expect_equal(&rt, &lengths, &[20, 20, 60]);
    let places = [
        TcpHeader::SOURCE_PORT_AT,
        TcpHeader::DESTINATION_PORT_AT,
        TcpHeader::CHECKSUM_AT,
    ];
    expect_equal(&rt, &places, &[0, 2, 16]);
    for (constant, value) in &TCP_CONSTANTS {
        expect_equal(&rt, constant, value);
    }
}

#[rattlefmt::skip]
static ICMPV4_UNREACHABLE: [(u8, icmpv4::DestUnreachableHeader); 16] = [
    (0, icmpv4::DestUnreachableHeader::Network),
    (1, icmpv4::DestUnreachableHeader::Host),
    (2, icmpv4::DestUnreachableHeader::Protocol),
    (3, icmpv4::DestUnreachableHeader::Port),
    (4, icmpv4::DestUnreachableHeader::FragmentationNeeded { next_hop_mtu: 1500 }),
    (5, icmpv4::DestUnreachableHeader::SourceRouteFailed),
    (6, icmpv4::DestUnreachableHeader::NetworkUnknown),
    (7, icmpv4::DestUnreachableHeader::HostUnknown),
    (8, icmpv4::DestUnreachableHeader::Isolated),
    (9, icmpv4::DestUnreachableHeader::NetworkProhibited),
    (10, icmpv4::DestUnreachableHeader::HostProhibited),
    (11, icmpv4::DestUnreachableHeader::TosNetwork),
    (12, icmpv4::DestUnreachableHeader::TosHost),
    (13, icmpv4::DestUnreachableHeader::FilterProhibited),
    (14, icmpv4::DestUnreachableHeader::HostPrecedenceViolation),
    (15, icmpv4::DestUnreachableHeader::PrecedenceCutoff),
];

#[rattlefmt::skip]
static ICMPV4_PARAMETER_PROBLEMS: [(u8, icmpv4::ParameterProblemHeader); 3] = [
    (0, icmpv4::ParameterProblemHeader::PointerIndicatesError(7)),
    (1, icmpv4::ParameterProblemHeader::MissingRequiredOption),
    (2, icmpv4::ParameterProblemHeader::BadLength),
];

#[rattlefmt::skip]
static ICMPV4_REDIRECTS: [(u8, icmpv4::RedirectCode); 4] = [
    (0, icmpv4::RedirectCode::RedirectForNetwork),
    (1, icmpv4::RedirectCode::RedirectForHost),
    (2, icmpv4::RedirectCode::RedirectForTypeOfServiceAndNetwork),
    (3, icmpv4::RedirectCode::RedirectForTypeOfServiceAndHost),
];

#[rattlefmt::skip]
static ICMPV4_TIME_EXCEEDED: [(u8, icmpv4::TimeExceededCode); 2] = [
    (0, icmpv4::TimeExceededCode::TtlExceededInTransit),
    (1, icmpv4::TimeExceededCode::FragmentReassemblyTimeExceeded),
];

#[test]
fn icmpv4_codes(rt: HostRuntime) {
    for (code_u8, expected) in &ICMPV4_UNREACHABLE {
        let header = icmpv4::DestUnreachableHeader::from_values(*code_u8, 1500);
        expect_equal(&rt, &expect_some(&rt, header), expected);
    }
    for (code_u8, expected) in &ICMPV4_PARAMETER_PROBLEMS {
        let header = icmpv4::ParameterProblemHeader::from_values(*code_u8, 7);
        expect_equal(&rt, &expect_some(&rt, header), expected);
    }
    for (code_u8, expected) in &ICMPV4_REDIRECTS {
        let code = icmpv4::RedirectCode::from_u8(*code_u8);
        expect_equal(&rt, &expect_some(&rt, code), expected);
    }
    for (code_u8, expected) in &ICMPV4_TIME_EXCEEDED {
        let code = icmpv4::TimeExceededCode::from_u8(*code_u8);
        expect_equal(&rt, &expect_some(&rt, code), expected);
    }
    let bytes = [0, 1, 0, 2, 0, 0, 0, 3, 0, 0, 0, 4, 0, 0, 0, 5];
    let expected = icmpv4::TimestampMessage {
        id: 1,
        seq: 2,
        originate_timestamp: 3,
        receive_timestamp: 4,
        transmit_timestamp: 5,
    };
    expect_equal(&rt, &icmpv4::TimestampMessage::from_bytes(bytes), &expected);
}

#[rattlefmt::skip]
static ICMPV6_UNREACHABLE: [(u8, icmpv6::DestUnreachableCode); 7] = [
    (0, icmpv6::DestUnreachableCode::NoRoute),
    (1, icmpv6::DestUnreachableCode::Prohibited),
    (2, icmpv6::DestUnreachableCode::BeyondScope),
    (3, icmpv6::DestUnreachableCode::Address),
    (4, icmpv6::DestUnreachableCode::Port),
    (5, icmpv6::DestUnreachableCode::SourceAddressFailedPolicy),
    (6, icmpv6::DestUnreachableCode::RejectRoute),
];

#[rattlefmt::skip]
static ICMPV6_TIME_EXCEEDED: [(u8, icmpv6::TimeExceededCode); 2] = [
    (0, icmpv6::TimeExceededCode::HopLimitExceeded),
    (1, icmpv6::TimeExceededCode::FragmentReassemblyTimeExceeded),
];

#[rattlefmt::skip]
static ICMPV6_PARAMETER_PROBLEMS: [(u8, icmpv6::ParameterProblemCode); 11] = [
    (0, icmpv6::ParameterProblemCode::ErroneousHeaderField),
    (1, icmpv6::ParameterProblemCode::UnrecognizedNextHeader),
    (2, icmpv6::ParameterProblemCode::UnrecognizedIpv6Option),
    (3, icmpv6::ParameterProblemCode::Ipv6FirstFragmentIncompleteHeaderChain),
    (4, icmpv6::ParameterProblemCode::SrUpperLayerHeaderError),
    (5, icmpv6::ParameterProblemCode::UnrecognizedNextHeaderByIntermediateNode),
    (6, icmpv6::ParameterProblemCode::ExtensionHeaderTooBig),
    (7, icmpv6::ParameterProblemCode::ExtensionHeaderChainTooLong),
    (8, icmpv6::ParameterProblemCode::TooManyExtensionHeaders),
    (9, icmpv6::ParameterProblemCode::TooManyOptionsInExtensionHeader),
    (10, icmpv6::ParameterProblemCode::OptionTooBig),
];

#[test]
fn icmpv6_codes(rt: HostRuntime) {
    for (code_u8, expected) in &ICMPV6_UNREACHABLE {
        let code = icmpv6::DestUnreachableCode::from_u8(*code_u8);
        expect_equal(&rt, &expect_some(&rt, code), expected);
    }
    for (code_u8, expected) in &ICMPV6_TIME_EXCEEDED {
        let code = icmpv6::TimeExceededCode::from_u8(*code_u8);
        expect_equal(&rt, &expect_some(&rt, code), expected);
    }
    for (code_u8, expected) in &ICMPV6_PARAMETER_PROBLEMS {
        let code = icmpv6::ParameterProblemCode::from_u8(*code_u8);
        expect_equal(&rt, &expect_some(&rt, code), expected);
    }
}

#[rattlefmt::skip]
static ICMPV4_CONSTANTS: [(u8, u8); 41] = [
    (icmpv4::TYPE_ECHO_REPLY, 0),
    (icmpv4::TYPE_DEST_UNREACH, 3),
    (icmpv4::TYPE_SOURCE_QUENCH, 4),
    (icmpv4::TYPE_REDIRECT, 5),
    (icmpv4::TYPE_ALTERNATE_HOST_ADDRESS, 6),
    (icmpv4::TYPE_ECHO_REQUEST, 8),
    (icmpv4::TYPE_ROUTER_ADVERTISEMENT, 9),
    (icmpv4::TYPE_ROUTER_SOLICITATION, 10),
    (icmpv4::TYPE_TIME_EXCEEDED, 11),
    (icmpv4::TYPE_PARAMETER_PROBLEM, 12),
    (icmpv4::TYPE_TIMESTAMP, 13),
    (icmpv4::TYPE_TIMESTAMP_REPLY, 14),
    (icmpv4::TYPE_INFO_REQUEST, 15),
    (icmpv4::TYPE_INFO_REPLY, 16),
    (icmpv4::TYPE_ADDRESS, 17),
    (icmpv4::TYPE_ADDRESSREPLY, 18),
    (icmpv4::CODE_DST_UNREACH_NET, 0),
    (icmpv4::CODE_DST_UNREACH_HOST, 1),
    (icmpv4::CODE_DST_UNREACH_PROTOCOL, 2),
    (icmpv4::CODE_DST_UNREACH_PORT, 3),
    (icmpv4::CODE_DST_UNREACH_NEED_FRAG, 4),
    (icmpv4::CODE_DST_UNREACH_SOURCE_ROUTE_FAILED, 5),
    (icmpv4::CODE_DST_UNREACH_NET_UNKNOWN, 6),
    (icmpv4::CODE_DST_UNREACH_HOST_UNKNOWN, 7),
    (icmpv4::CODE_DST_UNREACH_ISOLATED, 8),
    (icmpv4::CODE_DST_UNREACH_NET_PROHIB, 9),
    (icmpv4::CODE_DST_UNREACH_HOST_PROHIB, 10),
    (icmpv4::CODE_DST_UNREACH_TOS_NET, 11),
    (icmpv4::CODE_DST_UNREACH_TOS_HOST, 12),
    (icmpv4::CODE_DST_UNREACH_FILTER_PROHIB, 13),
    (icmpv4::CODE_DST_UNREACH_HOST_PRECEDENCE_VIOLATION, 14),
    (icmpv4::CODE_DST_UNREACH_PRECEDENCE_CUTOFF, 15),
    (icmpv4::CODE_REDIRECT_FOR_NETWORK, 0),
    (icmpv4::CODE_REDIRECT_FOR_HOST, 1),
    (icmpv4::CODE_REDIRECT_TYPE_OF_SERVICE_AND_NETWORK, 2),
    (icmpv4::CODE_REDIRECT_TYPE_OF_SERVICE_AND_HOST, 3),
    (icmpv4::CODE_TIME_EXCEEDED_TTL_EXCEEDED_IN_TRANSIT, 0),
    (icmpv4::CODE_TIME_EXCEEDED_FRAG_REASSEMBLY_TIME_EXCEEDED, 1),
    (icmpv4::CODE_PARAMETER_PROBLEM_POINTER_INDICATES_ERROR, 0),
    (icmpv4::CODE_PARAMETER_PROBLEM_MISSING_REQUIRED_OPTION, 1),
    (icmpv4::CODE_PARAMETER_PROBLEM_BAD_LENGTH, 2),
];

#[test]
fn icmpv4_constants(rt: HostRuntime) {
    for (constant, value) in &ICMPV4_CONSTANTS {
        expect_equal(&rt, constant, value);
    }
}

#[rattlefmt::skip]
static ICMPV6_CONSTANTS: [(u8, u8); 44] = [
    (icmpv6::TYPE_DST_UNREACH, 1),
    (icmpv6::TYPE_PACKET_TOO_BIG, 2),
    (icmpv6::TYPE_TIME_EXCEEDED, 3),
    (icmpv6::TYPE_PARAMETER_PROBLEM, 4),
    (icmpv6::TYPE_ECHO_REQUEST, 128),
    (icmpv6::TYPE_ECHO_REPLY, 129),
    (icmpv6::TYPE_MULTICAST_LISTENER_QUERY, 130),
    (icmpv6::TYPE_MULTICAST_LISTENER_REPORT, 131),
    (icmpv6::TYPE_MULTICAST_LISTENER_REDUCTION, 132),
    (icmpv6::TYPE_ROUTER_SOLICITATION, 133),
    (icmpv6::TYPE_ROUTER_ADVERTISEMENT, 134),
    (icmpv6::TYPE_NEIGHBOR_SOLICITATION, 135),
    (icmpv6::TYPE_NEIGHBOR_ADVERTISEMENT, 136),
    (icmpv6::TYPE_REDIRECT_MESSAGE, 137),
    (icmpv6::TYPE_ROUTER_RENUMBERING, 138),
    (icmpv6::TYPE_INVERSE_NEIGHBOR_DISCOVERY_SOLICITATION, 141),
    (icmpv6::TYPE_INVERSE_NEIGHBOR_DISCOVERY_ADVERTISEMENT, 142),
    (icmpv6::TYPE_EXT_ECHO_REQUEST, 160),
    (icmpv6::TYPE_EXT_ECHO_REPLY, 161),
    (icmpv6::CODE_DST_UNREACH_NO_ROUTE, 0),
    (icmpv6::CODE_DST_UNREACH_PROHIBITED, 1),
    (icmpv6::CODE_DST_UNREACH_BEYOND_SCOPE, 2),
    (icmpv6::CODE_DST_UNREACH_ADDR, 3),
    (icmpv6::CODE_DST_UNREACH_PORT, 4),
    (icmpv6::CODE_DST_UNREACH_SOURCE_ADDRESS_FAILED_POLICY, 5),
    (icmpv6::CODE_DST_UNREACH_REJECT_ROUTE_TO_DEST, 6),
    (icmpv6::CODE_TIME_EXCEEDED_HOP_LIMIT_EXCEEDED, 0),
    (icmpv6::CODE_TIME_EXCEEDED_FRAGMENT_REASSEMBLY_TIME_EXCEEDED, 1),
    (icmpv6::CODE_PARAM_PROBLEM_ERR_HEADER_FIELD, 0),
    (icmpv6::CODE_PARAM_PROBLEM_UNRECOG_NEXT_HEADER, 1),
    (icmpv6::CODE_PARAM_PROBLEM_UNRECOG_IPV6_OPTION, 2),
    (icmpv6::CODE_PARAM_PROBLEM_IPV6_FIRST_FRAG_INCOMP_HEADER_CHAIN, 3),
    (icmpv6::CODE_PARAM_PROBLEM_SR_UPPER_LAYER_HEADER_ERROR, 4),
    (icmpv6::CODE_PARAM_PROBLEM_UNRECOG_NEXT_HEADER_BY_INTERMEDIATE_NODE, 5),
    (icmpv6::CODE_PARAM_PROBLEM_EXT_HEADER_TOO_BIG, 6),
    (icmpv6::CODE_PARAM_PROBLEM_EXT_HEADER_CHAIN_TOO_LONG, 7),
    (icmpv6::CODE_PARAM_PROBLEM_TOO_MANY_EXT_HEADERS, 8),
    (icmpv6::CODE_PARAM_PROBLEM_TOO_MANY_OPTIONS_EXT_HEADER, 9),
    (icmpv6::CODE_PARAM_PROBLEM_OPTION_TOO_BIG, 10),
    (icmpv6::NeighborAdvertisementHeader::ROUTER_MASK, 0x80),
    (icmpv6::NeighborAdvertisementHeader::SOLICITED_MASK, 0x40),
    (icmpv6::NeighborAdvertisementHeader::OVERRIDE_MASK, 0x20),
    (icmpv6::RouterAdvertisementHeader::MANAGED_ADDRESS_CONFIG_MASK, 0x80),
    (icmpv6::RouterAdvertisementHeader::OTHER_CONFIG_MASK, 0x40),
];

#[test]
fn icmpv6_constants(rt: HostRuntime) {
    for (constant, value) in &ICMPV6_CONSTANTS {
        expect_equal(&rt, constant, value);
    }
    expect_equal(&rt, &icmpv6::MAX_ICMPV6_BYTE_LEN, &4_294_967_295);
}

#[rattlefmt::skip]
static PROTOCOLS: [(Proto, &[u8], usize, &str); 4] = [
    (Proto::Udp, &[1; 9], 8, "Udp"),
    (Proto::Tcp, &[0x50; 21], 20, "Tcp"),
    (Proto::Icmpv4, &[8, 0, 0, 0, 0, 0, 0, 0, 1], 8, "Icmpv4"),
    (Proto::Icmpv6, &[8, 0, 0, 0, 0, 0, 0, 0, 1], 8, "Icmpv6"),
];

#[test]
fn protocols(rt: HostRuntime) {
    for (protocol, packet, header_len, name) in &PROTOCOLS {
        expect_lengths(&rt, *protocol, packet, *header_len);
        expect_debug_text(&rt, protocol, name);
    }
}

/// The canonical header has this length, and one byte is after it.
fn expect_lengths(rt: &impl Abort, protocol: Proto, packet: &[u8], header_len: usize) {
    let (header, rest) = expect_ok(rt, canonical_header(protocol, packet));
    expect_equal(rt, &(header.len(), rest.len()), &(header_len, 1));
}
