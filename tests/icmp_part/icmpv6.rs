use crate::expect::{
    are_same, bytes_to, expect_bytes, expect_clone, expect_debug_text, expect_equal, expect_ok,
    expect_some,
};
use etherparse_transport::err::{Layer, LenError};
use etherparse_transport::icmpv6::*;
use etherparse_transport::{IcmpEchoHeader, Icmpv6Header, Icmpv6Slice, Icmpv6Type, LenSource};
use std::collections::hash_map::DefaultHasher;
use std::fmt::Debug;
use std::hash::{Hash, Hasher};
use std::process::Abort;

static ZEROS: [u8; 16] = [0; 16];

/// A type, a code, the debug text of the listed kind with this type and code, and the bytes 4 to 7 that this kind keeps. Bytes 4 to 7 of
/// the packet are A1 A2 A3 A4.
type Row = (u8, u8, &'static str, [u8; 4]);

#[rattlefmt::skip]
static LISTED: [Row; 28] = [
    (1, 0, "DestinationUnreachable(NoRoute)", [0; 4]),
    (1, 1, "DestinationUnreachable(Prohibited)", [0; 4]),
    (1, 2, "DestinationUnreachable(BeyondScope)", [0; 4]),
    (1, 3, "DestinationUnreachable(Address)", [0; 4]),
    (1, 4, "DestinationUnreachable(Port)", [0; 4]),
    (1, 5, "DestinationUnreachable(SourceAddressFailedPolicy)", [0; 4]),
    (1, 6, "DestinationUnreachable(RejectRoute)", [0; 4]),
    (2, 0, "PacketTooBig { mtu: 2711790500 }", [0xA1, 0xA2, 0xA3, 0xA4]),
    (3, 0, "TimeExceeded(HopLimitExceeded)", [0; 4]),
    (3, 1, "TimeExceeded(FragmentReassemblyTimeExceeded)", [0; 4]),
    (4, 0, "ParameterProblem(ParameterProblemHeader { code: ErroneousHeaderField, pointer: 2711790500 })", [0xA1, 0xA2, 0xA3, 0xA4]),
    (4, 1, "ParameterProblem(ParameterProblemHeader { code: UnrecognizedNextHeader, pointer: 2711790500 })", [0xA1, 0xA2, 0xA3, 0xA4]),
    (4, 2, "ParameterProblem(ParameterProblemHeader { code: UnrecognizedIpv6Option, pointer: 2711790500 })", [0xA1, 0xA2, 0xA3, 0xA4]),
    (4, 3, "ParameterProblem(ParameterProblemHeader { code: Ipv6FirstFragmentIncompleteHeaderChain, pointer: 2711790500 })", [0xA1, 0xA2, 0xA3, 0xA4]),
    (4, 4, "ParameterProblem(ParameterProblemHeader { code: SrUpperLayerHeaderError, pointer: 2711790500 })", [0xA1, 0xA2, 0xA3, 0xA4]),
    (4, 5, "ParameterProblem(ParameterProblemHeader { code: UnrecognizedNextHeaderByIntermediateNode, pointer: 2711790500 })", [0xA1, 0xA2, 0xA3, 0xA4]),
    (4, 6, "ParameterProblem(ParameterProblemHeader { code: ExtensionHeaderTooBig, pointer: 2711790500 })", [0xA1, 0xA2, 0xA3, 0xA4]),
    (4, 7, "ParameterProblem(ParameterProblemHeader { code: ExtensionHeaderChainTooLong, pointer: 2711790500 })", [0xA1, 0xA2, 0xA3, 0xA4]),
    (4, 8, "ParameterProblem(ParameterProblemHeader { code: TooManyExtensionHeaders, pointer: 2711790500 })", [0xA1, 0xA2, 0xA3, 0xA4]),
    (4, 9, "ParameterProblem(ParameterProblemHeader { code: TooManyOptionsInExtensionHeader, pointer: 2711790500 })", [0xA1, 0xA2, 0xA3, 0xA4]),
    (4, 10, "ParameterProblem(ParameterProblemHeader { code: OptionTooBig, pointer: 2711790500 })", [0xA1, 0xA2, 0xA3, 0xA4]),
    (128, 0, "EchoRequest(IcmpEchoHeader { id: 41378, seq: 41892 })", [0xA1, 0xA2, 0xA3, 0xA4]),
    (129, 0, "EchoReply(IcmpEchoHeader { id: 41378, seq: 41892 })", [0xA1, 0xA2, 0xA3, 0xA4]),
    (133, 0, "RouterSolicitation", [0; 4]),
    (134, 0, "RouterAdvertisement(RouterAdvertisementHeader { cur_hop_limit: 161, managed_address_config: true, other_config: false, router_lifetime: 41892 })", [0xA1, 0x80, 0xA3, 0xA4]),
    (135, 0, "NeighborSolicitation", [0; 4]),
    (137, 0, "Redirect", [0; 4]),
    (136, 0, "NeighborAdvertisement(NeighborAdvertisementHeader { router: true, solicited: false, override_flag: true })", [0xA0, 0, 0, 0]),
];

/// Returns the row of a type and code. The loop makes no calls, since calls take most of the time in a checked build.
fn listed(type_u8: u8, code_u8: u8) -> Option<&'static Row> {
    let mut place = 0;
    while place < LISTED.len() {
        let row = &LISTED[place];
        if row.0 == type_u8 && row.1 == code_u8 {
            return Some(row);
        }
        place += 1;
    }
    None
}

/// Returns the text of the row of a type and code, or an empty text if there is no row.
fn text_of(type_u8: u8, code_u8: u8) -> &'static str {
    listed(type_u8, code_u8).map_or("", |row| row.2)
}

/// A message of each kind. No field of it is 0.
#[rattlefmt::skip]
static KINDS: [Icmpv6Type; 12] = [
    Icmpv6Type::Unknown { type_u8: 200, code_u8: 100, bytes5to8: [1, 2, 3, 4] },
    Icmpv6Type::DestinationUnreachable(DestUnreachableCode::RejectRoute),
    Icmpv6Type::PacketTooBig { mtu: 1500 },
    Icmpv6Type::TimeExceeded(TimeExceededCode::FragmentReassemblyTimeExceeded),
    Icmpv6Type::ParameterProblem(ParameterProblemHeader { code: ParameterProblemCode::OptionTooBig, pointer: 40 }),
    Icmpv6Type::EchoRequest(IcmpEchoHeader { id: 0x1234, seq: 0xABCD }),
    Icmpv6Type::EchoReply(IcmpEchoHeader { id: 0x1234, seq: 0xABCD }),
    Icmpv6Type::RouterSolicitation,
    Icmpv6Type::RouterAdvertisement(RouterAdvertisementHeader {
        cur_hop_limit: 64, managed_address_config: true, other_config: false, router_lifetime: 1800,
    }),
    Icmpv6Type::NeighborSolicitation,
    Icmpv6Type::NeighborAdvertisement(NeighborAdvertisementHeader { router: true, solicited: true, override_flag: true }),
    Icmpv6Type::Redirect,
];

fn unknown(type_u8: u8, code_u8: u8, bytes5to8: [u8; 4]) -> Icmpv6Type {
    Icmpv6Type::Unknown {
        type_u8,
        code_u8,
        bytes5to8,
    }
}

fn option_too_big() -> ParameterProblemHeader {
    ParameterProblemHeader {
        code: ParameterProblemCode::OptionTooBig,
        pointer: 40,
    }
}

fn router() -> RouterAdvertisementHeader {
    RouterAdvertisementHeader {
        cur_hop_limit: 64,
        managed_address_config: true,
        other_config: false,
        router_lifetime: 1800,
    }
}

fn every_flag() -> NeighborAdvertisementHeader {
    NeighborAdvertisementHeader {
        router: true,
        solicited: true,
        override_flag: true,
    }
}

/// Returns the header at the front of these bytes, and the bytes after it.
fn header_of<'a>(rt: &impl Abort, bytes: &'a [u8]) -> (Icmpv6Header, &'a [u8]) {
    expect_ok(rt, Icmpv6Header::from_slice(bytes))
}

/// Returns the slice struct for these bytes.
fn slice_of<'a>(rt: &impl Abort, bytes: &'a [u8]) -> Icmpv6Slice<'a> {
    expect_ok(rt, Icmpv6Slice::from_slice(bytes))
}

/// Tests that the header is written as these bytes.
fn expect_header_bytes(rt: &impl Abort, header: &Icmpv6Header, bytes: &[u8]) {
    expect_bytes(rt, &header.to_bytes(), bytes);
}

fn too_short(required_len: usize, len: usize) -> LenError {
    LenError {
        required_len,
        len,
        len_source: LenSource::Slice,
        layer: Layer::Icmpv6,
        layer_start_offset: 0,
    }
}

#[test]
fn an_echo_request_is_read_and_replied_to(rt: HostRuntime) {
    let source = [0x20, 0x01, 0x0D, 0xB8, 0, 0, 0, 0, 0, 0, 0, 0, 0, 0, 0, 1];
    let destination = [0x20, 0x01, 0x0D, 0xB8, 0, 0, 0, 0, 0, 0, 0, 0, 0, 0, 0, 2];
    // The bytes that the payload length of an IPv6 header counts: an echo request.
    let captured = [
        0x80, 0x00, 0x45, 0x70, 0x00, 0x01, 0x00, 0x02, b'p', b'i', b'n', b'g',
    ];

    let packet = slice_of(&rt, &captured);
    expect_equal(&rt, &packet.is_checksum_valid(source, destination), &true);
    let echo = IcmpEchoHeader { id: 1, seq: 2 };
    expect_equal(&rt, &packet.icmp_type(), &Icmpv6Type::EchoRequest(echo));
    let reply = Icmpv6Type::EchoReply(echo).to_header(destination, source, packet.payload());
    expect_header_bytes(
        &rt,
        &expect_ok(&rt, reply),
        &[0x81, 0x00, 0x44, 0x70, 0x00, 0x01, 0x00, 0x02],
    );
}

/// A packet, its kind, and the bytes of its written header.
#[rattlefmt::skip]
static READ: [([u8; 8], Icmpv6Type, [u8; 8]); 11] = [
    (
        [0x88, 0, 0, 0, 0xFF, 0xFF, 0xFF, 0xFF],
        Icmpv6Type::NeighborAdvertisement(NeighborAdvertisementHeader { router: true, solicited: true, override_flag: true }),
        [0x88, 0, 0, 0, 0xE0, 0, 0, 0],
    ),
    ([0x02, 0, 0, 0, 0, 0, 0x05, 0xDC], Icmpv6Type::PacketTooBig { mtu: 1500 }, [0x02, 0, 0, 0, 0, 0, 0x05, 0xDC]),
    (
        [0x01, 0x03, 0, 0, 0xFF, 0xFF, 0xFF, 0xFF],
        Icmpv6Type::DestinationUnreachable(DestUnreachableCode::Address),
        [0x01, 0x03, 0, 0, 0, 0, 0, 0],
    ),
    (
        [0x01, 0x07, 0, 0, 0xFF, 0xFF, 0xFF, 0xFF],
        Icmpv6Type::Unknown { type_u8: 1, code_u8: 7, bytes5to8: [0xFF; 4] },
        [0x01, 0x07, 0, 0, 0xFF, 0xFF, 0xFF, 0xFF],
    ),
    (
        [0x04, 0x0A, 0, 0, 0, 0, 0, 0x28],
        Icmpv6Type::ParameterProblem(ParameterProblemHeader { code: ParameterProblemCode::OptionTooBig, pointer: 40 }),
        [0x04, 0x0A, 0, 0, 0, 0, 0, 0x28],
    ),
    (
        [0x04, 0x0B, 0, 0, 0, 0, 0, 0x28],
        Icmpv6Type::Unknown { type_u8: 4, code_u8: 11, bytes5to8: [0, 0, 0, 0x28] },
        [0x04, 0x0B, 0, 0, 0, 0, 0, 0x28],
    ),
    ([0x85, 0, 0, 0, 0, 0, 0, 0], Icmpv6Type::RouterSolicitation, [0x85, 0, 0, 0, 0, 0, 0, 0]),
    ([0x85, 0, 0, 0, 1, 2, 3, 4], Icmpv6Type::RouterSolicitation, [0x85, 0, 0, 0, 0, 0, 0, 0]),
    (
        [0x86, 0, 0x32, 0x35, 0x40, 0xBF, 0x07, 0x08],
        Icmpv6Type::RouterAdvertisement(RouterAdvertisementHeader {
            cur_hop_limit: 64, managed_address_config: true, other_config: false, router_lifetime: 1800,
        }),
        [0x86, 0, 0x32, 0x35, 0x40, 0x80, 0x07, 0x08],
    ),
    (
        [0x86, 0x01, 0, 0, 0x40, 0xBF, 0x07, 0x08],
        Icmpv6Type::Unknown { type_u8: 134, code_u8: 1, bytes5to8: [0x40, 0xBF, 0x07, 0x08] },
        [0x86, 0x01, 0, 0, 0x40, 0xBF, 0x07, 0x08],
    ),
    ([0x89, 0, 0, 0, 0xFF, 0xFF, 0xFF, 0xFF], Icmpv6Type::Redirect, [0x89, 0, 0, 0, 0, 0, 0, 0]),
];

fn expect_read(rt: &impl Abort, row: &([u8; 8], Icmpv6Type, [u8; 8])) {
    let (bytes, icmp_type, written) = row;
    let (header, rest) = header_of(rt, bytes);
    expect_equal(
        rt,
        &(bytes, &header.icmp_type, rest),
        &(bytes, icmp_type, &[]),
    );
    expect_equal(
        rt,
        &(bytes, header.to_bytes().as_slice()),
        &(bytes, written.as_slice()),
    );
    expect_equal(rt, &(header.header_len(), icmp_type.header_len()), &(8, 8));
    let sizes = (header.fixed_payload_size(), icmp_type.fixed_payload_size());
    expect_equal(rt, &sizes, &(None, None));
}

#[test]
fn headers_are_read_and_written(rt: HostRuntime) {
    for row in &READ {
        expect_read(&rt, row);
    }
}

/// Tests that the header of this kind is written as these bytes, and that the bytes are read as the other kind.
fn expect_router_message(
    rt: &impl Abort,
    icmp_type: Icmpv6Type,
    written: [u8; 8],
    read: Icmpv6Type,
) {
    let bytes = Icmpv6Header::new(icmp_type).to_bytes();
    expect_equal(rt, &bytes.as_slice(), &written.as_slice());
    expect_equal(
        rt,
        &(icmp_type.type_u8(), icmp_type.code_u8()),
        &(written[0], 0),
    );
    expect_equal(rt, &header_of(rt, &bytes).0, &Icmpv6Header::new(read));
}

#[test]
fn router_messages_are_written_and_read_back(rt: HostRuntime) {
    let advertisement = Icmpv6Type::RouterAdvertisement(router());
    let solicitation = Icmpv6Type::RouterSolicitation;
    expect_router_message(&rt, solicitation, [0x85, 0, 0, 0, 0, 0, 0, 0], solicitation);
    expect_router_message(
        &rt,
        advertisement,
        [0x86, 0, 0, 0, 0x40, 0x80, 0x07, 0x08],
        advertisement,
    );
    let raw = unknown(134, 0, [64, 191, 7, 8]);
    expect_router_message(
        &rt,
        raw,
        [0x86, 0, 0, 0, 0x40, 0xBF, 0x07, 0x08],
        advertisement,
    );
    expect_router_message(
        &rt,
        Icmpv6Type::Redirect,
        [0x89, 0, 0, 0, 0, 0, 0, 0],
        Icmpv6Type::Redirect,
    );
}

/// Tests that the header is written to a slice of this length. If the slice is too short, it is unchanged.
fn expect_in_slice(rt: &impl Abort, header: &Icmpv6Header, bytes: &[u8], len: usize) {
    let mut buffer = [0xAA; 21];
    let written = header.write_to_slice(expect_some(rt, buffer.get_mut(..len)));
    let mut expected = [0xAA; 21];
    let result = if len < bytes.len() {
        Err(too_short(bytes.len(), len))
    } else {
        if let Some(front) = expected.get_mut(..bytes.len()) {
            front.copy_from_slice(bytes);
        }
        Ok(bytes.len())
    };
    expect_equal(rt, &(len, written, buffer), &(len, result, expected));
}

#[test]
fn headers_are_written_to_slices(rt: HostRuntime) {
    let echo = Icmpv6Header::new(Icmpv6Type::EchoRequest(IcmpEchoHeader { id: 1, seq: 2 }));
    let too_big = Icmpv6Header::new(Icmpv6Type::PacketTooBig { mtu: 1280 });
    for len in 0..22 {
        expect_in_slice(&rt, &echo, &echo.to_bytes(), len);
        expect_in_slice(&rt, &too_big, &too_big.to_bytes(), len);
    }
}

#[test]
fn short_headers_are_refused(rt: HostRuntime) {
    let bytes = [128, 0, 0, 0, 0, 0, 0];
    let expected = Some(too_short(8, 7));
    expect_equal(&rt, &Icmpv6Header::from_slice(&bytes).err(), &expected);
    expect_equal(&rt, &Icmpv6Slice::from_slice(&bytes).err(), &expected);
}

/// 2001:db8::1 and 2001:db8::2:3.
#[rattlefmt::skip]
static ADDRESSES: [[u8; 16]; 2] = [
    [0x20, 0x01, 0x0D, 0xB8, 0, 0, 0, 0, 0, 0, 0, 0, 0, 0, 0, 1],
    [0x20, 0x01, 0x0D, 0xB8, 0, 0, 0, 0, 0, 0, 0, 0, 0, 2, 0, 3],
];

/// A kind, a payload, and the packet between the zero addresses.
#[rattlefmt::skip]
static SUMMED: [(Icmpv6Type, &[u8], &[u8]); 4] = [
    (Icmpv6Type::EchoRequest(IcmpEchoHeader { id: 0, seq: 0 }), &[], &[0x80, 0, 0x7F, 0xBD, 0, 0, 0, 0]),
    (Icmpv6Type::EchoRequest(IcmpEchoHeader { id: 0, seq: 0 }), &[1], &[0x80, 0, 0x7E, 0xBC, 0, 0, 0, 0, 1]),
    (Icmpv6Type::EchoRequest(IcmpEchoHeader { id: 0x1234, seq: 0xABCD }), &[], &[0x80, 0, 0xC1, 0xBB, 0x12, 0x34, 0xAB, 0xCD]),
    (
        Icmpv6Type::RouterAdvertisement(RouterAdvertisementHeader {
            cur_hop_limit: 64, managed_address_config: true, other_config: false, router_lifetime: 1800,
        }),
        &[],
        &[0x86, 0, 0x32, 0x35, 0x40, 0x80, 0x07, 0x08],
    ),
];

/// The addresses of a packet.
type Pair = ([u8; 16], [u8; 16]);

/// Tests that the packet consists of the header with its checksum and the payload, and that the packet is valid.
fn expect_stored(
    rt: &impl Abort,
    icmp_type: Icmpv6Type,
    pair: Pair,
    payload: &[u8],
    packet: &[u8],
) {
    let (source, destination) = pair;
    let header = expect_ok(
        rt,
        Icmpv6Header::with_checksum(icmp_type, source, destination, payload),
    );
    let (read, rest) = header_of(rt, packet);
    expect_header_bytes(rt, &header, &read.to_bytes());
    expect_equal(rt, &rest, &payload);
    let is_valid = slice_of(rt, packet).is_checksum_valid(source, destination);
    expect_equal(rt, &is_valid, &true);
    expect_same_checksum(rt, &header, pair, payload);
}

/// Tests that the other calls return the same header or the same checksum.
fn expect_same_checksum(rt: &impl Abort, header: &Icmpv6Header, pair: Pair, payload: &[u8]) {
    let (source, destination) = pair;
    let checksum = expect_ok(
        rt,
        header.icmp_type.calc_checksum(source, destination, payload),
    );
    expect_equal(rt, &checksum, &header.checksum);
    let other = expect_ok(rt, header.icmp_type.to_header(source, destination, payload));
    expect_equal(rt, &other, header);
    let mut updated = Icmpv6Header::new(header.icmp_type);
    expect_equal(rt, &updated.checksum, &0);
    expect_ok(rt, updated.update_checksum(source, destination, payload));
    expect_equal(rt, &updated, header);
}

#[test]
fn checksums_are_stored_and_valid(rt: HostRuntime) {
    for (icmp_type, payload, packet) in &SUMMED {
        expect_stored(&rt, *icmp_type, (ZEROS, ZEROS), payload, packet);
    }
    let echo = Icmpv6Type::EchoRequest(IcmpEchoHeader { id: 1, seq: 2 });
    let packet = [0x80, 0, 0x5F, 0xDC, 0, 1, 0, 2, 97, 98, 99];
    expect_stored(
        &rt,
        echo,
        (ADDRESSES[0], ADDRESSES[1]),
        &[97, 98, 99],
        &packet,
    );
}

#[rattlefmt::skip]
static VALIDITY: [([u8; 8], bool); 6] = [
    ([0x80, 0, 0x7F, 0xBD, 0, 0, 0, 0], true),
    ([0x80, 0, 0x7F, 0xBD, 0xFF, 0xFF, 0, 0], true),
    ([0x80, 0, 0x7F, 0xBD, 0, 1, 0, 0], false),
    ([0x80, 0, 0xC1, 0xBB, 0x12, 0x34, 0xAB, 0xCD], true),
    ([0x80, 0, 0xC1, 0xBB, 0xAB, 0xCD, 0x12, 0x34], true),
    ([0x80, 0, 0xC1, 0xBB, 0x12, 0x35, 0xAB, 0xCD], false),
];

#[test]
fn changes_are_detected_but_for_zeros_and_exchanges(rt: HostRuntime) {
    for (bytes, valid) in &VALIDITY {
        let is_valid = slice_of(&rt, bytes).is_checksum_valid(ZEROS, ZEROS);
        expect_equal(&rt, &(bytes, &is_valid), &(bytes, valid));
    }
}

/// The first byte of a neighbor advertisement, its flags, and the first byte that is written.
#[rattlefmt::skip]
static NEIGHBORS: [(u8, NeighborAdvertisementHeader, u8); 6] = [
    (0x00, NeighborAdvertisementHeader { router: false, solicited: false, override_flag: false }, 0x00),
    (0x1F, NeighborAdvertisementHeader { router: false, solicited: false, override_flag: false }, 0x00),
    (0x80, NeighborAdvertisementHeader { router: true, solicited: false, override_flag: false }, 0x80),
    (0x5A, NeighborAdvertisementHeader { router: false, solicited: true, override_flag: false }, 0x40),
    (0x3F, NeighborAdvertisementHeader { router: false, solicited: false, override_flag: true }, 0x20),
    (0xFF, NeighborAdvertisementHeader { router: true, solicited: true, override_flag: true }, 0xE0),
];

#[rattlefmt::skip]
static ROUTERS: [([u8; 4], RouterAdvertisementHeader, [u8; 4]); 2] = [
    (
        [0x40, 0xBF, 0x07, 0x08],
        RouterAdvertisementHeader { cur_hop_limit: 64, managed_address_config: true, other_config: false, router_lifetime: 1800 },
        [0x40, 0x80, 0x07, 0x08],
    ),
    (
        [0xFF, 0x7F, 0xFF, 0xFE],
        RouterAdvertisementHeader { cur_hop_limit: 255, managed_address_config: false, other_config: true, router_lifetime: 65534 },
        [0xFF, 0x40, 0xFF, 0xFE],
    ),
];

#[test]
fn advertisements_are_read_and_written(rt: HostRuntime) {
    for (byte, header, written) in &NEIGHBORS {
        let read = NeighborAdvertisementHeader::from_bytes([*byte, 0xFF, 0xFF, 0xFF]);
        expect_equal(&rt, &(byte, &read), &(byte, header));
        expect_equal(&rt, &read.to_bytes(), &[*written, 0, 0, 0]);
    }
    for (bytes, header, written) in &ROUTERS {
        expect_equal(&rt, &RouterAdvertisementHeader::from_bytes(*bytes), header);
        expect_equal(&rt, &header.to_bytes(), written);
    }
}

static ECHO: [u8; 10] = [129, 0, 0x12, 0x34, 1, 2, 3, 4, 5, 6];

/// Tests the parts of `ECHO`.
fn expect_parts(rt: &impl Abort, packet: &Icmpv6Slice<'_>) {
    expect_equal(rt, &packet.slice(), &ECHO.as_slice());
    expect_equal(
        rt,
        &(
            packet.type_u8(),
            packet.code_u8(),
            packet.checksum(),
            packet.bytes5to8(),
        ),
        &(129, 0, 0x1234, [1, 2, 3, 4]),
    );
    expect_equal(rt, &(packet.header_len(), packet.payload()), &(8, &[5, 6]));
    let echo = IcmpEchoHeader {
        id: 0x0102,
        seq: 0x0304,
    };
    expect_equal(rt, &packet.icmp_type(), &Icmpv6Type::EchoReply(echo));
}

#[test]
fn slices_give_their_parts(rt: HostRuntime) {
    let packet = slice_of(&rt, &ECHO);
    expect_parts(&rt, &packet);
    let (header, rest) = header_of(&rt, &ECHO);
    expect_equal(&rt, &packet.header(), &header);
    expect_equal(&rt, &(header.checksum, rest), &(0x1234, packet.payload()));
    expect_clone(&rt, &packet);
    let shorter = slice_of(&rt, bytes_to(&rt, &ECHO, 9));
    expect_equal(&rt, &(packet == shorter), &false);
    expect_debug_text(
        &rt,
        &slice_of(&rt, bytes_to(&rt, &ECHO, 8)),
        "Icmpv6Slice { slice: [129, 0, 18, 52, 1, 2, 3, 4] }",
    );
}

/// Tests that the kind is unknown, and contains this type, this code, and these bytes 4 to 7.
fn expect_unknown(
    rt: &impl Abort,
    icmp_type: &Icmpv6Type,
    type_u8: u8,
    code_u8: u8,
    bytes: [u8; 4],
) {
    let is_expected = match icmp_type {
        Icmpv6Type::Unknown {
            type_u8: read_type,
            code_u8: read_code,
            bytes5to8,
        } => *read_type == type_u8 && *read_code == code_u8 && are_same(bytes5to8, &bytes),
        _ => false,
    };
    if !is_expected {
        expect_equal(rt, icmp_type, &unknown(type_u8, code_u8, bytes));
    }
}

/// Tests that the kind is listed in the row of this type and code, or is unknown if there is no row. Returns whether there is a row, and
/// the kept bits of bytes 4 to 7.
fn expect_kind(
    rt: &(impl Abort + AllocGlobal),
    icmp_type: &Icmpv6Type,
    type_u8: u8,
    code_u8: u8,
) -> (bool, [u8; 4]) {
    match listed(type_u8, code_u8) {
        Some(row) => {
            expect_debug_text(rt, icmp_type, row.2);
            (true, row.3)
        }
        None => {
            let bytes5to8 = [0xA1, 0xA2, 0xA3, 0xA4];
            expect_unknown(rt, icmp_type, type_u8, code_u8, bytes5to8);
            (false, bytes5to8)
        }
    }
}

/// Reads the packet of this type and code. Tests that the header is written with the bits that its kind keeps. Returns whether the kind is
/// listed.
fn expect_packet(rt: &(impl Abort + AllocGlobal), type_u8: u8, code_u8: u8) -> bool {
    let mut bytes = [type_u8, code_u8, 0x12, 0x34, 0xA1, 0xA2, 0xA3, 0xA4];
    let (header, rest) = header_of(rt, &bytes);
    expect_equal(rt, &(header.checksum, rest), &(0x1234, &[]));
    let (is_listed, kept) = expect_kind(rt, &header.icmp_type, type_u8, code_u8);
    bytes[4..].copy_from_slice(&kept);
    expect_header_bytes(rt, &header, &bytes);
    let codes = (header.icmp_type.type_u8(), header.icmp_type.code_u8());
    expect_equal(rt, &codes, &(type_u8, code_u8));
    is_listed
}

/// Returns the numbers of types and codes that are listed and that are not listed, after one more type and code.
fn counted(counts: (usize, usize), is_listed: bool) -> (usize, usize) {
    let (all_listed, all_unknown) = counts;
    if is_listed {
        (all_listed.saturating_add(1), all_unknown)
    } else {
        (all_listed, all_unknown.saturating_add(1))
    }
}

#[test]
fn every_type_and_code_is_read(rt: HostRuntime) {
    let mut counts = (0, 0);
    for type_u8 in 0..=u8::MAX {
        for code_u8 in 0..=u8::MAX {
            counts = counted(counts, expect_packet(&rt, type_u8, code_u8));
        }
    }
    expect_equal(&rt, &counts, &(28, 65508));
}

/// The codes of destination unreachable, from 0 on.
static UNREACHABLE: [DestUnreachableCode; 7] = [
    DestUnreachableCode::NoRoute,
    DestUnreachableCode::Prohibited,
    DestUnreachableCode::BeyondScope,
    DestUnreachableCode::Address,
    DestUnreachableCode::Port,
    DestUnreachableCode::SourceAddressFailedPolicy,
    DestUnreachableCode::RejectRoute,
];

/// The codes of parameter problem, from 0 on.
static PROBLEMS: [ParameterProblemCode; 11] = [
    ParameterProblemCode::ErroneousHeaderField,
    ParameterProblemCode::UnrecognizedNextHeader,
    ParameterProblemCode::UnrecognizedIpv6Option,
    ParameterProblemCode::Ipv6FirstFragmentIncompleteHeaderChain,
    ParameterProblemCode::SrUpperLayerHeaderError,
    ParameterProblemCode::UnrecognizedNextHeaderByIntermediateNode,
    ParameterProblemCode::ExtensionHeaderTooBig,
    ParameterProblemCode::ExtensionHeaderChainTooLong,
    ParameterProblemCode::TooManyExtensionHeaders,
    ParameterProblemCode::TooManyOptionsInExtensionHeader,
    ParameterProblemCode::OptionTooBig,
];

/// Returns the kind of this type and code if bytes 4 to 7 are 01 02 03 04. It is `None` if no kind has this type and code.
fn kind_of(type_u8: u8, code_u8: u8) -> Option<Icmpv6Type> {
    let echo = IcmpEchoHeader {
        id: 0x0102,
        seq: 0x0304,
    };
    match (type_u8, code_u8) {
        (1, _) => UNREACHABLE
            .get(usize::from(code_u8))
            .map(|code| Icmpv6Type::DestinationUnreachable(*code)),
        (2, 0) => Some(Icmpv6Type::PacketTooBig { mtu: 0x0102_0304 }),
        (3, 0) => Some(Icmpv6Type::TimeExceeded(TimeExceededCode::HopLimitExceeded)),
        (3, 1) => Some(Icmpv6Type::TimeExceeded(TimeExceededCode::FragmentReassemblyTimeExceeded)),
        (4, _) => PROBLEMS.get(usize::from(code_u8)).map(|code| {
            Icmpv6Type::ParameterProblem(ParameterProblemHeader {
                code: *code,
                pointer: 0x0102_0304,
            })
        }),
        (128, 0) => Some(Icmpv6Type::EchoRequest(echo)),
        (129, 0) => Some(Icmpv6Type::EchoReply(echo)),
        (133, 0) => Some(Icmpv6Type::RouterSolicitation),
        (134, 0) => Some(Icmpv6Type::RouterAdvertisement(RouterAdvertisementHeader {
            cur_hop_limit: 1,
            managed_address_config: false,
            other_config: false,
            router_lifetime: 0x0304,
        })),
        (135, 0) => Some(Icmpv6Type::NeighborSolicitation),
        (136, 0) => Some(Icmpv6Type::NeighborAdvertisement(NeighborAdvertisementHeader {
            router: false,
            solicited: false,
            override_flag: false,
        })),
        (137, 0) => Some(Icmpv6Type::Redirect),
        _ => None,
    }
}

/// Writes the raw header of this type and code. Tests that it is read back as the kind with this type and code, or unchanged if there is no
/// kind. Returns whether there is a kind.
fn expect_raw(rt: &impl Abort, type_u8: u8, code_u8: u8) -> bool {
    let raw = Icmpv6Header {
        icmp_type: unknown(type_u8, code_u8, [1, 2, 3, 4]),
        checksum: 0x1234,
    };
    let bytes = [type_u8, code_u8, 0x12, 0x34, 1, 2, 3, 4];
    expect_header_bytes(rt, &raw, &bytes);
    let (header, rest) = header_of(rt, &bytes);
    expect_equal(rt, &(header.checksum, rest), &(0x1234, &[]));
    let kind = kind_of(type_u8, code_u8);
    expect_equal(rt, &header.icmp_type, &kind.unwrap_or(raw.icmp_type));
    kind.is_some()
}

#[test]
fn every_raw_header_is_read_by_type_and_code(rt: HostRuntime) {
    let mut counts = (0, 0);
    for type_u8 in 0..=u8::MAX {
        for code_u8 in 0..=u8::MAX {
            counts = counted(counts, expect_raw(&rt, type_u8, code_u8));
        }
    }
    expect_equal(&rt, &counts, &(28, 65508));
}

/// Tests that the value between the texts is shown as in the row of this type and code. If there is no row, there is no value.
fn expect_listed<T: Debug>(
    rt: &(impl Abort + AllocGlobal),
    key: (u8, u8),
    value: &Option<T>,
    name: &str,
) {
    let text = match value {
        Some(value) => expect_ok(rt, format!(in rt.alloc(); "{name}({value:?})")),
        None => String::new(rt.alloc()),
    };
    expect_equal(rt, &text.as_str(), &text_of(key.0, key.1));
}

/// Tests that a value that was made from this code has the same code.
fn expect_code(rt: &impl Abort, found: Option<u8>, code_u8: u8) {
    expect_equal(rt, &found.unwrap_or(code_u8), &code_u8);
}

fn expect_variants(rt: &(impl Abort + AllocGlobal), code_u8: u8) {
    let code = DestUnreachableCode::from_u8(code_u8);
    expect_code(rt, code.map(|code| code.code_u8()), code_u8);
    expect_listed(rt, (1, code_u8), &code, "DestinationUnreachable");
    let code = TimeExceededCode::from_u8(code_u8);
    expect_code(rt, code.map(|code| code.code_u8()), code_u8);
    expect_listed(rt, (3, code_u8), &code, "TimeExceeded");
    let code = ParameterProblemCode::from_u8(code_u8);
    expect_code(rt, code.map(|code| code.code_u8()), code_u8);
    let header = code.map(|code| ParameterProblemHeader {
        code,
        pointer: 0xA1A2A3A4,
    });
    expect_listed(rt, (4, code_u8), &header, "ParameterProblem");
}

#[test]
fn codes_have_their_variants(rt: HostRuntime) {
    for code_u8 in 0..=u8::MAX {
        expect_variants(&rt, code_u8);
    }
}

#[rattlefmt::skip]
static TYPES: [(u8, u8); 19] = [
    (TYPE_DST_UNREACH, 1),
    (TYPE_PACKET_TOO_BIG, 2),
    (TYPE_TIME_EXCEEDED, 3),
    (TYPE_PARAMETER_PROBLEM, 4),
    (TYPE_ECHO_REQUEST, 128),
    (TYPE_ECHO_REPLY, 129),
    (TYPE_MULTICAST_LISTENER_QUERY, 130),
    (TYPE_MULTICAST_LISTENER_REPORT, 131),
    (TYPE_MULTICAST_LISTENER_REDUCTION, 132),
    (TYPE_ROUTER_SOLICITATION, 133),
    (TYPE_ROUTER_ADVERTISEMENT, 134),
    (TYPE_NEIGHBOR_SOLICITATION, 135),
    (TYPE_NEIGHBOR_ADVERTISEMENT, 136),
    (TYPE_REDIRECT_MESSAGE, 137),
    (TYPE_ROUTER_RENUMBERING, 138),
    (TYPE_INVERSE_NEIGHBOR_DISCOVERY_SOLICITATION, 141),
    (TYPE_INVERSE_NEIGHBOR_DISCOVERY_ADVERTISEMENT, 142),
    (TYPE_EXT_ECHO_REQUEST, 160),
    (TYPE_EXT_ECHO_REPLY, 161),
];

#[rattlefmt::skip]
static CODES: [(u8, u8); 25] = [
    (CODE_DST_UNREACH_NO_ROUTE, 0),
    (CODE_DST_UNREACH_PROHIBITED, 1),
    (CODE_DST_UNREACH_BEYOND_SCOPE, 2),
    (CODE_DST_UNREACH_ADDR, 3),
    (CODE_DST_UNREACH_PORT, 4),
    (CODE_DST_UNREACH_SOURCE_ADDRESS_FAILED_POLICY, 5),
    (CODE_DST_UNREACH_REJECT_ROUTE_TO_DEST, 6),
    (CODE_TIME_EXCEEDED_HOP_LIMIT_EXCEEDED, 0),
    (CODE_TIME_EXCEEDED_FRAGMENT_REASSEMBLY_TIME_EXCEEDED, 1),
    (CODE_PARAM_PROBLEM_ERR_HEADER_FIELD, 0),
    (CODE_PARAM_PROBLEM_UNRECOG_NEXT_HEADER, 1),
    (CODE_PARAM_PROBLEM_UNRECOG_IPV6_OPTION, 2),
    (CODE_PARAM_PROBLEM_IPV6_FIRST_FRAG_INCOMP_HEADER_CHAIN, 3),
    (CODE_PARAM_PROBLEM_SR_UPPER_LAYER_HEADER_ERROR, 4),
    (CODE_PARAM_PROBLEM_UNRECOG_NEXT_HEADER_BY_INTERMEDIATE_NODE, 5),
    (CODE_PARAM_PROBLEM_EXT_HEADER_TOO_BIG, 6),
    (CODE_PARAM_PROBLEM_EXT_HEADER_CHAIN_TOO_LONG, 7),
    (CODE_PARAM_PROBLEM_TOO_MANY_EXT_HEADERS, 8),
    (CODE_PARAM_PROBLEM_TOO_MANY_OPTIONS_EXT_HEADER, 9),
    (CODE_PARAM_PROBLEM_OPTION_TOO_BIG, 10),
    (NeighborAdvertisementHeader::ROUTER_MASK, 0x80),
    (NeighborAdvertisementHeader::SOLICITED_MASK, 0x40),
    (NeighborAdvertisementHeader::OVERRIDE_MASK, 0x20),
    (RouterAdvertisementHeader::MANAGED_ADDRESS_CONFIG_MASK, 0x80),
    (RouterAdvertisementHeader::OTHER_CONFIG_MASK, 0x40),
];

#[test]
fn constants_have_their_values(rt: HostRuntime) {
    for (constant, value) in &TYPES {
        expect_equal(&rt, constant, value);
    }
    for (constant, value) in &CODES {
        expect_equal(&rt, constant, value);
    }
    expect_equal(&rt, &MAX_ICMPV6_BYTE_LEN, &4294967295);
    expect_equal(&rt, &Icmpv6Header::CHECKSUM_AT, &2);
    expect_equal(
        &rt,
        &(Icmpv6Header::MIN_LEN, Icmpv6Header::MIN_SERIALIZED_SIZE),
        &(8, 8),
    );
    expect_equal(
        &rt,
        &(Icmpv6Header::MAX_LEN, Icmpv6Header::MAX_SERIALIZED_SIZE),
        &(40, 40),
    );
}

fn hash_of<T: Hash>(value: &T) -> u64 {
    let mut hasher = DefaultHasher::new();
    value.hash(&mut hasher);
    hasher.finish()
}

/// Tests that a clone of the kind equals the kind, and has the same hash, also in a header.
fn expect_cloned_kind(rt: &impl Abort, icmp_type: &Icmpv6Type) {
    let copy = expect_ok(rt, icmp_type.clone());
    expect_equal(rt, &copy, icmp_type);
    expect_equal(rt, &hash_of(&copy), &hash_of(icmp_type));
    let header = Icmpv6Header {
        icmp_type: *icmp_type,
        checksum: 0x1234,
    };
    expect_clone(rt, &header);
}

#[test]
fn clones_are_equal(rt: HostRuntime) {
    for icmp_type in &KINDS {
        expect_cloned_kind(&rt, icmp_type);
    }
    expect_clone(&rt, &option_too_big());
    expect_clone(&rt, &router());
    expect_clone(&rt, &every_flag());
    expect_clone(&rt, &DestUnreachableCode::RejectRoute);
    expect_clone(&rt, &TimeExceededCode::FragmentReassemblyTimeExceeded);
    expect_clone(&rt, &ParameterProblemCode::OptionTooBig);
    expect_debug_text(
        &rt,
        &Icmpv6Header::new(Icmpv6Type::RouterAdvertisement(router())),
        "Icmpv6Header { icmp_type: RouterAdvertisement(RouterAdvertisementHeader { cur_hop_limit: 64, managed_address_config: true, other_config: false, router_lifetime: 1800 }), checksum: 0 }",
    );
}

/// Returns whether each value is less than all later values, and whether all hashes differ.
fn rises<T: Ord + Hash>(values: &[T]) -> bool {
    for (place, value) in values.iter().enumerate() {
        for (other_place, other) in values.iter().enumerate() {
            let order = place.cmp(&other_place);
            if value.cmp(other) != order || value.partial_cmp(other) != Some(order) {
                return false;
            }
            if (hash_of(value) == hash_of(other)) != (place == other_place) {
                return false;
            }
        }
    }
    true
}

#[test]
fn types_are_ordered_and_hashed(rt: HostRuntime) {
    expect_equal(&rt, &rises(&KINDS), &true);
    expect_equal(
        &rt,
        &rises(&[
            unknown(255, 255, [255; 4]),
            Icmpv6Type::DestinationUnreachable(DestUnreachableCode::NoRoute),
            Icmpv6Type::DestinationUnreachable(DestUnreachableCode::RejectRoute),
            Icmpv6Type::Redirect,
        ]),
        &true,
    );
    expect_equal(
        &rt,
        &rises(&[
            DestUnreachableCode::NoRoute,
            DestUnreachableCode::SourceAddressFailedPolicy,
            DestUnreachableCode::RejectRoute,
        ]),
        &true,
    );
    expect_equal(
        &rt,
        &rises(&[
            TimeExceededCode::HopLimitExceeded,
            TimeExceededCode::FragmentReassemblyTimeExceeded,
        ]),
        &true,
    );
    expect_equal(
        &rt,
        &rises(&[
            ParameterProblemCode::ErroneousHeaderField,
            ParameterProblemCode::TooManyOptionsInExtensionHeader,
            ParameterProblemCode::OptionTooBig,
        ]),
        &true,
    );
    let first_problem = ParameterProblemHeader {
        code: ParameterProblemCode::ErroneousHeaderField,
        pointer: 50,
    };
    expect_equal(&rt, &rises(&[first_problem, option_too_big()]), &true);
    let neighbor = |byte: u8| NeighborAdvertisementHeader::from_bytes([byte, 0, 0, 0]);
    expect_equal(
        &rt,
        &rises(&[neighbor(0x60), neighbor(0x80), neighbor(0xA0)]),
        &true,
    );
    let unmanaged = RouterAdvertisementHeader {
        managed_address_config: false,
        router_lifetime: 9000,
        ..router()
    };
    expect_equal(&rt, &rises(&[unmanaged, router()]), &true);
}

#[rattlefmt::skip]
static RISING: [Icmpv6Type; 9] = [
    Icmpv6Type::Unknown { type_u8: 200, code_u8: 1, bytes5to8: [0, 0, 0, 1] },
    Icmpv6Type::Unknown { type_u8: 200, code_u8: 1, bytes5to8: [0, 0, 0, 2] },
    Icmpv6Type::Unknown { type_u8: 200, code_u8: 2, bytes5to8: [0, 0, 0, 1] },
    Icmpv6Type::Unknown { type_u8: 201, code_u8: 1, bytes5to8: [0, 0, 0, 1] },
    Icmpv6Type::PacketTooBig { mtu: 1 },
    Icmpv6Type::PacketTooBig { mtu: 2 },
    Icmpv6Type::EchoRequest(IcmpEchoHeader { id: 1, seq: 1 }),
    Icmpv6Type::EchoRequest(IcmpEchoHeader { id: 1, seq: 2 }),
    Icmpv6Type::EchoRequest(IcmpEchoHeader { id: 2, seq: 1 }),
];

#[test]
fn one_field_makes_a_difference(rt: HostRuntime) {
    let problem = |code: ParameterProblemCode, pointer: u32| ParameterProblemHeader {
        code,
        pointer,
    };
    expect_equal(
        &rt,
        &rises(&[
            problem(ParameterProblemCode::ErroneousHeaderField, 1),
            problem(ParameterProblemCode::ErroneousHeaderField, 2),
            problem(ParameterProblemCode::UnrecognizedNextHeader, 1),
        ]),
        &true,
    );
    let neighbor = |byte: u8| NeighborAdvertisementHeader::from_bytes([byte, 0, 0, 0]);
    expect_equal(
        &rt,
        &rises(&[neighbor(0), neighbor(0x20), neighbor(0x40), neighbor(0x80)]),
        &true,
    );
    let unlike = RouterAdvertisementHeader::from_bytes([1, 0, 0, 1]);
    expect_equal(
        &rt,
        &rises(&[
            unlike,
            RouterAdvertisementHeader {
                router_lifetime: 2,
                ..unlike
            },
            RouterAdvertisementHeader {
                other_config: true,
                ..unlike
            },
            RouterAdvertisementHeader {
                managed_address_config: true,
                ..unlike
            },
            RouterAdvertisementHeader {
                cur_hop_limit: 2,
                ..unlike
            },
        ]),
        &true,
    );
    expect_equal(&rt, &rises(&RISING), &true);
    let header = |mtu: u32, checksum: u16| Icmpv6Header {
        icmp_type: Icmpv6Type::PacketTooBig { mtu },
        checksum,
    };
    expect_equal(&rt, &(header(1, 1) == header(1, 2)), &false);
    expect_equal(&rt, &(header(1, 1) == header(2, 1)), &false);
    expect_equal(&rt, &header(1, 1), &header(1, 1));
}
