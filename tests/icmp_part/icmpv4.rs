use crate::expect::{
    are_same, bytes_from, bytes_to, expect_bytes, expect_clone, expect_debug_text, expect_equal,
    expect_ok, expect_some,
};
use etherparse_transport::err::{Layer, LenError};
use etherparse_transport::icmpv4::*;
use etherparse_transport::{IcmpEchoHeader, Icmpv4Header, Icmpv4Slice, Icmpv4Type, LenSource};
use std::collections::hash_map::DefaultHasher;
use std::fmt::Debug;
use std::hash::{Hash, Hasher};
use std::process::Abort;

/// A type, a code, the debug text of the listed kind with this type and code, and the bytes 4 to 7 that this kind keeps. The bytes of the
/// packet from byte 4 on are 1, 2, 3 and so on.
type Row = (u8, u8, &'static str, [u8; 4]);

#[rattlefmt::skip]
static LISTED: [Row; 29] = [
    (0, 0, "EchoReply(IcmpEchoHeader { id: 258, seq: 772 })", [1, 2, 3, 4]),
    (3, 0, "DestinationUnreachable(Network)", [0; 4]),
    (3, 1, "DestinationUnreachable(Host)", [0; 4]),
    (3, 2, "DestinationUnreachable(Protocol)", [0; 4]),
    (3, 3, "DestinationUnreachable(Port)", [0; 4]),
    (3, 4, "DestinationUnreachable(FragmentationNeeded { next_hop_mtu: 772 })", [0, 0, 3, 4]),
    (3, 5, "DestinationUnreachable(SourceRouteFailed)", [0; 4]),
    (3, 6, "DestinationUnreachable(NetworkUnknown)", [0; 4]),
    (3, 7, "DestinationUnreachable(HostUnknown)", [0; 4]),
    (3, 8, "DestinationUnreachable(Isolated)", [0; 4]),
    (3, 9, "DestinationUnreachable(NetworkProhibited)", [0; 4]),
    (3, 10, "DestinationUnreachable(HostProhibited)", [0; 4]),
    (3, 11, "DestinationUnreachable(TosNetwork)", [0; 4]),
    (3, 12, "DestinationUnreachable(TosHost)", [0; 4]),
    (3, 13, "DestinationUnreachable(FilterProhibited)", [0; 4]),
    (3, 14, "DestinationUnreachable(HostPrecedenceViolation)", [0; 4]),
    (3, 15, "DestinationUnreachable(PrecedenceCutoff)", [0; 4]),
    (5, 0, "Redirect(RedirectHeader { code: RedirectForNetwork, gateway_internet_address: [1, 2, 3, 4] })", [1, 2, 3, 4]),
    (5, 1, "Redirect(RedirectHeader { code: RedirectForHost, gateway_internet_address: [1, 2, 3, 4] })", [1, 2, 3, 4]),
    (5, 2, "Redirect(RedirectHeader { code: RedirectForTypeOfServiceAndNetwork, gateway_internet_address: [1, 2, 3, 4] })", [1, 2, 3, 4]),
    (5, 3, "Redirect(RedirectHeader { code: RedirectForTypeOfServiceAndHost, gateway_internet_address: [1, 2, 3, 4] })", [1, 2, 3, 4]),
    (8, 0, "EchoRequest(IcmpEchoHeader { id: 258, seq: 772 })", [1, 2, 3, 4]),
    (11, 0, "TimeExceeded(TtlExceededInTransit)", [0; 4]),
    (11, 1, "TimeExceeded(FragmentReassemblyTimeExceeded)", [0; 4]),
    (12, 0, "ParameterProblem(PointerIndicatesError(1))", [1, 0, 0, 0]),
    (12, 1, "ParameterProblem(MissingRequiredOption)", [0; 4]),
    (12, 2, "ParameterProblem(BadLength)", [0; 4]),
    (13, 0, "TimestampRequest(TimestampMessage { id: 258, seq: 772, originate_timestamp: 84281096, receive_timestamp: 151653132, transmit_timestamp: 219025168 })", [1, 2, 3, 4]),
    (14, 0, "TimestampReply(TimestampMessage { id: 258, seq: 772, originate_timestamp: 84281096, receive_timestamp: 151653132, transmit_timestamp: 219025168 })", [1, 2, 3, 4]),
];

/// Returns the row of a type and code. The loop makes no calls, since calls take most of the time in a checked build.
fn listed(type_u8: u8, code_u8: u8) -> Option<&'static Row> {
    let mut place = 0;
    while place < LISTED.len() {
        let row = &LISTED[place];
        if row.0 == type_u8 && row.1 == code_u8 {
            return Some(row);
        }
        place += 1;
    }
    None
}

/// Returns the text of the row of a type and code, or an empty text if there is no row.
fn text_of(type_u8: u8, code_u8: u8) -> &'static str {
    listed(type_u8, code_u8).map_or("", |row| row.2)
}

fn wrong_length(layer: Layer, required_len: usize, len: usize) -> LenError {
    LenError {
        required_len,
        len,
        len_source: LenSource::Slice,
        layer,
        layer_start_offset: 0,
    }
}

/// Returns a packet of zeros, except for this type and code.
fn packet(type_u8: u8, code_u8: u8) -> [u8; 21] {
    let mut bytes = [0; 21];
    bytes[0] = type_u8;
    bytes[1] = code_u8;
    bytes
}

fn times() -> TimestampMessage {
    TimestampMessage {
        id: 1,
        seq: 2,
        originate_timestamp: 3,
        receive_timestamp: 4,
        transmit_timestamp: 5,
    }
}

fn unknown(type_u8: u8, code_u8: u8, bytes5to8: [u8; 4]) -> Icmpv4Type {
    Icmpv4Type::Unknown {
        type_u8,
        code_u8,
        bytes5to8,
    }
}

/// Returns the header at the front of these bytes, and the bytes after it.
fn header_of<'a>(rt: &impl Abort, bytes: &'a [u8]) -> (Icmpv4Header, &'a [u8]) {
    expect_ok(rt, Icmpv4Header::from_slice(bytes))
}

/// Returns the slice struct for these bytes.
fn slice_of<'a>(rt: &impl Abort, bytes: &'a [u8]) -> Icmpv4Slice<'a> {
    expect_ok(rt, Icmpv4Slice::from_slice(bytes))
}

/// Tests that the header is written as these bytes.
fn expect_header_bytes(rt: &impl Abort, header: &Icmpv4Header, bytes: &[u8]) {
    expect_bytes(rt, &header.to_bytes(), bytes);
}

/// Tests that the calls for the header and for the slice struct refuse these bytes with this error.
fn expect_refused(rt: &impl Abort, bytes: &[u8], error: &LenError) {
    let errors = (
        Icmpv4Header::from_slice(bytes).err(),
        Icmpv4Slice::from_slice(bytes).err(),
    );
    expect_equal(
        rt,
        &(errors.0.as_ref(), errors.1.as_ref()),
        &(Some(error), Some(error)),
    );
}

#[test]
fn an_echo_request_is_read_and_replied_to(rt: HostRuntime) {
    let request = [0x08, 0x00, 0xF7, 0xFC, 0x00, 0x01, 0x00, 0x02];
    let (header, payload) = header_of(&rt, &request);
    let echo = match header.icmp_type {
        Icmpv4Type::EchoRequest(echo) => Some(echo),
        _ => None,
    };
    let reply = Icmpv4Type::EchoReply(expect_some(&rt, echo));
    let reply = Icmpv4Header::with_checksum(reply, payload);
    expect_header_bytes(
        &rt,
        &reply,
        &[0x00, 0x00, 0xFF, 0xFC, 0x00, 0x01, 0x00, 0x02],
    );
}

/// A packet, its kind, and the bytes of its written header.
#[rattlefmt::skip]
static READ: [([u8; 8], Icmpv4Type, [u8; 8]); 5] = [
    (
        [0x03, 0x04, 0, 0, 0x01, 0x02, 0x05, 0xDC],
        Icmpv4Type::DestinationUnreachable(DestUnreachableHeader::FragmentationNeeded { next_hop_mtu: 1500 }),
        [0x03, 0x04, 0, 0, 0, 0, 0x05, 0xDC],
    ),
    (
        [0x0C, 0, 0, 0, 7, 1, 1, 1],
        Icmpv4Type::ParameterProblem(ParameterProblemHeader::PointerIndicatesError(7)),
        [0x0C, 0, 0, 0, 7, 0, 0, 0],
    ),
    (
        [0x05, 0x01, 0, 0, 0xC0, 0xA8, 0, 0x01],
        Icmpv4Type::Redirect(RedirectHeader { code: RedirectCode::RedirectForHost, gateway_internet_address: [192, 168, 0, 1] }),
        [0x05, 0x01, 0, 0, 0xC0, 0xA8, 0, 0x01],
    ),
    (
        [0x05, 0x04, 0, 0, 0xC0, 0xA8, 0, 0x01],
        Icmpv4Type::Unknown { type_u8: 5, code_u8: 4, bytes5to8: [192, 168, 0, 1] },
        [0x05, 0x04, 0, 0, 0xC0, 0xA8, 0, 0x01],
    ),
    (
        [0x03, 0x10, 0, 0, 1, 2, 3, 4],
        Icmpv4Type::Unknown { type_u8: 3, code_u8: 16, bytes5to8: [1, 2, 3, 4] },
        [0x03, 0x10, 0, 0, 1, 2, 3, 4],
    ),
];

fn expect_read(rt: &impl Abort, row: &([u8; 8], Icmpv4Type, [u8; 8])) {
    let (bytes, icmp_type, written) = row;
    let (header, rest) = header_of(rt, bytes);
    expect_equal(
        rt,
        &(bytes, &header.icmp_type, rest),
        &(bytes, icmp_type, &[]),
    );
    expect_equal(
        rt,
        &(bytes, header.to_bytes().as_slice()),
        &(bytes, written.as_slice()),
    );
    let lengths = (header.header_len(), header.icmp_type.header_len());
    expect_equal(rt, &lengths, &(8, 8));
    let sizes = (header.fixed_payload_size(), icmp_type.fixed_payload_size());
    expect_equal(rt, &sizes, &(None, None));
}

#[test]
fn headers_are_read_and_written(rt: HostRuntime) {
    for row in &READ {
        expect_read(&rt, row);
    }
}

/// Tests that the header is written to a slice of this length. If the slice is too short, it is unchanged.
fn expect_in_slice(rt: &impl Abort, header: &Icmpv4Header, bytes: &[u8], len: usize) {
    let mut buffer = [0xAA; 21];
    let written = header.write_to_slice(expect_some(rt, buffer.get_mut(..len)));
    let mut expected = [0xAA; 21];
    let result = if len < bytes.len() {
        Err(wrong_length(Layer::Icmpv4, bytes.len(), len))
    } else {
        if let Some(front) = expected.get_mut(..bytes.len()) {
            front.copy_from_slice(bytes);
        }
        Ok(bytes.len())
    };
    expect_equal(rt, &(len, written, buffer), &(len, result, expected));
}

#[test]
fn headers_are_written_to_slices(rt: HostRuntime) {
    let reply = Icmpv4Header::new(Icmpv4Type::TimestampReply(times()));
    let request = Icmpv4Header::new(Icmpv4Type::EchoRequest(IcmpEchoHeader { id: 1, seq: 2 }));
    for len in 0..22 {
        expect_in_slice(&rt, &reply, &reply.to_bytes(), len);
        expect_in_slice(&rt, &request, &request.to_bytes(), len);
    }
}

#[test]
fn short_headers_are_refused(rt: HostRuntime) {
    expect_refused(
        &rt,
        &[13, 0, 0, 0, 0, 0, 0],
        &wrong_length(Layer::Icmpv4, 8, 7),
    );
}

/// The type and the wrong length of a timestamp message, and the layer in its error.
#[rattlefmt::skip]
static WRONG_LENGTHS: [(u8, usize, Layer); 5] = [
    (13, 21, Layer::Icmpv4Timestamp),
    (13, 8, Layer::Icmpv4Timestamp),
    (14, 8, Layer::Icmpv4TimestampReply),
    (14, 19, Layer::Icmpv4TimestampReply),
    (14, 21, Layer::Icmpv4TimestampReply),
];

fn expect_wrong_length(rt: &impl Abort, row: &(u8, usize, Layer)) {
    let (type_u8, len, layer) = *row;
    let bytes = packet(type_u8, 0);
    expect_refused(rt, bytes_to(rt, &bytes, len), &wrong_length(layer, 20, len));
}

#[test]
fn timestamps_have_twenty_bytes(rt: HostRuntime) {
    for row in &WRONG_LENGTHS {
        expect_wrong_length(&rt, row);
    }
    let bytes = packet(13, 1);
    let (header, rest) = header_of(&rt, &bytes);
    expect_equal(&rt, &header.icmp_type, &unknown(13, 1, [0; 4]));
    expect_equal(&rt, &rest.len(), &13);
}

#[test]
fn timestamps_are_read_and_written(rt: HostRuntime) {
    let bytes = [14, 0, 0, 0, 0, 1, 0, 2, 0, 0, 0, 3, 0, 0, 0, 4, 0, 0, 0, 5];
    let (header, rest) = header_of(&rt, &bytes);
    expect_equal(&rt, &header.icmp_type, &Icmpv4Type::TimestampReply(times()));
    expect_equal(&rt, &rest, &[].as_slice());
    expect_header_bytes(&rt, &header, &bytes);
    let lengths = (header.header_len(), header.icmp_type.header_len());
    expect_equal(&rt, &lengths, &(20, 20));
    let sizes = (
        header.fixed_payload_size(),
        header.icmp_type.fixed_payload_size(),
    );
    expect_equal(&rt, &sizes, &(Some(0), Some(0)));
    let packet = slice_of(&rt, &bytes);
    expect_equal(&rt, &(packet.header_len(), packet.payload()), &(20, &[]));
    let fields = [0, 1, 0, 2, 0, 0, 0, 3, 0, 0, 0, 4, 0, 0, 0, 5];
    expect_equal(&rt, &TimestampMessage::from_bytes(fields), &times());
}

#[test]
fn raw_headers_are_read_as_timestamps(rt: HostRuntime) {
    let raw = Icmpv4Header::new(Icmpv4Type::Unknown {
        type_u8: 13,
        code_u8: 0,
        bytes5to8: [0; 4],
    });
    let written = raw.to_bytes();
    expect_equal(
        &rt,
        &written.as_slice(),
        &[13, 0, 0, 0, 0, 0, 0, 0].as_slice(),
    );
    let error = Icmpv4Header::from_slice(&written).err();
    expect_equal(
        &rt,
        &error,
        &Some(wrong_length(Layer::Icmpv4Timestamp, 20, 8)),
    );
    let mut bytes = [0; 20];
    bytes[..8].copy_from_slice(written.as_slice());
    bytes[19] = 5;
    let (header, rest) = header_of(&rt, &bytes);
    let request = TimestampMessage {
        transmit_timestamp: 5,
        ..TimestampMessage::from_bytes([0; 16])
    };
    expect_equal(
        &rt,
        &header.icmp_type,
        &Icmpv4Type::TimestampRequest(request),
    );
    expect_equal(&rt, &rest, &[].as_slice());
}

#[rattlefmt::skip]
static SUMMED: [(Icmpv4Type, &[u8]); 4] = [
    (Icmpv4Type::EchoRequest(IcmpEchoHeader { id: 1, seq: 2 }), &[8, 0, 0xF7, 0xFC, 0, 1, 0, 2]),
    (Icmpv4Type::EchoReply(IcmpEchoHeader { id: 0, seq: 0 }), &[0, 0, 0xFF, 0xFF, 0, 0, 0, 0]),
    (
        Icmpv4Type::DestinationUnreachable(DestUnreachableHeader::FragmentationNeeded { next_hop_mtu: 1500 }),
        &[3, 4, 0xF7, 0x1F, 0, 0, 5, 0xDC],
    ),
    (
        Icmpv4Type::TimestampRequest(TimestampMessage {
            id: 1, seq: 2, originate_timestamp: 3, receive_timestamp: 4, transmit_timestamp: 5,
        }),
        &[13, 0, 0xF2, 0xF0, 0, 1, 0, 2, 0, 0, 0, 3, 0, 0, 0, 4, 0, 0, 0, 5],
    ),
];

/// Tests that both calls store the right checksum of a message of this kind.
fn expect_stored(rt: &impl Abort, icmp_type: &Icmpv4Type, written: &[u8]) {
    let mut updated = Icmpv4Header::new(expect_ok(rt, icmp_type.clone()));
    expect_equal(rt, &updated.checksum, &0);
    updated.update_checksum(&[]);
    let header = Icmpv4Header::with_checksum(expect_ok(rt, icmp_type.clone()), &[]);
    expect_header_bytes(rt, &header, written);
    expect_equal(rt, &updated, &header);
    expect_equal(rt, &icmp_type.calc_checksum(&[]), &header.checksum);
    expect_equal(rt, &slice_of(rt, written).is_checksum_valid(), &true);
}

#[test]
fn checksums_are_stored(rt: HostRuntime) {
    for (icmp_type, written) in &SUMMED {
        expect_stored(&rt, icmp_type, written);
    }
    let request = Icmpv4Type::TimestampRequest(times());
    expect_equal(&rt, &request.calc_checksum(&[1]), &0xF1F0);
    let mut bytes = [0; 21];
    let header = Icmpv4Header::with_checksum(request, &[1]);
    bytes[..20].copy_from_slice(header.to_bytes().as_slice());
    bytes[20] = 1;
    let error = Icmpv4Header::from_slice(&bytes).err();
    expect_equal(
        &rt,
        &error,
        &Some(wrong_length(Layer::Icmpv4Timestamp, 20, 21)),
    );
}

#[rattlefmt::skip]
static VALIDITY: [(&[u8], bool); 13] = [
    (&[8, 0, 0xF7, 0xFC, 0, 1, 0, 2], true),
    (&[8, 0, 0xF7, 0xFC, 0, 1, 0, 3], false),
    (&[8, 0, 0xF7, 0xFC, 0, 2, 0, 1], true),
    (&[8, 0, 0xF6, 0xFC, 0, 1, 0, 2, 1], true),
    (&[8, 0, 0xF6, 0xFC, 0, 1, 0, 2, 3], false),
    (&[0, 0, 0xFF, 0xFF, 0, 0, 0, 0], true),
    (&[0, 0, 0, 0, 0, 0, 0, 0], false),
    // The checksum is 0, and FFFF is accepted instead of 0.
    (&[0, 0, 0, 0, 0xFF, 0xFF, 0, 0], true),
    (&[0, 0, 0xFF, 0xFF, 0xFF, 0xFF, 0, 0], true),
    (&[0, 0, 0, 1, 0xFF, 0xFF, 0, 0], false),
    // Bytes 4 to 7 are unused, and are summed as received.
    (&[3, 1, 0xDA, 0xC2, 0x12, 0x34, 0, 0, 7, 8, 9], true),
    (&[13, 0, 0xF2, 0xF0, 0, 1, 0, 2, 0, 0, 0, 3, 0, 0, 0, 4, 0, 0, 0, 5], true),
    (&[13, 0, 0xF2, 0xF0, 0, 1, 0, 2, 0, 0, 0, 3, 0, 0, 0, 4, 0, 0, 0, 4], false),
];

#[test]
fn changes_are_detected_but_for_zeros_and_exchanges(rt: HostRuntime) {
    for (bytes, valid) in &VALIDITY {
        let is_valid = slice_of(&rt, bytes).is_checksum_valid();
        expect_equal(&rt, &(bytes, &is_valid), &(bytes, valid));
    }
}

static ECHO: [u8; 10] = [8, 0, 0x12, 0x34, 1, 2, 3, 4, 5, 6];

/// Tests the parts of `ECHO`.
fn expect_parts(rt: &impl Abort, packet: &Icmpv4Slice<'_>) {
    expect_equal(rt, &packet.slice(), &ECHO.as_slice());
    expect_equal(
        rt,
        &(
            packet.type_u8(),
            packet.code_u8(),
            packet.checksum(),
            packet.bytes5to8(),
        ),
        &(8, 0, 0x1234, [1, 2, 3, 4]),
    );
    expect_equal(rt, &(packet.header_len(), packet.payload()), &(8, &[5, 6]));
}

#[test]
fn slices_give_their_parts(rt: HostRuntime) {
    let packet = slice_of(&rt, &ECHO);
    expect_parts(&rt, &packet);
    let echo = IcmpEchoHeader::from_bytes([1, 2, 3, 4]);
    expect_equal(
        &rt,
        &echo,
        &IcmpEchoHeader {
            id: 0x0102,
            seq: 0x0304,
        },
    );
    expect_equal(&rt, &echo.to_bytes(), &[1, 2, 3, 4]);
    expect_equal(&rt, &packet.icmp_type(), &Icmpv4Type::EchoRequest(echo));
    let (header, rest) = header_of(&rt, &ECHO);
    expect_equal(&rt, &packet.header(), &header);
    expect_equal(&rt, &(header.checksum, rest), &(0x1234, packet.payload()));
    expect_clone(&rt, &packet);
    let shorter = slice_of(&rt, bytes_to(&rt, &ECHO, 9));
    expect_equal(&rt, &(packet == shorter), &false);
    expect_debug_text(
        &rt,
        &slice_of(&rt, bytes_to(&rt, &ECHO, 8)),
        "Icmpv4Slice { slice: [8, 0, 18, 52, 1, 2, 3, 4] }",
    );
}

/// The numbers of types and codes that are listed, not listed, and refused.
type Counts = (usize, usize, usize);

/// The result of reading a packet with a type and code.
#[derive(Clone, Copy)]
enum Outcome {
    Listed,
    Unknown,
    Refused,
}

fn counted(counts: Counts, outcome: Outcome) -> Counts {
    let (listed, unknown, refused) = counts;
    match outcome {
        Outcome::Listed => (listed.saturating_add(1), unknown, refused),
        Outcome::Unknown => (listed, unknown.saturating_add(1), refused),
        Outcome::Refused => (listed, unknown, refused.saturating_add(1)),
    }
}

fn is_timestamp(type_u8: u8, code_u8: u8) -> bool {
    (type_u8 == 13 || type_u8 == 14) && code_u8 == 0
}

/// Returns the layer in the error for a timestamp message of this type.
fn timestamp_layer(type_u8: u8) -> Layer {
    if type_u8 == 13 {
        Layer::Icmpv4Timestamp
    } else {
        Layer::Icmpv4TimestampReply
    }
}

/// Tests that the kind is unknown, and contains this type, this code, and bytes 4 to 7.
fn expect_unknown(rt: &impl Abort, icmp_type: &Icmpv4Type, type_u8: u8, code_u8: u8) {
    let is_expected = match icmp_type {
        Icmpv4Type::Unknown {
            type_u8: read_type,
            code_u8: read_code,
            bytes5to8,
        } => {
            *read_type == type_u8 && *read_code == code_u8 && are_same(bytes5to8, &[1, 2, 3, 4])
        }
        _ => false,
    };
    if !is_expected {
        expect_equal(rt, icmp_type, &unknown(type_u8, code_u8, [1, 2, 3, 4]));
    }
}

/// Tests that the kind is listed in the row of this type and code, or is unknown if there is no row. Returns which of these it is, and the
/// kept bits of bytes 4 to 7.
fn expect_kind(
    rt: &(impl Abort + AllocGlobal),
    icmp_type: &Icmpv4Type,
    type_u8: u8,
    code_u8: u8,
) -> (Outcome, [u8; 4]) {
    match listed(type_u8, code_u8) {
        Some(row) => {
            expect_debug_text(rt, icmp_type, row.2);
            (Outcome::Listed, row.3)
        }
        None => {
            expect_unknown(rt, icmp_type, type_u8, code_u8);
            (Outcome::Unknown, [1, 2, 3, 4])
        }
    }
}

/// Tests the first `len` bytes of a packet with this type and code. They are read as a header and the bytes after it.
fn expect_front(rt: &(impl Abort + AllocGlobal), type_u8: u8, code_u8: u8, len: usize) -> Outcome {
    let mut packet = [
        type_u8, code_u8, 0x12, 0x34, 1, 2, 3, 4, 5, 6, 7, 8, 9, 10, 11, 12, 13, 14, 15, 16, 17,
    ];
    let header_len = if is_timestamp(type_u8, code_u8) {
        20
    } else {
        8
    };
    let read = bytes_to(rt, &packet, len);
    let (header, rest) = header_of(rt, read);
    expect_bytes(rt, rest, bytes_from(rt, read, header_len));
    let (outcome, kept) = expect_kind(rt, &header.icmp_type, type_u8, code_u8);
    packet[4..8].copy_from_slice(&kept);
    expect_header_bytes(rt, &header, bytes_to(rt, &packet, header_len));
    outcome
}

/// Tests that the first `len` bytes of a timestamp message of this type are refused.
fn expect_refused_timestamp(rt: &impl Abort, type_u8: u8, len: usize) -> Outcome {
    let packet = [
        type_u8, 0, 0x12, 0x34, 1, 2, 3, 4, 5, 6, 7, 8, 9, 10, 11, 12, 13, 14, 15, 16, 17,
    ];
    let error = wrong_length(timestamp_layer(type_u8), 20, len);
    let read = Icmpv4Header::from_slice(bytes_to(rt, &packet, len)).err();
    expect_equal(rt, &read, &Some(error));
    Outcome::Refused
}

fn expect_read_or_refused(
    rt: &(impl Abort + AllocGlobal),
    type_u8: u8,
    code_u8: u8,
    len: usize,
) -> Outcome {
    if is_timestamp(type_u8, code_u8) && len != 20 {
        expect_refused_timestamp(rt, type_u8, len)
    } else {
        expect_front(rt, type_u8, code_u8, len)
    }
}

/// A length, and the numbers of types and codes that are listed, not listed, and refused.
#[rattlefmt::skip]
static ALL_KINDS: [(usize, Counts); 3] = [(8, (27, 65507, 2)), (20, (29, 65507, 0)), (21, (27, 65507, 2))];

#[test]
fn every_type_and_code_is_read(rt: HostRuntime) {
    for (len, expected) in &ALL_KINDS {
        let mut counts = (0, 0, 0);
        for type_u8 in 0..=u8::MAX {
            for code_u8 in 0..=u8::MAX {
                counts = counted(counts, expect_read_or_refused(&rt, type_u8, code_u8, *len));
            }
        }
        expect_equal(&rt, &(len, &counts), &(len, expected));
    }
}

/// Returns the kind of a timestamp message of this type, if bytes 4 to 7 are 01 02 03 04, and its times are 0.
fn timestamp(type_u8: u8) -> Icmpv4Type {
    let message = TimestampMessage {
        id: 0x0102,
        seq: 0x0304,
        originate_timestamp: 0,
        receive_timestamp: 0,
        transmit_timestamp: 0,
    };
    if type_u8 == 13 {
        Icmpv4Type::TimestampRequest(message)
    } else {
        Icmpv4Type::TimestampReply(message)
    }
}

/// Returns the bytes of the header with this type and code, and twelve zeros after it.
fn raw_packet(type_u8: u8, code_u8: u8) -> [u8; 20] {
    [
        type_u8, code_u8, 0x12, 0x34, 1, 2, 3, 4, 0, 0, 0, 0, 0, 0, 0, 0, 0, 0, 0, 0,
    ]
}

/// Tests that the raw header is read back as the kind of its type and code. Zeros follow the bytes of the header.
fn expect_raw_kind(
    rt: &(impl Abort + AllocGlobal),
    raw: &Icmpv4Header,
    type_u8: u8,
    code_u8: u8,
    zeros: usize,
) -> Outcome {
    let packet = raw_packet(type_u8, code_u8);
    let (header, rest) = header_of(rt, bytes_to(rt, &packet, zeros.saturating_add(8)));
    let is_timestamp = is_timestamp(type_u8, code_u8);
    let expected = (0x1234, if is_timestamp { 0 } else { zeros });
    expect_equal(rt, &(header.checksum, rest.len()), &expected);
    if is_timestamp {
        expect_equal(rt, &header.icmp_type, &timestamp(type_u8));
        return Outcome::Listed;
    }
    let (outcome, _) = expect_kind(rt, &header.icmp_type, type_u8, code_u8);
    if let Outcome::Unknown = outcome {
        expect_equal(rt, &header, raw);
    }
    outcome
}

/// Writes the raw header of this type and code. Tests whether its bytes, followed by zeros, are read or refused.
fn expect_raw(rt: &(impl Abort + AllocGlobal), type_u8: u8, code_u8: u8, zeros: usize) -> Outcome {
    let raw = Icmpv4Header {
        icmp_type: unknown(type_u8, code_u8, [1, 2, 3, 4]),
        checksum: 0x1234,
    };
    let packet = raw_packet(type_u8, code_u8);
    expect_header_bytes(rt, &raw, bytes_to(rt, &packet, 8));
    if !is_timestamp(type_u8, code_u8) || zeros == 12 {
        return expect_raw_kind(rt, &raw, type_u8, code_u8, zeros);
    }
    let len = zeros.saturating_add(8);
    let error = Icmpv4Header::from_slice(bytes_to(rt, &packet, len)).err();
    expect_equal(
        rt,
        &error,
        &Some(wrong_length(timestamp_layer(type_u8), 20, len)),
    );
    Outcome::Refused
}

/// The number of zeros after the 8 written bytes, and the numbers of headers that are read as a listed kind, read unchanged, and refused.
static ALL_RAW: [(usize, Counts); 2] = [(0, (27, 65507, 2)), (12, (29, 65507, 0))];

#[test]
fn every_raw_header_is_read_by_type_and_code(rt: HostRuntime) {
    for (zeros, expected) in &ALL_RAW {
        let mut counts = (0, 0, 0);
        for type_u8 in 0..=u8::MAX {
            for code_u8 in 0..=u8::MAX {
                counts = counted(counts, expect_raw(&rt, type_u8, code_u8, *zeros));
            }
        }
        expect_equal(&rt, &(zeros, &counts), &(zeros, expected));
    }
}

/// Tests that the value between the texts is shown as in the row of this type and code. If there is no row, there is no value.
fn expect_listed<T: Debug>(
    rt: &(impl Abort + AllocGlobal),
    key: (u8, u8),
    value: &Option<T>,
    before: &str,
    after: &str,
) {
    let text = match value {
        Some(value) => expect_ok(rt, format!(in rt.alloc(); "{before}{value:?}{after}")),
        None => String::new(rt.alloc()),
    };
    expect_equal(rt, &text.as_str(), &text_of(key.0, key.1));
}

/// Tests that a value that was made from this code has the same code.
fn expect_code(rt: &impl Abort, found: Option<u8>, code_u8: u8) {
    expect_equal(rt, &found.unwrap_or(code_u8), &code_u8);
}

fn expect_variants(rt: &(impl Abort + AllocGlobal), code_u8: u8) {
    let header = DestUnreachableHeader::from_values(code_u8, 772);
    expect_code(rt, header.as_ref().map(|header| header.code_u8()), code_u8);
    expect_listed(rt, (3, code_u8), &header, "DestinationUnreachable(", ")");
    let code = RedirectCode::from_u8(code_u8);
    expect_code(rt, code.map(|code| code.code_u8()), code_u8);
    let after = ", gateway_internet_address: [1, 2, 3, 4] })";
    expect_listed(
        rt,
        (5, code_u8),
        &code,
        "Redirect(RedirectHeader { code: ",
        after,
    );
    let code = TimeExceededCode::from_u8(code_u8);
    expect_code(rt, code.map(|code| code.code_u8()), code_u8);
    expect_listed(rt, (11, code_u8), &code, "TimeExceeded(", ")");
    let header = ParameterProblemHeader::from_values(code_u8, 1);
    expect_listed(rt, (12, code_u8), &header, "ParameterProblem(", ")");
}

#[test]
fn codes_have_their_variants(rt: HostRuntime) {
    for code_u8 in 0..=u8::MAX {
        expect_variants(&rt, code_u8);
    }
}

#[rattlefmt::skip]
static TYPES: [(u8, u8); 16] = [
    (TYPE_ECHO_REPLY, 0),
    (TYPE_DEST_UNREACH, 3),
    (TYPE_SOURCE_QUENCH, 4),
    (TYPE_REDIRECT, 5),
    (TYPE_ALTERNATE_HOST_ADDRESS, 6),
    (TYPE_ECHO_REQUEST, 8),
    (TYPE_ROUTER_ADVERTISEMENT, 9),
    (TYPE_ROUTER_SOLICITATION, 10),
    (TYPE_TIME_EXCEEDED, 11),
    (TYPE_PARAMETER_PROBLEM, 12),
    (TYPE_TIMESTAMP, 13),
    (TYPE_TIMESTAMP_REPLY, 14),
    (TYPE_INFO_REQUEST, 15),
    (TYPE_INFO_REPLY, 16),
    (TYPE_ADDRESS, 17),
    (TYPE_ADDRESSREPLY, 18),
];

#[rattlefmt::skip]
static CODES: [(u8, u8); 25] = [
    (CODE_DST_UNREACH_NET, 0),
    (CODE_DST_UNREACH_HOST, 1),
    (CODE_DST_UNREACH_PROTOCOL, 2),
    (CODE_DST_UNREACH_PORT, 3),
    (CODE_DST_UNREACH_NEED_FRAG, 4),
    (CODE_DST_UNREACH_SOURCE_ROUTE_FAILED, 5),
    (CODE_DST_UNREACH_NET_UNKNOWN, 6),
    (CODE_DST_UNREACH_HOST_UNKNOWN, 7),
    (CODE_DST_UNREACH_ISOLATED, 8),
    (CODE_DST_UNREACH_NET_PROHIB, 9),
    (CODE_DST_UNREACH_HOST_PROHIB, 10),
    (CODE_DST_UNREACH_TOS_NET, 11),
    (CODE_DST_UNREACH_TOS_HOST, 12),
    (CODE_DST_UNREACH_FILTER_PROHIB, 13),
    (CODE_DST_UNREACH_HOST_PRECEDENCE_VIOLATION, 14),
    (CODE_DST_UNREACH_PRECEDENCE_CUTOFF, 15),
    (CODE_REDIRECT_FOR_NETWORK, 0),
    (CODE_REDIRECT_FOR_HOST, 1),
    (CODE_REDIRECT_TYPE_OF_SERVICE_AND_NETWORK, 2),
    (CODE_REDIRECT_TYPE_OF_SERVICE_AND_HOST, 3),
    (CODE_TIME_EXCEEDED_TTL_EXCEEDED_IN_TRANSIT, 0),
    (CODE_TIME_EXCEEDED_FRAG_REASSEMBLY_TIME_EXCEEDED, 1),
    (CODE_PARAMETER_PROBLEM_POINTER_INDICATES_ERROR, 0),
    (CODE_PARAMETER_PROBLEM_MISSING_REQUIRED_OPTION, 1),
    (CODE_PARAMETER_PROBLEM_BAD_LENGTH, 2),
];

#[test]
fn constants_have_their_values(rt: HostRuntime) {
    for (constant, value) in &TYPES {
        expect_equal(&rt, constant, value);
    }
    for (constant, value) in &CODES {
        expect_equal(&rt, constant, value);
    }
    expect_equal(&rt, &(IcmpEchoHeader::LEN, IcmpEchoHeader::ID_AT), &(4, 4));
    expect_equal(&rt, &Icmpv4Header::CHECKSUM_AT, &2);
    expect_equal(
        &rt,
        &(TimestampMessage::LEN, TimestampMessage::SERIALIZED_SIZE),
        &(20, 20),
    );
    expect_equal(
        &rt,
        &(Icmpv4Header::MIN_LEN, Icmpv4Header::MIN_SERIALIZED_SIZE),
        &(8, 8),
    );
    expect_equal(
        &rt,
        &(Icmpv4Header::MAX_LEN, Icmpv4Header::MAX_SERIALIZED_SIZE),
        &(20, 20),
    );
}

#[rattlefmt::skip]
static CLONED: [Icmpv4Type; 9] = [
    Icmpv4Type::Unknown { type_u8: 200, code_u8: 100, bytes5to8: [1, 2, 3, 4] },
    Icmpv4Type::EchoReply(IcmpEchoHeader { id: 1, seq: 2 }),
    Icmpv4Type::DestinationUnreachable(DestUnreachableHeader::FragmentationNeeded { next_hop_mtu: 1500 }),
    Icmpv4Type::Redirect(RedirectHeader {
        code: RedirectCode::RedirectForTypeOfServiceAndHost, gateway_internet_address: [192, 168, 0, 1],
    }),
    Icmpv4Type::EchoRequest(IcmpEchoHeader { id: 1, seq: 2 }),
    Icmpv4Type::TimeExceeded(TimeExceededCode::FragmentReassemblyTimeExceeded),
    Icmpv4Type::ParameterProblem(ParameterProblemHeader::PointerIndicatesError(7)),
    Icmpv4Type::TimestampRequest(TimestampMessage {
        id: 1, seq: 2, originate_timestamp: 3, receive_timestamp: 4, transmit_timestamp: 5,
    }),
    Icmpv4Type::TimestampReply(TimestampMessage {
        id: 1, seq: 2, originate_timestamp: 3, receive_timestamp: 4, transmit_timestamp: 5,
    }),
];

/// Tests that a clone of the kind equals the kind, also in a header.
fn expect_cloned_kind(rt: &impl Abort, icmp_type: &Icmpv4Type) {
    let header = Icmpv4Header {
        icmp_type: expect_ok(rt, icmp_type.clone()),
        checksum: 0x1234,
    };
    expect_equal(rt, &header.icmp_type, icmp_type);
    expect_clone(rt, &header);
}

#[test]
fn clones_are_equal(rt: HostRuntime) {
    let redirect = RedirectHeader {
        code: RedirectCode::RedirectForTypeOfServiceAndHost,
        gateway_internet_address: [192, 168, 0, 1],
    };
    expect_clone(&rt, &redirect);
    expect_clone(
        &rt,
        &DestUnreachableHeader::FragmentationNeeded { next_hop_mtu: 1500 },
    );
    expect_clone(&rt, &ParameterProblemHeader::PointerIndicatesError(7));
    expect_clone(&rt, &times());
    expect_clone(&rt, &TimeExceededCode::FragmentReassemblyTimeExceeded);
    expect_clone(&rt, &redirect.code);
    expect_clone(&rt, &IcmpEchoHeader { id: 1, seq: 2 });
    for icmp_type in &CLONED {
        expect_cloned_kind(&rt, icmp_type);
    }
    let echo = Icmpv4Type::EchoRequest(IcmpEchoHeader { id: 1, seq: 2 });
    expect_debug_text(
        &rt,
        &Icmpv4Header::with_checksum(echo, &[]),
        "Icmpv4Header { icmp_type: EchoRequest(IcmpEchoHeader { id: 1, seq: 2 }), checksum: 63484 }",
    );
}

fn hash_of(echo: IcmpEchoHeader) -> u64 {
    let mut hasher = DefaultHasher::new();
    echo.hash(&mut hasher);
    hasher.finish()
}

#[rattlefmt::skip]
static IN_ORDER: [IcmpEchoHeader; 4] = [
    IcmpEchoHeader { id: 0, seq: 0 }, IcmpEchoHeader { id: 0, seq: 9 }, IcmpEchoHeader { id: 1, seq: 2 }, IcmpEchoHeader { id: 2, seq: 1 },
];

/// Tests that the order of the headers is the order of their places.
fn expect_order(
    rt: &impl Abort,
    places: (usize, usize),
    echo: &IcmpEchoHeader,
    other: &IcmpEchoHeader,
) {
    let order = places.0.cmp(&places.1);
    let found = (
        echo.cmp(other),
        echo.partial_cmp(other),
        hash_of(*echo) == hash_of(*other),
    );
    expect_equal(
        rt,
        &(places, found),
        &(places, (order, Some(order), places.0 == places.1)),
    );
}

#[test]
fn echo_headers_are_ordered_and_hashed(rt: HostRuntime) {
    for (place, echo) in IN_ORDER.iter().enumerate() {
        for (other_place, other) in IN_ORDER.iter().enumerate() {
            expect_order(&rt, (place, other_place), echo, other);
        }
    }
}

/// Returns whether each value equals only itself.
fn differ<T: PartialEq>(values: &[T]) -> bool {
    for (place, value) in values.iter().enumerate() {
        for (other_place, other) in values.iter().enumerate() {
            if (value == other) != (place == other_place) {
                return false;
            }
        }
    }
    true
}

/// A timestamp message, and each of its fields changed.
#[rattlefmt::skip]
static MESSAGES: [TimestampMessage; 6] = [
    TimestampMessage { id: 1, seq: 2, originate_timestamp: 3, receive_timestamp: 4, transmit_timestamp: 5 },
    TimestampMessage { id: 7, seq: 2, originate_timestamp: 3, receive_timestamp: 4, transmit_timestamp: 5 },
    TimestampMessage { id: 1, seq: 7, originate_timestamp: 3, receive_timestamp: 4, transmit_timestamp: 5 },
    TimestampMessage { id: 1, seq: 2, originate_timestamp: 7, receive_timestamp: 4, transmit_timestamp: 5 },
    TimestampMessage { id: 1, seq: 2, originate_timestamp: 3, receive_timestamp: 7, transmit_timestamp: 5 },
    TimestampMessage { id: 1, seq: 2, originate_timestamp: 3, receive_timestamp: 4, transmit_timestamp: 7 },
];

#[rattlefmt::skip]
static UNLIKE: [Icmpv4Type; 18] = [
    Icmpv4Type::Redirect(RedirectHeader { code: RedirectCode::RedirectForHost, gateway_internet_address: [10, 0, 0, 1] }),
    Icmpv4Type::Redirect(RedirectHeader { code: RedirectCode::RedirectForHost, gateway_internet_address: [10, 0, 0, 2] }),
    Icmpv4Type::Redirect(RedirectHeader { code: RedirectCode::RedirectForNetwork, gateway_internet_address: [10, 0, 0, 1] }),
    Icmpv4Type::Unknown { type_u8: 200, code_u8: 1, bytes5to8: [0, 0, 0, 1] },
    Icmpv4Type::Unknown { type_u8: 200, code_u8: 1, bytes5to8: [0, 0, 0, 2] },
    Icmpv4Type::Unknown { type_u8: 200, code_u8: 2, bytes5to8: [0, 0, 0, 1] },
    Icmpv4Type::Unknown { type_u8: 201, code_u8: 1, bytes5to8: [0, 0, 0, 1] },
    Icmpv4Type::DestinationUnreachable(DestUnreachableHeader::FragmentationNeeded { next_hop_mtu: 1500 }),
    Icmpv4Type::DestinationUnreachable(DestUnreachableHeader::FragmentationNeeded { next_hop_mtu: 1501 }),
    Icmpv4Type::ParameterProblem(ParameterProblemHeader::PointerIndicatesError(1)),
    Icmpv4Type::ParameterProblem(ParameterProblemHeader::PointerIndicatesError(2)),
    Icmpv4Type::EchoRequest(IcmpEchoHeader { id: 1, seq: 1 }),
    Icmpv4Type::EchoRequest(IcmpEchoHeader { id: 1, seq: 2 }),
    Icmpv4Type::EchoReply(IcmpEchoHeader { id: 1, seq: 1 }),
    Icmpv4Type::TimeExceeded(TimeExceededCode::TtlExceededInTransit),
    Icmpv4Type::TimeExceeded(TimeExceededCode::FragmentReassemblyTimeExceeded),
    Icmpv4Type::TimestampRequest(TimestampMessage {
        id: 1, seq: 2, originate_timestamp: 3, receive_timestamp: 4, transmit_timestamp: 5,
    }),
    Icmpv4Type::TimestampReply(TimestampMessage {
        id: 1, seq: 2, originate_timestamp: 3, receive_timestamp: 4, transmit_timestamp: 5,
    }),
];

#[rattlefmt::skip]
static HEADERS: [Icmpv4Header; 3] = [
    Icmpv4Header { icmp_type: Icmpv4Type::Unknown { type_u8: 200, code_u8: 1, bytes5to8: [0, 0, 0, 1] }, checksum: 1 },
    Icmpv4Header { icmp_type: Icmpv4Type::Unknown { type_u8: 200, code_u8: 1, bytes5to8: [0, 0, 0, 1] }, checksum: 2 },
    Icmpv4Header { icmp_type: Icmpv4Type::Unknown { type_u8: 200, code_u8: 1, bytes5to8: [0, 0, 0, 2] }, checksum: 1 },
];

#[test]
fn one_field_makes_a_difference(rt: HostRuntime) {
    expect_equal(&rt, &MESSAGES[0], &times());
    expect_equal(&rt, &differ(&MESSAGES), &true);
    expect_equal(&rt, &differ(&UNLIKE), &true);
    expect_equal(&rt, &differ(&HEADERS), &true);
    let bytes = times().to_bytes();
    expect_equal(
        &rt,
        &bytes,
        &[0, 1, 0, 2, 0, 0, 0, 3, 0, 0, 0, 4, 0, 0, 0, 5],
    );
    expect_equal(&rt, &TimestampMessage::from_bytes(bytes), &times());
    let codes = (
        ParameterProblemHeader::PointerIndicatesError(9).code_u8(),
        ParameterProblemHeader::MissingRequiredOption.code_u8(),
        ParameterProblemHeader::BadLength.code_u8(),
    );
    expect_equal(&rt, &codes, &(0, 1, 2));
}
