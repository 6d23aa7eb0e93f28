use crate::expect::{append, expect_equal, expect_ok, expect_text};
use capture_file::classic::laws::count_records;
use capture_file::classic::{
    CaptureHeader, CaptureHeaderError, MAX_CAPTURED_LEN, NextRecord, RecordHeader, Resolution,
    Time, read_capture_header, read_record,
};
use capture_file::{ByteOrder, LinkType};
use std::process::Abort;
use streams::new_buffer;

/// The first bytes of a header, its byte order and its resolution.
type Form = ([u8; 4], ByteOrder, Resolution);

static FORMS: [Form; 4] = [
    (
        [0xA1, 0xB2, 0xC3, 0xD4],
        ByteOrder::BigEndian,
        Resolution::Microseconds,
    ),
    (
        [0xA1, 0xB2, 0x3C, 0x4D],
        ByteOrder::BigEndian,
        Resolution::Nanoseconds,
    ),
    (
        [0xD4, 0xC3, 0xB2, 0xA1],
        ByteOrder::LittleEndian,
        Resolution::Microseconds,
    ),
    (
        [0x4D, 0x3C, 0xB2, 0xA1],
        ByteOrder::LittleEndian,
        Resolution::Nanoseconds,
    ),
];

/// The numbers of the link types.
static LINK_TYPES: [(u16, LinkType); 25] = [
    (0, LinkType::BsdLoopback),
    (1, LinkType::Ethernet),
    (9, LinkType::Ppp),
    (12, LinkType::RawIp),
    (14, LinkType::RawIp),
    (50, LinkType::PppHdlc),
    (51, LinkType::PppOverEthernet),
    (101, LinkType::RawIp),
    (104, LinkType::CiscoHdlc),
    (105, LinkType::Ieee80211),
    (107, LinkType::FrameRelay),
    (108, LinkType::OpenBsdLoopback),
    (113, LinkType::LinuxCooked),
    (117, LinkType::Pflog),
    (119, LinkType::Prism),
    (127, LinkType::Radiotap),
    (163, LinkType::Avs),
    (192, LinkType::Ppi),
    (226, LinkType::Ipnet),
    (228, LinkType::RawIp),
    (229, LinkType::RawIp),
    (239, LinkType::Nflog),
    (242, LinkType::InfiniBand),
    (258, LinkType::Pktap),
    (276, LinkType::LinuxCooked2),
];

/// The snap length of the headers, which has another value in the other byte order.
const SNAP_LEN: u32 = 65_535;

/// A header of version 2.4 with these first bytes, this snap length and this link type. The high bits of its number say that there is a
/// frame check sequence of 4 bytes.
#[rattlefmt::skip]
fn header_bytes(first: [u8; 4], order: ByteOrder, link_type: u16) -> [u8; 24] {
    let number = 0x2400_0000 + u32::from(link_type);
    let (version, snap_len, last) = match order {
        ByteOrder::BigEndian => ([0, 2, 0, 4], SNAP_LEN.to_be_bytes(), number.to_be_bytes()),
        ByteOrder::LittleEndian => ([2, 0, 4, 0], SNAP_LEN.to_le_bytes(), number.to_le_bytes()),
    };
    [
        first[0], first[1], first[2], first[3],
        version[0], version[1], version[2], version[3],
        0, 0, 0, 0,
        0, 0, 0, 0,
        snap_len[0], snap_len[1], snap_len[2], snap_len[3],
        last[0], last[1], last[2], last[3],
    ]
}

/// Reads the header of a capture from these bytes, and returns how many bytes are left.
fn read_header(
    rt: &impl Abort,
    bytes: &[u8],
) -> (Result<CaptureHeader, CaptureHeaderError>, usize) {
    let mut input = bytes;
    let header = expect_ok(rt, read_capture_header(&mut input));
    (header, input.len())
}

/// Stops the test unless these bytes are refused as a header with this error.
fn expect_refusal(rt: &impl Abort, bytes: &[u8], error: CaptureHeaderError) {
    expect_equal(rt, &read_header(rt, bytes).0, &Err(error));
}

/// Stops the test unless a header of this form and with this link type is read to its end.
fn expect_header(rt: &impl Abort, form: &Form, number: u16, link_type: Result<LinkType, u16>) {
    let (first, byte_order, resolution) = *form;
    let header = CaptureHeader {
        byte_order,
        resolution,
        snap_len: SNAP_LEN,
        link_type,
    };
    let (read, left) = read_header(rt, &header_bytes(first, byte_order, number));
    expect_equal(rt, &read, &Ok(header));
    expect_equal(rt, &left, &0);
}

/// Stops the test unless a header of 23 bytes is cut off.
fn expect_cut_off(rt: &impl Abort, form: &Form) {
    let header = header_bytes(form.0, form.1, 2);
    expect_refusal(rt, &header[..23], CaptureHeaderError::CutOff { len: 23 });
}

/// Stops the test unless the headers of a form are read with each link type, and with a number that is none.
fn expect_headers(rt: &impl Abort, form: &Form) {
    for (number, link_type) in &LINK_TYPES {
        expect_header(rt, form, *number, Ok(*link_type));
    }
    expect_header(rt, form, 2, Err(2));
}

/// Bytes that are not a header, each with the error.
#[rattlefmt::skip]
static NO_HEADERS: [(&[u8], CaptureHeaderError); 5] = [
    (&[0x0A, 0x0D, 0x0D, 0x0A], CaptureHeaderError::Pcapng),
    (&[], CaptureHeaderError::CutOff { len: 0 }),
    (b"\xA1\xB2\xCD\x34, and then twenty bytes", CaptureHeaderError::Modified),
    (b"\x34\xCD\xB2\xA1, and then twenty bytes", CaptureHeaderError::Modified),
    (b"PK\x03\x04, and then twenty bytes", CaptureHeaderError::Magic { magic: 0x504B_0304 }),
];

#[test]
fn headers_are_read(rt: HostRuntime) {
    for form in &FORMS {
        expect_headers(&rt, form);
        expect_cut_off(&rt, form);
    }
    for (bytes, error) in &NO_HEADERS {
        expect_refusal(&rt, bytes, *error);
    }
}

/// The first bytes of a header with microseconds, its byte order, the bytes of its version, and whether the version is read.
type VersionRow = ([u8; 4], ByteOrder, [u8; 4], Option<(u16, u16)>);

#[rattlefmt::skip]
static VERSIONS: [VersionRow; 7] = [
    ([0xA1, 0xB2, 0xC3, 0xD4], ByteOrder::BigEndian, [0, 2, 0, 4], None),
    ([0xD4, 0xC3, 0xB2, 0xA1], ByteOrder::LittleEndian, [2, 0, 5, 0], None),
    ([0xA1, 0xB2, 0xC3, 0xD4], ByteOrder::BigEndian, [0, 2, 0, 3], Some((2, 3))),
    ([0xD4, 0xC3, 0xB2, 0xA1], ByteOrder::LittleEndian, [2, 0, 0, 0], Some((2, 0))),
    ([0xA1, 0xB2, 0xC3, 0xD4], ByteOrder::BigEndian, [0, 1, 0, 4], Some((1, 4))),
    ([0xA1, 0xB2, 0xC3, 0xD4], ByteOrder::BigEndian, [0, 3, 0, 4], Some((3, 4))),
    ([0xA1, 0xB2, 0xC3, 0xD4], ByteOrder::BigEndian, [2, 0, 0, 4], Some((512, 4))),
];

/// What is read of a header of Ethernet in microseconds, if this version of it is refused or if it is read.
fn expected_of(
    byte_order: ByteOrder,
    refused: Option<(u16, u16)>,
) -> Result<CaptureHeader, CaptureHeaderError> {
    match refused {
        Some((major, minor)) => Err(CaptureHeaderError::Version { major, minor }),
        None => Ok(CaptureHeader {
            byte_order,
            resolution: Resolution::Microseconds,
            snap_len: SNAP_LEN,
            link_type: Ok(LinkType::Ethernet),
        }),
    }
}

/// Stops the test unless the version of a row is read, or refused.
fn expect_version(rt: &impl Abort, row: &VersionRow) {
    let (first, byte_order, version, refused) = *row;
    let mut bytes = header_bytes(first, byte_order, 1);
    bytes[4..8].copy_from_slice(&version);
    let (read, _) = read_header(rt, &bytes);
    expect_equal(rt, &read, &expected_of(byte_order, refused));
}

#[test]
fn versions_are_read(rt: HostRuntime) {
    for row in &VERSIONS {
        expect_version(&rt, row);
    }
}

/// The bytes of a number in this order.
fn number_bytes(order: ByteOrder, number: u32) -> [u8; 4] {
    match order {
        ByteOrder::BigEndian => number.to_be_bytes(),
        ByteOrder::LittleEndian => number.to_le_bytes(),
    }
}

/// Appends the header of a record with these lengths, captured at 7 seconds and 9 units.
fn append_record(
    rt: &impl Abort,
    bytes: &mut Vec<u8>,
    order: ByteOrder,
    captured_len: u32,
    original_len: u32,
) {
    append(rt, bytes, &number_bytes(order, 7));
    append(rt, bytes, &number_bytes(order, 9));
    append(rt, bytes, &number_bytes(order, captured_len));
    append(rt, bytes, &number_bytes(order, original_len));
}

/// The header of a record that `append_record` writes.
fn record_header(captured_len: u32, original_len: u32) -> RecordHeader {
    let time = Time {
        seconds: 7,
        fraction: 9,
    };
    RecordHeader {
        time,
        captured_len,
        original_len,
    }
}

/// The length of the longest record that is read whole.
const LIMIT: u32 = 262_144;

/// The captured and the original length of each complete record of a capture.
static RECORDS: [(u32, u32); 4] = [(3, 4), (0, 0), (LIMIT, LIMIT), (LIMIT + 1, LIMIT + 9)];

/// Appends this many bytes, which count up to 250 and from 0 again.
fn append_counted(rt: &impl Abort, bytes: &mut Vec<u8>, len: u32) {
    for place in 0..len {
        expect_ok(rt, bytes.push((place % 251) as u8));
    }
}

/// The records of `RECORDS`, and a record that is cut off.
fn records_in(rt: &(impl Abort + AllocGlobal), order: ByteOrder) -> Vec<u8> {
    let mut bytes = Vec::new(rt.alloc());
    for (captured_len, original_len) in &RECORDS {
        append_record(rt, &mut bytes, order, *captured_len, *original_len);
        append_counted(rt, &mut bytes, *captured_len);
    }
    append_record(rt, &mut bytes, order, 5, 5);
    append(rt, &mut bytes, b"four");
    bytes
}

/// Stops the test unless this is the next record.
fn expect_next(
    rt: &impl Abort,
    input: &mut &[u8],
    order: ByteOrder,
    buffer: &mut [u8],
    expected: NextRecord,
) {
    let next = expect_ok(rt, read_record(input, order, buffer));
    expect_equal(rt, &next, &expected);
}

/// Stops the test unless the next record has the lengths of a row of `RECORDS`.
fn expect_record(
    rt: &impl Abort,
    input: &mut &[u8],
    order: ByteOrder,
    buffer: &mut [u8],
    row: &(u32, u32),
) {
    let (captured_len, original_len) = *row;
    let header = record_header(captured_len, original_len);
    let expected = if captured_len > LIMIT {
        NextRecord::TooLong(header)
    } else {
        NextRecord::Whole(header)
    };
    expect_next(rt, input, order, buffer, expected);
    let is_cut = captured_len != original_len && captured_len != 0;
    expect_equal(rt, &header.is_cut(), &is_cut);
}

/// Stops the test unless the next record is cut off, and nothing follows it.
fn expect_last(
    rt: &impl Abort,
    input: &mut &[u8],
    order: ByteOrder,
    buffer: &mut [u8],
    required_len: usize,
    len: usize,
) {
    let cut_off = NextRecord::CutOff { required_len, len };
    expect_next(rt, input, order, buffer, cut_off);
    expect_next(rt, input, order, buffer, NextRecord::End);
}

/// Stops the test unless these bytes have as many complete records as `RECORDS`.
fn expect_count(rt: &impl Abort, bytes: &[u8], order: ByteOrder, buffer: &mut [u8]) {
    let mut input = bytes;
    let count = expect_ok(rt, count_records(&mut input, order, buffer));
    expect_equal(rt, &count, &4);
}

/// Stops the test unless the records of this byte order are read and counted.
fn expect_records(rt: &impl Abort, bytes: &[u8], order: ByteOrder, buffer: &mut [u8]) {
    let mut input = bytes;
    for row in &RECORDS {
        expect_record(rt, &mut input, order, buffer, row);
    }
    expect_equal(rt, &buffer.get(250), &Some(&250));
    expect_last(rt, &mut input, order, buffer, 21, 20);
    expect_count(rt, bytes, order, buffer);
    // Into a buffer of 0 bytes, all records except the empty one are too long. They are counted too.
    expect_count(rt, bytes, order, &mut []);
}

#[test]
fn records_are_read(rt: HostRuntime) {
    let mut buffer = expect_ok(&rt, new_buffer(rt.alloc(), MAX_CAPTURED_LEN));
    for order in [ByteOrder::BigEndian, ByteOrder::LittleEndian] {
        expect_records(&rt, &records_in(&rt, order), order, &mut buffer);
    }
}

/// The bytes of records, and whether a buffer of three bytes has room for each.
static SHORT_RECORDS: [(&[u8], bool); 4] = [
    (b"abc", true),
    (b"abcd", false),
    (b"", true),
    (b"ef", true),
];

/// The number of these bytes.
fn len_of(rt: &impl Abort, bytes: &[u8]) -> u32 {
    expect_ok(rt, u32::try_from(bytes.len()))
}

/// The records of `SHORT_RECORDS`, and a record that is cut off.
fn short_records_in(rt: &(impl Abort + AllocGlobal), order: ByteOrder) -> Vec<u8> {
    let mut bytes = Vec::new(rt.alloc());
    for (captured, _) in &SHORT_RECORDS {
        let len = len_of(rt, captured);
        append_record(rt, &mut bytes, order, len, len);
        append(rt, &mut bytes, captured);
    }
    append_record(rt, &mut bytes, order, 4, 4);
    append(rt, &mut bytes, b"abc");
    bytes
}

/// Stops the test unless the next record has these bytes, and is in the buffer if there is room for it.
fn expect_short_record(
    rt: &impl Abort,
    input: &mut &[u8],
    order: ByteOrder,
    buffer: &mut [u8],
    captured: &[u8],
    is_whole: bool,
) {
    let len = len_of(rt, captured);
    let header = record_header(len, len);
    if is_whole {
        expect_next(rt, input, order, buffer, NextRecord::Whole(header));
        expect_equal(rt, &buffer.get(..captured.len()), &Some(captured));
    } else {
        expect_next(rt, input, order, buffer, NextRecord::TooLong(header));
    }
}

#[test]
fn records_longer_than_the_buffer_are_passed_over(rt: HostRuntime) {
    let order = ByteOrder::LittleEndian;
    let bytes = short_records_in(&rt, order);
    let mut buffer = [0u8; 3];
    let mut input = bytes.as_slice();
    for (captured, is_whole) in &SHORT_RECORDS {
        expect_short_record(&rt, &mut input, order, &mut buffer, captured, *is_whole);
    }
    expect_last(&rt, &mut input, order, &mut buffer, 20, 19);
}

/// Why headers are refused, and the text of each error.
static TEXTS: [(CaptureHeaderError, &str); 5] = [
    (
        CaptureHeaderError::Pcapng,
        "The input is a pcapng file, which `CaptureReader` reads.",
    ),
    (
        CaptureHeaderError::CutOff { len: 23 },
        "The header of a capture has 24 bytes, and the input contains 23.",
    ),
    (
        CaptureHeaderError::Magic { magic: 0x504B_0304 },
        "The input is no capture: its first four bytes are 0x504b0304.",
    ),
    (
        CaptureHeaderError::Modified,
        "The capture is in the modified form of older Linux systems, which is not read.",
    ),
    (
        CaptureHeaderError::Version { major: 2, minor: 3 },
        "The capture has version 2.3, which is not read.",
    ),
];

#[test]
fn refusals_have_texts(rt: HostRuntime) {
    for (error, text) in &TEXTS {
        expect_text(&rt, error, text);
    }
}
