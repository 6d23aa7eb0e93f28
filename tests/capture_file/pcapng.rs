use crate::expect::{expect_at, expect_equal, expect_ok, expect_some, expect_text, joined};
use capture_file::ByteOrder;
use capture_file::pcapng::{
    Block, BlockBody, BlockError, BlockHeader, Blocks, BodyError, InterfaceDescription, NextBlock,
    PacketBlock, PlacedBlockError, SectionHeader, TimeResolution, read_block,
};
use std::process::Abort;

/// A section header block of version 1.0 without a stated length, in each byte order.
static SECTIONS: [(ByteOrder, [u8; 28]); 2] = [
    (
        ByteOrder::BigEndian,
        *b"\x0A\x0D\x0D\x0A\0\0\0\x1C\x1A\x2B\x3C\x4D\0\x01\0\0\xFF\xFF\xFF\xFF\xFF\xFF\xFF\xFF\0\0\0\x1C",
    ),
    (
        ByteOrder::LittleEndian,
        *b"\x0A\x0D\x0D\x0A\x1C\0\0\0\x4D\x3C\x2B\x1A\x01\0\0\0\xFF\xFF\xFF\xFF\xFF\xFF\xFF\xFF\x1C\0\0\0",
    ),
];

/// A block of another type, without a body, in each byte order.
static EMPTY: [(ByteOrder, [u8; 12]); 2] = [
    (ByteOrder::BigEndian, *b"\0\0\x0B\xAD\0\0\0\x0C\0\0\0\x0C"),
    (
        ByteOrder::LittleEndian,
        *b"\xAD\x0B\0\0\x0C\0\0\0\x0C\0\0\0",
    ),
];

/// Stops the test unless these bytes are a block with this header and this body.
fn expect_block(
    rt: &impl Abort,
    section: ByteOrder,
    bytes: &[u8],
    header: BlockHeader,
    body: &[u8],
) {
    let block = Block { header, body };
    expect_equal(rt, &Block::from_slice(section, bytes), &Ok((block, &[])));
}

/// Stops the test unless this section header block is read after a section of this byte order.
fn expect_section(rt: &impl Abort, row: &(ByteOrder, [u8; 28]), before: ByteOrder) {
    let (byte_order, bytes) = row;
    let header = BlockHeader {
        byte_order: *byte_order,
        block_type: 0x0A0D_0D0A,
        total_len: 28,
    };
    expect_block(rt, before, bytes, header, &bytes[8..24]);
}

/// Stops the test unless this block without a body is read.
fn expect_empty(rt: &impl Abort, row: &(ByteOrder, [u8; 12])) {
    let (byte_order, bytes) = row;
    let header = BlockHeader {
        byte_order: *byte_order,
        block_type: 0x0BAD,
        total_len: 12,
    };
    expect_block(rt, *byte_order, bytes, header, &[]);
}

#[test]
fn blocks_are_read(rt: HostRuntime) {
    for row in &SECTIONS {
        expect_section(&rt, row, ByteOrder::BigEndian);
        expect_section(&rt, row, ByteOrder::LittleEndian);
    }
    for row in &EMPTY {
        expect_empty(&rt, row);
    }
}

/// Bytes that are refused as a block in a little-endian section, the error, and its text.
type RefusedBlock = (&'static [u8], BlockError, &'static str);

static REFUSED: [RefusedBlock; 10] = [
    (
        b"",
        BlockError::CutOff {
            required_len: 12,
            len: 0,
        },
        "The block has at least 12 bytes, and 0 are left.",
    ),
    (
        b"\x01\0\0\0\x0C\0\0\0\x0C\0\0",
        BlockError::CutOff {
            required_len: 12,
            len: 11,
        },
        "The block has at least 12 bytes, and 11 are left.",
    ),
    (
        b"\x0A\x0D\x0D\x0A\x1C\0\0\0\x4D\x3C\x2B\x1B",
        BlockError::Magic { magic: 0x4D3C_2B1B },
        "The byte-order magic of the section, its bytes 8 to 11, is 0x4d3c2b1b.",
    ),
    (
        b"\x01\0\0\0\x08\0\0\0\x08\0\0\0",
        BlockError::TotalLength { total_len: 8 },
        "The total length of the block, in its bytes 4 to 7, is 8, which is below 12 or no multiple of 4.",
    ),
    (
        b"\x01\0\0\0\x0E\0\0\0\0\0\x0E\0\0\0",
        BlockError::TotalLength { total_len: 14 },
        "The total length of the block, in its bytes 4 to 7, is 14, which is below 12 or no multiple of 4.",
    ),
    (
        b"\x0A\x0D\x0D\x0A\x0C\0\0\0\x4D\x3C\x2B\x1A",
        BlockError::SectionLength { total_len: 12 },
        "The section header block has 12 bytes, and needs at least 28.",
    ),
    (
        b"\x0A\x0D\x0D\x0A\0\0\0\x18\x1A\x2B\x3C\x4D\0\x01\0\0\xFF\xFF\xFF\xFF\0\0\0\x18",
        BlockError::SectionLength { total_len: 24 },
        "The section header block has 24 bytes, and needs at least 28.",
    ),
    (
        b"\x01\0\0\0\x10\0\0\0\0\0\0\0\x10\0\0",
        BlockError::CutOff {
            required_len: 16,
            len: 15,
        },
        "The block has at least 16 bytes, and 15 are left.",
    ),
    (
        b"\x01\0\0\0\x10\0\0\0\0\0\0\0\x14\0\0\0",
        BlockError::LastLength {
            total_len: 16,
            last_len: 20,
        },
        "The total length of the block is 16 in its bytes 4 to 7, and 20 in its last four bytes.",
    ),
    (
        b"\x01\0\0\0\x0C\0\0\0\0\0\0\x0C",
        BlockError::LastLength {
            total_len: 12,
            last_len: 0x0C00_0000,
        },
        "The total length of the block is 12 in its bytes 4 to 7, and 201326592 in its last four bytes.",
    ),
];

/// Stops the test unless the bytes of a row are refused with its error, and the error has its text.
fn expect_no_block(rt: &(impl Abort + AllocGlobal), row: &RefusedBlock) {
    let (bytes, error, text) = row;
    let read = Block::from_slice(ByteOrder::LittleEndian, bytes);
    expect_equal(rt, &read, &Err(*error));
    expect_text(rt, error, text);
}

#[test]
fn bytes_are_refused_as_blocks(rt: HostRuntime) {
    for row in &REFUSED {
        expect_no_block(&rt, row);
    }
}

/// Bodies of interface description blocks, and what they state: without options; with a comment before the resolution, and another
/// resolution after it; with an offset of -1 and a power of two; with a resolution after the end of the options; with a resolution that is
/// cut off.
static INTERFACES: [(ByteOrder, &[u8], InterfaceDescription); 5] = [
    (
        ByteOrder::LittleEndian,
        b"\x01\0\0\0\0\0\x04\0",
        InterfaceDescription {
            link_type: 1,
            snap_len: 262_144,
            time_resolution: TimeResolution::PowerOfTen(6),
            time_offset: 0,
        },
    ),
    (
        ByteOrder::BigEndian,
        b"\0\x65\0\0\0\0\xFF\xFF\0\x01\0\x05hello\0\0\0\0\x09\0\x01\x03\0\0\0\0\x09\0\x01\x09\0\0\0",
        InterfaceDescription {
            link_type: 101,
            snap_len: 65_535,
            time_resolution: TimeResolution::PowerOfTen(3),
            time_offset: 0,
        },
    ),
    (
        ByteOrder::LittleEndian,
        b"\x71\0\0\0\0\0\0\0\x0E\0\x08\0\xFF\xFF\xFF\xFF\xFF\xFF\xFF\xFF\x09\0\x01\0\x8A\0\0\0\0\0\0\0",
        InterfaceDescription {
            link_type: 113,
            snap_len: 0,
            time_resolution: TimeResolution::PowerOfTwo(10),
            time_offset: -1,
        },
    ),
    (
        ByteOrder::LittleEndian,
        b"\x01\0\0\0\0\0\0\0\0\0\0\0\x09\0\x01\0\x09\0\0\0",
        InterfaceDescription {
            link_type: 1,
            snap_len: 0,
            time_resolution: TimeResolution::PowerOfTen(6),
            time_offset: 0,
        },
    ),
    (
        ByteOrder::BigEndian,
        b"\0\x01\0\0\0\0\0\0\0\x0E\0\x08\0\0\0\0\0\0\0",
        InterfaceDescription {
            link_type: 1,
            snap_len: 0,
            time_resolution: TimeResolution::PowerOfTen(6),
            time_offset: 0,
        },
    ),
];

/// Stops the test unless the body of an interface description block states this.
fn expect_interface(
    rt: &impl Abort,
    order: ByteOrder,
    body: &[u8],
    expected: Result<InterfaceDescription, BodyError>,
) {
    let read = InterfaceDescription::from_body(order, body);
    expect_equal(rt, &read, &expected);
}

#[test]
fn interfaces_are_read(rt: HostRuntime) {
    for (order, body, interface) in &INTERFACES {
        expect_interface(&rt, *order, body, Ok(*interface));
    }
    let cut_off = BodyError::CutOff {
        required_len: 8,
        len: 7,
    };
    expect_interface(&rt, ByteOrder::BigEndian, &[0; 7], Err(cut_off));
}

/// Version 1.0 of a section.
const VERSION: SectionHeader = SectionHeader {
    major_version: 1,
    minor_version: 0,
};

/// The byte order and the body of a section header block, and what the body states.
type SectionRow = (ByteOrder, &'static [u8], Result<SectionHeader, BodyError>);

#[rattlefmt::skip]
static SECTION_BODIES: [SectionRow; 6] = [
    (ByteOrder::BigEndian, b"\x1A\x2B\x3C\x4D\0\x01\0\0\xFF\xFF\xFF\xFF\xFF\xFF\xFF\xFF", Ok(VERSION)),
    (
        ByteOrder::BigEndian, b"\x1A\x2B\x3C\x4D\0\x01\0\0\xFF\xFF\xFF\xFF\xFF\xFF\xFF",
        Err(BodyError::CutOff { required_len: 16, len: 15 }),
    ),
    (
        ByteOrder::BigEndian, b"\x1A\x2B\x3C\x4D\0\x02\0\x03\xFF\xFF\xFF\xFF\xFF\xFF\xFF\xFF",
        Err(BodyError::Version { major: 2, minor: 3 }),
    ),
    (ByteOrder::LittleEndian, b"\x4D\x3C\x2B\x1A\x01\0\0\0\xFF\xFF\xFF\xFF\xFF\xFF\xFF\xFF", Ok(VERSION)),
    (
        ByteOrder::LittleEndian, b"\x4D\x3C\x2B\x1A\x01\0\0\0\xFF\xFF\xFF\xFF\xFF\xFF\xFF",
        Err(BodyError::CutOff { required_len: 16, len: 15 }),
    ),
    (
        ByteOrder::LittleEndian, b"\x4D\x3C\x2B\x1A\x02\0\x03\0\xFF\xFF\xFF\xFF\xFF\xFF\xFF\xFF",
        Err(BodyError::Version { major: 2, minor: 3 }),
    ),
];

/// Stops the test unless the body of a row states what the row contains.
fn expect_section_body(rt: &impl Abort, row: &SectionRow) {
    let (order, body, expected) = row;
    expect_equal(rt, &SectionHeader::from_body(*order, body), expected);
}

#[test]
fn section_headers_are_read(rt: HostRuntime) {
    for row in &SECTION_BODIES {
        expect_section_body(&rt, row);
    }
}

/// The body of an enhanced packet block of interface 0 in a little-endian section: three of nine bytes, captured 5 * 2^32 + 6 units after
/// the beginning of 1970.
const ENHANCED: &[u8] = b"\0\0\0\0\x05\0\0\0\x06\0\0\0\x03\0\0\0\x09\0\0\0abc\0";

/// The body of an obsolete packet block with the packet of `ENHANCED`; 7 packets were dropped before it.
const OBSOLETE: &[u8] = b"\0\0\x07\0\x05\0\0\0\x06\0\0\0\x03\0\0\0\x09\0\0\0abc\0";

/// The body of a simple packet block with three bytes.
const SIMPLE: &[u8] = b"\x03\0\0\0abc\0";

/// An interface with this snap length.
fn interface_with(snap_len: u32) -> InterfaceDescription {
    InterfaceDescription {
        link_type: 1,
        snap_len,
        time_resolution: TimeResolution::PowerOfTen(6),
        time_offset: 0,
    }
}

/// A block of this type with this body, in a little-endian section.
fn block_of(block_type: u32, body: &[u8]) -> Block<'_> {
    let header = BlockHeader {
        byte_order: ByteOrder::LittleEndian,
        block_type,
        total_len: (body.len() % 64) as u32 + 12,
    };
    Block { header, body }
}

/// The time of the packet.
const TIME: Option<u64> = Some(0x5_0000_0006);

/// The type of a block, its body, the snap length of its interface, and what the body states.
type ReadRow = (u32, &'static [u8], u32, BlockBody<'static>);

#[rattlefmt::skip]
static READ: [ReadRow; 6] = [
    (6, ENHANCED, 0, BlockBody::Packet(PacketBlock { interface: 0, timestamp: TIME, original_len: 9, captured: b"abc" })),
    (2, OBSOLETE, 2, BlockBody::Packet(PacketBlock { interface: 0, timestamp: TIME, original_len: 9, captured: b"abc" })),
    (3, SIMPLE, 0, BlockBody::Packet(PacketBlock { interface: 0, timestamp: None, original_len: 3, captured: b"abc" })),
    (3, SIMPLE, 2, BlockBody::Packet(PacketBlock { interface: 0, timestamp: None, original_len: 3, captured: b"ab" })),
    (3, SIMPLE, 9, BlockBody::Packet(PacketBlock { interface: 0, timestamp: None, original_len: 3, captured: b"abc" })),
    (5, ENHANCED, 0, BlockBody::Other),
];

/// Stops the test unless the body of a row is read as in the row.
fn expect_body(rt: &impl Abort, row: &ReadRow) {
    let (block_type, body, snap_len, expected) = *row;
    let read = BlockBody::from_block(&block_of(block_type, body), &[interface_with(snap_len)]);
    expect_at(rt, &block_type, &read, &Ok(expected));
}

#[test]
fn packets_are_read(rt: HostRuntime) {
    for row in &READ {
        expect_body(&rt, row);
    }
}

/// The type of a block, its body, the place of its first present byte, the place after its last present byte, the number of interfaces, and
/// why the body is refused.
type RefusedRow = (u32, &'static [u8], usize, usize, usize, BodyError);

#[rattlefmt::skip]
static REFUSED_BODIES: [RefusedRow; 8] = [
    (6, ENHANCED, 0, 19, 1, BodyError::CutOff { required_len: 20, len: 19 }),
    (2, OBSOLETE, 0, 22, 1, BodyError::CutOff { required_len: 23, len: 22 }),
    (3, SIMPLE, 0, 3, 1, BodyError::CutOff { required_len: 4, len: 3 }),
    (3, SIMPLE, 0, 6, 1, BodyError::CutOff { required_len: 7, len: 6 }),
    (6, ENHANCED, 0, 24, 0, BodyError::Interface { interface: 0, count: 0 }),
    (3, SIMPLE, 0, 8, 0, BodyError::Interface { interface: 0, count: 0 }),
    (2, SIMPLE, 0, 8, 0, BodyError::CutOff { required_len: 20, len: 8 }),
    (6, ENHANCED, 4, 24, 1, BodyError::Interface { interface: 5, count: 1 }),
];

/// Stops the test unless the body of a row is refused as in the row.
fn expect_refused(rt: &impl Abort, row: &RefusedRow) {
    let (block_type, body, start, end, count, error) = *row;
    let body = expect_some(rt, body.get(start..end));
    let interfaces = [interface_with(0)];
    let interfaces = expect_some(rt, interfaces.get(..count));
    let read = BlockBody::from_block(&block_of(block_type, body), interfaces);
    expect_at(rt, &block_type, &read, &Err(error));
}

#[test]
fn packets_are_refused(rt: HostRuntime) {
    for row in &REFUSED_BODIES {
        expect_refused(&rt, row);
    }
}

/// A section in each byte order, one after the other, each with a block without a body.
fn file_of_two_sections(rt: &(impl Abort + AllocGlobal)) -> Vec<u8> {
    let [(_, first), (_, second)] = &SECTIONS;
    let [(_, empty), (_, other)] = &EMPTY;
    joined(rt, &[first, empty, second, other])
}

/// The number of bytes of this file, the byte orders of the blocks in them, and the error after these blocks.
type CutRow = (usize, &'static [ByteOrder], Option<PlacedBlockError>);

#[rattlefmt::skip]
static CUTS: [CutRow; 4] = [
    (80, &[ByteOrder::BigEndian, ByteOrder::BigEndian, ByteOrder::LittleEndian, ByteOrder::LittleEndian], None),
    (
        79, &[ByteOrder::BigEndian, ByteOrder::BigEndian, ByteOrder::LittleEndian],
        Some(PlacedBlockError { offset: 68, error: BlockError::CutOff { required_len: 12, len: 11 } }),
    ),
    (40, &[ByteOrder::BigEndian, ByteOrder::BigEndian], None),
    (27, &[], Some(PlacedBlockError { offset: 0, error: BlockError::CutOff { required_len: 28, len: 27 } })),
];

/// Returns the byte order of the next block. Stops the test if there is none.
fn next_order(rt: &impl Abort, blocks: &mut Blocks<'_>) -> ByteOrder {
    let block = expect_ok(rt, expect_some(rt, blocks.next()));
    block.header.byte_order
}

/// Returns the error of the next block, if there is one. Stops the test if the block has no error.
fn next_error(rt: &impl Abort, blocks: &mut Blocks<'_>) -> Option<PlacedBlockError> {
    match blocks.next() {
        Some(block) => Some(expect_some(rt, block.err())),
        None => None,
    }
}

/// Stops the test unless the cut file has the blocks of a row.
fn expect_cut(rt: &impl Abort, file: &[u8], row: &CutRow) {
    let (cut, orders, error) = *row;
    let mut blocks = Blocks::new(expect_some(rt, file.get(..cut)));
    for order in orders {
        expect_at(rt, &cut, &next_order(rt, &mut blocks), order);
    }
    expect_at(rt, &cut, &next_error(rt, &mut blocks), &error);
    expect_at(rt, &cut, &next_error(rt, &mut blocks), &None);
}

#[test]
fn sections_have_their_own_order(rt: HostRuntime) {
    let file = file_of_two_sections(&rt);
    for row in &CUTS {
        expect_cut(&rt, &file, row);
    }
}

/// Stops the test unless this is the next block of a stream.
fn expect_next(
    rt: &impl Abort,
    input: &mut &[u8],
    section: ByteOrder,
    buffer: &mut [u8],
    expected: NextBlock,
) {
    let next = expect_ok(rt, read_block(input, section, buffer));
    expect_equal(rt, &next, &expected);
}

/// Stops the test unless this block is the next one of a stream, and is in the buffer if there is room for it.
fn expect_next_block(
    rt: &impl Abort,
    input: &mut &[u8],
    section: ByteOrder,
    buffer: &mut [u8],
    block: Block<'_>,
) {
    let header = block.header;
    if header.total_len as usize <= buffer.len() {
        expect_next(rt, input, section, buffer, NextBlock::Whole(header));
        let (read, _) = expect_ok(rt, Block::from_slice(section, buffer));
        expect_equal(rt, &read, &block);
    } else {
        expect_next(rt, input, section, buffer, NextBlock::TooLong(header));
    }
}

/// Stops the test unless the blocks of a file are read from a stream into this buffer.
fn expect_stream(rt: &impl Abort, file: &[u8], buffer: &mut [u8]) {
    let mut section = ByteOrder::LittleEndian;
    let mut input = file;
    for item in Blocks::new(file) {
        let block = expect_ok(rt, item);
        expect_next_block(rt, &mut input, section, buffer, block);
        section = block.header.byte_order;
    }
    expect_next(rt, &mut input, section, buffer, NextBlock::End);
}

/// Stops the test unless the bytes of a row are refused as a block of a stream.
fn expect_refused_in_stream(rt: &impl Abort, row: &RefusedBlock, buffer: &mut [u8]) {
    let (bytes, error, _) = *row;
    let expected = if bytes.is_empty() {
        NextBlock::End
    } else {
        NextBlock::Refused(error)
    };
    let mut input = bytes;
    expect_next(rt, &mut input, ByteOrder::LittleEndian, buffer, expected);
}

#[test]
fn blocks_are_read_from_a_stream(rt: HostRuntime) {
    let file = file_of_two_sections(&rt);
    expect_stream(&rt, &file, &mut []);
    expect_stream(&rt, &file, &mut [0; 12]);
    expect_stream(&rt, &file, &mut [0; 28]);
    for row in &REFUSED {
        expect_refused_in_stream(&rt, row, &mut []);
        expect_refused_in_stream(&rt, row, &mut [0; 16]);
    }
}
