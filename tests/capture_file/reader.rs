use crate::expect::{append, expect_equal, expect_ok, expect_some, expect_text, joined};
use capture_file::classic::CaptureHeaderError;
use capture_file::pcapng::{BlockError, BodyError, TimeResolution};
use capture_file::reader::{
    CaptureReader, CapturedPacket, NextPacket, OpenError, PacketError, PlacedPacketError,
    TooLongPacket,
};
use capture_file::{LinkType, PacketTime};
use std::process::Abort;

/// A classic capture of Ethernet packets in microseconds, big-endian: three of nine bytes, and five of five.
const CLASSIC_BIG_ENDIAN: &[u8] =
    b"\xA1\xB2\xC3\xD4\0\x02\0\x04\0\0\0\0\0\0\0\0\0\x04\0\0\0\0\0\x01\0\0\0\x05\0\0\0\x06\0\0\0\x03\0\0\0\x09abc\0\0\0\x07\0\0\0\x08\0\0\0\x05\0\0\0\x05defgh";

/// The same capture, little-endian.
const CLASSIC_LITTLE_ENDIAN: &[u8] =
    b"\xD4\xC3\xB2\xA1\x02\0\x04\0\0\0\0\0\0\0\0\0\0\0\x04\0\x01\0\0\0\x05\0\0\0\x06\0\0\0\x03\0\0\0\x09\0\0\0abc\x07\0\0\0\x08\0\0\0\x05\0\0\0\x05\0\0\0defgh";

/// The packets of the classic captures in two sections of a pcapng file. The first section is little-endian, and its packet belongs to the
/// second of its interfaces; the first interface has another link type. The second section is big-endian, and has one interface.
const PCAPNG: &[u8] =
    b"\x0A\x0D\x0D\x0A\x1C\0\0\0\x4D\x3C\x2B\x1A\x01\0\0\0\xFF\xFF\xFF\xFF\xFF\xFF\xFF\xFF\x1C\0\0\0\x01\0\0\0\x14\0\0\0\x65\0\0\0\0\0\0\0\x14\0\0\0\x01\0\0\0\x14\0\0\0\x01\0\0\0\0\0\0\0\x14\0\0\0\x06\0\0\0\x24\0\0\0\x01\0\0\0\0\0\0\0\x46\x4B\x4C\0\x03\0\0\0\x09\0\0\0abc\0\x24\0\0\0\x0A\x0D\x0D\x0A\0\0\0\x1C\x1A\x2B\x3C\x4D\0\x01\0\0\xFF\xFF\xFF\xFF\xFF\xFF\xFF\xFF\0\0\0\x1C\0\0\0\x01\0\0\0\x14\0\x01\0\0\0\0\0\0\0\0\0\x14\0\0\0\x06\0\0\0\x28\0\0\0\0\0\0\0\0\0\x6A\xCF\xC8\0\0\0\x05\0\0\0\x05defgh\0\0\0\0\0\0\x28";

/// The seconds and microseconds of the time of a packet, its length in bytes, and its captured bytes.
type PacketRow = (u64, u64, u32, &'static [u8]);

/// The packets of each of these files.
static PACKETS: [PacketRow; 2] = [(5, 6, 9, b"abc"), (7, 8, 5, b"defgh")];

/// The packet of a row, with the byte order, the place and the interface of another packet.
fn packet_of(row: &PacketRow, place: &CapturedPacket) -> CapturedPacket {
    let (seconds, fraction, original_len, captured) = *row;
    let time = PacketTime {
        seconds,
        fraction,
        resolution: TimeResolution::PowerOfTen(6),
        offset: 0,
    };
    CapturedPacket {
        link_type: Ok(LinkType::Ethernet),
        byte_order: place.byte_order,
        time: Some(time),
        start: place.start,
        captured_len: captured.len(),
        original_len,
        interface: place.interface,
    }
}

/// Stops the test unless this is the packet of a row.
fn expect_packet(rt: &impl Abort, row: &PacketRow, packet: &CapturedPacket, buffer: &[u8]) {
    expect_equal(rt, packet, &packet_of(row, packet));
    let kept = expect_some(rt, buffer.get(packet.start..));
    expect_equal(rt, &kept.get(..row.3.len()), &Some(row.3));
}

/// Returns the number of packets left, and the item after them. Stops the test unless each is the packet of its row.
fn read_rest(
    rt: &impl Abort,
    reader: &mut CaptureReader,
    input: &mut &[u8],
    buffer: &mut [u8],
) -> (usize, NextPacket) {
    for (number, row) in PACKETS.iter().enumerate() {
        match expect_ok(rt, reader.next_packet(input, buffer)) {
            NextPacket::Whole(packet) => expect_packet(rt, row, &packet, buffer),
            last => return (number, last),
        }
    }
    (2, expect_ok(rt, reader.next_packet(input, buffer)))
}

/// Returns the number of packets in a file, and the item after them. Stops the test unless each is the packet of its row.
fn read_packets(rt: &impl Abort, file: &[u8]) -> (usize, Result<NextPacket, OpenError>) {
    let mut input = file;
    let mut buffer = [0u8; 64];
    match expect_ok(rt, CaptureReader::read_header(&mut input, &mut buffer)) {
        Ok(mut reader) => {
            let (count, last) = read_rest(rt, &mut reader, &mut input, &mut buffer);
            (count, Ok(last))
        }
        Err(error) => (0, Err(error)),
    }
}

/// Stops the test unless a file has this number of packets, and this item follows them.
fn expect_read(
    rt: &impl Abort,
    file: &[u8],
    count: usize,
    expected: Result<NextPacket, OpenError>,
) {
    let (read, last) = read_packets(rt, file);
    expect_equal(rt, &read, &count);
    expect_equal(rt, &last, &expected);
}

/// The files with these packets.
static FILES: [&[u8]; 3] = [CLASSIC_BIG_ENDIAN, CLASSIC_LITTLE_ENDIAN, PCAPNG];

#[test]
fn packets_are_the_same_in_either_form(rt: HostRuntime) {
    for file in &FILES {
        expect_read(&rt, file, 2, Ok(NextPacket::End));
    }
}

/// Whether a file that was cut is read to its end, or to a record or block that is cut off.
fn is_last(read: &Result<NextPacket, OpenError>) -> bool {
    match read {
        Ok(NextPacket::End | NextPacket::CutOff { .. }) => true,
        Err(OpenError::Classic(CaptureHeaderError::CutOff { .. })) => true,
        Err(OpenError::Pcapng(PacketError::Block(BlockError::CutOff { .. }))) => true,
        _ => false,
    }
}

/// Stops the test unless each of the beginnings of a file ends early.
fn expect_cuts(rt: &impl Abort, file: &[u8]) {
    for cut in 0..file.len() {
        let (count, last) = read_packets(rt, expect_some(rt, file.get(..cut)));
        expect_equal(rt, &is_last(&last), &true);
        expect_equal(rt, &(count < 2), &true);
    }
}

#[test]
fn files_are_cut(rt: HostRuntime) {
    for file in &FILES {
        expect_cuts(&rt, file);
    }
}

/// Bytes that are not a capture, each with the error.
static NO_CAPTURES: [(&[u8], OpenError); 7] = [
    (
        b"\x0A\x0D\x0D",
        OpenError::Classic(CaptureHeaderError::CutOff { len: 3 }),
    ),
    (
        b"\x0A\x0D\x0D\x0A",
        OpenError::Pcapng(PacketError::Block(BlockError::CutOff {
            required_len: 12,
            len: 4,
        })),
    ),
    (
        b"\xA1\xB2\xC3\xD4\0\x02\0\x03\0\0\0\0\0\0\0\0\0\0\0\0\0\0\0\x01",
        OpenError::Classic(CaptureHeaderError::Version { major: 2, minor: 3 }),
    ),
    (
        b"\x0A\x0D\x0D\x0A\x1C\0\0\0\x4D\x3C\x2B\x1B",
        OpenError::Pcapng(PacketError::Block(BlockError::Magic { magic: 0x4D3C_2B1B })),
    ),
    (
        b"\x0A\x0D\x0D\x0A\x08\0\0\0\x4D\x3C\x2B\x1A",
        OpenError::Pcapng(PacketError::Block(BlockError::TotalLength { total_len: 8 })),
    ),
    (
        b"\x0A\x0D\x0D\x0A\x1C\0\0\0\x4D\x3C\x2B\x1A\x01\0\0\0\xFF\xFF\xFF\xFF\xFF\xFF\xFF\xFF\x1D\0\0\0",
        OpenError::Pcapng(PacketError::Block(BlockError::LastLength {
            total_len: 28,
            last_len: 29,
        })),
    ),
    (
        b"\x0A\x0D\x0D\x0A\x10\0\0\0\x4D\x3C\x2B\x1A\x10\0\0\0",
        OpenError::Pcapng(PacketError::Block(BlockError::SectionLength { total_len: 16 })),
    ),
];

#[test]
fn captures_are_refused(rt: HostRuntime) {
    for (bytes, error) in &NO_CAPTURES {
        expect_read(&rt, bytes, 0, Err(*error));
    }
    let cut_off = BlockError::CutOff {
        required_len: 28,
        len: 27,
    };
    let cut_off = OpenError::Pcapng(PacketError::Block(cut_off));
    expect_read(&rt, &PCAPNG[..27], 0, Err(cut_off));
    let magic = CaptureHeaderError::Magic { magic: 0x0100_0000 };
    expect_read(&rt, &PCAPNG[28..], 0, Err(OpenError::Classic(magic)));
}

/// The bytes of a block, why it can't be read, and the text of the error.
type RefusedRow = (&'static [u8], PacketError, &'static str);

/// Blocks that come after the little-endian section header block of a file.
static REFUSED: [RefusedRow; 4] = [
    (
        b"\x06\0\0\0\x08\0\0\0\x08\0\0\0",
        PacketError::Block(BlockError::TotalLength { total_len: 8 }),
        "At byte 28 of the file: The total length of the block, in its bytes 4 to 7, is 8, which is below 12 or no multiple of 4.",
    ),
    (
        b"\x03\0\0\0\x10\0\0\0\0\0\0\0\x10\0\0\0",
        PacketError::Body(BodyError::Interface {
            interface: 0,
            count: 0,
        }),
        "At byte 28 of the file: The packet is of interface 0, and the section has 0.",
    ),
    (
        b"\x01\0\0\0\x44\0\0\0\x01\0\0\0\0\0\0\0\0\0\0\0\0\0\0\0\0\0\0\0\0\0\0\0\0\0\0\0\0\0\0\0\0\0\0\0\0\0\0\0\0\0\0\0\0\0\0\0\0\0\0\0\0\0\0\0\x44\0\0\0",
        PacketError::TooLong {
            block_type: 1,
            total_len: 68,
        },
        "At byte 28 of the file: The block has type 0x1 and 68 bytes, for which the buffer has no room.",
    ),
    (
        b"\x0A\x0D\x0D\x0A\x1C\0\0\0\0\0\0\0",
        PacketError::Block(BlockError::Magic { magic: 0 }),
        "At byte 28 of the file: The byte-order magic of the section, its bytes 8 to 11, is 0x00000000.",
    ),
];

/// Stops the test unless the block of a row is refused after a section header block.
fn expect_refused(rt: &(impl Abort + AllocGlobal), row: &RefusedRow) {
    let (bytes, error, text) = *row;
    let file = joined(rt, &[&PCAPNG[..28], bytes]);
    let placed = PlacedPacketError { offset: 28, error };
    expect_read(rt, &file, 0, Ok(NextPacket::Refused(placed)));
    expect_text(rt, &placed, text);
}

#[test]
fn blocks_are_refused(rt: HostRuntime) {
    for row in &REFUSED {
        expect_refused(&rt, row);
    }
}

/// A section with this many interfaces.
fn file_of_interfaces(rt: &(impl Abort + AllocGlobal), count: usize) -> Vec<u8> {
    let mut file = Vec::new(rt.alloc());
    append(rt, &mut file, &PCAPNG[..28]);
    for _ in 0..count {
        append(rt, &mut file, &PCAPNG[48..68]);
    }
    file
}

#[test]
fn interfaces_are_counted(rt: HostRuntime) {
    let refused = NextPacket::Refused(PlacedPacketError {
        offset: 28 + 1024 * 20,
        error: PacketError::Interfaces { max: 1024 },
    });
    expect_read(&rt, &file_of_interfaces(&rt, 1024), 0, Ok(NextPacket::End));
    expect_read(&rt, &file_of_interfaces(&rt, 1025), 0, Ok(refused));
}

#[test]
fn packets_are_too_long(rt: HostRuntime) {
    let parts: [&[u8]; 4] = [
        &PCAPNG[..28],
        b"\x06\0\0\0\x44\0\0\0",
        &[0; 56],
        b"\x44\0\0\0",
    ];
    let too_long = NextPacket::TooLong(TooLongPacket {
        link_type: None,
        time: None,
        required_len: 68,
        original_len: None,
    });
    expect_read(&rt, &joined(&rt, &parts), 0, Ok(too_long));
}
