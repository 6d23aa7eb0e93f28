use crate::expect::{append, expect_bytes, expect_equal, expect_ok, joined};
use capture_file::reader::{CaptureReader, NextPacket, PacketInterface};
use std::process::Abort;

/// A section header block.
const SECTION: &[u8] =
    b"\x0A\x0D\x0D\x0A\x1C\0\0\0\x4D\x3C\x2B\x1A\x01\0\0\0\xFF\xFF\xFF\xFF\xFF\xFF\xFF\xFF\x1C\0\0\0";

/// An interface with the name `eth0`.
const NAMED: &[u8] = b"\x01\0\0\0\x20\0\0\0\x01\0\0\0\0\0\0\0\x02\0\x04\0eth0\0\0\0\0\x20\0\0\0";

/// An interface without a name.
const UNNAMED: &[u8] = b"\x01\0\0\0\x14\0\0\0\x01\0\0\0\0\0\0\0\x14\0\0\0";

/// An empty packet of interface 0, in an enhanced packet block.
const OF_FIRST: &[u8] = b"\x06\0\0\0\x20\0\0\0\0\0\0\0\0\0\0\0\0\0\0\0\0\0\0\0\0\0\0\0\x20\0\0\0";

/// An empty packet of interface 1, in an enhanced packet block.
const OF_SECOND: &[u8] =
    b"\x06\0\0\0\x20\0\0\0\x01\0\0\0\0\0\0\0\0\0\0\0\0\0\0\0\0\0\0\0\x20\0\0\0";

/// An empty packet of interface 1, in an obsolete packet block. The number of dropped packets follows the number of the interface.
const OBSOLETE: &[u8] =
    b"\x02\0\0\0\x20\0\0\0\x01\0\xFF\xFF\0\0\0\0\0\0\0\0\0\0\0\0\0\0\0\0\x20\0\0\0";

/// An empty packet in a simple packet block.
const SIMPLE: &[u8] = b"\x03\0\0\0\x10\0\0\0\0\0\0\0\x10\0\0\0";

/// A classic capture with an empty packet.
const CLASSIC: &[u8] =
    b"\xD4\xC3\xB2\xA1\x02\0\x04\0\0\0\0\0\0\0\0\0\0\0\x04\0\x01\0\0\0\0\0\0\0\0\0\0\0\0\0\0\0\0\0\0\0";

/// The parts of a file, the number of the interface of its last packet, and the name of this interface if it is known.
type InterfaceRow = (&'static [&'static [u8]], Option<u32>, Option<&'static [u8]>);

#[rattlefmt::skip]
static ROWS: [InterfaceRow; 9] = [
    (&[CLASSIC], None, None),
    (&[SECTION, NAMED, OF_FIRST], Some(0), None),
    (&[SECTION, NAMED, UNNAMED, OF_FIRST], Some(0), Some(b"eth0")),
    (&[SECTION, NAMED, UNNAMED, OF_SECOND], Some(1), Some(b"")),
    (&[SECTION, UNNAMED, NAMED, OBSOLETE], Some(1), Some(b"eth0")),
    (&[SECTION, NAMED, UNNAMED, OF_SECOND, SIMPLE], Some(0), Some(b"eth0")),
    // An interface belongs to the section of its packet.
    (&[SECTION, NAMED, UNNAMED, OF_FIRST, SECTION, UNNAMED, NAMED, OF_FIRST], Some(0), Some(b"")),
    (&[SECTION, NAMED, UNNAMED, OF_SECOND, SECTION, NAMED, OF_FIRST], Some(0), None),
    // The second interface is described after the packet.
    (&[SECTION, NAMED, OF_FIRST, UNNAMED], Some(0), None),
];

/// Returns the number of the interface of the last packet of a file, and this interface.
fn last_interface(rt: &impl Abort, file: &[u8]) -> (Option<u32>, Option<PacketInterface>) {
    let mut input = file;
    let mut buffer = [0u8; 64];
    let beginning = expect_ok(rt, CaptureReader::read_header(&mut input, &mut buffer));
    let mut reader = expect_ok(rt, beginning);
    let mut last = (None, None);
    for _ in 0..file.len() {
        match expect_ok(rt, reader.next_packet(&mut input, &mut buffer)) {
            NextPacket::Whole(packet) => last = (packet.interface, reader.interface_of(&packet)),
            _ => break,
        }
    }
    last
}

/// Stops the test unless the last packet of a file has this interface.
fn expect_interface(rt: &impl Abort, file: &[u8], number: Option<u32>, name: Option<&[u8]>) {
    let (found, interface) = last_interface(rt, file);
    expect_equal(rt, &found, &number);
    match (interface, name) {
        (Some(interface), Some(name)) => {
            expect_equal(rt, &Some(interface.number), &number);
            expect_bytes(rt, interface.name.bytes.as_slice(), name);
        }
        (interface, name) => expect_equal(rt, &interface.is_none(), &name.is_none()),
    }
}

#[test]
fn interfaces_of_packets(rt: HostRuntime) {
    for (parts, number, name) in &ROWS {
        expect_interface(&rt, &joined(&rt, parts), *number, *name);
    }
}

/// An enhanced packet block with an empty packet of an interface with this number.
fn packet_of(rt: &(impl Abort + AllocGlobal), number: u8) -> Vec<u8> {
    joined(rt, &[&OF_FIRST[..8], &[number], &OF_FIRST[9..]])
}

#[test]
fn names_of_many_interfaces(rt: HostRuntime) {
    let mut file = joined(&rt, &[SECTION]);
    for _ in 0..33 {
        append(&rt, &mut file, NAMED);
    }
    let kept = joined(&rt, &[&file, &packet_of(&rt, 31)]);
    expect_interface(&rt, &kept, Some(31), Some(b"eth0"));
    append(&rt, &mut file, &packet_of(&rt, 32));
    expect_interface(&rt, &file, Some(32), Some(b""));
}
