use crate::expect::{append, expect_at, expect_bytes, expect_equal, expect_ok, joined};
use capture_file::reader::{CaptureReader, NextPacket};
use capture_file::{ByteOrder, FileTexts, PacketComments};
use std::process::Abort;

/// A section header block, and an interface without a name.
const BEGINNING: &[u8] =
    b"\x0A\x0D\x0D\x0A\x1C\0\0\0M\x3C\x2B\x1A\x01\0\0\0\xFF\xFF\xFF\xFF\xFF\xFF\xFF\xFF\x1C\0\0\0\x01\0\0\0\x14\0\0\0\x01\0\0\0\0\0\0\0\x14\0\0\0";

/// An empty packet without options.
const BARE: &[u8] = b"\x06\0\0\0\x20\0\0\0\0\0\0\0\0\0\0\0\0\0\0\0\0\0\0\0\0\0\0\0\x20\0\0\0";

/// A packet of one byte with an option of code 2, the comment `a`, an empty comment, the end of the options, and a comment after the
/// end.
const TWO: &[u8] =
    b"\x06\0\0\0D\0\0\0\0\0\0\0\0\0\0\0\0\0\0\0\x01\0\0\0\x01\0\0\0A\0\0\0\x02\0\x01\0\x02\0\0\0\x01\0\x01\0a\0\0\0\x01\0\0\0\0\0\0\0\x01\0\x01\0z\0\0\0D\0\0\0";

/// An empty packet in an obsolete packet block with the comment `old`.
const OBSOLETE: &[u8] =
    b"\x02\0\0\0\x28\0\0\0\0\0\xFF\xFF\0\0\0\0\0\0\0\0\0\0\0\0\0\0\0\0\x01\0\x03\0old\0\x28\0\0\0";

/// An empty packet in a simple packet block.
const SIMPLE: &[u8] = b"\x03\0\0\0\x10\0\0\0\0\0\0\0\x10\0\0\0";

/// A block of another type.
const OTHER: &[u8] = b"\x07\0\0\0\x0C\0\0\0\x0C\0\0\0";

/// The blocks after the beginning of a file, the comments of its last packet, and the number of packets with a comment.
type CommentRow = (&'static [&'static [u8]], &'static [&'static [u8]], u64);

#[rattlefmt::skip]
static ROWS: [CommentRow; 7] = [
    (&[BARE], &[], 0),
    (&[TWO], &[b"a", b""], 1),
    (&[TWO, BARE], &[], 1),
    (&[TWO, OBSOLETE], &[b"old"], 2),
    (&[OBSOLETE, SIMPLE], &[], 1),
    (&[BARE, OTHER, OBSOLETE, OTHER], &[b"old"], 1),
    (&[TWO, TWO, SIMPLE, TWO], &[b"a", b""], 3),
];

/// Stops the test unless these are the comments.
fn expect_comments(rt: &impl Abort, comments: &PacketComments, wanted: &[&[u8]]) {
    expect_equal(rt, &comments.texts.len(), &wanted.len());
    for (text, wanted) in comments.texts.as_slice().iter().zip(wanted) {
        expect_bytes(rt, text.bytes.as_slice(), wanted);
    }
    expect_equal(rt, &comments.more, &0);
}

/// Stops the test unless the last packet of a file has these comments, and the file has this number of packets with a comment.
fn expect_file(rt: &impl Abort, file: &[u8], wanted: &[&[u8]], count: u64) {
    let mut input = file;
    let mut buffer = [0u8; 96];
    let beginning = expect_ok(rt, CaptureReader::read_header(&mut input, &mut buffer));
    let mut reader = expect_ok(rt, beginning);
    let mut comments = PacketComments::new();
    for _ in 0..file.len() {
        match expect_ok(rt, reader.next_packet(&mut input, &mut buffer)) {
            NextPacket::Whole(packet) => comments = reader.texts_of(&packet).comments,
            _ => break,
        }
    }
    expect_comments(rt, &comments, wanted);
    if let CaptureReader::Pcapng(reader) = reader {
        expect_equal(rt, &reader.texts.commented_packets, &count);
    }
}

#[test]
fn comments_of_packets(rt: HostRuntime) {
    for (blocks, wanted, count) in &ROWS {
        let mut file = joined(&rt, &[BEGINNING]);
        for block in blocks.iter() {
            append(&rt, &mut file, block);
        }
        expect_file(&rt, &file, wanted, *count);
    }
}

/// A comment of one byte.
const COMMENT: &[u8] = b"\x01\0\x01\0a\0\0\0";

#[test]
fn first_comments_of_many(rt: HostRuntime) {
    let mut body = joined(&rt, &[&[0; 20], &COMMENT[..4], b"b\0\0\0"]);
    for count in 1..8usize {
        let mut texts = FileTexts::new();
        texts.note(ByteOrder::LittleEndian, 6, &body);
        let comments = &texts.packet_comments;
        expect_at(&rt, &count, &comments.texts.len(), &count.min(4));
        expect_at(
            &rt,
            &count,
            &comments.more,
            &(count.saturating_sub(4) as u64),
        );
        expect_bytes(&rt, comments.texts.as_slice()[0].bytes.as_slice(), b"b");
        append(&rt, &mut body, COMMENT);
    }
}

#[test]
fn no_comments_of_a_classic_capture(rt: HostRuntime) {
    let file =
        b"\xD4\xC3\xB2\xA1\x02\0\x04\0\0\0\0\0\0\0\0\0\0\0\x04\0\x01\0\0\0\0\0\0\0\0\0\0\0\0\0\0\0\0\0\0\0";
    expect_file(&rt, file, &[], 0);
}
