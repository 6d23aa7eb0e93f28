//! Tests of the crate `capture_text`.

mod conversations;
mod endpoints;
mod files;
mod further_fields;
mod icmp;
mod packet_lines;
mod summary;
mod tcp;
mod timeline_table;

use crate::expect::{expect_all_written, expect_ok};
use crate::summaries::first_info;
use capture_file::PacketTime;
use capture_file::pcapng::TimeResolution;
use capture_packet::{Content, Packet, Transport, Verdict};
use capture_summary::FrameLen;
use capture_text::write_packet_line;
use capture_words::Times;
use etherparse_transport::ip::{IpAddresses, proto_over};
use etherparse_transport::{ChecksumVerdict, IpNumber};
use std::process::Abort;

/// The time of the first packet of a capture.
const FIRST: PacketTime = PacketTime {
    seconds: 1_000_000_000,
    fraction: 0,
    resolution: TimeResolution::PowerOfTen(6),
    offset: 0,
};

/// The length of a frame that was captured completely.
const WHOLE: FrameLen = FrameLen {
    original: 60,
    captured: 60,
};

/// The beginning of the first line of a capture if its whole frame was captured.
const START: &str = "1 00:00:00.000000 length 60: ";

/// The first line of a capture, of this packet in a frame of this length.
fn line_of(rt: &(impl Abort + AllocGlobal), len: Option<FrameLen>, packet: &Packet<'_>) -> Vec<u8> {
    let time = Some(FIRST);
    let times = Times::SinceFirst;
    let mut line = Vec::new(rt.alloc());
    let info = first_info(time, len);
    let written = write_packet_line(&mut line, times, false, &info, packet);
    expect_ok(rt, written);
    line
}

/// Stops the test unless the three texts together are the first line of a capture for this packet, after the length of its frame.
fn expect_line_of(rt: &(impl Abort + AllocGlobal), packet: &Packet<'_>, wanted: [&str; 3]) {
    let [before, wanted, after] = wanted;
    let line = line_of(rt, Some(WHOLE), packet);
    expect_all_written(rt, &line, &[START, before, wanted, after, "\n"]);
}

/// Stops the test unless the three texts together are the first line of a capture for a packet in no tunnel, after the length of its frame.
fn expect_line(
    rt: &(impl Abort + AllocGlobal),
    content: Content<'_>,
    verdict: Verdict,
    wanted: [&str; 3],
) {
    expect_line_of(rt, &Packet::in_no_tunnel(content, verdict), wanted);
}

/// Stops the test unless the three texts together are the text of an IP packet with this transport, whose checksum is right.
fn expect_transport(
    rt: &(impl Abort + AllocGlobal),
    addresses: IpAddresses<'_>,
    protocol: IpNumber,
    transport: Transport<'_>,
    wanted: [&str; 3],
) {
    let content = Content::Ip {
        addresses,
        protocol,
        proto: proto_over(addresses, protocol),
        payload_len: transport.payload().len(),
        transport,
    };
    let verdict = Verdict::Checksum(ChecksumVerdict::Right);
    let [before, wanted, after] = wanted;
    let line = line_of(rt, Some(WHOLE), &Packet::in_no_tunnel(content, verdict));
    let end = "; checksum right\n";
    expect_all_written(rt, &line, &[START, before, wanted, after, end]);
}

/// Stops the test unless the three texts together are the text of this verdict on a packet that is not read.
fn expect_verdict(rt: &(impl Abort + AllocGlobal), verdict: Verdict, wanted: [&str; 3]) {
    expect_line(rt, Content::Unread, verdict, wanted);
}
