//! Packets that are put together from their fragments, and the verdicts on their checksums.

use crate::expect::{expect_bytes, expect_equal, expect_ok, expect_some};
use etherparse_transport::ip::reassembly::{Fragment, Progress, Reassembly};
use etherparse_transport::ip::{checksum_verdict, transport_in_ip};
use etherparse_transport::{ChecksumVerdict, Untested};
use std::process::Abort;

/// The first eight bytes of a UDP packet of nine bytes over IPv4. Its checksum is right.
const FIRST: [u8; 28] = [
    0x45, 0, 0, 28, 0, 7, 0x20, 0, 64, 17, 0, 0, 10, 0, 0, 1, 10, 0, 0, 2, // IPv4
    0, 1, 0, 2, 0, 9, 0x73, 0xD6,
];

/// The last byte of this packet.
const LAST: [u8; 21] = [
    0x45, 0, 0, 21, 0, 7, 0, 1, 64, 17, 0, 0, 10, 0, 0, 1, 10, 0, 0, 2, // IPv4
    b'x',
];

/// Stops the test unless this is the verdict on the packet.
fn expect_verdict(rt: &impl Abort, packet: &[u8], expected: ChecksumVerdict) {
    let found = expect_ok(rt, transport_in_ip(packet));
    let verdict = expect_ok(rt, checksum_verdict(&found));
    expect_equal(rt, &verdict, &expected);
}

#[test]
fn a_packet_from_fragments_has_a_verdict(rt: HostRuntime) {
    let mut buffer = [0; 69];
    let untested = ChecksumVerdict::Untested(Untested::Fragment);
    expect_verdict(&rt, &FIRST, untested);
    expect_verdict(&rt, &LAST, untested);
    let last = expect_some(&rt, expect_ok(&rt, Fragment::of(&LAST)));
    let first = expect_some(&rt, expect_ok(&rt, Fragment::of(&FIRST)));
    let mut reassembly = Reassembly::new(last.key, &mut buffer);
    let progress = expect_ok(&rt, reassembly.add(&last));
    expect_equal(&rt, &progress, &Progress::Incomplete);
    let progress = expect_ok(&rt, reassembly.add(&first));
    expect_equal(&rt, &progress, &Progress::Complete);
    let packet = expect_some(&rt, reassembly.packet());
    expect_bytes(&rt, &packet[20..28], &FIRST[20..]);
    expect_verdict(&rt, packet, ChecksumVerdict::Right);
}
