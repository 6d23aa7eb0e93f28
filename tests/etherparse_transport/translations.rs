//! Translated packets. The rows were computed without this crate: each packet was built from its fields, and the translated packet from the
//! translated fields. All checksums were computed anew (RFC 1071).

mod ipv4;
mod ipv6;
mod quoted;

use crate::expect::{expect_equal, expect_ok, expect_some, expect_text};
use etherparse_transport::err::packet::TranslateError;
use etherparse_transport::ip::{
    IpError, checksum_verdict, translate_ipv4, translate_ipv6, transport_in_ip_lax,
};
use etherparse_transport::{ChecksumVerdict, IpNumber, Untested};
use std::process::Abort;

/// A place in a packet, and the new bytes there.
type Change = (usize, &'static [u8]);

/// The verdicts on a packet and on the translated packet.
type Verdicts = [ChecksumVerdict; 2];

const RIGHT: Verdicts = [ChecksumVerdict::Right; 2];

const ABSENT: Verdicts = [ChecksumVerdict::Absent; 2];

const CUT_OFF: Verdicts = [ChecksumVerdict::Untested(Untested::CutOff); 2];

const FRAGMENT: Verdicts = [ChecksumVerdict::Untested(Untested::Fragment); 2];

const OTHER: Verdicts = [ChecksumVerdict::Untested(Untested::OtherProtocol); 2];

/// A buffer that begins with these bytes.
fn buffer_with(bytes: &[u8]) -> [u8; 200] {
    let mut buffer = [0xAA; 200];
    for (place, byte) in buffer.iter_mut().zip(bytes) {
        *place = *byte;
    }
    buffer
}

/// A buffer that begins with these bytes, as they are after these changes.
fn changed(rt: &impl Abort, bytes: &[u8], changes: &[Change]) -> [u8; 200] {
    let mut buffer = buffer_with(bytes);
    for (start, new) in changes {
        let places = expect_some(rt, buffer.get_mut(*start..));
        for (place, byte) in places.iter_mut().zip(*new) {
            *place = *byte;
        }
    }
    buffer
}

/// The verdict on the checksum of a packet.
fn verdict(rt: &impl Abort, packet: &[u8]) -> ChecksumVerdict {
    let found = expect_ok(rt, transport_in_ip_lax(packet));
    expect_ok(rt, checksum_verdict(&found))
}

/// Stops the test unless a packet has these verdicts before and after these changes.
fn expect_verdicts(rt: &impl Abort, packet: &[u8], changes: &[Change], verdicts: &Verdicts) {
    let buffer = changed(rt, packet, changes);
    let translated = expect_some(rt, buffer.get(..packet.len()));
    let found = [verdict(rt, packet), verdict(rt, translated)];
    expect_equal(rt, &found, verdicts);
}

/// Stops the test unless the packet of a row is translated.
fn expect_ipv4(rt: &impl Abort, row: &ipv4::Row) {
    let (new, verdicts, packet, changes) = row;
    let mut buffer = buffer_with(packet);
    let result = translate_ipv4(expect_some(rt, buffer.get_mut(..packet.len())), new);
    expect_ok(rt, result);
    expect_equal(rt, &buffer, &changed(rt, packet, changes));
    expect_verdicts(rt, packet, changes, verdicts);
}

#[test]
fn ipv4_packets_are_translated(rt: HostRuntime) {
    for row in &ipv4::PACKETS {
        expect_ipv4(&rt, row);
    }
}

#[test]
fn icmp_errors_over_ipv4_are_translated(rt: HostRuntime) {
    for row in &ipv4::ERRORS {
        expect_ipv4(&rt, row);
    }
}

/// Stops the test unless the packet of a row is translated.
fn expect_ipv6(rt: &impl Abort, row: &ipv6::Row) {
    let (new, verdicts, packet, changes) = row;
    let mut buffer = buffer_with(packet);
    let result = translate_ipv6(expect_some(rt, buffer.get_mut(..packet.len())), new);
    expect_ok(rt, result);
    expect_equal(rt, &buffer, &changed(rt, packet, changes));
    expect_verdicts(rt, packet, changes, verdicts);
}

#[test]
fn ipv6_packets_are_translated(rt: HostRuntime) {
    for row in &ipv6::PACKETS {
        expect_ipv6(&rt, row);
    }
}

#[test]
fn icmp_errors_over_ipv6_are_translated(rt: HostRuntime) {
    for row in &ipv6::ERRORS {
        expect_ipv6(&rt, row);
    }
}

#[test]
fn refused_ipv4_packets_stay_as_they_are(rt: HostRuntime) {
    for (error, packet) in &ipv4::REFUSALS {
        expect_refused_ipv4(&rt, error, packet);
    }
}

/// The packet is refused by this error, and stays as it is.
fn expect_refused_ipv4(rt: &impl Abort, error: &TranslateError, packet: &[u8]) {
    let mut buffer = buffer_with(packet);
    let refused = expect_some(rt, buffer.get_mut(..packet.len()));
    let result = translate_ipv4(refused, &ipv4::BOTH);
    expect_equal(rt, &expect_some(rt, result.err()), error);
    expect_equal(rt, &buffer, &buffer_with(packet));
}

#[test]
fn refused_ipv6_packets_stay_as_they_are(rt: HostRuntime) {
    for (error, packet) in &ipv6::REFUSALS {
        expect_refused_ipv6(&rt, error, packet);
    }
}

/// The packet is refused by this error, and stays as it is.
fn expect_refused_ipv6(rt: &impl Abort, error: &TranslateError, packet: &[u8]) {
    let mut buffer = buffer_with(packet);
    let refused = expect_some(rt, buffer.get_mut(..packet.len()));
    let result = translate_ipv6(refused, &ipv6::BOTH);
    expect_equal(rt, &expect_some(rt, result.err()), error);
    expect_equal(rt, &buffer, &buffer_with(packet));
}

/// The protocols over IPv4 and over IPv6 that are refused, although only an address is replaced.
static COVERED_IPV4: [u8; 6] = [33, 51, 58, 112, 136, 139];

static COVERED_IPV6: [u8; 10] = [1, 33, 51, 89, 103, 112, 135, 136, 139, 140];

#[test]
fn protocols_that_cover_addresses_are_refused(rt: HostRuntime) {
    for protocol in &COVERED_IPV4 {
        let mut packet = [0; 40];
        packet[0] = 0x45;
        packet[9] = *protocol;
        packet[20] = 59;
        let result = translate_ipv4(&mut packet, &ipv4::ADDRESS);
        let error = TranslateError::Protocol(IpNumber(*protocol));
        expect_equal(&rt, &expect_some(&rt, result.err()), &error);
    }
    for protocol in &COVERED_IPV6 {
        let mut packet = [0; 56];
        packet[0] = 0x60;
        packet[5] = 16;
        packet[6] = *protocol;
        packet[40] = 59;
        let result = translate_ipv6(&mut packet, &ipv6::ADDRESS);
        let error = TranslateError::Protocol(IpNumber(*protocol));
        expect_equal(&rt, &expect_some(&rt, result.err()), &error);
    }
}

#[rattlefmt::skip]
static TEXTS: [(TranslateError, &str); 7] = [
    (TranslateError::Ip(IpError::Version { version: 5 }), "IP Error: the version is 5."),
    (TranslateError::OtherVersion, "Translation Error: the packet has the other IP version."),
    (TranslateError::SourceRoute, "Translation Error: the IPv4 options contain a source route."),
    (TranslateError::Protocol(IpNumber(47)), "Translation Error: the protocol 47 is not translated."),
    (
        TranslateError::HeaderCutOff { required_len: 8, len: 7 },
        "Translation Error: the transport header has at least 8 bytes, and the packet contains 7.",
    ),
    (TranslateError::IcmpMessage, "Translation Error: the ICMP message is no query and no error, or a redirect."),
    (TranslateError::QuotedPacket, "Translation Error: the packet that the ICMP error is about can't be translated."),
];

#[test]
fn texts_of_a_refused_translation(rt: HostRuntime) {
    for (error, text) in &TEXTS {
        expect_text(&rt, error, text);
        expect_text(&rt, &error.text(), text);
    }
}
