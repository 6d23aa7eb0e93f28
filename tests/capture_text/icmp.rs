use super::expect_transport;
use crate::expect::expect_ok;
use crate::packets::{OVER_IPV4, OVER_IPV6};
use capture_packet::Transport;
use etherparse_transport::{Icmpv4Slice, Icmpv6Slice, TransportSlice, ip_number};
use std::process::Abort;

/// A message, and its text.
type MessageRow = (&'static [u8], &'static str);

#[rattlefmt::skip]
static ICMPV4_MESSAGES: [MessageRow; 25] = [
    (&[0, 0, 9, 9, 0, 1, 0, 2], "echo reply, code 0, identifier 1, sequence number 2, payload 0"),
    (&[8, 0, 9, 9, 0, 1, 0, 2, 7, 7, 7], "echo request, code 0, identifier 1, sequence number 2, payload 3"),
    (&[3, 0, 9, 9, 0, 0, 0, 0], "destination unreachable, code 0 (network), payload 0"),
    (&[3, 3, 9, 9, 0, 0, 0, 0], "destination unreachable, code 3 (port), payload 0"),
    (&[3, 4, 9, 9, 0, 0, 5, 0xDC], "destination unreachable, code 4 (fragmentation needed), next-hop MTU 1500, payload 0"),
    (&[3, 13, 9, 9, 0, 0, 0, 0], "destination unreachable, code 13 (prohibited by filtering), payload 0"),
    (&[3, 16, 9, 9, 0, 0, 0, 1], "type 3, code 16, bytes 5 to 8 00000001, payload 0"),
    (&[5, 1, 9, 9, 192, 0, 2, 1], "redirect, code 1 (host), gateway 192.0.2.1, payload 0"),
    (&[5, 2, 9, 9, 192, 0, 2, 1], "redirect, code 2 (type of service and network), gateway 192.0.2.1, payload 0"),
    (&[11, 0, 9, 9, 0, 0, 0, 0], "time exceeded, code 0 (time to live), payload 0"),
    (&[11, 1, 9, 9, 0, 0, 0, 0], "time exceeded, code 1 (fragment reassembly), payload 0"),
    (&[12, 0, 9, 9, 20, 0, 0, 0], "parameter problem, code 0 (pointer indicates the error), pointer 20, payload 0"),
    (&[12, 1, 9, 9, 0, 0, 0, 0], "parameter problem, code 1 (required option missing), payload 0"),
    (&[12, 2, 9, 9, 0, 0, 0, 0], "parameter problem, code 2 (bad length), payload 0"),
    (&[13, 0, 9, 9, 0, 1, 0, 2, 0, 0, 0, 3, 0, 0, 0, 4, 0, 0, 0, 5],
     "timestamp, code 0, identifier 1, sequence number 2, originate 3, receive 4, transmit 5, payload 0"),
    (&[14, 0, 9, 9, 0, 1, 0, 2, 0, 0, 0, 3, 0, 0, 0, 4, 0, 0, 0, 5],
     "timestamp reply, code 0, identifier 1, sequence number 2, originate 3, receive 4, transmit 5, payload 0"),
    (&[42, 0, 9, 9, 0, 0, 0, 0], "type 42, code 0, bytes 5 to 8 00000000, payload 0"),
    // Errors that quote a packet, the last but one with only a part of its IP header, and a message that is not an error.
    (&[11, 0, 9, 9, 0, 0, 0, 0, 0x45, 0, 0, 60, 0, 0, 0, 0, 1, 17, 0, 0, 192, 0, 2, 1, 198, 51, 100, 7, 0xC0, 0, 0x82, 0x9A, 0, 40, 0, 0],
     "time exceeded, code 0 (time to live) for 192.0.2.1:49152 > 198.51.100.7:33434 UDP, payload 28"),
    (&[3, 4, 9, 9, 0, 0, 5, 0xDC, 0x45, 0, 0, 60, 0, 0, 0, 0, 1, 6, 0, 0, 192, 0, 2, 1, 198, 51, 100, 7, 0, 80, 4, 210],
     "destination unreachable, code 4 (fragmentation needed), next-hop MTU 1500 for 192.0.2.1:80 > 198.51.100.7:1234 TCP, payload 24"),
    (&[3, 3, 9, 9, 0, 0, 0, 0, 0x45, 0, 0, 60, 0, 0, 0, 0, 1, 6, 0, 0, 192, 0, 2, 1, 198, 51, 100, 7, 0, 80, 4],
     "destination unreachable, code 3 (port) for 192.0.2.1 > 198.51.100.7 TCP, payload 23"),
    (&[11, 1, 9, 9, 0, 0, 0, 0, 0x45, 0, 0, 60, 0, 0, 0, 1, 1, 17, 0, 0, 192, 0, 2, 1, 198, 51, 100, 7, 0xC0, 0, 0x82, 0x9A],
     "time exceeded, code 1 (fragment reassembly) for 192.0.2.1 > 198.51.100.7 UDP, payload 24"),
    (&[11, 0, 9, 9, 0, 0, 0, 0, 0x45, 0, 0, 60, 0, 0, 0, 0, 1, 1, 0, 0, 192, 0, 2, 1, 198, 51, 100, 7, 8, 0, 0, 0, 0, 1, 0, 2],
     "time exceeded, code 0 (time to live) for 192.0.2.1 > 198.51.100.7 ICMPv4, payload 28"),
    (&[4, 0, 9, 9, 0, 0, 0, 0, 0x45, 0, 0, 60, 0, 0, 0, 0, 1, 47, 0, 0, 192, 0, 2, 1, 198, 51, 100, 7],
     "type 4, code 0, bytes 5 to 8 00000000 for 192.0.2.1 > 198.51.100.7 GRE, payload 20"),
    (&[11, 0, 9, 9, 0, 0, 0, 0, 0x45, 0, 0, 60, 0, 0, 0, 0, 1, 17, 0, 0, 192, 0, 2, 1, 198, 51, 100],
     "time exceeded, code 0 (time to live), payload 19"),
    (&[8, 0, 9, 9, 0, 1, 0, 2, 0x45, 0, 0, 60, 0, 0, 0, 0, 1, 17, 0, 0, 192, 0, 2, 1, 198, 51, 100, 7],
     "echo request, code 0, identifier 1, sequence number 2, payload 20"),
];

/// Stops the test unless the ICMPv4 message of a row has the text of the row.
fn expect_icmpv4(rt: &(impl Abort + AllocGlobal), row: &MessageRow) {
    let (message, wanted) = *row;
    let message = expect_ok(rt, Icmpv4Slice::from_slice(message));
    let transport = Transport::Read(TransportSlice::Icmpv4(message));
    let wanted = ["192.0.2.1 > 192.0.2.2 ICMPv4 ", wanted, ""];
    expect_transport(rt, OVER_IPV4, ip_number::ICMP, transport, wanted);
}

#[test]
fn messages_of_icmpv4(rt: HostRuntime) {
    for row in &ICMPV4_MESSAGES {
        expect_icmpv4(&rt, row);
    }
}

#[rattlefmt::skip]
static ICMPV6_MESSAGES: [MessageRow; 42] = [
    (&[1, 0, 9, 9, 0, 0, 0, 0], "destination unreachable, code 0 (no route), payload 0"),
    (&[1, 5, 9, 9, 0, 0, 0, 0], "destination unreachable, code 5 (source address failed the policy), payload 0"),
    (&[1, 7, 9, 9, 0, 0, 0, 1], "type 1, code 7, bytes 5 to 8 00000001, payload 0"),
    (&[2, 0, 9, 9, 0, 0, 5, 0], "packet too big, code 0, MTU 1280, payload 0"),
    (&[3, 0, 9, 9, 0, 0, 0, 0], "time exceeded, code 0 (hop limit), payload 0"),
    (&[3, 1, 9, 9, 0, 0, 0, 0], "time exceeded, code 1 (fragment reassembly), payload 0"),
    (&[4, 1, 9, 9, 0, 0, 0, 40], "parameter problem, code 1 (unrecognized next header), pointer 40, payload 0"),
    (&[4, 10, 9, 9, 0, 0, 1, 0], "parameter problem, code 10 (option too big), pointer 256, payload 0"),
    (&[128, 0, 9, 9, 0, 1, 0, 2], "echo request, code 0, identifier 1, sequence number 2, payload 0"),
    (&[129, 0, 9, 9, 0, 1, 0, 2, 7], "echo reply, code 0, identifier 1, sequence number 2, payload 1"),
    (&[133, 0, 9, 9, 0, 0, 0, 0], "router solicitation, code 0, payload 0"),
    (&[134, 0, 9, 9, 64, 0xC0, 7, 8],
     "router advertisement, code 0, current hop limit 64, flags managed other, router lifetime 1800, payload 0"),
    (&[134, 0, 9, 9, 64, 0x40, 7, 8], "router advertisement, code 0, current hop limit 64, flags other, router lifetime 1800, payload 0"),
    (&[134, 0, 9, 9, 0, 0, 0, 0], "router advertisement, code 0, current hop limit 0, flags none, router lifetime 0, payload 0"),
    (&[135, 0, 9, 9, 0, 0, 0, 0], "neighbor solicitation, code 0, payload 0"),
    (&[136, 0, 9, 9, 0xE0, 0, 0, 0], "neighbor advertisement, code 0, flags router solicited override, payload 0"),
    (&[136, 0, 9, 9, 0x40, 0, 0, 0], "neighbor advertisement, code 0, flags solicited, payload 0"),
    (&[136, 0, 9, 9, 0, 0, 0, 0], "neighbor advertisement, code 0, flags none, payload 0"),
    (&[137, 0, 9, 9, 0, 0, 0, 0], "redirect, code 0, payload 0"),
    // Neighbor discovery: the target, the destination of a redirect, and the options.
    (&[133, 0, 9, 9, 0, 0, 0, 0, 1, 1, 2, 0, 0, 0, 0, 10], "router solicitation, code 0, link-layer address 02:00:00:00:00:0a, payload 8"),
    (&[133, 0, 9, 9, 0, 0, 0, 0, 1, 1, 2, 0, 0, 0, 0], "router solicitation, code 0, payload 7"),
    (&[133, 0, 9, 9, 0, 0, 0, 0, 1, 0, 2, 0, 0, 0, 0, 10, 1, 1, 2, 0, 0, 0, 0, 10], "router solicitation, code 0, payload 16"),
    (&[133, 0, 9, 9, 0, 0, 0, 0, 1, 2, 2, 0, 0, 0, 0, 10, 1, 1, 2, 0, 0, 0, 0, 10, 2, 1, 6, 5, 4, 3, 2, 1],
     "router solicitation, code 0, link-layer address 06:05:04:03:02:01, payload 24"),
    (&[133, 0, 9, 9, 0, 0, 0, 0, 14, 4, 2, 0, 0, 0, 0, 10, 1, 1, 2, 0, 0, 0, 0, 10], "router solicitation, code 0, payload 16"),
    (&[134, 0, 9, 9, 0, 0, 0, 0, 1, 1, 0, 0, 1, 1, 0, 0, 3, 1, 0, 0, 0, 0, 0, 0, 1, 1, 0xAB, 0xCD, 0xEF, 1, 2, 3],
     "router advertisement, code 0, current hop limit 0, flags none, router lifetime 0, link-layer address ab:cd:ef:01:02:03, payload 24"),
    (&[135, 0, 9, 9, 0, 0, 0, 0, 0xFE, 0x80, 0, 0, 0, 0, 0, 0, 0, 0, 0, 0, 0, 0, 0, 1], "neighbor solicitation, code 0, target fe80::1, payload 16"),
    (&[135, 0, 9, 9, 0, 0, 0, 0, 0xFE, 0x80, 0, 0, 0, 0, 0, 0, 0, 0, 0, 0, 0, 0, 0], "neighbor solicitation, code 0, payload 15"),
    (&[135, 0, 9, 9, 0, 0, 0, 0, 0xFE, 0x80, 0, 0, 0, 0, 0, 0, 0, 0, 0, 0, 0, 0, 0, 1, 1, 1, 2, 0, 0, 0, 0, 1],
     "neighbor solicitation, code 0, target fe80::1, link-layer address 02:00:00:00:00:01, payload 24"),
    (&[136, 0, 9, 9, 0x60, 0, 0, 0, 0xFE, 0x80, 0, 0, 0, 0, 0, 0, 0, 0, 0, 0, 0, 0, 0, 1, 2, 1, 2, 0, 0, 0, 0, 1],
     "neighbor advertisement, code 0, flags solicited override, target fe80::1, link-layer address 02:00:00:00:00:01, payload 24"),
    (&[137, 0, 9, 9, 0, 0, 0, 0, 0xFE, 0x80, 0, 0, 0, 0, 0, 0, 0, 0, 0, 0, 0, 0, 0, 1, 0x20, 1, 0x0D, 0xB8, 0, 0, 0, 0, 0, 0, 0, 0, 0, 0, 0, 9,
       2, 1, 2, 0, 0, 0, 0, 1],
     "redirect, code 0, target fe80::1, destination 2001:db8::9, link-layer address 02:00:00:00:00:01, payload 40"),
    (&[137, 0, 9, 9, 0, 0, 0, 0, 0xFE, 0x80, 0, 0, 0, 0, 0, 0, 0, 0, 0, 0, 0, 0, 0, 1, 0x20, 1, 0x0D, 0xB8, 0, 0, 0, 0, 0, 0, 0, 0, 0, 0, 0],
     "redirect, code 0, target fe80::1, payload 31"),
    (&[135, 1, 9, 9, 0, 0, 0, 0, 0xFE, 0x80, 0, 0, 0, 0, 0, 0, 0, 0, 0, 0, 0, 0, 0, 1], "type 135, code 1, bytes 5 to 8 00000000, payload 16"),
    // Multicast listeners.
    (&[130, 0, 9, 9, 0x27, 0x10, 0, 1, 0, 0, 0, 0, 0, 0, 0, 0, 0, 0, 0, 0, 0, 0, 0, 0],
     "multicast listener query, code 0, maximum response code 10000, group ::, payload 16"),
    (&[131, 0, 9, 9, 0, 0, 0, 1, 0xFF, 2, 0, 0, 0, 0, 0, 0, 0, 0, 0, 1, 0xFF, 0, 0, 1],
     "multicast listener report, code 0, group ff02::1:ff00:1, payload 16"),
    (&[132, 0, 9, 9, 0, 0, 0, 1, 0xFF, 2, 0, 0, 0, 0, 0, 0, 0, 0, 0, 1, 0xFF, 0, 0, 1],
     "multicast listener done, code 0, group ff02::1:ff00:1, payload 16"),
    (&[132, 7, 9, 9, 0, 0, 0, 1, 0xFF, 2, 0, 0], "multicast listener done, code 7, payload 4"),
    (&[143, 0, 9, 9, 1, 2, 0, 3, 0xFF, 2, 0, 0, 0, 0, 0, 0, 0, 0, 0, 1, 0xFF, 0, 0, 1],
     "version 2 multicast listener report, code 0, records 3, payload 16"),
    (&[133, 0, 9, 9, 0, 0, 0, 0, 3, 1, 2, 0, 0, 0, 0, 10], "router solicitation, code 0, payload 8"),
    (&[128, 0, 9, 9, 0, 1, 0, 2, 1, 1, 2, 0, 0, 0, 0, 10], "echo request, code 0, identifier 1, sequence number 2, payload 8"),
    // Errors that quote a packet.
    (&[3, 0, 9, 9, 0, 0, 0, 0, 0x60, 0, 0, 0, 0, 64, 0, 1, 0x20, 1, 0x0D, 0xB8, 0, 0, 0, 0, 0, 0, 0, 0, 0, 0, 0, 1,
       0x20, 1, 0x0D, 0xB8, 0, 0, 0, 0, 0, 0, 0, 0, 0, 0, 0, 2, 17, 0, 1, 4, 0, 0, 0, 0, 0xC0, 0, 0x82, 0x9A],
     "time exceeded, code 0 (hop limit) for [2001:db8::1]:49152 > [2001:db8::2]:33434 UDP, payload 52"),
    (&[2, 0, 9, 9, 0, 0, 5, 0, 0x60, 0, 0, 0, 0, 64, 43, 1, 0x20, 1, 0x0D, 0xB8, 0, 0, 0, 0, 0, 0, 0, 0, 0, 0, 0, 1,
       0x20, 1, 0x0D, 0xB8, 0, 0, 0, 0, 0, 0, 0, 0, 0, 0, 0, 2, 58, 0, 253, 1, 0, 0, 0, 0],
     "packet too big, code 0, MTU 1280 for 2001:db8::1 > unknown ICMPv6, payload 48"),
    (&[42, 0, 9, 9, 1, 2, 0xAB, 0xCD], "type 42, code 0, bytes 5 to 8 0102ABCD, payload 0"),
];

/// Stops the test unless the ICMPv6 message of a row has the text of the row.
fn expect_icmpv6(rt: &(impl Abort + AllocGlobal), row: &MessageRow) {
    let (message, wanted) = *row;
    let message = expect_ok(rt, Icmpv6Slice::from_slice(message));
    let transport = Transport::Read(TransportSlice::Icmpv6(message));
    let wanted = ["2001:db8::1 > 2001:db8::2 ICMPv6 ", wanted, ""];
    expect_transport(rt, OVER_IPV6, ip_number::IPV6_ICMP, transport, wanted);
}

#[test]
fn messages_of_icmpv6(rt: HostRuntime) {
    for row in &ICMPV6_MESSAGES {
        expect_icmpv6(&rt, row);
    }
}
