//! ICMP errors from a router behind the translator. The translator maps the address of the router differently from the addresses of the
//! quoted packet.

use super::{Change, RIGHT, buffer_with, changed, expect_verdicts};
use crate::expect::{expect_equal, expect_ok, expect_some};
use etherparse_transport::ip::{
    Ipv4Translation, Ipv6Translation, translate_ipv4_with_quoted, translate_ipv6_with_quoted,
};

/// A time exceeded message of 10.0.0.1 about a UDP packet to 10.0.0.2.
#[rattlefmt::skip]
static IPV4_ERROR: [u8; 56] = [
    0x45, 0, 0, 0x38, 0x12, 0x34, 0, 0, 0x40, 1, 0x34, 0x54, 0x0A, 0, 0, 1, 0xC6, 0x33, 0x64, 9, 0x0B, 0, 0x29, 0x58, 0, 0, 0, 0,
    0x45, 0, 0, 0x1C, 0x12, 0x34, 0, 0, 1, 0x11, 0x73, 0x5F, 0xC6, 0x33, 0x64, 9, 0x0A, 0, 0, 2, 0, 0x35, 0x13, 0x88, 0, 8, 0xB7,
    0xE2,
];

#[rattlefmt::skip]
static IPV4_CHANGES: [Change; 6] = [
    (10, &[2, 0x4C, 0xCB, 0, 0x71, 8]), (22, &[0x5B, 0x5E]), (38, &[0x41, 0x59]), (44, &[0xCB, 0, 0x71, 7]), (50, &[0x9C, 0x40]), (54, &[0xFD, 0x23]),
];

#[test]
fn ipv4_error_of_a_router_has_an_address_of_its_own(rt: HostRuntime) {
    let mut buffer = buffer_with(&IPV4_ERROR);
    let new = Ipv4Translation {
        source: Some([203, 0, 113, 8]),
        ..Ipv4Translation::default()
    };
    let quoted = Ipv4Translation {
        destination: Some([203, 0, 113, 7]),
        destination_port: Some(40_000),
        ..Ipv4Translation::default()
    };
    let packet = expect_some(&rt, buffer.get_mut(..IPV4_ERROR.len()));
    expect_ok(&rt, translate_ipv4_with_quoted(packet, &new, &quoted));
    expect_equal(&rt, &buffer, &changed(&rt, &IPV4_ERROR, &IPV4_CHANGES));
    expect_verdicts(&rt, &IPV4_ERROR, &IPV4_CHANGES, &RIGHT);
}

/// A time exceeded message of fd00::1 about a UDP packet to fd00::2.
#[rattlefmt::skip]
static IPV6_ERROR: [u8; 96] = [
    0x60, 1, 0x23, 0x45, 0, 0x38, 0x3A, 0x40, 0xFD, 0, 0, 0, 0, 0, 0, 0, 0, 0, 0, 0, 0, 0, 0, 1, 0x20, 1, 0x0D, 0xB8, 0, 2, 0, 0,
    0, 0, 0, 0, 0, 0, 0, 9, 3, 0, 0x3D, 0x91, 0, 0, 0, 0, 0x60, 1, 0x23, 0x45, 0, 8, 0x11, 1, 0x20, 1, 0x0D, 0xB8, 0, 2, 0, 0, 0,
    0, 0, 0, 0, 0, 0, 9, 0xFD, 0, 0, 0, 0, 0, 0, 0, 0, 0, 0, 0, 0, 0, 0, 2, 0, 0x35, 0x13, 0x88, 0, 8, 0xC1, 0x5A,
];

#[rattlefmt::skip]
static IPV6_CHANGES: [Change; 7] = [
    (8, &[0x20, 1, 0x0D, 0xB8, 0, 1]), (23, &[8]), (42, &[0x0C, 0xD1]), (72, &[0x20, 1, 0x0D, 0xB8, 0, 1]), (87, &[7]), (90, &[0x9C, 0x40]), (94, &[7, 0xE4]),
];

#[test]
fn ipv6_error_of_a_router_has_an_address_of_its_own(rt: HostRuntime) {
    let mut buffer = buffer_with(&IPV6_ERROR);
    let new = Ipv6Translation {
        source: Some([0x20, 1, 0x0D, 0xB8, 0, 1, 0, 0, 0, 0, 0, 0, 0, 0, 0, 8]),
        ..Ipv6Translation::default()
    };
    let quoted = Ipv6Translation {
        destination: Some([0x20, 1, 0x0D, 0xB8, 0, 1, 0, 0, 0, 0, 0, 0, 0, 0, 0, 7]),
        destination_port: Some(40_000),
        ..Ipv6Translation::default()
    };
    let packet = expect_some(&rt, buffer.get_mut(..IPV6_ERROR.len()));
    expect_ok(&rt, translate_ipv6_with_quoted(packet, &new, &quoted));
    expect_equal(&rt, &buffer, &changed(&rt, &IPV6_ERROR, &IPV6_CHANGES));
    expect_verdicts(&rt, &IPV6_ERROR, &IPV6_CHANGES, &RIGHT);
}
