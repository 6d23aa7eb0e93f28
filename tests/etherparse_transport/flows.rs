//! The ends of flows, which were written out by hand from RFC 791, RFC 768, RFC 9293, RFC 792, RFC 950, RFC 8200 and RFC 4443.

use crate::expect::{bytes_to, expect_at, expect_equal, expect_ok};
use crate::packets::{OVER_IPV4, OVER_IPV6};
use etherparse_transport::ip::{FlowEnds, IpAddresses, IpError, PacketFlow, flow};
use etherparse_transport::{IpNumber, ip_number};

/// An IPv4 packet from 192.0.2.1 to 192.0.2.2 with this protocol and these flags and fragment offset, and with eight bytes after its header.
fn over_ipv4(protocol: IpNumber, place: [u8; 2], message: [u8; 8]) -> [u8; 28] {
    let mut packet = [
        0x45, 0, 0, 28, 0, 0, 0, 0, 64, 0, 0, 0, 192, 0, 2, 1, 192, 0, 2, 2, // IPv4
        0, 0, 0, 0, 0, 0, 0, 0,
    ];
    packet[6..8].copy_from_slice(&place);
    packet[9] = protocol.0;
    packet[20..].copy_from_slice(&message);
    packet
}

/// An IPv6 packet from 2001:db8::1 to 2001:db8::2 with this protocol, and with eight bytes after its header.
fn over_ipv6(protocol: IpNumber, message: [u8; 8]) -> [u8; 48] {
    let mut packet = [0; 48];
    packet[..8].copy_from_slice(&[0x60, 0, 0, 0, 0, 8, protocol.0, 64]);
    packet[8..12].copy_from_slice(&[0x20, 1, 0x0D, 0xB8]);
    packet[23] = 1;
    packet[24..28].copy_from_slice(&[0x20, 1, 0x0D, 0xB8]);
    packet[39] = 2;
    packet[40..].copy_from_slice(&message);
    packet
}

/// The ends of a whole packet of this protocol between these addresses, with these ports.
fn ends<'a>(
    addresses: IpAddresses<'a>,
    protocol: IpNumber,
    source_port: Option<u16>,
    destination_port: Option<u16>,
) -> FlowEnds<'a> {
    FlowEnds {
        addresses,
        protocol,
        is_fragment: false,
        is_later_fragment: false,
        source_port,
        destination_port,
    }
}

/// A protocol, the first eight bytes of its message, and the ports or the identifier of source and destination.
type Row = (IpNumber, [u8; 8], Option<u16>, Option<u16>);

#[rattlefmt::skip]
static OVER_IPV4_ROWS: [Row; 16] = [
    (ip_number::UDP, [0x13, 0x88, 0, 53, 0, 8, 0, 0], Some(5000), Some(53)),
    (ip_number::TCP, [0x9C, 0x40, 1, 0xBB, 0, 0, 0, 1], Some(40_000), Some(443)),
    // Requests of echo, timestamp, information and address mask, with any code, and their replies
    (ip_number::ICMP, [8, 0, 0, 0, 0xAB, 0xCD, 0, 1], Some(0xABCD), None),
    (ip_number::ICMP, [8, 9, 0, 0, 0xAB, 0xCD, 0, 1], Some(0xABCD), None),
    (ip_number::ICMP, [13, 0, 0, 0, 0xAB, 0xCD, 0, 1], Some(0xABCD), None),
    (ip_number::ICMP, [15, 0, 0, 0, 0xAB, 0xCD, 0, 1], Some(0xABCD), None),
    (ip_number::ICMP, [17, 0, 0, 0, 0xAB, 0xCD, 0, 1], Some(0xABCD), None),
    (ip_number::ICMP, [0, 0, 0, 0, 0xAB, 0xCD, 0, 1], None, Some(0xABCD)),
    (ip_number::ICMP, [14, 0, 0, 0, 0xAB, 0xCD, 0, 1], None, Some(0xABCD)),
    (ip_number::ICMP, [16, 0, 0, 0, 0xAB, 0xCD, 0, 1], None, Some(0xABCD)),
    (ip_number::ICMP, [18, 0, 0, 0, 0xAB, 0xCD, 0, 1], None, Some(0xABCD)),
    // A router advertisement, and an error that quotes nothing
    (ip_number::ICMP, [9, 0, 0, 0, 0xAB, 0xCD, 0, 1], None, None),
    (ip_number::ICMP, [3, 0, 0, 0, 0xAB, 0xCD, 0, 1], None, None),
    // ICMPv6 over IPv4, and SCTP, which has ports too
    (ip_number::IPV6_ICMP, [128, 0, 0, 0, 0xAB, 0xCD, 0, 1], None, None),
    (IpNumber(132), [0x13, 0x88, 0, 53, 0, 8, 0, 0], None, None),
    (IpNumber(59), [0x13, 0x88, 0, 53, 0, 8, 0, 0], None, None),
];

#[rattlefmt::skip]
static OVER_IPV6_ROWS: [Row; 6] = [
    (ip_number::UDP, [0x13, 0x88, 0, 53, 0, 8, 0, 0], Some(5000), Some(53)),
    (ip_number::TCP, [0x9C, 0x40, 1, 0xBB, 0, 0, 0, 1], Some(40_000), Some(443)),
    (ip_number::IPV6_ICMP, [128, 0, 0, 0, 0xAB, 0xCD, 0, 1], Some(0xABCD), None),
    (ip_number::IPV6_ICMP, [129, 7, 0, 0, 0xAB, 0xCD, 0, 1], None, Some(0xABCD)),
    (ip_number::IPV6_ICMP, [8, 0, 0, 0, 0xAB, 0xCD, 0, 1], None, None),
    (ip_number::ICMP, [8, 0, 0, 0, 0xAB, 0xCD, 0, 1], None, None),
];

#[test]
fn a_message_names_its_ports_or_its_identifier(rt: HostRuntime) {
    for row in &OVER_IPV4_ROWS {
        let packet = over_ipv4(row.0, [0, 0], row.1);
        let found = expect_ok(&rt, flow(&packet));
        expect_at(&rt, row, &found.ends, &ends(OVER_IPV4, row.0, row.2, row.3));
    }
    for row in &OVER_IPV6_ROWS {
        let packet = over_ipv6(row.0, row.1);
        let found = expect_ok(&rt, flow(&packet));
        expect_at(&rt, row, &found.ends, &ends(OVER_IPV6, row.0, row.2, row.3));
    }
}

#[test]
fn the_first_fragment_has_ports_and_a_later_one_has_none(rt: HostRuntime) {
    let udp = [0x13, 0x88, 0, 53, 0, 16, 0, 0];
    let packet = over_ipv4(ip_number::UDP, [0x20, 0], udp);
    let first = expect_ok(&rt, flow(&packet)).ends;
    let expected = ends(OVER_IPV4, ip_number::UDP, Some(5000), Some(53));
    let expected = FlowEnds {
        is_fragment: true,
        ..expected
    };
    expect_equal(&rt, &first, &expected);
    let packet = over_ipv4(ip_number::UDP, [0, 1], udp);
    let later = expect_ok(&rt, flow(&packet)).ends;
    let expected = FlowEnds {
        is_later_fragment: true,
        source_port: None,
        destination_port: None,
        ..expected
    };
    expect_equal(&rt, &later, &expected);
}

#[test]
fn a_packet_that_is_cut_off_has_the_ports_that_are_there(rt: HostRuntime) {
    let packet = over_ipv4(ip_number::TCP, [0, 0], [0x9C, 0x40, 1, 0xBB, 0, 0, 0, 1]);
    let found = expect_ok(&rt, flow(bytes_to(&rt, &packet, 24)));
    let expected = ends(OVER_IPV4, ip_number::TCP, Some(40_000), Some(443));
    expect_equal(&rt, &found.ends, &expected);
    let found = expect_ok(&rt, flow(bytes_to(&rt, &packet, 23)));
    expect_equal(
        &rt,
        &found.ends,
        &ends(OVER_IPV4, ip_number::TCP, None, None),
    );
    let refused = IpError::HeaderCutOff {
        required_len: 20,
        len: 19,
    };
    expect_equal(&rt, &flow(bytes_to(&rt, &packet, 19)), &Err(refused));
}

/// A packet of TCP from 192.0.2.2 to 192.0.2.1, with its first eight bytes after the IP header, from port 443 to port 40000.
const QUOTED: [u8; 28] = [
    0x45, 0, 0, 60, 0, 0, 0, 0, 63, 6, 0, 0, 192, 0, 2, 2, 192, 0, 2, 1, // IPv4
    1, 0xBB, 0x9C, 0x40, 0, 0, 0, 1,
];

/// A message of ICMPv4 of this type about this packet, from 192.0.2.1 to 192.0.2.2, with these flags and fragment offset.
fn about(type_u8: u8, place: [u8; 2], quoted: &[u8; 28]) -> [u8; 56] {
    let mut packet = [0; 56];
    packet[..28].copy_from_slice(&over_ipv4(
        ip_number::ICMP,
        place,
        [type_u8, 0, 0, 0, 0, 0, 0, 0],
    ));
    packet[3] = 56;
    packet[28..].copy_from_slice(quoted);
    packet
}

#[test]
fn an_error_has_the_ends_of_the_packet_that_it_quotes(rt: HostRuntime) {
    let back = IpAddresses::Ipv4 {
        source: &[192, 0, 2, 2],
        destination: &[192, 0, 2, 1],
    };
    let expected = PacketFlow {
        ends: ends(OVER_IPV4, ip_number::ICMP, None, None),
        quoted: Some(ends(back, ip_number::TCP, Some(443), Some(40_000))),
    };
    for type_u8 in [3, 4, 5, 11, 12] {
        let packet = about(type_u8, [0, 0], &QUOTED);
        expect_at(&rt, &type_u8, &flow(&packet), &Ok(expected));
    }
    // A fragment, and a quoted packet of no IP version
    let fragment = about(3, [0x20, 0], &QUOTED);
    let found = expect_ok(&rt, flow(&fragment));
    expect_equal(&rt, &(found.ends.is_fragment, found.quoted), &(true, None));
    let mut unknown = QUOTED;
    unknown[0] = 0x55;
    let packet = about(3, [0, 0], &unknown);
    expect_equal(&rt, &expect_ok(&rt, flow(&packet)).quoted, &None);
}
