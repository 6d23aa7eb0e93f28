//! The IP addresses of every checksum.

ghost use Rattle.std.specs.Prelude.{◌≡◌};

use etherparse_transport::{Ipv4Header, Ipv6Header};

/// 192.0.2.129.
pub const IPV4_SOURCE: [u8; 4] = [0xC0, 0x00, 0x02, 0x81];

/// 203.0.113.254.
pub const IPV4_DESTINATION: [u8; 4] = [0xCB, 0x00, 0x71, 0xFE];

/// 2001:db8:1:203:405:607:809:a0b.
pub const IPV6_SOURCE: [u8; 16] = [
    0x20, 0x01, 0x0D, 0xB8, 0x00, 0x01, 0x02, 0x03, 0x04, 0x05, 0x06, 0x07, 0x08, 0x09, 0x0A, 0x0B,
];

/// fe80:ffee:ddcc:bbaa:9988:7766:5544:3322.
pub const IPV6_DESTINATION: [u8; 16] = [
    0xFE, 0x80, 0xFF, 0xEE, 0xDD, 0xCC, 0xBB, 0xAA, 0x99, 0x88, 0x77, 0x66, 0x55, 0x44, 0x33, 0x22,
];

/// An IPv4 header of these addresses.
pub fn ipv4_header() -> Ipv4Header
    ensures { result ≡ record { source = IPV4_SOURCE; destination = IPV4_DESTINATION } }
{
    Ipv4Header {
        source: IPV4_SOURCE,
        destination: IPV4_DESTINATION,
    }
}

/// An IPv6 header of these addresses.
pub fn ipv6_header() -> Ipv6Header
    ensures { result ≡ record { source = IPV6_SOURCE; destination = IPV6_DESTINATION } }
{
    Ipv6Header {
        source: IPV6_SOURCE,
        destination: IPV6_DESTINATION,
    }
}

/// The bytes of an IPv4 packet of these addresses, all others 0 but the version and the header's length.
pub fn ipv4_packet() -> [u8; 20] {
    let mut packet = [0; 20];
    packet[0] = 0x45;
    packet[12..16].copy_from_slice(&IPV4_SOURCE);
    packet[16..].copy_from_slice(&IPV4_DESTINATION);
    packet
}

/// The bytes of an IPv6 packet of these addresses, all others 0 but the version.
pub fn ipv6_packet() -> [u8; 40] {
    let mut packet = [0; 40];
    packet[0] = 0x60;
    packet[8..24].copy_from_slice(&IPV6_SOURCE);
    packet[24..].copy_from_slice(&IPV6_DESTINATION);
    packet
}
