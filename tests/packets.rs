//! Packets and addresses that tests of several crates read.

use ip_part::IpAddresses;

/// 192.0.2.1 and 192.0.2.2.
pub const OVER_IPV4: IpAddresses = IpAddresses::Ipv4 {
    source: &[192, 0, 2, 1],
    destination: &[192, 0, 2, 2],
};

/// 2001:db8::1 and 2001:db8::2.
pub const OVER_IPV6: IpAddresses = IpAddresses::Ipv6 {
    source: &[0x20, 1, 0x0D, 0xB8, 0, 0, 0, 0, 0, 0, 0, 0, 0, 0, 0, 1],
    destination: Some(&[0x20, 1, 0x0D, 0xB8, 0, 0, 0, 0, 0, 0, 0, 0, 0, 0, 0, 2]),
};

/// Over IPv4, from 10.0.0.1 to 10.0.0.2: UDP of 11 bytes.
pub const IPV4_UDP: [u8; 20] = [
    0x45, 0, 0, 31, 0, 1, 0x40, 0, 64, 17, 0, 0, 10, 0, 0, 1, 10, 0, 0, 2,
];

/// UDP with the checksum that is right over IPv4.
pub const UDP_OVER_IPV4: [u8; 11] = [0, 53, 4, 210, 0, 11, 0x22, 0x6C, 97, 98, 99];

/// The length of an IPv6 header, hop-by-hop options of 8 bytes and a UDP packet of 65,544 bytes.
pub const JUMBOGRAM_LEN: usize = 65_592;

/// Writes the headers of a jumbogram: hop-by-hop options with this length, and UDP with this length field and checksum.
pub fn write_jumbogram_headers(
    packet: &mut [u8; JUMBOGRAM_LEN],
    jumbo_payload_len: u32,
    length: u16,
    checksum: u16,
) {
    packet[0] = 0x60;
    packet[7] = 64;
    packet[8..24].copy_from_slice(&[1; 16]);
    packet[24..40].copy_from_slice(&[2; 16]);
    packet[40..44].copy_from_slice(&[17, 0, 0xC2, 4]);
    packet[44..48].copy_from_slice(&jumbo_payload_len.to_be_bytes());
    packet[48..52].copy_from_slice(&[0, 53, 4, 210]);
    packet[52..54].copy_from_slice(&length.to_be_bytes());
    packet[54..56].copy_from_slice(&checksum.to_be_bytes());
    packet[56..59].copy_from_slice(&[97, 98, 99]);
}
