//! The calls that test a received checksum, over valid packets and over packets with one changed bit.

use crate::expect::{bytes_to, expect_at, expect_equal, expect_ok};
use arrayvec::ArrayVec;
use etherparse_transport::{
    IcmpEchoHeader, Icmpv4Header, Icmpv4Slice, Icmpv4Type, Ipv4Header, Ipv6Header, TcpHeader,
    TcpHeaderSlice, TcpOptionElement, UdpHeader, UdpSlice,
};
use std::process::Abort;

static IPV4: Ipv4Header = Ipv4Header {
    source: [192, 0, 2, 1],
    destination: [198, 51, 100, 2],
};

static IPV6: Ipv6Header = Ipv6Header {
    source: [0x20, 0x01, 0x0D, 0xB8, 0, 0, 0, 0, 0, 0, 0, 0, 0, 0, 0, 1],
    destination: [0x20, 0x01, 0x0D, 0xB8, 0, 0, 0, 0, 0, 0, 0, 0, 0, 0, 0, 2],
};

static PAYLOAD: [u8; 20] = [
    11, 48, 85, 122, 159, 196, 233, 14, 51, 88, 125, 162, 199, 236, 17, 54, 91, 128, 165, 202,
];

/// The way in which a packet is tested.
#[derive(Clone, Copy, Debug)]
enum Tested {
    UdpOverIpv4,
    UdpOverIpv6,
    TcpOverIpv4,
    TcpOverIpv6,
    Icmpv4,
}

/// Whether the bytes are read as a packet, and its checksum is right.
fn is_valid(tested: Tested, bytes: &[u8]) -> bool {
    match tested {
        Tested::UdpOverIpv4 | Tested::UdpOverIpv6 => is_udp_valid(tested, bytes),
        Tested::TcpOverIpv4 | Tested::TcpOverIpv6 => is_tcp_valid(tested, bytes),
        Tested::Icmpv4 => match Icmpv4Slice::from_slice(bytes) {
            Ok(packet) => packet.is_checksum_valid(),
            Err(_) => false,
        },
    }
}

fn is_udp_valid(tested: Tested, bytes: &[u8]) -> bool {
    let Ok(packet) = UdpSlice::from_slice_lax(bytes) else {
        return false;
    };
    match tested {
        Tested::UdpOverIpv4 => packet.is_checksum_valid_ipv4(IPV4.source, IPV4.destination),
        _ => packet.is_checksum_valid_ipv6(IPV6.source, IPV6.destination),
    }
}

fn is_tcp_valid(tested: Tested, bytes: &[u8]) -> bool {
    let Ok(header) = TcpHeaderSlice::from_slice(bytes) else {
        return false;
    };
    let payload = bytes.get(header.slice().len()..).unwrap_or(&[]);
    match tested {
        Tested::TcpOverIpv4 => {
            header.is_checksum_valid_ipv4(IPV4.source, IPV4.destination, payload)
        }
        _ => header.is_checksum_valid_ipv6(IPV6.source, IPV6.destination, payload),
    }
}

/// The number of packets that were tested, the number of places at which one bit was changed, and the number of changes that were not
/// found.
#[derive(Clone, Copy, Debug, PartialEq, Eq)]
struct Counts {
    packets: usize,
    bits: usize,
    missed: usize,
}

const NONE: Counts = Counts {
    packets: 0,
    bits: 0,
    missed: 0,
};

impl Counts {
    /// Tests a packet, and each packet that differs from it in one bit.
    fn try_packet(&mut self, rt: &impl Abort, tested: Tested, header: &[u8], payload: &[u8]) {
        let mut packet: ArrayVec<u8, 64> = ArrayVec::new();
        expect_ok(rt, packet.try_extend_from_slice(header));
        expect_ok(rt, packet.try_extend_from_slice(payload));
        let is_accepted = is_valid(tested, packet.as_slice());
        expect_at(rt, &(header, payload), &is_accepted, &true);
        self.packets = self.packets.saturating_add(1);
        for place in 0..packet.len() {
            for bit in [1, 2, 4, 8, 16, 32, 64, 128] {
                flip(packet.as_mut_slice(), place, bit);
                self.bits = self.bits.saturating_add(1);
                if is_valid(tested, packet.as_slice()) {
                    self.missed = self.missed.saturating_add(1);
                }
                flip(packet.as_mut_slice(), place, bit);
            }
        }
    }
}

/// Changes a bit of the byte at this place.
fn flip(bytes: &mut [u8], place: usize, bit: u8) {
    if let Some(byte) = bytes.get_mut(place) {
        *byte ^= bit;
    }
}

/// A UDP header to port 53, with its checksum over IPv4.
fn udp_over_ipv4(rt: &impl Abort, source_port: u16, payload: &[u8]) -> UdpHeader {
    expect_ok(
        rt,
        UdpHeader::with_ipv4_checksum(source_port, 53, &IPV4, payload),
    )
}

/// A UDP header to port 53, with its checksum over IPv6.
fn udp_over_ipv6(rt: &impl Abort, source_port: u16, payload: &[u8]) -> UdpHeader {
    expect_ok(
        rt,
        UdpHeader::with_ipv6_checksum(source_port, 53, &IPV6, payload),
    )
}

#[test]
fn every_changed_bit_of_udp_is_found(rt: HostRuntime) {
    let mut counts = NONE;
    for (len, source_port) in (5000..5020).enumerate() {
        let payload = bytes_to(&rt, &PAYLOAD, len);
        let header = udp_over_ipv4(&rt, source_port, payload);
        counts.try_packet(&rt, Tested::UdpOverIpv4, &header.to_bytes(), payload);
        let header = udp_over_ipv6(&rt, source_port, payload);
        counts.try_packet(&rt, Tested::UdpOverIpv6, &header.to_bytes(), payload);
    }
    let expected = Counts {
        packets: 40,
        bits: 5600,
        missed: 0,
    };
    expect_equal(&rt, &counts, &expected);
}

/// A header whose checksum has one bit, over both versions. Without this bit, it states that there is no checksum, which only IPv4 allows.
#[test]
fn a_udp_checksum_that_becomes_zero_is_found_over_ipv6_alone(rt: HostRuntime) {
    let mut counts = NONE;
    let header = udp_over_ipv4(&rt, 4977, &[]);
    expect_equal(&rt, &header.checksum, &1);
    counts.try_packet(&rt, Tested::UdpOverIpv4, &header.to_bytes(), &[]);
    expect_equal(&rt, &(counts.bits, counts.missed), &(64, 1));

    let mut counts = NONE;
    let header = udp_over_ipv6(&rt, 42035, &[]);
    expect_equal(&rt, &header.checksum, &1);
    counts.try_packet(&rt, Tested::UdpOverIpv6, &header.to_bytes(), &[]);
    expect_equal(&rt, &(counts.bits, counts.missed), &(64, 0));
}

/// A TCP header to port 80, with two options or none.
fn tcp_header(rt: &impl Abort, source_port: u16, with_options: bool) -> TcpHeader {
    let mut header = TcpHeader::new(source_port, 80, 1, 65520);
    header.acknowledgment_number = 2;
    header.syn = true;
    header.ack = true;
    if with_options {
        let size = TcpOptionElement::MaximumSegmentSize(1460);
        let scale = TcpOptionElement::WindowScale(7);
        expect_ok(rt, header.set_options(&[size, scale]));
    }
    header
}

#[test]
fn every_changed_bit_of_tcp_is_found(rt: HostRuntime) {
    let mut counts = NONE;
    for (len, source_port) in (50000..50010).enumerate() {
        for with_options in [false, true] {
            let payload = bytes_to(&rt, &PAYLOAD, len);
            let mut header = tcp_header(&rt, source_port, with_options);
            header.checksum = expect_ok(&rt, header.calc_checksum_ipv4(&IPV4, payload));
            let bytes = header.to_bytes();
            counts.try_packet(&rt, Tested::TcpOverIpv4, bytes.as_slice(), payload);
            header.checksum = expect_ok(&rt, header.calc_checksum_ipv6(&IPV6, payload));
            let bytes = header.to_bytes();
            counts.try_packet(&rt, Tested::TcpOverIpv6, bytes.as_slice(), payload);
        }
    }
    let expected = Counts {
        packets: 40,
        bits: 9120,
        missed: 0,
    };
    expect_equal(&rt, &counts, &expected);
}

#[test]
fn every_changed_bit_of_icmpv4_is_found(rt: HostRuntime) {
    let mut counts = NONE;
    for (len, seq) in (0..20).enumerate() {
        let payload = bytes_to(&rt, &PAYLOAD, len);
        let echo = IcmpEchoHeader { id: 1, seq };
        for icmp_type in [Icmpv4Type::EchoRequest(echo), Icmpv4Type::EchoReply(echo)] {
            let header = Icmpv4Header::with_checksum(icmp_type, payload);
            let bytes = header.to_bytes();
            counts.try_packet(&rt, Tested::Icmpv4, bytes.as_slice(), payload);
        }
    }
    let expected = Counts {
        packets: 40,
        bits: 5600,
        missed: 0,
    };
    expect_equal(&rt, &counts, &expected);
}
