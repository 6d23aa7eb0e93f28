use crate::expect::{expect_at, expect_equal, expect_ok, expect_some};
use capture_file::pcapng::TimeResolution;
use capture_file::{PacketTime, nanoseconds_of};
use capture_packet::{Content, NetworkProtocol, Packet, Transport, Tunnel, Verdict};
use capture_summary::{
    Choice, ChosenProtocol, Hosts, MAX_CHOSEN, Network, NetworkError, PortRange, Ports, Protocol,
    TimeRange,
};
use etherparse_transport::ip::IpAddresses;
use etherparse_transport::{
    Icmpv4Slice, IpNumber, Proto, TransportSlice, UdpSlice, Untested, ip_number,
};
use std::process::Abort;

/// A UDP datagram from port 49152 to port 53, of 9 bytes.
const DATAGRAM: [u8; 9] = [0xC0, 0, 0, 53, 0, 9, 0, 0, 7];

/// 192.0.2.1 and 192.0.2.2.
const OVER_IPV4: IpAddresses = IpAddresses::Ipv4 {
    source: &[192, 0, 2, 1],
    destination: &[192, 0, 2, 2],
};

/// 2001:db8::1, and a destination that is not known or 2001:db8::2.
const FROM_IPV6: IpAddresses = IpAddresses::Ipv6 {
    source: &[0x20, 1, 0x0D, 0xB8, 0, 0, 0, 0, 0, 0, 0, 0, 0, 0, 0, 1],
    destination: None,
};

const OVER_IPV6: IpAddresses = IpAddresses::Ipv6 {
    source: &[0x20, 1, 0x0D, 0xB8, 0, 0, 0, 0, 0, 0, 0, 0, 0, 0, 0, 1],
    destination: Some(&[0x20, 1, 0x0D, 0xB8, 0, 0, 0, 0, 0, 0, 0, 0, 0, 0, 0, 2]),
};

/// Time exceeded, for a UDP datagram from 198.51.100.1, port 1000, to 198.51.100.2, port 33434.
const TIME_EXCEEDED: [u8; 36] = [
    11, 0, 0, 0, 0, 0, 0, 0, // ICMPv4
    0x45, 0, 0, 60, 0, 0, 0, 0, 1, 17, 0, 0, 198, 51, 100, 1, 198, 51, 100, 2, // IPv4
    3, 232, 0x82, 0x9A, 0, 40, 0, 0, // UDP
];

const UDP: Option<ChosenProtocol> = Some(ChosenProtocol::One(Protocol::Udp));

const TCP: Option<ChosenProtocol> = Some(ChosenProtocol::One(Protocol::Tcp));

const ARP: Option<ChosenProtocol> = Some(ChosenProtocol::One(Protocol::Arp));

const ICMPV4: Option<ChosenProtocol> = Some(ChosenProtocol::One(Protocol::Icmpv4));

const ICMPV6: Option<ChosenProtocol> = Some(ChosenProtocol::One(Protocol::Icmpv6));

const ICMP: Option<ChosenProtocol> = Some(ChosenProtocol::Icmp);

/// The hosts, the ports and the protocol of a choice, and which of the five packets it includes.
type ChoiceRow = (
    &'static [&'static str],
    &'static [u16],
    Option<ChosenProtocol>,
    [bool; 5],
);

#[rattlefmt::skip]
static CHOICES: [ChoiceRow; 34] = [
    (&[], &[], None, [true, true, true, true, true]),
    (&["192.0.2.1"], &[], None, [true, false, false, false, true]),
    (&["192.0.2.2"], &[], None, [true, false, false, false, true]),
    (&["192.0.2.3"], &[], None, [false, false, false, false, false]),
    (&["2001:db8::1"], &[], None, [false, true, true, false, false]),
    (&["2001:db8::2"], &[], None, [false, false, true, false, false]),
    (&["192.0.2.2", "2001:db8::2"], &[], None, [true, false, true, false, true]),
    (&["192.0.2.3", "198.51.100.2"], &[], None, [false, false, false, false, true]),
    (&["192.0.2.0/30"], &[], None, [true, false, false, false, true]),
    (&["192.0.2.4/30"], &[], None, [false, false, false, false, false]),
    (&["192.0.2.2/31"], &[], None, [true, false, false, false, true]),
    (&["198.51.100.0/24"], &[], None, [false, false, false, false, true]),
    (&["0.0.0.0/0"], &[], None, [true, false, false, false, true]),
    (&["::/0"], &[], None, [false, true, true, false, false]),
    (&["2001:db8::/32"], &[], None, [false, true, true, false, false]),
    (&["2001:db8::2/127"], &[], None, [false, false, true, false, false]),
    (&[], &[49152], None, [true, true, false, false, false]),
    (&[], &[53], None, [true, true, false, false, false]),
    (&[], &[54], None, [false, false, false, false, false]),
    (&[], &[54, 33434], None, [false, false, false, false, true]),
    (&[], &[], UDP, [true, true, false, false, false]),
    (&[], &[], ICMPV6, [false, false, true, false, false]),
    (&[], &[], TCP, [false, false, false, false, false]),
    (&[], &[], ARP, [false, false, false, true, false]),
    (&[], &[], ICMP, [false, false, true, false, true]),
    (&["192.0.2.1"], &[53], UDP, [true, false, false, false, false]),
    (&["2001:db8::1"], &[53], None, [false, true, false, false, false]),
    (&["198.51.100.1"], &[], None, [false, false, false, false, true]),
    (&[], &[1000], None, [false, false, false, false, true]),
    (&["198.51.100.1"], &[53], None, [false, false, false, false, false]),
    (&["192.0.2.1"], &[33434], None, [false, false, false, false, true]),
    (&["198.51.100.2"], &[33434], UDP, [false, false, false, false, false]),
    (&["198.51.100.2"], &[33434], ICMPV4, [false, false, false, false, true]),
    (&["192.0.2.1", "2001:db8::1"], &[53, 33434], None, [true, true, false, false, true]),
];

/// A fragment, which is chosen as any other packet is.
fn packet_of(content: Content<'_>) -> Packet<'_> {
    Packet::in_no_tunnel(content, Verdict::untested(Untested::Fragment))
}

/// A packet with the datagram.
fn datagram_over(rt: &impl Abort, addresses: IpAddresses<'static>) -> Packet<'static> {
    let datagram = expect_ok(rt, UdpSlice::from_slice(&DATAGRAM));
    packet_of(Content::Ip {
        addresses,
        protocol: ip_number::UDP,
        proto: Some(Proto::Udp),
        transport: Transport::Read(TransportSlice::Udp(datagram)),
        payload_len: 1,
    })
}

/// The choice of these hosts and ports, where any are given, and of this protocol.
fn choice_of(
    rt: &impl Abort,
    hosts: &[&str],
    ports: &[u16],
    protocol: Option<ChosenProtocol>,
) -> Choice {
    let mut places = [None; MAX_CHOSEN];
    places[3] = protocol;
    Choice {
        hosts: places_of_hosts(rt, hosts),
        ports: places_of_ports(ports),
        protocols: if protocol.is_some() {
            Some(places)
        } else {
            None
        },
        ..Choice::ALL
    }
}

/// The networks with these texts, if there are any.
fn places_of_hosts(rt: &impl Abort, texts: &[&str]) -> Option<Hosts> {
    let mut places = [None; MAX_CHOSEN];
    for (place, text) in places.iter_mut().zip(texts) {
        *place = Some(expect_ok(rt, text.parse::<Network>()));
    }
    if texts.is_empty() { None } else { Some(places) }
}

/// The places of these ports, if there are any.
fn places_of_ports(ports: &[u16]) -> Option<Ports> {
    let mut places = [None; MAX_CHOSEN];
    for (place, port) in places.iter_mut().zip(ports) {
        *place = Some(range(*port, *port));
    }
    if ports.is_empty() { None } else { Some(places) }
}

/// The ports from one to another.
fn range(first: u16, last: u16) -> PortRange {
    PortRange { first, last }
}

/// Texts that are no network, with the error of each.
static REFUSED: [(&str, NetworkError); 9] = [
    ("", NetworkError::Address),
    ("192.0.2", NetworkError::Address),
    ("/24", NetworkError::Address),
    ("192.0.2.0/33", NetworkError::PrefixLength),
    ("2001:db8::/129", NetworkError::PrefixLength),
    ("192.0.2.0/", NetworkError::PrefixLength),
    ("192.0.2.0/24/24", NetworkError::PrefixLength),
    ("192.0.2.1/24", NetworkError::HostBits),
    ("2001:db8::1/32", NetworkError::HostBits),
];

#[test]
fn texts_that_are_no_network(rt: HostRuntime) {
    for (text, error) in &REFUSED {
        expect_equal(&rt, &text.parse::<Network>(), &Err(*error));
    }
}

/// A packet with an ICMPv6 message that is not read.
fn message_packet() -> Packet<'static> {
    packet_of(Content::Ip {
        addresses: OVER_IPV6,
        protocol: ip_number::IPV6_ICMP,
        proto: Some(Proto::Icmpv6),
        transport: Transport::Unread(&[1, 2, 3]),
        payload_len: 3,
    })
}

/// A packet with an ICMPv4 error.
fn error_packet(rt: &impl Abort) -> Packet<'static> {
    let message = expect_ok(rt, Icmpv4Slice::from_slice(&TIME_EXCEEDED));
    packet_of(Content::Ip {
        addresses: OVER_IPV4,
        protocol: ip_number::ICMP,
        proto: Some(Proto::Icmpv4),
        transport: Transport::Read(TransportSlice::Icmpv4(message)),
        payload_len: 28,
    })
}

/// Stops the test unless the choice of a row includes exactly the packets of the row.
fn expect_chosen(rt: &impl Abort, packets: &[Packet<'static>; 5], row: &ChoiceRow) {
    let (hosts, ports, protocol, wanted) = row;
    let choice = choice_of(rt, hosts, ports, *protocol);
    for (packet, wanted) in packets.iter().zip(wanted) {
        expect_at(rt, &choice, &choice.includes(packet, None), wanted);
    }
}

#[test]
fn packets_are_chosen(rt: HostRuntime) {
    let packets = five_packets(&rt);
    for row in &CHOICES {
        expect_chosen(&rt, &packets, row);
    }
    expect_equal(&rt, &Choice::ALL, &choice_of(&rt, &[], &[], None));
}

/// The five packets of the rows.
fn five_packets(rt: &impl Abort) -> [Packet<'static>; 5] {
    [
        datagram_over(rt, OVER_IPV4),
        datagram_over(rt, FROM_IPV6),
        message_packet(),
        packet_of(Content::NotIp(NetworkProtocol::EtherType(0x0806))),
        error_packet(rt),
    ]
}

/// A network, and which of the five packets are from it, which are to it, and which are neither from nor to it nor quote such a packet.
#[rattlefmt::skip]
static DIRECTIONS: [(&str, [bool; 5], [bool; 5], [bool; 5]); 6] = [
    ("192.0.2.1", [true, false, false, false, true], [false; 5], [false, true, true, true, false]),
    ("192.0.2.2", [false; 5], [true, false, false, false, true], [false, true, true, true, false]),
    ("198.51.100.0/24", [false; 5], [false; 5], [true, true, true, true, false]),
    ("2001:db8::1", [false, true, true, false, false], [false; 5], [true, false, false, true, true]),
    ("2001:db8::2", [false; 5], [false, false, true, false, false], [true, true, false, true, true]),
    ("::/0", [false, true, true, false, false], [false, false, true, false, false], [true, false, false, true, true]),
];

/// Stops the test unless the choices by direction of a row include the packets that the row says.
fn expect_directions(rt: &impl Abort, row: &(&'static str, [bool; 5], [bool; 5], [bool; 5])) {
    let hosts = places_of_hosts(rt, &[row.0]);
    let sources = Choice {
        sources: hosts,
        ..Choice::ALL
    };
    let destinations = Choice {
        destinations: hosts,
        ..Choice::ALL
    };
    let others = Choice {
        other_hosts: hosts,
        ..Choice::ALL
    };
    let packets = five_packets(rt);
    for (place, packet) in packets.iter().enumerate() {
        expect_at(rt, row, &sources.includes(packet, None), &row.1[place]);
        expect_at(rt, row, &destinations.includes(packet, None), &row.2[place]);
        expect_at(rt, row, &others.includes(packet, None), &row.3[place]);
    }
}

#[test]
fn directions_are_chosen(rt: HostRuntime) {
    for row in &DIRECTIONS {
        expect_directions(&rt, row);
    }
}

/// The first and the last port of a range, and which of the five packets match it.
#[rattlefmt::skip]
static RANGES: [(u16, u16, [bool; 5]); 7] = [
    (0, 65535, [true, true, false, false, true]), (53, 53, [true, true, false, false, false]), (50, 52, [false; 5]), (54, 999, [false; 5]),
    (54, 1000, [false, false, false, false, true]), (1, 53, [true, true, false, false, false]), (60, 50, [false; 5]),
];

/// Stops the test unless the choice of the range of a row, and the choice without it, include the packets that the row says.
fn expect_range(rt: &impl Abort, row: &(u16, u16, [bool; 5])) {
    let mut places = [None; MAX_CHOSEN];
    places[15] = Some(range(row.0, row.1));
    let chosen = Choice {
        ports: Some(places),
        ..Choice::ALL
    };
    let others = Choice {
        other_ports: Some(places),
        ..Choice::ALL
    };
    let packets = five_packets(rt);
    for (packet, wanted) in packets.iter().zip(&row.2) {
        expect_at(rt, row, &chosen.includes(packet, None), wanted);
        expect_at(rt, row, &others.includes(packet, None), &!*wanted);
    }
}

#[test]
fn ranges_are_chosen(rt: HostRuntime) {
    for row in &RANGES {
        expect_range(&rt, row);
    }
}

/// A host, and whether a packet over IPv4 in a tunnel over IPv6 matches it.
#[rattlefmt::skip]
static HOSTS_IN_TUNNELS: [(&str, bool); 7] = [
    ("192.0.2.1", true), ("192.0.2.2", true), ("192.0.2.3", false), ("2001:db8::1", true), ("2001:db8::2", true), ("2001:db8::3", false),
    ("2001:db8::/32", true),
];

/// Stops the test unless the choice of this host includes the packet, or does not.
fn expect_host(rt: &impl Abort, packet: &Packet<'static>, host: &str, wanted: bool) {
    let included = choice_of(rt, &[host], &[], None).includes(packet, None);
    expect_at(rt, &host, &included, &wanted);
}

#[test]
fn tunnels_are_chosen(rt: HostRuntime) {
    let mut packet = datagram_over(&rt, OVER_IPV4);
    let tunnel = Tunnel {
        addresses: OVER_IPV6,
        protocol: IpNumber(4),
        network: None,
    };
    expect_some(&rt, packet.tunnels.try_push(tunnel).ok());
    for (host, wanted) in &HOSTS_IN_TUNNELS {
        expect_host(&rt, &packet, host, *wanted);
    }
}

/// The beginning and the end of a range of times, and whether the range includes a packet without a time, and packets at 4.999999999,
/// 5.000007, 5.000007001 and 6 seconds after the beginning of 1970.
#[rattlefmt::skip]
static TIME_RANGES: [(Option<u64>, Option<u64>, [bool; 5]); 8] = [
    (None, None, [true; 5]),
    (Some(0), None, [false, true, true, true, true]),
    (Some(5_000_007_000), None, [false, false, true, true, true]),
    (Some(5_000_007_001), None, [false, false, false, true, true]),
    (None, Some(5_000_007_001), [false, true, true, false, false]),
    (Some(5_000_007_000), Some(5_000_007_001), [false, false, true, false, false]),
    (Some(6_000_000_000), Some(6_000_000_000), [false; 5]),
    (Some(6_000_000_001), Some(5_000_000_000), [false; 5]),
];

/// The time at this many seconds and fractions of a second after the beginning of 1970, in units of this power of ten.
fn time_at(seconds: u64, fraction: u64, exponent: u8) -> PacketTime {
    PacketTime {
        seconds,
        fraction,
        resolution: TimeResolution::PowerOfTen(exponent),
        offset: 0,
    }
}

/// Stops the test unless the range of a row includes the packets that the row states.
fn expect_times(rt: &impl Abort, row: &(Option<u64>, Option<u64>, [bool; 5])) {
    let begin = nanoseconds_of(time_at(0, 0, 6));
    let time_range = TimeRange {
        from: row.0.map(|nanoseconds| begin + u128::from(nanoseconds)),
        to: row.1.map(|nanoseconds| begin + u128::from(nanoseconds)),
    };
    let choice = Choice {
        time_range,
        ..Choice::ALL
    };
    let packet = message_packet();
    let times = [
        None,
        Some(time_at(4, 999_999_999, 9)),
        Some(time_at(5, 7, 6)),
        Some(time_at(5, 7001, 9)),
        Some(time_at(6, 0, 0)),
    ];
    for (time, wanted) in times.iter().zip(&row.2) {
        expect_at(rt, row, &choice.includes(&packet, *time), wanted);
    }
}

#[test]
fn times_are_chosen(rt: HostRuntime) {
    for row in &TIME_RANGES {
        expect_times(&rt, row);
    }
}
