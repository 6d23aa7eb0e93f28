use crate::expect::{expect_equal, expect_ok};
use crate::summaries::{judge, new_summary};
use capture_summary::{
    CaptureInfo, Count, EndpointCount, Flow, FlowProtocol, FrameLen, Protocol, Summary, VerdictKind,
};
use std::net::{IpAddr, Ipv4Addr, Ipv6Addr, SocketAddr};
use std::process::Abort;

/// The number of an address, and a port.
type End = (u128, u16);

/// The lowest number of an IPv6 address in these tests.
const SIX: u128 = 1 << 127;

/// The IPv4 address with this number, or the IPv6 address if the number is `SIX` or higher.
fn address(number: u128) -> IpAddr {
    if number < SIX {
        IpAddr::V4(Ipv4Addr::from_bits(number as u32))
    } else {
        IpAddr::V6(Ipv6Addr::from_bits(number))
    }
}

fn socket((number, port): End) -> SocketAddr {
    SocketAddr::new(address(number), port)
}

/// The source, the destination and the bytes of a packet.
type PacketRow = (End, End, u64);

/// Packets of UDP. A packet of address 7 goes to the same address.
#[rattlefmt::skip]
static PACKETS: [PacketRow; 11] = [
    ((SIX + 1, 53), (SIX, 1), 15),
    ((7, 1), (9, 53), 100),
    ((6, 1), (5, 53), 12),
    ((9, 53), (7, 1), 40),
    ((7, 2), (9, 53), 10),
    ((7, 1), (7, 53), 5),
    ((8, 1), (9, 53), 155),
    ((5, 53), (6, 1), 18),
    ((9, 53), (8, 1), 0),
    ((SIX, 1), (SIX + 1, 53), 15),
    ((4, 1), (3, 53), 1000),
];

/// The number of an address, and the packets and bytes of this address.
type EndpointRow = (u128, u64, u64);

/// The endpoints of these packets. More packets come first, then more bytes, and then the lower address.
#[rattlefmt::skip]
static ENDPOINTS: [EndpointRow; 9] = [
    (9, 5, 305),
    (7, 4, 155),
    (8, 2, 155),
    (5, 2, 30),
    (6, 2, 30),
    (SIX, 2, 30),
    (SIX + 1, 2, 30),
    (3, 1, 1000),
    (4, 1, 1000),
];

/// Counts a packet of this flow, or a packet without ports if there is no flow.
fn judge_packet(rt: &impl Abort, summary: &mut Summary, flow: Option<Flow>, len: u64) {
    let info = CaptureInfo {
        link_type: None,
        time: None,
        len: Some(FrameLen {
            original: len,
            captured: len,
        }),
    };
    judge(rt, summary, Protocol::Udp, VerdictKind::Right, flow, info);
}

/// Counts the packet of a row.
fn judge_row(rt: &impl Abort, summary: &mut Summary, row: &PacketRow) {
    let flow = Flow {
        protocol: FlowProtocol::Udp,
        source: socket(row.0),
        destination: socket(row.1),
    };
    judge_packet(rt, summary, Some(flow), row.2);
}

/// Stops the test unless this is the endpoint of a row.
fn expect_endpoint(rt: &impl Abort, endpoint: &EndpointCount, row: &EndpointRow) {
    let (number, packets, bytes) = *row;
    expect_equal(rt, &endpoint.address, &address(number));
    expect_equal(rt, &endpoint.count, &Count { packets, bytes });
}

/// Stops the test unless the first rows of `ENDPOINTS` are returned, as many as `len`, if `top` endpoints are requested.
fn expect_endpoints(rt: &(impl Abort + AllocGlobal), summary: &Summary, top: usize, len: usize) {
    let endpoints = expect_ok(rt, summary.flows().endpoints(rt.alloc(), top));
    expect_equal(rt, &endpoints.len(), &len);
    for (endpoint, row) in endpoints.iter().zip(&ENDPOINTS) {
        expect_endpoint(rt, endpoint, row);
    }
}

/// How many endpoints are requested, and how many there are.
#[rattlefmt::skip]
static TOPS: [(usize, usize); 6] = [(0, 0), (1, 1), (4, 4), (8, 8), (9, 9), (1000, 9)];

#[test]
fn the_busiest_endpoints_come_first(rt: HostRuntime) {
    let mut summary = new_summary(&rt);
    // A packet without ports is counted at no address.
    judge_packet(&rt, &mut summary, None, 28);
    expect_endpoints(&rt, &summary, 10, 0);
    for row in &PACKETS {
        judge_row(&rt, &mut summary, row);
    }
    for (top, len) in &TOPS {
        expect_endpoints(&rt, &summary, *top, *len);
    }
}
