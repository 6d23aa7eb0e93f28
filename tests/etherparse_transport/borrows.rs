//! Borrows from an input are used after the value that returned them went out of scope.

use crate::expect::{bytes_from, bytes_to, expect_equal, expect_ok};
use etherparse_transport::{
    Proto, TcpOptionElement, TcpOptionsIterator, UdpSlice, canonical_header,
};

/// A UDP packet with a payload of two bytes, and a byte after it.
static PACKET: [u8; 11] = [0, 53, 4, 210, 0, 10, 0, 0, 1, 2, 3];

#[test]
fn parts_of_a_packet_outlive_its_slice(rt: HostRuntime) {
    let (payload, header, slice) = {
        let packet = expect_ok(&rt, UdpSlice::from_slice(&PACKET));
        (packet.payload(), packet.header_slice(), packet.slice())
    };
    expect_equal(&rt, &payload, &[1, 2].as_slice());
    expect_equal(&rt, &header, &bytes_to(&rt, &PACKET, 8));
    expect_equal(&rt, &slice, &bytes_to(&rt, &PACKET, 10));
}

#[test]
fn the_rest_outlives_its_iterator(rt: HostRuntime) {
    let options = [3, 3, 7, 1];
    let rest = {
        let mut items = TcpOptionsIterator::from_slice(&options);
        let expected = TcpOptionElement::WindowScale(7);
        expect_equal(&rt, &items.next(), &Some(Ok(expected)));
        items.rest()
    };
    expect_equal(&rt, &rest, &[1].as_slice());
}

#[test]
fn the_rest_outlives_the_canonical_header(rt: HostRuntime) {
    let rest = {
        let (header, rest) = expect_ok(&rt, canonical_header(Proto::Udp, &PACKET));
        expect_equal(&rt, &header.as_slice(), &bytes_to(&rt, &PACKET, 8));
        rest
    };
    expect_equal(&rt, &rest, &bytes_from(&rt, &PACKET, 8));
}
