use crate::expect::{expect_equal, expect_ok};
use etherparse_transport::icmpv4::TimeExceededCode;
use etherparse_transport::{
    IcmpEchoHeader, Icmpv4Header, Icmpv4Type, Icmpv6Header, Icmpv6Slice, Icmpv6Type,
};

fn echo(id: u16) -> IcmpEchoHeader {
    IcmpEchoHeader { id, seq: 2 }
}

#[test]
fn identifiers_are_translated(rt: HostRuntime) {
    let payload = b"ping!";
    // The request goes out, and the reply comes in.
    let mut request = Icmpv4Header::with_checksum(Icmpv4Type::EchoRequest(echo(1)), payload);
    expect_equal(&rt, &request.translate_echo_id(0xBEEF), &Some(1));
    let expected = Icmpv4Header::with_checksum(Icmpv4Type::EchoRequest(echo(0xBEEF)), payload);
    expect_equal(&rt, &request, &expected);
    let mut reply = Icmpv4Header::with_checksum(Icmpv4Type::EchoReply(echo(0xBEEF)), payload);
    expect_equal(&rt, &reply.translate_echo_id(1), &Some(0xBEEF));
    let expected = Icmpv4Header::with_checksum(Icmpv4Type::EchoReply(echo(1)), payload);
    expect_equal(&rt, &reply, &expected);

    // Other messages are unchanged, also one that names the type and code of an echo request.
    let unknown = Icmpv4Type::Unknown {
        type_u8: 8,
        code_u8: 0,
        bytes5to8: [0, 1, 0, 2],
    };
    for icmp_type in [
        Icmpv4Type::TimeExceeded(TimeExceededCode::TtlExceededInTransit),
        unknown,
    ] {
        let mut header = Icmpv4Header::with_checksum(icmp_type, payload);
        let old = expect_ok(&rt, header.clone());
        expect_equal(&rt, &header.translate_echo_id(5), &None);
        expect_equal(&rt, &header, &old);
    }
}

/// An echo reply whose bytes are all zeros except its identifier 1, which becomes 0. The updated checksum is 0, and should be 65535.
#[test]
fn an_echo_reply_of_zeros_is_summed_again(rt: HostRuntime) {
    let reply = |id| Icmpv4Type::EchoReply(IcmpEchoHeader { id, seq: 0 });
    let mut header = Icmpv4Header::with_checksum(reply(1), &[0; 3]);
    expect_equal(&rt, &header.checksum, &0xFFFE);
    expect_equal(&rt, &header.translate_echo_id(0), &Some(1));
    expect_equal(&rt, &header.checksum, &0x0000);
    header.update_checksum(&[0; 3]);
    expect_equal(&rt, &header.checksum, &0xFFFF);
    expect_equal(
        &rt,
        &header,
        &Icmpv4Header::with_checksum(reply(0), &[0; 3]),
    );
}

#[test]
fn identifiers_and_addresses_are_translated_over_ipv6(rt: HostRuntime) {
    let inside = [0xFD, 0, 0, 0, 0, 0, 0, 0, 0, 0, 0, 0, 0, 0, 0, 1];
    let peer = [0x20, 0x01, 0x0D, 0xB8, 0, 0, 0, 0, 0, 0, 0, 0, 0, 0, 0, 2];
    let outside = [0x20, 0x01, 0x0D, 0xB8, 0, 1, 0, 2, 0, 3, 0, 4, 0, 5, 0, 6];
    let payload = b"ping!";
    let mut request = expect_ok(
        &rt,
        Icmpv6Type::EchoRequest(echo(1)).to_header(inside, peer, payload),
    );
    expect_equal(&rt, &request.translate_echo_id(0xBEEF), &Some(1));
    request.translate_address(inside, outside);
    let expected = expect_ok(
        &rt,
        Icmpv6Type::EchoRequest(echo(0xBEEF)).to_header(outside, peer, payload),
    );
    expect_equal(&rt, &request, &expected);

    let mut reply = expect_ok(
        &rt,
        Icmpv6Type::EchoReply(echo(0xBEEF)).to_header(peer, outside, payload),
    );
    expect_equal(&rt, &reply.translate_echo_id(1), &Some(0xBEEF));
    reply.translate_address(outside, inside);
    let mut packet = [0; 13];
    packet[..8].copy_from_slice(&reply.to_bytes());
    packet[8..].copy_from_slice(payload);
    expect_equal(
        &rt,
        &expect_ok(&rt, Icmpv6Slice::from_slice(&packet)).is_checksum_valid(peer, inside),
        &true,
    );

    let mut redirect = expect_ok(
        &rt,
        Icmpv6Header::with_checksum(Icmpv6Type::Redirect, peer, inside, &[]),
    );
    let old = expect_ok(&rt, redirect.clone());
    expect_equal(&rt, &redirect.translate_echo_id(5), &None);
    expect_equal(&rt, &redirect, &old);
}
