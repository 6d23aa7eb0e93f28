use crate::expect::{expect_equal, expect_ok};
use etherparse_transport::UdpHeader;
use etherparse_transport::checksum_change::ChecksumChange;

const PAYLOAD: [u8; 8] = [1, 2, 3, 4, 5, 6, 7, 8];

/// From port 21 to port 1234, with the payload above.
fn header(checksum: u16) -> UdpHeader {
    UdpHeader {
        source_port: 21,
        destination_port: 1234,
        length: 16,
        checksum,
    }
}

#[test]
fn addresses_and_ports_are_translated_over_ipv4(rt: HostRuntime) {
    let (inside, peer, outside) = ([192, 168, 1, 1], [192, 168, 1, 2], [203, 0, 113, 7]);

    // A packet that goes out.
    let mut translated = header(0x677F);
    translated.translate_source_ipv4(inside, outside, 40000);
    let mut expected = UdpHeader {
        source_port: 40000,
        ..header(0)
    };
    expected.checksum = expect_ok(
        &rt,
        expected.calc_checksum_ipv4_raw(outside, peer, &PAYLOAD),
    );
    expect_equal(&rt, &translated, &expected);
    expect_equal(&rt, &translated.checksum, &0x50F5);

    // The way back gives the old header.
    translated.translate_source_ipv4(outside, inside, 21);
    expect_equal(&rt, &translated, &header(0x677F));

    // A packet that comes in.
    let mut reply = UdpHeader {
        source_port: 1234,
        destination_port: 40000,
        ..header(0)
    };
    reply.checksum = expect_ok(&rt, reply.calc_checksum_ipv4_raw(peer, outside, &PAYLOAD));
    reply.translate_destination_ipv4(outside, inside, 21);
    expect_equal(
        &rt,
        &(reply.source_port, reply.destination_port),
        &(1234, 21),
    );
    expect_equal(
        &rt,
        &reply.checksum,
        &expect_ok(&rt, reply.calc_checksum_ipv4_raw(peer, inside, &PAYLOAD)),
    );

    // The same step by a change that is kept for the flow.
    let change = ChecksumChange::new()
        .replace_4bytes(inside, outside)
        .replace_2bytes([0, 21], [0x9C, 0x40]);
    expect_equal(&rt, &change.apply_udp(0x677F), &0x50F5);
    expect_equal(&rt, &change.reversed().apply_udp(0x50F5), &0x677F);
}

#[test]
fn addresses_and_ports_are_translated_over_ipv6(rt: HostRuntime) {
    let inside = [0xFD, 0, 0, 0, 0, 0, 0, 0, 0, 0, 0, 0, 0, 0, 0, 1];
    let peer = [0x20, 0x01, 0x0D, 0xB8, 0, 0, 0, 0, 0, 0, 0, 0, 0, 0, 0, 2];
    let outside = [0x20, 0x01, 0x0D, 0xB8, 0, 1, 0, 2, 0, 3, 0, 4, 0, 5, 0, 6];
    let mut translated = header(0);
    translated.checksum = expect_ok(
        &rt,
        translated.calc_checksum_ipv6_raw(inside, peer, &PAYLOAD),
    );
    let old = expect_ok(&rt, translated.clone());
    translated.translate_source_ipv6(inside, outside, 40000);
    let checksum = expect_ok(
        &rt,
        translated.calc_checksum_ipv6_raw(outside, peer, &PAYLOAD),
    );
    expect_equal(
        &rt,
        &(translated.source_port, translated.checksum),
        &(40000, checksum),
    );
    translated.translate_source_ipv6(outside, inside, 21);
    expect_equal(&rt, &translated, &old);

    translated.translate_destination_ipv6(peer, outside, 65535);
    let checksum = expect_ok(
        &rt,
        translated.calc_checksum_ipv6_raw(inside, outside, &PAYLOAD),
    );
    expect_equal(
        &rt,
        &(translated.destination_port, translated.checksum),
        &(65535, checksum),
    );
}

/// A missing checksum stays missing, a wrong one stays wrong, and one that becomes 0 is stored as 65535.
#[test]
fn checksums_that_are_not_there_or_wrong_stay_so(rt: HostRuntime) {
    let (old, peer, new) = ([10, 0, 0, 1], [10, 0, 0, 2], [10, 0, 0, 3]);
    let mut without = header(0);
    without.translate_source_ipv4(old, new, 5);
    without.translate_destination_ipv4(peer, new, 6);
    expect_equal(&rt, &without.checksum, &0);

    let mut wrong = header(0);
    let checksum = expect_ok(&rt, wrong.calc_checksum_ipv4_raw(old, peer, &PAYLOAD));
    wrong.checksum = checksum.wrapping_add(7);
    wrong.translate_source_ipv4(old, new, 5);
    let right = expect_ok(&rt, wrong.calc_checksum_ipv4_raw(new, peer, &PAYLOAD));
    expect_equal(&rt, &wrong.checksum, &right.wrapping_add(7));

    // The port takes the place of the checksum that was stored, so that the sum of the rest is all ones.
    let mut full = UdpHeader {
        source_port: 0,
        ..header(0)
    };
    full.checksum = expect_ok(&rt, full.calc_checksum_ipv4_raw(old, peer, &PAYLOAD));
    let port = full.checksum;
    full.translate_source_ipv4(old, old, port);
    expect_equal(&rt, &full.checksum, &0xFFFF);
    expect_equal(
        &rt,
        &expect_ok(&rt, full.calc_checksum_ipv4_raw(old, peer, &PAYLOAD)),
        &0xFFFF,
    );
}
