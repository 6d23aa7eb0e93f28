use crate::expect::{expect_equal, expect_ok};
use etherparse_transport::{TcpHeader, TcpOptions};

/// From port 50000 to port 80, with forty bytes of options.
fn longest_header() -> TcpHeader {
    let mut header = TcpHeader::new(50000, 80, 0x0102_0304, 0xFFF0);
    header.ack = true;
    header.urg = true;
    header.options = TcpOptions::from([0xA7; 40]);
    header
}

#[test]
fn addresses_and_ports_are_translated_over_ipv4(rt: HostRuntime) {
    let (inside, peer, outside) = ([192, 168, 1, 1], [192, 168, 1, 2], [203, 0, 113, 7]);

    // A packet that goes out: a SYN with two options.
    let packet = [
        0xC3, 0x50, 0x00, 0x50, 0, 0, 0, 1, 0, 0, 0, 0, 0x70, 0x02, 0xFF, 0xF0, 0x37, 0x39, 0, 0,
        2, 4, 0x05, 0xB4, 3, 3, 7, 0,
    ];
    let old = expect_ok(&rt, TcpHeader::from_slice(&packet)).0;
    let mut translated = expect_ok(&rt, old.clone());
    translated.translate_source_ipv4(inside, outside, 12345);
    let mut expected = expect_ok(&rt, old.clone());
    expected.source_port = 12345;
    expected.checksum = expect_ok(&rt, expected.calc_checksum_ipv4_raw(outside, peer, &[]));
    expect_equal(&rt, &translated, &expected);
    expect_equal(&rt, &translated.checksum, &0x4FF2);

    // The way back gives the old header.
    translated.translate_source_ipv4(outside, inside, 50000);
    expect_equal(&rt, &translated, &old);

    // A packet that comes in.
    let payload = b"abc";
    let mut reply = longest_header();
    reply.checksum = expect_ok(&rt, reply.calc_checksum_ipv4_raw(peer, outside, payload));
    reply.translate_destination_ipv4(outside, inside, 65535);
    let mut expected = longest_header();
    expected.destination_port = 65535;
    expected.checksum = expect_ok(&rt, expected.calc_checksum_ipv4_raw(peer, inside, payload));
    expect_equal(&rt, &reply, &expected);
}

#[test]
fn addresses_and_ports_are_translated_over_ipv6(rt: HostRuntime) {
    let inside = [0xFD, 0, 0, 0, 0, 0, 0, 0, 0, 0, 0, 0, 0, 0, 0, 1];
    let peer = [0x20, 0x01, 0x0D, 0xB8, 0, 0, 0, 0, 0, 0, 0, 0, 0, 0, 0, 2];
    let outside = [0x20, 0x01, 0x0D, 0xB8, 0, 1, 0, 2, 0, 3, 0, 4, 0, 5, 0, 6];
    let payload = b"an odd number of bytes.";
    let mut old = longest_header();
    old.checksum = expect_ok(&rt, old.calc_checksum_ipv6_raw(peer, outside, payload));

    let mut translated = expect_ok(&rt, old.clone());
    translated.translate_destination_ipv6(outside, inside, 8080);
    let mut expected = longest_header();
    expected.destination_port = 8080;
    expected.checksum = expect_ok(&rt, expected.calc_checksum_ipv6_raw(peer, inside, payload));
    expect_equal(&rt, &translated, &expected);
    translated.translate_destination_ipv6(inside, outside, 80);
    expect_equal(&rt, &translated, &old);

    translated.translate_source_ipv6(peer, inside, 0);
    let checksum = expect_ok(
        &rt,
        translated.calc_checksum_ipv6_raw(inside, outside, payload),
    );
    expect_equal(
        &rt,
        &(translated.source_port, translated.checksum),
        &(0, checksum),
    );
}

/// If a checksum is wrong, its difference from the right checksum stays.
#[test]
fn wrong_checksums_stay_wrong(rt: HostRuntime) {
    let (old, peer, new) = ([10, 0, 0, 1], [10, 0, 0, 2], [10, 0, 0, 3]);
    let mut wrong = longest_header();
    wrong.checksum = expect_ok(&rt, wrong.calc_checksum_ipv4_raw(old, peer, &[])).wrapping_add(7);
    wrong.translate_source_ipv4(old, new, 5);
    let right = expect_ok(&rt, wrong.calc_checksum_ipv4_raw(new, peer, &[]));
    expect_equal(&rt, &wrong.checksum, &right.wrapping_add(7));
}
