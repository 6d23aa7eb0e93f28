mod sweeps;

use crate::expect::{expect_at, expect_debug_text, expect_equal};
use etherparse_transport::checksum::Sum16BitWords;
use etherparse_transport::checksum_change::{
    ChecksumChange, updated_checksum, updated_udp_checksum,
};

/// The one's complement sum of two words.
fn words_sum(first: u16, second: u16) -> u16 {
    let (sum, carry) = first.carrying_add(second, false);
    sum.wrapping_add(u16::from(carry))
}

/// The example in RFC 1624, section 4, and the reversed change.
#[test]
fn the_example_of_rfc_1624_is_updated(rt: HostRuntime) {
    let change = ChecksumChange::new().replace_2bytes([0x55, 0x55], [0x32, 0x85]);
    expect_equal(&rt, &change.apply(0xDD2F), &0x0000);
    expect_equal(&rt, &change.apply_udp(0xDD2F), &0xFFFF);
    expect_equal(&rt, &change.apply_udp(0x0000), &0x0000);
    expect_equal(&rt, &change.reversed().apply(0x0000), &0xDD2F);
    expect_equal(&rt, &change.reversed().apply_udp(0xFFFF), &0xDD2F);
    let (old, new) = ([0x55, 0x55], [0x32, 0x85]);
    expect_equal(&rt, &updated_checksum(0xDD2F, &old, &new), &0x0000);
    expect_equal(&rt, &updated_udp_checksum(0xDD2F, &old, &new), &0xFFFF);
    expect_equal(&rt, &updated_udp_checksum(0x0000, &old, &new), &0x0000);
}

/// Changes are equal if both of their sums are equal, whatever words were replaced.
#[test]
fn changes_are_compared_by_their_sums(rt: HostRuntime) {
    let change = ChecksumChange::new().replace_4bytes([0, 1, 0, 2], [0, 3, 0, 4]);
    let equal = [
        ChecksumChange::new().replace_slice(&[0, 3], &[0, 7]),
        ChecksumChange::new()
            .replace_2bytes([0, 2], [0, 4])
            .replace_2bytes([0, 1], [0, 3]),
        change.reversed().reversed(),
        change.and(ChecksumChange::new()),
    ];
    for (place, other) in equal.iter().enumerate() {
        expect_at(&rt, &place, other, &change);
    }
    let different = [
        ChecksumChange::new(),
        change.reversed(),
        change.replace_2bytes([0, 1], [0, 0]),
        change.replace_2bytes([0, 0], [0, 1]),
    ];
    for (place, other) in different.iter().enumerate() {
        expect_at(&rt, &place, &(*other == change), &false);
    }
    expect_debug_text(&rt, &change, "ChecksumChange { removed: 3, added: 7 }");
}

/// One word is updated by equation 3 of RFC 1624, section 3, in 16 bits.
#[test]
fn words_are_updated_by_the_equation(rt: HostRuntime) {
    let words = [
        0x0000, 0x0001, 0x00FF, 0x0100, 0x1234, 0x5555, 0x7FFF, 0x8000, 0xAAAA, 0xFF00, 0xFFFE,
        0xFFFF,
    ];
    for checksum in words {
        for old in words {
            for new in words {
                let updated = !words_sum(words_sum(!checksum, !old), new);
                let change = ChecksumChange::new().replace_2bytes(
                    old.to_be_bytes(),
                    new.to_be_bytes(),
                );
                expect_equal(&rt, &change.apply(checksum), &updated);
                let udp = match (checksum, updated) {
                    (0, _) => 0,
                    (_, 0) => 0xFFFF,
                    _ => updated,
                };
                expect_equal(&rt, &change.apply_udp(checksum), &udp);
            }
        }
    }
}

/// A UDP packet over IPv4 whose source address and source port are translated, and the packets that come back.
#[test]
fn an_address_and_a_port_are_translated(rt: HostRuntime) {
    let address = ChecksumChange::new().replace_4bytes([192, 168, 1, 1], [203, 0, 113, 7]);
    let port = ChecksumChange::new().replace_2bytes([0x00, 0x15], [0x9C, 0x40]);
    for change in [
        address.replace_2bytes([0x00, 0x15], [0x9C, 0x40]),
        address.and(port),
        port.and(address),
    ] {
        expect_equal(&rt, &change.apply_udp(0x677F), &0x50F5);
        expect_equal(&rt, &change.reversed().apply_udp(0x50F5), &0x677F);
    }
    // The same change of a TCP segment, but with another port.
    let change = ChecksumChange::new()
        .replace_4bytes([192, 168, 1, 1], [203, 0, 113, 7])
        .replace_2bytes([0xC3, 0x50], [0x30, 0x39]);
    expect_equal(&rt, &change.apply(0x3739), &0x4FF2);
}

/// A UDP packet over IPv6. Its source is translated, and then the whole packet is translated to IPv4.
#[test]
fn ipv6_addresses_are_translated(rt: HostRuntime) {
    let source = [
        0x20, 0x01, 0x0D, 0xB8, 0x00, 0x01, 0x00, 0x02, 0x00, 0x03, 0x00, 0x04, 0x00, 0x05, 0x00,
        0x06,
    ];
    let new_source = [0x20, 0x01, 0x0D, 0xB8, 0, 0, 0, 0, 0, 0, 0, 0, 0, 0, 0, 1];
    let destination = [
        0x20, 0x01, 0x0D, 0xB8, 0x00, 0x0A, 0x00, 0x0B, 0x00, 0x0C, 0x00, 0x0D, 0x00, 0x0E, 0x00,
        0x0F,
    ];
    let change = ChecksumChange::new().replace_16bytes(source, new_source);
    expect_equal(&rt, &change.apply_udp(0xCA85), &0xCA99);
    expect_equal(
        &rt,
        &updated_udp_checksum(0xCA85, &source, &new_source),
        &0xCA99,
    );
    let to_ipv4 = ChecksumChange::new()
        .replace_slice(&source, &[192, 168, 1, 1])
        .replace_slice(&destination, &[192, 168, 1, 2]);
    expect_equal(&rt, &to_ipv4.apply_udp(0xCA85), &0xA303);
}

/// A router lowers the time to live from 64 to 63. The protocol, which is in the same word, has every value.
#[test]
fn a_lowered_time_to_live_is_updated(rt: HostRuntime) {
    let header = |time_to_live, protocol| {
        Sum16BitWords::new().add_slice(&[
            0x45,
            0x00,
            0x00,
            0x3C,
            0x1C,
            0x46,
            0x40,
            0x00,
            time_to_live,
            protocol,
            0x00,
            0x00,
            0xAC,
            0x10,
            0x0A,
            0x63,
            0xAC,
            0x10,
            0x0A,
            0x0C,
        ])
    };
    expect_equal(&rt, &header(64, 6).ones_complement(), &0xB1E6);
    expect_equal(&rt, &header(63, 6).ones_complement(), &0xB2E6);
    for protocol in 0..=255u8 {
        let change = ChecksumChange::new().replace_2bytes([64, protocol], [63, protocol]);
        let updated = change.apply(header(64, protocol).ones_complement());
        expect_at(
            &rt,
            &protocol,
            &updated,
            &header(63, protocol).ones_complement(),
        );
    }
}

/// An ICMPv4 echo reply that consists of zeros, except for its identifier 1. If the identifier becomes 0, the updated checksum is wrong.
#[test]
fn an_echo_reply_of_zeros_gets_zero(rt: HostRuntime) {
    let reply = |identifier| Sum16BitWords::new().add_slice(&[0, 0, 0, 0, 0, identifier, 0, 0]);
    expect_equal(&rt, &reply(1).ones_complement(), &0xFFFE);
    expect_equal(&rt, &updated_checksum(0xFFFE, &[0, 1], &[0, 0]), &0x0000);
    expect_equal(&rt, &reply(0).ones_complement(), &0xFFFF);
}

/// No update can distinguish a packet that becomes all zeros from a packet whose sum becomes another multiple of 65535.
#[test]
fn a_packet_of_zeros_gets_zero(rt: HostRuntime) {
    let one = Sum16BitWords::new().add_2bytes([0, 1]);
    let zeros = one.add_2bytes([0, 0]).ones_complement();
    let ones = one.add_2bytes([0xFF, 0xFF]).ones_complement();
    expect_equal(&rt, &(zeros, ones), &(0xFFFE, 0xFFFE));
    let change = ChecksumChange::new().replace_2bytes([0, 1], [0, 0]);
    expect_equal(&rt, &change.apply(0xFFFE), &0x0000);
    expect_equal(&rt, &change.apply_udp(0xFFFE), &0xFFFF);
    // If nothing is replaced, a stored 65535 becomes 0, which means the same.
    expect_equal(&rt, &ChecksumChange::new().apply(0xFFFF), &0x0000);
    expect_equal(&rt, &ChecksumChange::new().apply(0xFFFE), &0xFFFE);
    expect_equal(&rt, &ChecksumChange::new().apply_udp(0xFFFF), &0xFFFF);
}
