use super::expect_transport;
use crate::expect::{expect_ok, joined};
use crate::packets::OVER_IPV4;
use capture_packet::Transport;
use etherparse_transport::{TcpSlice, TransportSlice, ip_number};
use std::process::Abort;

/// Stops the test unless the three texts together are the text of a TCP segment with these flags, the urgent pointer 7, these options and
/// two bytes of payload.
fn expect_segment(
    rt: &(impl Abort + AllocGlobal),
    flags: [u8; 2],
    options: &[u8],
    wanted: [&str; 3],
) {
    let words = expect_ok(rt, u8::try_from(5 + options.len() / 4));
    let offset = words.saturating_mul(16) | flags[0];
    let parts: [&[u8]; 4] = [
        &[0xC0, 1, 0, 80, 0, 0, 3, 0xE8, 0, 0, 0, 9],
        &[offset, flags[1], 0xFA, 0xF0, 0, 0, 0, 7],
        options,
        &[1, 2],
    ];
    let bytes = joined(rt, &parts);
    let segment = expect_ok(rt, TcpSlice::from_slice(&bytes));
    let transport = Transport::Read(TransportSlice::Tcp(segment));
    expect_transport(rt, OVER_IPV4, ip_number::TCP, transport, wanted);
}

/// Flags, in the last bit of byte 12 and in byte 13, and their text.
#[rattlefmt::skip]
const FLAGS: [([u8; 2], &str); 15] = [
    ([0, 0], "none, sequence 1000, acknowledgment 9, window 64240"),
    ([1, 0], "NS, sequence 1000, acknowledgment 9, window 64240"),
    ([0, 0x80], "CWR, sequence 1000, acknowledgment 9, window 64240"),
    ([0, 0x40], "ECE, sequence 1000, acknowledgment 9, window 64240"),
    ([0, 0x20], "URG, sequence 1000, acknowledgment 9, window 64240, urgent pointer 7"),
    ([0, 0x10], "ACK, sequence 1000, acknowledgment 9, window 64240"),
    ([0, 0x08], "PSH, sequence 1000, acknowledgment 9, window 64240"),
    ([0, 0x04], "RST, sequence 1000, acknowledgment 9, window 64240"),
    ([0, 0x02], "SYN, sequence 1000, acknowledgment 9, window 64240"),
    ([0, 0x01], "FIN, sequence 1000, acknowledgment 9, window 64240"),
    // In the order of tcpdump and Wireshark
    ([0, 0x12], "SYN ACK, sequence 1000, acknowledgment 9, window 64240"),
    ([0, 0x11], "FIN ACK, sequence 1000, acknowledgment 9, window 64240"),
    ([0, 0x18], "PSH ACK, sequence 1000, acknowledgment 9, window 64240"),
    ([0, 0xC2], "SYN ECE CWR, sequence 1000, acknowledgment 9, window 64240"),
    ([1, 0xFF], "FIN SYN RST PSH ACK URG ECE CWR NS, sequence 1000, acknowledgment 9, window 64240, urgent pointer 7"),
];

#[test]
fn flags_of_segments(rt: HostRuntime) {
    for (flags, wanted) in &FLAGS {
        let before = "192.0.2.1:49153 > 192.0.2.2:80 TCP flags ";
        expect_segment(&rt, *flags, &[], [before, wanted, ", payload 2"]);
    }
}

/// Options, and their text.
#[rattlefmt::skip]
const OPTIONS: [(&[u8], &str); 13] = [
    (&[2, 4, 5, 0xB4, 4, 2, 8, 10, 0, 0, 0, 100, 0, 0, 0, 0, 1, 3, 3, 7],
     "maximum segment size 1460, selective acknowledgment permitted, timestamp 100 0, no operation, window scale 7"),
    (&[5, 10, 0, 0, 0, 1, 0, 0, 0, 2, 0, 0], "selective acknowledgment 1-2, end of options"),
    (&[5, 18, 0, 0, 0, 1, 0, 0, 0, 2, 0, 0, 0, 3, 0, 0, 0, 4, 1, 1], "selective acknowledgment 1-2 3-4, no operation, no operation"),
    (&[5, 34, 0, 0, 0, 1, 0, 0, 0, 2, 0, 0, 0, 3, 0, 0, 0, 4, 0, 0, 0, 5, 0, 0, 0, 6, 0, 0, 0, 7, 0xFF, 0xFF, 0xFF, 0xFF, 1, 0],
     "selective acknowledgment 1-2 3-4 5-6 7-4294967295, no operation, end of options"),
    (&[254, 6, 1, 2, 3, 4, 0, 9], "option 254 of 4 bytes: 01020304, end of options"),
    (&[253, 3, 0xAB, 1], "option 253 of 1 byte: AB, no operation"),
    (&[253, 2, 1, 0], "option 253 of 0 bytes, no operation, end of options"),
    // Known kinds with lengths other than theirs
    (&[2, 3, 5, 1], "option 2 of 1 byte: 05, no operation"),
    (&[5, 4, 1, 2], "option 5 of 2 bytes: 0102"),
    (&[0, 0, 0, 0], "end of options"),
    // Faults
    (&[1, 1, 1, 2], "no operation, no operation, no operation, option 2 without a length byte"),
    (&[1, 8, 1, 0], "no operation, option 8 with length 1 below 2"),
    (&[8, 10, 0, 0], "option 8 with length 10 above the 4 bytes left"),
];

#[test]
fn options_of_segments(rt: HostRuntime) {
    for (options, wanted) in &OPTIONS {
        let before =
            "192.0.2.1:49153 > 192.0.2.2:80 TCP flags SYN, sequence 1000, acknowledgment 9, window 64240, options [";
        expect_segment(&rt, [0, 2], options, [before, wanted, "], payload 2"]);
    }
}
