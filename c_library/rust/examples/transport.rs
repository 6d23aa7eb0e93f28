// SPDX-FileCopyrightText: 2026 The etherparse_transport developers
// SPDX-License-Identifier: MIT OR Apache-2.0
//! Finds a packet behind an IP header; builds a packet of each protocol, reads it back, and tests it; reads and writes TCP options;
//! translates a source address; and shows errors.
use etherparse_transport_c::checksum::{ChecksumChange, Sum};
use etherparse_transport_c::tcp::TcpOption;
use etherparse_transport_c::{Error, ErrorKind, Verdict, canonical, icmpv4, icmpv6, ip, sys, tcp, udp};

const SOURCE: [u8; 4] = [192, 168, 1, 1];
const DESTINATION: [u8; 4] = [192, 168, 1, 2];
const OUTSIDE: [u8; 4] = [203, 0, 113, 7];
const SOURCE_V6: [u8; 16] = [0x20, 0x01, 0x0D, 0xB8, 0, 0, 0, 0, 0, 0, 0, 0, 0, 0, 0, 1];
const DESTINATION_V6: [u8; 16] = [0x20, 0x01, 0x0D, 0xB8, 0, 0, 0, 0, 0, 0, 0, 0, 0, 0, 0, 2];

/// A UDP packet with its checksum.
fn udp_packet(payload: &[u8]) -> Result<Vec<u8>, Error> {
    let header = udp::Header { source_port: 21, destination_port: 1234, length: 8 + payload.len() as u16, checksum: 0 };
    let mut packet = vec![0; 8];
    udp::write_header(&header, &mut packet)?;
    packet.extend_from_slice(payload);
    udp::store_checksum_ipv4(&mut packet, SOURCE, DESTINATION)?;
    Ok(packet)
}

/// The packet with another source address and port, its checksum updated.
fn translated(packet: &[u8], port: u16) -> Result<Vec<u8>, Error> {
    let checksum = udp::Packet::read(packet)?.header.checksum;
    let change = ChecksumChange::new().replace(&SOURCE, &OUTSIDE).replace(&packet[..2], &port.to_be_bytes());
    let mut changed = packet.to_vec();
    changed[..2].copy_from_slice(&port.to_be_bytes());
    changed[6..8].copy_from_slice(&change.apply_udp(checksum).to_be_bytes());
    Ok(changed)
}

/// The UDP packet as a sender on IPv4 puts it into a frame, with padding.
fn show_ip() -> Result<(), Error> {
    let header = [0x45, 0, 0, 31, 0, 7, 0, 0, 64, 17, 0, 0, 192, 168, 1, 1, 192, 168, 1, 2];
    let mut packet = header.to_vec();
    packet.extend_from_slice(&udp_packet(b"abc")?);
    packet.resize(46, 0);
    let transport = ip::Transport::read(&packet)?;
    println!("ip {:?} {} {}", transport.addresses, transport.protocol, transport.payload.len());
    println!("{}", ip::Transport::read(&packet[..30]).map_err(|error| error.to_string()).expect_err("a cut off packet"));
    println!("{:?}", ip::Transport::read_lax(&packet[..30])?.payload);
    Ok(())
}

fn show_udp() -> Result<(), Error> {
    let mut packet = udp_packet(b"abc")?;
    println!("udp {packet:02x?}");
    let read = udp::Packet::read(&packet)?;
    println!("{:?} {:?}", read.header, read.payload);
    println!("{:?}", udp::test_checksum_ipv4(&packet, SOURCE, DESTINATION)?);
    let changed = translated(&packet, 40001)?;
    println!("translated {changed:02x?} {:?}", udp::test_checksum_ipv4(&changed, OUTSIDE, DESTINATION)?);
    packet[10] ^= 1;
    println!("{:?}", udp::test_checksum_ipv4(&packet, SOURCE, DESTINATION)?);
    println!("{:?}", udp::test_checksum_ipv6(&packet, SOURCE_V6, DESTINATION_V6)?);
    Ok(())
}

fn show_tcp() -> Result<(), Error> {
    let blocks = TcpOption::sack(&[(1, 2), (3, 4)]).expect("two blocks");
    let written = [TcpOption::noop(), TcpOption::noop(), TcpOption::timestamp(7, 9), TcpOption::noop(), TcpOption::noop(), blocks];
    let mut options = [0; 40];
    let options_len = tcp::write_options(&written, &mut options)?;
    let flags = sys::TCP_ACK | sys::TCP_PSH;
    let header = tcp::Header { source_port: 80, destination_port: 50000, flags, window_size: 512, ..Default::default() };
    let mut packet = vec![0; 60];
    let header_len = tcp::write_header(&header, &options[..options_len], &mut packet)?;
    packet.truncate(header_len);
    packet.extend_from_slice(b"GET /");
    tcp::store_checksum_ipv6(&mut packet, SOURCE_V6, DESTINATION_V6)?;
    let read = tcp::Packet::read(&packet)?;
    println!("tcp {:?} {:?}", read.header, read.payload);
    for option in read.options_iter() {
        let option = option?;
        println!("option {} {:?}", option.kind(), option.values());
    }
    println!("{:?}", tcp::test_checksum_ipv6(&packet, SOURCE_V6, DESTINATION_V6)?);
    Ok(())
}

fn show_icmp() -> Result<(), Error> {
    let request = icmpv4::Header { kind: sys::ICMPV4_KIND_ECHO_REQUEST, id: 1, sequence_number: 2, ..Default::default() };
    let mut packet = *b"________ping";
    icmpv4::write_header(&request, &mut packet)?;
    icmpv4::store_checksum(&mut packet)?;
    println!("icmpv4 {packet:02x?} {:?}", icmpv4::test_checksum(&packet)?);
    let request = icmpv6::Header { kind: sys::ICMPV6_KIND_ECHO_REQUEST, id: 1, sequence_number: 2, ..Default::default() };
    icmpv6::write_header(&request, &mut packet)?;
    icmpv6::store_checksum(&mut packet, SOURCE_V6, DESTINATION_V6)?;
    println!("icmpv6 {packet:02x?} {:?}", icmpv6::test_checksum(&packet, SOURCE_V6, DESTINATION_V6)?);
    println!("{:?}", icmpv6::Packet::read(&packet)?.payload);
    Ok(())
}

fn show_errors() {
    let too_small = udp::write_header(&udp::Header::default(), &mut [0; 7]);
    let too_long = tcp::write_header(&tcp::Header::default(), &[0; 41], &mut [0; 64]);
    let unknown = icmpv4::write_header(&icmpv4::Header { kind: 99, ..Default::default() }, &mut [0; 64]);
    let errors = [udp::Packet::read(&[]).err(), too_small.err(), too_long.err(), unknown.err()];
    for error in errors.into_iter().flatten() {
        println!("{error} {:?}", error.kind());
    }
    let fault = tcp::Options::new(&[2, 3, 5, 0]).next().and_then(Result::err);
    assert_eq!(fault.map(|error| error.kind()), Some(ErrorKind::OptionSize { kind: 2, size: 3 }));
}

fn main() -> Result<(), Error> {
    println!("version {:06x}", etherparse_transport_c::version());
    show_ip()?;
    show_udp()?;
    show_tcp()?;
    show_icmp()?;
    show_errors();
    let mut buffer = [0; 60];
    let len = canonical::write_header(canonical::Protocol::Icmpv4, &[3, 4, 0, 0, 1, 2, 5, 0xDC], &mut buffer)?;
    println!("canonical {:02x?}", &buffer[..len]);
    println!("sum {:04x}", Sum::new().add_bytes(&[0x45, 0, 0, 31]).add_bytes(&[1]).checksum());
    assert_eq!(udp::test_checksum_ipv4(&[0; 8], SOURCE, DESTINATION), Ok(Verdict::Absent));
    Ok(())
}
