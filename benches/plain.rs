//! What a program writes by hand in plain Rust without this library: a translator of addresses, a responder to echo requests, the test of
//! an echo reply, and a writer of packets. They check what the calls of the library check, and write the same bytes.

use std::net::{Ipv4Addr, Ipv6Addr};

const ICMP: u8 = 1;
const TCP: u8 = 6;
const UDP: u8 = 17;
const ICMPV6: u8 = 58;

pub enum Refused {
    CutOff,
    Version,
    HeaderLength,
    TotalLength,
    Options,
    Protocol,
    Fragment,
    Message,
    Quoted,
    Checksum,
    Address,
    Space,
}

/// Which address and port are replaced: the source of what goes out, and the destination of what comes in.
#[derive(Clone, Copy)]
pub enum Side {
    Source,
    Destination,
}

impl Side {
    fn opposite(self) -> Side {
        match self {
            Side::Source => Side::Destination,
            Side::Destination => Side::Source,
        }
    }
}

// ---- checksums

/// A sum of words of 16 or 32 bits, folded to 16 bits. The upper half of a word counts as much as the lower half (RFC 1071).
fn folded(sum: u64) -> u16 {
    let sum = (sum >> 32) + (sum & 0xffff_ffff);
    let sum = (sum >> 32) + (sum & 0xffff_ffff);
    let sum = (sum >> 16) + (sum & 0xffff);
    let sum = (sum >> 16) + (sum & 0xffff);
    let sum = (sum >> 16) + (sum & 0xffff);
    sum as u16
}

/// What is replaced in a packet, as the sum of RFC 1624, equation 3, without the checksum.
#[derive(Clone, Copy, Default)]
struct Change(u64);

impl Change {
    fn replace_2bytes(&mut self, old: u16, new: u16) {
        self.0 += u64::from(!old) + u64::from(new);
    }

    fn replace_4bytes(&mut self, old: [u8; 4], new: [u8; 4]) {
        self.0 += u64::from(!u32::from_be_bytes(old)) + u64::from(u32::from_be_bytes(new));
    }

    fn replace_16bytes(&mut self, old: [u8; 16], new: [u8; 16]) {
        for place in [0, 4, 8, 12] {
            self.replace_4bytes(read(&old, place), read(&new, place));
        }
    }

    fn apply(self, checksum: u16) -> u16 {
        !folded(self.0 + u64::from(!checksum))
    }
}

/// The sum of bytes in the machine's order of bytes. A packet with a right checksum has 65535 in either order.
fn sum(bytes: &[u8]) -> u64 {
    let (words, rest) = bytes.as_chunks::<4>();
    let mut last = [0; 4];
    last[..rest.len()].copy_from_slice(rest);
    let words = words.iter().map(|word| u64::from(u32::from_ne_bytes(*word))).sum::<u64>();
    words + u64::from(u32::from_ne_bytes(last))
}

// ---- bytes

fn read<const LEN: usize>(bytes: &[u8], place: usize) -> [u8; LEN] {
    bytes[place..place + LEN].try_into().unwrap()
}

fn word(bytes: &[u8], place: usize) -> u16 {
    u16::from_be_bytes(read(bytes, place))
}

fn write<const LEN: usize>(bytes: &mut [u8], place: usize, new: [u8; LEN]) {
    bytes[place..place + LEN].copy_from_slice(&new);
}

// ---- the translator

/// Where the message of a packet ends, and what it is.
struct Place {
    protocol: u8,
    end: usize,
    is_later_fragment: bool,
}

/// Finds the message of a packet. The packet that an ICMP error is about may be cut off.
fn ipv4_place(packet: &[u8], is_quoted: bool) -> Result<Place, Refused> {
    if packet.len() < 20 {
        return Err(Refused::CutOff);
    }
    if packet[0] >> 4 != 4 {
        return Err(Refused::Version);
    }
    match packet[0] & 15 {
        0..5 => return Err(Refused::HeaderLength),
        5 => {}
        _ => return Err(Refused::Options),
    }
    let total_len = usize::from(word(packet, 2));
    if total_len < 20 {
        return Err(Refused::TotalLength);
    }
    if total_len > packet.len() && !is_quoted {
        return Err(Refused::CutOff);
    }
    let protocol = packet[9];
    if !matches!(protocol, ICMP | TCP | UDP) {
        return Err(Refused::Protocol);
    }
    Ok(Place {
        protocol,
        end: total_len.min(packet.len()),
        is_later_fragment: word(packet, 6) & 0x1fff != 0,
    })
}

fn ipv6_place(packet: &[u8]) -> Result<Place, Refused> {
    if packet.len() < 40 {
        return Err(Refused::CutOff);
    }
    if packet[0] >> 4 != 6 {
        return Err(Refused::Version);
    }
    let end = 40 + usize::from(word(packet, 4));
    if end > packet.len() {
        return Err(Refused::CutOff);
    }
    let protocol = packet[6];
    if !matches!(protocol, ICMPV6 | TCP | UDP) {
        return Err(Refused::Protocol);
    }
    Ok(Place {
        protocol,
        end,
        is_later_fragment: false,
    })
}

/// Replaces an address, and a port or the identifier of an echo message, in a packet with UDP, TCP, an ICMP echo message or an ICMP error.
pub fn translate_ipv4(packet: &mut [u8], side: Side, address: [u8; 4], port: u16) -> Result<(), Refused> {
    let place = ipv4_place(packet, false)?;
    if !place.is_later_fragment {
        let message = &packet[20..place.end];
        if message.len() < if place.protocol == TCP { 20 } else { 8 } {
            return Err(Refused::CutOff);
        }
        if place.protocol == ICMP {
            match (message[0], message[1]) {
                (0 | 8, 0) => {}
                (3 | 4 | 5 | 11 | 12, _) => return translate_error_ipv4(&mut packet[..place.end], side, address, port),
                _ => return Err(Refused::Message),
            }
        }
    }
    translate_flow_ipv4(packet, &place, side, address, port);
    Ok(())
}

/// The packet that the error is about went in the other direction. The checksum of the error covers what is replaced in it.
fn translate_error_ipv4(packet: &mut [u8], side: Side, address: [u8; 4], port: u16) -> Result<(), Refused> {
    let (front, quoted) = packet.split_at_mut(28);
    let place = ipv4_place(quoted, true).map_err(|_| Refused::Quoted)?;
    let change = translate_flow_ipv4(quoted, &place, side.opposite(), address, port);
    let checksum = change.apply(word(front, 22));
    write(front, 22, checksum.to_be_bytes());
    replace_address_ipv4(front, side, address);
    Ok(())
}

/// Returns all that is replaced.
fn translate_flow_ipv4(packet: &mut [u8], place: &Place, side: Side, address: [u8; 4], port: u16) -> Change {
    let (addresses, header) = replace_address_ipv4(packet, side, address);
    let mut all = header;
    if !place.is_later_fragment {
        translate_message(&mut packet[20..place.end], place.protocol, addresses, side, port, &mut all);
    }
    all
}

/// Returns what is replaced in the pseudo header, and what is replaced in the header.
fn replace_address_ipv4(packet: &mut [u8], side: Side, address: [u8; 4]) -> (Change, Change) {
    let place = match side {
        Side::Source => 12,
        Side::Destination => 16,
    };
    let mut change = Change::default();
    change.replace_4bytes(read(packet, place), address);
    let old = word(packet, 10);
    let new = change.apply(old);
    write(packet, 10, new.to_be_bytes());
    write(packet, place, address);
    let mut header = change;
    header.replace_2bytes(old, new);
    (change, header)
}

/// Replaces an address, and a port or the identifier of an echo message, in a packet with UDP, TCP or an ICMPv6 echo message.
pub fn translate_ipv6(packet: &mut [u8], side: Side, address: [u8; 16], port: u16) -> Result<(), Refused> {
    let place = ipv6_place(packet)?;
    let message = &packet[40..place.end];
    if message.len() < if place.protocol == TCP { 20 } else { 8 } {
        return Err(Refused::CutOff);
    }
    if place.protocol == ICMPV6 && !matches!((message[0], message[1]), (128 | 129, 0)) {
        return Err(Refused::Message);
    }
    let start = match side {
        Side::Source => 8,
        Side::Destination => 24,
    };
    let mut change = Change::default();
    change.replace_16bytes(read(packet, start), address);
    write(packet, start, address);
    translate_message(
        &mut packet[40..place.end],
        place.protocol,
        change,
        side,
        port,
        &mut Change::default(),
    );
    Ok(())
}

/// Replaces a port or the identifier, and the checksum, as far as the message has them. Adds what is replaced to `all`.
fn translate_message(message: &mut [u8], protocol: u8, addresses: Change, side: Side, port: u16, all: &mut Change) {
    let (port_place, checksum_place) = match (protocol, side) {
        (UDP, Side::Source) => (0, 6),
        (UDP, Side::Destination) => (2, 6),
        (TCP, Side::Source) => (0, 16),
        (TCP, Side::Destination) => (2, 16),
        _ => (4, 2),
    };
    // A request has the identifier of its source, and a reply that of its destination.
    let has_port = match (protocol, side, message.first()) {
        (UDP | TCP, _, _) | (_, Side::Source, Some(8 | 128)) | (_, Side::Destination, Some(0 | 129)) => true,
        _ => false,
    };
    let mut change = if protocol == ICMP { Change::default() } else { addresses };
    if has_port && message.len() >= port_place + 2 {
        let old = word(message, port_place);
        change.replace_2bytes(old, port);
        all.replace_2bytes(old, port);
        write(message, port_place, port.to_be_bytes());
    } else if protocol == ICMP {
        return;
    }
    if message.len() < checksum_place + 2 {
        return;
    }
    let old = word(message, checksum_place);
    // A UDP packet without a checksum remains without one, and no other becomes such a packet.
    if protocol == UDP && old == 0 {
        return;
    }
    let mut new = change.apply(old);
    if new == 0 && (protocol == UDP || protocol == ICMP && message[0] == 0) {
        new = 0xffff;
    }
    write(message, checksum_place, new.to_be_bytes());
    all.replace_2bytes(old, new);
}

// ---- the responder

/// Turns an echo request into its reply, and returns the length of the reply.
pub fn answer_echo(packet: &mut [u8], hop_limit: u8) -> Result<usize, Refused> {
    match packet.first() {
        Some(first) if first >> 4 == 6 => answer_echo_ipv6(packet, hop_limit),
        _ => answer_echo_ipv4(packet, hop_limit),
    }
}

fn answer_echo_ipv4(packet: &mut [u8], time_to_live: u8) -> Result<usize, Refused> {
    let Place { protocol, end, .. } = ipv4_place(packet, false)?;
    if word(packet, 6) & 0x3fff != 0 {
        return Err(Refused::Fragment);
    }
    let message = &packet[20..end];
    if message.len() < 8 {
        return Err(Refused::CutOff);
    }
    if protocol != ICMP || message[0] != 8 || message[1] != 0 {
        return Err(Refused::Message);
    }
    if folded(sum(message)) != 0xffff || folded(sum(&packet[..20])) != 0xffff {
        return Err(Refused::Checksum);
    }
    let (source, destination) = (read::<4>(packet, 12), read::<4>(packet, 16));
    if !is_host_ipv4(source.into()) || !is_host_ipv4(destination.into()) {
        return Err(Refused::Address);
    }
    write(packet, 12, destination);
    write(packet, 16, source);
    // The exchanged addresses change no checksum.
    let mut header = Change::default();
    header.replace_2bytes(word(packet, 8), u16::from_be_bytes([time_to_live, ICMP]));
    let checksum = header.apply(word(packet, 10));
    packet[8] = time_to_live;
    write(packet, 10, checksum.to_be_bytes());
    let mut change = Change::default();
    change.replace_2bytes(0x0800, 0);
    let checksum = change.apply(word(packet, 22));
    packet[20] = 0;
    // The checksum of a reply of zeros is 65535.
    write(packet, 22, u16::to_be_bytes(if checksum == 0 { 0xffff } else { checksum }));
    Ok(end)
}

fn answer_echo_ipv6(packet: &mut [u8], hop_limit: u8) -> Result<usize, Refused> {
    let Place { protocol, end, .. } = ipv6_place(packet)?;
    let message = &packet[40..end];
    if message.len() < 8 {
        return Err(Refused::CutOff);
    }
    if protocol != ICMPV6 || message[0] != 128 || message[1] != 0 {
        return Err(Refused::Message);
    }
    let pseudo_header = u64::from((message.len() as u32).to_be()) + u64::from(u32::from(ICMPV6).to_be());
    if folded(pseudo_header + sum(&packet[8..40]) + sum(message)) != 0xffff {
        return Err(Refused::Checksum);
    }
    let (source, destination) = (read::<16>(packet, 8), read::<16>(packet, 24));
    if !is_host_ipv6(source.into()) || !is_host_ipv6(destination.into()) {
        return Err(Refused::Address);
    }
    write(packet, 8, destination);
    write(packet, 24, source);
    packet[7] = hop_limit;
    // The exchanged addresses do not change the checksum.
    let mut change = Change::default();
    change.replace_2bytes(0x8000, 0x8100);
    let checksum = change.apply(word(packet, 42));
    packet[40] = 129;
    write(packet, 42, checksum.to_be_bytes());
    Ok(end)
}

/// Whether a packet is the reply to an echo request.
pub fn is_reply_to(request: &[u8], reply: &[u8]) -> bool {
    match request.first() {
        Some(first) if first >> 4 == 6 => is_reply_ipv6(request, reply).unwrap_or(false),
        _ => is_reply_ipv4(request, reply).unwrap_or(false),
    }
}

fn is_reply_ipv4(request: &[u8], reply: &[u8]) -> Result<bool, Refused> {
    let (sent, received) = (ipv4_place(request, false)?, ipv4_place(reply, false)?);
    if sent.protocol != ICMP || received.protocol != ICMP || (word(request, 6) | word(reply, 6)) & 0x3fff != 0 {
        return Ok(false);
    }
    let (asked, answered) = (&request[20..sent.end], &reply[20..received.end]);
    if asked.len() < 8 || asked.len() != answered.len() || word(asked, 0) != 0x0800 || word(answered, 0) != 0 {
        return Ok(false);
    }
    let destination = read::<4>(request, 16);
    let responder = read::<4>(reply, 12);
    let address = Ipv4Addr::from(destination);
    let is_from = if address.is_multicast() || address.is_broadcast() {
        is_host_ipv4(responder.into())
    } else {
        responder == destination
    };
    Ok(read::<4>(reply, 16) == read::<4>(request, 12)
        && is_from
        && asked[4..] == answered[4..]
        && folded(sum(answered)) == 0xffff
        && folded(sum(&reply[..20])) == 0xffff)
}

fn is_reply_ipv6(request: &[u8], reply: &[u8]) -> Result<bool, Refused> {
    let (sent, received) = (ipv6_place(request)?, ipv6_place(reply)?);
    let (asked, answered) = (&request[40..sent.end], &reply[40..received.end]);
    if sent.protocol != ICMPV6 || received.protocol != ICMPV6 || asked.len() < 8 || asked.len() != answered.len() {
        return Ok(false);
    }
    if word(asked, 0) != 0x8000 || word(answered, 0) != 0x8100 {
        return Ok(false);
    }
    let destination = read::<16>(request, 24);
    let responder = read::<16>(reply, 8);
    let is_from = if Ipv6Addr::from(destination).is_multicast() {
        is_host_ipv6(responder.into())
    } else {
        responder == destination
    };
    let pseudo_header = u64::from((answered.len() as u32).to_be()) + u64::from(u32::from(ICMPV6).to_be());
    Ok(read::<16>(reply, 24) == read::<16>(request, 8)
        && is_from
        && asked[4..] == answered[4..]
        && folded(pseudo_header + sum(&reply[8..40]) + sum(answered)) == 0xffff)
}

// ---- the writer

/// The transport header of a packet that is written.
pub enum Transport {
    Udp {
        source_port: u16,
        destination_port: u16,
    },
    Tcp {
        source_port: u16,
        destination_port: u16,
        sequence_number: u32,
        window_size: u16,
    },
}

impl Transport {
    fn protocol(&self) -> u8 {
        match self {
            Transport::Udp { .. } => UDP,
            Transport::Tcp { .. } => TCP,
        }
    }

    fn header_len(&self) -> usize {
        match self {
            Transport::Udp { .. } => 8,
            Transport::Tcp { .. } => 20,
        }
    }

    /// Writes header and payload with the checksum, after a pseudo header with this sum.
    fn write(&self, message: &mut [u8], payload: &[u8], pseudo_header: u64) {
        let len = message.len();
        let place = match *self {
            Transport::Udp {
                source_port,
                destination_port,
            } => {
                write(message, 0, source_port.to_be_bytes());
                write(message, 2, destination_port.to_be_bytes());
                write(message, 4, (len as u16).to_be_bytes());
                6
            }
            Transport::Tcp {
                source_port,
                destination_port,
                sequence_number,
                window_size,
            } => {
                write(message, 0, source_port.to_be_bytes());
                write(message, 2, destination_port.to_be_bytes());
                write(message, 4, sequence_number.to_be_bytes());
                write(message, 8, [0, 0, 0, 0, 0x50, 0]);
                write(message, 14, window_size.to_be_bytes());
                write(message, 18, [0, 0]);
                16
            }
        };
        write(message, place, [0, 0]);
        message[self.header_len()..].copy_from_slice(payload);
        let counted = u64::from((len as u32).to_be()) + u64::from(u32::from(self.protocol()).to_be());
        let checksum = !folded(pseudo_header + counted + sum(message));
        let is_zero = checksum == 0 && self.protocol() == UDP;
        write(message, place, if is_zero { [0xff, 0xff] } else { checksum.to_ne_bytes() });
    }
}

/// Writes an IPv4 packet to the front of the slice, and returns its length.
pub fn write_packet_ipv4(
    out: &mut [u8],
    source: [u8; 4],
    destination: [u8; 4],
    time_to_live: u8,
    transport: &Transport,
    payload: &[u8],
) -> Result<usize, Refused> {
    let len = 20 + transport.header_len() + payload.len();
    if len > 0xffff {
        return Err(Refused::TotalLength);
    }
    let packet = out.get_mut(..len).ok_or(Refused::Space)?;
    write(packet, 0, [0x45, 0]);
    write(packet, 2, (len as u16).to_be_bytes());
    write(packet, 4, [0, 0, 0x40, 0, time_to_live, transport.protocol(), 0, 0]);
    write(packet, 12, source);
    write(packet, 16, destination);
    let checksum = !folded(sum(&packet[..20]));
    write(packet, 10, checksum.to_ne_bytes());
    let pseudo_header = sum(&packet[12..20]);
    transport.write(&mut packet[20..], payload, pseudo_header);
    Ok(len)
}

/// Writes an IPv6 packet to the front of the slice, and returns its length.
pub fn write_packet_ipv6(
    out: &mut [u8],
    source: [u8; 16],
    destination: [u8; 16],
    hop_limit: u8,
    transport: &Transport,
    payload: &[u8],
) -> Result<usize, Refused> {
    let message_len = transport.header_len() + payload.len();
    if message_len > 0xffff {
        return Err(Refused::TotalLength);
    }
    let packet = out.get_mut(..40 + message_len).ok_or(Refused::Space)?;
    write(packet, 0, [0x60, 0, 0, 0]);
    write(packet, 4, (message_len as u16).to_be_bytes());
    write(packet, 6, [transport.protocol(), hop_limit]);
    write(packet, 8, source);
    write(packet, 24, destination);
    let pseudo_header = sum(&packet[8..40]);
    transport.write(&mut packet[40..], payload, pseudo_header);
    Ok(40 + message_len)
}

fn is_host_ipv4(address: Ipv4Addr) -> bool {
    !address.is_unspecified() && !address.is_broadcast() && !address.is_multicast()
}

fn is_host_ipv6(address: Ipv6Addr) -> bool {
    !address.is_unspecified() && !address.is_multicast()
}
