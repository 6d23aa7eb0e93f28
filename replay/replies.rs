ghost use Rattle.std.specs.Prelude.{◌≡◌, IfOk, IsNone, IsSomeAnd, MatchResult};
ghost use Rattle.hex.specs.Hex.{decode_of};

use crate::elements::{elements_of, write_elements};
use crate::values::write_number;
use crate::{icmpv4, icmpv6, tcp, udp};
use etherparse_transport::Proto;
use hex::FromHexError;
use std::alloc::{AllocError, Global};
use std::io::Write;
use std::{io, str};

/// Writes the reply to a line of input, and a line feed.
pub fn write_reply<W: Write>(alloc: Global, line: &[u8], output: &mut W) -> io::Result<()> {
    if let Some(list) = line.strip_prefix(b"elements ") {
        write_elements_reply(alloc, list, output)?;
    } else {
        write_packet_reply(alloc, line, output)?;
    }
    output.write_all(b"\n")
}

/// Writes the reply to a list of option elements.
fn write_elements_reply<W: Write>(alloc: Global, list: &[u8], output: &mut W) -> io::Result<()> {
    let Ok(list) = str::from_utf8(list) else {
        return output.write_all(b"bad");
    };
    match elements_of(alloc, list)? {
        Some(elements) => write_elements(output, elements.as_slice()),
        None => output.write_all(b"bad"),
    }
}

/// Writes the reply to a packet.
fn write_packet_reply<W: Write>(alloc: Global, line: &[u8], output: &mut W) -> io::Result<()> {
    let Some((protocol, digits)) = packet_of(line) else {
        return output.write_all(b"bad");
    };
    match bytes_of(alloc, digits)? {
        Some(packet) => write_packet(alloc, protocol, packet.as_slice(), output),
        None => output.write_all(b"bad"),
    }
}

/// The protocol that a line names and the digits after its word and one space. None where the line does not begin so.
fn packet_of(line: &[u8]) -> Option<(Proto, &[u8])> {
    if let Some(digits) = line.strip_prefix(b"udp ") {
        return Some((Proto::Udp, digits));
    }
    if let Some(digits) = line.strip_prefix(b"tcp ") {
        return Some((Proto::Tcp, digits));
    }
    if let Some(digits) = line.strip_prefix(b"icmpv4 ") {
        return Some((Proto::Icmpv4, digits));
    }
    if let Some(digits) = line.strip_prefix(b"icmpv6 ") {
        return Some((Proto::Icmpv6, digits));
    }
    None
}

/// The bytes that these digits stand for. None where one of them is no hex digit, or their number is odd.
fn bytes_of(alloc: Global, digits: &[u8]) -> Result<Option<Vec<u8>>, AllocError>
    ensures { IfOk result (λ found. MatchResult (decode_of digits.now)
        (λ bytes. IsSomeAnd found (λ packet. packet.items ≡ bytes))
        (λ _. IsNone found)) }
{
    match hex::decode(alloc, digits) {
        Ok(bytes) => Ok(Some(bytes)),
        Err(FromHexError::OutOfMemory) => Err(AllocError),
        Err(_) => Ok(None),
    }
}

/// Writes what the calls of a protocol return for a packet.
fn write_packet<W: Write>(
    alloc: Global,
    protocol: Proto,
    packet: &[u8],
    output: &mut W,
) -> io::Result<()> {
    output.write_all(word_of(protocol).as_bytes())?;
    write_number(output, "n", packet.len() as u64)?;
    match protocol {
        Proto::Udp => udp::write_packet(output, packet),
        Proto::Tcp => tcp::write_packet(output, packet),
        Proto::Icmpv4 => icmpv4::write_packet(output, packet),
        Proto::Icmpv6 => icmpv6::write_packet(alloc, output, packet),
    }
}

/// The word of a protocol.
fn word_of(protocol: Proto) -> &'static str {
    match protocol {
        Proto::Udp => "udp",
        Proto::Tcp => "tcp",
        Proto::Icmpv4 => "icmpv4",
        Proto::Icmpv6 => "icmpv6",
    }
}
