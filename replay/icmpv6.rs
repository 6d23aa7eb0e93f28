use crate::addresses::{IPV6_DESTINATION, IPV6_SOURCE};
use crate::values::{
    Hex, write_bytes, write_checksum, write_code, write_echo, write_fields, write_number,
    write_numbers, write_too_big, write_word, write_wrong_len,
};
use etherparse_transport::err::ValueTooBigError;
use etherparse_transport::icmpv6::{NeighborAdvertisementHeader, RouterAdvertisementHeader};
use etherparse_transport::{Icmpv6Header, Icmpv6Slice, Icmpv6Type};
use std::alloc::Global;
use std::io::Write;
use std::{fmt, io};

/// Writes what the calls of ICMPv6 return for a packet.
pub fn write_packet<W: Write>(alloc: Global, output: &mut W, packet: &[u8]) -> io::Result<()> {
    let decoded = Icmpv6Header::from_slice(packet);
    match &decoded {
        Ok((header, rest)) => write_header(output, header, rest)?,
        Err(error) => write_wrong_len(output, "dec", error)?,
    }
    write_slice(output, packet)?;
    if let Ok((header, rest)) = &decoded {
        write_checksums(output, header, rest)?;
        write_validity(alloc, output, &with_checksum(header.icmp_type, rest), rest)?;
    }
    match packet.split_first_chunk::<8>() {
        Some((first_bytes, payload)) => write_first_bytes(output, first_bytes, payload),
        None => Ok(()),
    }
}

/// A header of this message for this payload.
fn with_checksum(
    icmp_type: Icmpv6Type,
    payload: &[u8],
) -> Result<Icmpv6Header, ValueTooBigError<usize>> {
    Icmpv6Header::with_checksum(icmp_type, IPV6_SOURCE, IPV6_DESTINATION, payload)
}

/// Writes a header that was read, and the bytes after it.
fn write_header<W: Write>(output: &mut W, header: &Icmpv6Header, rest: &[u8]) -> io::Result<()> {
    write!(output, " dec=ok type={}", Message(&header.icmp_type))?;
    let numbers = [
        ("type.type_u8", u64::from(header.icmp_type.type_u8())),
        ("type.code_u8", u64::from(header.icmp_type.code_u8())),
        ("checksum", u64::from(header.checksum)),
        ("header_len", header.header_len() as u64),
        ("type.header_len", header.icmp_type.header_len() as u64),
    ];
    write_numbers(output, &numbers)?;
    match header.fixed_payload_size() {
        Some(size) => write_number(output, "fixed_payload_size", size as u64)?,
        None => write_word(output, "fixed_payload_size", "-")?,
    }
    write_bytes(output, "bytes", header.to_bytes().as_slice())?;
    write_number(output, "rest_len", rest.len() as u64)?;
    write_bytes(output, "rest", rest)
}

/// Writes the message that a slice holds, and its getters.
fn write_slice<W: Write>(output: &mut W, packet: &[u8]) -> io::Result<()> {
    match Icmpv6Slice::from_slice(packet) {
        Ok(message) => write_slice_parts(output, &message),
        Err(error) => write_wrong_len(output, "slice", &error),
    }
}

/// Writes the parts of a message that a slice holds, and whether its checksum is right.
fn write_slice_parts<W: Write>(output: &mut W, message: &Icmpv6Slice) -> io::Result<()> {
    let icmp_type = message.icmp_type();
    write!(output, " slice=ok slice.type={}", Message(&icmp_type))?;
    let fields = [
        ("slice.type_u8", u64::from(message.type_u8())),
        ("slice.code_u8", u64::from(message.code_u8())),
        ("slice.checksum", u64::from(message.checksum())),
    ];
    write_numbers(output, &fields)?;
    write_bytes(output, "slice.bytes5to8", &message.bytes5to8())?;
    let lengths = [
        ("slice.header_len", message.header_len() as u64),
        ("slice.slice_len", message.slice().len() as u64),
        ("slice.payload_len", message.payload().len() as u64),
    ];
    write_numbers(output, &lengths)?;
    write_bytes(output, "slice.payload", message.payload())?;
    let header = message.header().to_bytes();
    write_bytes(output, "slice.header", header.as_slice())?;
    let is_valid = message.is_checksum_valid(IPV6_SOURCE, IPV6_DESTINATION);
    write_number(output, "slice.valid", u64::from(is_valid))
}

/// Writes the checksums of a header that was read, the bytes after it being the payload.
fn write_checksums<W: Write>(
    output: &mut W,
    header: &Icmpv6Header,
    payload: &[u8],
) -> io::Result<()> {
    let (source, destination) = (IPV6_SOURCE, IPV6_DESTINATION);
    let icmp_type = header.icmp_type;
    write_checksum(
        output,
        "calc",
        icmp_type.calc_checksum(source, destination, payload),
    )?;
    write_made(output, "with", &with_checksum(icmp_type, payload))?;
    write_made(
        output,
        "to_header",
        &icmp_type.to_header(source, destination, payload),
    )?;
    let mut updated = header.clone()?;
    match updated.update_checksum(source, destination, payload) {
        Ok(()) => write_bytes(output, "update", updated.to_bytes().as_slice())?,
        Err(error) => write_too_big(output, "update", &error)?,
    }
    let new = Icmpv6Header::new(icmp_type);
    write_bytes(output, "new", new.to_bytes().as_slice())
}

/// Writes whether the checksum of the packet is right that a made header and its payload are.
fn write_validity<W: Write>(
    alloc: Global,
    output: &mut W,
    made: &Result<Icmpv6Header, ValueTooBigError<usize>>,
    payload: &[u8],
) -> io::Result<()> {
    let Ok(header) = made else {
        return write_word(output, "built_valid", "-");
    };
    let mut packet = Vec::from_slice(alloc, header.to_bytes().as_slice())?;
    packet.extend_from_slice(payload)?;
    let is_valid = Icmpv6Slice::from_slice(packet.as_slice()).is_ok_and(
        |message| message.is_checksum_valid(IPV6_SOURCE, IPV6_DESTINATION),
    );
    write_number(output, "built_valid", u64::from(is_valid))
}

/// Writes headers for this payload that are made of a packet's first 8 bytes and of types that it may not have.
fn write_first_bytes<W: Write>(output: &mut W, bytes: &[u8; 8], payload: &[u8]) -> io::Result<()> {
    let bytes5to8 = [bytes[4], bytes[5], bytes[6], bytes[7]];
    let unknown = Icmpv6Type::Unknown {
        type_u8: bytes[0],
        code_u8: bytes[1],
        bytes5to8,
    };
    let router = Icmpv6Type::RouterAdvertisement(RouterAdvertisementHeader::from_bytes(bytes5to8));
    write_made(output, "unk.with", &with_checksum(unknown, payload))?;
    write!(output, " ra={}", Message(&router))?;
    write_made(output, "ra.with", &with_checksum(router, payload))?;
    write_made(
        output,
        "rs.with",
        &with_checksum(Icmpv6Type::RouterSolicitation, payload),
    )?;
    write_made(
        output,
        "rd.with",
        &with_checksum(Icmpv6Type::Redirect, payload),
    )?;
    let neighbor = NeighborAdvertisementHeader::from_bytes(bytes5to8);
    let message = Icmpv6Type::NeighborAdvertisement(neighbor);
    write!(output, " na={}", Message(&message))?;
    write_bytes(output, "na.to_bytes", &neighbor.to_bytes())
}

/// Writes the bytes of a header that was made, or the fields of the refused payload.
fn write_made<W: Write>(
    output: &mut W,
    key: &str,
    made: &Result<Icmpv6Header, ValueTooBigError<usize>>,
) -> io::Result<()> {
    match made {
        Ok(header) => write_bytes(output, key, header.to_bytes().as_slice()),
        Err(error) => write_too_big(output, key, error),
    }
}

/// A message by its kind, with its fields, as `EchoRequest(1,2)`.
#[derive(Clone, Copy)]
struct Message<'a>(&'a Icmpv6Type);

impl<'a> fmt::Display for Message<'a> {
    fn fmt<W: fmt::Write>(&self, f: &mut fmt::Formatter<W>) -> fmt::Result {
        match self.0 {
            Icmpv6Type::Unknown {
                type_u8,
                code_u8,
                bytes5to8,
            } => write!(f, "Unknown({type_u8},{code_u8},{})", Hex(bytes5to8)),
            Icmpv6Type::DestinationUnreachable(code) => {
                write_code(f, "DestinationUnreachable", code)
            }
            Icmpv6Type::PacketTooBig { mtu } => {
                write_fields(f, "PacketTooBig(", &[u64::from(*mtu)], ")")
            }
            Icmpv6Type::TimeExceeded(code) => write_code(f, "TimeExceeded", code),
            Icmpv6Type::ParameterProblem(header) => {
                write!(f, "ParameterProblem({:?},{})", header.code, header.pointer)
            }
            Icmpv6Type::EchoRequest(echo) => write_echo(f, "EchoRequest(", echo),
            Icmpv6Type::EchoReply(echo) => write_echo(f, "EchoReply(", echo),
            Icmpv6Type::RouterSolicitation => f.write_str("RouterSolicitation"),
            Icmpv6Type::RouterAdvertisement(router) => write_router(f, router),
            Icmpv6Type::NeighborSolicitation => f.write_str("NeighborSolicitation"),
            Icmpv6Type::NeighborAdvertisement(neighbor) => write_neighbor(f, neighbor),
            Icmpv6Type::Redirect => f.write_str("Redirect"),
        }
    }
}

/// Writes the fields of a router advertisement: hop limit, the two flags as 0 or 1, and lifetime.
fn write_router<W: fmt::Write>(
    f: &mut fmt::Formatter<W>,
    router: &RouterAdvertisementHeader,
) -> fmt::Result {
    let numbers = [
        u64::from(router.cur_hop_limit),
        u64::from(router.managed_address_config),
        u64::from(router.other_config),
        u64::from(router.router_lifetime),
    ];
    write_fields(f, "RouterAdvertisement(", &numbers, ")")
}

/// Writes the flags of a neighbor advertisement, each as 0 or 1.
fn write_neighbor<W: fmt::Write>(
    f: &mut fmt::Formatter<W>,
    neighbor: &NeighborAdvertisementHeader,
) -> fmt::Result {
    let numbers = [
        u64::from(neighbor.router),
        u64::from(neighbor.solicited),
        u64::from(neighbor.override_flag),
    ];
    write_fields(f, "NeighborAdvertisement(", &numbers, ")")
}
