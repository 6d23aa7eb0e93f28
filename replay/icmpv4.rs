use crate::values::{
    Hex, write_bytes, write_code, write_echo, write_fields, write_number, write_numbers,
    write_word, write_wrong_len,
};
use etherparse_transport::icmpv4::{
    DestUnreachableHeader, ParameterProblemHeader, TimestampMessage,
};
use etherparse_transport::{Icmpv4Header, Icmpv4Slice, Icmpv4Type};
use std::io::Write;
use std::{fmt, io};

/// Writes what the calls of ICMPv4 return for a packet.
pub fn write_packet<W: Write>(output: &mut W, packet: &[u8]) -> io::Result<()> {
    let decoded = Icmpv4Header::from_slice(packet);
    match &decoded {
        Ok((header, rest)) => write_header(output, header, rest)?,
        Err(error) => write_wrong_len(output, "dec", error)?,
    }
    write_slice(output, packet)?;
    if let Ok((header, rest)) = &decoded {
        write_checksums(output, header, rest)?;
        let checksum = header.icmp_type.calc_checksum(packet);
        write_number(output, "calc_all", u64::from(checksum))?;
    }
    write_unknown(output, packet)
}

/// Writes a header that was read, and the bytes after it.
fn write_header<W: Write>(output: &mut W, header: &Icmpv4Header, rest: &[u8]) -> io::Result<()> {
    write!(output, " dec=ok type={}", Message(&header.icmp_type))?;
    let numbers = [
        ("checksum", u64::from(header.checksum)),
        ("header_len", header.header_len() as u64),
        ("type.header_len", header.icmp_type.header_len() as u64),
    ];
    write_numbers(output, &numbers)?;
    match header.fixed_payload_size() {
        Some(size) => write_number(output, "fixed_payload_size", size as u64)?,
        None => write_word(output, "fixed_payload_size", "-")?,
    }
    write_bytes(output, "bytes", header.to_bytes().as_slice())?;
    write_number(output, "rest_len", rest.len() as u64)?;
    write_bytes(output, "rest", rest)
}

/// Writes the message that a slice holds, and its getters.
fn write_slice<W: Write>(output: &mut W, packet: &[u8]) -> io::Result<()> {
    match Icmpv4Slice::from_slice(packet) {
        Ok(message) => write_slice_parts(output, &message),
        Err(error) => write_wrong_len(output, "slice", &error),
    }
}

/// Writes the parts of a message that a slice holds.
fn write_slice_parts<W: Write>(output: &mut W, message: &Icmpv4Slice) -> io::Result<()> {
    let icmp_type = message.icmp_type();
    write!(output, " slice=ok slice.type={}", Message(&icmp_type))?;
    let fields = [
        ("slice.type_u8", u64::from(message.type_u8())),
        ("slice.code_u8", u64::from(message.code_u8())),
        ("slice.checksum", u64::from(message.checksum())),
    ];
    write_numbers(output, &fields)?;
    write_bytes(output, "slice.bytes5to8", &message.bytes5to8())?;
    let lengths = [
        ("slice.header_len", message.header_len() as u64),
        ("slice.slice_len", message.slice().len() as u64),
        ("slice.payload_len", message.payload().len() as u64),
    ];
    write_numbers(output, &lengths)?;
    write_bytes(output, "slice.payload", message.payload())?;
    let header = message.header().to_bytes();
    write_bytes(output, "slice.header", header.as_slice())
}

/// Writes the checksums of a header that was read, the bytes after it being the payload.
fn write_checksums<W: Write>(
    output: &mut W,
    header: &Icmpv4Header,
    payload: &[u8],
) -> io::Result<()> {
    let checksum = header.icmp_type.calc_checksum(payload);
    write_number(output, "calc", u64::from(checksum))?;
    let with_checksum = Icmpv4Header::with_checksum(header.icmp_type.clone()?, payload);
    write_bytes(output, "with", with_checksum.to_bytes().as_slice())?;
    let mut updated = header.clone()?;
    updated.update_checksum(payload);
    write_bytes(output, "update", updated.to_bytes().as_slice())?;
    let new = Icmpv4Header::new(header.icmp_type.clone()?);
    write_bytes(output, "new", new.to_bytes().as_slice())
}

/// Writes a header made of the packet's first 8 bytes as they are.
fn write_unknown<W: Write>(output: &mut W, packet: &[u8]) -> io::Result<()> {
    let Some((bytes, payload)) = packet.split_first_chunk::<8>() else {
        return Ok(());
    };
    let unknown = Icmpv4Type::Unknown {
        type_u8: bytes[0],
        code_u8: bytes[1],
        bytes5to8: [bytes[4], bytes[5], bytes[6], bytes[7]],
    };
    let header = Icmpv4Header::with_checksum(unknown, payload);
    write_bytes(output, "unk.with", header.to_bytes().as_slice())
}

/// A message by its kind, with its fields, as `EchoRequest(1,2)`.
#[derive(Clone, Copy)]
struct Message<'a>(&'a Icmpv4Type);

impl<'a> fmt::Display for Message<'a> {
    fn fmt<W: fmt::Write>(&self, f: &mut fmt::Formatter<W>) -> fmt::Result {
        match self.0 {
            Icmpv4Type::Unknown {
                type_u8,
                code_u8,
                bytes5to8,
            } => write!(f, "Unknown({type_u8},{code_u8},{})", Hex(bytes5to8)),
            Icmpv4Type::EchoReply(echo) => write_echo(f, "EchoReply(", echo),
            Icmpv4Type::DestinationUnreachable(header) => write_unreachable(f, header),
            Icmpv4Type::Redirect(redirect) => {
                let address = Hex(&redirect.gateway_internet_address);
                write!(f, "Redirect({:?},{address})", redirect.code)
            }
            Icmpv4Type::EchoRequest(echo) => write_echo(f, "EchoRequest(", echo),
            Icmpv4Type::TimeExceeded(code) => write_code(f, "TimeExceeded", code),
            Icmpv4Type::ParameterProblem(header) => write_problem(f, header),
            Icmpv4Type::TimestampRequest(message) => {
                write_timestamps(f, "TimestampRequest(", message)
            }
            Icmpv4Type::TimestampReply(message) => write_timestamps(f, "TimestampReply(", message),
        }
    }
}

/// Writes why a destination is unreachable, as `DestinationUnreachable(Host)` or `DestinationUnreachable(FragmentationNeeded,1500)`.
fn write_unreachable<W: fmt::Write>(
    f: &mut fmt::Formatter<W>,
    header: &DestUnreachableHeader,
) -> fmt::Result {
    match header {
        DestUnreachableHeader::FragmentationNeeded { next_hop_mtu } => {
            let before = "DestinationUnreachable(FragmentationNeeded,";
            write_fields(f, before, &[u64::from(*next_hop_mtu)], ")")
        }
        header => write_code(f, "DestinationUnreachable", header),
    }
}

/// Writes a problem with a parameter, as `ParameterProblem(BadLength)` or `ParameterProblem(PointerIndicatesError,20)`.
fn write_problem<W: fmt::Write>(
    f: &mut fmt::Formatter<W>,
    header: &ParameterProblemHeader,
) -> fmt::Result {
    match header {
        ParameterProblemHeader::PointerIndicatesError(pointer) => {
            let before = "ParameterProblem(PointerIndicatesError,";
            write_fields(f, before, &[u64::from(*pointer)], ")")
        }
        header => write_code(f, "ParameterProblem", header),
    }
}

/// Writes the fields of a timestamp message: identifier, sequence number, originate, receive and transmit timestamp.
fn write_timestamps<W: fmt::Write>(
    f: &mut fmt::Formatter<W>,
    before: &str,
    message: &TimestampMessage,
) -> fmt::Result {
    let numbers = [
        u64::from(message.id),
        u64::from(message.seq),
        u64::from(message.originate_timestamp),
        u64::from(message.receive_timestamp),
        u64::from(message.transmit_timestamp),
    ];
    write_fields(f, before, &numbers, ")")
}
