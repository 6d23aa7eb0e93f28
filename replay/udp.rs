use crate::addresses::{
    IPV4_DESTINATION, IPV4_SOURCE, IPV6_DESTINATION, IPV6_SOURCE, ipv4_header, ipv6_header,
};
use crate::values::{
    Hex, write_bytes, write_checksum, write_number, write_numbers, write_too_big, write_word,
    write_wrong_len,
};
use etherparse_transport::err::{LenError, ValueTooBigError};
use etherparse_transport::{UdpHeader, UdpHeaderSlice, UdpSlice};
use std::io;
use std::io::Write;

/// Writes what the calls of UDP return for a packet.
pub fn write_packet<W: Write>(output: &mut W, packet: &[u8]) -> io::Result<()> {
    let decoded = UdpHeader::from_slice(packet);
    match &decoded {
        Ok((header, rest)) => write_header(output, header, rest)?,
        Err(error) => write_wrong_len(output, "dec", error)?,
    }
    if let Some(header_bytes) = packet.first_chunk::<8>() {
        let header = UdpHeader::from_bytes(*header_bytes);
        write_bytes(output, "from_bytes", &header.to_bytes())?;
    }
    match UdpHeaderSlice::from_slice(packet) {
        Ok(header) => write_header_slice(output, &header)?,
        Err(error) => write_wrong_len(output, "hslice", &error)?,
    }
    write_slice(output, "strict", UdpSlice::from_slice(packet))?;
    write_slice(output, "lax", UdpSlice::from_slice_lax(packet))?;
    match &decoded {
        Ok((header, rest)) => write_checksums(output, header, rest),
        Err(_) => Ok(()),
    }
}

/// Writes a header that was read, and the bytes after it.
fn write_header<W: Write>(output: &mut W, header: &UdpHeader, rest: &[u8]) -> io::Result<()> {
    write_word(output, "dec", "ok")?;
    let numbers = [
        ("source_port", u64::from(header.source_port)),
        ("destination_port", u64::from(header.destination_port)),
        ("length", u64::from(header.length)),
        ("checksum", u64::from(header.checksum)),
        ("header_len", header.header_len() as u64),
        ("header_len_u16", u64::from(header.header_len_u16())),
    ];
    write_numbers(output, &numbers)?;
    write_bytes(output, "bytes", &header.to_bytes())?;
    write_number(output, "rest_len", rest.len() as u64)?;
    write_bytes(output, "rest", rest)
}

/// Writes the header's bytes that a slice holds, and its getters.
fn write_header_slice<W: Write>(output: &mut W, header: &UdpHeaderSlice) -> io::Result<()> {
    write_word(output, "hslice", "ok")?;
    write_bytes(output, "hslice.slice", header.slice())?;
    let numbers = [
        ("hslice.source_port", u64::from(header.source_port())),
        (
            "hslice.destination_port",
            u64::from(header.destination_port()),
        ),
        ("hslice.length", u64::from(header.length())),
        ("hslice.checksum", u64::from(header.checksum())),
    ];
    write_numbers(output, &numbers)?;
    write_bytes(output, "hslice.to_header", &header.to_header().to_bytes())
}

/// Writes the packet that a slice holds, strict or lax, and its getters.
fn write_slice<W: Write>(
    output: &mut W,
    form: &str,
    decoded: Result<UdpSlice, LenError>,
) -> io::Result<()> {
    match decoded {
        Ok(packet) => {
            write_word(output, form, "ok")?;
            write_slice_parts(output, form, &packet)?;
            write_slice_fields(output, form, &packet)
        }
        Err(error) => write_wrong_len(output, form, &error),
    }
}

/// Writes the parts of a packet that a slice holds.
fn write_slice_parts<W: Write>(output: &mut W, form: &str, packet: &UdpSlice) -> io::Result<()> {
    write_part(output, form, "slice_len", packet.slice().len() as u64)?;
    write_part_bytes(output, form, "header_slice", packet.header_slice())?;
    write_part(output, form, "payload_len", packet.payload().len() as u64)?;
    write_part_bytes(output, form, "payload", packet.payload())?;
    let len_source = packet.payload_len_source();
    write!(output, " {form}.payload_len_source={len_source:?}")
}

/// Writes the header's fields of a packet that a slice holds.
fn write_slice_fields<W: Write>(output: &mut W, form: &str, packet: &UdpSlice) -> io::Result<()> {
    let numbers = [
        ("source_port", u64::from(packet.source_port())),
        ("destination_port", u64::from(packet.destination_port())),
        ("length", u64::from(packet.length())),
        ("checksum", u64::from(packet.checksum())),
        ("header_len", packet.header_len() as u64),
        ("header_len_u16", u64::from(packet.header_len_u16())),
    ];
    for (part, number) in &numbers {
        write_part(output, form, part, *number)?;
    }
    write_part_bytes(output, form, "to_header", &packet.to_header().to_bytes())
}

/// Writes a number with a key such as `strict.length`.
fn write_part<W: Write>(output: &mut W, form: &str, part: &str, number: u64) -> io::Result<()> {
    write!(output, " {form}.{part}={number}")
}

/// Writes bytes with a key such as `strict.payload`.
fn write_part_bytes<W: Write>(
    output: &mut W,
    form: &str,
    part: &str,
    bytes: &[u8],
) -> io::Result<()> {
    write!(output, " {form}.{part}={}", Hex(bytes))
}

/// Writes the checksums of a header that was read, and new headers of its ports, the bytes after it being the payload.
fn write_checksums<W: Write>(output: &mut W, header: &UdpHeader, payload: &[u8]) -> io::Result<()> {
    let (ipv4, ipv6) = (ipv4_header(), ipv6_header());
    let raw = header.calc_checksum_ipv4_raw(IPV4_SOURCE, IPV4_DESTINATION, payload);
    write_checksum(output, "calc4_raw", raw)?;
    write_checksum(output, "calc4", header.calc_checksum_ipv4(&ipv4, payload))?;
    let raw = header.calc_checksum_ipv6_raw(IPV6_SOURCE, IPV6_DESTINATION, payload);
    write_checksum(output, "calc6_raw", raw)?;
    write_checksum(output, "calc6", header.calc_checksum_ipv6(&ipv6, payload))?;
    let (source, destination) = (header.source_port, header.destination_port);
    let with_checksum = UdpHeader::with_ipv4_checksum(source, destination, &ipv4, payload);
    write_made(output, "with4", with_checksum)?;
    let with_checksum = UdpHeader::with_ipv6_checksum(source, destination, &ipv6, payload);
    write_made(output, "with6", with_checksum)?;
    let without_checksum = UdpHeader::without_ipv4_checksum(source, destination, payload.len());
    write_made(output, "without4", without_checksum)
}

/// Writes the bytes of a header that was made, or the fields of the refused payload.
fn write_made<W: Write>(
    output: &mut W,
    key: &str,
    made: Result<UdpHeader, ValueTooBigError<usize>>,
) -> io::Result<()> {
    match made {
        Ok(header) => write_bytes(output, key, &header.to_bytes()),
        Err(error) => write_too_big(output, key, &error),
    }
}
