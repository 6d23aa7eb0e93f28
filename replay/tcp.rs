use crate::addresses::{
    IPV4_DESTINATION, IPV4_SOURCE, IPV6_DESTINATION, IPV6_SOURCE, ipv4_header, ipv4_packet,
    ipv6_header, ipv6_packet,
};
use crate::option_items::write_items;
use crate::values::{
    NoSpace, write_bytes, write_checksum, write_number, write_numbers, write_refused_header,
    write_set, write_value, write_word,
};
use etherparse_transport::{
    Ipv4HeaderSlice, Ipv6HeaderSlice, TcpHeader, TcpHeaderSlice, TcpOptionWriteError, TcpOptions,
    TcpOptionsIterator,
};
use std::io;
use std::io::{ErrorKind, Write};

/// Writes what the calls of TCP return for a packet.
pub fn write_packet<W: Write>(output: &mut W, packet: &[u8]) -> io::Result<()> {
    let decoded = TcpHeader::from_slice(packet);
    match &decoded {
        Ok((header, rest)) => write_header(output, header, rest)?,
        Err(error) => write_refused_header(output, "dec", error)?,
    }
    let slice = TcpHeaderSlice::from_slice(packet);
    match &slice {
        Ok(header) => write_slice(output, header)?,
        Err(error) => write_refused_header(output, "slice", error)?,
    }
    if let (Ok((header, rest)), Ok(slice)) = (&decoded, &slice) {
        write_checksums(output, header, rest)?;
        write_slice_checksums(output, slice, rest)?;
        write_rest_as_options(output, header, rest)?;
    }
    write_packet_as_options(output, packet)
}

/// Writes a header that was read, and the bytes after it.
fn write_header<W: Write>(output: &mut W, header: &TcpHeader, rest: &[u8]) -> io::Result<()> {
    write_word(output, "dec", "ok")?;
    write_fields(output, header)?;
    write_bytes(output, "options", header.options())?;
    let lengths = [
        ("options_len", header.options_len() as u64),
        ("header_len", header.header_len() as u64),
        ("header_len_u16", u64::from(header.header_len_u16())),
    ];
    write_numbers(output, &lengths)?;
    write_bytes(output, "bytes", header.to_bytes().as_slice())?;
    write_number(output, "rest_len", rest.len() as u64)?;
    write_bytes(output, "rest", rest)?;
    write_items(output, "items", header.options_iterator())
}

/// Writes the fields of a header before its options.
fn write_fields<W: Write>(output: &mut W, header: &TcpHeader) -> io::Result<()> {
    let numbers = [
        ("source_port", u64::from(header.source_port)),
        ("destination_port", u64::from(header.destination_port)),
        ("sequence_number", u64::from(header.sequence_number)),
        (
            "acknowledgment_number",
            u64::from(header.acknowledgment_number),
        ),
        ("data_offset", u64::from(header.data_offset())),
        ("ns", u64::from(header.ns)),
        ("fin", u64::from(header.fin)),
        ("syn", u64::from(header.syn)),
        ("rst", u64::from(header.rst)),
        ("psh", u64::from(header.psh)),
        ("ack", u64::from(header.ack)),
        ("urg", u64::from(header.urg)),
        ("ece", u64::from(header.ece)),
        ("cwr", u64::from(header.cwr)),
        ("window_size", u64::from(header.window_size)),
        ("checksum", u64::from(header.checksum)),
        ("urgent_pointer", u64::from(header.urgent_pointer)),
    ];
    write_numbers(output, &numbers)
}

/// Writes the header's bytes that a slice holds, and its getters.
fn write_slice<W: Write>(output: &mut W, header: &TcpHeaderSlice) -> io::Result<()> {
    write_word(output, "slice", "ok")?;
    write_bytes(output, "slice.slice", header.slice())?;
    write_slice_fields(output, header)?;
    write_bytes(output, "slice.options", header.options())?;
    let bytes = header.to_header().to_bytes();
    write_bytes(output, "slice.to_header", bytes.as_slice())?;
    write_items(output, "slice.items", header.options_iterator())
}

/// Writes the getters of a slice before its options.
fn write_slice_fields<W: Write>(output: &mut W, header: &TcpHeaderSlice) -> io::Result<()> {
    let numbers = [
        ("slice.source_port", u64::from(header.source_port())),
        (
            "slice.destination_port",
            u64::from(header.destination_port()),
        ),
        ("slice.sequence_number", u64::from(header.sequence_number())),
        (
            "slice.acknowledgment_number",
            u64::from(header.acknowledgment_number()),
        ),
        ("slice.data_offset", u64::from(header.data_offset())),
        ("slice.ns", u64::from(header.ns())),
        ("slice.fin", u64::from(header.fin())),
        ("slice.syn", u64::from(header.syn())),
        ("slice.rst", u64::from(header.rst())),
        ("slice.psh", u64::from(header.psh())),
        ("slice.ack", u64::from(header.ack())),
        ("slice.urg", u64::from(header.urg())),
        ("slice.ece", u64::from(header.ece())),
        ("slice.cwr", u64::from(header.cwr())),
        ("slice.window_size", u64::from(header.window_size())),
        ("slice.checksum", u64::from(header.checksum())),
        ("slice.urgent_pointer", u64::from(header.urgent_pointer())),
    ];
    write_numbers(output, &numbers)
}

/// Writes the checksums of a header that was read, the bytes after it being the payload.
fn write_checksums<W: Write>(output: &mut W, header: &TcpHeader, payload: &[u8]) -> io::Result<()> {
    let raw = header.calc_checksum_ipv4_raw(IPV4_SOURCE, IPV4_DESTINATION, payload);
    write_checksum(output, "calc4_raw", raw)?;
    write_checksum(
        output,
        "calc4",
        header.calc_checksum_ipv4(&ipv4_header(), payload),
    )?;
    let raw = header.calc_checksum_ipv6_raw(IPV6_SOURCE, IPV6_DESTINATION, payload);
    write_checksum(output, "calc6_raw", raw)?;
    write_checksum(
        output,
        "calc6",
        header.calc_checksum_ipv6(&ipv6_header(), payload),
    )
}

/// Writes the same checksums of a slice.
fn write_slice_checksums<W: Write>(
    output: &mut W,
    header: &TcpHeaderSlice,
    payload: &[u8],
) -> io::Result<()> {
    let (ipv4, ipv6) = (ipv4_packet(), ipv6_packet());
    let ipv4 = Ipv4HeaderSlice::from_slice(&ipv4).ok_or(ErrorKind::InvalidData)?;
    let ipv6 = Ipv6HeaderSlice::from_slice(&ipv6).ok_or(ErrorKind::InvalidData)?;
    let raw = header.calc_checksum_ipv4_raw(IPV4_SOURCE, IPV4_DESTINATION, payload);
    write_checksum(output, "slice.calc4_raw", raw)?;
    write_checksum(
        output,
        "slice.calc4",
        header.calc_checksum_ipv4(&ipv4, payload),
    )?;
    let raw = header.calc_checksum_ipv6_raw(IPV6_SOURCE, IPV6_DESTINATION, payload);
    write_checksum(output, "slice.calc6_raw", raw)?;
    write_checksum(
        output,
        "slice.calc6",
        header.calc_checksum_ipv6(&ipv6, payload),
    )
}

/// Writes the bytes after the header taken as options, alone and set in a copy of the header.
fn write_rest_as_options<W: Write>(
    output: &mut W,
    header: &TcpHeader,
    rest: &[u8],
) -> io::Result<()> {
    write_made(output, "try_rest", &TcpOptions::try_from_slice(rest))?;
    let mut changed = header.clone()?;
    write_set(output, "set_raw", changed.set_options_raw(rest))?;
    write_bytes(output, "set_raw.bytes", changed.to_bytes().as_slice())
}

/// Writes all bytes of a packet taken as options.
fn write_packet_as_options<W: Write>(output: &mut W, packet: &[u8]) -> io::Result<()> {
    let options = TcpOptions::try_from_slice(packet);
    write_made(output, "try_all", &options)?;
    let key = "try_all.data_offset";
    match &options {
        Ok(options) => write_number(output, key, u64::from(options.data_offset()))?,
        Err(_) => write_word(output, key, "-")?,
    }
    write_items(output, "items_all", TcpOptionsIterator::from_slice(packet))
}

/// Writes the bytes of options that were made, or the room that they need.
fn write_made<W: Write>(
    output: &mut W,
    key: &str,
    made: &Result<TcpOptions, TcpOptionWriteError>,
) -> io::Result<()> {
    match made {
        Ok(options) => write_bytes(output, key, options.as_slice()),
        Err(error) => write_value(output, key, &NoSpace(error)),
    }
}
