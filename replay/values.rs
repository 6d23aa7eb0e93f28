//! How values are written: after a space, a key and `=`.

use etherparse_transport::err::tcp::{HeaderError, HeaderSliceError};
use etherparse_transport::err::{LenError, ValueTooBigError};
use etherparse_transport::{IcmpEchoHeader, TcpOptionWriteError};
use std::io::Write;
use std::{fmt, io};

/// Writes a value.
pub fn write_value<W: Write, V: fmt::Display>(
    output: &mut W,
    key: &str,
    value: &V,
) -> io::Result<()> {
    write!(output, " {key}={value}")
}

/// Writes a word.
pub fn write_word<W: Write>(output: &mut W, key: &str, word: &str) -> io::Result<()> {
    write_value(output, key, &word)
}

/// Writes a number.
pub fn write_number<W: Write>(output: &mut W, key: &str, number: u64) -> io::Result<()> {
    write_value(output, key, &number)
}

/// Writes numbers, each with its key.
pub fn write_numbers<W: Write>(output: &mut W, numbers: &[(&str, u64)]) -> io::Result<()> {
    for (key, number) in numbers {
        write_number(output, key, *number)?;
    }
    Ok(())
}

/// Writes bytes as lower case hex digits, or `-` for none.
pub fn write_bytes<W: Write>(output: &mut W, key: &str, bytes: &[u8]) -> io::Result<()> {
    write_value(output, key, &Hex(bytes))
}

/// Writes a checksum, or the fields of the refused payload.
pub fn write_checksum<W: Write>(
    output: &mut W,
    key: &str,
    checksum: Result<u16, ValueTooBigError<usize>>,
) -> io::Result<()> {
    match checksum {
        Ok(checksum) => write_number(output, key, u64::from(checksum)),
        Err(error) => write_too_big(output, key, &error),
    }
}

/// Writes the fields of a refused length: `len,8,7,Slice,UdpHeader,0`.
pub fn write_wrong_len<W: Write>(output: &mut W, key: &str, error: &LenError) -> io::Result<()> {
    write!(
        output,
        " {key}=len,{},{},{:?},{:?},{}",
        error.required_len, error.len, error.len_source, error.layer, error.layer_start_offset
    )
}

/// Writes the fields of a refused TCP header: the fields of a refused length, or `offset,4`.
pub fn write_refused_header<W: Write>(
    output: &mut W,
    key: &str,
    error: &HeaderSliceError,
) -> io::Result<()> {
    match error {
        HeaderSliceError::Len(error) => write_wrong_len(output, key, error),
        HeaderSliceError::Content(HeaderError::DataOffsetTooSmall { data_offset }) => {
            write!(output, " {key}=offset,{data_offset}")
        }
    }
}

/// Writes the fields of a refused payload: `big,65528,65527,UdpPayloadLengthIpv4`.
pub fn write_too_big<W: Write>(
    output: &mut W,
    key: &str,
    error: &ValueTooBigError<usize>,
) -> io::Result<()> {
    write!(
        output,
        " {key}=big,{},{},{:?}",
        error.actual, error.max_allowed, error.value_type
    )
}

/// Writes whether options were set: `ok`, or the room that they need.
pub fn write_set<W: Write>(
    output: &mut W,
    key: &str,
    set: Result<(), TcpOptionWriteError>,
) -> io::Result<()> {
    match set {
        Ok(()) => write_word(output, key, "ok"),
        Err(error) => write_value(output, key, &NoSpace(&error)),
    }
}

/// The room that refused options need: `space,41`.
#[derive(Clone, Copy)]
pub struct NoSpace<'a>(pub &'a TcpOptionWriteError);

impl<'a> fmt::Display for NoSpace<'a> {
    fn fmt<W: fmt::Write>(&self, f: &mut fmt::Formatter<W>) -> fmt::Result {
        match self.0 {
            TcpOptionWriteError::NotEnoughSpace(len) => write!(f, "space,{len}"),
        }
    }
}

/// Bytes as lower case hex digits, or `-` for none.
#[derive(Clone, Copy)]
pub struct Hex<'a>(pub &'a [u8]);

impl<'a> fmt::Display for Hex<'a> {
    fn fmt<W: fmt::Write>(&self, f: &mut fmt::Formatter<W>) -> fmt::Result {
        if self.0.is_empty() {
            return f.write_str("-");
        }
        for byte in self.0 {
            write!(f, "{byte:02x}")?;
        }
        Ok(())
    }
}

/// Writes numbers with commas between them, the text before the first one and the text after the last one, as in `EchoRequest(1,2)`.
pub fn write_fields<W: fmt::Write>(
    f: &mut fmt::Formatter<W>,
    before: &str,
    numbers: &[u64],
    after: &str,
) -> fmt::Result {
    let mut separator = before;
    for number in numbers {
        write!(f, "{separator}{number}")?;
        separator = ",";
    }
    f.write_str(after)
}

/// Writes the name of a message and its code, as in `TimeExceeded(TtlExceededInTransit)`.
pub fn write_code<W: fmt::Write, C: fmt::Debug>(
    f: &mut fmt::Formatter<W>,
    name: &str,
    code: &C,
) -> fmt::Result {
    write!(f, "{name}({code:?})")
}

/// Writes the name of an echo message, its identifier and its sequence number, as in `EchoReply(1,2)`.
pub fn write_echo<W: fmt::Write>(
    f: &mut fmt::Formatter<W>,
    before: &str,
    echo: &IcmpEchoHeader,
) -> fmt::Result {
    write_fields(f, before, &[u64::from(echo.id), u64::from(echo.seq)], ")")
}
