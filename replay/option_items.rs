use crate::values::write_fields;
use etherparse_transport::{TcpOptionElement, TcpOptionReadError, TcpOptionsIterator};
use std::io::Write;
use std::{fmt, io};

/// What the iterator over TCP options gives: an element, as `M1460`, or a fault, as `unknown,7`.
#[derive(Clone, Copy)]
struct Item<'a>(&'a Result<TcpOptionElement, TcpOptionReadError>);

impl<'a> fmt::Display for Item<'a> {
    fn fmt<W: fmt::Write>(&self, f: &mut fmt::Formatter<W>) -> fmt::Result {
        match self.0 {
            Ok(element) => write_element(f, element),
            Err(fault) => write_fault(f, fault),
        }
    }
}

/// Writes an element: `N`, `M1460`, `W7`, `P`, `T1,2`, or `S1,2;3,4;-;-`.
fn write_element<W: fmt::Write>(
    f: &mut fmt::Formatter<W>,
    element: &TcpOptionElement,
) -> fmt::Result {
    match element {
        TcpOptionElement::Noop => f.write_str("N"),
        TcpOptionElement::MaximumSegmentSize(size) => write_fields(f, "M", &[u64::from(*size)], ""),
        TcpOptionElement::WindowScale(shift) => write_fields(f, "W", &[u64::from(*shift)], ""),
        TcpOptionElement::SelectiveAcknowledgementPermitted => f.write_str("P"),
        TcpOptionElement::SelectiveAcknowledgement(first, [second, third, fourth]) => {
            write_block(f, "S", Some(*first))?;
            write_block(f, ";", *second)?;
            write_block(f, ";", *third)?;
            write_block(f, ";", *fourth)
        }
        TcpOptionElement::Timestamp(value, echo) => {
            write_fields(f, "T", &[u64::from(*value), u64::from(*echo)], "")
        }
    }
}

/// Writes a text and a block of a selective acknowledgement, as `S1,2`, or `-` for no block.
fn write_block<W: fmt::Write>(
    f: &mut fmt::Formatter<W>,
    before: &str,
    block: Option<(u32, u32)>,
) -> fmt::Result {
    match block {
        Some((left, right)) => write_fields(f, before, &[u64::from(left), u64::from(right)], ""),
        None => write!(f, "{before}-"),
    }
}

/// Writes a fault with its fields: `eos,2,4,3`, `size,3,0` or `unknown,7`.
fn write_fault<W: fmt::Write>(
    f: &mut fmt::Formatter<W>,
    fault: &TcpOptionReadError,
) -> fmt::Result {
    match fault {
        TcpOptionReadError::UnexpectedEndOfSlice {
            option_id,
            expected_len,
            actual_len,
        } => write!(f, "eos,{option_id},{expected_len},{actual_len}"),
        TcpOptionReadError::UnexpectedSize { option_id, size } => {
            write_fields(f, "size,", &[u64::from(*option_id), u64::from(*size)], "")
        }
        TcpOptionReadError::UnknownId(id) => write_fields(f, "unknown,", &[u64::from(*id)], ""),
    }
}

/// Writes the items of TCP options: each item, `@`, how many bytes are left and `|`; after the last one `$` and how many bytes are
/// left then, and `!` where a further item comes after the end.
pub fn write_items<W: Write>(
    output: &mut W,
    key: &str,
    mut items: TcpOptionsIterator,
) -> io::Result<()> {
    write!(output, " {key}=")?;
    while let Some(item) = items.next() {
        write!(output, "{}@{}|", Item(&item), items.rest().len())?;
    }
    write!(output, "${}", items.rest().len())?;
    match items.next() {
        Some(_) => write!(output, "!"),
        None => Ok(()),
    }
}
