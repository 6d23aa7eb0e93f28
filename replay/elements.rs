use crate::option_items::write_items;
use crate::values::{NoSpace, write_bytes, write_number, write_set};
use etherparse_transport::{TcpHeader, TcpOptionElement, TcpOptions};
use std::alloc::{AllocError, Global};
use std::io;
use std::io::Write;
use std::str::FromStr;

/// The options of the header into which the elements are set: a window scale of 7 and a byte that does nothing.
const OLD_OPTIONS: [u8; 4] = [3, 3, 7, 1];

/// The elements of a list with one space between two, or None where a word is no element. No text is no elements.
pub fn elements_of(alloc: Global, list: &str) -> Result<Option<Vec<TcpOptionElement>>, AllocError> {
    let mut elements = Vec::new(alloc);
    if list.is_empty() {
        return Ok(Some(elements));
    }
    for word in list.split(' ') {
        let Some(element) = element_of(word) else {
            return Ok(None);
        };
        elements.push(element)?;
    }
    Ok(Some(elements))
}

/// The element that a word is: `N`, `M1460`, `W7`, `P`, `T1,2`, or `S1,2;3,4;-;-`.
fn element_of(word: &str) -> Option<TcpOptionElement> {
    if word == "N" {
        return Some(TcpOptionElement::Noop);
    }
    if word == "P" {
        return Some(TcpOptionElement::SelectiveAcknowledgementPermitted);
    }
    if let Some(size) = word.strip_prefix("M") {
        return Some(TcpOptionElement::MaximumSegmentSize(number_of(size)?));
    }
    if let Some(shift) = word.strip_prefix("W") {
        return Some(TcpOptionElement::WindowScale(number_of(shift)?));
    }
    if let Some(times) = word.strip_prefix("T") {
        let (value, echo) = pair_of(times)?;
        return Some(TcpOptionElement::Timestamp(value, echo));
    }
    blocks_of(word.strip_prefix("S")?)
}

/// The selective acknowledgement of four blocks, the last three of which may be absent.
fn blocks_of(text: &str) -> Option<TcpOptionElement> {
    let (first, rest) = text.split_once(';')?;
    let (second, rest) = rest.split_once(';')?;
    let (third, fourth) = rest.split_once(';')?;
    let more = [block_of(second)?, block_of(third)?, block_of(fourth)?];
    Some(TcpOptionElement::SelectiveAcknowledgement(pair_of(first)?, more))
}

/// A block, as `1,2`, or `-` for none. None where the text is neither.
fn block_of(text: &str) -> Option<Option<(u32, u32)>> {
    if text == "-" {
        return Some(None);
    }
    Some(Some(pair_of(text)?))
}

/// Two numbers with a comma between them.
fn pair_of(text: &str) -> Option<(u32, u32)> {
    let (left, right) = text.split_once(',')?;
    Some((number_of(left)?, number_of(right)?))
}

/// The number that these decimal digits are.
fn number_of<N: FromStr>(digits: &str) -> Option<N>
where
    N::Err: Drop,
{
    if digits.bytes().all(|digit| digit.is_ascii_digit()) {
        digits.parse().ok()
    } else {
        None
    }
}

/// Writes what the calls return that write these elements.
pub fn write_elements<W: Write>(output: &mut W, elements: &[TcpOptionElement]) -> io::Result<()> {
    match TcpOptions::try_from_elements(elements) {
        Ok(options) => write_options(output, &options)?,
        Err(error) => write!(output, "res={}", NoSpace(&error))?,
    }
    let mut header = TcpHeader::new(1, 2, 3, 4);
    header.set_options_raw(&OLD_OPTIONS).unwrap();
    write_set(output, "set", header.set_options(elements))?;
    write_bytes(output, "header", header.to_bytes().as_slice())
}

/// Writes options that were made.
fn write_options<W: Write>(output: &mut W, options: &TcpOptions) -> io::Result<()> {
    write!(output, "res=ok")?;
    write_bytes(output, "options", options.as_slice())?;
    write_number(output, "len", options.len() as u64)?;
    write_number(output, "data_offset", u64::from(options.data_offset()))?;
    write_number(output, "empty", u64::from(options.is_empty()))?;
    write_items(output, "items", options.elements_iter())
}
