//! Captures that tests of reports read, and streams that fail.

use crate::expect::{append, expect_ok, expect_some, joined, joined_in};
use capture_run::{Choice, Format, Lines, Parts, Times};
use capture_summary::BUSIEST;
use std::alloc::{AllocError, Global};
use std::io;
use std::io::{ErrorKind, Read, Write};
use std::process::Abort;

/// The whole report.
pub const ALL: Parts = Parts {
    choice: Choice::ALL,
    lines: Lines::All,
    times: Times::SinceFirst,
    verbose: false,
    summary: true,
    format: Format::Text,
    top: BUSIEST,
    timeline: false,
    interval: None,
    check: false,
    limit: None,
};

/// A UDP packet over IPv4, from 192.0.2.1, port 7, to 192.0.2.2, port 9, with a payload of 1 byte. Its checksum is right.
pub const UDP: [u8; 29] = [
    0x45, 0, 0, 29, 0, 1, 0x40, 0, 64, 17, 0, 0, 192, 0, 2, 1, 192, 0, 2, 2, // IPv4
    0, 7, 0, 9, 0, 9, 0x19, 0xC8, 0x62, // UDP
];

/// The bytes of a number, in little-endian or in big-endian order.
fn number_bytes(is_little_endian: bool, number: u32) -> [u8; 4] {
    if is_little_endian {
        number.to_le_bytes()
    } else {
        number.to_be_bytes()
    }
}

/// A capture of this link type with one packet, which follows these bytes of its link header.
pub fn capture(
    alloc: Global,
    is_little_endian: bool,
    link_type: u32,
    link: &[u8],
) -> Result<Vec<u8>, AllocError> {
    let len = u32::try_from(UDP.len() + link.len()).unwrap_or(u32::MAX);
    // Version 2.4, in two numbers of two bytes.
    let version = if is_little_endian { 0x4_0002 } else { 0x2_0004 };
    let number = [
        number_bytes(is_little_endian, 0xA1B2_C3D4),
        number_bytes(is_little_endian, version),
        number_bytes(is_little_endian, link_type),
        number_bytes(is_little_endian, 5),
        number_bytes(is_little_endian, 7),
        number_bytes(is_little_endian, len),
    ];
    // The magic number, the version, fields that are not read, the link type, the time and both lengths.
    let [magic, version, link_type, seconds, fraction, len] = &number;
    let parts: [&[u8]; 10] = [
        magic, version, &[0; 12], link_type, seconds, fraction, len, len, link, &UDP,
    ];
    joined_in(alloc, &parts)
}

/// A big-endian capture of raw IP of the UDP packet.
pub fn raw_capture(alloc: Global) -> Result<Vec<u8>, AllocError> {
    capture(alloc, false, 101, &[])
}

/// The capture of `raw_capture`, in which the byte at this place is replaced.
pub fn changed_capture(alloc: Global, place: usize, byte: u8) -> Result<Vec<u8>, AllocError> {
    let mut bytes = raw_capture(alloc)?;
    if let Some(changed) = bytes.as_mut_slice().get_mut(place) {
        *changed = byte;
    }
    Ok(bytes)
}

/// A capture of the UDP packet, and of another UDP packet to this port.
pub fn two_packets(rt: &(impl Abort + AllocGlobal), port: u8) -> Vec<u8> {
    let first = expect_ok(rt, raw_capture(rt.alloc()));
    let second = expect_ok(rt, changed_capture(rt.alloc(), 63, port));
    let packet = expect_some(rt, second.as_slice().get(24..));
    joined(rt, &[first.as_slice(), packet])
}

/// The header of a capture, and of a record whose packet has more bytes than are read.
static LONG_HEADERS: [u32; 10] = [0xA1B2_C3D4, 0x2_0004, 0, 0, 0, 101, 5, 7, 528_384, 528_384];

/// A capture with a packet that has more bytes than are read.
pub fn long_capture(rt: &(impl Abort + AllocGlobal)) -> Vec<u8> {
    let mut bytes = Vec::new(rt.alloc());
    for number in &LONG_HEADERS {
        append(rt, &mut bytes, &number.to_be_bytes());
    }
    append_zeros(rt, &mut bytes);
    bytes
}

/// Appends the bytes of the long packet.
fn append_zeros(rt: &impl Abort, bytes: &mut Vec<u8>) {
    for _ in 0..129 {
        append(rt, bytes, &[0; 4096]);
    }
}

/// The first bytes of a capture, or all bytes if it has fewer.
pub fn first_bytes(bytes: &[u8], len: usize) -> &[u8] {
    &bytes[..len.min(bytes.len())]
}

/// The section header block of a pcapng file, little-endian.
pub const SECTION: &[u8] =
    b"\x0A\x0D\x0D\x0A\x1C\0\0\0\x4D\x3C\x2B\x1A\x01\0\0\0\xFF\xFF\xFF\xFF\xFF\xFF\xFF\xFF\x1C\0\0\0";

/// The description of an interface of raw IP.
pub const RAW_IP: &[u8] = b"\x01\0\0\0\x14\0\0\0\x65\0\0\0\0\0\0\0\x14\0\0\0";

/// The description of an interface with the unknown link type 147 and timestamps in nanoseconds.
pub const OTHER_LINK: &[u8] =
    b"\x01\0\0\0\x1C\0\0\0\x93\0\0\0\0\0\0\0\x09\0\x01\0\x09\0\0\0\x1C\0\0\0";

/// A block of another type, which is skipped.
pub const OTHER_BLOCK: &[u8] = b"\x05\0\0\0\x0C\0\0\0\x0C\0\0\0";

/// The bytes before the UDP packet in an enhanced packet block of the first interface, 5 units after the beginning of 1970.
pub const ENHANCED: &[u8] = b"\x06\0\0\0\x40\0\0\0\0\0\0\0\0\0\0\0\x05\0\0\0\x1D\0\0\0\x1D\0\0\0";

/// The bytes before the UDP packet in an enhanced packet block of the second interface, a unit later.
pub const ENHANCED_OF_SECOND: &[u8] =
    b"\x06\0\0\0\x40\0\0\0\x01\0\0\0\0\0\0\0\x06\0\0\0\x1D\0\0\0\x1D\0\0\0";

/// The bytes after the UDP packet in an enhanced packet block: the padding, and the length again.
pub const ENHANCED_END: &[u8] = b"\0\0\0\x40\0\0\0";

/// The bytes before the UDP packet in a simple packet block.
pub const SIMPLE: &[u8] = b"\x03\0\0\0\x30\0\0\0\x1D\0\0\0";

pub const SIMPLE_END: &[u8] = b"\0\0\0\x30\0\0\0";

/// A reader that returns one byte per read. The read after `reads` reads fails, once.
#[derive(Drop)]
pub struct FaultyReader<'a> {
    pub rest: &'a [u8],
    pub reads: usize,
}

impl<'a> Read for FaultyReader<'a> {
    fn read(&mut self, buf: &mut [u8]) -> io::Result<usize> {
        if self.reads == 0 {
            self.reads = usize::MAX;
            return Err(io::Error::from(ErrorKind::ConnectionReset));
        }
        self.reads -= 1;
        match (self.rest.split_first(), buf.first_mut()) {
            (Some((byte, rest)), Some(place)) => {
                *place = *byte;
                self.rest = rest;
                Ok(1)
            }
            _ => Ok(0),
        }
    }
}

/// A writer that accepts one byte per write. The call after `calls` calls, which are writes and flushes, fails or accepts nothing, once.
#[derive(Drop)]
pub struct FaultyWriter {
    pub written: Vec<u8>,
    pub calls: usize,
    pub takes_nothing: bool,
}

impl FaultyWriter {
    fn call(&mut self) -> io::Result<()> {
        if self.calls == 0 {
            self.calls = usize::MAX;
            return Err(io::Error::from(ErrorKind::BrokenPipe));
        }
        self.calls -= 1;
        Ok(())
    }
}

impl Write for FaultyWriter {
    fn write(&mut self, buf: &[u8]) -> io::Result<usize> {
        if self.takes_nothing && self.calls == 0 {
            self.calls = usize::MAX;
            return Ok(0);
        }
        self.call()?;
        match buf.first() {
            Some(byte) => {
                self.written.push(*byte)?;
                Ok(1)
            }
            None => Ok(0),
        }
    }

    fn flush(&mut self) -> io::Result<()> {
        self.call()
    }
}
