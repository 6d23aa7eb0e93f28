// SPDX-FileCopyrightText: 2026 The etherparse_transport developers
// SPDX-License-Identifier: MIT OR Apache-2.0
//! Safe calls of the library `etherparse_transport` for C: UDP, TCP, ICMPv4, ICMPv6 and the Internet checksum.
//!
//! A packet is read from a `&[u8]`, which begins where the transport header begins and ends where the IP packet ends, as [`ip`] finds
//! it. What is read borrows its payload and its options from these bytes. A call that can refuse returns a [`Result`], whose [`Error`]
//! says why.
//!
//! A `&[u8]` is never null, a `&mut` overlaps nothing, and each struct is set before it is passed. That is all that the library asks
//! of a caller, so that no function here is `unsafe`. The calls as they are, are in [`sys`].
//!
//! ```
//! use etherparse_transport_c::{Verdict, udp};
//!
//! let bytes = [0x00, 0x15, 0x04, 0xD2, 0x00, 0x0B, 0xB3, 0x3A, b'a', b'b', b'c'];
//! let packet = udp::Packet::read(&bytes)?;
//! assert_eq!((packet.header.source_port, packet.payload), (21, b"abc".as_slice()));
//! assert_eq!(udp::test_checksum_ipv4(&bytes, [192, 168, 1, 1], [192, 168, 1, 2])?, Verdict::Right);
//! # Ok::<(), etherparse_transport_c::Error>(())
//! ```
//!
//! What was read can't outlive its bytes:
//!
//! ```compile_fail,E0597
//! let packet;
//! {
//!     let bytes = [0; 8];
//!     packet = etherparse_transport_c::udp::Packet::read(&bytes);
//! }
//! assert!(packet.is_ok());
//! ```
#![no_std]
#![deny(missing_docs, unsafe_op_in_unsafe_fn)]

pub mod canonical;
pub mod checksum;
mod error;
pub mod icmpv4;
pub mod icmpv6;
pub mod ip;
pub mod tcp;
mod text;
pub mod udp;

pub use error::{Error, ErrorKind, Layer, LenSource, ValueType};
pub use etherparse_transport_sys as sys;
pub use text::Text;

/// What a test of a checksum says.
#[derive(Clone, Copy, Debug, PartialEq, Eq, Hash)]
pub enum Verdict {
    /// The checksum is right.
    Right,
    /// The checksum is wrong.
    Wrong,
    /// The checksum field of a UDP packet is 0, which says that there is none.
    Absent,
}

/// The version of the interface that the library has: major times 65536, minor times 256, and patch.
///
/// ```
/// assert_eq!(etherparse_transport_c::version() >> 16, etherparse_transport_c::sys::VERSION_MAJOR);
/// ```
pub fn version() -> u32 {
    // SAFETY: the call takes nothing.
    unsafe { sys::etherparse_version() }
}

/// What a call made, or why it refused. Where the call succeeds it leaves the error as it was.
fn answer<T>(status: u32, made: T, error: sys::Error) -> Result<T, Error> {
    if status == sys::OK { Ok(made) } else { Err(Error(error)) }
}

/// The answer of a test of a checksum.
fn verdict(status: u32, error: sys::Error) -> Result<Verdict, Error> {
    match status {
        sys::OK => Ok(Verdict::Right),
        sys::STATUS_CHECKSUM_WRONG => Ok(Verdict::Wrong),
        sys::STATUS_CHECKSUM_ABSENT => Ok(Verdict::Absent),
        _ => Err(Error(error)),
    }
}
