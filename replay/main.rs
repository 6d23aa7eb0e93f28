//! Answers lines of packets and of TCP option elements with all that the calls of `etherparse_transport` return for them.
//!
//! A line of standard input is a packet, as `pktprobe` reads it: a word, `udp`, `tcp`, `icmpv4` or `icmpv6`, one space, and the
//! bytes as hex digits (RFC 768, RFC 9293, RFC 792, RFC 4443); or it is the word `elements`, one space, and a list of TCP option
//! elements, one space between two. Each line is answered by one line of `key=value`, a key for each call: fields, errors with
//! all their fields, checksums, headers written, options read. Any other line is answered by `bad`.
//!
//! The stored input and output are what `etherparse` 0.19.0 itself returned, so that a run compares the two crates.
//! `docs/MIGRATION.md` says how they were made.
//!
//! ```text
//! $ echo 'elements N W7' | replay
//! res=ok options=01030307 len=4 data_offset=6 empty=0 items=N@3|W7@0|$0 set=ok header=000100020000000300000000600000040000000001030307
//! ```
#![tactic(auto)]

mod addresses;
mod elements;
mod icmpv4;
mod icmpv6;
mod option_items;
mod replies;
mod tcp;
mod udp;
mod values;

use std::io;
use std::io::{BufRead, BufReader, BufWriter, Write};

fn main(rt: HostRuntime) -> io::Result<()> {
    let mut output = BufWriter::new(rt.alloc(), rt.stdout())?;
    for line in BufReader::new(rt.alloc(), rt.stdin())?.split(rt.alloc(), b'\n') {
        replies::write_reply(rt.alloc(), line?.as_slice(), &mut output)?;
    }
    output.flush()
}
