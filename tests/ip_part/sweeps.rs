//! Reads IPv4 packets with every header length and every total length up to 70, and IPv6 packets with every chain of up to three extension
//! headers. The results are compared with plain functions, which were written from the format tables, not from the library.

use crate::expect::{bytes_between, bytes_from, bytes_to, expect_bytes, expect_equal, expect_ok};
use etherparse_transport::IpNumber;
use etherparse_transport::ip::{IpError, transport_in_ip, transport_in_ip_lax};
use std::process::Abort;

/// Returns the start and the end of the payload of an IPv4 packet, or the error. `words` is the number of words in the header, and `len` is
/// the number of bytes that are present.
fn ipv4_payload(words: usize, total_len: usize, len: usize) -> Result<(usize, usize), IpError> {
    let header_len = words.saturating_mul(4);
    if len < 20 {
        let required_len = if len == 0 { 1 } else { 20 };
        return Err(IpError::HeaderCutOff { required_len, len });
    }
    if words < 5 {
        return Err(IpError::HeaderLength { header_len });
    }
    if len < header_len {
        return Err(IpError::HeaderCutOff {
            required_len: header_len,
            len,
        });
    }
    if total_len < header_len {
        return Err(IpError::TotalLength {
            total_len,
            header_len,
        });
    }
    if total_len > len {
        return Err(IpError::PacketCutOff {
            required_len: total_len,
            len,
        });
    }
    Ok((header_len, total_len))
}

/// The results of the strict and the lax call for an IPv4 packet. Both calls accept it, both refuse it, or only the lax call accepts it. In
/// the last case it is cut off, or states no length.
enum Outcome {
    Accepted,
    CutOff,
    WithoutLength,
    Refused,
}

/// Tests both calls for an IPv4 packet with this number of words in its header and this total length.
fn ipv4_outcome(rt: &impl Abort, packet: &[u8], words: usize, total_len: usize) -> Outcome {
    let strict = transport_in_ip(packet);
    let lax = transport_in_ip_lax(packet);
    let error = match ipv4_payload(words, total_len, packet.len()) {
        Ok((start, end)) => {
            let payload = expect_ok(rt, strict).payload;
            expect_bytes(rt, payload, bytes_between(rt, packet, start, end));
            expect_equal(rt, &lax, &strict);
            return Outcome::Accepted;
        }
        Err(error) => error,
    };
    expect_equal(rt, &strict.err(), &Some(error));
    let (is_cut_off, start) = match error {
        IpError::PacketCutOff { .. } => (true, words.saturating_mul(4)),
        IpError::TotalLength {
            total_len: 0,
            header_len,
        } => (false, header_len),
        _ => {
            expect_equal(rt, &lax.err(), &Some(error));
            return Outcome::Refused;
        }
    };
    let found = expect_ok(rt, lax);
    expect_bytes(rt, found.payload, bytes_from(rt, packet, start));
    if is_cut_off {
        expect_equal(rt, &found.is_cut_off, &true);
        Outcome::CutOff
    } else {
        expect_equal(rt, &found.is_length_missing, &true);
        Outcome::WithoutLength
    }
}

#[test]
fn every_total_length_is_kept_or_refused(rt: HostRuntime) {
    let (mut accepted, mut cut_off, mut without_length, mut refused) = (
        0usize, 0usize, 0usize, 0usize,
    );
    let mut bytes = [7; 64];
    for words in 0..16u8 {
        bytes[0] = words | 0x40;
        bytes[2] = 0;
        for total_len in 0..71u8 {
            bytes[3] = total_len;
            for len in 0..65usize {
                let packet = bytes_to(&rt, &bytes, len);
                let outcome = ipv4_outcome(&rt, packet, usize::from(words), usize::from(total_len));
                match outcome {
                    Outcome::Accepted => accepted = accepted.saturating_add(1),
                    Outcome::CutOff => cut_off = cut_off.saturating_add(1),
                    Outcome::WithoutLength => without_length = without_length.saturating_add(1),
                    Outcome::Refused => refused = refused.saturating_add(1),
                }
            }
        }
    }
    expect_equal(
        &rt,
        &(accepted, cut_off, without_length, refused),
        &(4_455, 5_830, 275, 63_280),
    );
}

/// An extension header: its number, its length byte, its length in bytes, and whether it is the header of a later fragment.
#[derive(Clone, Copy)]
struct Extension {
    number: u8,
    length_byte: u8,
    len: usize,
    is_later: bool,
}

/// Returns an extension header that does not make the packet a later fragment.
fn header(number: u8, length_byte: u8, len: usize) -> Extension {
    Extension {
        number,
        length_byte,
        len,
        is_later: false,
    }
}

/// Returns extension headers of all kinds, with 8 and with 16 bytes.
fn kinds() -> [Extension; 12] {
    [
        header(0, 0, 8),
        header(0, 1, 16),
        header(43, 0, 8),
        header(43, 1, 16),
        header(60, 0, 8),
        header(60, 1, 16),
        header(135, 0, 8),
        header(135, 1, 16),
        header(51, 0, 8),
        header(51, 2, 16),
        header(44, 9, 8),
        Extension {
            is_later: true,
            ..header(44, 9, 8)
        },
    ]
}

/// Returns the number of the extension header at this place of a chain. After the chain it is the number of UDP.
fn number_at(chain: &[Extension], place: usize) -> u8 {
    match chain.get(place) {
        Some(extension) => extension.number,
        None => 17,
    }
}

/// Writes a byte, if there is a byte at this place.
fn write(bytes: &mut [u8; 92], place: usize, value: u8) {
    if place < 92 {
        bytes[place] = value;
    }
}

/// Returns an IPv6 packet with this chain and a payload of four bytes, and the length of the packet.
fn ipv6_packet(chain: &[Extension]) -> ([u8; 92], usize) {
    let mut bytes = [0; 92];
    bytes[0] = 0x60;
    bytes[6] = number_at(chain, 0);
    let mut start = 40usize;
    for (place, extension) in chain.iter().enumerate() {
        write(&mut bytes, start, number_at(chain, place.saturating_add(1)));
        write(&mut bytes, start.saturating_add(1), extension.length_byte);
        if extension.is_later {
            write(&mut bytes, start.saturating_add(3), 8);
        }
        start = start.saturating_add(extension.len);
    }
    (bytes, start.saturating_add(4))
}

/// Returns the protocol of a packet with this chain, and the start of its payload, if the IP header counts this many bytes.
fn ipv6_payload(chain: &[Extension], counted_len: usize) -> Result<(u8, usize), IpError> {
    if counted_len == 40 && number_at(chain, 0) == 0 {
        return Err(IpError::JumboPayloadMissing);
    }
    let mut start = 40usize;
    for (place, extension) in chain.iter().enumerate() {
        let len = counted_len.saturating_sub(start);
        let required_len = if len < 8 { 8 } else { extension.len };
        if len < required_len {
            return Err(IpError::ExtensionHeaderCutOff {
                protocol: IpNumber(extension.number),
                offset: start,
                required_len,
                len,
            });
        }
        start = start.saturating_add(extension.len);
        if extension.is_later {
            return Ok((number_at(chain, place.saturating_add(1)), start));
        }
    }
    Ok((17, start))
}

/// Tests both calls for a packet with this chain, whose IP header counts `counted_len` bytes. Returns whether the packet is accepted.
fn is_accepted(rt: &impl Abort, packet: &[u8], chain: &[Extension], counted_len: usize) -> bool {
    let found = transport_in_ip(packet);
    let lax = transport_in_ip_lax(packet);
    if counted_len == 40 {
        let all = match ipv6_payload(chain, packet.len()) {
            Ok((_, start)) => packet.get(start..),
            Err(_) => None,
        };
        let kept = match lax {
            Ok(transport) if transport.is_length_missing => Some(transport.payload),
            _ => None,
        };
        expect_equal(rt, &kept, &all);
    } else {
        expect_equal(rt, &lax, &found);
    }
    match (found, ipv6_payload(chain, counted_len)) {
        (Ok(transport), Ok((protocol, start))) => {
            expect_equal(rt, &transport.protocol, &IpNumber(protocol));
            expect_equal(
                rt,
                &Some(transport.payload),
                &packet.get(start..counted_len),
            );
            let is_later = chain.iter().any(|extension| extension.is_later);
            let flags = (transport.is_fragment, transport.is_later_fragment);
            expect_equal(rt, &flags, &(is_later, is_later));
            true
        }
        (found, expected) => {
            expect_equal(rt, &found.err(), &expected.err());
            false
        }
    }
}

#[test]
fn every_chain_is_passed_over_or_refused(rt: HostRuntime) {
    let kinds = kinds();
    let mut accepted = 0usize;
    let mut refused = 0usize;
    for (count, codes) in [(0usize, 1usize), (1, 12), (2, 144), (3, 1728)] {
        for code in 0..codes {
            let all = [
                kinds[code % 12],
                kinds[code / 12 % 12],
                kinds[code / 144 % 12],
            ];
            let chain = all.get(..count).unwrap_or(&[]);
            let (mut bytes, len) = ipv6_packet(chain);
            for payload_length in 0..53u8 {
                let counted_len = usize::from(payload_length).saturating_add(40);
                if counted_len <= len {
                    bytes[5] = payload_length;
                    if is_accepted(&rt, &bytes, chain, counted_len) {
                        accepted = accepted.saturating_add(1);
                    } else {
                        refused = refused.saturating_add(1);
                    }
                }
            }
        }
    }
    expect_equal(&rt, &(accepted, refused), &(14_321, 57_256));
}
