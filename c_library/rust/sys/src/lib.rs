// SPDX-FileCopyrightText: 2026 The etherparse_transport developers
// SPDX-License-Identifier: MIT OR Apache-2.0
//! The library for C as it is: its numbers, its structs and its calls, with the names of the header without their prefix. The header,
//! `etherparse_transport.h`, describes what a caller must ensure. The crate `etherparse_transport_c` ensures it. `error` may be null if it
//! is not wanted:
//!
//! ```
//! use etherparse_transport_sys as sys;
//!
//! let (bytes, mut packet) = ([0; 7], sys::UdpPacket::default());
//! // Sound: the call reads 7 bytes and writes one packet.
//! let status = unsafe { sys::etherparse_udp_packet_read(bytes.as_ptr(), bytes.len(), &mut packet, std::ptr::null_mut()) };
//! assert_eq!(status, sys::STATUS_LENGTH);
//! ```
#![no_std]

// ---- Statuses: what a call answers. 25 to 30 are kept for the headers of IP.

pub const OK: u32 = 0;
pub const STATUS_LENGTH: u32 = 1;
pub const STATUS_DATA_OFFSET: u32 = 2;
pub const STATUS_VALUE_TOO_BIG: u32 = 3;
pub const STATUS_BUFFER_TOO_SMALL: u32 = 4;
pub const STATUS_CHECKSUM_WRONG: u32 = 5;
pub const STATUS_CHECKSUM_ABSENT: u32 = 6;
pub const STATUS_OPTIONS_TOO_LONG: u32 = 7;
pub const STATUS_FLAGS_UNKNOWN: u32 = 8;
pub const STATUS_PROTOCOL_UNKNOWN: u32 = 9;
pub const STATUS_OPTIONS_END: u32 = 10;
pub const STATUS_OPTION_CUT_OFF: u32 = 11;
pub const STATUS_OPTION_SIZE: u32 = 12;
pub const STATUS_OPTION_UNKNOWN: u32 = 13;
pub const STATUS_MESSAGE_UNKNOWN: u32 = 14;
pub const STATUS_IP_HEADER_CUT_OFF: u32 = 15;
pub const STATUS_IP_VERSION: u32 = 16;
pub const STATUS_IP_HEADER_LENGTH: u32 = 17;
pub const STATUS_IP_TOTAL_LENGTH: u32 = 18;
pub const STATUS_IP_PACKET_CUT_OFF: u32 = 19;
pub const STATUS_IP_EXTENSION_CUT_OFF: u32 = 20;
pub const STATUS_IP_JUMBO_PAYLOAD_MISSING: u32 = 21;
pub const STATUS_IP_JUMBO_PAYLOAD_LENGTH: u32 = 22;
pub const STATUS_IP_JUMBO_PAYLOAD_UNEXPECTED: u32 = 23;
pub const STATUS_IP_JUMBO_PAYLOAD_FRAGMENT: u32 = 24;
pub const STATUS_OPTION_VALUES: u32 = 31;
pub const STATUS_ECHO_FRAGMENT: u32 = 32;
pub const STATUS_ECHO_NO_REQUEST: u32 = 33;
pub const STATUS_ECHO_HAS_OPTIONS: u32 = 34;
pub const STATUS_ECHO_HEADER_CHECKSUM_WRONG: u32 = 35;
pub const STATUS_ECHO_REQUEST_SOURCE: u32 = 36;
pub const STATUS_ECHO_REPLY_SOURCE: u32 = 37;
pub const STATUS_NO_ICMP_ERROR: u32 = 38;
pub const STATUS_TRANSLATE_HAS_OPTIONS: u32 = 39;
pub const STATUS_TRANSLATE_PROTOCOL: u32 = 40;
pub const STATUS_TRANSLATE_HEADER_CUT_OFF: u32 = 41;
pub const STATUS_TRANSLATE_ICMP_MESSAGE: u32 = 42;
pub const STATUS_TRANSLATE_QUOTED_PACKET: u32 = 43;
pub const STATUS_ECHO_NO_REPLY: u32 = 44;
pub const STATUS_TRANSLATE_SOURCE_ROUTE: u32 = 45;
pub const STATUS_CHECKSUM_UNTESTED: u32 = 46;
pub const STATUS_HOP_LIMIT_EXPIRED: u32 = 47;
pub const STATUS_ICMP_ERROR_LATER_FRAGMENT: u32 = 48;
pub const STATUS_ICMP_ERROR_ABOUT_ERROR: u32 = 49;
pub const STATUS_ICMP_ERROR_ABOUT_GROUP: u32 = 50;
pub const STATUS_ICMP_ERROR_PACKET_SOURCE: u32 = 51;
pub const STATUS_ICMP_ERROR_SOURCE: u32 = 52;
pub const STATUS_SEGMENT_SIZE_LATER_FRAGMENT: u32 = 53;
pub const STATUS_SEGMENT_SIZE_NO_SYN: u32 = 54;
pub const STATUS_SEGMENT_SIZE_NO_OPTION: u32 = 55;
pub const STATUS_PREFIX_LENGTH: u32 = 56;
pub const STATUS_PREFIX_RESERVED_OCTET: u32 = 57;
pub const STATUS_PREFIX_SUFFIX: u32 = 58;
pub const STATUS_SIIT_NO_HEADER: u32 = 59;
pub const STATUS_SIIT_HEADER_CHECKSUM: u32 = 60;
pub const STATUS_SIIT_FRAGMENT_CHECKSUM: u32 = 61;
pub const STATUS_SIIT_EXTENSION_HEADER: u32 = 62;
pub const STATUS_SIIT_PAYLOAD_LENGTH: u32 = 63;
pub const STATUS_SIIT_TIME_EXCEEDED: u32 = 64;
pub const STATUS_SIIT_SOURCE: u32 = 65;
pub const STATUS_SIIT_DESTINATION: u32 = 66;
pub const STATUS_SIIT_NOT_EMBEDDED: u32 = 67;
pub const STATUS_SIIT_NOT_GLOBAL: u32 = 68;
pub const STATUS_SIIT_ICMP_EXTENSION: u32 = 69;
pub const STATUS_SIIT_ICMP_POINTER: u32 = 70;
pub const STATUS_SIIT_TRANSPORT_HEADER: u32 = 71;
pub const STATUS_SIIT_UDP_LENGTH: u32 = 72;
pub const STATUS_SIIT_NO_UDP_CHECKSUM: u32 = 73;
pub const STATUS_SIIT_ICMP_MESSAGE: u32 = 74;
pub const STATUS_SIIT_QUOTED_PACKET: u32 = 75;
pub const STATUS_REASSEMBLY_NO_FRAGMENT: u32 = 76;
pub const STATUS_REASSEMBLY_HEADER_CHAIN_CUT_OFF: u32 = 77;
pub const STATUS_REASSEMBLY_OTHER_KEY: u32 = 78;
pub const STATUS_REASSEMBLY_EMPTY: u32 = 79;
pub const STATUS_REASSEMBLY_FRAGMENT_LENGTH: u32 = 80;
pub const STATUS_REASSEMBLY_TOO_LONG: u32 = 81;
pub const STATUS_REASSEMBLY_ROOM: u32 = 82;
pub const STATUS_REASSEMBLY_OTHER_END: u32 = 83;
pub const STATUS_REASSEMBLY_BEHIND_END: u32 = 84;
pub const STATUS_REASSEMBLY_OVERLAP: u32 = 85;
pub const STATUS_REASSEMBLY_TOO_MANY_FRAGMENTS: u32 = 86;
pub const STATUS_REASSEMBLY_INCOMPLETE: u32 = 87;
pub const STATUS_REASSEMBLY_HEADER: u32 = 88;
pub const STATUS_REASSEMBLY_LENGTHS: u32 = 89;
pub const STATUS_SIIT_EXTENSION_HEADER_CUT_OFF: u32 = 90;
pub const STATUS_SIIT_SEGMENTS_LEFT: u32 = 91;
pub const STATUS_SIIT_ICMP_FRAGMENT: u32 = 92;

// ---- Layers: which length was wrong. 8 and up are kept for the headers of IP.

pub const LAYER_UDP_HEADER: u32 = 1;
pub const LAYER_UDP_PAYLOAD: u32 = 2;
pub const LAYER_TCP_HEADER: u32 = 3;
pub const LAYER_ICMPV4: u32 = 4;
pub const LAYER_ICMPV4_TIMESTAMP: u32 = 5;
pub const LAYER_ICMPV4_TIMESTAMP_REPLY: u32 = 6;
pub const LAYER_ICMPV6: u32 = 7;

// ---- Where a length came from.

pub const LEN_SOURCE_SLICE: u32 = 1;
pub const LEN_SOURCE_UDP_HEADER_LEN: u32 = 2;

// ---- Which value was above its limit.

pub const VALUE_UDP_PAYLOAD_LENGTH_IPV4: u32 = 1;
pub const VALUE_UDP_PAYLOAD_LENGTH_IPV6: u32 = 2;
pub const VALUE_TCP_PAYLOAD_LENGTH_IPV4: u32 = 3;
pub const VALUE_TCP_PAYLOAD_LENGTH_IPV6: u32 = 4;
pub const VALUE_ICMPV6_PAYLOAD_LENGTH: u32 = 5;
pub const VALUE_IP_PAYLOAD_LENGTH: u32 = 6;

// ---- The flags of a TCP header: those of byte 13 at their bits there, and NS, which is bit 0 of byte 12, above them (RFC 9293,
// section 3.1; RFC 3168, section 6.1; RFC 3540, section 9).

pub const TCP_FIN: u16 = 0x001;
pub const TCP_SYN: u16 = 0x002;
pub const TCP_RST: u16 = 0x004;
pub const TCP_PSH: u16 = 0x008;
pub const TCP_ACK: u16 = 0x010;
pub const TCP_URG: u16 = 0x020;
pub const TCP_ECE: u16 = 0x040;
pub const TCP_CWR: u16 = 0x080;
pub const TCP_NS: u16 = 0x100;
pub const TCP_FLAGS: u16 = 0x1ff;

// ---- Kinds of TCP options, as they are registered (RFC 9293, section 3.1; RFC 7323, sections 2.2 and 3.2; RFC 2018, sections 2
// and 3).

pub const TCP_OPTION_NOOP: u32 = 1;
pub const TCP_OPTION_MAXIMUM_SEGMENT_SIZE: u32 = 2;
pub const TCP_OPTION_WINDOW_SCALE: u32 = 3;
pub const TCP_OPTION_SACK_PERMITTED: u32 = 4;
pub const TCP_OPTION_SACK: u32 = 5;
pub const TCP_OPTION_TIMESTAMP: u32 = 8;

// ---- Kinds of ICMPv4 messages (RFC 792); 0 is any other type and code.

pub const ICMPV4_KIND_UNKNOWN: u32 = 0;
pub const ICMPV4_KIND_ECHO_REPLY: u32 = 1;
pub const ICMPV4_KIND_DESTINATION_UNREACHABLE: u32 = 2;
pub const ICMPV4_KIND_REDIRECT: u32 = 3;
pub const ICMPV4_KIND_ECHO_REQUEST: u32 = 4;
pub const ICMPV4_KIND_TIME_EXCEEDED: u32 = 5;
pub const ICMPV4_KIND_PARAMETER_PROBLEM: u32 = 6;
pub const ICMPV4_KIND_TIMESTAMP_REQUEST: u32 = 7;
pub const ICMPV4_KIND_TIMESTAMP_REPLY: u32 = 8;

// ---- The types of ICMPv4 messages (RFC 792): byte 0.

pub const ICMPV4_TYPE_ECHO_REPLY: u8 = 0;
pub const ICMPV4_TYPE_DESTINATION_UNREACHABLE: u8 = 3;
pub const ICMPV4_TYPE_SOURCE_QUENCH: u8 = 4;
pub const ICMPV4_TYPE_REDIRECT: u8 = 5;
pub const ICMPV4_TYPE_ALTERNATE_HOST_ADDRESS: u8 = 6;
pub const ICMPV4_TYPE_ECHO_REQUEST: u8 = 8;
pub const ICMPV4_TYPE_ROUTER_ADVERTISEMENT: u8 = 9;
pub const ICMPV4_TYPE_ROUTER_SOLICITATION: u8 = 10;
pub const ICMPV4_TYPE_TIME_EXCEEDED: u8 = 11;
pub const ICMPV4_TYPE_PARAMETER_PROBLEM: u8 = 12;
pub const ICMPV4_TYPE_TIMESTAMP_REQUEST: u8 = 13;
pub const ICMPV4_TYPE_TIMESTAMP_REPLY: u8 = 14;
pub const ICMPV4_TYPE_INFORMATION_REQUEST: u8 = 15;
pub const ICMPV4_TYPE_INFORMATION_REPLY: u8 = 16;
pub const ICMPV4_TYPE_ADDRESS_MASK_REQUEST: u8 = 17;
pub const ICMPV4_TYPE_ADDRESS_MASK_REPLY: u8 = 18;

// ---- The codes of destination unreachable: 0 to 5 (RFC 792), 6 to 12 (RFC 1122, section 3.2.2.1), 13 to 15 (RFC 1812, section 5.2.7.1).

pub const ICMPV4_CODE_NETWORK_UNREACHABLE: u8 = 0;
pub const ICMPV4_CODE_HOST_UNREACHABLE: u8 = 1;
pub const ICMPV4_CODE_PROTOCOL_UNREACHABLE: u8 = 2;
pub const ICMPV4_CODE_PORT_UNREACHABLE: u8 = 3;
pub const ICMPV4_CODE_FRAGMENTATION_NEEDED: u8 = 4;
pub const ICMPV4_CODE_SOURCE_ROUTE_FAILED: u8 = 5;
pub const ICMPV4_CODE_NETWORK_UNKNOWN: u8 = 6;
pub const ICMPV4_CODE_HOST_UNKNOWN: u8 = 7;
pub const ICMPV4_CODE_SOURCE_HOST_ISOLATED: u8 = 8;
pub const ICMPV4_CODE_NETWORK_PROHIBITED: u8 = 9;
pub const ICMPV4_CODE_HOST_PROHIBITED: u8 = 10;
pub const ICMPV4_CODE_NETWORK_UNREACHABLE_FOR_SERVICE: u8 = 11;
pub const ICMPV4_CODE_HOST_UNREACHABLE_FOR_SERVICE: u8 = 12;
pub const ICMPV4_CODE_COMMUNICATION_PROHIBITED: u8 = 13;
pub const ICMPV4_CODE_HOST_PRECEDENCE_VIOLATION: u8 = 14;
pub const ICMPV4_CODE_PRECEDENCE_CUTOFF: u8 = 15;

// ---- The codes of redirect (RFC 792).

pub const ICMPV4_CODE_REDIRECT_NETWORK: u8 = 0;
pub const ICMPV4_CODE_REDIRECT_HOST: u8 = 1;
pub const ICMPV4_CODE_REDIRECT_NETWORK_FOR_SERVICE: u8 = 2;
pub const ICMPV4_CODE_REDIRECT_HOST_FOR_SERVICE: u8 = 3;

// ---- The codes of time exceeded (RFC 792).

pub const ICMPV4_CODE_TIME_TO_LIVE_EXCEEDED: u8 = 0;
pub const ICMPV4_CODE_REASSEMBLY_TIME_EXCEEDED: u8 = 1;

// ---- The codes of parameter problem: 0 (RFC 792), 1 (RFC 1122, section 3.2.2.5), 2 (no RFC).

pub const ICMPV4_CODE_POINTER_INDICATES_ERROR: u8 = 0;
pub const ICMPV4_CODE_REQUIRED_OPTION_MISSING: u8 = 1;
pub const ICMPV4_CODE_BAD_LENGTH: u8 = 2;

// ---- Kinds of ICMPv6 messages (RFC 4443; RFC 4861); 0 is any other type and code.

pub const ICMPV6_KIND_UNKNOWN: u32 = 0;
pub const ICMPV6_KIND_DESTINATION_UNREACHABLE: u32 = 1;
pub const ICMPV6_KIND_PACKET_TOO_BIG: u32 = 2;
pub const ICMPV6_KIND_TIME_EXCEEDED: u32 = 3;
pub const ICMPV6_KIND_PARAMETER_PROBLEM: u32 = 4;
pub const ICMPV6_KIND_ECHO_REQUEST: u32 = 5;
pub const ICMPV6_KIND_ECHO_REPLY: u32 = 6;
pub const ICMPV6_KIND_ROUTER_SOLICITATION: u32 = 7;
pub const ICMPV6_KIND_ROUTER_ADVERTISEMENT: u32 = 8;
pub const ICMPV6_KIND_NEIGHBOR_SOLICITATION: u32 = 9;
pub const ICMPV6_KIND_NEIGHBOR_ADVERTISEMENT: u32 = 10;
pub const ICMPV6_KIND_REDIRECT: u32 = 11;

// ---- The types of ICMPv6 messages: 1 to 129 (RFC 4443), 133 to 137 (RFC 4861). It is byte 0.

pub const ICMPV6_TYPE_DESTINATION_UNREACHABLE: u8 = 1;
pub const ICMPV6_TYPE_PACKET_TOO_BIG: u8 = 2;
pub const ICMPV6_TYPE_TIME_EXCEEDED: u8 = 3;
pub const ICMPV6_TYPE_PARAMETER_PROBLEM: u8 = 4;
pub const ICMPV6_TYPE_ECHO_REQUEST: u8 = 128;
pub const ICMPV6_TYPE_ECHO_REPLY: u8 = 129;
pub const ICMPV6_TYPE_MULTICAST_LISTENER_QUERY: u8 = 130;
pub const ICMPV6_TYPE_MULTICAST_LISTENER_REPORT: u8 = 131;
pub const ICMPV6_TYPE_MULTICAST_LISTENER_DONE: u8 = 132;
pub const ICMPV6_TYPE_ROUTER_SOLICITATION: u8 = 133;
pub const ICMPV6_TYPE_ROUTER_ADVERTISEMENT: u8 = 134;
pub const ICMPV6_TYPE_NEIGHBOR_SOLICITATION: u8 = 135;
pub const ICMPV6_TYPE_NEIGHBOR_ADVERTISEMENT: u8 = 136;
pub const ICMPV6_TYPE_REDIRECT: u8 = 137;
pub const ICMPV6_TYPE_ROUTER_RENUMBERING: u8 = 138;
pub const ICMPV6_TYPE_INVERSE_NEIGHBOR_SOLICITATION: u8 = 141;
pub const ICMPV6_TYPE_INVERSE_NEIGHBOR_ADVERTISEMENT: u8 = 142;
pub const ICMPV6_TYPE_EXTENDED_ECHO_REQUEST: u8 = 160;
pub const ICMPV6_TYPE_EXTENDED_ECHO_REPLY: u8 = 161;

// ---- The codes of destination unreachable (RFC 4443, section 3.1).

pub const ICMPV6_CODE_NO_ROUTE: u8 = 0;
pub const ICMPV6_CODE_COMMUNICATION_PROHIBITED: u8 = 1;
pub const ICMPV6_CODE_BEYOND_SCOPE: u8 = 2;
pub const ICMPV6_CODE_ADDRESS_UNREACHABLE: u8 = 3;
pub const ICMPV6_CODE_PORT_UNREACHABLE: u8 = 4;
pub const ICMPV6_CODE_SOURCE_ADDRESS_FAILED_POLICY: u8 = 5;
pub const ICMPV6_CODE_REJECT_ROUTE: u8 = 6;

// ---- The codes of time exceeded (RFC 4443, section 3.3).

pub const ICMPV6_CODE_HOP_LIMIT_EXCEEDED: u8 = 0;
pub const ICMPV6_CODE_REASSEMBLY_TIME_EXCEEDED: u8 = 1;

// ---- The codes of parameter problem: 0 to 2 (RFC 4443, section 3.4), 3 (RFC 7112), 4 (RFC 8754), 5 to 10 (RFC 8883).

pub const ICMPV6_CODE_ERRONEOUS_HEADER_FIELD: u8 = 0;
pub const ICMPV6_CODE_UNRECOGNIZED_NEXT_HEADER: u8 = 1;
pub const ICMPV6_CODE_UNRECOGNIZED_OPTION: u8 = 2;
pub const ICMPV6_CODE_INCOMPLETE_HEADER_CHAIN: u8 = 3;
pub const ICMPV6_CODE_UPPER_LAYER_HEADER_ERROR: u8 = 4;
pub const ICMPV6_CODE_NEXT_HEADER_UNRECOGNIZED_BY_ROUTER: u8 = 5;
pub const ICMPV6_CODE_EXTENSION_HEADER_TOO_BIG: u8 = 6;
pub const ICMPV6_CODE_EXTENSION_HEADER_CHAIN_TOO_LONG: u8 = 7;
pub const ICMPV6_CODE_TOO_MANY_EXTENSION_HEADERS: u8 = 8;
pub const ICMPV6_CODE_TOO_MANY_OPTIONS: u8 = 9;
pub const ICMPV6_CODE_OPTION_TOO_BIG: u8 = 10;

// ---- Flags of ICMPv6 advertisements, at their bits in the packet (RFC 4861, sections 4.2 and 4.4).

pub const ICMPV6_ROUTER_MANAGED: u8 = 0x80;
pub const ICMPV6_ROUTER_OTHER_CONFIG: u8 = 0x40;
pub const ICMPV6_NEIGHBOR_ROUTER: u8 = 0x80;
pub const ICMPV6_NEIGHBOR_SOLICITED: u8 = 0x40;
pub const ICMPV6_NEIGHBOR_OVERRIDE: u8 = 0x20;

// ---- Protocols, by the numbers that IP has for them.

pub const PROTOCOL_ICMPV4: u32 = 1;
pub const PROTOCOL_TCP: u32 = 6;
pub const PROTOCOL_UDP: u32 = 17;
pub const PROTOCOL_ICMPV6: u32 = 58;

// ---- Verdicts on the checksum of an IP packet. From 16 on each says why the checksum is not tested.

pub const VERDICT_RIGHT: u32 = 1;
pub const VERDICT_ABSENT: u32 = 2;
pub const VERDICT_WRONG: u32 = 3;
pub const VERDICT_PARTIAL: u32 = 4;
pub const VERDICT_UNTESTED_FRAGMENT: u32 = 16;
pub const VERDICT_UNTESTED_CUT_OFF: u32 = 17;
pub const VERDICT_UNTESTED_UNKNOWN_DESTINATION: u32 = 18;
pub const VERDICT_UNTESTED_OTHER_PROTOCOL: u32 = 19;
pub const VERDICT_UNTESTED_ZERO_LENGTH: u32 = 20;
pub const VERDICT_UNTESTED_TOO_LONG: u32 = 21;

// ---- The version of the interface.

pub const VERSION_MAJOR: u32 = 0;
pub const VERSION_MINOR: u32 = 5;
pub const VERSION_PATCH: u32 = 0;

// ---- The longest text of an error, in bytes.

pub const ERROR_TEXT_MAX_LEN: usize = 256;

/// A change of what a checksum covers: some bytes are replaced by others (RFC 1624). Any two numbers are a change.
#[repr(C)]
#[derive(Clone, Copy, Debug, Default, PartialEq, Eq, Hash)]
pub struct ChecksumChange {
    /// The one's complement sum of the bytes that are replaced.
    pub removed: u16,
    /// The one's complement sum of the bytes that take their place.
    pub added: u16,
}

/// Why a call refused what it was given. A field that the status does not speak of is 0.
#[repr(C)]
#[derive(Clone, Copy, Debug, Default, PartialEq, Eq, Hash)]
pub struct Error {
    /// The status that the call answered with.
    pub status: u32,
    /// The layer that could not be read, by its number.
    pub layer: u32,
    /// Where `len` came from, by its number.
    pub len_source: u32,
    /// Which value was too big, by its number.
    pub value_type: u32,
    /// The data offset that was read, in words of four bytes.
    pub data_offset: u32,
    /// The kind of the option that could not be read.
    pub option_kind: u32,
    /// The length byte of that option.
    pub option_size: u32,
    /// The length that would have been accepted, in bytes.
    pub required_len: usize,
    /// The length that there is, in bytes.
    pub len: usize,
    /// Where the layer starts, in bytes from the start of what was read.
    pub layer_start_offset: usize,
    /// The value that was too big, or that is not known. Of an IP packet it is the version, or the number of an extension header.
    pub actual: usize,
    /// The largest value that is allowed.
    pub max_allowed: usize,
}

/// An ICMPv4 header (RFC 792). A field that the kind of the message does not have is 0.
#[repr(C)]
#[derive(Clone, Copy, Debug, Default, PartialEq, Eq, Hash)]
pub struct Icmpv4Header {
    /// What the message is, by its number.
    pub kind: u32,
    /// Of a timestamp message or reply: when the sender last touched the message.
    pub originate_timestamp: u32,
    /// Of a timestamp message or reply: when the echoer first touched it.
    pub receive_timestamp: u32,
    /// Of a timestamp message or reply: when the echoer last touched it.
    pub transmit_timestamp: u32,
    /// The checksum.
    pub checksum: u16,
    /// Of an echo or timestamp message or its reply: the identifier.
    pub id: u16,
    /// Of an echo or timestamp message or its reply: the sequence number.
    pub sequence_number: u16,
    /// Where fragmentation is needed: the MTU of the next hop.
    pub next_hop_mtu: u16,
    /// The type.
    pub type_u8: u8,
    /// The code.
    pub code_u8: u8,
    /// Of a parameter problem: where the error is.
    pub pointer: u8,
    /// The bytes after the checksum as they came; of a redirect message the gateway's address.
    pub bytes4to7: [u8; 4],
}

/// An ICMPv4 packet that was read.
#[repr(C)]
#[derive(Clone, Copy, Debug, Default, PartialEq, Eq, Hash)]
pub struct Icmpv4Packet {
    /// The header.
    pub header: Icmpv4Header,
    /// Where the payload begins, in bytes from the first of those that were read.
    pub payload_offset: usize,
    /// The length of the payload, in bytes.
    pub payload_len: usize,
}

/// An ICMPv6 header (RFC 4443, RFC 4861). A field that the kind of the message does not have is 0.
#[repr(C)]
#[derive(Clone, Copy, Debug, Default, PartialEq, Eq, Hash)]
pub struct Icmpv6Header {
    /// What the message is, by its number.
    pub kind: u32,
    /// Of a packet that was too big: the MTU of the next link.
    pub mtu: u32,
    /// Of a parameter problem: where the error is.
    pub pointer: u32,
    /// The checksum.
    pub checksum: u16,
    /// Of an echo request or reply: the identifier.
    pub id: u16,
    /// Of an echo request or reply: the sequence number.
    pub sequence_number: u16,
    /// Of a router advertisement: for how many seconds the router is a default router.
    pub router_lifetime: u16,
    /// Of a router advertisement: the hop limit that it proposes.
    pub cur_hop_limit: u8,
    /// Of an advertisement: its flags, at the bits that they have in the packet.
    pub flags: u8,
    /// The type.
    pub type_u8: u8,
    /// The code.
    pub code_u8: u8,
    /// The bytes after the checksum as they came.
    pub bytes4to7: [u8; 4],
}

/// An ICMPv6 packet that was read.
#[repr(C)]
#[derive(Clone, Copy, Debug, Default, PartialEq, Eq, Hash)]
pub struct Icmpv6Packet {
    /// The header.
    pub header: Icmpv6Header,
    /// Where the payload begins, in bytes from the first of those that were read.
    pub payload_offset: usize,
    /// The length of the payload, in bytes.
    pub payload_len: usize,
}

/// What an IP packet carries.
#[repr(C)]
#[derive(Clone, Copy, Debug, Default, PartialEq, Eq, Hash)]
pub struct IpTransport {
    /// The version, 4 or 6.
    pub version: u32,
    /// The protocol of the payload, by the number that IP has for it.
    pub protocol: u32,
    /// Where the payload begins, in bytes from the first of the packet.
    pub payload_offset: usize,
    /// The length of the payload in bytes, without the padding after it.
    pub payload_len: usize,
    /// 1 where the payload is a part of a packet's only, or 0: further fragments come after it, or others stand before it.
    pub is_fragment: u32,
    /// 1 where the IP header counts more bytes than are there, or 0.
    pub is_cut_off: u32,
    /// 1 where the destination is known, or 0: over IPv6 a routing header that has segments left doesn't always say which address is
    /// the last.
    pub has_destination: u32,
    /// The source that the checksum covers: of the IP header, or a home address. One of IPv4 is in the first four bytes, and the others
    /// are 0.
    pub source: [u8; 16],
    /// The address of the final receiver, in the same form. It is 0 where it is not known.
    pub destination: [u8; 16],
    /// 1 if the IP header states no length, so that all bytes are counted, otherwise 0.
    pub is_length_missing: u32,
    /// 1 if the offset of the fragment is above 0, otherwise 0.
    pub is_later_fragment: u32,
    /// The hops that are left: the time to live of IPv4, or the hop limit of IPv6.
    pub hop_limit: u32,
    /// The place of the payload in the payload of the whole packet, in bytes, or 0 if the packet is not a fragment.
    pub fragment_offset: u32,
    /// What the fragments of a packet share: 16 bits of IPv4, or 32 bits of a fragment header of IPv6, or 0.
    pub identification: u32,
    /// 1 if the flag "don't fragment" of IPv4 is set, otherwise 0, and over IPv6.
    pub dont_fragment: u32,
    /// The type of service of IPv4, or the traffic class of IPv6.
    pub traffic_class: u32,
}

/// The ends of a flow, as one of its packets names them.
#[repr(C)]
#[derive(Clone, Copy, Debug, Default, PartialEq, Eq, Hash)]
pub struct FlowEnds {
    /// The version, 4 or 6, or 0 if there is no quoted packet.
    pub version: u32,
    /// The protocol of the payload, by the number that IP has for it.
    pub protocol: u32,
    /// 1 if the packet is a fragment, otherwise 0.
    pub is_fragment: u32,
    /// 1 if the offset of the fragment is above 0, otherwise 0.
    pub is_later_fragment: u32,
    /// 1 if the destination is known, otherwise 0.
    pub has_destination: u32,
    /// 1 if `source_port` is known, otherwise 0.
    pub has_source_port: u32,
    /// 1 if `destination_port` is known, otherwise 0.
    pub has_destination_port: u32,
    /// The source port of UDP and TCP, or the identifier of an ICMP request, or 0.
    pub source_port: u16,
    /// The destination port of UDP and TCP, or the identifier of an ICMP reply, or 0.
    pub destination_port: u16,
    /// The source that the checksum covers. An IPv4 address is in the first four bytes, and the others are 0.
    pub source: [u8; 16],
    /// The destination that the checksum covers, in the same form, or 0.
    pub destination: [u8; 16],
}

/// The flow that an IP packet belongs to.
#[repr(C)]
#[derive(Clone, Copy, Debug, Default, PartialEq, Eq, Hash)]
pub struct PacketFlow {
    /// The ends of the packet itself.
    pub ends: FlowEnds,
    /// The ends of the packet that an ICMP error quotes. Without one all fields are 0.
    pub quoted: FlowEnds,
}

/// A fragment of an IP packet. All fragments of one packet share the version, the protocol, the identification and the addresses.
#[repr(C)]
#[derive(Clone, Copy, Debug, Default, PartialEq, Eq, Hash)]
pub struct Fragment {
    /// The version, 4 or 6.
    pub version: u32,
    /// The protocol in the IPv4 header. It is 0 over IPv6.
    pub protocol: u32,
    /// The identification.
    pub identification: u32,
    /// The place of the first byte in the payload of the whole packet.
    pub offset: u32,
    /// 1 if more fragments follow, otherwise 0.
    pub more_fragments: u32,
    /// The source in the IP header. An IPv4 address is in the first four bytes, with 0 behind it.
    pub source: [u8; 16],
    /// The destination in the IP header, in the same form.
    pub destination: [u8; 16],
    /// The place at which the payload of the fragment begins.
    pub payload_offset: usize,
    /// The length of the payload of the fragment.
    pub payload_len: usize,
}

/// The fields of an IPv4 header that a caller chooses.
#[repr(C)]
#[derive(Clone, Copy, Debug, Default, PartialEq, Eq, Hash)]
pub struct Ipv4Header {
    /// The source.
    pub source: [u8; 4],
    /// The destination.
    pub destination: [u8; 4],
    /// The hops that are left.
    pub time_to_live: u8,
    /// The protocol of the message: UDP, TCP or ICMPv4.
    pub protocol: u8,
}

/// The fields of an IPv6 header that a caller chooses.
#[repr(C)]
#[derive(Clone, Copy, Debug, Default, PartialEq, Eq, Hash)]
pub struct Ipv6Header {
    /// The source.
    pub source: [u8; 16],
    /// The destination.
    pub destination: [u8; 16],
    /// The hops that are left.
    pub hop_limit: u8,
    /// The protocol of the message: UDP, TCP or ICMPv6.
    pub next_header: u8,
}

/// An IP packet that was read, and the verdict on its checksum.
#[repr(C)]
#[derive(Clone, Copy, Debug, Default, PartialEq, Eq, Hash)]
pub struct IpPacket {
    /// What the packet carries.
    pub transport: IpTransport,
    /// The protocol whose header the payload begins with, by the number that IP has for it. 0 of a fragment, of another protocol than
    /// the four, and of ICMP of the other version.
    pub header_protocol: u32,
    /// The verdict, by its number.
    pub verdict: u32,
    /// The checksum that would be right where the stored one is wrong or partial, or 0.
    pub expected_checksum: u16,
}

/// The addresses of an IP header itself.
#[repr(C)]
#[derive(Clone, Copy, Debug, Default, PartialEq, Eq, Hash)]
pub struct IpAddresses {
    /// The version, 4 or 6.
    pub version: u32,
    /// The source. An IPv4 address is in the first four bytes, with 0 behind it.
    pub source: [u8; 16],
    /// The destination, in the same form.
    pub destination: [u8; 16],
}

/// A prefix of IPv6 addresses that contain an IPv4 address (RFC 6052, section 2.2).
#[repr(C)]
#[derive(Clone, Copy, Debug, Default, PartialEq, Eq, Hash)]
pub struct Prefix64 {
    /// The address that begins with the prefix, and whose other bits are 0.
    pub address: [u8; 16],
    /// The length of the prefix in bits.
    pub len: u8,
}

/// What a translation replaces in an IPv4 packet. A part is replaced if its flag is not 0.
#[repr(C)]
#[derive(Clone, Copy, Debug, Default, PartialEq, Eq, Hash)]
pub struct Ipv4Translation {
    /// The new source address.
    pub source: [u8; 4],
    /// The new destination address.
    pub destination: [u8; 4],
    /// The new source port of UDP and TCP, or identifier of an ICMP request.
    pub source_port: u16,
    /// The new destination port of UDP and TCP, or identifier of an ICMP reply.
    pub destination_port: u16,
    /// Whether the source address is replaced.
    pub has_source: u8,
    /// Whether the destination address is replaced.
    pub has_destination: u8,
    /// Whether the source port is replaced.
    pub has_source_port: u8,
    /// Whether the destination port is replaced.
    pub has_destination_port: u8,
}

/// What a translation replaces in an IPv6 packet. A part is replaced if its flag is not 0.
#[repr(C)]
#[derive(Clone, Copy, Debug, Default, PartialEq, Eq, Hash)]
pub struct Ipv6Translation {
    /// The new source address.
    pub source: [u8; 16],
    /// The new destination address.
    pub destination: [u8; 16],
    /// The new source port of UDP and TCP, or identifier of an ICMP request.
    pub source_port: u16,
    /// The new destination port of UDP and TCP, or identifier of an ICMP reply.
    pub destination_port: u16,
    /// Whether the source address is replaced.
    pub has_source: u8,
    /// Whether the destination address is replaced.
    pub has_destination: u8,
    /// Whether the source port is replaced.
    pub has_source_port: u8,
    /// Whether the destination port is replaced.
    pub has_destination_port: u8,
}

/// A running one's complement sum of 16 bit big-endian words (RFC 1071, section 1). Each number is a sum.
#[repr(C)]
#[derive(Clone, Copy, Debug, Default, PartialEq, Eq, Hash)]
pub struct Sum {
    /// The sum, 0 only of nothing but zeros.
    pub value: u16,
}

/// A TCP header without its options (RFC 9293, section 3.1).
#[repr(C)]
#[derive(Clone, Copy, Debug, Default, PartialEq, Eq, Hash)]
pub struct TcpHeader {
    /// The sequence number.
    pub sequence_number: u32,
    /// With ACK the next sequence number that the sender expects.
    pub acknowledgment_number: u32,
    /// The port of the sender.
    pub source_port: u16,
    /// The port of the receiver.
    pub destination_port: u16,
    /// The nine flags: FIN 0x001, SYN 0x002, RST 0x004, PSH 0x008, ACK 0x010, URG 0x020, ECE 0x040, CWR 0x080, NS 0x100.
    pub flags: u16,
    /// How many bytes the sender is willing to accept.
    pub window_size: u16,
    /// The checksum.
    pub checksum: u16,
    /// With URG where the urgent data ends.
    pub urgent_pointer: u16,
}

/// A TCP packet that was read.
#[repr(C)]
#[derive(Clone, Copy, Debug, Default, PartialEq, Eq, Hash)]
pub struct TcpPacket {
    /// The header.
    pub header: TcpHeader,
    /// Where the options begin, in bytes from the first of those that were read.
    pub options_offset: usize,
    /// The length of the options, in bytes.
    pub options_len: usize,
    /// Where the payload begins.
    pub payload_offset: usize,
    /// The length of the payload, in bytes.
    pub payload_len: usize,
}

/// An option of a TCP header (RFC 9293, section 3.1).
///
/// Kind 2 has the maximum segment size, kind 3 the shift of the window, kind 5 the left and the right edge of one to four blocks, and
/// kind 8 the timestamp value and its echo reply. Kinds 1 and 4 have no number.
#[repr(C)]
#[derive(Clone, Copy, Debug, Default, PartialEq, Eq, Hash)]
pub struct TcpOption {
    /// The kind: the first byte of the option.
    pub kind: u32,
    /// How many numbers the option has.
    pub value_count: u32,
    /// The numbers, and 0 after them.
    pub values: [u32; 8],
}

/// An option of a TCP header as it stands, known or not (RFC 9293, section 3.1).
#[repr(C)]
#[derive(Clone, Copy, Debug, Default, PartialEq, Eq, Hash)]
pub struct TcpRawOption {
    /// The kind: the first byte of the option.
    pub kind: u32,
    /// Where its value begins, in bytes from the first of the option bytes.
    pub value_offset: usize,
    /// The length of its value, in bytes.
    pub value_len: usize,
}

/// A UDP header (RFC 768).
#[repr(C)]
#[derive(Clone, Copy, Debug, Default, PartialEq, Eq, Hash)]
pub struct UdpHeader {
    /// The port of the sender, or 0.
    pub source_port: u16,
    /// The port of the receiver.
    pub destination_port: u16,
    /// The length of header and payload, in bytes.
    pub length: u16,
    /// The checksum; over IPv4 a 0 says that there is none.
    pub checksum: u16,
}

/// A UDP packet that was read.
#[repr(C)]
#[derive(Clone, Copy, Debug, Default, PartialEq, Eq, Hash)]
pub struct UdpPacket {
    /// The header.
    pub header: UdpHeader,
    /// Where the payload begins, in bytes from the first of those that were read.
    pub payload_offset: usize,
    /// The length of the payload, in bytes.
    pub payload_len: usize,
    /// Where that length came from, by its number.
    pub payload_len_source: u32,
}

extern "C" {
    /// Writes the header at the front of some bytes with every bit cleared that has no meaning.
    pub fn etherparse_canonical_header(
        number: u32,
        bytes: *const u8,
        bytes_len: usize,
        buffer: *mut u8,
        buffer_len: usize,
        written: *mut usize,
        error: *mut Error,
    ) -> u32;
    /// The change that replaces nothing.
    pub fn etherparse_checksum_change_new() -> ChecksumChange;
    /// Replaces some bytes by others. They begin at an even place of what the checksum covers, and both lengths are even or both are odd.
    /// They may be different, as those of the pseudo headers of IPv6 and IPv4.
    pub fn etherparse_checksum_change_replace(
        change: ChecksumChange,
        old: *const u8,
        old_len: usize,
        new: *const u8,
        new_len: usize,
    ) -> ChecksumChange;
    /// The change that puts the old bytes back, as a translator does in the packets that come back.
    pub fn etherparse_checksum_change_reversed(change: ChecksumChange) -> ChecksumChange;
    /// The checksum of the changed packet, from the checksum that the packet had, as TCP, ICMP and the IPv4 header store it (RFC 1624,
    /// section 3, equation 3). A right checksum becomes right, and a wrong one stays wrong, but for bytes that are all zeros.
    pub fn etherparse_checksum_change_apply(change: ChecksumChange, checksum: u16) -> u16;
    /// The checksum of the changed packet, from the checksum that the packet had, as UDP stores it (RFC 768): 0, which says that there is
    /// none, stays, and no other checksum becomes 0.
    pub fn etherparse_checksum_change_apply_udp(change: ChecksumChange, checksum: u16) -> u16;
    /// Turns the echo request in an IP packet of either version into its reply, in place.
    pub fn etherparse_echo_answer(
        packet: *mut u8,
        packet_len: usize,
        hop_limit: u8,
        reply_len: *mut usize,
        error: *mut Error,
    ) -> u32;
    /// Turns the echo request in an IPv4 packet into its reply from this source, in place.
    pub fn etherparse_echo_answer_ipv4(
        packet: *mut u8,
        packet_len: usize,
        source: *const [u8; 4],
        time_to_live: u8,
        reply_len: *mut usize,
        error: *mut Error,
    ) -> u32;
    /// Turns the echo request in an IPv6 packet into its reply from this source, in place.
    pub fn etherparse_echo_answer_ipv6(
        packet: *mut u8,
        packet_len: usize,
        source: *const [u8; 16],
        hop_limit: u8,
        reply_len: *mut usize,
        error: *mut Error,
    ) -> u32;
    /// Tests whether the second packet is the reply to the echo request in the first packet.
    pub fn etherparse_echo_is_reply(
        request: *const u8,
        request_len: usize,
        reply: *const u8,
        reply_len: usize,
        error: *mut Error,
    ) -> u32;
    /// Tests whether the second packet is the reply to the echo request in the first packet, from the address of any host.
    pub fn etherparse_echo_is_reply_from_any(
        request: *const u8,
        request_len: usize,
        reply: *const u8,
        reply_len: usize,
        error: *mut Error,
    ) -> u32;
    /// Finds the flow that an IP packet belongs to.
    pub fn etherparse_flow(bytes: *const u8, bytes_len: usize, flow: *mut PacketFlow, error: *mut Error) -> u32;
    pub fn etherparse_fragment_read(bytes: *const u8, bytes_len: usize, fragment: *mut Fragment, error: *mut Error) -> u32;
    pub fn etherparse_reassembly_packet(
        packets: *const u8,
        packets_len: usize,
        lens: *const usize,
        lens_len: usize,
        room: *mut u8,
        room_len: usize,
        buffer: *mut u8,
        buffer_len: usize,
        written: *mut usize,
        error: *mut Error,
    ) -> u32;
    /// Writes an IPv4 packet with this message, which is a transport header and its payload.
    pub fn etherparse_write_packet_ipv4(
        header: *const Ipv4Header,
        message: *const u8,
        message_len: usize,
        buffer: *mut u8,
        buffer_len: usize,
        written: *mut usize,
        error: *mut Error,
    ) -> u32;
    /// Writes an IPv6 packet with this message, which is a transport header and its payload.
    pub fn etherparse_write_packet_ipv6(
        header: *const Ipv6Header,
        message: *const u8,
        message_len: usize,
        buffer: *mut u8,
        buffer_len: usize,
        written: *mut usize,
        error: *mut Error,
    ) -> u32;
    /// Tests whether the checksum in an IP packet is partial, and writes 1 or 0.
    pub fn etherparse_packet_checksum_is_partial(bytes: *const u8, bytes_len: usize, is_partial: *mut u32, error: *mut Error) -> u32;
    /// Stores the right checksum of UDP, TCP or ICMP in an IP packet, and writes the checksum.
    pub fn etherparse_packet_checksum_store(packet: *mut u8, packet_len: usize, checksum: *mut u16, error: *mut Error) -> u32;
    /// Lowers the hop limit of an IP packet by one, and updates the checksum of an IPv4 header.
    pub fn etherparse_hop_limit_lower(packet: *mut u8, packet_len: usize, error: *mut Error) -> u32;
    /// Lowers the maximum segment size of a SYN, and writes the size that the packet contained.
    pub fn etherparse_maximum_segment_size_lower(packet: *mut u8, packet_len: usize, most: u16, size: *mut u16, error: *mut Error) -> u32;
    /// Writes where the packet that an ICMPv4 error is about lies in the message.
    pub fn etherparse_icmpv4_quoted_packet(
        bytes: *const u8,
        bytes_len: usize,
        offset: *mut usize,
        len: *mut usize,
        error: *mut Error,
    ) -> u32;
    /// Writes where the packet that an ICMPv6 error is about lies in the message.
    pub fn etherparse_icmpv6_quoted_packet(
        bytes: *const u8,
        bytes_len: usize,
        offset: *mut usize,
        len: *mut usize,
        error: *mut Error,
    ) -> u32;
    /// Translates the addresses and the ports of an IPv4 packet, in place.
    pub fn etherparse_translate_ipv4(
        packet: *mut u8,
        packet_len: usize,
        translation: *const Ipv4Translation,
        error: *mut Error,
    ) -> u32;
    /// Translates the addresses and the ports of an IPv6 packet, in place.
    pub fn etherparse_translate_ipv6(
        packet: *mut u8,
        packet_len: usize,
        translation: *const Ipv6Translation,
        error: *mut Error,
    ) -> u32;
    /// Translates an IPv4 packet in place, and the packet that an ICMP error is about by a translation of its own.
    pub fn etherparse_translate_ipv4_with_quoted(
        packet: *mut u8,
        packet_len: usize,
        translation: *const Ipv4Translation,
        quoted: *const Ipv4Translation,
        error: *mut Error,
    ) -> u32;
    /// Translates an IPv6 packet in place, and the packet that an ICMP error is about by a translation of its own.
    pub fn etherparse_translate_ipv6_with_quoted(
        packet: *mut u8,
        packet_len: usize,
        translation: *const Ipv6Translation,
        quoted: *const Ipv6Translation,
        error: *mut Error,
    ) -> u32;
    /// Translates an IPv4 packet to IPv6, and writes the length of the IPv6 packet.
    pub fn etherparse_ipv4_to_ipv6(
        packet: *const u8,
        packet_len: usize,
        source: *const Prefix64,
        destination: *const Prefix64,
        buffer: *mut u8,
        buffer_len: usize,
        written: *mut usize,
        error: *mut Error,
    ) -> u32;
    /// Translates an IPv6 packet to IPv4, and writes the length of the IPv4 packet.
    pub fn etherparse_ipv6_to_ipv4(
        packet: *const u8,
        packet_len: usize,
        source: *const Prefix64,
        destination: *const Prefix64,
        identification: u16,
        buffer: *mut u8,
        buffer_len: usize,
        written: *mut usize,
        error: *mut Error,
    ) -> u32;
    /// Writes the text of an error with a zero byte at its end, and returns its length without that byte. Of a text that the buffer is too
    /// small for it writes the front, and the zero byte; into an empty buffer nothing.
    pub fn etherparse_error_text(error: *const Error, buffer: *mut u8, buffer_len: usize) -> usize;
    /// Writes the name that the header in C has for a status, as `etherparse_error_text` writes a text.
    pub fn etherparse_status_name(status: u32, buffer: *mut u8, buffer_len: usize) -> usize;
    /// Writes what a status means in a few words, as `etherparse_error_text` writes a text.
    pub fn etherparse_status_text(status: u32, buffer: *mut u8, buffer_len: usize) -> usize;
    /// Reads the packet that these bytes are, all of them.
    pub fn etherparse_icmpv4_packet_read(bytes: *const u8, bytes_len: usize, read: *mut Icmpv4Packet, error: *mut Error) -> u32;
    /// Writes a header. Of a kind other than 0 the type is that of the kind.
    pub fn etherparse_icmpv4_header_write(
        fields: *const Icmpv4Header,
        buffer: *mut u8,
        buffer_len: usize,
        written: *mut usize,
        error: *mut Error,
    ) -> u32;
    /// Writes an ICMP error about a packet, and its length.
    pub fn etherparse_icmpv4_error_about(
        packet: *const u8,
        packet_len: usize,
        message: *const Icmpv4Header,
        source: *const [u8; 4],
        time_to_live: u8,
        buffer: *mut u8,
        buffer_len: usize,
        written: *mut usize,
        error: *mut Error,
    ) -> u32;
    /// What to store as the checksum of the packet that these bytes are (RFC 792), whatever its checksum field holds.
    pub fn etherparse_icmpv4_checksum(bytes: *const u8, bytes_len: usize, checksum: *mut u16, error: *mut Error) -> u32;
    /// Stores the checksum of the packet that these bytes are in bytes 2 and 3, and changes no other byte.
    pub fn etherparse_icmpv4_checksum_store(bytes: *mut u8, bytes_len: usize, error: *mut Error) -> u32;
    /// Tests the checksum of the packet that these bytes are.
    pub fn etherparse_icmpv4_checksum_test(bytes: *const u8, bytes_len: usize, error: *mut Error) -> u32;
    /// Reads the packet that these bytes are, all of them.
    pub fn etherparse_icmpv6_packet_read(bytes: *const u8, bytes_len: usize, read: *mut Icmpv6Packet, error: *mut Error) -> u32;
    /// Writes a header. Of a kind other than 0 the type is that of the kind.
    pub fn etherparse_icmpv6_header_write(
        fields: *const Icmpv6Header,
        buffer: *mut u8,
        buffer_len: usize,
        written: *mut usize,
        error: *mut Error,
    ) -> u32;
    /// Writes an ICMP error about a packet, and its length.
    pub fn etherparse_icmpv6_error_about(
        packet: *const u8,
        packet_len: usize,
        message: *const Icmpv6Header,
        source: *const [u8; 16],
        hop_limit: u8,
        buffer: *mut u8,
        buffer_len: usize,
        written: *mut usize,
        error: *mut Error,
    ) -> u32;
    /// What to store as the checksum of the packet that these bytes are (RFC 4443, section 2.3), whatever its checksum field holds.
    pub fn etherparse_icmpv6_checksum(
        bytes: *const u8,
        bytes_len: usize,
        source: *const [u8; 16],
        destination: *const [u8; 16],
        checksum: *mut u16,
        error: *mut Error,
    ) -> u32;
    /// Stores the checksum of the packet that these bytes are in bytes 2 and 3, and changes no other byte.
    pub fn etherparse_icmpv6_checksum_store(
        bytes: *mut u8,
        bytes_len: usize,
        source: *const [u8; 16],
        destination: *const [u8; 16],
        error: *mut Error,
    ) -> u32;
    /// Tests the checksum of the packet that these bytes are.
    pub fn etherparse_icmpv6_checksum_test(
        bytes: *const u8,
        bytes_len: usize,
        source: *const [u8; 16],
        destination: *const [u8; 16],
        error: *mut Error,
    ) -> u32;
    /// Finds the transport in the IP packet at the front of some bytes.
    pub fn etherparse_transport_in_ip(bytes: *const u8, bytes_len: usize, transport: *mut IpTransport, error: *mut Error) -> u32;
    /// Finds the transport in the IP packet at the front of some bytes, also in one that is cut off.
    pub fn etherparse_transport_in_ip_lax(
        bytes: *const u8,
        bytes_len: usize,
        transport: *mut IpTransport,
        error: *mut Error,
    ) -> u32;
    /// Reads the addresses of the IP header at the front of some bytes.
    pub fn etherparse_ip_header_addresses(bytes: *const u8, bytes_len: usize, found: *mut IpAddresses, error: *mut Error) -> u32;
    /// What to store as the checksum of the IPv4 header at the front of some bytes, whatever its checksum field holds.
    pub fn etherparse_ipv4_header_checksum(bytes: *const u8, bytes_len: usize, checksum: *mut u16, error: *mut Error) -> u32;
    /// Stores in bytes 10 and 11 what `etherparse_ipv4_header_checksum` answers.
    pub fn etherparse_ipv4_header_checksum_store(bytes: *mut u8, bytes_len: usize, error: *mut Error) -> u32;
    /// Tests the checksum of the IPv4 header at the front of some bytes.
    pub fn etherparse_ipv4_header_checksum_test(bytes: *const u8, bytes_len: usize, error: *mut Error) -> u32;
    /// Finds the transport in the IP packet at the front of some bytes, and tests its checksum.
    pub fn etherparse_packet_verdict(bytes: *const u8, bytes_len: usize, packet: *mut IpPacket, error: *mut Error) -> u32;
    /// Finds the transport in the IP packet at the front of some bytes, also in one that is cut off, and tests its checksum.
    pub fn etherparse_packet_verdict_lax(bytes: *const u8, bytes_len: usize, packet: *mut IpPacket, error: *mut Error) -> u32;
    /// Writes the name that the header in C has for a verdict, as `etherparse_error_text` writes a text.
    pub fn etherparse_verdict_name(verdict: u32, buffer: *mut u8, buffer_len: usize) -> usize;
    /// The sum of nothing.
    pub fn etherparse_sum_new() -> Sum;
    /// Adds the words of some bytes. An odd last byte is the high half of a word, so of several parts only the last may be odd.
    pub fn etherparse_sum_add(sum: Sum, bytes: *const u8, bytes_len: usize) -> Sum;
    /// Adds the words of some bytes that come after so many others.
    pub fn etherparse_sum_add_at(sum: Sum, offset: usize, bytes: *const u8, bytes_len: usize) -> Sum;
    /// The checksum of what was added, as TCP and ICMP store it.
    pub fn etherparse_sum_checksum(sum: Sum) -> u16;
    /// The checksum of what was added, with 0 given as 65535, as UDP stores it (RFC 768).
    pub fn etherparse_sum_udp_checksum(sum: Sum) -> u16;
    /// Reads the header with its options at the front of some bytes; what comes after it is the payload.
    pub fn etherparse_tcp_packet_read(bytes: *const u8, bytes_len: usize, read: *mut TcpPacket, error: *mut Error) -> u32;
    /// Writes a header with these option bytes, which are padded with zeros to whole words of four bytes.
    pub fn etherparse_tcp_header_write(
        fields: *const TcpHeader,
        options: *const u8,
        options_len: usize,
        buffer: *mut u8,
        buffer_len: usize,
        written: *mut usize,
        error: *mut Error,
    ) -> u32;
    /// Stores a header in the packet at the front of some bytes. The options of the packet stay, and what comes after its header. Its bits
    /// without a meaning are cleared.
    pub fn etherparse_tcp_header_store(fields: *const TcpHeader, bytes: *mut u8, bytes_len: usize, error: *mut Error) -> u32;
    /// What to store as the checksum of a packet over IPv4 (RFC 9293, section 3.1), whatever its checksum field holds: of all the bytes,
    /// header and payload.
    pub fn etherparse_tcp_checksum_ipv4(
        bytes: *const u8,
        bytes_len: usize,
        source: *const [u8; 4],
        destination: *const [u8; 4],
        checksum: *mut u16,
        error: *mut Error,
    ) -> u32;
    /// What to store as the checksum of a packet over IPv6 (RFC 9293, section 3.1; RFC 8200, section 8.1), whatever its checksum field holds: of all the bytes,
    /// header and payload.
    pub fn etherparse_tcp_checksum_ipv6(
        bytes: *const u8,
        bytes_len: usize,
        source: *const [u8; 16],
        destination: *const [u8; 16],
        checksum: *mut u16,
        error: *mut Error,
    ) -> u32;
    /// Stores the checksum of a packet over IPv4 in bytes 16 and 17, and changes no other byte.
    pub fn etherparse_tcp_checksum_store_ipv4(
        bytes: *mut u8,
        bytes_len: usize,
        source: *const [u8; 4],
        destination: *const [u8; 4],
        error: *mut Error,
    ) -> u32;
    /// Stores the checksum of a packet over IPv6 in bytes 16 and 17, and changes no other byte.
    pub fn etherparse_tcp_checksum_store_ipv6(
        bytes: *mut u8,
        bytes_len: usize,
        source: *const [u8; 16],
        destination: *const [u8; 16],
        error: *mut Error,
    ) -> u32;
    /// Tests the checksum of a packet over IPv4: of all the bytes, header and payload.
    pub fn etherparse_tcp_checksum_test_ipv4(
        bytes: *const u8,
        bytes_len: usize,
        source: *const [u8; 4],
        destination: *const [u8; 4],
        error: *mut Error,
    ) -> u32;
    /// Tests the checksum of a packet over IPv6: of all the bytes, header and payload.
    pub fn etherparse_tcp_checksum_test_ipv6(
        bytes: *const u8,
        bytes_len: usize,
        source: *const [u8; 16],
        destination: *const [u8; 16],
        error: *mut Error,
    ) -> u32;
    /// Reads the option at a place among the option bytes of a header, and moves the place behind it. A place behind the last byte
    /// is taken as the end. The end of the list, and a fault, leave the place behind the last byte.
    pub fn etherparse_tcp_option_next(
        options: *const u8,
        options_len: usize,
        place: *mut usize,
        option: *mut TcpOption,
        error: *mut Error,
    ) -> u32;
    /// Reads the option of any kind at a place among the option bytes of a header, and moves the place behind it. Kinds that are not known
    /// are passed over by their length byte (RFC 1122, section 4.2.2.5). The place is as of `etherparse_tcp_option_next`.
    pub fn etherparse_tcp_raw_option_next(
        options: *const u8,
        options_len: usize,
        place: *mut usize,
        option: *mut TcpRawOption,
        error: *mut Error,
    ) -> u32;
    /// Writes the bytes of some options, padded with zeros to whole words of four bytes, as `etherparse_tcp_header_write` takes them.
    ///
    /// An option that is no element is refused first, also of more than 40 options, and then more than 40 bytes, with the number of
    /// bytes that all options need.
    pub fn etherparse_tcp_options_write(
        options: *const TcpOption,
        options_len: usize,
        buffer: *mut u8,
        buffer_len: usize,
        written: *mut usize,
        error: *mut Error,
    ) -> u32;
    /// Reads the packet at the front of some bytes: as much as its length field counts, or all of them where that is 0.
    pub fn etherparse_udp_packet_read(bytes: *const u8, bytes_len: usize, read: *mut UdpPacket, error: *mut Error) -> u32;
    /// Reads the packet at the front of some bytes, and where its length field cannot be true, all of them.
    pub fn etherparse_udp_packet_read_lax(bytes: *const u8, bytes_len: usize, read: *mut UdpPacket, error: *mut Error) -> u32;
    /// Writes a header.
    pub fn etherparse_udp_header_write(
        fields: *const UdpHeader,
        buffer: *mut u8,
        buffer_len: usize,
        written: *mut usize,
        error: *mut Error,
    ) -> u32;
    /// What to store as the checksum of the packet at the front of some bytes over IPv4 (RFC 768), whatever its checksum
    /// field. The packet is the one that `etherparse_udp_packet_read` reads. The pseudo header has its length, whatever its length field is.
    pub fn etherparse_udp_checksum_ipv4(
        bytes: *const u8,
        bytes_len: usize,
        source: *const [u8; 4],
        destination: *const [u8; 4],
        checksum: *mut u16,
        error: *mut Error,
    ) -> u32;
    /// What to store as the checksum of the packet at the front of some bytes over IPv6 (RFC 768; RFC 8200, section 8.1), whatever its checksum
    /// field. The packet is the one that `etherparse_udp_packet_read` reads. The pseudo header has its length, whatever its length field is.
    pub fn etherparse_udp_checksum_ipv6(
        bytes: *const u8,
        bytes_len: usize,
        source: *const [u8; 16],
        destination: *const [u8; 16],
        checksum: *mut u16,
        error: *mut Error,
    ) -> u32;
    /// Stores the checksum of the packet at the front of some bytes over IPv4 in bytes 6 and 7, and changes no other byte.
    pub fn etherparse_udp_checksum_store_ipv4(
        bytes: *mut u8,
        bytes_len: usize,
        source: *const [u8; 4],
        destination: *const [u8; 4],
        error: *mut Error,
    ) -> u32;
    /// Stores the checksum of the packet at the front of some bytes over IPv6 in bytes 6 and 7, and changes no other byte.
    pub fn etherparse_udp_checksum_store_ipv6(
        bytes: *mut u8,
        bytes_len: usize,
        source: *const [u8; 16],
        destination: *const [u8; 16],
        error: *mut Error,
    ) -> u32;
    /// Tests the checksum of the packet at the front of some bytes, over IPv4.
    pub fn etherparse_udp_checksum_test_ipv4(
        bytes: *const u8,
        bytes_len: usize,
        source: *const [u8; 4],
        destination: *const [u8; 4],
        error: *mut Error,
    ) -> u32;
    /// Tests the checksum of the packet at the front of some bytes, over IPv6. A checksum 0 is told as absent: the packet is to be
    /// discarded but by tunnels that allow it (RFC 8200, section 8.1; RFC 6935).
    pub fn etherparse_udp_checksum_test_ipv6(
        bytes: *const u8,
        bytes_len: usize,
        source: *const [u8; 16],
        destination: *const [u8; 16],
        error: *mut Error,
    ) -> u32;
    /// The version of the interface: major times 65536, minor times 256, and patch.
    pub fn etherparse_version() -> u32;
}
