// SPDX-FileCopyrightText: 2026 The etherparse_transport developers
// SPDX-License-Identifier: MIT OR Apache-2.0
//! Why a call refused.
use crate::ip::Untested;
use crate::{Text, sys};
use core::fmt;

/// Why a call refused what it was given.
///
/// ```
/// use etherparse_transport_c::{ErrorKind, Layer, LenSource, udp};
///
/// let error = udp::Packet::read(&[0, 1, 2]).unwrap_err();
/// assert_eq!(
///     error.kind(),
///     ErrorKind::Length {
///         layer: Layer::UdpHeader,
///         required_len: 8,
///         len: 3,
///         len_source: LenSource::Slice,
///         layer_start_offset: 0,
///     }
/// );
/// assert!(error.to_string().starts_with("Length Error: layer UdpHeader"));
/// ```
#[derive(Clone, Copy, Debug, PartialEq, Eq, Hash)]
pub struct Error(pub(crate) sys::Error);

/// The reasons, each with its numbers. Lengths are in bytes.
#[non_exhaustive]
#[derive(Clone, Copy, Debug, PartialEq, Eq, Hash)]
pub enum ErrorKind {
    /// A length is too short or too long.
    Length {
        /// The layer that could not be read.
        layer: Layer,
        /// The length that would have been accepted.
        required_len: usize,
        /// The length that there is.
        len: usize,
        /// Where `len` came from.
        len_source: LenSource,
        /// Where the layer starts, from the first byte that was passed.
        layer_start_offset: usize,
    },
    /// The data offset of a TCP header counts fewer than five words of four bytes.
    DataOffset {
        /// The data offset that was read.
        data_offset: u32,
    },
    /// A value is above its limit.
    ValueTooBig {
        /// Which value.
        value_type: ValueType,
        /// The value.
        actual: usize,
        /// The largest value that is allowed.
        max_allowed: usize,
    },
    /// The buffer is too small.
    BufferTooSmall {
        /// The length that is needed.
        required_len: usize,
        /// The length of the buffer.
        len: usize,
    },
    /// More than 40 bytes of TCP options.
    OptionsTooLong {
        /// How many bytes.
        len: usize,
    },
    /// Flags of a TCP header above [`sys::TCP_FLAGS`].
    FlagsUnknown {
        /// The flags.
        flags: usize,
    },
    /// The call does not accept the protocol, such as ICMPv6 over IPv4.
    ProtocolUnknown {
        /// The number of the protocol.
        protocol: usize,
    },
    /// Fewer bytes are left than the TCP option needs.
    OptionCutOff {
        /// The kind of the option.
        kind: u32,
        /// The length that it needs.
        required_len: usize,
        /// The length that is left.
        len: usize,
    },
    /// No TCP option of this kind has this length byte.
    OptionSize {
        /// The kind of the option.
        kind: u32,
        /// Its length byte.
        size: u32,
    },
    /// A kind of TCP option that is not known.
    OptionUnknown {
        /// The kind.
        kind: u32,
    },
    /// Values that a TCP option of this kind does not have.
    OptionValues {
        /// The kind of the option.
        kind: u32,
    },
    /// A kind of ICMP message, or a code of its kind, that is not known.
    MessageUnknown,
    /// The bytes end within an IP header, or there are none.
    IpHeaderCutOff {
        /// The length that is needed.
        required_len: usize,
        /// The length that there is.
        len: usize,
    },
    /// The version of an IP packet is neither 4 nor 6, or a version that the call does not accept.
    IpVersion {
        /// The version.
        version: usize,
    },
    /// The header length of an IPv4 packet is below 20 bytes.
    IpHeaderLength {
        /// The header length.
        len: usize,
    },
    /// The total length of an IPv4 packet is below that of its header.
    IpTotalLength {
        /// The length of the header.
        required_len: usize,
        /// The total length.
        len: usize,
    },
    /// An IP header counts more bytes than there are.
    IpPacketCutOff {
        /// The length that the header counts.
        required_len: usize,
        /// The length that there is.
        len: usize,
    },
    /// A packet ends within an extension header of IPv6, or within the authentication header of IPv4.
    IpExtensionCutOff {
        /// The number of this header in IP.
        protocol: usize,
        /// Where it starts, from the first byte of the packet.
        layer_start_offset: usize,
        /// The length that is needed.
        required_len: usize,
        /// The length that there is.
        len: usize,
    },
    /// The payload length of an IPv6 packet is 0, and the hop-by-hop options after its header have no jumbo payload option.
    IpJumboPayloadMissing,
    /// A jumbo payload length is not above 65,535.
    IpJumboPayloadLength {
        /// The shortest one, 65,536.
        required_len: usize,
        /// The jumbo payload length.
        len: usize,
    },
    /// A jumbo payload option in an IPv6 packet whose payload length is not 0.
    IpJumboPayloadUnexpected {
        /// The payload length.
        payload_len: usize,
    },
    /// A fragment header in an IPv6 packet with a jumbo payload option.
    IpJumboPayloadFragment {
        /// Where it starts, from the first byte of the packet.
        layer_start_offset: usize,
    },
    /// The checksum of the message in an echo request is wrong.
    ChecksumWrong,
    /// The packet is a fragment, in which no echo request is answered.
    EchoFragment,
    /// The packet is no echo request, or has another IP version.
    EchoNoRequest,
    /// The packet contains IPv4 options of another kind than 0 and 1, an authentication header, or IPv6 extension headers.
    EchoHasOptions,
    /// The checksum of the IPv4 header of an echo request is wrong.
    EchoHeaderChecksumWrong,
    /// The source of an echo request is not the address of one host.
    EchoRequestSource,
    /// The source of the reply to an echo request is not the address of one host.
    EchoReplySource,
    /// The ICMP message is not an error, so it quotes no packet. Or it is no message that an ICMP error about a packet can have.
    NoIcmpError,
    /// The IPv4 options contain a loose or strict source route, so the packet is not translated.
    TranslateSourceRoute,
    /// The protocol is not UDP, TCP or ICMP of the IP version of the call, and a port is passed or the protocol covers the addresses.
    TranslateProtocol {
        /// The number of the protocol.
        protocol: usize,
    },
    /// The packet ends within the transport header, which a translation would change.
    TranslateHeaderCutOff {
        /// The length of the shortest header of the protocol.
        required_len: usize,
        /// The length that there is.
        len: usize,
    },
    /// The ICMP message is no query and no error, or a redirect, so the packet is not translated.
    TranslateIcmpMessage,
    /// The packet that the ICMP error is about cannot be translated.
    TranslateQuotedPacket,
    /// The checksum of the packet is not tested, so no checksum is stored in it.
    ChecksumUntested {
        /// Why it is not tested.
        reason: Untested,
    },
    /// The hop limit of the packet is 0 or 1, so it is not lowered.
    HopLimitExpired {
        /// The hop limit.
        hop_limit: usize,
    },
    /// The packet is a later fragment, about which there is no ICMP error.
    IcmpErrorLaterFragment,
    /// The packet may be an ICMP error, about which there is no ICMP error.
    IcmpErrorAboutError,
    /// The destination of the packet is an address of several hosts, so there is no ICMP error about it.
    IcmpErrorAboutGroup,
    /// The source of the packet is not the address of one host, so there is no ICMP error about it.
    IcmpErrorPacketSource,
    /// The source of the ICMP error is not the address of one host.
    IcmpErrorSource,
    /// The packet is a later fragment, so it contains no maximum segment size.
    SegmentSizeLaterFragment,
    /// The segment is not a SYN, so it contains no maximum segment size.
    SegmentSizeNoSyn,
    /// The options of the segment contain no maximum segment size.
    SegmentSizeNoOption,
    /// The length of a prefix is not 32, 40, 48, 56, 64 or 96 bits.
    PrefixLength,
    /// Bits 64 to 71 of a prefix are not 0.
    PrefixReservedOctet,
    /// A bit after a prefix is not 0.
    PrefixSuffix,
    /// The packet is not translated between IPv4 and IPv6, because it does not begin with a whole header of the IP version that the call
    /// reads.
    SiitNoHeader,
    /// The packet is not translated between IPv4 and IPv6, because the checksum of its IPv4 header is wrong.
    SiitHeaderChecksum,
    /// The packet is not translated from IPv4 to IPv6, because it is a fragment of a UDP packet without a checksum.
    SiitFragmentChecksum,
    /// The packet is not translated from IPv6 to IPv4, because an extension header follows its fragment header.
    SiitExtensionHeader,
    /// The packet is not translated from IPv6 to IPv4, because its payload length is above 65,515.
    SiitPayloadLength,
    /// The packet is not translated between IPv4 and IPv6, because its time to live or hop limit is 0 or 1.
    SiitTimeExceeded,
    /// The packet is not translated between IPv4 and IPv6, because its source is not the address of a host.
    SiitSource,
    /// The packet is not translated between IPv4 and IPv6, because its destination is not the address of a host.
    SiitDestination,
    /// The packet is not translated from IPv6 to IPv4, because an address contains no IPv4 address after its prefix.
    SiitNotEmbedded,
    /// The packet is not translated between IPv4 and IPv6, because an IPv4 address is not global, and its prefix is the well-known prefix.
    SiitNotGlobal,
    /// The ICMP error is not translated between IPv4 and IPv6, because its length field is wrong (RFC 4884, section 4).
    SiitIcmpExtension,
    /// The ICMP parameter problem is not translated between IPv4 and IPv6, because its pointer has no translation.
    SiitIcmpPointer,
    /// The packet is not translated between IPv4 and IPv6, because the packet, or the packet that it quotes, ends within its transport
    /// header.
    SiitTransportHeader,
    /// The packet is not translated from IPv4 to IPv6, because it has no UDP checksum, and its UDP length is wrong.
    SiitUdpLength,
    /// The packet is not translated from IPv6 to IPv4, because it has no UDP checksum.
    SiitNoUdpChecksum,
    /// The ICMP message is not translated between IPv4 and IPv6.
    SiitIcmpMessage,
    /// The ICMP error is not translated between IPv4 and IPv6, because the packet that it quotes can't be translated.
    SiitQuotedPacket,
    /// The packet is whole, so it is not a fragment.
    ReassemblyNoFragment,
    /// The first fragment of an IPv6 packet ends within its transport header (RFC 7112).
    ReassemblyHeaderChainCutOff {
        /// The length that would have been accepted, or the length that is needed.
        required_len: usize,
        /// The actual length, or the place after the last byte.
        len: usize,
    },
    /// The fragment belongs to another packet than the first fragment.
    ReassemblyOtherKey,
    /// The fragment has no payload.
    ReassemblyEmpty,
    /// More fragments follow, and the length of the payload is not a multiple of 8.
    ReassemblyFragmentLength {
        /// The actual length, or the place after the last byte.
        len: usize,
    },
    /// The fragment ends beyond 65,535 bytes, the longest payload.
    ReassemblyTooLong {
        /// The actual length, or the place after the last byte.
        len: usize,
    },
    /// The fragment ends beyond the room for the payload.
    ReassemblyRoom {
        /// The length that would have been accepted, or the length that is needed.
        required_len: usize,
        /// The actual length, or the place after the last byte.
        len: usize,
    },
    /// Two last fragments end at different places.
    ReassemblyOtherEnd,
    /// A fragment that is not the last does not end before the last.
    ReassemblyBehindEnd,
    /// The fragment overlaps another fragment, but does not repeat it (RFC 5722).
    ReassemblyOverlap,
    /// The packet has more than 128 fragments.
    ReassemblyTooManyFragments,
    /// Bytes of the payload are missing.
    ReassemblyIncomplete,
    /// The payload is complete, but the whole packet has no room for its headers.
    ReassemblyHeader,
    /// A length counts more bytes than are left.
    ReassemblyLengths {
        /// The length that would have been accepted, or the length that is needed.
        required_len: usize,
        /// The actual length, or the place after the last byte.
        len: usize,
    },
    /// The packet is not translated from IPv6 to IPv4, because an extension header ends after the packet.
    SiitExtensionHeaderCutOff,
    /// The packet is not translated from IPv6 to IPv4, because a routing header has segments left.
    SiitSegmentsLeft,
    /// The packet is not translated between IPv4 and IPv6, because it is a fragment of an ICMP message.
    SiitIcmpFragment,
    /// A status that this crate does not know.
    Other {
        /// The status.
        status: u32,
    },
}

/// The layer whose length was wrong.
#[non_exhaustive]
#[derive(Clone, Copy, Debug, PartialEq, Eq, Hash)]
pub enum Layer {
    /// A UDP header.
    UdpHeader,
    /// The payload of a UDP packet.
    UdpPayload,
    /// A TCP header.
    TcpHeader,
    /// An ICMPv4 header.
    Icmpv4,
    /// An ICMPv4 timestamp message.
    Icmpv4Timestamp,
    /// The reply to an ICMPv4 timestamp message.
    Icmpv4TimestampReply,
    /// An ICMPv6 packet.
    Icmpv6,
    /// A layer that this crate does not know, by its number.
    Other(u32),
}

/// Where a length came from.
#[non_exhaustive]
#[derive(Clone, Copy, Debug, PartialEq, Eq, Hash)]
pub enum LenSource {
    /// The bytes that were passed.
    Slice,
    /// The length field of a UDP header.
    UdpHeaderLen,
    /// A source that this crate does not know, by its number.
    Other(u32),
}

/// Which value was above its limit.
#[non_exhaustive]
#[derive(Clone, Copy, Debug, PartialEq, Eq, Hash)]
pub enum ValueType {
    /// The length of a UDP payload over IPv4.
    UdpPayloadLengthIpv4,
    /// The length of a UDP payload over IPv6.
    UdpPayloadLengthIpv6,
    /// The length of a TCP payload over IPv4.
    TcpPayloadLengthIpv4,
    /// The length of a TCP payload over IPv6.
    TcpPayloadLengthIpv6,
    /// The length of an ICMPv6 payload.
    Icmpv6PayloadLength,
    /// The length of the payload after a transport header in a packet that is written.
    IpPayloadLength,
    /// A value that this crate does not know, by its number.
    Other(u32),
}

impl Layer {
    fn from_number(number: u32) -> Layer {
        match number {
            sys::LAYER_UDP_HEADER => Layer::UdpHeader,
            sys::LAYER_UDP_PAYLOAD => Layer::UdpPayload,
            sys::LAYER_TCP_HEADER => Layer::TcpHeader,
            sys::LAYER_ICMPV4 => Layer::Icmpv4,
            sys::LAYER_ICMPV4_TIMESTAMP => Layer::Icmpv4Timestamp,
            sys::LAYER_ICMPV4_TIMESTAMP_REPLY => Layer::Icmpv4TimestampReply,
            sys::LAYER_ICMPV6 => Layer::Icmpv6,
            number => Layer::Other(number),
        }
    }
}

impl LenSource {
    pub(crate) fn from_number(number: u32) -> LenSource {
        match number {
            sys::LEN_SOURCE_SLICE => LenSource::Slice,
            sys::LEN_SOURCE_UDP_HEADER_LEN => LenSource::UdpHeaderLen,
            number => LenSource::Other(number),
        }
    }
}

impl ValueType {
    fn from_number(number: u32) -> ValueType {
        match number {
            sys::VALUE_UDP_PAYLOAD_LENGTH_IPV4 => ValueType::UdpPayloadLengthIpv4,
            sys::VALUE_UDP_PAYLOAD_LENGTH_IPV6 => ValueType::UdpPayloadLengthIpv6,
            sys::VALUE_TCP_PAYLOAD_LENGTH_IPV4 => ValueType::TcpPayloadLengthIpv4,
            sys::VALUE_TCP_PAYLOAD_LENGTH_IPV6 => ValueType::TcpPayloadLengthIpv6,
            sys::VALUE_ICMPV6_PAYLOAD_LENGTH => ValueType::Icmpv6PayloadLength,
            sys::VALUE_IP_PAYLOAD_LENGTH => ValueType::IpPayloadLength,
            number => ValueType::Other(number),
        }
    }
}

impl Error {
    /// The reason with its numbers.
    pub fn kind(&self) -> ErrorKind {
        let error = &self.0;
        let (required_len, len, kind) = (error.required_len, error.len, error.option_kind);
        match error.status {
            sys::STATUS_LENGTH => ErrorKind::Length {
                layer: Layer::from_number(error.layer),
                required_len,
                len,
                len_source: LenSource::from_number(error.len_source),
                layer_start_offset: error.layer_start_offset,
            },
            sys::STATUS_DATA_OFFSET => ErrorKind::DataOffset { data_offset: error.data_offset },
            sys::STATUS_VALUE_TOO_BIG => ErrorKind::ValueTooBig {
                value_type: ValueType::from_number(error.value_type),
                actual: error.actual,
                max_allowed: error.max_allowed,
            },
            sys::STATUS_BUFFER_TOO_SMALL => ErrorKind::BufferTooSmall { required_len, len },
            sys::STATUS_OPTIONS_TOO_LONG => ErrorKind::OptionsTooLong { len },
            sys::STATUS_FLAGS_UNKNOWN => ErrorKind::FlagsUnknown { flags: error.actual },
            sys::STATUS_PROTOCOL_UNKNOWN => ErrorKind::ProtocolUnknown { protocol: error.actual },
            sys::STATUS_OPTION_CUT_OFF => ErrorKind::OptionCutOff { kind, required_len, len },
            sys::STATUS_OPTION_SIZE => ErrorKind::OptionSize { kind, size: error.option_size },
            sys::STATUS_OPTION_UNKNOWN => ErrorKind::OptionUnknown { kind },
            sys::STATUS_OPTION_VALUES => ErrorKind::OptionValues { kind },
            sys::STATUS_MESSAGE_UNKNOWN => ErrorKind::MessageUnknown,
            sys::STATUS_IP_HEADER_CUT_OFF => ErrorKind::IpHeaderCutOff { required_len, len },
            sys::STATUS_IP_VERSION => ErrorKind::IpVersion { version: error.actual },
            sys::STATUS_IP_HEADER_LENGTH => ErrorKind::IpHeaderLength { len },
            sys::STATUS_IP_TOTAL_LENGTH => ErrorKind::IpTotalLength { required_len, len },
            sys::STATUS_IP_PACKET_CUT_OFF => ErrorKind::IpPacketCutOff { required_len, len },
            sys::STATUS_IP_EXTENSION_CUT_OFF => ErrorKind::IpExtensionCutOff {
                protocol: error.actual,
                layer_start_offset: error.layer_start_offset,
                required_len,
                len,
            },
            sys::STATUS_IP_JUMBO_PAYLOAD_MISSING => ErrorKind::IpJumboPayloadMissing,
            sys::STATUS_IP_JUMBO_PAYLOAD_LENGTH => ErrorKind::IpJumboPayloadLength { required_len, len },
            sys::STATUS_IP_JUMBO_PAYLOAD_UNEXPECTED => ErrorKind::IpJumboPayloadUnexpected { payload_len: error.actual },
            sys::STATUS_IP_JUMBO_PAYLOAD_FRAGMENT => {
                ErrorKind::IpJumboPayloadFragment { layer_start_offset: error.layer_start_offset }
            }
            sys::STATUS_CHECKSUM_WRONG => ErrorKind::ChecksumWrong,
            sys::STATUS_ECHO_FRAGMENT => ErrorKind::EchoFragment,
            sys::STATUS_ECHO_NO_REQUEST => ErrorKind::EchoNoRequest,
            sys::STATUS_ECHO_HAS_OPTIONS => ErrorKind::EchoHasOptions,
            sys::STATUS_ECHO_HEADER_CHECKSUM_WRONG => ErrorKind::EchoHeaderChecksumWrong,
            sys::STATUS_ECHO_REQUEST_SOURCE => ErrorKind::EchoRequestSource,
            sys::STATUS_ECHO_REPLY_SOURCE => ErrorKind::EchoReplySource,
            sys::STATUS_NO_ICMP_ERROR => ErrorKind::NoIcmpError,
            sys::STATUS_TRANSLATE_SOURCE_ROUTE => ErrorKind::TranslateSourceRoute,
            sys::STATUS_TRANSLATE_PROTOCOL => ErrorKind::TranslateProtocol { protocol: error.actual },
            sys::STATUS_TRANSLATE_HEADER_CUT_OFF => ErrorKind::TranslateHeaderCutOff { required_len, len },
            sys::STATUS_TRANSLATE_ICMP_MESSAGE => ErrorKind::TranslateIcmpMessage,
            sys::STATUS_TRANSLATE_QUOTED_PACKET => ErrorKind::TranslateQuotedPacket,
            sys::STATUS_CHECKSUM_UNTESTED => ErrorKind::ChecksumUntested { reason: Untested::from_number(error.actual as u32) },
            sys::STATUS_HOP_LIMIT_EXPIRED => ErrorKind::HopLimitExpired { hop_limit: error.actual },
            sys::STATUS_ICMP_ERROR_LATER_FRAGMENT => ErrorKind::IcmpErrorLaterFragment,
            sys::STATUS_ICMP_ERROR_ABOUT_ERROR => ErrorKind::IcmpErrorAboutError,
            sys::STATUS_ICMP_ERROR_ABOUT_GROUP => ErrorKind::IcmpErrorAboutGroup,
            sys::STATUS_ICMP_ERROR_PACKET_SOURCE => ErrorKind::IcmpErrorPacketSource,
            sys::STATUS_ICMP_ERROR_SOURCE => ErrorKind::IcmpErrorSource,
            sys::STATUS_SEGMENT_SIZE_LATER_FRAGMENT => ErrorKind::SegmentSizeLaterFragment,
            sys::STATUS_SEGMENT_SIZE_NO_SYN => ErrorKind::SegmentSizeNoSyn,
            sys::STATUS_SEGMENT_SIZE_NO_OPTION => ErrorKind::SegmentSizeNoOption,
            sys::STATUS_PREFIX_LENGTH => ErrorKind::PrefixLength,
            sys::STATUS_PREFIX_RESERVED_OCTET => ErrorKind::PrefixReservedOctet,
            sys::STATUS_PREFIX_SUFFIX => ErrorKind::PrefixSuffix,
            sys::STATUS_SIIT_NO_HEADER => ErrorKind::SiitNoHeader,
            sys::STATUS_SIIT_HEADER_CHECKSUM => ErrorKind::SiitHeaderChecksum,
            sys::STATUS_SIIT_FRAGMENT_CHECKSUM => ErrorKind::SiitFragmentChecksum,
            sys::STATUS_SIIT_EXTENSION_HEADER => ErrorKind::SiitExtensionHeader,
            sys::STATUS_SIIT_PAYLOAD_LENGTH => ErrorKind::SiitPayloadLength,
            sys::STATUS_SIIT_TIME_EXCEEDED => ErrorKind::SiitTimeExceeded,
            sys::STATUS_SIIT_SOURCE => ErrorKind::SiitSource,
            sys::STATUS_SIIT_DESTINATION => ErrorKind::SiitDestination,
            sys::STATUS_SIIT_NOT_EMBEDDED => ErrorKind::SiitNotEmbedded,
            sys::STATUS_SIIT_NOT_GLOBAL => ErrorKind::SiitNotGlobal,
            sys::STATUS_SIIT_ICMP_EXTENSION => ErrorKind::SiitIcmpExtension,
            sys::STATUS_SIIT_ICMP_POINTER => ErrorKind::SiitIcmpPointer,
            sys::STATUS_SIIT_TRANSPORT_HEADER => ErrorKind::SiitTransportHeader,
            sys::STATUS_SIIT_UDP_LENGTH => ErrorKind::SiitUdpLength,
            sys::STATUS_SIIT_NO_UDP_CHECKSUM => ErrorKind::SiitNoUdpChecksum,
            sys::STATUS_SIIT_ICMP_MESSAGE => ErrorKind::SiitIcmpMessage,
            sys::STATUS_SIIT_QUOTED_PACKET => ErrorKind::SiitQuotedPacket,
            sys::STATUS_REASSEMBLY_NO_FRAGMENT => ErrorKind::ReassemblyNoFragment,
            sys::STATUS_REASSEMBLY_HEADER_CHAIN_CUT_OFF => ErrorKind::ReassemblyHeaderChainCutOff { required_len, len },
            sys::STATUS_REASSEMBLY_OTHER_KEY => ErrorKind::ReassemblyOtherKey,
            sys::STATUS_REASSEMBLY_EMPTY => ErrorKind::ReassemblyEmpty,
            sys::STATUS_REASSEMBLY_FRAGMENT_LENGTH => ErrorKind::ReassemblyFragmentLength { len },
            sys::STATUS_REASSEMBLY_TOO_LONG => ErrorKind::ReassemblyTooLong { len },
            sys::STATUS_REASSEMBLY_ROOM => ErrorKind::ReassemblyRoom { required_len, len },
            sys::STATUS_REASSEMBLY_OTHER_END => ErrorKind::ReassemblyOtherEnd,
            sys::STATUS_REASSEMBLY_BEHIND_END => ErrorKind::ReassemblyBehindEnd,
            sys::STATUS_REASSEMBLY_OVERLAP => ErrorKind::ReassemblyOverlap,
            sys::STATUS_REASSEMBLY_TOO_MANY_FRAGMENTS => ErrorKind::ReassemblyTooManyFragments,
            sys::STATUS_REASSEMBLY_INCOMPLETE => ErrorKind::ReassemblyIncomplete,
            sys::STATUS_REASSEMBLY_HEADER => ErrorKind::ReassemblyHeader,
            sys::STATUS_REASSEMBLY_LENGTHS => ErrorKind::ReassemblyLengths { required_len, len },
            sys::STATUS_SIIT_EXTENSION_HEADER_CUT_OFF => ErrorKind::SiitExtensionHeaderCutOff,
            sys::STATUS_SIIT_SEGMENTS_LEFT => ErrorKind::SiitSegmentsLeft,
            sys::STATUS_SIIT_ICMP_FRAGMENT => ErrorKind::SiitIcmpFragment,
            status => ErrorKind::Other { status },
        }
    }

    /// The name of the status in the header in C.
    ///
    /// ```
    /// let error = etherparse_transport_c::udp::Packet::read(&[]).unwrap_err();
    /// assert_eq!(&*error.status_name(), "ETHERPARSE_STATUS_LENGTH");
    /// ```
    pub fn status_name(&self) -> Text {
        Text::status_name(self.0.status)
    }

    /// What the status means, in a few words. The text of the error says more.
    ///
    /// ```
    /// let error = etherparse_transport_c::udp::Packet::read(&[]).unwrap_err();
    /// assert_eq!(error.status_text().to_string(), "a length is too short or too long");
    /// ```
    pub fn status_text(&self) -> Text {
        Text::status_text(self.0.status)
    }

    /// The error as the library fills it.
    pub fn as_sys(&self) -> &sys::Error {
        &self.0
    }
}

impl fmt::Display for Error {
    fn fmt(&self, formatter: &mut fmt::Formatter<'_>) -> fmt::Result {
        let mut text = [0; sys::ERROR_TEXT_MAX_LEN + 1];
        // SAFETY: each pointer is that of a live reference, and no two overlap.
        let len = unsafe { sys::etherparse_error_text(&self.0, text.as_mut_ptr(), text.len()) };
        match core::str::from_utf8(&text[..len]) {
            Ok(text) => formatter.write_str(text),
            Err(_) => write!(formatter, "status {}", self.0.status),
        }
    }
}

impl core::error::Error for Error {}
