# SPDX-FileCopyrightText: 2026 The etherparse_transport developers
# SPDX-License-Identifier: MIT OR Apache-2.0
"""Reads and writes UDP, TCP, ICMPv4 and ICMPv6, finds them in IP packets, tests and computes their checksums, answers echo requests, and
translates addresses.

This module is one file. It calls the shared library of etherparse_transport by ctypes, so there is nothing to build. The environment
variable ETHERPARSE_TRANSPORT_LIBRARY contains the path of the library. If it is not set, the library is the file next to this module, which
a wheel contains, or the system looks for the library by its name.

    import etherparse_transport

    try:
        found = etherparse_transport.verdict(packet)
    except etherparse_transport.Error as error:
        print(f"refused: {error}")
    else:
        print(found.transport.source, found.transport.destination, found.kind.name)

A packet is an IP packet in `bytes`, or in another object that `bytes()` accepts, such as a `bytearray`. It begins at the IP header: remove
the header of Ethernet before. A message is the transport in the packet, header and payload: `found.transport.payload`. To send a message,
write its header in front of the payload, and store its checksum: functions whose names begin with `store` change a `bytearray` in place.

Calls can be made from several threads at the same time. What the functions return or raise can be pickled. Python 3.8 is needed.
"""
from __future__ import annotations

import copyreg
import ctypes
import enum
import functools
import ipaddress
import operator
import os
from dataclasses import dataclass, field
from typing import Any, Collection, Iterable, Iterator, Mapping, Union

__all__ = [
    "ChecksumChange", "Error", "Flow", "FlowEnds", "Fragment", "HeaderAddresses", "Icmpv4Kind", "Icmpv4Packet",
    "Icmpv4ParameterProblemCode", "Icmpv4RedirectCode", "Icmpv4TimeExceededCode", "Icmpv4Type", "Icmpv4UnreachableCode", "Icmpv6Kind",
    "Icmpv6Packet", "Icmpv6ParameterProblemCode", "Icmpv6TimeExceededCode", "Icmpv6Type", "Icmpv6UnreachableCode", "Layer", "LenSource",
    "NeighborFlags", "Protocol", "RouterFlags", "Status", "Sum", "TcpFlags", "TcpOption", "TcpOptionKind", "TcpOptionValues", "TcpPacket",
    "Transport", "UdpPacket", "ValueType", "Verdict", "VerdictKind", "answer_echo", "canonical_header", "check_icmpv4", "check_icmpv6",
    "check_ipv4_header", "check_tcp", "check_udp", "flow", "header_addresses", "icmpv4_checksum", "icmpv4_error_about", "icmpv6_checksum",
    "icmpv6_error_about", "ipv4_header_checksum", "ipv4_to_ipv6", "ipv6_to_ipv4", "is_checksum_partial", "is_reply_from_any", "is_reply_to",
    "library_version", "lower_hop_limit", "lower_maximum_segment_size", "quoted_by_icmpv4", "quoted_by_icmpv6", "read_fragment",
    "read_icmpv4", "read_icmpv6", "read_tcp", "read_udp", "reassemble", "status_name", "store_checksum", "store_icmpv4_checksum",
    "store_icmpv6_checksum", "store_ipv4_header_checksum", "store_tcp_checksum", "store_tcp_header", "store_udp_checksum", "tcp_checksum",
    "tcp_option_values", "tcp_options", "translate", "transport", "udp_checksum", "verdict", "verdict_name", "write_icmpv4_header",
    "write_icmpv6_header", "write_packet", "write_tcp_header", "write_tcp_options", "write_udp_header",
]

Bytes = Union[bytes, bytearray, memoryview]
Address = Union[ipaddress.IPv4Address, ipaddress.IPv6Address]
AnyAddress = Union[ipaddress.IPv4Address, ipaddress.IPv6Address, str, bytes]
AnyPrefix = Union[ipaddress.IPv6Network, str]

# The part of the library's version that has to match, in this form part of its name.
_INTERFACE = "0.5"


# ---- numbers


class _Number(enum.IntEnum):
    """Numbers of the library. A number that this module does not know has the name UNKNOWN_ and the number: later versions add some."""

    @classmethod
    def _missing_(cls, value: object) -> Any:
        if not isinstance(value, int):
            return None
        number = int.__new__(cls, value)
        number._name_ = f"UNKNOWN_{value}"
        number._value_ = value
        return number

    def __reduce_ex__(self, protocol: Any) -> tuple:
        """By its number, since some versions of Python pickle a member by its name, which an unknown number does not have."""
        return type(self), (int(self),)


class Status(_Number):
    """Why a call refused."""

    LENGTH = 1
    DATA_OFFSET = 2
    VALUE_TOO_BIG = 3
    BUFFER_TOO_SMALL = 4
    CHECKSUM_WRONG = 5
    CHECKSUM_ABSENT = 6
    OPTIONS_TOO_LONG = 7
    FLAGS_UNKNOWN = 8
    PROTOCOL_UNKNOWN = 9
    OPTIONS_END = 10
    OPTION_CUT_OFF = 11
    OPTION_SIZE = 12
    OPTION_UNKNOWN = 13
    MESSAGE_UNKNOWN = 14
    IP_HEADER_CUT_OFF = 15
    IP_VERSION = 16
    IP_HEADER_LENGTH = 17
    IP_TOTAL_LENGTH = 18
    IP_PACKET_CUT_OFF = 19
    IP_EXTENSION_CUT_OFF = 20
    IP_JUMBO_PAYLOAD_MISSING = 21
    IP_JUMBO_PAYLOAD_LENGTH = 22
    IP_JUMBO_PAYLOAD_UNEXPECTED = 23
    IP_JUMBO_PAYLOAD_FRAGMENT = 24
    OPTION_VALUES = 31
    ECHO_FRAGMENT = 32
    ECHO_NO_REQUEST = 33
    ECHO_HAS_OPTIONS = 34
    ECHO_HEADER_CHECKSUM_WRONG = 35
    ECHO_REQUEST_SOURCE = 36
    ECHO_REPLY_SOURCE = 37
    NO_ICMP_ERROR = 38
    TRANSLATE_HAS_OPTIONS = 39
    TRANSLATE_PROTOCOL = 40
    TRANSLATE_HEADER_CUT_OFF = 41
    TRANSLATE_ICMP_MESSAGE = 42
    TRANSLATE_QUOTED_PACKET = 43
    ECHO_NO_REPLY = 44
    TRANSLATE_SOURCE_ROUTE = 45
    CHECKSUM_UNTESTED = 46
    HOP_LIMIT_EXPIRED = 47
    ICMP_ERROR_LATER_FRAGMENT = 48
    ICMP_ERROR_ABOUT_ERROR = 49
    ICMP_ERROR_ABOUT_GROUP = 50
    ICMP_ERROR_PACKET_SOURCE = 51
    ICMP_ERROR_SOURCE = 52
    SEGMENT_SIZE_LATER_FRAGMENT = 53
    SEGMENT_SIZE_NO_SYN = 54
    SEGMENT_SIZE_NO_OPTION = 55
    PREFIX_LENGTH = 56
    PREFIX_RESERVED_OCTET = 57
    PREFIX_SUFFIX = 58
    SIIT_NO_HEADER = 59
    SIIT_HEADER_CHECKSUM = 60
    SIIT_FRAGMENT_CHECKSUM = 61
    SIIT_EXTENSION_HEADER = 62
    SIIT_PAYLOAD_LENGTH = 63
    SIIT_TIME_EXCEEDED = 64
    SIIT_SOURCE = 65
    SIIT_DESTINATION = 66
    SIIT_NOT_EMBEDDED = 67
    SIIT_NOT_GLOBAL = 68
    SIIT_ICMP_EXTENSION = 69
    SIIT_ICMP_POINTER = 70
    SIIT_TRANSPORT_HEADER = 71
    SIIT_UDP_LENGTH = 72
    SIIT_NO_UDP_CHECKSUM = 73
    SIIT_ICMP_MESSAGE = 74
    SIIT_QUOTED_PACKET = 75
    REASSEMBLY_NO_FRAGMENT = 76
    REASSEMBLY_HEADER_CHAIN_CUT_OFF = 77
    REASSEMBLY_OTHER_KEY = 78
    REASSEMBLY_EMPTY = 79
    REASSEMBLY_FRAGMENT_LENGTH = 80
    REASSEMBLY_TOO_LONG = 81
    REASSEMBLY_ROOM = 82
    REASSEMBLY_OTHER_END = 83
    REASSEMBLY_BEHIND_END = 84
    REASSEMBLY_OVERLAP = 85
    REASSEMBLY_TOO_MANY_FRAGMENTS = 86
    REASSEMBLY_INCOMPLETE = 87
    REASSEMBLY_HEADER = 88
    REASSEMBLY_LENGTHS = 89
    SIIT_EXTENSION_HEADER_CUT_OFF = 90
    SIIT_SEGMENTS_LEFT = 91
    SIIT_ICMP_FRAGMENT = 92

    @property
    def text(self) -> str:
        """What the status means, in a few words. The text of an `Error` says more."""
        return _words("status_text", self)


class Layer(_Number):
    """The layer whose length was wrong. 0 is none."""

    UDP_HEADER = 1
    UDP_PAYLOAD = 2
    TCP_HEADER = 3
    ICMPV4 = 4
    ICMPV4_TIMESTAMP = 5
    ICMPV4_TIMESTAMP_REPLY = 6
    ICMPV6 = 7


class LenSource(_Number):
    """Where a length came from: the number of bytes, or the length field of a UDP header. 0 is none."""

    SLICE = 1
    UDP_HEADER_LEN = 2


class ValueType(_Number):
    """Which value was above its limit. 0 is none."""

    UDP_PAYLOAD_LENGTH_IPV4 = 1
    UDP_PAYLOAD_LENGTH_IPV6 = 2
    TCP_PAYLOAD_LENGTH_IPV4 = 3
    TCP_PAYLOAD_LENGTH_IPV6 = 4
    ICMPV6_PAYLOAD_LENGTH = 5
    IP_PAYLOAD_LENGTH = 6


class Protocol(_Number):
    """The protocols that the library reads, by the numbers that IP has for them."""

    ICMPV4 = 1
    TCP = 6
    UDP = 17
    ICMPV6 = 58


class VerdictKind(_Number):
    """The verdict on a checksum. From 16 on it is the reason why the checksum was not tested."""

    RIGHT = 1
    ABSENT = 2
    WRONG = 3
    PARTIAL = 4
    UNTESTED_FRAGMENT = 16
    UNTESTED_CUT_OFF = 17
    UNTESTED_UNKNOWN_DESTINATION = 18
    UNTESTED_OTHER_PROTOCOL = 19
    UNTESTED_ZERO_LENGTH = 20
    UNTESTED_TOO_LONG = 21


class TcpFlags(enum.IntFlag):
    """The flags of a TCP header."""

    FIN = 0x001
    SYN = 0x002
    RST = 0x004
    PSH = 0x008
    ACK = 0x010
    URG = 0x020
    ECE = 0x040
    CWR = 0x080
    NS = 0x100


class TcpOptionKind(_Number):
    """The kinds of TCP options whose values the library knows. `tcp_options` returns options of other kinds too."""

    NOOP = 1
    MAXIMUM_SEGMENT_SIZE = 2
    WINDOW_SCALE = 3
    SACK_PERMITTED = 4
    SACK = 5
    TIMESTAMP = 8


class Icmpv4Kind(_Number):
    """How the library reads an ICMPv4 message. It is not the type of the packet."""

    UNKNOWN = 0
    ECHO_REPLY = 1
    DESTINATION_UNREACHABLE = 2
    REDIRECT = 3
    ECHO_REQUEST = 4
    TIME_EXCEEDED = 5
    PARAMETER_PROBLEM = 6
    TIMESTAMP_REQUEST = 7
    TIMESTAMP_REPLY = 8


class Icmpv4Type(_Number):
    """The types of ICMPv4 messages (RFC 792): byte 0."""

    ECHO_REPLY = 0
    DESTINATION_UNREACHABLE = 3
    SOURCE_QUENCH = 4
    REDIRECT = 5
    ALTERNATE_HOST_ADDRESS = 6
    ECHO_REQUEST = 8
    ROUTER_ADVERTISEMENT = 9
    ROUTER_SOLICITATION = 10
    TIME_EXCEEDED = 11
    PARAMETER_PROBLEM = 12
    TIMESTAMP_REQUEST = 13
    TIMESTAMP_REPLY = 14
    INFORMATION_REQUEST = 15
    INFORMATION_REPLY = 16
    ADDRESS_MASK_REQUEST = 17
    ADDRESS_MASK_REPLY = 18


class Icmpv4UnreachableCode(_Number):
    """The codes of destination unreachable: 0 to 5 (RFC 792), 6 to 12 (RFC 1122, section 3.2.2.1), 13 to 15 (RFC 1812, section 5.2.7.1)."""

    NETWORK_UNREACHABLE = 0
    HOST_UNREACHABLE = 1
    PROTOCOL_UNREACHABLE = 2
    PORT_UNREACHABLE = 3
    FRAGMENTATION_NEEDED = 4
    SOURCE_ROUTE_FAILED = 5
    NETWORK_UNKNOWN = 6
    HOST_UNKNOWN = 7
    SOURCE_HOST_ISOLATED = 8
    NETWORK_PROHIBITED = 9
    HOST_PROHIBITED = 10
    NETWORK_UNREACHABLE_FOR_SERVICE = 11
    HOST_UNREACHABLE_FOR_SERVICE = 12
    COMMUNICATION_PROHIBITED = 13
    HOST_PRECEDENCE_VIOLATION = 14
    PRECEDENCE_CUTOFF = 15


class Icmpv4RedirectCode(_Number):
    """The codes of redirect (RFC 792)."""

    NETWORK = 0
    HOST = 1
    NETWORK_FOR_SERVICE = 2
    HOST_FOR_SERVICE = 3


class Icmpv4TimeExceededCode(_Number):
    """The codes of time exceeded (RFC 792)."""

    TIME_TO_LIVE_EXCEEDED = 0
    REASSEMBLY_TIME_EXCEEDED = 1


class Icmpv4ParameterProblemCode(_Number):
    """The codes of parameter problem: 0 (RFC 792), 1 (RFC 1122, section 3.2.2.5), 2 (no RFC)."""

    POINTER_INDICATES_ERROR = 0
    REQUIRED_OPTION_MISSING = 1
    BAD_LENGTH = 2


class Icmpv6Kind(_Number):
    """How the library reads an ICMPv6 message. It is not the type of the packet."""

    UNKNOWN = 0
    DESTINATION_UNREACHABLE = 1
    PACKET_TOO_BIG = 2
    TIME_EXCEEDED = 3
    PARAMETER_PROBLEM = 4
    ECHO_REQUEST = 5
    ECHO_REPLY = 6
    ROUTER_SOLICITATION = 7
    ROUTER_ADVERTISEMENT = 8
    NEIGHBOR_SOLICITATION = 9
    NEIGHBOR_ADVERTISEMENT = 10
    REDIRECT = 11


class Icmpv6Type(_Number):
    """The types of ICMPv6 messages: 1 to 129 (RFC 4443), 133 to 137 (RFC 4861). It is byte 0."""

    DESTINATION_UNREACHABLE = 1
    PACKET_TOO_BIG = 2
    TIME_EXCEEDED = 3
    PARAMETER_PROBLEM = 4
    ECHO_REQUEST = 128
    ECHO_REPLY = 129
    MULTICAST_LISTENER_QUERY = 130
    MULTICAST_LISTENER_REPORT = 131
    MULTICAST_LISTENER_DONE = 132
    ROUTER_SOLICITATION = 133
    ROUTER_ADVERTISEMENT = 134
    NEIGHBOR_SOLICITATION = 135
    NEIGHBOR_ADVERTISEMENT = 136
    REDIRECT = 137
    ROUTER_RENUMBERING = 138
    INVERSE_NEIGHBOR_SOLICITATION = 141
    INVERSE_NEIGHBOR_ADVERTISEMENT = 142
    EXTENDED_ECHO_REQUEST = 160
    EXTENDED_ECHO_REPLY = 161


class Icmpv6UnreachableCode(_Number):
    """The codes of destination unreachable (RFC 4443, section 3.1)."""

    NO_ROUTE = 0
    COMMUNICATION_PROHIBITED = 1
    BEYOND_SCOPE = 2
    ADDRESS_UNREACHABLE = 3
    PORT_UNREACHABLE = 4
    SOURCE_ADDRESS_FAILED_POLICY = 5
    REJECT_ROUTE = 6


class Icmpv6TimeExceededCode(_Number):
    """The codes of time exceeded (RFC 4443, section 3.3)."""

    HOP_LIMIT_EXCEEDED = 0
    REASSEMBLY_TIME_EXCEEDED = 1


class Icmpv6ParameterProblemCode(_Number):
    """The codes of parameter problem: 0 to 2 (RFC 4443, section 3.4), 3 (RFC 7112), 4 (RFC 8754), 5 to 10 (RFC 8883)."""

    ERRONEOUS_HEADER_FIELD = 0
    UNRECOGNIZED_NEXT_HEADER = 1
    UNRECOGNIZED_OPTION = 2
    INCOMPLETE_HEADER_CHAIN = 3
    UPPER_LAYER_HEADER_ERROR = 4
    NEXT_HEADER_UNRECOGNIZED_BY_ROUTER = 5
    EXTENSION_HEADER_TOO_BIG = 6
    EXTENSION_HEADER_CHAIN_TOO_LONG = 7
    TOO_MANY_EXTENSION_HEADERS = 8
    TOO_MANY_OPTIONS = 9
    OPTION_TOO_BIG = 10


class RouterFlags(enum.IntFlag):
    """The flags of a router advertisement."""

    MANAGED = 0x80
    OTHER_CONFIG = 0x40


class NeighborFlags(enum.IntFlag):
    """The flags of a neighbor advertisement."""

    ROUTER = 0x80
    SOLICITED = 0x40
    OVERRIDE = 0x20


# ---- the library


class _Error(ctypes.Structure):
    _fields_ = [
        ("status", ctypes.c_uint32),
        ("layer", ctypes.c_uint32),
        ("len_source", ctypes.c_uint32),
        ("value_type", ctypes.c_uint32),
        ("data_offset", ctypes.c_uint32),
        ("option_kind", ctypes.c_uint32),
        ("option_size", ctypes.c_uint32),
        ("required_len", ctypes.c_size_t),
        ("len", ctypes.c_size_t),
        ("layer_start_offset", ctypes.c_size_t),
        ("actual", ctypes.c_size_t),
        ("max_allowed", ctypes.c_size_t),
    ]


class _IpTransport(ctypes.Structure):
    _fields_ = [
        ("version", ctypes.c_uint32),
        ("protocol", ctypes.c_uint32),
        ("payload_offset", ctypes.c_size_t),
        ("payload_len", ctypes.c_size_t),
        ("is_fragment", ctypes.c_uint32),
        ("is_cut_off", ctypes.c_uint32),
        ("has_destination", ctypes.c_uint32),
        ("source", ctypes.c_uint8 * 16),
        ("destination", ctypes.c_uint8 * 16),
        ("is_length_missing", ctypes.c_uint32),
        ("is_later_fragment", ctypes.c_uint32),
        ("hop_limit", ctypes.c_uint32),
        ("fragment_offset", ctypes.c_uint32),
        ("identification", ctypes.c_uint32),
        ("dont_fragment", ctypes.c_uint32),
        ("traffic_class", ctypes.c_uint32),
    ]


class _IpAddresses(ctypes.Structure):
    _fields_ = [("version", ctypes.c_uint32), ("source", ctypes.c_uint8 * 16), ("destination", ctypes.c_uint8 * 16)]


class _FlowEnds(ctypes.Structure):
    _fields_ = [
        ("version", ctypes.c_uint32),
        ("protocol", ctypes.c_uint32),
        ("is_fragment", ctypes.c_uint32),
        ("is_later_fragment", ctypes.c_uint32),
        ("has_destination", ctypes.c_uint32),
        ("has_source_port", ctypes.c_uint32),
        ("has_destination_port", ctypes.c_uint32),
        ("source_port", ctypes.c_uint16),
        ("destination_port", ctypes.c_uint16),
        ("source", ctypes.c_uint8 * 16),
        ("destination", ctypes.c_uint8 * 16),
    ]


class _PacketFlow(ctypes.Structure):
    _fields_ = [("ends", _FlowEnds), ("quoted", _FlowEnds)]


class _Fragment(ctypes.Structure):
    _fields_ = [
        ("version", ctypes.c_uint32),
        ("protocol", ctypes.c_uint32),
        ("identification", ctypes.c_uint32),
        ("offset", ctypes.c_uint32),
        ("more_fragments", ctypes.c_uint32),
        ("source", ctypes.c_uint8 * 16),
        ("destination", ctypes.c_uint8 * 16),
        ("payload_offset", ctypes.c_size_t),
        ("payload_len", ctypes.c_size_t),
    ]


class _Ipv4Header(ctypes.Structure):
    _fields_ = [
        ("source", ctypes.c_uint8 * 4),
        ("destination", ctypes.c_uint8 * 4),
        ("time_to_live", ctypes.c_uint8),
        ("protocol", ctypes.c_uint8),
    ]


class _Ipv6Header(ctypes.Structure):
    _fields_ = [
        ("source", ctypes.c_uint8 * 16),
        ("destination", ctypes.c_uint8 * 16),
        ("hop_limit", ctypes.c_uint8),
        ("next_header", ctypes.c_uint8),
    ]


class _Prefix64(ctypes.Structure):
    _fields_ = [
        ("address", ctypes.c_uint8 * 16),
        ("len", ctypes.c_uint8),
    ]


class _Ipv4Translation(ctypes.Structure):
    _fields_ = [
        ("source", ctypes.c_uint8 * 4),
        ("destination", ctypes.c_uint8 * 4),
        ("source_port", ctypes.c_uint16),
        ("destination_port", ctypes.c_uint16),
        ("has_source", ctypes.c_uint8),
        ("has_destination", ctypes.c_uint8),
        ("has_source_port", ctypes.c_uint8),
        ("has_destination_port", ctypes.c_uint8),
    ]


class _Ipv6Translation(ctypes.Structure):
    _fields_ = [
        ("source", ctypes.c_uint8 * 16),
        ("destination", ctypes.c_uint8 * 16),
        ("source_port", ctypes.c_uint16),
        ("destination_port", ctypes.c_uint16),
        ("has_source", ctypes.c_uint8),
        ("has_destination", ctypes.c_uint8),
        ("has_source_port", ctypes.c_uint8),
        ("has_destination_port", ctypes.c_uint8),
    ]


class _IpPacket(ctypes.Structure):
    _fields_ = [
        ("transport", _IpTransport),
        ("header_protocol", ctypes.c_uint32),
        ("verdict", ctypes.c_uint32),
        ("expected_checksum", ctypes.c_uint16),
    ]


class _UdpHeader(ctypes.Structure):
    _fields_ = [
        ("source_port", ctypes.c_uint16),
        ("destination_port", ctypes.c_uint16),
        ("length", ctypes.c_uint16),
        ("checksum", ctypes.c_uint16),
    ]


class _UdpPacket(ctypes.Structure):
    _fields_ = [
        ("header", _UdpHeader),
        ("payload_offset", ctypes.c_size_t),
        ("payload_len", ctypes.c_size_t),
        ("payload_len_source", ctypes.c_uint32),
    ]


class _TcpHeader(ctypes.Structure):
    _fields_ = [
        ("sequence_number", ctypes.c_uint32),
        ("acknowledgment_number", ctypes.c_uint32),
        ("source_port", ctypes.c_uint16),
        ("destination_port", ctypes.c_uint16),
        ("flags", ctypes.c_uint16),
        ("window_size", ctypes.c_uint16),
        ("checksum", ctypes.c_uint16),
        ("urgent_pointer", ctypes.c_uint16),
    ]


class _TcpPacket(ctypes.Structure):
    _fields_ = [
        ("header", _TcpHeader),
        ("options_offset", ctypes.c_size_t),
        ("options_len", ctypes.c_size_t),
        ("payload_offset", ctypes.c_size_t),
        ("payload_len", ctypes.c_size_t),
    ]


class _TcpOption(ctypes.Structure):
    _fields_ = [("kind", ctypes.c_uint32), ("value_count", ctypes.c_uint32), ("values", ctypes.c_uint32 * 8)]


class _TcpRawOption(ctypes.Structure):
    _fields_ = [
        ("kind", ctypes.c_uint32),
        ("value_offset", ctypes.c_size_t),
        ("value_len", ctypes.c_size_t),
    ]


class _Icmpv4Header(ctypes.Structure):
    _fields_ = [
        ("kind", ctypes.c_uint32),
        ("originate_timestamp", ctypes.c_uint32),
        ("receive_timestamp", ctypes.c_uint32),
        ("transmit_timestamp", ctypes.c_uint32),
        ("checksum", ctypes.c_uint16),
        ("id", ctypes.c_uint16),
        ("sequence_number", ctypes.c_uint16),
        ("next_hop_mtu", ctypes.c_uint16),
        ("type", ctypes.c_uint8),
        ("code", ctypes.c_uint8),
        ("pointer", ctypes.c_uint8),
        ("bytes4to7", ctypes.c_uint8 * 4),
    ]


class _Icmpv4Packet(ctypes.Structure):
    _fields_ = [
        ("header", _Icmpv4Header),
        ("payload_offset", ctypes.c_size_t),
        ("payload_len", ctypes.c_size_t),
    ]


class _Icmpv6Header(ctypes.Structure):
    _fields_ = [
        ("kind", ctypes.c_uint32),
        ("mtu", ctypes.c_uint32),
        ("pointer", ctypes.c_uint32),
        ("checksum", ctypes.c_uint16),
        ("id", ctypes.c_uint16),
        ("sequence_number", ctypes.c_uint16),
        ("router_lifetime", ctypes.c_uint16),
        ("cur_hop_limit", ctypes.c_uint8),
        ("flags", ctypes.c_uint8),
        ("type", ctypes.c_uint8),
        ("code", ctypes.c_uint8),
        ("bytes4to7", ctypes.c_uint8 * 4),
    ]


class _Icmpv6Packet(ctypes.Structure):
    _fields_ = [
        ("header", _Icmpv6Header),
        ("payload_offset", ctypes.c_size_t),
        ("payload_len", ctypes.c_size_t),
    ]


class _Sum(ctypes.Structure):
    _fields_ = [("value", ctypes.c_uint16)]


class _ChecksumChange(ctypes.Structure):
    _fields_ = [("removed", ctypes.c_uint16), ("added", ctypes.c_uint16)]


# The parameters of calls: bytes with their length, the addresses of a pseudo header, an error, and the length of a result with an error.
_PACKET = (ctypes.c_char_p, ctypes.c_size_t)
_ADDRESSES = (ctypes.c_char_p, ctypes.c_char_p)
_ERROR = (ctypes.POINTER(_Error),)
_REPLY = (ctypes.POINTER(ctypes.c_size_t), *_ERROR)
_BYTES_AND_ADDRESSES = (*_PACKET, *_ADDRESSES, *_ERROR)
_CHECKSUM = (ctypes.POINTER(ctypes.c_uint16), *_ERROR)
_TEXT = (ctypes.c_char_p, ctypes.c_size_t)


def _reader(packet: Any) -> tuple:
    """The parameters of a call that reads bytes into a struct."""
    return *_PACKET, ctypes.POINTER(packet), *_ERROR


def _writer(header: Any) -> tuple:
    """The parameters of a call that writes a header."""
    return ctypes.POINTER(header), *_PACKET, *_REPLY


# The result and the parameters of each call.
_CALLS = {
    "version": (ctypes.c_uint32,),
    "error_text": (ctypes.c_size_t, ctypes.POINTER(_Error), ctypes.c_char_p, ctypes.c_size_t),
    "status_text": (ctypes.c_size_t, ctypes.c_uint32, *_TEXT),
    "status_name": (ctypes.c_size_t, ctypes.c_uint32, *_TEXT),
    "verdict_name": (ctypes.c_size_t, ctypes.c_uint32, *_TEXT),
    "ip_header_addresses": (ctypes.c_uint32, *_reader(_IpAddresses)),
    "ipv4_header_checksum": (ctypes.c_uint32, *_PACKET, *_CHECKSUM),
    "ipv4_header_checksum_store": (ctypes.c_uint32, *_PACKET, *_ERROR),
    "ipv4_header_checksum_test": (ctypes.c_uint32, *_PACKET, *_ERROR),
    "transport_in_ip": (ctypes.c_uint32, *_reader(_IpTransport)),
    "transport_in_ip_lax": (ctypes.c_uint32, *_reader(_IpTransport)),
    "flow": (ctypes.c_uint32, *_reader(_PacketFlow)),
    "fragment_read": (ctypes.c_uint32, *_reader(_Fragment)),
    "reassembly_packet": (
        ctypes.c_uint32, *_PACKET, ctypes.POINTER(ctypes.c_size_t), ctypes.c_size_t, *_PACKET, *_PACKET, *_REPLY,
    ),
    "write_packet_ipv4": (ctypes.c_uint32, ctypes.POINTER(_Ipv4Header), *_PACKET, *_PACKET, *_REPLY),
    "write_packet_ipv6": (ctypes.c_uint32, ctypes.POINTER(_Ipv6Header), *_PACKET, *_PACKET, *_REPLY),
    "packet_verdict": (ctypes.c_uint32, *_reader(_IpPacket)),
    "packet_verdict_lax": (ctypes.c_uint32, *_reader(_IpPacket)),
    "udp_packet_read": (ctypes.c_uint32, *_reader(_UdpPacket)),
    "udp_packet_read_lax": (ctypes.c_uint32, *_reader(_UdpPacket)),
    "tcp_packet_read": (ctypes.c_uint32, *_reader(_TcpPacket)),
    "icmpv4_packet_read": (ctypes.c_uint32, *_reader(_Icmpv4Packet)),
    "icmpv6_packet_read": (ctypes.c_uint32, *_reader(_Icmpv6Packet)),
    "udp_header_write": (ctypes.c_uint32, *_writer(_UdpHeader)),
    "tcp_header_write": (ctypes.c_uint32, ctypes.POINTER(_TcpHeader), *_PACKET, *_PACKET, *_REPLY),
    "tcp_header_store": (ctypes.c_uint32, ctypes.POINTER(_TcpHeader), *_PACKET, *_ERROR),
    "icmpv4_header_write": (ctypes.c_uint32, *_writer(_Icmpv4Header)),
    "icmpv6_header_write": (ctypes.c_uint32, *_writer(_Icmpv6Header)),
    "udp_checksum_ipv4": (ctypes.c_uint32, *_PACKET, *_ADDRESSES, *_CHECKSUM),
    "udp_checksum_ipv6": (ctypes.c_uint32, *_PACKET, *_ADDRESSES, *_CHECKSUM),
    "tcp_checksum_ipv4": (ctypes.c_uint32, *_PACKET, *_ADDRESSES, *_CHECKSUM),
    "tcp_checksum_ipv6": (ctypes.c_uint32, *_PACKET, *_ADDRESSES, *_CHECKSUM),
    "icmpv4_checksum": (ctypes.c_uint32, *_PACKET, *_CHECKSUM),
    "icmpv6_checksum": (ctypes.c_uint32, *_PACKET, *_ADDRESSES, *_CHECKSUM),
    "udp_checksum_store_ipv4": (ctypes.c_uint32, *_BYTES_AND_ADDRESSES),
    "udp_checksum_store_ipv6": (ctypes.c_uint32, *_BYTES_AND_ADDRESSES),
    "tcp_checksum_store_ipv4": (ctypes.c_uint32, *_BYTES_AND_ADDRESSES),
    "tcp_checksum_store_ipv6": (ctypes.c_uint32, *_BYTES_AND_ADDRESSES),
    "icmpv4_checksum_store": (ctypes.c_uint32, *_PACKET, *_ERROR),
    "icmpv6_checksum_store": (ctypes.c_uint32, *_BYTES_AND_ADDRESSES),
    "udp_checksum_test_ipv4": (ctypes.c_uint32, *_BYTES_AND_ADDRESSES),
    "udp_checksum_test_ipv6": (ctypes.c_uint32, *_BYTES_AND_ADDRESSES),
    "tcp_checksum_test_ipv4": (ctypes.c_uint32, *_BYTES_AND_ADDRESSES),
    "tcp_checksum_test_ipv6": (ctypes.c_uint32, *_BYTES_AND_ADDRESSES),
    "icmpv4_checksum_test": (ctypes.c_uint32, *_PACKET, *_ERROR),
    "icmpv6_checksum_test": (ctypes.c_uint32, *_BYTES_AND_ADDRESSES),
    "tcp_option_next": (ctypes.c_uint32, *_PACKET, ctypes.POINTER(ctypes.c_size_t), ctypes.POINTER(_TcpOption), *_ERROR),
    "tcp_raw_option_next": (ctypes.c_uint32, *_PACKET, ctypes.POINTER(ctypes.c_size_t), ctypes.POINTER(_TcpRawOption), *_ERROR),
    "tcp_options_write": (ctypes.c_uint32, ctypes.POINTER(_TcpOption), ctypes.c_size_t, *_PACKET, *_REPLY),
    "icmpv4_quoted_packet": (ctypes.c_uint32, *_PACKET, ctypes.POINTER(ctypes.c_size_t), *_REPLY),
    "icmpv6_quoted_packet": (ctypes.c_uint32, *_PACKET, ctypes.POINTER(ctypes.c_size_t), *_REPLY),
    "echo_answer": (ctypes.c_uint32, *_PACKET, ctypes.c_uint8, *_REPLY),
    "echo_answer_ipv4": (ctypes.c_uint32, *_PACKET, ctypes.c_char_p, ctypes.c_uint8, *_REPLY),
    "echo_answer_ipv6": (ctypes.c_uint32, *_PACKET, ctypes.c_char_p, ctypes.c_uint8, *_REPLY),
    "echo_is_reply": (ctypes.c_uint32, *_PACKET, *_PACKET, *_ERROR),
    "echo_is_reply_from_any": (ctypes.c_uint32, *_PACKET, *_PACKET, *_ERROR),
    "packet_checksum_is_partial": (ctypes.c_uint32, *_reader(ctypes.c_uint32)),
    "packet_checksum_store": (ctypes.c_uint32, *_PACKET, *_CHECKSUM),
    "hop_limit_lower": (ctypes.c_uint32, *_PACKET, *_ERROR),
    "maximum_segment_size_lower": (ctypes.c_uint32, *_PACKET, ctypes.c_uint16, *_CHECKSUM),
    "icmpv4_error_about": (
        ctypes.c_uint32, *_PACKET, ctypes.POINTER(_Icmpv4Header), ctypes.c_char_p, ctypes.c_uint8, *_PACKET, *_REPLY,
    ),
    "icmpv6_error_about": (
        ctypes.c_uint32, *_PACKET, ctypes.POINTER(_Icmpv6Header), ctypes.c_char_p, ctypes.c_uint8, *_PACKET, *_REPLY,
    ),
    "translate_ipv4": (ctypes.c_uint32, *_reader(_Ipv4Translation)),
    "translate_ipv6": (ctypes.c_uint32, *_reader(_Ipv6Translation)),
    "translate_ipv4_with_quoted": (ctypes.c_uint32, *_PACKET, *[ctypes.POINTER(_Ipv4Translation)] * 2, *_ERROR),
    "translate_ipv6_with_quoted": (ctypes.c_uint32, *_PACKET, *[ctypes.POINTER(_Ipv6Translation)] * 2, *_ERROR),
    "ipv4_to_ipv6": (ctypes.c_uint32, *_PACKET, *[ctypes.POINTER(_Prefix64)] * 2, *_PACKET, *_REPLY),
    "ipv6_to_ipv4": (ctypes.c_uint32, *_PACKET, *[ctypes.POINTER(_Prefix64)] * 2, ctypes.c_uint16, *_PACKET, *_REPLY),
    "canonical_header": (ctypes.c_uint32, ctypes.c_uint32, *_PACKET, *_PACKET, *_REPLY),
    "sum_new": (_Sum,),
    "sum_add": (_Sum, _Sum, *_PACKET),
    "sum_add_at": (_Sum, _Sum, ctypes.c_size_t, *_PACKET),
    "sum_checksum": (ctypes.c_uint16, _Sum),
    "sum_udp_checksum": (ctypes.c_uint16, _Sum),
    "checksum_change_new": (_ChecksumChange,),
    "checksum_change_replace": (_ChecksumChange, _ChecksumChange, *_PACKET, *_PACKET),
    "checksum_change_reversed": (_ChecksumChange, _ChecksumChange),
    "checksum_change_apply": (ctypes.c_uint16, _ChecksumChange, ctypes.c_uint16),
    "checksum_change_apply_udp": (ctypes.c_uint16, _ChecksumChange, ctypes.c_uint16),
}

_OK = 0
_ERROR_TEXT_MAX_LEN = 256
_STATUS_TEXT_MAX_LEN = 127
# The longest header that a call writes is that of TCP with all its options.
_HEADER_MAX_LEN = 60
# The longest IP header that a call writes is that of IPv6.
_IP_HEADER_MAX_LEN = 40

# Enough room to put any packet together, and the longest packet that is put together, in bytes.
_REASSEMBLY_ROOM_MAX_LEN = 65791
_REASSEMBLY_PACKET_MAX_LEN = 65575

# The longest ICMP error about a packet, in bytes (RFC 4443, section 2.4).
_ERROR_MAX_LEN = 1280


def _version_text(number: int) -> str:
    return f"{number >> 16}.{number >> 8 & 255}.{number & 255}"


@functools.lru_cache(maxsize=None)
def _library() -> ctypes.CDLL:
    """The library, which is loaded by the first call. If it is missing or has another interface, this is an `ImportError`."""
    name = f"libetherparse_transport.so.{_INTERFACE}"
    beside = os.path.join(os.path.dirname(os.path.abspath(__file__)), name)
    path = os.environ.get("ETHERPARSE_TRANSPORT_LIBRARY") or (beside if os.path.exists(beside) else name)
    try:
        library = ctypes.CDLL(path)
        # The version comes first: a library with another interface may lack calls, or have calls of other types.
        library.etherparse_version.restype = _CALLS["version"][0]
        version = _version_text(library.etherparse_version())
        if not version.startswith(f"{_INTERFACE}."):
            raise ImportError(f"the library has version {version}, and this module needs version {_INTERFACE}", path=path)
        for name, (result, *parameters) in _CALLS.items():
            call = getattr(library, f"etherparse_{name}")
            call.restype = result
            call.argtypes = parameters
    except (OSError, AttributeError) as error:
        raise ImportError(f"the library etherparse_transport {_INTERFACE} cannot be used: {error}", path=path) from error
    return library


def library_version() -> str:
    """The version of the library, such as "0.5.0"."""
    return _version_text(_library().etherparse_version())


def _words(name: str, number: int) -> str:
    """What a call writes of a number. No name or text of a number is longer than the longest text of a status."""
    buffer = ctypes.create_string_buffer(_STATUS_TEXT_MAX_LEN + 1)
    getattr(_library(), f"etherparse_{name}")(_integer(number, 32, "a number"), buffer, len(buffer))
    return buffer.value.decode("ascii")


def status_name(status: int) -> str:
    """The name of a status in C, such as `ETHERPARSE_STATUS_LENGTH`; "unknown status" for another number."""
    return _words("status_name", status)


def verdict_name(kind: int) -> str:
    """The name of a verdict in C, such as `ETHERPARSE_VERDICT_RIGHT`; "unknown verdict" for another number."""
    return _words("verdict_name", kind)


class Error(ValueError):
    """A refusal. Its text is the library's text. A field that the status does not speak of is 0.

    docs/C_LIBRARY.md lists the fields of each status.
    """

    def __init__(self, error: _Error) -> None:
        buffer = ctypes.create_string_buffer(_ERROR_TEXT_MAX_LEN + 1)
        _library().etherparse_error_text(error, buffer, len(buffer))
        super().__init__(buffer.value.decode("ascii"))
        self.status = Status(error.status)
        self.layer = Layer(error.layer)
        self.len_source = LenSource(error.len_source)
        self.value_type = ValueType(error.value_type)
        self.data_offset: int = error.data_offset
        self.option_kind: int = error.option_kind
        self.option_size: int = error.option_size
        self.required_len: int = error.required_len
        self.len: int = error.len
        self.layer_start_offset: int = error.layer_start_offset
        self.actual: int = error.actual
        self.max_allowed: int = error.max_allowed

    def __reduce__(self) -> tuple:
        """The text and the fields. A copy does not call the library."""
        return copyreg.__newobj__, (type(self), *self.args), vars(self)


def _call(name: str, *arguments: Any, results: Collection[int] = (_OK,)) -> int:
    """Makes a call that returns a status, and raises an error for a status that is not a result of the call."""
    error = _Error()
    status = getattr(_library(), f"etherparse_{name}")(*arguments, ctypes.byref(error))
    if status in results:
        return status
    raise Error(error)


def _bytes_of(data: Bytes) -> bytes:
    """The bytes, which no other thread can change while the library reads them. `bytes` would make zeros of a number."""
    if isinstance(data, int):
        raise TypeError("a number is no packet")
    return bytes(data)


def _integer(value: int, bits: int, name: str) -> int:
    """A number of so many bits. ctypes would cut off a number that is too big."""
    number = operator.index(value)
    if not 0 <= number < 1 << bits:
        raise ValueError(f"{name} is a number of {bits} bits")
    return number


def _filled(struct: Any, **values: Any) -> Any:
    """A struct with these fields. All other fields are 0."""
    for name, value in values.items():
        kind = dict(struct._fields_)[name]
        if issubclass(kind, ctypes.Array):
            if len(_bytes_of(value)) != kind._length_:
                raise ValueError(f"{name} has {kind._length_} bytes")
            setattr(struct, name, kind(*value))
        else:
            setattr(struct, name, _integer(value, 8 * ctypes.sizeof(kind), name))
    return struct


def _written(name: str, *arguments: Any) -> bytes:
    """The bytes that a call writes to a buffer."""
    buffer, written = ctypes.create_string_buffer(_HEADER_MAX_LEN), ctypes.c_size_t()
    _call(name, *arguments, buffer, len(buffer), ctypes.byref(written))
    return buffer.raw[: written.value]


def _changed(name: str, data: bytearray | memoryview, *arguments: Any, before: tuple = ()) -> None:
    """Has a call change bytes in place. If it refuses, they are unchanged."""
    copied = _bytes_of(data)
    changed = ctypes.create_string_buffer(copied, len(copied))
    _call(name, *before, changed, len(copied), *arguments)
    data[:] = changed.raw


def _checksum(name: str, data: Bytes, *arguments: Any) -> int:
    """The checksum that a call computes."""
    copied, found = _bytes_of(data), ctypes.c_uint16()
    _call(name, copied, len(copied), *arguments, ctypes.byref(found))
    return found.value


def _read(name: str, data: bytes, result: Any) -> Any:
    """Fills a struct from bytes."""
    _call(name, data, len(data), ctypes.byref(result))
    return result


def _payload(data: bytes, found: Any) -> bytes:
    return data[found.payload_offset : found.payload_offset + found.payload_len]


# ---- IP


@dataclass(frozen=True)
class Transport:
    """What an IP packet carries.

    The addresses are the addresses that the checksum covers. A source route or a routing header changes the destination, and a home address
    changes the source, so they can differ from the addresses in the IP header. `destination` is None if it is not known. If the IP header
    states no length, all bytes are counted, and `is_length_missing` is true. In a later fragment no transport header begins the payload.
    `hop_limit` is the time to live of IPv4, and `traffic_class` its type of service. `fragment_offset` is in bytes. `identification` is
    what the fragments of a packet share. It is 0 over IPv6 without a fragment header, and `dont_fragment` is always false there.
    """

    version: int
    protocol: Protocol
    payload: bytes
    payload_offset: int
    is_fragment: bool
    is_cut_off: bool
    source: Address
    destination: Address | None
    is_length_missing: bool
    is_later_fragment: bool
    hop_limit: int
    fragment_offset: int
    identification: int
    dont_fragment: bool
    traffic_class: int


@dataclass(frozen=True)
class FlowEnds:
    """The ends of a flow, as one of its packets names them.

    The addresses are as in `Transport`. The identifier of an ICMP query is `source_port` in a request, and `destination_port` in a reply. A
    port is None if the packet does not contain it, as in a later fragment.
    """

    version: int
    protocol: Protocol
    is_fragment: bool
    is_later_fragment: bool
    source: Address
    destination: Address | None
    source_port: int | None
    destination_port: int | None


@dataclass(frozen=True)
class Flow:
    """The flow that a packet belongs to: its ends, and those of the packet that an ICMP error quotes, or None."""

    ends: FlowEnds
    quoted: FlowEnds | None


@dataclass(frozen=True)
class Fragment:
    """A fragment of an IP packet.

    All fragments of one packet share the first five fields. `protocol` is None over IPv6, where the fragments of one packet may differ in
    it. `offset` is the place of `payload` in the payload of the whole packet, in bytes.
    """

    version: int
    source: Address
    destination: Address
    protocol: Protocol | None
    identification: int
    offset: int
    more_fragments: bool
    payload: bytes


@dataclass(frozen=True)
class HeaderAddresses:
    """The addresses of an IP header itself.

    Under a source route, a routing header or a home address they differ from the addresses of `Transport`, which the checksum covers.
    """

    version: int
    source: Address
    destination: Address


@dataclass(frozen=True)
class Verdict:
    """A packet, and the verdict on its checksum.

    `header_protocol` is the protocol whose calls read the payload. It is None for a fragment, for another protocol, and for ICMP of the
    other version of IP. `expected_checksum` is the right checksum if `kind` is `WRONG` or `PARTIAL`, and otherwise None.
    """

    transport: Transport
    header_protocol: Protocol | None
    kind: VerdictKind
    expected_checksum: int | None


def _address(version: int, octets: Any) -> Address:
    return ipaddress.IPv4Address(bytes(octets[:4])) if version == 4 else ipaddress.IPv6Address(bytes(octets))


def _transport(data: bytes, found: _IpTransport) -> Transport:
    return Transport(
        version=found.version,
        protocol=Protocol(found.protocol),
        payload=_payload(data, found),
        payload_offset=found.payload_offset,
        is_fragment=bool(found.is_fragment),
        is_cut_off=bool(found.is_cut_off),
        source=_address(found.version, found.source),
        destination=_address(found.version, found.destination) if found.has_destination else None,
        is_length_missing=bool(found.is_length_missing),
        is_later_fragment=bool(found.is_later_fragment),
        hop_limit=found.hop_limit,
        fragment_offset=found.fragment_offset,
        identification=found.identification,
        dont_fragment=bool(found.dont_fragment),
        traffic_class=found.traffic_class,
    )


def transport(packet: Bytes, *, lax: bool = False) -> Transport:
    """Finds the transport in an IP packet, after its options and extension headers. No checksum is tested.

    With `lax` a packet that is cut off or that states no length is accepted too.

    Raises `Error` if the packet is refused.
    """
    data = _bytes_of(packet)
    return _transport(data, _read("transport_in_ip_lax" if lax else "transport_in_ip", data, _IpTransport()))


def _ends(found: _FlowEnds) -> FlowEnds:
    return FlowEnds(
        version=found.version,
        protocol=Protocol(found.protocol),
        is_fragment=bool(found.is_fragment),
        is_later_fragment=bool(found.is_later_fragment),
        source=_address(found.version, found.source),
        destination=_address(found.version, found.destination) if found.has_destination else None,
        source_port=found.source_port if found.has_source_port else None,
        destination_port=found.destination_port if found.has_destination_port else None,
    )


def flow(packet: Bytes) -> Flow:
    """The flow that an IP packet belongs to: addresses, protocol, and ports or the identifier of an ICMP query.

    An ICMP error also has the ends of the packet that it quotes. The packet may be cut off or state no length. No checksum is tested.

    Raises `Error` if the IP headers of the packet are refused.
    """
    found = _read("flow", _bytes_of(packet), _PacketFlow())
    return Flow(_ends(found.ends), _ends(found.quoted) if found.quoted.version else None)


def read_fragment(packet: Bytes) -> Fragment:
    """The fragment in an IP packet. If an IPv6 packet has several fragment headers, this is the first.

    Raises `Error` if the IP headers of the packet are refused, if the packet is cut off or whole, or if the first fragment over IPv6 ends
    within its transport header.
    """
    data = _bytes_of(packet)
    found = _read("fragment_read", data, _Fragment())
    return Fragment(
        version=found.version,
        source=_address(found.version, found.source),
        destination=_address(found.version, found.destination),
        protocol=Protocol(found.protocol) if found.version == 4 else None,
        identification=found.identification,
        offset=found.offset,
        more_fragments=bool(found.more_fragments),
        payload=data[found.payload_offset:found.payload_offset + found.payload_len],
    )


def reassemble(fragments: Iterable[Bytes]) -> bytes:
    """The packet that is put together from its fragments: IP packets, in any order and possibly repeated.

    Raises `Error` with the status `REASSEMBLY_INCOMPLETE` if bytes of the payload are missing. Raises `Error` also if a packet is not a
    fragment, if a fragment belongs to another packet or does not agree with another fragment, or if the whole packet has no room for its
    headers.
    """
    packets = [_bytes_of(fragment) for fragment in fragments]
    data, lens = b"".join(packets), (ctypes.c_size_t * len(packets))(*map(len, packets))
    room, buffer = (ctypes.create_string_buffer(size) for size in (_REASSEMBLY_ROOM_MAX_LEN, _REASSEMBLY_PACKET_MAX_LEN))
    written = ctypes.c_size_t()
    _call("reassembly_packet", data, len(data), lens, len(lens), room, len(room), buffer, len(buffer), ctypes.byref(written))
    return buffer.raw[:written.value]


def write_packet(message: Bytes, protocol: Protocol, source: Any, destination: Any, hop_limit: int = 64) -> bytes:
    """The IP packet with this message, which is a transport header and its payload, between these addresses of one IP version.

    The checksums, the lengths of the IP header, and the length field of UDP are computed, whatever the message contains there.

    Raises `Error` if the header of the message is refused, if the packet is too long, or if the IP version does not have the protocol.
    """
    data = _bytes_of(message)
    ends = ipaddress.ip_address(source), ipaddress.ip_address(destination)
    if ends[0].version != ends[1].version:
        raise ValueError("the addresses are of different IP versions")
    packed = {"source": ends[0].packed, "destination": ends[1].packed}
    if ends[0].version == 4:
        name, header = "write_packet_ipv4", _filled(_Ipv4Header(), **packed, time_to_live=hop_limit, protocol=protocol)
    else:
        name, header = "write_packet_ipv6", _filled(_Ipv6Header(), **packed, hop_limit=hop_limit, next_header=protocol)
    buffer, written = ctypes.create_string_buffer(_IP_HEADER_MAX_LEN + len(data)), ctypes.c_size_t()
    _call(name, ctypes.byref(header), data, len(data), buffer, len(buffer), ctypes.byref(written))
    return buffer.raw[: written.value]


def header_addresses(packet: Bytes) -> HeaderAddresses:
    """The addresses of the IP header at the front of a packet, which may be cut off behind that header.

    Raises `Error` if there is no IP header.
    """
    found = _read("ip_header_addresses", _bytes_of(packet), _IpAddresses())
    return HeaderAddresses(found.version, _address(found.version, found.source), _address(found.version, found.destination))


def ipv4_header_checksum(packet: Bytes) -> int:
    """The right checksum of the IPv4 header at the front of a packet, whatever its bytes 10 and 11 contain.

    Raises `Error` if there is no IPv4 header.
    """
    return _checksum("ipv4_header_checksum", packet)


def store_ipv4_header_checksum(packet: bytearray | memoryview) -> None:
    """Stores the right checksum of the IPv4 header at the front of a packet in its bytes 10 and 11. No other byte changes.

    Raises `Error` if there is no IPv4 header.
    """
    _changed("ipv4_header_checksum_store", packet)


def check_ipv4_header(packet: Bytes) -> VerdictKind:
    """Tests the checksum of the IPv4 header at the front of a packet, which no other function tests: `RIGHT` or `WRONG`.

    Raises `Error` if there is no IPv4 header.
    """
    data = _bytes_of(packet)
    return _tested("ipv4_header_checksum_test", data, len(data))


def verdict(packet: Bytes, *, lax: bool = False) -> Verdict:
    """Finds the transport in an IP packet, and tests its checksum.

    With `lax` a packet that is cut off or that states no length is accepted too. The checksum of a packet that is cut off is not tested.

    Raises `Error` if the packet or the header of its transport is refused.
    """
    data = _bytes_of(packet)
    found = _read("packet_verdict_lax" if lax else "packet_verdict", data, _IpPacket())
    kind = VerdictKind(found.verdict)
    return Verdict(
        transport=_transport(data, found.transport),
        header_protocol=Protocol(found.header_protocol) if found.header_protocol else None,
        kind=kind,
        expected_checksum=found.expected_checksum if kind in (VerdictKind.WRONG, VerdictKind.PARTIAL) else None,
    )


def is_checksum_partial(packet: Bytes) -> bool:
    """Whether the checksum of UDP, TCP or ICMPv6 in an IP packet is partial: the sum of only the pseudo header.

    A host leaves the rest to its network card, so a packet socket (AF_PACKET) often receives a partial checksum. The payload is not read.
    A fragment and any other protocol have no partial checksum.

    Raises `Error` if the packet or the header of its transport is refused.
    """
    return bool(_read("packet_checksum_is_partial", _bytes_of(packet), ctypes.c_uint32()).value)


def store_checksum(packet: bytearray | memoryview) -> int:
    """Stores the right checksum of UDP, TCP or ICMP in an IP packet, in place, and returns it. No other byte changes.

    A UDP packet over IPv4 without a checksum gets a checksum. `CHECKSUM_UNTESTED` means that the checksum is not tested: the field `actual`
    of the error is the verdict.

    Raises `Error` if the packet or the header of its transport is refused, or if its checksum is not tested. It is then unchanged.
    """
    found = ctypes.c_uint16()
    _changed("packet_checksum_store", packet, ctypes.byref(found))
    return found.value


def lower_hop_limit(packet: bytearray | memoryview) -> None:
    """Lowers the time to live or hop limit of an IP packet by one, in place, as a router does.

    The checksum of an IPv4 header is updated: a right checksum stays right, and a wrong checksum stays wrong. No other byte changes.

    Raises `Error` if the IP header is refused, or if the hop limit is 0 or 1 (`HOP_LIMIT_EXPIRED`). The packet is then unchanged.
    """
    _changed("hop_limit_lower", packet)


def lower_maximum_segment_size(packet: bytearray | memoryview, most: int) -> int:
    """Lowers the maximum segment size of a SYN to at most `most`, in place, as a router in front of a tunnel does. Returns the old size.

    If the old size is at most `most`, the packet is unchanged. The checksum of TCP is updated: a right checksum stays right, and a wrong
    checksum stays wrong. No other byte changes. A partial checksum becomes wrong.

    Raises `Error` if the IP headers or the TCP header are refused, if the packet is not a SYN, or if no maximum segment size can be read
    from its options. The packet is then unchanged.
    """
    size = ctypes.c_uint16()
    _changed("maximum_segment_size_lower", packet, _integer(most, 16, "most"), ctypes.byref(size))
    return size.value


def _packed(address: AnyAddress) -> bytes:
    """An address in network order, 4 or 16 bytes. `ip_address` would make 0.0.0.5 of the number 5."""
    if isinstance(address, int):
        raise TypeError("a number is no address")
    return ipaddress.ip_address(address).packed


def _over(name: str, source: AnyAddress, destination: AnyAddress, ends: dict[int, str]) -> tuple[str, bytes, bytes]:
    """The name of a call for these addresses, which ends by their length, and the addresses."""
    addresses = _packed(source), _packed(destination)
    length = len(addresses[0])
    if length != len(addresses[1]) or length not in ends:
        raise ValueError("the addresses are not of one version of IP, or not of the version that the protocol needs")
    return (name + ends[length], *addresses)


def _check(name: str, message: Bytes, source: AnyAddress, destination: AnyAddress, ends: dict[int, str]) -> VerdictKind:
    """The test of a checksum over these addresses."""
    data, (call, *addresses) = _bytes_of(message), _over(name, source, destination, ends)
    return _tested(call, data, len(data), *addresses)


def _tested(name: str, *arguments: Any) -> VerdictKind:
    """What a test of a checksum found."""
    kinds = {_OK: VerdictKind.RIGHT, Status.CHECKSUM_WRONG: VerdictKind.WRONG, Status.CHECKSUM_ABSENT: VerdictKind.ABSENT}
    return kinds[_call(name, *arguments, results=kinds)]


# How the names of calls end, by the length of an address.
_BOTH_VERSIONS = {4: "_ipv4", 16: "_ipv6"}
_ONLY_IPV6 = {16: ""}


# ---- UDP


@dataclass(frozen=True)
class UdpPacket:
    """A UDP packet. `length` is its length field, and a `checksum` of 0 means that there is none."""

    source_port: int
    destination_port: int
    length: int
    checksum: int
    payload: bytes
    payload_len_source: LenSource


def read_udp(message: Bytes, *, lax: bool = False) -> UdpPacket:
    """Reads the UDP packet at the front of the bytes. It consists of the bytes that its length field counts, or of all if that field is 0.

    With `lax` a length field that cannot be true is accepted too, and the packet consists of all bytes.

    Raises `Error` if the packet is refused.
    """
    data = _bytes_of(message)
    found = _read("udp_packet_read_lax" if lax else "udp_packet_read", data, _UdpPacket())
    header = found.header
    return UdpPacket(
        source_port=header.source_port,
        destination_port=header.destination_port,
        length=header.length,
        checksum=header.checksum,
        payload=_payload(data, found),
        payload_len_source=LenSource(found.payload_len_source),
    )


def write_udp_header(*, source_port: int = 0, destination_port: int = 0, length: int = 0, checksum: int = 0) -> bytes:
    """The 8 bytes of a UDP header. `length` is the length of header and payload."""
    fields = {"source_port": source_port, "destination_port": destination_port, "length": length, "checksum": checksum}
    return _written("udp_header_write", _filled(_UdpHeader(), **fields))


def udp_checksum(message: Bytes, source: AnyAddress, destination: AnyAddress) -> int:
    """The right checksum of the UDP packet at the front of the bytes, whatever its checksum field contains. It is never 0.

    Raises `Error` if the packet is refused, or longer than the pseudo header can count.
    """
    name, *addresses = _over("udp_checksum", source, destination, _BOTH_VERSIONS)
    return _checksum(name, message, *addresses)


def store_udp_checksum(message: bytearray | memoryview, source: AnyAddress, destination: AnyAddress) -> None:
    """Stores the right checksum of the UDP packet at the front of the bytes in its bytes 6 and 7. No other byte changes.

    Raises `Error` if the packet is refused, or longer than the pseudo header can count.
    """
    name, *addresses = _over("udp_checksum_store", source, destination, _BOTH_VERSIONS)
    _changed(name, message, *addresses)


def check_udp(message: Bytes, source: AnyAddress, destination: AnyAddress) -> VerdictKind:
    """Tests the checksum of the UDP packet at the front of the bytes: `RIGHT`, `WRONG`, or `ABSENT` if the packet has none.

    A receiver over IPv6 discards a packet without a checksum, except in some tunnels. Hence `verdict` calls it `WRONG`.

    Raises `Error` if the packet is refused, or longer than the pseudo header can count.
    """
    return _check("udp_checksum_test", message, source, destination, _BOTH_VERSIONS)


# ---- TCP


@dataclass(frozen=True)
class TcpPacket:
    """A TCP packet. `tcp_options` reads the bytes in `options`."""

    source_port: int
    destination_port: int
    sequence_number: int
    acknowledgment_number: int
    flags: TcpFlags
    window_size: int
    checksum: int
    urgent_pointer: int
    options: bytes
    payload: bytes


@dataclass(frozen=True)
class TcpOption:
    """A TCP option, known or not. `value` are the bytes after its kind and its length."""

    kind: TcpOptionKind
    value: bytes


@dataclass(frozen=True)
class TcpOptionValues:
    """A TCP option of a known kind with its values.

    They are the segment size, the shift count, the left and right edge of each block, or the timestamp and its echo reply. The other kinds
    have none.
    """

    kind: TcpOptionKind
    values: tuple[int, ...] = ()


def read_tcp(message: Bytes) -> TcpPacket:
    """Reads the TCP packet that the bytes are. Its options are not read.

    Raises `Error` if the packet is refused.
    """
    data = _bytes_of(message)
    found = _read("tcp_packet_read", data, _TcpPacket())
    header = found.header
    return TcpPacket(
        source_port=header.source_port,
        destination_port=header.destination_port,
        sequence_number=header.sequence_number,
        acknowledgment_number=header.acknowledgment_number,
        flags=TcpFlags(header.flags),
        window_size=header.window_size,
        checksum=header.checksum,
        urgent_pointer=header.urgent_pointer,
        options=data[found.options_offset : found.options_offset + found.options_len],
        payload=_payload(data, found),
    )


def tcp_options(options: Bytes) -> Iterator[TcpOption]:
    """The options in these bytes, in their order, up to the end of the list or of the bytes.

    Raises `Error` at an option that is cut off, or whose length byte is below 2. Nothing follows it.
    """
    data = _bytes_of(options)
    for found in _options("tcp_raw_option_next", data, _TcpRawOption()):
        yield TcpOption(TcpOptionKind(found.kind), data[found.value_offset : found.value_offset + found.value_len])


def tcp_option_values(options: Bytes) -> Iterator[TcpOptionValues]:
    """The options in these bytes with their values, in their order, up to the end of the list or of the bytes.

    Raises `Error` at an option of an unknown kind, with a wrong length byte, or that is cut off. Nothing follows it.
    """
    for found in _options("tcp_option_next", _bytes_of(options), _TcpOption()):
        yield TcpOptionValues(TcpOptionKind(found.kind), tuple(found.values[: found.value_count]))


def _options(name: str, data: bytes, found: Any) -> Iterator[Any]:
    """The struct, once for each option that a call reads into it."""
    place = ctypes.c_size_t(0)
    arguments = (data, len(data), ctypes.byref(place), ctypes.byref(found))
    while _call(name, *arguments, results=(_OK, Status.OPTIONS_END)) == _OK:
        yield found


def write_tcp_options(options: Iterable[TcpOptionValues]) -> bytes:
    """The bytes of some TCP options, padded with zeros to whole words of four bytes.

    Raises `Error` if a kind is unknown, if a kind cannot have these values, or if the options need more than 40 bytes.
    """
    listed = [_option(it) for it in options]
    return _written("tcp_options_write", (_TcpOption * len(listed))(*listed), len(listed))


def _option(option: TcpOptionValues) -> _TcpOption:
    found = _filled(_TcpOption(), kind=option.kind, value_count=len(option.values))
    if len(option.values) > len(found.values):
        raise ValueError(f"a TCP option has at most {len(found.values)} values")
    for place, value in enumerate(option.values):
        found.values[place] = _integer(value, 32, "a value")
    return found


def write_tcp_header(
    *, source_port: int = 0, destination_port: int = 0, sequence_number: int = 0, acknowledgment_number: int = 0, flags: int = 0,
    window_size: int = 0, checksum: int = 0, urgent_pointer: int = 0, options: Bytes = b"",
) -> bytes:
    """The 20 to 60 bytes of a TCP header. `flags` are `TcpFlags`. The options are padded with zeros, and the data offset counts them.

    Raises `Error` if the options have more than 40 bytes, or a flag is unknown.
    """
    header = _filled(
        _TcpHeader(), source_port=source_port, destination_port=destination_port, sequence_number=sequence_number,
        acknowledgment_number=acknowledgment_number, flags=flags, window_size=window_size, checksum=checksum,
        urgent_pointer=urgent_pointer,
    )
    data = _bytes_of(options)
    return _written("tcp_header_write", header, data, len(data))


def store_tcp_header(
    message: bytearray | memoryview, *, source_port: int = 0, destination_port: int = 0, sequence_number: int = 0,
    acknowledgment_number: int = 0, flags: int = 0, window_size: int = 0, checksum: int = 0, urgent_pointer: int = 0,
) -> None:
    """Replaces the header of the TCP packet that the bytes are. Options, data offset and payload stay. Reserved bits are cleared.

    Raises `Error` if the packet is refused, or a flag is unknown.
    """
    header = _filled(
        _TcpHeader(), source_port=source_port, destination_port=destination_port, sequence_number=sequence_number,
        acknowledgment_number=acknowledgment_number, flags=flags, window_size=window_size, checksum=checksum,
        urgent_pointer=urgent_pointer,
    )
    _changed("tcp_header_store", message, before=(header,))


def tcp_checksum(message: Bytes, source: AnyAddress, destination: AnyAddress) -> int:
    """The right checksum of the TCP packet that the bytes are, whatever its checksum field contains.

    Raises `Error` if the packet is refused, or longer than the pseudo header can count.
    """
    name, *addresses = _over("tcp_checksum", source, destination, _BOTH_VERSIONS)
    return _checksum(name, message, *addresses)


def store_tcp_checksum(message: bytearray | memoryview, source: AnyAddress, destination: AnyAddress) -> None:
    """Stores the right checksum of the TCP packet that the bytes are in its bytes 16 and 17. No other byte changes.

    Raises `Error` if the packet is refused, or longer than the pseudo header can count.
    """
    name, *addresses = _over("tcp_checksum_store", source, destination, _BOTH_VERSIONS)
    _changed(name, message, *addresses)


def check_tcp(message: Bytes, source: AnyAddress, destination: AnyAddress) -> VerdictKind:
    """Tests the checksum of the TCP packet that the bytes are: `RIGHT` or `WRONG`.

    Raises `Error` if the packet is refused, or longer than the pseudo header can count.
    """
    return _check("tcp_checksum_test", message, source, destination, _BOTH_VERSIONS)


# ---- ICMP


@dataclass(frozen=True)
class Icmpv4Packet:
    """An ICMPv4 message. A field that its kind does not have is 0, except type, code, checksum and bytes4to7."""

    kind: Icmpv4Kind
    type: int
    code: int
    checksum: int
    id: int
    sequence_number: int
    originate_timestamp: int
    receive_timestamp: int
    transmit_timestamp: int
    next_hop_mtu: int
    pointer: int
    bytes4to7: bytes
    payload: bytes


@dataclass(frozen=True)
class Icmpv6Packet:
    """An ICMPv6 message. A field that its kind does not have is 0, except type, code, checksum and bytes4to7.

    `flags` are `RouterFlags` of a router advertisement, and `NeighborFlags` of a neighbor advertisement.
    """

    kind: Icmpv6Kind
    type: int
    code: int
    checksum: int
    id: int
    sequence_number: int
    mtu: int
    pointer: int
    router_lifetime: int
    cur_hop_limit: int
    flags: int
    bytes4to7: bytes
    payload: bytes


def read_icmpv4(message: Bytes) -> Icmpv4Packet:
    """Reads the ICMPv4 message that the bytes are.

    Raises `Error` if the message is refused.
    """
    data = _bytes_of(message)
    found = _read("icmpv4_packet_read", data, _Icmpv4Packet())
    header = found.header
    return Icmpv4Packet(
        kind=Icmpv4Kind(header.kind),
        type=header.type,
        code=header.code,
        checksum=header.checksum,
        id=header.id,
        sequence_number=header.sequence_number,
        originate_timestamp=header.originate_timestamp,
        receive_timestamp=header.receive_timestamp,
        transmit_timestamp=header.transmit_timestamp,
        next_hop_mtu=header.next_hop_mtu,
        pointer=header.pointer,
        bytes4to7=bytes(header.bytes4to7),
        payload=_payload(data, found),
    )


def write_icmpv4_header(
    kind: Icmpv4Kind, *, type: int = 0, code: int = 0, checksum: int = 0, id: int = 0, sequence_number: int = 0,
    originate_timestamp: int = 0, receive_timestamp: int = 0, transmit_timestamp: int = 0, next_hop_mtu: int = 0, pointer: int = 0,
    bytes4to7: Bytes = bytes(4),
) -> bytes:
    """The header of an ICMPv4 message, 20 bytes for a timestamp message and its reply, and otherwise 8.

    It is made from kind, code, checksum and the fields of the kind. Other fields are ignored. `type` is only for `UNKNOWN`, and `bytes4to7`
    for `UNKNOWN` and for a redirect message, where it is the address of the gateway.

    Raises `Error` if the kind or its code is unknown.
    """
    header = _filled(
        _Icmpv4Header(), kind=kind, type=type, code=code, checksum=checksum, id=id, sequence_number=sequence_number,
        originate_timestamp=originate_timestamp, receive_timestamp=receive_timestamp, transmit_timestamp=transmit_timestamp,
        next_hop_mtu=next_hop_mtu, pointer=pointer, bytes4to7=bytes4to7,
    )
    return _written("icmpv4_header_write", header)


def _error_about(name: str, packet: Bytes, header: Any, source: AnyAddress, length: int, hop_limit: int) -> bytes:
    """The ICMP error about a packet, from a source whose address has this length."""
    if not 0 <= hop_limit <= 255:
        raise ValueError("a hop limit is a byte")
    data, packed = _bytes_of(packet), _packed(source)
    if len(packed) != length:
        raise ValueError("the source has the other version of IP")
    buffer, written = ctypes.create_string_buffer(_ERROR_MAX_LEN), ctypes.c_size_t()
    _call(name, data, len(data), header, packed, hop_limit, buffer, len(buffer), ctypes.byref(written))
    return buffer.raw[: written.value]


def icmpv4_error_about(
    packet: Bytes, kind: Icmpv4Kind, source: AnyAddress, *, code: int = 0, next_hop_mtu: int = 0, pointer: int = 0,
    bytes4to7: Bytes = bytes(4), hop_limit: int = 64,
) -> bytes:
    """The ICMPv4 error about a packet: an IPv4 packet from `source` to the source of the packet, of at most 576 bytes.

    It quotes the packet from its first byte on. The other arguments are those of `write_icmpv4_header`.

    Raises `Error` if the kind is no error, or if there is no error about the packet, for example about a later fragment.
    """
    header = _filled(_Icmpv4Header(), kind=kind, code=code, next_hop_mtu=next_hop_mtu, pointer=pointer, bytes4to7=bytes4to7)
    return _error_about("icmpv4_error_about", packet, header, source, 4, hop_limit)


def icmpv6_error_about(
    packet: Bytes, kind: Icmpv6Kind, source: AnyAddress, *, code: int = 0, mtu: int = 0, pointer: int = 0, hop_limit: int = 64,
) -> bytes:
    """The ICMPv6 error about a packet, as `icmpv4_error_about`, of at most 1280 bytes."""
    header = _filled(_Icmpv6Header(), kind=kind, code=code, mtu=mtu, pointer=pointer)
    return _error_about("icmpv6_error_about", packet, header, source, 16, hop_limit)


def icmpv4_checksum(message: Bytes) -> int:
    """The right checksum of the ICMPv4 message that the bytes are, whatever its checksum field contains.

    Raises `Error` if the message is refused.
    """
    return _checksum("icmpv4_checksum", message)


def store_icmpv4_checksum(message: bytearray | memoryview) -> None:
    """Stores the right checksum of the ICMPv4 message that the bytes are in its bytes 2 and 3. No other byte changes.

    Raises `Error` if the message is refused.
    """
    _changed("icmpv4_checksum_store", message)


def check_icmpv4(message: Bytes) -> VerdictKind:
    """Tests the checksum of the ICMPv4 message that the bytes are: `RIGHT` or `WRONG`.

    Raises `Error` if the message is refused.
    """
    data = _bytes_of(message)
    return _tested("icmpv4_checksum_test", data, len(data))


def read_icmpv6(message: Bytes) -> Icmpv6Packet:
    """Reads the ICMPv6 message that the bytes are.

    Raises `Error` if the message is refused.
    """
    data = _bytes_of(message)
    found = _read("icmpv6_packet_read", data, _Icmpv6Packet())
    header = found.header
    return Icmpv6Packet(
        kind=Icmpv6Kind(header.kind),
        type=header.type,
        code=header.code,
        checksum=header.checksum,
        id=header.id,
        sequence_number=header.sequence_number,
        mtu=header.mtu,
        pointer=header.pointer,
        router_lifetime=header.router_lifetime,
        cur_hop_limit=header.cur_hop_limit,
        flags=header.flags,
        bytes4to7=bytes(header.bytes4to7),
        payload=_payload(data, found),
    )


def write_icmpv6_header(
    kind: Icmpv6Kind, *, type: int = 0, code: int = 0, checksum: int = 0, id: int = 0, sequence_number: int = 0, mtu: int = 0,
    pointer: int = 0, router_lifetime: int = 0, cur_hop_limit: int = 0, flags: int = 0, bytes4to7: Bytes = bytes(4),
) -> bytes:
    """The 8 bytes of the header of an ICMPv6 message.

    It is made from kind, code, checksum and the fields of the kind. Other fields and other flags are ignored. `type` and `bytes4to7` are
    only for `UNKNOWN`.

    Raises `Error` if the kind or its code is unknown.
    """
    header = _filled(
        _Icmpv6Header(), kind=kind, type=type, code=code, checksum=checksum, id=id, sequence_number=sequence_number, mtu=mtu,
        pointer=pointer, router_lifetime=router_lifetime, cur_hop_limit=cur_hop_limit, flags=flags, bytes4to7=bytes4to7,
    )
    return _written("icmpv6_header_write", header)


def icmpv6_checksum(message: Bytes, source: AnyAddress, destination: AnyAddress) -> int:
    """The right checksum of the ICMPv6 message that the bytes are, whatever its checksum field contains.

    Raises `Error` if the message is refused.
    """
    name, *addresses = _over("icmpv6_checksum", source, destination, _ONLY_IPV6)
    return _checksum(name, message, *addresses)


def store_icmpv6_checksum(message: bytearray | memoryview, source: AnyAddress, destination: AnyAddress) -> None:
    """Stores the right checksum of the ICMPv6 message that the bytes are in its bytes 2 and 3. No other byte changes.

    Raises `Error` if the message is refused.
    """
    name, *addresses = _over("icmpv6_checksum_store", source, destination, _ONLY_IPV6)
    _changed(name, message, *addresses)


def check_icmpv6(message: Bytes, source: AnyAddress, destination: AnyAddress) -> VerdictKind:
    """Tests the checksum of the ICMPv6 message that the bytes are: `RIGHT` or `WRONG`.

    Raises `Error` if the message is refused.
    """
    return _check("icmpv6_checksum_test", message, source, destination, _ONLY_IPV6)


# ---- the packet that an ICMP error is about


def _quoted(name: str, message: Bytes) -> bytes:
    """The packet in an ICMP message that a call finds."""
    data, offset, length = _bytes_of(message), ctypes.c_size_t(), ctypes.c_size_t()
    _call(name, data, len(data), ctypes.byref(offset), ctypes.byref(length))
    return data[offset.value : offset.value + length.value]


def quoted_by_icmpv4(message: Bytes) -> bytes:
    """The packet that an ICMPv4 error is about, as far as the message contains it. Pass it to `transport` with `lax=True`.

    Raises `Error` if the message is refused. `NO_ICMP_ERROR` means that it is not an error.
    """
    return _quoted("icmpv4_quoted_packet", message)


def quoted_by_icmpv6(message: Bytes) -> bytes:
    """The packet that an ICMPv6 error is about, as far as the message contains it. Pass it to `transport` with `lax=True`.

    Raises `Error` if the message is refused. `NO_ICMP_ERROR` means that it is not an error.
    """
    return _quoted("icmpv6_quoted_packet", message)


# ---- the reply to an echo request


def answer_echo(packet: Bytes, hop_limit: int = 64, *, source: AnyAddress | None = None) -> bytes:
    """The reply to the echo request in an IP packet, without the bytes after the packet.

    The reply goes from `source` to the source of the request. Without `source` it comes from the destination of the request. If the request
    was sent to a multicast or broadcast address, pass an address of the host. `hop_limit` is the time to live of IPv4.

    Raises `Error` if the packet is refused. `ECHO_NO_REQUEST` also means that the packet and `source` have different versions of IP.
    """
    if not 0 <= hop_limit <= 255:
        raise ValueError("a hop limit is a byte")
    data, packed = _bytes_of(packet), [] if source is None else [_packed(source)]
    changed, reply_len = ctypes.create_string_buffer(data, len(data)), ctypes.c_size_t()
    name = "echo_answer" + (_BOTH_VERSIONS[len(packed[0])] if packed else "")
    _call(name, changed, len(data), *packed, hop_limit, ctypes.byref(reply_len))
    return changed.raw[: reply_len.value]


def _is_reply(name: str, request: Bytes, reply: Bytes) -> bool:
    """Whether the test of a reply returns that it is one."""
    sent, received = _bytes_of(request), _bytes_of(reply)
    return _call(name, sent, len(sent), received, len(received), results=(_OK, Status.ECHO_NO_REPLY)) == _OK


def is_reply_to(request: Bytes, reply: Bytes) -> bool:
    """Whether the second packet is the reply to the echo request in the first packet.

    It is not if one of the packets is refused. Bytes after a packet are ignored. The checksums of the request are not tested.
    """
    return _is_reply("echo_is_reply", request, reply)


def is_reply_from_any(request: Bytes, reply: Bytes) -> bool:
    """Whether the second packet is the reply to the echo request in the first packet, from the address of any host.

    A host that answers a request to an anycast address replies from its own address. Otherwise the same as `is_reply_to`.
    """
    return _is_reply("echo_is_reply_from_any", request, reply)


# ---- the translation of addresses


def _translation(version: int, values: dict[str, bytes | int | None]) -> _Ipv4Translation | _Ipv6Translation:
    """The translation that replaces these parts. A part that is None stays."""
    found = _Ipv6Translation() if version == 6 else _Ipv4Translation()
    for name, value in values.items():
        if value is not None:
            setattr(found, name, type(getattr(found, name))(*value) if isinstance(value, bytes) else value)
            setattr(found, f"has_{name}", 1)
    return found


def _parts(source: AnyAddress | None = None, destination: AnyAddress | None = None, source_port: int | None = None,
           destination_port: int | None = None) -> dict[str, bytes | int | None]:
    """The parts of a translation, with the addresses in network order."""
    if any(port is not None and not 0 <= port <= 65535 for port in (source_port, destination_port)):
        raise ValueError("a port is a number of 16 bits")
    addresses = {name: _packed(it) for name, it in (("source", source), ("destination", destination)) if it is not None}
    return {**addresses, "source_port": source_port, "destination_port": destination_port}


def translate(
    packet: bytearray | memoryview, source: AnyAddress | None = None, destination: AnyAddress | None = None,
    source_port: int | None = None, destination_port: int | None = None, *, quoted: Mapping[str, Any] | None = None,
) -> None:
    """Translates an IP packet in place, as an address translator does: replaces addresses, and ports or the identifier of an ICMP query.

    The checksums are updated by what is replaced, so a receiver accepts the packet if it accepted it before. What is None stays. The source
    port is also the identifier of an ICMP request, and the destination port the identifier of an ICMP reply. The packet that an ICMP error
    is about is translated with source and destination exchanged. In a later fragment only the addresses are replaced.

    With `quoted`, such as `{"destination": host, "destination_port": 40001}`, these parts are replaced in the packet that an ICMP error is
    about, instead of the exchanged parts. That packet went in the other direction (RFC 5508, section 4).

    Raises `Error` if the packet is refused, which is then unchanged. `IP_VERSION` also means that the packet and the addresses have
    different versions of IP.
    """
    parts = [_parts(source, destination, source_port, destination_port)] + ([] if quoted is None else [_parts(**quoted)])
    data = _bytes_of(packet)
    versions = {6 if len(it) == 16 else 4 for its in parts for it in its.values() if isinstance(it, bytes)}
    versions = versions or {data[0] >> 4 if data else 4}
    if len(versions) > 1:
        raise ValueError("the addresses are not of one version of IP")
    [version] = versions
    name = ("translate_ipv6" if version == 6 else "translate_ipv4") + ("" if quoted is None else "_with_quoted")
    _changed(name, packet, *(ctypes.byref(_translation(version, its)) for its in parts))


# ---- packets between IPv4 and IPv6


def _prefix64(prefix: AnyPrefix) -> _Prefix64:
    """A prefix of IPv6 addresses that contain an IPv4 address."""
    network = ipaddress.IPv6Network(prefix)
    return _Prefix64((ctypes.c_uint8 * 16)(*network.network_address.packed), network.prefixlen)


def _between_versions(name: str, packet: Bytes, source: AnyPrefix, destination: AnyPrefix, *more: int) -> bytes:
    """The packet that a call writes. It is at most 28 bytes longer than the packet, or an ICMP error of at most 1280 bytes."""
    data = _bytes_of(packet)
    prefixes = [ctypes.byref(_prefix64(it)) for it in (source, destination)]
    buffer, written = ctypes.create_string_buffer(len(data) + _ERROR_MAX_LEN), ctypes.c_size_t()
    _call(name, data, len(data), *prefixes, *more, buffer, len(buffer), ctypes.byref(written))
    return buffer.raw[: written.value]


def ipv4_to_ipv6(packet: Bytes, source: AnyPrefix, destination: AnyPrefix) -> bytes:
    """The IPv6 packet for an IPv4 packet (RFC 7915, section 4), with IPv4 addresses behind these prefixes, such as "64:ff9b::/96".

    UDP, TCP and ICMP echo messages are translated, and ICMP errors with the packet that they quote. A message of another protocol is
    copied. A receiver accepts the message of the translated packet if it accepts the message of the packet.

    Raises `Error` if a prefix or the packet is refused, such as a fragment of an ICMP message, and `ValueError` if a text is no prefix.
    """
    return _between_versions("ipv4_to_ipv6", packet, source, destination)


def ipv6_to_ipv4(packet: Bytes, source: AnyPrefix, destination: AnyPrefix, *, identification: int = 0) -> bytes:
    """The IPv4 packet for an IPv6 packet (RFC 7915, section 5), as `ipv4_to_ipv6`, with this identification.

    A fragment becomes a fragment with the identification of its fragment header.
    """
    return _between_versions("ipv6_to_ipv4", packet, source, destination, _integer(identification, 16, "an identification"))


# ---- canonical headers


def canonical_header(protocol: int, message: Bytes) -> bytes:
    """The header at the front of a message with all reserved bits cleared, at most 60 bytes.

    The checksum is copied, so it may be wrong if a bit was cleared. The length field of UDP is ignored.

    Raises `Error` if the protocol is unknown, or the message is refused.
    """
    data = _bytes_of(message)
    return _written("canonical_header", _integer(protocol, 32, "a protocol"), data, len(data))


# ---- the Internet checksum


@dataclass(frozen=True)
class Sum:
    """A running one's complement sum of 16 bit words (RFC 1071). By default it is the sum of no bytes.

    `value` is 0 only if all bytes are zeros. A sum does not change: `add` and `add_at` return another sum.
    """

    value: int = field(default_factory=lambda: _library().etherparse_sum_new().value)

    def _struct(self) -> _Sum:
        return _filled(_Sum(), value=self.value)

    def add(self, data: Bytes) -> Sum:
        """Adds the words of these bytes. An odd last byte is the high half of a word, so only the last of several parts may be odd."""
        added = _bytes_of(data)
        return Sum(_library().etherparse_sum_add(self._struct(), added, len(added)).value)

    def add_at(self, offset: int, data: Bytes) -> Sum:
        """Adds the words of these bytes to a sum that already covers `offset` bytes. So the parts of a packet may have any lengths."""
        added = _bytes_of(data)
        return Sum(_library().etherparse_sum_add_at(self._struct(), _integer(offset, 64, "an offset"), added, len(added)).value)

    def checksum(self) -> int:
        """The checksum of what was added, as TCP, ICMP and the IPv4 header store it. It is 0 if the bytes contain a right checksum."""
        return _library().etherparse_sum_checksum(self._struct())

    def udp_checksum(self) -> int:
        """The checksum of what was added, as UDP stores it: 65535 instead of 0."""
        return _library().etherparse_sum_udp_checksum(self._struct())


# ---- the update of a checksum


@dataclass(frozen=True)
class ChecksumChange:
    """A change of the bytes that a checksum covers (RFC 1624). By default it replaces nothing.

    The fields are the one's complement sums of the replaced bytes and of the new bytes. A change does not change: `replace` and `reversed`
    return another change.
    """

    removed: int = field(default_factory=lambda: _library().etherparse_checksum_change_new().removed)
    added: int = field(default_factory=lambda: _library().etherparse_checksum_change_new().added)

    def _struct(self) -> _ChecksumChange:
        return _filled(_ChecksumChange(), removed=self.removed, added=self.added)

    def replace(self, old: Bytes, new: Bytes) -> ChecksumChange:
        """Also replaces the old bytes by the new bytes. They begin at an even offset in what the checksum covers, and both lengths are even
        or both are odd, which the library cannot check.
        """
        before, after = _bytes_of(old), _bytes_of(new)
        found = _library().etherparse_checksum_change_replace(self._struct(), before, len(before), after, len(after))
        return ChecksumChange(found.removed, found.added)

    def reversed(self) -> ChecksumChange:
        """The change that restores the old bytes, as a translator does in the packets of the other direction."""
        found = _library().etherparse_checksum_change_reversed(self._struct())
        return ChecksumChange(found.removed, found.added)

    def apply(self, checksum: int) -> int:
        """The checksum of the changed packet, from the checksum of the packet before, as TCP, ICMP and the IPv4 header store it.

        A right checksum becomes the right checksum, and a wrong checksum stays wrong, with two exceptions. If all bytes become zeros, it is
        0 and should be 65535. If all bytes were zeros, the wrong checksum 0 becomes right. With a pseudo header neither can happen.
        """
        return _library().etherparse_checksum_change_apply(self._struct(), _integer(checksum, 16, "a checksum"))

    def apply_udp(self, checksum: int) -> int:
        """The same as UDP stores it: 0, which means no checksum, stays 0, and no other checksum becomes 0."""
        return _library().etherparse_checksum_change_apply_udp(self._struct(), _integer(checksum, 16, "a checksum"))
