/*
 * SPDX-FileCopyrightText: 2026 The etherparse_transport developers
 * SPDX-License-Identifier: MIT OR Apache-2.0
 *
 * The transport layer for C and C++: UDP (RFC 768), TCP (RFC 9293), ICMPv4 (RFC 792), ICMPv6 (RFC 4443, RFC 4861), the Internet
 * checksum (RFC 1071), and its update where bytes change (RFC 1624). C99, and C++11.
 *
 * An example. It prints the ports, the length of the payload and the verdict on the checksum of the UDP packet in an IP packet.
 *
 *     void print_udp(const uint8_t *bytes, size_t len)
 *     {
 *         etherparse_ip_packet ip;
 *         etherparse_udp_packet udp;
 *         etherparse_error error;
 *         char text[ETHERPARSE_ERROR_TEXT_MAX_LEN + 1];
 *         const uint8_t *message;
 *
 *         if (etherparse_packet_verdict(bytes, len, &ip, &error) != ETHERPARSE_OK) {
 *             etherparse_error_text(&error, text, sizeof text);
 *             printf("refused: %s\n", text);
 *             return;
 *         }
 *         message = bytes + ip.transport.payload_offset;
 *         if (ip.header_protocol == ETHERPARSE_PROTOCOL_UDP &&
 *             etherparse_udp_packet_read(message, ip.transport.payload_len, &udp, &error) == ETHERPARSE_OK)
 *             printf("%u to %u, %zu bytes, %s\n", udp.header.source_port, udp.header.destination_port, udp.payload_len,
 *                    etherparse_text_of_verdict(ip.verdict));
 *     }
 *
 * A program links with -letherparse_transport, or names libetherparse_transport.a after its own files. It needs nothing else.
 *
 * What holds of every call
 *
 *  - A call that can refuse its input returns a status. ETHERPARSE_OK, which is 0, means that the call did what it is for, and then
 *    `error` is unchanged. Every other status is the reason for a refusal. Then `error` is filled and contains the status, and nothing
 *    else is written: results, buffers and lengths are unchanged. Only the two calls that read the next option also move `*place`, as
 *    their comments state.
 *  - `error` may be NULL if it is not wanted, in C, in C++ and in every language that calls the library. The status is the same.
 *  - Bytes are passed as a pointer and a length. A call reads and writes no byte beyond that length. The length may be 0.
 *  - A pointer that is followed by a length may be NULL if the length is 0. Except for `error`, no other pointer may be NULL. gcc and clang
 *    warn of a NULL that they see.
 *  - A length is a number of bytes. In parameters and structs its name is `len`. `length` and `size` in a name are for numbers that a
 *    packet contains: the length of a UDP header, the window size of TCP, the length byte of a TCP option (option_size).
 *  - What a pointer without `const` points to must not overlap what another argument of the same call points to. Arguments with
 *    `const` may overlap each other.
 *  - To change a packet in place, read its header into a struct, write the struct to the front of the packet's bytes, and store the
 *    checksum by a call that has `checksum_store` in its name. A TCP header is written by etherparse_tcp_header_store. Each of these calls
 *    changes bytes of the header only, and changes nothing if it refuses.
 *  - A result or a buffer need not be set before the call. `*place` of etherparse_tcp_option_next has to be set.
 *  - Numbers in structs are in the byte order of the host. Bytes of packets and addresses are in network byte order.
 *  - The bytes of a packet begin with its transport header and end where the IP packet ends: in an Ethernet frame, padding follows a
 *    short packet. Addresses are the addresses that the checksum covers: with a source route or a routing header, the destination is
 *    the final destination. etherparse_transport_in_ip finds the bytes and the addresses.
 *  - Nothing is allocated, nothing is kept between calls, and there is nothing to initialise. A call reads and writes only what
 *    its arguments point to. Threads may call at the same time, and a signal handler may call.
 *
 * The interface stays compatible while ETHERPARSE_VERSION_MAJOR stays the same, and in version 0 while ETHERPARSE_VERSION_MINOR stays the
 * same too: no number gets another meaning, no struct gets another size or another offset of a field, and no call gets another type.
 * Later versions may add numbers, so a `switch` needs a `default`. A change that needs another struct gets a call and a struct with
 * other names. Version 0.5 has everything that version 0.4 has, except that the names of kinds of ICMP messages have KIND in them, as in
 * ETHERPARSE_ICMPV4_KIND_ECHO_REQUEST, and that etherparse_ip_transport and etherparse_ip_packet are longer.
 */
#ifndef ETHERPARSE_TRANSPORT_H
#define ETHERPARSE_TRANSPORT_H

/*
 * The library is built for Linux on x86-64 processors of ETHERPARSE_PROCESSOR_LEVEL, and on 64-bit ARM processors (AArch64) in little-endian
 * mode. The structs have the same layout on both. Compilers for Windows and macOS define __x86_64__ or __aarch64__ too, but use another calling
 * convention or another object format.
 */
#if !defined(__x86_64__) && !defined(__aarch64__)
#error "etherparse_transport is built for x86-64 and for 64-bit ARM"
#elif defined(__ILP32__)
#error "etherparse_transport is built for pointers of 64 bits"
#elif defined(__AARCH64EB__)
#error "etherparse_transport is built for little-endian processors, not for big-endian ARM"
#endif
#if defined(_WIN32) || defined(__CYGWIN__) || defined(__APPLE__)
#error "etherparse_transport is built for Linux, not for Windows or macOS"
#endif

#include <stddef.h>
#include <stdint.h>

/*
 * The compiler warns of a NULL that is not allowed, and of an unused result. To ignore a result on purpose, compare it: (void)(call == 0).
 * To ignore all results, define ETHERPARSE_CHECK_RESULT as nothing before this file is included.
 */
#if defined(__GNUC__) || defined(__clang__)
#define ETHERPARSE_NOT_NULL(...) __attribute__((nonnull(__VA_ARGS__)))
#else
#define ETHERPARSE_NOT_NULL(...)
#endif
#if defined(ETHERPARSE_CHECK_RESULT)
#elif defined(__GNUC__) || defined(__clang__)
#define ETHERPARSE_CHECK_RESULT __attribute__((warn_unused_result))
#else
#define ETHERPARSE_CHECK_RESULT
#endif

#ifdef __cplusplus
extern "C" {
#endif

/* ---- version ------------------------------------------------------------------------------------------------------------- */

/* The version of the interface that this file declares. */
#define ETHERPARSE_VERSION_MAJOR 0
#define ETHERPARSE_VERSION_MINOR 5
#define ETHERPARSE_VERSION_PATCH 0
#define ETHERPARSE_VERSION_STRING "0.5.0"

/* The version as one number, as etherparse_version returns it. The preprocessor can compare it. */
#define ETHERPARSE_VERSION (ETHERPARSE_VERSION_MAJOR * 65536 + ETHERPARSE_VERSION_MINOR * 256 + ETHERPARSE_VERSION_PATCH)

/* Returns the version of the interface of the library: major times 65536, plus minor times 256, plus patch. */
ETHERPARSE_CHECK_RESULT
uint32_t etherparse_version(void);

/* ---- processor ----------------------------------------------------------------------------------------------------------- */

/* The processors that the library is for: with 1 every x86-64 processor, with 2 those of the level x86-64-v2; and every 64-bit ARM processor. */
#define ETHERPARSE_PROCESSOR_LEVEL 2

#if defined(__GNUC__) || defined(__clang__)
/*
 * Returns 1 if the library supports the processor, otherwise 0. On ARM, and if ETHERPARSE_PROCESSOR_LEVEL is 1, it returns 1.
 *
 * If ETHERPARSE_PROCESSOR_LEVEL is 2, the processor needs the level x86-64-v2. Below this level, a call of the library can end the program
 * by SIGILL. glibc from 2.33 refuses to load the shared library there, and to start a program that GNU ld or gold linked with the installed
 * static library. A program that is linked with -static or by another linker has to check the level before its first call.
 *
 * The compiler puts this function into the program. It is not in the library, and compilers other than gcc and clang do not have it.
 */
ETHERPARSE_CHECK_RESULT __attribute__((unused))
static inline int etherparse_processor_is_supported(void)
{
#if defined(__x86_64__) && ETHERPARSE_PROCESSOR_LEVEL > 1
    /* The level is SSE4.2, POPCNT and older instructions that every processor with these two has. */
    __builtin_cpu_init();
    return __builtin_cpu_supports("sse4.2") && __builtin_cpu_supports("popcnt");
#else
    return 1;
#endif
}
#endif

/* ---- statuses and errors ------------------------------------------------------------------------------------------------- */

/* What a call returns: one of the numbers below. */
typedef uint32_t etherparse_status;

/*
 * The statuses as a table. For a `switch` over (enum etherparse_status_number)status, gcc and clang warn of a status without a case if
 * -Wswitch-enum is given. The macros after the table have the same names and numbers, for the preprocessor.
 */
enum etherparse_status_number {
    ETHERPARSE_OK = 0,
    ETHERPARSE_STATUS_LENGTH = 1,
    ETHERPARSE_STATUS_DATA_OFFSET = 2,
    ETHERPARSE_STATUS_VALUE_TOO_BIG = 3,
    ETHERPARSE_STATUS_BUFFER_TOO_SMALL = 4,
    ETHERPARSE_STATUS_CHECKSUM_WRONG = 5,
    ETHERPARSE_STATUS_CHECKSUM_ABSENT = 6,
    ETHERPARSE_STATUS_OPTIONS_TOO_LONG = 7,
    ETHERPARSE_STATUS_FLAGS_UNKNOWN = 8,
    ETHERPARSE_STATUS_PROTOCOL_UNKNOWN = 9,
    ETHERPARSE_STATUS_OPTIONS_END = 10,
    ETHERPARSE_STATUS_OPTION_CUT_OFF = 11,
    ETHERPARSE_STATUS_OPTION_SIZE = 12,
    ETHERPARSE_STATUS_OPTION_UNKNOWN = 13,
    ETHERPARSE_STATUS_MESSAGE_UNKNOWN = 14,
    ETHERPARSE_STATUS_IP_HEADER_CUT_OFF = 15,
    ETHERPARSE_STATUS_IP_VERSION = 16,
    ETHERPARSE_STATUS_IP_HEADER_LENGTH = 17,
    ETHERPARSE_STATUS_IP_TOTAL_LENGTH = 18,
    ETHERPARSE_STATUS_IP_PACKET_CUT_OFF = 19,
    ETHERPARSE_STATUS_IP_EXTENSION_CUT_OFF = 20,
    ETHERPARSE_STATUS_IP_JUMBO_PAYLOAD_MISSING = 21,
    ETHERPARSE_STATUS_IP_JUMBO_PAYLOAD_LENGTH = 22,
    ETHERPARSE_STATUS_IP_JUMBO_PAYLOAD_UNEXPECTED = 23,
    ETHERPARSE_STATUS_IP_JUMBO_PAYLOAD_FRAGMENT = 24,
    ETHERPARSE_STATUS_OPTION_VALUES = 31,
    ETHERPARSE_STATUS_ECHO_FRAGMENT = 32,
    ETHERPARSE_STATUS_ECHO_NO_REQUEST = 33,
    ETHERPARSE_STATUS_ECHO_HAS_OPTIONS = 34,
    ETHERPARSE_STATUS_ECHO_HEADER_CHECKSUM_WRONG = 35,
    ETHERPARSE_STATUS_ECHO_REQUEST_SOURCE = 36,
    ETHERPARSE_STATUS_ECHO_REPLY_SOURCE = 37,
    ETHERPARSE_STATUS_NO_ICMP_ERROR = 38,
    ETHERPARSE_STATUS_TRANSLATE_HAS_OPTIONS = 39,
    ETHERPARSE_STATUS_TRANSLATE_PROTOCOL = 40,
    ETHERPARSE_STATUS_TRANSLATE_HEADER_CUT_OFF = 41,
    ETHERPARSE_STATUS_TRANSLATE_ICMP_MESSAGE = 42,
    ETHERPARSE_STATUS_TRANSLATE_QUOTED_PACKET = 43,
    ETHERPARSE_STATUS_ECHO_NO_REPLY = 44,
    ETHERPARSE_STATUS_TRANSLATE_SOURCE_ROUTE = 45,
    ETHERPARSE_STATUS_CHECKSUM_UNTESTED = 46,
    ETHERPARSE_STATUS_HOP_LIMIT_EXPIRED = 47,
    ETHERPARSE_STATUS_ICMP_ERROR_LATER_FRAGMENT = 48,
    ETHERPARSE_STATUS_ICMP_ERROR_ABOUT_ERROR = 49,
    ETHERPARSE_STATUS_ICMP_ERROR_ABOUT_GROUP = 50,
    ETHERPARSE_STATUS_ICMP_ERROR_PACKET_SOURCE = 51,
    ETHERPARSE_STATUS_ICMP_ERROR_SOURCE = 52,
    ETHERPARSE_STATUS_SEGMENT_SIZE_LATER_FRAGMENT = 53,
    ETHERPARSE_STATUS_SEGMENT_SIZE_NO_SYN = 54,
    ETHERPARSE_STATUS_SEGMENT_SIZE_NO_OPTION = 55,
    ETHERPARSE_STATUS_PREFIX_LENGTH = 56,
    ETHERPARSE_STATUS_PREFIX_RESERVED_OCTET = 57,
    ETHERPARSE_STATUS_PREFIX_SUFFIX = 58,
    ETHERPARSE_STATUS_SIIT_NO_HEADER = 59,
    ETHERPARSE_STATUS_SIIT_HEADER_CHECKSUM = 60,
    ETHERPARSE_STATUS_SIIT_FRAGMENT_CHECKSUM = 61,
    ETHERPARSE_STATUS_SIIT_EXTENSION_HEADER = 62,
    ETHERPARSE_STATUS_SIIT_PAYLOAD_LENGTH = 63,
    ETHERPARSE_STATUS_SIIT_TIME_EXCEEDED = 64,
    ETHERPARSE_STATUS_SIIT_SOURCE = 65,
    ETHERPARSE_STATUS_SIIT_DESTINATION = 66,
    ETHERPARSE_STATUS_SIIT_NOT_EMBEDDED = 67,
    ETHERPARSE_STATUS_SIIT_NOT_GLOBAL = 68,
    ETHERPARSE_STATUS_SIIT_ICMP_EXTENSION = 69,
    ETHERPARSE_STATUS_SIIT_ICMP_POINTER = 70,
    ETHERPARSE_STATUS_SIIT_TRANSPORT_HEADER = 71,
    ETHERPARSE_STATUS_SIIT_UDP_LENGTH = 72,
    ETHERPARSE_STATUS_SIIT_NO_UDP_CHECKSUM = 73,
    ETHERPARSE_STATUS_SIIT_ICMP_MESSAGE = 74,
    ETHERPARSE_STATUS_SIIT_QUOTED_PACKET = 75,
    ETHERPARSE_STATUS_REASSEMBLY_NO_FRAGMENT = 76,
    ETHERPARSE_STATUS_REASSEMBLY_HEADER_CHAIN_CUT_OFF = 77,
    ETHERPARSE_STATUS_REASSEMBLY_OTHER_KEY = 78,
    ETHERPARSE_STATUS_REASSEMBLY_EMPTY = 79,
    ETHERPARSE_STATUS_REASSEMBLY_FRAGMENT_LENGTH = 80,
    ETHERPARSE_STATUS_REASSEMBLY_TOO_LONG = 81,
    ETHERPARSE_STATUS_REASSEMBLY_ROOM = 82,
    ETHERPARSE_STATUS_REASSEMBLY_OTHER_END = 83,
    ETHERPARSE_STATUS_REASSEMBLY_BEHIND_END = 84,
    ETHERPARSE_STATUS_REASSEMBLY_OVERLAP = 85,
    ETHERPARSE_STATUS_REASSEMBLY_TOO_MANY_FRAGMENTS = 86,
    ETHERPARSE_STATUS_REASSEMBLY_INCOMPLETE = 87,
    ETHERPARSE_STATUS_REASSEMBLY_HEADER = 88,
    ETHERPARSE_STATUS_REASSEMBLY_LENGTHS = 89,
    ETHERPARSE_STATUS_SIIT_EXTENSION_HEADER_CUT_OFF = 90,
    ETHERPARSE_STATUS_SIIT_SEGMENTS_LEFT = 91,
    ETHERPARSE_STATUS_SIIT_ICMP_FRAGMENT = 92
};

/*
 * The comment of a status names the fields of etherparse_error that it fills in addition to `status`. The numbers 25 to 30 are
 * reserved for IP headers. The name of each status begins with ETHERPARSE_STATUS_, except ETHERPARSE_OK.
 */

/* The call did what it is for. Of a test: the checksum is right, or the packet is the reply. `error` is unchanged. */
#define ETHERPARSE_OK 0
/* A length is too short or too long: layer, len_source, required_len, len, layer_start_offset. */
#define ETHERPARSE_STATUS_LENGTH 1
/* The data offset of a TCP header counts fewer than five words of four bytes: data_offset. */
#define ETHERPARSE_STATUS_DATA_OFFSET 2
/* A value is above its limit: value_type, actual, max_allowed. */
#define ETHERPARSE_STATUS_VALUE_TOO_BIG 3
/* The buffer is too small: required_len, len. The buffer is unchanged. */
#define ETHERPARSE_STATUS_BUFFER_TOO_SMALL 4
/* The checksum is wrong: no other field. */
#define ETHERPARSE_STATUS_CHECKSUM_WRONG 5
/* The checksum field of a UDP packet is 0, which means that the packet has no checksum: no other field. */
#define ETHERPARSE_STATUS_CHECKSUM_ABSENT 6
/* More than 40 bytes of TCP options: required_len, which is 40, and len, the length of all options. */
#define ETHERPARSE_STATUS_OPTIONS_TOO_LONG 7
/* Flags of a TCP header above ETHERPARSE_TCP_FLAGS: actual, max_allowed. */
#define ETHERPARSE_STATUS_FLAGS_UNKNOWN 8
/* A protocol that the call does not accept: none of UDP, TCP, ICMPv4 and ICMPv6, or ICMP of the other IP version: actual. */
#define ETHERPARSE_STATUS_PROTOCOL_UNKNOWN 9
/* No TCP option is left: no other field. */
#define ETHERPARSE_STATUS_OPTIONS_END 10
/* Fewer bytes are left than the TCP option needs: option_kind, required_len, len. */
#define ETHERPARSE_STATUS_OPTION_CUT_OFF 11
/* No TCP option of this kind has this length byte: option_kind, option_size. */
#define ETHERPARSE_STATUS_OPTION_SIZE 12
/* An unknown kind of TCP option: option_kind. */
#define ETHERPARSE_STATUS_OPTION_UNKNOWN 13
/* An unknown kind of ICMP message, or an unknown code of its kind: no other field. */
#define ETHERPARSE_STATUS_MESSAGE_UNKNOWN 14
/*
 * The bytes end within an IP header: required_len and len. required_len is 1 if there are no bytes. Otherwise it is 20 or the header length
 * of IPv4, or 40 of IPv6. It is 48 or the end of the hop-by-hop options if these contain the length.
 */
#define ETHERPARSE_STATUS_IP_HEADER_CUT_OFF 15
/* The version of an IP packet is neither 4 nor 6, or a version that the call does not accept: actual. */
#define ETHERPARSE_STATUS_IP_VERSION 16
/* The header length of an IPv4 packet is below 20 bytes: required_len, which is 20, and len, which is the header length. */
#define ETHERPARSE_STATUS_IP_HEADER_LENGTH 17
/* The total length of an IPv4 packet is below its header length: required_len is the header length, and len is the total length. */
#define ETHERPARSE_STATUS_IP_TOTAL_LENGTH 18
/* An IP header counts more bytes than there are: required_len, which is what it counts, header included, and len. */
#define ETHERPARSE_STATUS_IP_PACKET_CUT_OFF 19
/*
 * A packet ends within an extension header of IPv6, or within the authentication header of IPv4: actual, which is its number,
 * layer_start_offset, required_len, which is its length, or 8 if fewer than 8 bytes are left, and len, which is the length of what is left
 * of the packet.
 */
#define ETHERPARSE_STATUS_IP_EXTENSION_CUT_OFF 20
/* The payload length of an IPv6 packet is 0, and the hop-by-hop options after its header have no jumbo payload option (RFC 2675): no
   other field. */
#define ETHERPARSE_STATUS_IP_JUMBO_PAYLOAD_MISSING 21
/* A jumbo payload length that is not above 65,535: required_len, which is 65,536, and len. */
#define ETHERPARSE_STATUS_IP_JUMBO_PAYLOAD_LENGTH 22
/* A jumbo payload option in an IPv6 packet whose payload length is not 0: actual, which is the payload length. */
#define ETHERPARSE_STATUS_IP_JUMBO_PAYLOAD_UNEXPECTED 23
/* A fragment header in an IPv6 packet with a jumbo payload option: layer_start_offset. */
#define ETHERPARSE_STATUS_IP_JUMBO_PAYLOAD_FRAGMENT 24
/* The values don't fit the kind of TCP option: a wrong number of values, or a value above its limit: option_kind. */
#define ETHERPARSE_STATUS_OPTION_VALUES 31
/* The packet is a fragment. An echo request is answered only after its packet is put together (RFC 1122, section 3.3.2): no other field. */
#define ETHERPARSE_STATUS_ECHO_FRAGMENT 32
/*
 * The packet is not an echo request, which has type 8 over IPv4 and 128 over IPv6, and code 0. Or it has another IP version than the
 * call: no other field.
 */
#define ETHERPARSE_STATUS_ECHO_NO_REQUEST 33
/*
 * The packet contains IPv4 options of another kind than 0 and 1, an authentication header, or IPv6 extension headers: no other
 * field.
 */
#define ETHERPARSE_STATUS_ECHO_HAS_OPTIONS 34
/* The checksum of the IPv4 header of an echo request is wrong: no other field. */
#define ETHERPARSE_STATUS_ECHO_HEADER_CHECKSUM_WRONG 35
/*
 * The source of an echo request is not the address of one host. It is the unspecified address, a loopback address, a multicast address, or
 * 255.255.255.255: no other field.
 */
#define ETHERPARSE_STATUS_ECHO_REQUEST_SOURCE 36
/* The source of the reply to an echo request is not the address of one host either: no other field. */
#define ETHERPARSE_STATUS_ECHO_REPLY_SOURCE 37
/*
 * The ICMP message is not an error, so it quotes no packet. Or the message to write is no ICMP error with a name, or a redirect whose
 * gateway is no host: no other field.
 */
#define ETHERPARSE_STATUS_NO_ICMP_ERROR 38
/* Reserved for a packet to be translated with IPv4 options. No call returns it. */
#define ETHERPARSE_STATUS_TRANSLATE_HAS_OPTIONS 39
/*
 * The protocol is not UDP, TCP or ICMP of the IP version of the call, and a port is passed, or the protocol covers the addresses, as AH and
 * DCCP do. So the packet is not translated: actual, which is the number of the protocol.
 */
#define ETHERPARSE_STATUS_TRANSLATE_PROTOCOL 40
/* The packet contains fewer than 8 bytes of UDP, TCP or ICMP: required_len, which is 8, and len. */
#define ETHERPARSE_STATUS_TRANSLATE_HEADER_CUT_OFF 41
/* The ICMP message is neither a query nor an error, or it is a redirect. So the packet is not translated: no other field. */
#define ETHERPARSE_STATUS_TRANSLATE_ICMP_MESSAGE 42
/* The packet that the ICMP error quotes can't be translated, so the error is not translated: no other field. */
#define ETHERPARSE_STATUS_TRANSLATE_QUOTED_PACKET 43
/* The packet is not the reply to the echo request: no other field. */
#define ETHERPARSE_STATUS_ECHO_NO_REPLY 44
/* The IPv4 options contain a loose or strict source route, so the packet is not translated: no other field. */
#define ETHERPARSE_STATUS_TRANSLATE_SOURCE_ROUTE 45
/* No checksum is stored, because the packet's checksum can't be tested: actual, which is the verdict, ETHERPARSE_VERDICT_UNTESTED_.. */
#define ETHERPARSE_STATUS_CHECKSUM_UNTESTED 46
/* The hop limit is 0 or 1, so it is not lowered: actual, which is the hop limit. */
#define ETHERPARSE_STATUS_HOP_LIMIT_EXPIRED 47
/* The packet is a later fragment, about which there is no ICMP error: no other field. */
#define ETHERPARSE_STATUS_ICMP_ERROR_LATER_FRAGMENT 48
/* The packet may be an ICMP error, about which there is no ICMP error: no other field. */
#define ETHERPARSE_STATUS_ICMP_ERROR_ABOUT_ERROR 49
/* The destination of the packet is an address of several hosts, so there is no ICMP error about it: no other field. */
#define ETHERPARSE_STATUS_ICMP_ERROR_ABOUT_GROUP 50
/* The source of the packet is not the address of one host, so there is no ICMP error about it: no other field. */
#define ETHERPARSE_STATUS_ICMP_ERROR_PACKET_SOURCE 51
/* The source of the ICMP error is not the address of one host: no other field. */
#define ETHERPARSE_STATUS_ICMP_ERROR_SOURCE 52
/* The packet is a later fragment, so it contains no maximum segment size: no other field. */
#define ETHERPARSE_STATUS_SEGMENT_SIZE_LATER_FRAGMENT 53
/* The segment is not a SYN, so it contains no maximum segment size: no other field. */
#define ETHERPARSE_STATUS_SEGMENT_SIZE_NO_SYN 54
/* The options of the segment contain no maximum segment size: no other field. */
#define ETHERPARSE_STATUS_SEGMENT_SIZE_NO_OPTION 55
/* The length of a prefix is not 32, 40, 48, 56, 64 or 96 bits: actual is the length. */
#define ETHERPARSE_STATUS_PREFIX_LENGTH 56
/* Bits 64 to 71 of a prefix are not 0: no other field. */
#define ETHERPARSE_STATUS_PREFIX_RESERVED_OCTET 57
/* A bit after a prefix is not 0: no other field. */
#define ETHERPARSE_STATUS_PREFIX_SUFFIX 58
/*
 * The packet is not translated between IPv4 and IPv6, because it does not begin with a whole header of the IP version that the call reads:
 * actual is the version, 4 or 6.
 */
#define ETHERPARSE_STATUS_SIIT_NO_HEADER 59
/* The packet is not translated between IPv4 and IPv6, because the checksum of its IPv4 header is wrong: no other field. */
#define ETHERPARSE_STATUS_SIIT_HEADER_CHECKSUM 60
/* The packet is not translated from IPv4 to IPv6, because it is a fragment of a UDP packet without a checksum: no other field. */
#define ETHERPARSE_STATUS_SIIT_FRAGMENT_CHECKSUM 61
/*
 * The packet is not translated from IPv6 to IPv4, because an extension header follows its fragment header: actual is the number of that
 * extension header.
 */
#define ETHERPARSE_STATUS_SIIT_EXTENSION_HEADER 62
/* The packet is not translated from IPv6 to IPv4, because its payload length is above 65,515: actual is the payload length. */
#define ETHERPARSE_STATUS_SIIT_PAYLOAD_LENGTH 63
/* The packet is not translated between IPv4 and IPv6, because its time to live or hop limit is 0 or 1: no other field. */
#define ETHERPARSE_STATUS_SIIT_TIME_EXCEEDED 64
/* The packet is not translated between IPv4 and IPv6, because its source is not the address of a host: no other field. */
#define ETHERPARSE_STATUS_SIIT_SOURCE 65
/* The packet is not translated between IPv4 and IPv6, because its destination is not the address of a host: no other field. */
#define ETHERPARSE_STATUS_SIIT_DESTINATION 66
/*
 * The packet is not translated from IPv6 to IPv4, because an address contains no IPv4 address after its prefix: actual is 0 for the source,
 * and 1 for the destination.
 */
#define ETHERPARSE_STATUS_SIIT_NOT_EMBEDDED 67
/*
 * The packet is not translated between IPv4 and IPv6, because an IPv4 address is not global, and its prefix is the well-known prefix:
 * actual is 0 for the source, and 1 for the destination.
 */
#define ETHERPARSE_STATUS_SIIT_NOT_GLOBAL 68
/* The ICMP error is not translated between IPv4 and IPv6, because its length field (RFC 4884, section 4) is wrong: actual is this field. */
#define ETHERPARSE_STATUS_SIIT_ICMP_EXTENSION 69
/* The ICMP parameter problem is not translated between IPv4 and IPv6, because its pointer has no translation: actual is the pointer. */
#define ETHERPARSE_STATUS_SIIT_ICMP_POINTER 70
/*
 * The packet is not translated between IPv4 and IPv6, because the packet, or the packet that it quotes, ends within its transport header:
 * required_len, len.
 */
#define ETHERPARSE_STATUS_SIIT_TRANSPORT_HEADER 71
/*
 * The packet is not translated from IPv4 to IPv6, because it has no UDP checksum, and its UDP length is wrong: actual is the length field,
 * len.
 */
#define ETHERPARSE_STATUS_SIIT_UDP_LENGTH 72
/* The packet is not translated from IPv6 to IPv4, because it has no UDP checksum: no other field. */
#define ETHERPARSE_STATUS_SIIT_NO_UDP_CHECKSUM 73
/* The ICMP message is not translated between IPv4 and IPv6: actual is 256 times the type, plus the code. */
#define ETHERPARSE_STATUS_SIIT_ICMP_MESSAGE 74
/* The ICMP error is not translated between IPv4 and IPv6, because the packet that it quotes can't be translated: no other field. */
#define ETHERPARSE_STATUS_SIIT_QUOTED_PACKET 75
/* The packet is whole, so it is not a fragment: no other field. */
#define ETHERPARSE_STATUS_REASSEMBLY_NO_FRAGMENT 76
/*
 * The first fragment of an IPv6 packet ends within its transport header (RFC 7112): required_len, which is the length of the transport
 * header, and len.
 */
#define ETHERPARSE_STATUS_REASSEMBLY_HEADER_CHAIN_CUT_OFF 77
/* The fragment belongs to another packet than the first fragment: no other field. */
#define ETHERPARSE_STATUS_REASSEMBLY_OTHER_KEY 78
/* The fragment has no payload: no other field. */
#define ETHERPARSE_STATUS_REASSEMBLY_EMPTY 79
/* More fragments follow, and the length of the payload is not a multiple of 8: len, which is the length of the payload. */
#define ETHERPARSE_STATUS_REASSEMBLY_FRAGMENT_LENGTH 80
/*
 * The fragment ends beyond 65,535 bytes, the longest payload: required_len, which is 65,535, and len, which is the place after the last
 * byte.
 */
#define ETHERPARSE_STATUS_REASSEMBLY_TOO_LONG 81
/*
 * The fragment ends beyond the room for the payload: required_len, which is the place after the last byte, and len, which is the room for
 * the payload.
 */
#define ETHERPARSE_STATUS_REASSEMBLY_ROOM 82
/* Two last fragments end at different places: no other field. */
#define ETHERPARSE_STATUS_REASSEMBLY_OTHER_END 83
/* A fragment that is not the last does not end before the last: no other field. */
#define ETHERPARSE_STATUS_REASSEMBLY_BEHIND_END 84
/* The fragment overlaps another fragment, but does not repeat it (RFC 5722): no other field. */
#define ETHERPARSE_STATUS_REASSEMBLY_OVERLAP 85
/* The packet has more than 128 fragments: no other field. */
#define ETHERPARSE_STATUS_REASSEMBLY_TOO_MANY_FRAGMENTS 86
/* Bytes of the payload are missing: no other field. */
#define ETHERPARSE_STATUS_REASSEMBLY_INCOMPLETE 87
/* The payload is complete, but the whole packet has no room for its headers: no other field. */
#define ETHERPARSE_STATUS_REASSEMBLY_HEADER 88
/* A length counts more bytes than are left: required_len, which is the length, and len, which is the number of bytes that are left. */
#define ETHERPARSE_STATUS_REASSEMBLY_LENGTHS 89
/*
 * The packet is not translated from IPv6 to IPv4, because an extension header ends after the packet: actual is the number of the header,
 * required_len its length (8 if the packet ends within its first 8 bytes), and len the number of bytes that are left.
 */
#define ETHERPARSE_STATUS_SIIT_EXTENSION_HEADER_CUT_OFF 90
/*
 * The packet is not translated from IPv6 to IPv4, because a routing header has segments left: actual is the place of the field "segments
 * left" in the packet, for the pointer of an ICMPv6 parameter problem.
 */
#define ETHERPARSE_STATUS_SIIT_SEGMENTS_LEFT 91
/* The packet is not translated between IPv4 and IPv6, because it is a fragment of an ICMP message: no other field. */
#define ETHERPARSE_STATUS_SIIT_ICMP_FRAGMENT 92

/* The layer whose length was wrong. 0 means no layer. The numbers from 8 on are reserved for IP headers. */
enum {
    ETHERPARSE_LAYER_UDP_HEADER = 1,
    ETHERPARSE_LAYER_UDP_PAYLOAD = 2,
    ETHERPARSE_LAYER_TCP_HEADER = 3,
    ETHERPARSE_LAYER_ICMPV4 = 4,
    ETHERPARSE_LAYER_ICMPV4_TIMESTAMP = 5,
    ETHERPARSE_LAYER_ICMPV4_TIMESTAMP_REPLY = 6,
    ETHERPARSE_LAYER_ICMPV6 = 7
};

/* The source of a length. 0 means no source. */
enum {
    ETHERPARSE_LEN_SOURCE_SLICE = 1,         /* the length that was passed to the call */
    ETHERPARSE_LEN_SOURCE_UDP_HEADER_LEN = 2 /* the length field of a UDP header */
};

/* The kind of the value that was above its limit. 0 means no value. */
enum {
    ETHERPARSE_VALUE_UDP_PAYLOAD_LENGTH_IPV4 = 1,
    ETHERPARSE_VALUE_UDP_PAYLOAD_LENGTH_IPV6 = 2,
    ETHERPARSE_VALUE_TCP_PAYLOAD_LENGTH_IPV4 = 3,
    ETHERPARSE_VALUE_TCP_PAYLOAD_LENGTH_IPV6 = 4,
    ETHERPARSE_VALUE_ICMPV6_PAYLOAD_LENGTH = 5,
    ETHERPARSE_VALUE_IP_PAYLOAD_LENGTH = 6 /* the payload after the transport header in a packet that is written */
};

/* Why a call refused its input. A field that the status does not use is 0. */
typedef struct etherparse_error {
    uint32_t status;           /* the status that the call returned */
    uint32_t layer;            /* ETHERPARSE_LAYER_..: the layer that could not be read */
    uint32_t len_source;       /* ETHERPARSE_LEN_SOURCE_..: the source of `len` */
    uint32_t value_type;       /* ETHERPARSE_VALUE_..: the kind of the value that was too big */
    uint32_t data_offset;      /* the data offset that was read, in words of four bytes */
    uint32_t option_kind;      /* the kind of the option */
    uint32_t option_size;      /* the length byte of the option */
    size_t required_len;       /* the length that would have been accepted, in bytes */
    size_t len;                /* the actual length, in bytes */
    size_t layer_start_offset; /* the start of the layer, in bytes from the first byte that was passed */
    size_t actual;             /* the value that was too big, or that is unknown */
    size_t max_allowed;        /* the largest value that is allowed */
} etherparse_error;

/* NULL for `error`. Programs written for earlier versions pass it. */
#define ETHERPARSE_NO_ERROR (NULL)

/* The length of the longest text of an error, in bytes. */
#define ETHERPARSE_ERROR_TEXT_MAX_LEN 256

/*
 * Writes the text of an error to the buffer, in ASCII and with a zero byte at its end, and returns its length without that byte, as
 * snprintf does. If the result is buffer_len or more, the buffer contains the beginning of the text, with a zero byte at its end. If
 * buffer_len is 0, nothing is written. Every struct has a text, even with numbers that no call fills in. A buffer of
 * ETHERPARSE_ERROR_TEXT_MAX_LEN + 1 bytes is long enough for every text. The texts may change in later versions.
 *
 * If the Rust crate etherparse reports an error too, the text is its text. So some texts contain the name of a type in Rust, such as
 * TcpOptionReadError. The texts of etherparse_status_text contain none.
 */
ETHERPARSE_NOT_NULL(1)
size_t etherparse_error_text(const etherparse_error *error, char *buffer, size_t buffer_len);

/*
 * Writes the name of a status in this file, such as ETHERPARSE_OK or ETHERPARSE_STATUS_LENGTH, and returns its length, both as
 * etherparse_error_text does. For a number that is no status the name is "unknown status". No name has more than 63 bytes. In C and C++
 * etherparse_name_of_status returns the name without a buffer.
 */
size_t etherparse_status_name(etherparse_status status, char *buffer, size_t buffer_len);

/*
 * Writes what a status means in a few words of ASCII, such as "the checksum is wrong", and returns the length of this text, both as
 * etherparse_error_text does. For a number that is no status the text is "unknown status". etherparse_error_text writes more, since it is
 * passed the error. No text has more than 127 bytes. The texts may change in later versions.
 */
size_t etherparse_status_text(etherparse_status status, char *buffer, size_t buffer_len);

/* ---- IP ------------------------------------------------------------------------------------------------------------------ */

/* The protocols, by their numbers in IP. */
enum {
    ETHERPARSE_PROTOCOL_ICMPV4 = 1,
    ETHERPARSE_PROTOCOL_TCP = 6,
    ETHERPARSE_PROTOCOL_UDP = 17,
    ETHERPARSE_PROTOCOL_ICMPV6 = 58
};

/*
 * The transport in an IP packet.
 *
 * `protocol` is the protocol of the payload. The payload begins with the header of that protocol if is_fragment is 0. A fragment has to be
 * reassembled first. ICMPv4 over IPv6, and ICMPv6 over IPv4, are not ICMP messages. etherparse_packet_verdict tests all of this: its
 * header_protocol is the protocol whose calls read the payload.
 */
typedef struct etherparse_ip_transport {
    uint32_t version;           /* 4 or 6 */
    uint32_t protocol;          /* ETHERPARSE_PROTOCOL_.., or the number of another protocol in IP */
    size_t payload_offset;      /* the payload begins at bytes[payload_offset]: it is what the calls below read */
    size_t payload_len;         /* in bytes, without the padding after a packet that states its length */
    uint32_t is_fragment;       /* 1 if the payload is only a part of the packet's payload, otherwise 0 */
    uint32_t is_cut_off;        /* 1 if the IP header counts more bytes than there are, otherwise 0 */
    uint32_t has_destination;   /* 1 if the destination is known, otherwise 0, as with some IPv6 routing headers */
    uint8_t source[16];         /* the source that the checksum covers; an IPv4 address is in the first four bytes, followed by zeros */
    uint8_t destination[16];    /* the destination that the checksum covers, in the same form, or 0 */
    uint32_t is_length_missing; /* 1 if the IP header states no length and all bytes are counted, otherwise 0 */
    uint32_t is_later_fragment; /* 1 if the fragment offset is above 0, so that no transport header begins the payload, otherwise 0 */
    uint32_t hop_limit;         /* the hops that are left: the time to live of IPv4, or the hop limit of IPv6 */
    uint32_t fragment_offset;   /* the place of the payload in the payload of the whole packet, in bytes; 0 if it is not a fragment */
    uint32_t identification;    /* what the fragments of a packet share: 16 bits of IPv4, or 32 bits of a fragment header of IPv6, or 0 */
    uint32_t dont_fragment;     /* 1 if the flag "don't fragment" of IPv4 is set, otherwise 0, and over IPv6 */
    uint32_t traffic_class;     /* the type of service of IPv4, or the traffic class of IPv6: DSCP and ECN */
} etherparse_ip_transport;

/*
 * The IP header has another address than this struct in three cases. A source route of IPv4 or a routing header of IPv6 changes the
 * destination, and a home address of IPv6 (RFC 6275) changes the source. The checksum of the transport does not cover the address of the
 * header then. A program that replaces an address of the IP header reads the old address by etherparse_ip_header_addresses. It is in bytes
 * 12 to 15 (source) and 16 to 19 (destination) of an IPv4 header, and in bytes 8 to 23 and 24 to 39 of an IPv6 header.
 */

/*
 * Finds the transport in the IP packet at the front of the bytes. In an Ethernet frame the IP packet follows the Ethernet header. Over IPv4
 * the options are skipped, except that a source route names the destination. An authentication header directly after them (RFC 4302) is
 * skipped too, except in a later fragment. Over IPv6 these extension headers are skipped: hop-by-hop options, routing, fragment,
 * destination options (RFC 8200, section 4), authentication (RFC 4302), mobility (RFC 6275), Host Identity Protocol (RFC 7401) and Shim6
 * (RFC 5533). A routing header names the destination, and a home address in the destination options is the source. `source` and
 * `destination` can be passed to the calls for IPv4 and for IPv6. No checksum is tested. The checksum of a fragment can be tested only
 * after its packet is reassembled. If has_destination is 0, the checksum can't be tested.
 *
 * In this order: ETHERPARSE_STATUS_IP_HEADER_CUT_OFF: no bytes. ETHERPARSE_STATUS_IP_VERSION. For IPv4:
 * ETHERPARSE_STATUS_IP_HEADER_CUT_OFF: fewer than 20 bytes; ETHERPARSE_STATUS_IP_HEADER_LENGTH;
 * ETHERPARSE_STATUS_IP_HEADER_CUT_OFF: fewer bytes than the header length; ETHERPARSE_STATUS_IP_TOTAL_LENGTH. For IPv6:
 * ETHERPARSE_STATUS_IP_HEADER_CUT_OFF: fewer than 40 bytes, or the hop-by-hop options that must contain the length are cut off;
 * ETHERPARSE_STATUS_IP_JUMBO_PAYLOAD_LENGTH; ETHERPARSE_STATUS_IP_JUMBO_PAYLOAD_MISSING. ETHERPARSE_STATUS_IP_PACKET_CUT_OFF. For each
 * extension header: ETHERPARSE_STATUS_IP_EXTENSION_CUT_OFF; ETHERPARSE_STATUS_IP_JUMBO_PAYLOAD_UNEXPECTED;
 * ETHERPARSE_STATUS_IP_JUMBO_PAYLOAD_FRAGMENT.
 */
ETHERPARSE_CHECK_RESULT ETHERPARSE_NOT_NULL(3)
etherparse_status etherparse_transport_in_ip(const uint8_t *bytes, size_t len, etherparse_ip_transport *transport,
                                             etherparse_error *error);

/*
 * Like etherparse_transport_in_ip, but accepts a packet with fewer bytes than its header counts. Its payload is then the bytes that are
 * present, and is_cut_off is 1. So this call reads packets of a truncated capture. If the header states no length, all bytes are counted,
 * and is_length_missing is 1. An IPv4 header states no length if its total length is 0. An IPv6 header states no length if its payload
 * length is 0, there is no jumbo payload length, and the next header is not 59 (no next header). A host captures such packets before its
 * network card segments them. etherparse_transport_in_ip refuses them, or sets is_length_missing to 0.
 */
ETHERPARSE_CHECK_RESULT ETHERPARSE_NOT_NULL(3)
etherparse_status etherparse_transport_in_ip_lax(const uint8_t *bytes, size_t len, etherparse_ip_transport *transport,
                                                 etherparse_error *error);

/* The addresses of an IP header itself. */
typedef struct etherparse_ip_addresses {
    uint32_t version;        /* 4 or 6 */
    uint8_t source[16];      /* an IPv4 address is in the first four bytes, followed by zeros */
    uint8_t destination[16]; /* in the same form */
} etherparse_ip_addresses;

/*
 * Reads the addresses of the IP header at the front of the bytes. Options, extension headers, and lengths other than the IPv4 header
 * length are ignored, so the packet may be cut off after its header.
 *
 * In this order: ETHERPARSE_STATUS_IP_HEADER_CUT_OFF: no bytes. ETHERPARSE_STATUS_IP_VERSION. Then an IPv4 header is refused as by
 * etherparse_ipv4_header_checksum, and an IPv6 header with ETHERPARSE_STATUS_IP_HEADER_CUT_OFF: fewer than 40 bytes.
 */
ETHERPARSE_CHECK_RESULT ETHERPARSE_NOT_NULL(3)
etherparse_status etherparse_ip_header_addresses(const uint8_t *bytes, size_t len, etherparse_ip_addresses *addresses,
                                                 etherparse_error *error);

/*
 * The ends of a flow, as one of its packets names them. The identifier of an ICMP query is a port here: of the source in a request, and of
 * the destination in a reply (RFC 5508, section 3.1), as in etherparse_ipv4_translation.
 */
typedef struct etherparse_flow_ends {
    uint32_t version;              /* 4 or 6 */
    uint32_t protocol;             /* ETHERPARSE_PROTOCOL_.., or the number of another protocol in IP */
    uint32_t is_fragment;          /* 1 if the payload is only a part of the packet's payload, otherwise 0 */
    uint32_t is_later_fragment;    /* 1 if the fragment offset is above 0, so that no port is known, otherwise 0 */
    uint32_t has_destination;      /* 1 if the destination is known, otherwise 0, as in etherparse_ip_transport */
    uint32_t has_source_port;      /* 1 if source_port is known, otherwise 0 */
    uint32_t has_destination_port; /* 1 if destination_port is known, otherwise 0 */
    uint16_t source_port;          /* of UDP and TCP, or the identifier of a request of ICMP, or 0 */
    uint16_t destination_port;     /* of UDP and TCP, or the identifier of a reply of ICMP, or 0 */
    uint8_t source[16];            /* the source that the checksum covers; an IPv4 address is in the first four bytes, followed by zeros */
    uint8_t destination[16];       /* the destination that the checksum covers, in the same form, or 0 */
} etherparse_flow_ends;

/* The flow that an IP packet belongs to. */
typedef struct etherparse_packet_flow {
    etherparse_flow_ends ends;   /* of the packet itself */
    etherparse_flow_ends quoted; /* of the packet that an ICMP error quotes, which went in the other direction; without one all fields
                                    are 0, and so is quoted.version */
} etherparse_packet_flow;

/*
 * Finds the flow that the IP packet at the front of the bytes belongs to: its addresses, its protocol, and its ports or the identifier of
 * an ICMP query; and the same of the packet that an ICMP error quotes. UDP and TCP have their ports in the first four bytes, so a quote of
 * eight bytes contains them. Queries are echo, timestamp, information and address mask messages of ICMPv4, and echo messages of ICMPv6.
 * The first fragment has ports, and a later fragment has none. The packet may be cut off or state no length, as for
 * etherparse_transport_in_ip_lax. No checksum is tested.
 *
 * Refused as by etherparse_transport_in_ip_lax; *flow is unchanged. A transport header or a quoted packet that cannot be read is no error.
 */
ETHERPARSE_CHECK_RESULT ETHERPARSE_NOT_NULL(3)
etherparse_status etherparse_flow(const uint8_t *bytes, size_t len, etherparse_packet_flow *flow, etherparse_error *error);

/* ---- fragments ------------------------------------------------------------------------------------------------------------ */

/*
 * A fragment of an IP packet. All fragments of one packet have the same version, protocol, identification and addresses, so a program that
 * keeps fragments compares these fields.
 */
typedef struct etherparse_fragment {
    uint32_t version;        /* 4 or 6 */
    uint32_t protocol;       /* the protocol in the IPv4 header; 0 over IPv6, where the fragments of a packet may differ in it */
    uint32_t identification; /* 16 bits over IPv4, 32 bits over IPv6 */
    uint32_t offset;         /* the place of the first byte in the payload of the whole packet, in bytes */
    uint32_t more_fragments; /* 1 if more fragments follow, otherwise 0 */
    uint8_t source[16];      /* the source in the IP header; an IPv4 address is in the first four bytes, followed by zeros */
    uint8_t destination[16]; /* the destination in the IP header, in the same form */
    size_t payload_offset;   /* where the payload of the fragment begins, in bytes from the first byte of the packet */
    size_t payload_len;      /* the length of the payload of the fragment, in bytes, without padding */
} etherparse_fragment;

/*
 * Reads the fragment in the IP packet at the front of the bytes (RFC 791, section 3.2; RFC 8200, section 4.5). If an IPv6 packet has several
 * fragment headers, the first is read.
 *
 * In this order: a status of etherparse_transport_in_ip, for example if the fragment is cut off;
 * ETHERPARSE_STATUS_REASSEMBLY_HEADER_CHAIN_CUT_OFF; ETHERPARSE_STATUS_REASSEMBLY_NO_FRAGMENT: the packet is whole, as an atomic fragment is
 * (RFC 6946). *fragment is then unchanged.
 */
ETHERPARSE_CHECK_RESULT ETHERPARSE_NOT_NULL(3)
etherparse_status etherparse_fragment_read(const uint8_t *bytes, size_t len, etherparse_fragment *fragment, etherparse_error *error);

/* A length of `room` that is enough for every packet: 256 bytes for headers, and the longest payload. Over IPv4, 65,595 bytes are enough. */
#define ETHERPARSE_REASSEMBLY_ROOM_MAX_LEN 65791

/* The greatest length of a packet that is put together: 256 bytes of IPv6 headers, and the longest payload after the IPv6 header. */
#define ETHERPARSE_REASSEMBLY_PACKET_MAX_LEN 65575

/*
 * Puts a packet together from its fragments (RFC 791, section 3.2; RFC 8200, section 4.5). The fragments are IP packets, one after another
 * in `packets`, in any order and possibly repeated; `lens` contains the length of each. Writes the whole packet to the front of `buffer`, as
 * if it was never fragmented, and its length to `written`. Its headers are those of the first fragment, with the lengths, the flags and the
 * IPv4 checksum of the whole packet, and without the fragment header of IPv6. If all fragments of a packet arrived, the result is this
 * packet, so it has the same transport checksum, which the call does not test.
 *
 * `room` is memory in which the call works. Its first 60 bytes over IPv4, and 256 bytes over IPv6, are for headers, and the payload comes
 * after them. Its contents after the call have no meaning. A buffer of ETHERPARSE_REASSEMBLY_ROOM_MAX_LEN bytes is long enough for every
 * packet, and a `buffer` of ETHERPARSE_REASSEMBLY_PACKET_MAX_LEN bytes too.
 *
 * In this order, for each fragment: ETHERPARSE_STATUS_REASSEMBLY_LENGTHS; a status of etherparse_fragment_read;
 * ETHERPARSE_STATUS_REASSEMBLY_OTHER_KEY; _EMPTY; _FRAGMENT_LENGTH; _TOO_LONG; _ROOM; _OTHER_END or _BEHIND_END; _OVERLAP;
 * _TOO_MANY_FRAGMENTS. Then ETHERPARSE_STATUS_REASSEMBLY_INCOMPLETE, also if there is no fragment; ETHERPARSE_STATUS_REASSEMBLY_HEADER: the
 * first fragment has more than 256 bytes of headers, or the whole packet is longer than its length field can count;
 * ETHERPARSE_STATUS_BUFFER_TOO_SMALL. `buffer` and `written` are then unchanged.
 */
ETHERPARSE_CHECK_RESULT ETHERPARSE_NOT_NULL(9)
etherparse_status etherparse_reassembly_packet(const uint8_t *packets, size_t packets_len, const size_t *lens, size_t lens_len,
                                               uint8_t *room, size_t room_len, uint8_t *buffer, size_t buffer_len, size_t *written,
                                               etherparse_error *error);

/* The fields of an IPv4 header that a caller chooses. */
typedef struct etherparse_ipv4_header {
    uint8_t source[4];
    uint8_t destination[4];
    uint8_t time_to_live; /* the hops that are left */
    uint8_t protocol;     /* ETHERPARSE_PROTOCOL_UDP, ETHERPARSE_PROTOCOL_TCP or ETHERPARSE_PROTOCOL_ICMPV4 */
} etherparse_ipv4_header;

/* The fields of an IPv6 header that a caller chooses. */
typedef struct etherparse_ipv6_header {
    uint8_t source[16];
    uint8_t destination[16];
    uint8_t hop_limit;   /* the hops that are left */
    uint8_t next_header; /* ETHERPARSE_PROTOCOL_UDP, ETHERPARSE_PROTOCOL_TCP or ETHERPARSE_PROTOCOL_ICMPV6 */
} etherparse_ipv6_header;

/*
 * Writes a packet to the front of the buffer, and its length in bytes to *written: an IP header without options and extension headers, and
 * the message after it. The message is a transport header, as etherparse_udp_header_write and so on write it, and its payload. The call
 * computes the checksums, the lengths in the IP header, and the length field of UDP, whatever the message contains there, and clears the
 * reserved bits of the transport header. Over IPv4 the flag "don't fragment" is set, and identification and type of service are 0. Over
 * IPv6 traffic class and flow label are 0. The bytes of the buffer after the packet are unchanged. The packet's verdict is
 * ETHERPARSE_VERDICT_RIGHT, and it is read back as the same addresses, the same header and the same payload.
 *
 * In this order: ETHERPARSE_STATUS_PROTOCOL_UNKNOWN: none of the three protocols of the field's comment. ETHERPARSE_STATUS_LENGTH or
 * ETHERPARSE_STATUS_DATA_OFFSET: the message ends within its header, or as by etherparse_tcp_packet_read and so on; the length field of UDP
 * is not checked. ETHERPARSE_STATUS_VALUE_TOO_BIG: the packet would be longer than 65,535 bytes over IPv4, or the message is longer than
 * that over IPv6; `actual` and `max_allowed` are lengths of the payload. ETHERPARSE_STATUS_BUFFER_TOO_SMALL.
 */
ETHERPARSE_CHECK_RESULT ETHERPARSE_NOT_NULL(1, 6)
etherparse_status etherparse_write_packet_ipv4(const etherparse_ipv4_header *header, const uint8_t *message, size_t message_len,
                                               uint8_t *buffer, size_t buffer_len, size_t *written, etherparse_error *error);
ETHERPARSE_CHECK_RESULT ETHERPARSE_NOT_NULL(1, 6)
etherparse_status etherparse_write_packet_ipv6(const etherparse_ipv6_header *header, const uint8_t *message, size_t message_len,
                                               uint8_t *buffer, size_t buffer_len, size_t *written, etherparse_error *error);

/*
 * Computes the checksum to store in bytes 10 and 11 of the IPv4 header at the front of the bytes, whatever these bytes contain (RFC 791,
 * section 3.1). The sum covers the whole header, options included, and no byte after it.
 *
 * In this order: ETHERPARSE_STATUS_IP_HEADER_CUT_OFF: no bytes. ETHERPARSE_STATUS_IP_VERSION: another version than 4.
 * ETHERPARSE_STATUS_IP_HEADER_CUT_OFF: fewer than 20 bytes. ETHERPARSE_STATUS_IP_HEADER_LENGTH.
 * ETHERPARSE_STATUS_IP_HEADER_CUT_OFF: fewer bytes than the header length.
 */
ETHERPARSE_CHECK_RESULT ETHERPARSE_NOT_NULL(3)
etherparse_status etherparse_ipv4_header_checksum(const uint8_t *bytes, size_t len, uint16_t *checksum, etherparse_error *error);

/*
 * Stores the checksum of etherparse_ipv4_header_checksum in bytes 10 and 11. No other byte changes, and the test of these bytes then
 * returns ETHERPARSE_OK.
 *
 * Refused as by etherparse_ipv4_header_checksum; the bytes are unchanged.
 */
ETHERPARSE_CHECK_RESULT
etherparse_status etherparse_ipv4_header_checksum_store(uint8_t *bytes, size_t len, etherparse_error *error);

/*
 * Tests the checksum of the IPv4 header at the front of the bytes. ETHERPARSE_OK: it is right. ETHERPARSE_STATUS_CHECKSUM_WRONG: it is
 * wrong. etherparse_transport_in_ip and etherparse_packet_verdict do not test it.
 *
 * Otherwise refused as by etherparse_ipv4_header_checksum.
 */
ETHERPARSE_CHECK_RESULT
etherparse_status etherparse_ipv4_header_checksum_test(const uint8_t *bytes, size_t len, etherparse_error *error);

/*
 * The verdict on a checksum. From 16 on each number is a reason why the checksum is not tested. If several of these reasons apply, the
 * verdict is the first of 16, 17, 19, 20, 18 and 21. So a packet of another protocol that is cut off has verdict 17, and not 19.
 */
enum {
    ETHERPARSE_VERDICT_RIGHT = 1,
    ETHERPARSE_VERDICT_ABSENT = 2,                        /* over IPv4 a UDP checksum of 0 means no checksum (RFC 768) */
    ETHERPARSE_VERDICT_WRONG = 3,                         /* expected_checksum would be right */
    ETHERPARSE_VERDICT_PARTIAL = 4,                       /* wrong, and only the sum of the pseudo header, which a host leaves
                                                             for its network card to complete */
    ETHERPARSE_VERDICT_UNTESTED_FRAGMENT = 16,            /* the checksum covers all fragments */
    ETHERPARSE_VERDICT_UNTESTED_CUT_OFF = 17,             /* bytes of the packet are missing */
    ETHERPARSE_VERDICT_UNTESTED_UNKNOWN_DESTINATION = 18, /* has_destination is 0 */
    ETHERPARSE_VERDICT_UNTESTED_OTHER_PROTOCOL = 19,      /* not UDP, not TCP, and not ICMP of this IP version */
    ETHERPARSE_VERDICT_UNTESTED_ZERO_LENGTH = 20,         /* the length field of a UDP packet of at most 65,535 bytes is 0, which is
                                                             malformed (RFC 768) */
    ETHERPARSE_VERDICT_UNTESTED_TOO_LONG = 21             /* too many bytes for a pseudo header, as in a packet without a length */
};

/*
 * An IP packet that was read, and the verdict on its checksum.
 *
 * To choose the call that reads the payload, look at header_protocol. If it is 0, no call reads the payload. Then the packet is a fragment
 * if transport.is_fragment is 1, and otherwise no call is for transport.protocol over this version of IP. The verdict does not matter here:
 * a packet with a wrong checksum is read too. If transport.is_cut_off is 1, read UDP by etherparse_udp_packet_read_lax.
 */
typedef struct etherparse_ip_packet {
    etherparse_ip_transport transport;
    uint32_t header_protocol;   /* ETHERPARSE_PROTOCOL_.. whose calls read the payload, or 0: of a fragment, of another protocol, and of
                                   ICMPv4 over IPv6 or ICMPv6 over IPv4 */
    uint32_t verdict;           /* ETHERPARSE_VERDICT_.. */
    uint16_t expected_checksum; /* the right checksum if the stored checksum is wrong or partial, otherwise 0 */
} etherparse_ip_packet;

/*
 * Finds the transport in the IP packet at the front of the bytes, as etherparse_transport_in_ip does, and tests its checksum.
 *
 * Refused as by etherparse_transport_in_ip; then as by the call that reads the protocol's packet, etherparse_udp_packet_read and so on.
 * layer_start_offset counts from the first byte of the IP packet.
 */
ETHERPARSE_CHECK_RESULT ETHERPARSE_NOT_NULL(3)
etherparse_status etherparse_packet_verdict(const uint8_t *bytes, size_t len, etherparse_ip_packet *packet, etherparse_error *error);

/*
 * The same for a packet that may be cut off: refused as by etherparse_transport_in_ip_lax. UDP in a packet that is cut off is refused as
 * by etherparse_udp_packet_read_lax.
 */
ETHERPARSE_CHECK_RESULT ETHERPARSE_NOT_NULL(3)
etherparse_status etherparse_packet_verdict_lax(const uint8_t *bytes, size_t len, etherparse_ip_packet *packet,
                                                etherparse_error *error);

/*
 * Tests whether the checksum of UDP, TCP or ICMPv6 in the IP packet at the front of the bytes is partial, and writes 1 or 0 to *is_partial.
 * A partial checksum is the sum of only the pseudo header. A host stores it if its network card computes the rest (checksum offload). So
 * a packet socket (AF_PACKET) of Linux often receives a partial checksum in a packet that the same host, a container or a virtual machine
 * sends. The payload is not read, and the call takes the same time for any length. For a fragment and for any other protocol the result
 * is 0. It is 1 also in the rare case that a partial checksum is right, in which the verdict is ETHERPARSE_VERDICT_RIGHT.
 *
 * A program that changes or forwards such a packet completes the checksum first:
 *
 *     if (etherparse_packet_checksum_is_partial(packet, len, &is_partial, &error) == ETHERPARSE_OK && is_partial != 0)
 *         status = etherparse_packet_checksum_store(packet, len, &checksum, &error);
 *
 * Without this, etherparse_translate_ipv4 updates the partial checksum as if it were whole, and no receiver accepts the packet.
 *
 * Refused as by etherparse_packet_verdict; *is_partial is unchanged.
 */
ETHERPARSE_CHECK_RESULT ETHERPARSE_NOT_NULL(3)
etherparse_status etherparse_packet_checksum_is_partial(const uint8_t *bytes, size_t len, uint32_t *is_partial, etherparse_error *error);

/*
 * Stores the right checksum of UDP, TCP or ICMP in the IP packet at the front of the bytes, whatever checksum the packet contains, and
 * writes the checksum to *checksum. The verdict is then ETHERPARSE_VERDICT_RIGHT. A right checksum stays. A UDP packet over IPv4 without a
 * checksum gets a checksum, which is never 0. No other byte changes. The checksum of the IPv4 header is not tested, and stays.
 *
 * In this order: refused as by etherparse_transport_in_ip; as by the call that reads the protocol's packet, etherparse_udp_packet_read and
 * so on, but layer_start_offset counts from the first byte of that packet; ETHERPARSE_STATUS_CHECKSUM_UNTESTED: the verdict is
 * ETHERPARSE_VERDICT_UNTESTED_.. The bytes and *checksum are unchanged.
 */
ETHERPARSE_CHECK_RESULT ETHERPARSE_NOT_NULL(3)
etherparse_status etherparse_packet_checksum_store(uint8_t *packet, size_t packet_len, uint16_t *checksum, etherparse_error *error);

/*
 * Lowers the time to live of an IPv4 packet or the hop limit of an IPv6 packet by one, as a router does before it forwards the packet (RFC
 * 1812, section 5.3.1; RFC 8200, section 3). The checksum of an IPv4 header is updated by the changed byte (RFC 1624): a right checksum
 * stays right, and a wrong checksum stays wrong. No other byte changes. Only the IP header is read, not the lengths that it states.
 *
 * In this order: ETHERPARSE_STATUS_IP_HEADER_CUT_OFF: there are no bytes; ETHERPARSE_STATUS_IP_VERSION: the version is neither 4 nor 6;
 * ETHERPARSE_STATUS_IP_HEADER_CUT_OFF: fewer than 20 bytes of IPv4, or 40 of IPv6; ETHERPARSE_STATUS_IP_HEADER_LENGTH: an IPv4 header
 * states a length below 20 bytes; ETHERPARSE_STATUS_IP_HEADER_CUT_OFF: fewer bytes than that length;
 * ETHERPARSE_STATUS_HOP_LIMIT_EXPIRED: the hop limit is 0 or 1. The bytes are unchanged.
 */
ETHERPARSE_CHECK_RESULT
etherparse_status etherparse_hop_limit_lower(uint8_t *packet, size_t packet_len, etherparse_error *error);

/*
 * Lowers the maximum segment size of a SYN to at most `most`, as a router in front of a tunnel does (RFC 9293, section 3.7.1; RFC 6691), and
 * writes the size that the packet contained to `size`. If it is at most `most`, the packet is unchanged. The checksum of TCP is updated (RFC
 * 1624): a right checksum stays right, and a wrong checksum stays wrong. No other byte changes. The packet may be a first fragment, be cut
 * off or state no length, if it contains the whole TCP header. A partial checksum becomes wrong, so store it again afterwards.
 *
 * In this order: a status of etherparse_transport_in_ip, except ETHERPARSE_STATUS_IP_PACKET_CUT_OFF and
 * ETHERPARSE_STATUS_IP_JUMBO_PAYLOAD_MISSING; ETHERPARSE_STATUS_PROTOCOL_UNKNOWN: the protocol is not TCP;
 * ETHERPARSE_STATUS_SEGMENT_SIZE_LATER_FRAGMENT: a later fragment; ETHERPARSE_STATUS_LENGTH or ETHERPARSE_STATUS_DATA_OFFSET: the TCP header
 * is refused; ETHERPARSE_STATUS_SEGMENT_SIZE_NO_SYN: the segment is not a SYN; ETHERPARSE_STATUS_OPTION_CUT_OFF or
 * ETHERPARSE_STATUS_OPTION_SIZE: an option up to the maximum segment size can't be read, or the size has another length than 4;
 * ETHERPARSE_STATUS_SEGMENT_SIZE_NO_OPTION: there is no maximum segment size. The packet and `size` are then unchanged.
 */
ETHERPARSE_CHECK_RESULT
etherparse_status etherparse_maximum_segment_size_lower(uint8_t *packet, size_t packet_len, uint16_t most, uint16_t *size,
                                                        etherparse_error *error);

/*
 * Writes the name of a verdict in this file, such as ETHERPARSE_VERDICT_RIGHT, and returns its length, both as etherparse_error_text
 * does. For a number that is no verdict the name is "unknown verdict". No name of a verdict has more than 63 bytes. In C and C++
 * etherparse_name_of_verdict returns the name without a buffer, and etherparse_text_of_verdict a text.
 */
size_t etherparse_verdict_name(uint32_t verdict, char *buffer, size_t buffer_len);

/* ---- UDP (RFC 768) ------------------------------------------------------------------------------------------------------- */

/* The length of a UDP header, in bytes. */
#define ETHERPARSE_UDP_HEADER_LEN 8

/* A UDP header. */
typedef struct etherparse_udp_header {
    uint16_t source_port;      /* bytes 0 and 1 */
    uint16_t destination_port; /* bytes 2 and 3 */
    uint16_t length;           /* bytes 4 and 5: the length of header and payload, in bytes */
    uint16_t checksum;         /* bytes 6 and 7; 0 means no checksum */
} etherparse_udp_header;

/* A UDP packet that was read. */
typedef struct etherparse_udp_packet {
    etherparse_udp_header header;
    size_t payload_offset;       /* the payload begins at bytes[payload_offset] */
    size_t payload_len;          /* in bytes */
    uint32_t payload_len_source; /* ETHERPARSE_LEN_SOURCE_..: the source of payload_len */
} etherparse_udp_packet;

/*
 * Reads the UDP packet at the front of the bytes: the bytes that the length field counts, or all bytes if this field is 0, as in a
 * jumbogram (RFC 2675, section 4).
 *
 * ETHERPARSE_STATUS_LENGTH, in this order: fewer than 8 bytes; a length field that counts more bytes than there are; a length field
 * of 1 to 7.
 */
ETHERPARSE_CHECK_RESULT ETHERPARSE_NOT_NULL(3)
etherparse_status etherparse_udp_packet_read(const uint8_t *bytes, size_t len, etherparse_udp_packet *packet,
                                             etherparse_error *error);

/*
 * Reads the UDP packet at the front of the bytes, or all bytes if the length field counts more bytes than there are, or fewer than a
 * header. So this call reads packets of a truncated capture.
 *
 * ETHERPARSE_STATUS_LENGTH: fewer than 8 bytes.
 */
ETHERPARSE_CHECK_RESULT ETHERPARSE_NOT_NULL(3)
etherparse_status etherparse_udp_packet_read_lax(const uint8_t *bytes, size_t len, etherparse_udp_packet *packet,
                                                 etherparse_error *error);

/*
 * Writes the header, 8 bytes, at the front of the buffer, and 8 to *written. The bytes of the buffer after it are unchanged. The header
 * is read back as the same struct.
 *
 * ETHERPARSE_STATUS_BUFFER_TOO_SMALL: fewer than 8 bytes.
 */
ETHERPARSE_CHECK_RESULT ETHERPARSE_NOT_NULL(1, 4)
etherparse_status etherparse_udp_header_write(const etherparse_udp_header *header, uint8_t *buffer, size_t buffer_len,
                                              size_t *written, etherparse_error *error);

/*
 * Computes the checksum to store in bytes 6 and 7 of the packet at the front of the bytes, whatever these bytes contain. It is never 0.
 * The packet is the packet that etherparse_udp_packet_read reads. The pseudo header contains its length in bytes, whatever its length
 * field is.
 *
 * Refused as by etherparse_udp_packet_read; then ETHERPARSE_STATUS_VALUE_TOO_BIG: the payload is longer than 65,527 bytes over
 * IPv4, or than 4,294,967,287 over IPv6, the most that a pseudo header can count.
 */
ETHERPARSE_CHECK_RESULT ETHERPARSE_NOT_NULL(3, 4, 5)
etherparse_status etherparse_udp_checksum_ipv4(const uint8_t *bytes, size_t len, const uint8_t source[4],
                                               const uint8_t destination[4], uint16_t *checksum, etherparse_error *error);
ETHERPARSE_CHECK_RESULT ETHERPARSE_NOT_NULL(3, 4, 5)
etherparse_status etherparse_udp_checksum_ipv6(const uint8_t *bytes, size_t len, const uint8_t source[16],
                                               const uint8_t destination[16], uint16_t *checksum, etherparse_error *error);

/*
 * Stores the checksum of etherparse_udp_checksum_ipv4 or etherparse_udp_checksum_ipv6 in bytes 6 and 7. No other byte changes, and the
 * test of these bytes, with the same addresses, then returns ETHERPARSE_OK.
 *
 * Refused as by these calls; the bytes are unchanged.
 */
ETHERPARSE_CHECK_RESULT ETHERPARSE_NOT_NULL(3, 4)
etherparse_status etherparse_udp_checksum_store_ipv4(uint8_t *bytes, size_t len, const uint8_t source[4],
                                                     const uint8_t destination[4], etherparse_error *error);
ETHERPARSE_CHECK_RESULT ETHERPARSE_NOT_NULL(3, 4)
etherparse_status etherparse_udp_checksum_store_ipv6(uint8_t *bytes, size_t len, const uint8_t source[16],
                                                     const uint8_t destination[16], etherparse_error *error);

/*
 * Tests the checksum of the packet at the front of the bytes, which is the packet that etherparse_udp_packet_read reads.
 * ETHERPARSE_OK: it is right. ETHERPARSE_STATUS_CHECKSUM_WRONG: it is wrong. ETHERPARSE_STATUS_CHECKSUM_ABSENT: the packet has none.
 * Over IPv6 a receiver discards such a packet, except in tunnels that allow it (RFC 8200, section 8.1; RFC 6935).
 *
 * Otherwise refused as by etherparse_udp_checksum_ipv4 and etherparse_udp_checksum_ipv6.
 */
ETHERPARSE_CHECK_RESULT ETHERPARSE_NOT_NULL(3, 4)
etherparse_status etherparse_udp_checksum_test_ipv4(const uint8_t *bytes, size_t len, const uint8_t source[4],
                                                    const uint8_t destination[4], etherparse_error *error);
ETHERPARSE_CHECK_RESULT ETHERPARSE_NOT_NULL(3, 4)
etherparse_status etherparse_udp_checksum_test_ipv6(const uint8_t *bytes, size_t len, const uint8_t source[16],
                                                    const uint8_t destination[16], etherparse_error *error);

/* ---- TCP (RFC 9293, section 3.1) ------------------------------------------------------------------------------------------ */

/* The lengths of a TCP header, and of its options, in bytes. */
#define ETHERPARSE_TCP_MIN_HEADER_LEN 20
#define ETHERPARSE_TCP_MAX_HEADER_LEN 60
#define ETHERPARSE_TCP_MAX_OPTIONS_LEN 40

/* The flags of a TCP header. The bits of byte 13 keep their places. NS, bit 0 of byte 12, is the bit above them. */
enum {
    ETHERPARSE_TCP_FIN = 0x001,
    ETHERPARSE_TCP_SYN = 0x002,
    ETHERPARSE_TCP_RST = 0x004,
    ETHERPARSE_TCP_PSH = 0x008,
    ETHERPARSE_TCP_ACK = 0x010,
    ETHERPARSE_TCP_URG = 0x020,
    ETHERPARSE_TCP_ECE = 0x040,
    ETHERPARSE_TCP_CWR = 0x080,
    ETHERPARSE_TCP_NS = 0x100,
    ETHERPARSE_TCP_FLAGS = 0x1ff /* all nine */
};

/* A TCP header without its options. A call that writes the header computes the data offset from the options. */
typedef struct etherparse_tcp_header {
    uint32_t sequence_number;       /* bytes 4 to 7 */
    uint32_t acknowledgment_number; /* bytes 8 to 11 */
    uint16_t source_port;           /* bytes 0 and 1 */
    uint16_t destination_port;      /* bytes 2 and 3 */
    uint16_t flags;                 /* ETHERPARSE_TCP_FIN to ETHERPARSE_TCP_NS */
    uint16_t window_size;           /* bytes 14 and 15 */
    uint16_t checksum;              /* bytes 16 and 17 */
    uint16_t urgent_pointer;        /* bytes 18 and 19 */
} etherparse_tcp_header;

/* A TCP packet that was read. */
typedef struct etherparse_tcp_packet {
    etherparse_tcp_header header;
    size_t options_offset; /* the options begin at bytes[options_offset]; always 20 */
    size_t options_len;    /* in bytes: a multiple of 4, at most 40 */
    size_t payload_offset; /* the payload begins at bytes[payload_offset] */
    size_t payload_len;    /* in bytes */
} etherparse_tcp_packet;

/*
 * Reads the TCP header at the front of the bytes. All bytes after it are the payload. Options are not checked.
 *
 * In this order: ETHERPARSE_STATUS_LENGTH: fewer than 20 bytes. ETHERPARSE_STATUS_DATA_OFFSET: a data offset below 5.
 * ETHERPARSE_STATUS_LENGTH: fewer bytes than the data offset counts.
 */
ETHERPARSE_CHECK_RESULT ETHERPARSE_NOT_NULL(3)
etherparse_status etherparse_tcp_packet_read(const uint8_t *bytes, size_t len, etherparse_tcp_packet *packet,
                                             etherparse_error *error);

/*
 * Writes the header with these option bytes at the front of the buffer, and its length in bytes, 20 to 60, to *written. The options are
 * padded with zeros to whole words of four bytes. The data offset is computed from the options. The bytes of the buffer after the
 * header are unchanged. The header is read back as the same struct, with the padded options.
 *
 * In this order: ETHERPARSE_STATUS_OPTIONS_TOO_LONG, ETHERPARSE_STATUS_FLAGS_UNKNOWN, ETHERPARSE_STATUS_BUFFER_TOO_SMALL.
 */
ETHERPARSE_CHECK_RESULT ETHERPARSE_NOT_NULL(1, 6)
etherparse_status etherparse_tcp_header_write(const etherparse_tcp_header *header, const uint8_t *options, size_t options_len,
                                              uint8_t *buffer, size_t buffer_len, size_t *written, etherparse_error *error);

/*
 * Replaces the header of the packet at the front of the bytes. Options, data offset and payload are unchanged. The three reserved bits
 * of byte 12 are cleared. The header is read back as the same struct.
 *
 * In this order: refused as by etherparse_tcp_packet_read; ETHERPARSE_STATUS_FLAGS_UNKNOWN. The bytes are unchanged.
 */
ETHERPARSE_CHECK_RESULT ETHERPARSE_NOT_NULL(1)
etherparse_status etherparse_tcp_header_store(const etherparse_tcp_header *header, uint8_t *bytes, size_t len, etherparse_error *error);

/*
 * Computes the checksum to store in bytes 16 and 17, whatever these bytes contain. All bytes are the packet, header and payload.
 *
 * Refused as by etherparse_tcp_packet_read; then ETHERPARSE_STATUS_VALUE_TOO_BIG: the packet is longer than 65,535 bytes over IPv4,
 * or than 4,294,967,295 over IPv6, the most that a pseudo header can count. `actual` and `max_allowed` are lengths of the payload.
 */
ETHERPARSE_CHECK_RESULT ETHERPARSE_NOT_NULL(3, 4, 5)
etherparse_status etherparse_tcp_checksum_ipv4(const uint8_t *bytes, size_t len, const uint8_t source[4],
                                               const uint8_t destination[4], uint16_t *checksum, etherparse_error *error);
ETHERPARSE_CHECK_RESULT ETHERPARSE_NOT_NULL(3, 4, 5)
etherparse_status etherparse_tcp_checksum_ipv6(const uint8_t *bytes, size_t len, const uint8_t source[16],
                                               const uint8_t destination[16], uint16_t *checksum, etherparse_error *error);

/*
 * Stores the checksum of etherparse_tcp_checksum_ipv4 or etherparse_tcp_checksum_ipv6 in bytes 16 and 17. No other byte changes, and the
 * test of these bytes, with the same addresses, then returns ETHERPARSE_OK.
 *
 * Refused as by these calls; the bytes are unchanged.
 */
ETHERPARSE_CHECK_RESULT ETHERPARSE_NOT_NULL(3, 4)
etherparse_status etherparse_tcp_checksum_store_ipv4(uint8_t *bytes, size_t len, const uint8_t source[4],
                                                     const uint8_t destination[4], etherparse_error *error);
ETHERPARSE_CHECK_RESULT ETHERPARSE_NOT_NULL(3, 4)
etherparse_status etherparse_tcp_checksum_store_ipv6(uint8_t *bytes, size_t len, const uint8_t source[16],
                                                     const uint8_t destination[16], etherparse_error *error);

/*
 * Tests the checksum of the packet. All bytes are the packet. ETHERPARSE_OK: it is right. ETHERPARSE_STATUS_CHECKSUM_WRONG: it is wrong.
 *
 * Otherwise refused as by etherparse_tcp_checksum_ipv4 and etherparse_tcp_checksum_ipv6.
 */
ETHERPARSE_CHECK_RESULT ETHERPARSE_NOT_NULL(3, 4)
etherparse_status etherparse_tcp_checksum_test_ipv4(const uint8_t *bytes, size_t len, const uint8_t source[4],
                                                    const uint8_t destination[4], etherparse_error *error);
ETHERPARSE_CHECK_RESULT ETHERPARSE_NOT_NULL(3, 4)
etherparse_status etherparse_tcp_checksum_test_ipv6(const uint8_t *bytes, size_t len, const uint8_t source[16],
                                                    const uint8_t destination[16], etherparse_error *error);

/* ---- TCP options ---------------------------------------------------------------------------------------------------------- */

/* The registered kinds of TCP options, and the values of each kind. */
enum {
    ETHERPARSE_TCP_OPTION_NOOP = 1,                 /* none (RFC 9293) */
    ETHERPARSE_TCP_OPTION_MAXIMUM_SEGMENT_SIZE = 2, /* the size, at most 65,535 bytes (RFC 9293) */
    ETHERPARSE_TCP_OPTION_WINDOW_SCALE = 3,         /* the shift count, at most 255 (RFC 7323, section 2.2) */
    ETHERPARSE_TCP_OPTION_SACK_PERMITTED = 4,       /* none (RFC 2018, section 2) */
    ETHERPARSE_TCP_OPTION_SACK = 5,                 /* left and right edge of each of one to four blocks (RFC 2018, section 3) */
    ETHERPARSE_TCP_OPTION_TIMESTAMP = 8             /* the timestamp value and its echo reply (RFC 7323, section 3.2) */
};

/* A TCP option. */
typedef struct etherparse_tcp_option {
    uint32_t kind;        /* ETHERPARSE_TCP_OPTION_.. */
    uint32_t value_count; /* how many values the option has */
    uint32_t values[8];   /* the values, followed by zeros */
} etherparse_tcp_option;

/*
 * Reads the option at options[*place], and moves *place to the end of the option. Begin with 0, and call until the status is not
 * ETHERPARSE_OK. A *place above options_len is the end.
 *
 * ETHERPARSE_STATUS_OPTIONS_END: the end of the list (kind 0), or of the bytes. The faults are ETHERPARSE_STATUS_OPTION_UNKNOWN,
 * ETHERPARSE_STATUS_OPTION_SIZE and ETHERPARSE_STATUS_OPTION_CUT_OFF. After the end and after a fault *place is options_len, so
 * every further call returns ETHERPARSE_STATUS_OPTIONS_END. *option is unchanged.
 */
ETHERPARSE_CHECK_RESULT ETHERPARSE_NOT_NULL(3, 4)
etherparse_status etherparse_tcp_option_next(const uint8_t *options, size_t options_len, size_t *place,
                                             etherparse_tcp_option *option, etherparse_error *error);

/* A TCP option of any kind, known or not (RFC 9293, section 3.1). */
typedef struct etherparse_tcp_raw_option {
    uint32_t kind;       /* the first byte of the option */
    size_t value_offset; /* the value begins at options[value_offset] */
    size_t value_len;    /* in bytes; kind 1 has none */
} etherparse_tcp_raw_option;

/*
 * Reads the option of any kind at *place, and moves *place to the end of the option. The length byte gives the end of an unknown option
 * (RFC 1122, section 4.2.2.5). *place, the end and a fault work as in etherparse_tcp_option_next.
 *
 * The faults are ETHERPARSE_STATUS_OPTION_SIZE: a length byte below 2; and ETHERPARSE_STATUS_OPTION_CUT_OFF: no length byte is
 * left, or fewer bytes than it counts.
 */
ETHERPARSE_CHECK_RESULT ETHERPARSE_NOT_NULL(3, 4)
etherparse_status etherparse_tcp_raw_option_next(const uint8_t *options, size_t options_len, size_t *place,
                                                 etherparse_tcp_raw_option *option, etherparse_error *error);

/*
 * Writes the bytes of some options one after another at the front of the buffer, as etherparse_tcp_header_write takes them, and
 * their length in bytes, 0 to 40, to *written. The options are padded with zeros to whole words of four bytes. Values after the
 * first value_count are ignored.
 *
 * In this order: ETHERPARSE_STATUS_OPTION_UNKNOWN or ETHERPARSE_STATUS_OPTION_VALUES: an unknown kind, or values that an option of this
 * kind cannot have, of the first such option; ETHERPARSE_STATUS_OPTIONS_TOO_LONG: more than 40 bytes; `len` is the length of all
 * options, without padding; ETHERPARSE_STATUS_BUFFER_TOO_SMALL.
 */
ETHERPARSE_CHECK_RESULT ETHERPARSE_NOT_NULL(5)
etherparse_status etherparse_tcp_options_write(const etherparse_tcp_option *options, size_t option_count, uint8_t *buffer,
                                               size_t buffer_len, size_t *written, etherparse_error *error);

/* ---- ICMPv4 (RFC 792) ----------------------------------------------------------------------------------------------------- */

/* The length of an ICMPv4 header, and of the header of a timestamp message, in bytes. */
#define ETHERPARSE_ICMPV4_HEADER_LEN 8
#define ETHERPARSE_ICMPV4_TIMESTAMP_LEN 20

/* The kinds of ICMPv4 messages, by numbers of this library. They are not types: an echo request has kind 4 and type 8. */
enum {
    ETHERPARSE_ICMPV4_KIND_UNKNOWN = 0, /* any other type and code */
    ETHERPARSE_ICMPV4_KIND_ECHO_REPLY = 1,
    ETHERPARSE_ICMPV4_KIND_DESTINATION_UNREACHABLE = 2, /* codes 0 to 15 */
    ETHERPARSE_ICMPV4_KIND_REDIRECT = 3,                /* codes 0 to 3 */
    ETHERPARSE_ICMPV4_KIND_ECHO_REQUEST = 4,
    ETHERPARSE_ICMPV4_KIND_TIME_EXCEEDED = 5,     /* codes 0 and 1 */
    ETHERPARSE_ICMPV4_KIND_PARAMETER_PROBLEM = 6, /* codes 0 to 2 */
    ETHERPARSE_ICMPV4_KIND_TIMESTAMP_REQUEST = 7,
    ETHERPARSE_ICMPV4_KIND_TIMESTAMP_REPLY = 8
};

/* The types of ICMPv4 messages (RFC 792): byte 0. */
enum {
    ETHERPARSE_ICMPV4_TYPE_ECHO_REPLY = 0,
    ETHERPARSE_ICMPV4_TYPE_DESTINATION_UNREACHABLE = 3,
    ETHERPARSE_ICMPV4_TYPE_SOURCE_QUENCH = 4, /* deprecated (RFC 6633) */
    ETHERPARSE_ICMPV4_TYPE_REDIRECT = 5,
    ETHERPARSE_ICMPV4_TYPE_ALTERNATE_HOST_ADDRESS = 6, /* deprecated (RFC 6918) */
    ETHERPARSE_ICMPV4_TYPE_ECHO_REQUEST = 8,
    ETHERPARSE_ICMPV4_TYPE_ROUTER_ADVERTISEMENT = 9, /* RFC 1256 */
    ETHERPARSE_ICMPV4_TYPE_ROUTER_SOLICITATION = 10, /* RFC 1256 */
    ETHERPARSE_ICMPV4_TYPE_TIME_EXCEEDED = 11,
    ETHERPARSE_ICMPV4_TYPE_PARAMETER_PROBLEM = 12,
    ETHERPARSE_ICMPV4_TYPE_TIMESTAMP_REQUEST = 13,
    ETHERPARSE_ICMPV4_TYPE_TIMESTAMP_REPLY = 14,
    ETHERPARSE_ICMPV4_TYPE_INFORMATION_REQUEST = 15,  /* deprecated (RFC 6918) */
    ETHERPARSE_ICMPV4_TYPE_INFORMATION_REPLY = 16,    /* deprecated (RFC 6918) */
    ETHERPARSE_ICMPV4_TYPE_ADDRESS_MASK_REQUEST = 17, /* deprecated (RFC 6918) */
    ETHERPARSE_ICMPV4_TYPE_ADDRESS_MASK_REPLY = 18    /* deprecated (RFC 6918) */
};

/* The codes of destination unreachable: 0 to 5 (RFC 792), 6 to 12 (RFC 1122, section 3.2.2.1), 13 to 15 (RFC 1812, section 5.2.7.1). */
enum {
    ETHERPARSE_ICMPV4_CODE_NETWORK_UNREACHABLE = 0,
    ETHERPARSE_ICMPV4_CODE_HOST_UNREACHABLE = 1,
    ETHERPARSE_ICMPV4_CODE_PROTOCOL_UNREACHABLE = 2,
    ETHERPARSE_ICMPV4_CODE_PORT_UNREACHABLE = 3,
    ETHERPARSE_ICMPV4_CODE_FRAGMENTATION_NEEDED = 4, /* but the packet forbids it; next_hop_mtu is the limit (RFC 1191) */
    ETHERPARSE_ICMPV4_CODE_SOURCE_ROUTE_FAILED = 5,
    ETHERPARSE_ICMPV4_CODE_NETWORK_UNKNOWN = 6,
    ETHERPARSE_ICMPV4_CODE_HOST_UNKNOWN = 7,
    ETHERPARSE_ICMPV4_CODE_SOURCE_HOST_ISOLATED = 8,
    ETHERPARSE_ICMPV4_CODE_NETWORK_PROHIBITED = 9,
    ETHERPARSE_ICMPV4_CODE_HOST_PROHIBITED = 10,
    ETHERPARSE_ICMPV4_CODE_NETWORK_UNREACHABLE_FOR_SERVICE = 11, /* for this type of service */
    ETHERPARSE_ICMPV4_CODE_HOST_UNREACHABLE_FOR_SERVICE = 12,    /* for this type of service */
    ETHERPARSE_ICMPV4_CODE_COMMUNICATION_PROHIBITED = 13,        /* by a filter */
    ETHERPARSE_ICMPV4_CODE_HOST_PRECEDENCE_VIOLATION = 14,
    ETHERPARSE_ICMPV4_CODE_PRECEDENCE_CUTOFF = 15
};

/* The codes of redirect (RFC 792). */
enum {
    ETHERPARSE_ICMPV4_CODE_REDIRECT_NETWORK = 0,
    ETHERPARSE_ICMPV4_CODE_REDIRECT_HOST = 1,
    ETHERPARSE_ICMPV4_CODE_REDIRECT_NETWORK_FOR_SERVICE = 2, /* for the network and the type of service */
    ETHERPARSE_ICMPV4_CODE_REDIRECT_HOST_FOR_SERVICE = 3     /* for the host and the type of service */
};

/* The codes of time exceeded (RFC 792). */
enum {
    ETHERPARSE_ICMPV4_CODE_TIME_TO_LIVE_EXCEEDED = 0,
    ETHERPARSE_ICMPV4_CODE_REASSEMBLY_TIME_EXCEEDED = 1
};

/* The codes of parameter problem: 0 (RFC 792), 1 (RFC 1122, section 3.2.2.5), 2 (no RFC). */
enum {
    ETHERPARSE_ICMPV4_CODE_POINTER_INDICATES_ERROR = 0, /* the byte at `pointer` is wrong */
    ETHERPARSE_ICMPV4_CODE_REQUIRED_OPTION_MISSING = 1,
    ETHERPARSE_ICMPV4_CODE_BAD_LENGTH = 2
};

/* An ICMPv4 header. A read sets type, code, checksum and bytes4to7 for every kind, and the fields of other kinds to 0. */
typedef struct etherparse_icmpv4_header {
    uint32_t kind;                /* ETHERPARSE_ICMPV4_KIND_.. */
    uint32_t originate_timestamp; /* of timestamp messages: bytes 8 to 11 */
    uint32_t receive_timestamp;   /* of timestamp messages: bytes 12 to 15 */
    uint32_t transmit_timestamp;  /* of timestamp messages: bytes 16 to 19 */
    uint16_t checksum;            /* bytes 2 and 3 */
    uint16_t id;                  /* of echo and timestamp messages: bytes 4 and 5 */
    uint16_t sequence_number;     /* of echo and timestamp messages: bytes 6 and 7 */
    uint16_t next_hop_mtu;        /* of an unreachable destination with code 4, in bytes: bytes 6 and 7 (RFC 1191, section 4) */
    uint8_t type;                 /* byte 0: ETHERPARSE_ICMPV4_TYPE_.. */
    uint8_t code;                 /* byte 1: ETHERPARSE_ICMPV4_CODE_.. */
    uint8_t pointer;              /* of a parameter problem with code 0: byte 4 */
    uint8_t bytes4to7[4];         /* bytes 4 to 7 as they are; of a redirect message the gateway's address */
} etherparse_icmpv4_header;

/* An ICMPv4 packet that was read. */
typedef struct etherparse_icmpv4_packet {
    etherparse_icmpv4_header header;
    size_t payload_offset; /* the payload begins at bytes[payload_offset] */
    size_t payload_len;    /* in bytes */
} etherparse_icmpv4_packet;

/*
 * Reads an ICMPv4 packet. All bytes are the packet.
 *
 * ETHERPARSE_STATUS_LENGTH, in this order: fewer than 8 bytes; a timestamp message or its reply, of code 0, that is not 20 bytes
 * long.
 */
ETHERPARSE_CHECK_RESULT ETHERPARSE_NOT_NULL(3)
etherparse_status etherparse_icmpv4_packet_read(const uint8_t *bytes, size_t len, etherparse_icmpv4_packet *packet,
                                                etherparse_error *error);

/*
 * Writes the header at the front of the buffer, and its length in bytes to *written: 20 for a timestamp message, otherwise 8. The header
 * is made from kind, code, checksum and the fields of the kind. Other fields are ignored, and bytes that the kind does not use are
 * zero. The kind determines the type, and also the code if the kind has only one. For ETHERPARSE_ICMPV4_KIND_UNKNOWN, type, code and
 * bytes4to7 are written as they are. The bytes of the buffer after the header are unchanged. Kind, checksum and the fields of the kind
 * are read back as they were written. For ETHERPARSE_ICMPV4_KIND_UNKNOWN, type, code, checksum and bytes4to7 are read back, with the kind
 * of this type and code.
 *
 * In this order: ETHERPARSE_STATUS_MESSAGE_UNKNOWN, ETHERPARSE_STATUS_BUFFER_TOO_SMALL.
 */
ETHERPARSE_CHECK_RESULT ETHERPARSE_NOT_NULL(1, 4)
etherparse_status etherparse_icmpv4_header_write(const etherparse_icmpv4_header *header, uint8_t *buffer, size_t buffer_len,
                                                 size_t *written, etherparse_error *error);

/*
 * Computes the checksum to store in bytes 2 and 3, whatever these bytes contain. All bytes are the packet, header and payload.
 *
 * Refused as by etherparse_icmpv4_packet_read.
 */
ETHERPARSE_CHECK_RESULT ETHERPARSE_NOT_NULL(3)
etherparse_status etherparse_icmpv4_checksum(const uint8_t *bytes, size_t len, uint16_t *checksum, etherparse_error *error);

/*
 * Stores the checksum of etherparse_icmpv4_checksum in bytes 2 and 3. No other byte changes, and the test of these bytes then returns
 * ETHERPARSE_OK.
 *
 * Refused as by etherparse_icmpv4_packet_read; the bytes are unchanged.
 */
ETHERPARSE_CHECK_RESULT
etherparse_status etherparse_icmpv4_checksum_store(uint8_t *bytes, size_t len, etherparse_error *error);

/*
 * Tests the checksum of the packet. All bytes are the packet. ETHERPARSE_OK: it is right. ETHERPARSE_STATUS_CHECKSUM_WRONG: it is wrong.
 *
 * Otherwise refused as by etherparse_icmpv4_packet_read.
 */
ETHERPARSE_CHECK_RESULT
etherparse_status etherparse_icmpv4_checksum_test(const uint8_t *bytes, size_t len, etherparse_error *error);

/* ---- ICMPv6 (RFC 4443; RFC 4861) ------------------------------------------------------------------------------------------ */

/* The length of an ICMPv6 header, in bytes. */
#define ETHERPARSE_ICMPV6_HEADER_LEN 8

/* The kinds of ICMPv6 messages, by numbers of this library. They are not types: an echo request has kind 5 and type 128. */
enum {
    ETHERPARSE_ICMPV6_KIND_UNKNOWN = 0,                 /* any other type and code */
    ETHERPARSE_ICMPV6_KIND_DESTINATION_UNREACHABLE = 1, /* codes 0 to 6 */
    ETHERPARSE_ICMPV6_KIND_PACKET_TOO_BIG = 2,
    ETHERPARSE_ICMPV6_KIND_TIME_EXCEEDED = 3,     /* codes 0 and 1 */
    ETHERPARSE_ICMPV6_KIND_PARAMETER_PROBLEM = 4, /* codes 0 to 10 */
    ETHERPARSE_ICMPV6_KIND_ECHO_REQUEST = 5,
    ETHERPARSE_ICMPV6_KIND_ECHO_REPLY = 6,
    ETHERPARSE_ICMPV6_KIND_ROUTER_SOLICITATION = 7,
    ETHERPARSE_ICMPV6_KIND_ROUTER_ADVERTISEMENT = 8,
    ETHERPARSE_ICMPV6_KIND_NEIGHBOR_SOLICITATION = 9,
    ETHERPARSE_ICMPV6_KIND_NEIGHBOR_ADVERTISEMENT = 10,
    ETHERPARSE_ICMPV6_KIND_REDIRECT = 11
};

/* The types of ICMPv6 messages: 1 to 129 (RFC 4443), 133 to 137 (RFC 4861). It is byte 0. */
enum {
    ETHERPARSE_ICMPV6_TYPE_DESTINATION_UNREACHABLE = 1,
    ETHERPARSE_ICMPV6_TYPE_PACKET_TOO_BIG = 2,
    ETHERPARSE_ICMPV6_TYPE_TIME_EXCEEDED = 3,
    ETHERPARSE_ICMPV6_TYPE_PARAMETER_PROBLEM = 4,
    ETHERPARSE_ICMPV6_TYPE_ECHO_REQUEST = 128,
    ETHERPARSE_ICMPV6_TYPE_ECHO_REPLY = 129,
    ETHERPARSE_ICMPV6_TYPE_MULTICAST_LISTENER_QUERY = 130,  /* RFC 2710 */
    ETHERPARSE_ICMPV6_TYPE_MULTICAST_LISTENER_REPORT = 131, /* RFC 2710 */
    ETHERPARSE_ICMPV6_TYPE_MULTICAST_LISTENER_DONE = 132,   /* RFC 2710 */
    ETHERPARSE_ICMPV6_TYPE_ROUTER_SOLICITATION = 133,
    ETHERPARSE_ICMPV6_TYPE_ROUTER_ADVERTISEMENT = 134,
    ETHERPARSE_ICMPV6_TYPE_NEIGHBOR_SOLICITATION = 135,
    ETHERPARSE_ICMPV6_TYPE_NEIGHBOR_ADVERTISEMENT = 136,
    ETHERPARSE_ICMPV6_TYPE_REDIRECT = 137,
    ETHERPARSE_ICMPV6_TYPE_ROUTER_RENUMBERING = 138,             /* RFC 2894 */
    ETHERPARSE_ICMPV6_TYPE_INVERSE_NEIGHBOR_SOLICITATION = 141,  /* RFC 3122 */
    ETHERPARSE_ICMPV6_TYPE_INVERSE_NEIGHBOR_ADVERTISEMENT = 142, /* RFC 3122 */
    ETHERPARSE_ICMPV6_TYPE_EXTENDED_ECHO_REQUEST = 160,          /* RFC 8335 */
    ETHERPARSE_ICMPV6_TYPE_EXTENDED_ECHO_REPLY = 161             /* RFC 8335 */
};

/* The codes of destination unreachable (RFC 4443, section 3.1). */
enum {
    ETHERPARSE_ICMPV6_CODE_NO_ROUTE = 0,
    ETHERPARSE_ICMPV6_CODE_COMMUNICATION_PROHIBITED = 1,
    ETHERPARSE_ICMPV6_CODE_BEYOND_SCOPE = 2, /* of the source address */
    ETHERPARSE_ICMPV6_CODE_ADDRESS_UNREACHABLE = 3,
    ETHERPARSE_ICMPV6_CODE_PORT_UNREACHABLE = 4,
    ETHERPARSE_ICMPV6_CODE_SOURCE_ADDRESS_FAILED_POLICY = 5,
    ETHERPARSE_ICMPV6_CODE_REJECT_ROUTE = 6
};

/* The codes of time exceeded (RFC 4443, section 3.3). */
enum {
    ETHERPARSE_ICMPV6_CODE_HOP_LIMIT_EXCEEDED = 0,
    ETHERPARSE_ICMPV6_CODE_REASSEMBLY_TIME_EXCEEDED = 1
};

/* The codes of parameter problem: 0 to 2 (RFC 4443, section 3.4), 3 (RFC 7112), 4 (RFC 8754), 5 to 10 (RFC 8883). */
enum {
    ETHERPARSE_ICMPV6_CODE_ERRONEOUS_HEADER_FIELD = 0,
    ETHERPARSE_ICMPV6_CODE_UNRECOGNIZED_NEXT_HEADER = 1,
    ETHERPARSE_ICMPV6_CODE_UNRECOGNIZED_OPTION = 2,
    ETHERPARSE_ICMPV6_CODE_INCOMPLETE_HEADER_CHAIN = 3,  /* in the first fragment */
    ETHERPARSE_ICMPV6_CODE_UPPER_LAYER_HEADER_ERROR = 4, /* with a segment routing header */
    ETHERPARSE_ICMPV6_CODE_NEXT_HEADER_UNRECOGNIZED_BY_ROUTER = 5,
    ETHERPARSE_ICMPV6_CODE_EXTENSION_HEADER_TOO_BIG = 6,
    ETHERPARSE_ICMPV6_CODE_EXTENSION_HEADER_CHAIN_TOO_LONG = 7,
    ETHERPARSE_ICMPV6_CODE_TOO_MANY_EXTENSION_HEADERS = 8,
    ETHERPARSE_ICMPV6_CODE_TOO_MANY_OPTIONS = 9, /* in an extension header */
    ETHERPARSE_ICMPV6_CODE_OPTION_TOO_BIG = 10
};

/* The flags of advertisements, at their bits in the packet (RFC 4861, sections 4.2 and 4.4). */
enum {
    ETHERPARSE_ICMPV6_ROUTER_MANAGED = 0x80,
    ETHERPARSE_ICMPV6_ROUTER_OTHER_CONFIG = 0x40,
    ETHERPARSE_ICMPV6_NEIGHBOR_ROUTER = 0x80,
    ETHERPARSE_ICMPV6_NEIGHBOR_SOLICITED = 0x40,
    ETHERPARSE_ICMPV6_NEIGHBOR_OVERRIDE = 0x20
};

/* An ICMPv6 header. A read sets type, code, checksum and bytes4to7 for every kind, and the fields of other kinds to 0. */
typedef struct etherparse_icmpv6_header {
    uint32_t kind;            /* ETHERPARSE_ICMPV6_KIND_.. */
    uint32_t mtu;             /* of a packet that was too big, in bytes: bytes 4 to 7 */
    uint32_t pointer;         /* of a parameter problem: bytes 4 to 7 */
    uint16_t checksum;        /* bytes 2 and 3 */
    uint16_t id;              /* of echo messages: bytes 4 and 5 */
    uint16_t sequence_number; /* of echo messages: bytes 6 and 7 */
    uint16_t router_lifetime; /* of a router advertisement, in seconds: bytes 6 and 7 */
    uint8_t cur_hop_limit;    /* of a router advertisement: byte 4 */
    uint8_t flags;            /* of a router advertisement byte 5, of a neighbor advertisement byte 4, without other bits */
    uint8_t type;             /* byte 0: ETHERPARSE_ICMPV6_TYPE_.. */
    uint8_t code;             /* byte 1: ETHERPARSE_ICMPV6_CODE_.. */
    uint8_t bytes4to7[4];     /* bytes 4 to 7 as they are */
} etherparse_icmpv6_header;

/* An ICMPv6 packet that was read. */
typedef struct etherparse_icmpv6_packet {
    etherparse_icmpv6_header header;
    size_t payload_offset; /* the payload begins at bytes[payload_offset]; always 8 */
    size_t payload_len;    /* in bytes */
} etherparse_icmpv6_packet;

/*
 * Reads an ICMPv6 packet. All bytes are the packet.
 *
 * ETHERPARSE_STATUS_LENGTH, in this order: fewer than 8 bytes; more than 4,294,967,295.
 */
ETHERPARSE_CHECK_RESULT ETHERPARSE_NOT_NULL(3)
etherparse_status etherparse_icmpv6_packet_read(const uint8_t *bytes, size_t len, etherparse_icmpv6_packet *packet,
                                                etherparse_error *error);

/*
 * Writes the header, 8 bytes, at the front of the buffer, and 8 to *written. The header is made from kind, code, checksum and the fields
 * of the kind. Other fields and other flags are ignored, and bits that the kind does not use are zero. The kind determines the type, and
 * also the code if the kind has only one. For ETHERPARSE_ICMPV6_KIND_UNKNOWN, type, code and bytes4to7 are written as they are. The bytes
 * of the buffer after the header are unchanged. Kind, checksum and the fields of the kind are read back as they were written. For
 * ETHERPARSE_ICMPV6_KIND_UNKNOWN, type, code, checksum and bytes4to7 are read back, with the kind of this type and code.
 *
 * In this order: ETHERPARSE_STATUS_MESSAGE_UNKNOWN, ETHERPARSE_STATUS_BUFFER_TOO_SMALL.
 */
ETHERPARSE_CHECK_RESULT ETHERPARSE_NOT_NULL(1, 4)
etherparse_status etherparse_icmpv6_header_write(const etherparse_icmpv6_header *header, uint8_t *buffer, size_t buffer_len,
                                                 size_t *written, etherparse_error *error);

/*
 * Computes the checksum to store in bytes 2 and 3, whatever these bytes contain (RFC 4443, section 2.3). All bytes are the packet,
 * header and payload.
 *
 * Refused as by etherparse_icmpv6_packet_read.
 */
ETHERPARSE_CHECK_RESULT ETHERPARSE_NOT_NULL(3, 4, 5)
etherparse_status etherparse_icmpv6_checksum(const uint8_t *bytes, size_t len, const uint8_t source[16],
                                             const uint8_t destination[16], uint16_t *checksum, etherparse_error *error);

/*
 * Stores the checksum of etherparse_icmpv6_checksum in bytes 2 and 3. No other byte changes, and the test of these bytes, with the same
 * addresses, then returns ETHERPARSE_OK.
 *
 * Refused as by etherparse_icmpv6_packet_read; the bytes are unchanged.
 */
ETHERPARSE_CHECK_RESULT ETHERPARSE_NOT_NULL(3, 4)
etherparse_status etherparse_icmpv6_checksum_store(uint8_t *bytes, size_t len, const uint8_t source[16],
                                                   const uint8_t destination[16], etherparse_error *error);

/*
 * Tests the checksum of the packet. All bytes are the packet. ETHERPARSE_OK: it is right. ETHERPARSE_STATUS_CHECKSUM_WRONG: it is wrong.
 *
 * Otherwise refused as by etherparse_icmpv6_packet_read.
 */
ETHERPARSE_CHECK_RESULT ETHERPARSE_NOT_NULL(3, 4)
etherparse_status etherparse_icmpv6_checksum_test(const uint8_t *bytes, size_t len, const uint8_t source[16],
                                                  const uint8_t destination[16], etherparse_error *error);

/* ---- the reply to an echo request (RFC 792; RFC 4443, section 4.2) --------------------------------------------------------- */

/*
 * Turns the echo request in the IP packet at the front of the bytes into its reply, in place, and writes the length of the reply in
 * bytes to *reply_len. It is the length of the request without IPv4 options. The reply goes to the source of the request. It has
 * this hop limit, which is the time to live of IPv4, the type of a reply, and right checksums. Over IPv4 its only flag is "don't
 * fragment" (RFC 6864), and it has no options. All other fields, the payload and the bytes behind the reply stay.
 *
 * etherparse_echo_answer accepts a packet of either IP version. Its reply comes from the destination of the request. The reply of
 * the other two calls comes from `source`. For a request to a multicast or broadcast address, pass an address of the host.
 *
 * In this order: refused as by etherparse_transport_in_ip. ETHERPARSE_STATUS_ECHO_NO_REQUEST: the call does not accept this version
 * of IP. ETHERPARSE_STATUS_ECHO_FRAGMENT. ETHERPARSE_STATUS_ECHO_NO_REQUEST: another protocol. ETHERPARSE_STATUS_ECHO_HAS_OPTIONS.
 * Refused as by etherparse_icmpv4_packet_read or etherparse_icmpv6_packet_read, where layer_start_offset counts from the first byte
 * of the message. ETHERPARSE_STATUS_ECHO_NO_REQUEST: another message. ETHERPARSE_STATUS_CHECKSUM_WRONG. Over IPv4
 * ETHERPARSE_STATUS_ECHO_HEADER_CHECKSUM_WRONG. ETHERPARSE_STATUS_ECHO_REQUEST_SOURCE. ETHERPARSE_STATUS_ECHO_REPLY_SOURCE. The
 * bytes and *reply_len are unchanged.
 */
ETHERPARSE_CHECK_RESULT ETHERPARSE_NOT_NULL(4)
etherparse_status etherparse_echo_answer(uint8_t *packet, size_t packet_len, uint8_t hop_limit, size_t *reply_len,
                                         etherparse_error *error);
ETHERPARSE_CHECK_RESULT ETHERPARSE_NOT_NULL(3, 5)
etherparse_status etherparse_echo_answer_ipv4(uint8_t *packet, size_t packet_len, const uint8_t source[4], uint8_t time_to_live,
                                              size_t *reply_len, etherparse_error *error);
ETHERPARSE_CHECK_RESULT ETHERPARSE_NOT_NULL(3, 5)
etherparse_status etherparse_echo_answer_ipv6(uint8_t *packet, size_t packet_len, const uint8_t source[16], uint8_t hop_limit,
                                              size_t *reply_len, etherparse_error *error);

/*
 * Tests whether the packet `reply` is the reply to the echo request in the packet `request`. ETHERPARSE_OK: it is.
 * ETHERPARSE_STATUS_ECHO_NO_REPLY: it is not, also if a packet would be refused. Each packet begins with its IP header. Options, extension
 * headers and bytes after a packet are accepted.
 *
 * It is the reply exactly if all of this holds:
 *  - etherparse_transport_in_ip accepts both packets, which have the same version of IP, and neither is a fragment.
 *  - The ICMP message of `request` is an echo request, and the message of `reply` is an echo reply. Both codes are 0.
 *  - Identifier, sequence number and payload of both messages are equal.
 *  - The reply goes to the source of the request, and comes from its destination. It comes from any address of one host if the request was
 *    sent to a multicast address or to 255.255.255.255. These are the addresses of etherparse_ip_transport.
 *  - The checksum of the reply is right, and over IPv4 also the checksum of its IP header.
 *
 * The checksums of the request are not tested.
 */
ETHERPARSE_CHECK_RESULT
etherparse_status etherparse_echo_is_reply(const uint8_t *request, size_t request_len, const uint8_t *reply, size_t reply_len,
                                           etherparse_error *error);

/*
 * Tests the same as etherparse_echo_is_reply, except that the reply may come from any address of one host. A host that answers a request to
 * an anycast address replies from its own address, which the request does not contain (RFC 4443, section 4.2).
 */
ETHERPARSE_CHECK_RESULT
etherparse_status etherparse_echo_is_reply_from_any(const uint8_t *request, size_t request_len, const uint8_t *reply, size_t reply_len,
                                                    etherparse_error *error);

/* ---- the packet that an ICMP error quotes (RFC 792; RFC 4443, section 3) ---------------------------------------------------- */

/*
 * Writes the place and the length of the packet that an ICMP error quotes. The bytes are the ICMP message. The quoted packet begins with
 * its IP header at bytes[*offset], and *len bytes of it are present, possibly 0. *offset is 8. The length field of RFC 4884 ends the packet
 * if it counts at least 128 bytes. Otherwise the packet extends to the end of the bytes. The packet is often truncated, which
 * etherparse_transport_in_ip_lax accepts.
 *
 * The errors of ICMPv4 are destination unreachable (3), source quench (4), redirect (5), time exceeded (11) and parameter
 * problem (12). The errors of ICMPv6 are all types below 128 (RFC 4443, section 2.1). No checksum is tested.
 *
 * In this order: refused as by etherparse_icmpv4_packet_read or etherparse_icmpv6_packet_read. ETHERPARSE_STATUS_NO_ICMP_ERROR.
 * *offset and *len are unchanged.
 */
ETHERPARSE_CHECK_RESULT ETHERPARSE_NOT_NULL(3, 4)
etherparse_status etherparse_icmpv4_quoted_packet(const uint8_t *bytes, size_t bytes_len, size_t *offset, size_t *len,
                                                  etherparse_error *error);
ETHERPARSE_CHECK_RESULT ETHERPARSE_NOT_NULL(3, 4)
etherparse_status etherparse_icmpv6_quoted_packet(const uint8_t *bytes, size_t bytes_len, size_t *offset, size_t *len,
                                                  etherparse_error *error);

/*
 * Writes an ICMP error about the packet at the front of the bytes into the buffer, and its length to *written. The error is an IP packet of
 * the same version from source to the source of the packet, with right checksums (RFC 1122, section 3.2.2; RFC 4443, section 2.4). It quotes
 * the packet from its first byte on, so that it has at most 576 bytes over IPv4 (RFC 1812, section 4.3.2.3) and 1280 bytes over IPv6. Pass the
 * packet as it was received. message is the header of the error, such as ETHERPARSE_ICMPV4_KIND_TIME_EXCEEDED; its checksum is not used.
 *
 * The call knows neither the link layer nor the network: send no error about a packet that came as a broadcast or multicast of the link
 * layer, or to the broadcast address of a network. Limit the rate of errors.
 *
 * In this order: ETHERPARSE_STATUS_MESSAGE_UNKNOWN: no message has this kind and this code; ETHERPARSE_STATUS_NO_ICMP_ERROR: the message is
 * no error, or a redirect to a gateway that is not the address of one host; refused as by etherparse_transport_in_ip_lax;
 * ETHERPARSE_STATUS_IP_VERSION: the other version; ETHERPARSE_STATUS_ICMP_ERROR_LATER_FRAGMENT: a fragment with an offset above 0;
 * ETHERPARSE_STATUS_ICMP_ERROR_ABOUT_ERROR: the packet is an ICMP error or an ICMPv6 redirect, or its type is cut off;
 * ETHERPARSE_STATUS_ICMP_ERROR_ABOUT_GROUP: the destination in the IP header is 255.255.255.255 or a multicast address, and the message is
 * neither packet too big of ICMPv6 nor parameter problem of ICMPv6 with code 2; ETHERPARSE_STATUS_ICMP_ERROR_PACKET_SOURCE: the source in
 * the IP header is not the address of one host; ETHERPARSE_STATUS_ICMP_ERROR_SOURCE: source is not;
 * ETHERPARSE_STATUS_BUFFER_TOO_SMALL. The buffer and *written are unchanged.
 */
ETHERPARSE_CHECK_RESULT ETHERPARSE_NOT_NULL(3, 4, 8)
etherparse_status etherparse_icmpv4_error_about(const uint8_t *packet, size_t packet_len, const etherparse_icmpv4_header *message,
                                                const uint8_t source[4], uint8_t time_to_live, uint8_t *buffer, size_t buffer_len,
                                                size_t *written, etherparse_error *error);
ETHERPARSE_CHECK_RESULT ETHERPARSE_NOT_NULL(3, 4, 8)
etherparse_status etherparse_icmpv6_error_about(const uint8_t *packet, size_t packet_len, const etherparse_icmpv6_header *message,
                                                const uint8_t source[16], uint8_t hop_limit, uint8_t *buffer, size_t buffer_len,
                                                size_t *written, etherparse_error *error);

/* ---- the translation of addresses (RFC 3022; RFC 5508) ---------------------------------------------------------------------- */

/*
 * What a translation replaces. A part is replaced if its flag is not 0, and otherwise stays as the packet has it. Ports are in the order of
 * the host, and addresses in network order. source_port is also the new identifier of an ICMP request, and destination_port the new
 * identifier of an ICMP reply: of echo, timestamp, information and address mask messages.
 */
typedef struct etherparse_ipv4_translation {
    uint8_t source[4];            /* the new source address */
    uint8_t destination[4];       /* the new destination address */
    uint16_t source_port;         /* the new source port of UDP and TCP, or identifier of an ICMP request */
    uint16_t destination_port;    /* the new destination port of UDP and TCP, or identifier of an ICMP reply */
    uint8_t has_source;           /* whether the source address is replaced */
    uint8_t has_destination;      /* whether the destination address is replaced */
    uint8_t has_source_port;      /* whether the source port is replaced */
    uint8_t has_destination_port; /* whether the destination port is replaced */
} etherparse_ipv4_translation;

typedef struct etherparse_ipv6_translation {
    uint8_t source[16];           /* the fields of etherparse_ipv4_translation, with longer addresses */
    uint8_t destination[16];
    uint16_t source_port;
    uint16_t destination_port;
    uint8_t has_source;
    uint8_t has_destination;
    uint8_t has_source_port;
    uint8_t has_destination_port;
} etherparse_ipv6_translation;

/*
 * Translates the IP packet at the front of the bytes, in place, as an address translator does. It replaces addresses, and ports or the
 * identifier of an ICMP query. The checksums of the IPv4 header, of UDP, TCP and ICMP are updated by what is replaced (RFC 1624), so that
 * a receiver accepts the packet if it accepted it before. A UDP packet without a checksum stays without one. A wrong checksum stays wrong,
 * except in an ICMPv4 echo reply whose bytes are all zeros, checksum included: its checksum becomes right. All other bytes stay, and no
 * length changes.
 *
 * The packet that an ICMP error is about went in the other direction. It is translated with source and destination exchanged, as far as the
 * error contains it, whatever its total length over IPv4 is: a program passes the translation of the flow in the direction of the error.
 * A first fragment has ports, and in a later fragment only the addresses are replaced. A packet that is cut off, or whose header states no
 * length, is translated as etherparse_transport_in_ip_lax reads it. Extension headers that contain no other address of the packet are
 * skipped, and stay: hop-by-hop options, fragment headers, routing headers without segments left, and destination options without a home
 * address.
 *
 * In this order: refused as by etherparse_transport_in_ip_lax. ETHERPARSE_STATUS_IP_VERSION: the other version of IP.
 * ETHERPARSE_STATUS_TRANSLATE_SOURCE_ROUTE: a loose or strict source route among the IPv4 options (RFC 791, section 3.1), with or without
 * an address left. Other options stay. ETHERPARSE_STATUS_TRANSLATE_PROTOCOL: neither UDP nor TCP nor ICMP of the version of the call, if
 * a port is passed, or if the protocol covers the addresses: an authentication header, DCCP, UDP-Lite and others, and any other IPv6
 * extension header. ETHERPARSE_STATUS_TRANSLATE_HEADER_CUT_OFF: fewer than 8 bytes of UDP, TCP or ICMP.
 * ETHERPARSE_STATUS_TRANSLATE_ICMP_MESSAGE: no query and no error, or a redirect. ETHERPARSE_STATUS_TRANSLATE_QUOTED_PACKET: the packet
 * that an ICMP error is about is refused up to its protocol, except for its total length. The bytes are unchanged.
 */
ETHERPARSE_CHECK_RESULT ETHERPARSE_NOT_NULL(3)
etherparse_status etherparse_translate_ipv4(uint8_t *packet, size_t packet_len, const etherparse_ipv4_translation *translation,
                                            etherparse_error *error);
ETHERPARSE_CHECK_RESULT ETHERPARSE_NOT_NULL(3)
etherparse_status etherparse_translate_ipv6(uint8_t *packet, size_t packet_len, const etherparse_ipv6_translation *translation,
                                            etherparse_error *error);

/*
 * Translates the IP packet at the front of the bytes, in place, and the packet that an ICMP error is about by a translation of its own
 * (RFC 5508, section 4). `quoted` replaces source and destination of that packet, which went in the other direction. If a router behind the
 * translator sent the error, the address of the router has another mapping than the destination of that packet. In a packet that is no
 * ICMP error, `translation` replaces what it replaces in etherparse_translate_ipv4, and `quoted` has no effect.
 *
 * Refused as by etherparse_translate_ipv4 and etherparse_translate_ipv6. The ports of `quoted` decide whether the protocol of the packet
 * that an ICMP error is about is refused. The bytes are unchanged.
 */
ETHERPARSE_CHECK_RESULT ETHERPARSE_NOT_NULL(3, 4)
etherparse_status etherparse_translate_ipv4_with_quoted(uint8_t *packet, size_t packet_len, const etherparse_ipv4_translation *translation,
                                                        const etherparse_ipv4_translation *quoted, etherparse_error *error);
ETHERPARSE_CHECK_RESULT ETHERPARSE_NOT_NULL(3, 4)
etherparse_status etherparse_translate_ipv6_with_quoted(uint8_t *packet, size_t packet_len, const etherparse_ipv6_translation *translation,
                                                        const etherparse_ipv6_translation *quoted, etherparse_error *error);

/* ---- packets between IPv4 and IPv6 (RFC 7915: stateless IP/ICMP translation, SIIT) ---------------------------------------- */

/*
 * A prefix of IPv6 addresses that contain an IPv4 address (RFC 6052, section 2.2). The address begins with the prefix, and its other bits
 * are 0. The well-known prefix is {{0, 0x64, 0xff, 0x9b}, 96}.
 */
typedef struct etherparse_prefix64 {
    uint8_t address[16]; /* the prefix, and then zeros; bits 64 to 71 are 0 */
    uint8_t len;         /* the length of the prefix in bits: 32, 40, 48, 56, 64 or 96 */
} etherparse_prefix64;

/*
 * Translates an IPv4 packet to IPv6 (RFC 7915, section 4), or an IPv6 packet to IPv4 (section 5). Writes the translated packet to the front
 * of the buffer, and its length to *written. The rest of the buffer is unchanged. `source` is the prefix of the source, and `destination`
 * the prefix of the destination. `identification` is the identification of the IPv4 packet. A translated packet is at most 20 bytes longer
 * than the packet, or 28 bytes if it is a fragment, or has at most 1,280 bytes if it is an ICMP error. Bytes after the packet are ignored.
 * The buffer and the packet must not overlap.
 *
 * UDP, TCP and ICMP echo messages are translated, and ICMP errors with the packet that they quote. A message of another protocol is copied.
 * A receiver accepts the message of the translated packet if it accepts the message of the original packet.
 *
 * Over IPv6 hop-by-hop options, destination options and routing headers without segments left are skipped. A fragment becomes a fragment.
 * Over IPv6 its fragment header contains the identification, the fragment offset and "more fragments", and `identification` is not used. A
 * later fragment is copied behind its new headers. An atomic fragment over IPv6 is translated as a whole packet.
 *
 * In this order:
 *  - The first refused prefix: ETHERPARSE_STATUS_PREFIX_LENGTH, ETHERPARSE_STATUS_PREFIX_RESERVED_OCTET or ETHERPARSE_STATUS_PREFIX_SUFFIX.
 *  - ETHERPARSE_STATUS_SIIT_NO_HEADER.
 *  - Only over IPv6: ETHERPARSE_STATUS_IP_PACKET_CUT_OFF. Then ETHERPARSE_STATUS_SIIT_EXTENSION_HEADER_CUT_OFF or
 *    ETHERPARSE_STATUS_SIIT_SEGMENTS_LEFT for each header that is skipped. Then ETHERPARSE_STATUS_SIIT_EXTENSION_HEADER_CUT_OFF or
 *    ETHERPARSE_STATUS_SIIT_EXTENSION_HEADER for a fragment header.
 *  - The IP header: ETHERPARSE_STATUS_SIIT_HEADER_CHECKSUM, a status from ETHERPARSE_STATUS_SIIT_PAYLOAD_LENGTH to
 *    ETHERPARSE_STATUS_SIIT_NOT_GLOBAL, ETHERPARSE_STATUS_IP_TOTAL_LENGTH or ETHERPARSE_STATUS_TRANSLATE_SOURCE_ROUTE: a source route that is
 *    not at its end. A route is at its end if its pointer is greater than its length (RFC 791, section 3.1).
 *  - Only over IPv4: ETHERPARSE_STATUS_IP_PACKET_CUT_OFF.
 *  - ETHERPARSE_STATUS_SIIT_ICMP_FRAGMENT.
 *  - The message: a status from ETHERPARSE_STATUS_SIIT_ICMP_EXTENSION to ETHERPARSE_STATUS_SIIT_QUOTED_PACKET, or
 *    ETHERPARSE_STATUS_SIIT_FRAGMENT_CHECKSUM. ETHERPARSE_STATUS_SIIT_ICMP_FRAGMENT if an ICMP error quotes a fragment of an ICMP message.
 *  - ETHERPARSE_STATUS_BUFFER_TOO_SMALL.
 *
 * The buffer and *written are then unchanged.
 */
ETHERPARSE_CHECK_RESULT ETHERPARSE_NOT_NULL(3, 4, 7)
etherparse_status etherparse_ipv4_to_ipv6(const uint8_t *packet, size_t packet_len, const etherparse_prefix64 *source,
                                          const etherparse_prefix64 *destination, uint8_t *buffer, size_t buffer_len, size_t *written,
                                          etherparse_error *error);
ETHERPARSE_CHECK_RESULT ETHERPARSE_NOT_NULL(3, 4, 8)
etherparse_status etherparse_ipv6_to_ipv4(const uint8_t *packet, size_t packet_len, const etherparse_prefix64 *source,
                                          const etherparse_prefix64 *destination, uint16_t identification, uint8_t *buffer,
                                          size_t buffer_len, size_t *written, etherparse_error *error);

/* ---- canonical headers ---------------------------------------------------------------------------------------------------- */

/*
 * Writes the header at the front of the bytes to the buffer, with all reserved bits cleared, and its length in bytes, at most 60, to
 * *written. The checksum is copied, so it may be wrong if a bit was cleared. The bytes of the buffer after the header are unchanged.
 *
 * In this order: ETHERPARSE_STATUS_PROTOCOL_UNKNOWN; ETHERPARSE_STATUS_LENGTH or ETHERPARSE_STATUS_DATA_OFFSET, as the packet is
 * refused by the calls above (the length field of UDP is ignored); ETHERPARSE_STATUS_BUFFER_TOO_SMALL.
 */
ETHERPARSE_CHECK_RESULT ETHERPARSE_NOT_NULL(6)
etherparse_status etherparse_canonical_header(uint32_t protocol, const uint8_t *bytes, size_t len, uint8_t *buffer,
                                              size_t buffer_len, size_t *written, etherparse_error *error);

/* ---- the Internet checksum (RFC 1071) ------------------------------------------------------------------------------------- */

/* A running one's complement sum of 16 bit words. Every number is a sum. */
typedef struct etherparse_sum {
    uint16_t value; /* 0 only if all bytes are zeros */
} etherparse_sum;

/* Returns the sum of no bytes. */
ETHERPARSE_CHECK_RESULT
etherparse_sum etherparse_sum_new(void);

/*
 * Adds the words of these bytes to a sum. An odd last byte is the high half of a word, so only the last of several parts may be odd.
 * etherparse_sum_add_at adds parts of any lengths.
 */
ETHERPARSE_CHECK_RESULT
etherparse_sum etherparse_sum_add(etherparse_sum sum, const uint8_t *bytes, size_t len);

/*
 * Adds the words of these bytes to a sum that already covers `offset` bytes. If `offset` is odd, the first byte is the low half of a word
 * (RFC 1071, section 2 (B)). So the parts of a packet may have any lengths: begin with offset 0, and add the length of each part to it.
 * Only whether the offset is even or odd matters.
 */
ETHERPARSE_CHECK_RESULT
etherparse_sum etherparse_sum_add_at(etherparse_sum sum, size_t offset, const uint8_t *bytes, size_t len);

/* Returns the checksum of what was added, as TCP, ICMP and the IPv4 header store it. It is 0 if the bytes contain a right checksum. */
ETHERPARSE_CHECK_RESULT
uint16_t etherparse_sum_checksum(etherparse_sum sum);

/* Returns the checksum of what was added, as UDP stores it: 65535 instead of 0. */
ETHERPARSE_CHECK_RESULT
uint16_t etherparse_sum_udp_checksum(etherparse_sum sum);

/* ---- the update of a checksum (RFC 1624) ---------------------------------------------------------------------------------- */

/* A change of the bytes that a checksum covers: some bytes are replaced by others. Any two numbers are a change. */
typedef struct etherparse_checksum_change {
    uint16_t removed; /* the one's complement sum of the bytes that are replaced */
    uint16_t added;   /* the one's complement sum of the new bytes */
} etherparse_checksum_change;

/* Returns the change that replaces nothing. */
ETHERPARSE_CHECK_RESULT
etherparse_checksum_change etherparse_checksum_change_new(void);

/*
 * Returns the change that also replaces the old bytes by the new bytes. They begin at an even offset in what the checksum covers, and
 * both lengths are even or both are odd. The library can't check that. The lengths may differ, as the lengths of IPv6 and IPv4 pseudo
 * headers do.
 */
ETHERPARSE_CHECK_RESULT
etherparse_checksum_change etherparse_checksum_change_replace(etherparse_checksum_change change, const uint8_t *old_bytes,
                                                              size_t old_len, const uint8_t *new_bytes, size_t new_len);

/* Returns the change that restores the old bytes, as a translator does in the packets of the other direction. */
ETHERPARSE_CHECK_RESULT
etherparse_checksum_change etherparse_checksum_change_reversed(etherparse_checksum_change change);

/*
 * Returns the checksum of the changed packet, from the checksum of the packet before, as TCP, ICMP and the IPv4 header store it (RFC 1624,
 * section 3, equation 3). A right checksum becomes the right checksum, and a wrong checksum stays wrong, with two exceptions. If all bytes
 * that the checksum covers become zeros, it is 0 and should be 65535. If all these bytes were zeros, the wrong checksum 0 becomes right.
 * With a pseudo header neither can happen.
 */
ETHERPARSE_CHECK_RESULT
uint16_t etherparse_checksum_change_apply(etherparse_checksum_change change, uint16_t checksum);

/*
 * Returns the checksum of the changed packet, as UDP stores it: 0, which means no checksum, stays 0, and no other checksum becomes 0. A
 * right checksum becomes the right checksum, and a wrong checksum stays wrong.
 */
ETHERPARSE_CHECK_RESULT
uint16_t etherparse_checksum_change_apply_udp(etherparse_checksum_change change, uint16_t checksum);

/* ---- constant words ------------------------------------------------------------------------------------------------------- */

/*
 * The compiler puts these functions and the words into the program. They are not in the library. The words are in static memory and end
 * with a zero byte.
 */
#if defined(__GNUC__) || defined(__clang__)
#define ETHERPARSE_UNUSED __attribute__((unused))
#else
#define ETHERPARSE_UNUSED
#endif
#define ETHERPARSE_CASE(number) case number: return #number;

/* Returns the name of a status, as etherparse_status_name writes it. */
ETHERPARSE_CHECK_RESULT ETHERPARSE_UNUSED
static inline const char *etherparse_name_of_status(etherparse_status status)
{
    switch (status) {
    ETHERPARSE_CASE(ETHERPARSE_OK)
    ETHERPARSE_CASE(ETHERPARSE_STATUS_LENGTH)
    ETHERPARSE_CASE(ETHERPARSE_STATUS_DATA_OFFSET)
    ETHERPARSE_CASE(ETHERPARSE_STATUS_VALUE_TOO_BIG)
    ETHERPARSE_CASE(ETHERPARSE_STATUS_BUFFER_TOO_SMALL)
    ETHERPARSE_CASE(ETHERPARSE_STATUS_CHECKSUM_WRONG)
    ETHERPARSE_CASE(ETHERPARSE_STATUS_CHECKSUM_ABSENT)
    ETHERPARSE_CASE(ETHERPARSE_STATUS_OPTIONS_TOO_LONG)
    ETHERPARSE_CASE(ETHERPARSE_STATUS_FLAGS_UNKNOWN)
    ETHERPARSE_CASE(ETHERPARSE_STATUS_PROTOCOL_UNKNOWN)
    ETHERPARSE_CASE(ETHERPARSE_STATUS_OPTIONS_END)
    ETHERPARSE_CASE(ETHERPARSE_STATUS_OPTION_CUT_OFF)
    ETHERPARSE_CASE(ETHERPARSE_STATUS_OPTION_SIZE)
    ETHERPARSE_CASE(ETHERPARSE_STATUS_OPTION_UNKNOWN)
    ETHERPARSE_CASE(ETHERPARSE_STATUS_MESSAGE_UNKNOWN)
    ETHERPARSE_CASE(ETHERPARSE_STATUS_IP_HEADER_CUT_OFF)
    ETHERPARSE_CASE(ETHERPARSE_STATUS_IP_VERSION)
    ETHERPARSE_CASE(ETHERPARSE_STATUS_IP_HEADER_LENGTH)
    ETHERPARSE_CASE(ETHERPARSE_STATUS_IP_TOTAL_LENGTH)
    ETHERPARSE_CASE(ETHERPARSE_STATUS_IP_PACKET_CUT_OFF)
    ETHERPARSE_CASE(ETHERPARSE_STATUS_IP_EXTENSION_CUT_OFF)
    ETHERPARSE_CASE(ETHERPARSE_STATUS_IP_JUMBO_PAYLOAD_MISSING)
    ETHERPARSE_CASE(ETHERPARSE_STATUS_IP_JUMBO_PAYLOAD_LENGTH)
    ETHERPARSE_CASE(ETHERPARSE_STATUS_IP_JUMBO_PAYLOAD_UNEXPECTED)
    ETHERPARSE_CASE(ETHERPARSE_STATUS_IP_JUMBO_PAYLOAD_FRAGMENT)
    ETHERPARSE_CASE(ETHERPARSE_STATUS_OPTION_VALUES)
    ETHERPARSE_CASE(ETHERPARSE_STATUS_ECHO_FRAGMENT)
    ETHERPARSE_CASE(ETHERPARSE_STATUS_ECHO_NO_REQUEST)
    ETHERPARSE_CASE(ETHERPARSE_STATUS_ECHO_HAS_OPTIONS)
    ETHERPARSE_CASE(ETHERPARSE_STATUS_ECHO_HEADER_CHECKSUM_WRONG)
    ETHERPARSE_CASE(ETHERPARSE_STATUS_ECHO_REQUEST_SOURCE)
    ETHERPARSE_CASE(ETHERPARSE_STATUS_ECHO_REPLY_SOURCE)
    ETHERPARSE_CASE(ETHERPARSE_STATUS_NO_ICMP_ERROR)
    ETHERPARSE_CASE(ETHERPARSE_STATUS_TRANSLATE_HAS_OPTIONS)
    ETHERPARSE_CASE(ETHERPARSE_STATUS_TRANSLATE_PROTOCOL)
    ETHERPARSE_CASE(ETHERPARSE_STATUS_TRANSLATE_HEADER_CUT_OFF)
    ETHERPARSE_CASE(ETHERPARSE_STATUS_TRANSLATE_ICMP_MESSAGE)
    ETHERPARSE_CASE(ETHERPARSE_STATUS_TRANSLATE_QUOTED_PACKET)
    ETHERPARSE_CASE(ETHERPARSE_STATUS_ECHO_NO_REPLY)
    ETHERPARSE_CASE(ETHERPARSE_STATUS_TRANSLATE_SOURCE_ROUTE)
    ETHERPARSE_CASE(ETHERPARSE_STATUS_CHECKSUM_UNTESTED)
    ETHERPARSE_CASE(ETHERPARSE_STATUS_HOP_LIMIT_EXPIRED)
    ETHERPARSE_CASE(ETHERPARSE_STATUS_ICMP_ERROR_LATER_FRAGMENT)
    ETHERPARSE_CASE(ETHERPARSE_STATUS_ICMP_ERROR_ABOUT_ERROR)
    ETHERPARSE_CASE(ETHERPARSE_STATUS_ICMP_ERROR_ABOUT_GROUP)
    ETHERPARSE_CASE(ETHERPARSE_STATUS_ICMP_ERROR_PACKET_SOURCE)
    ETHERPARSE_CASE(ETHERPARSE_STATUS_ICMP_ERROR_SOURCE)
    ETHERPARSE_CASE(ETHERPARSE_STATUS_SEGMENT_SIZE_LATER_FRAGMENT)
    ETHERPARSE_CASE(ETHERPARSE_STATUS_SEGMENT_SIZE_NO_SYN)
    ETHERPARSE_CASE(ETHERPARSE_STATUS_SEGMENT_SIZE_NO_OPTION)
    ETHERPARSE_CASE(ETHERPARSE_STATUS_PREFIX_LENGTH)
    ETHERPARSE_CASE(ETHERPARSE_STATUS_PREFIX_RESERVED_OCTET)
    ETHERPARSE_CASE(ETHERPARSE_STATUS_PREFIX_SUFFIX)
    ETHERPARSE_CASE(ETHERPARSE_STATUS_SIIT_NO_HEADER)
    ETHERPARSE_CASE(ETHERPARSE_STATUS_SIIT_HEADER_CHECKSUM)
    ETHERPARSE_CASE(ETHERPARSE_STATUS_SIIT_FRAGMENT_CHECKSUM)
    ETHERPARSE_CASE(ETHERPARSE_STATUS_SIIT_EXTENSION_HEADER)
    ETHERPARSE_CASE(ETHERPARSE_STATUS_SIIT_PAYLOAD_LENGTH)
    ETHERPARSE_CASE(ETHERPARSE_STATUS_SIIT_TIME_EXCEEDED)
    ETHERPARSE_CASE(ETHERPARSE_STATUS_SIIT_SOURCE)
    ETHERPARSE_CASE(ETHERPARSE_STATUS_SIIT_DESTINATION)
    ETHERPARSE_CASE(ETHERPARSE_STATUS_SIIT_NOT_EMBEDDED)
    ETHERPARSE_CASE(ETHERPARSE_STATUS_SIIT_NOT_GLOBAL)
    ETHERPARSE_CASE(ETHERPARSE_STATUS_SIIT_ICMP_EXTENSION)
    ETHERPARSE_CASE(ETHERPARSE_STATUS_SIIT_ICMP_POINTER)
    ETHERPARSE_CASE(ETHERPARSE_STATUS_SIIT_TRANSPORT_HEADER)
    ETHERPARSE_CASE(ETHERPARSE_STATUS_SIIT_UDP_LENGTH)
    ETHERPARSE_CASE(ETHERPARSE_STATUS_SIIT_NO_UDP_CHECKSUM)
    ETHERPARSE_CASE(ETHERPARSE_STATUS_SIIT_ICMP_MESSAGE)
    ETHERPARSE_CASE(ETHERPARSE_STATUS_SIIT_QUOTED_PACKET)
    ETHERPARSE_CASE(ETHERPARSE_STATUS_REASSEMBLY_NO_FRAGMENT)
    ETHERPARSE_CASE(ETHERPARSE_STATUS_REASSEMBLY_HEADER_CHAIN_CUT_OFF)
    ETHERPARSE_CASE(ETHERPARSE_STATUS_REASSEMBLY_OTHER_KEY)
    ETHERPARSE_CASE(ETHERPARSE_STATUS_REASSEMBLY_EMPTY)
    ETHERPARSE_CASE(ETHERPARSE_STATUS_REASSEMBLY_FRAGMENT_LENGTH)
    ETHERPARSE_CASE(ETHERPARSE_STATUS_REASSEMBLY_TOO_LONG)
    ETHERPARSE_CASE(ETHERPARSE_STATUS_REASSEMBLY_ROOM)
    ETHERPARSE_CASE(ETHERPARSE_STATUS_REASSEMBLY_OTHER_END)
    ETHERPARSE_CASE(ETHERPARSE_STATUS_REASSEMBLY_BEHIND_END)
    ETHERPARSE_CASE(ETHERPARSE_STATUS_REASSEMBLY_OVERLAP)
    ETHERPARSE_CASE(ETHERPARSE_STATUS_REASSEMBLY_TOO_MANY_FRAGMENTS)
    ETHERPARSE_CASE(ETHERPARSE_STATUS_REASSEMBLY_INCOMPLETE)
    ETHERPARSE_CASE(ETHERPARSE_STATUS_REASSEMBLY_HEADER)
    ETHERPARSE_CASE(ETHERPARSE_STATUS_REASSEMBLY_LENGTHS)
    ETHERPARSE_CASE(ETHERPARSE_STATUS_SIIT_EXTENSION_HEADER_CUT_OFF)
    ETHERPARSE_CASE(ETHERPARSE_STATUS_SIIT_SEGMENTS_LEFT)
    ETHERPARSE_CASE(ETHERPARSE_STATUS_SIIT_ICMP_FRAGMENT)
    default: return "unknown status";
    }
}

/* Returns the name of a verdict, as etherparse_verdict_name writes it. */
ETHERPARSE_CHECK_RESULT ETHERPARSE_UNUSED
static inline const char *etherparse_name_of_verdict(uint32_t verdict)
{
    switch (verdict) {
    ETHERPARSE_CASE(ETHERPARSE_VERDICT_RIGHT)
    ETHERPARSE_CASE(ETHERPARSE_VERDICT_ABSENT)
    ETHERPARSE_CASE(ETHERPARSE_VERDICT_WRONG)
    ETHERPARSE_CASE(ETHERPARSE_VERDICT_PARTIAL)
    ETHERPARSE_CASE(ETHERPARSE_VERDICT_UNTESTED_FRAGMENT)
    ETHERPARSE_CASE(ETHERPARSE_VERDICT_UNTESTED_CUT_OFF)
    ETHERPARSE_CASE(ETHERPARSE_VERDICT_UNTESTED_UNKNOWN_DESTINATION)
    ETHERPARSE_CASE(ETHERPARSE_VERDICT_UNTESTED_OTHER_PROTOCOL)
    ETHERPARSE_CASE(ETHERPARSE_VERDICT_UNTESTED_ZERO_LENGTH)
    ETHERPARSE_CASE(ETHERPARSE_VERDICT_UNTESTED_TOO_LONG)
    default: return "unknown verdict";
    }
}

/* Returns what a verdict means, in a few words of ASCII. The texts may change in later versions. */
ETHERPARSE_CHECK_RESULT ETHERPARSE_UNUSED
static inline const char *etherparse_text_of_verdict(uint32_t verdict)
{
    switch (verdict) {
    case ETHERPARSE_VERDICT_RIGHT: return "the checksum is right";
    case ETHERPARSE_VERDICT_ABSENT: return "there is no checksum";
    case ETHERPARSE_VERDICT_WRONG: return "the checksum is wrong";
    case ETHERPARSE_VERDICT_PARTIAL: return "the checksum is partial";
    case ETHERPARSE_VERDICT_UNTESTED_FRAGMENT: return "not tested: a fragment";
    case ETHERPARSE_VERDICT_UNTESTED_CUT_OFF: return "not tested: the packet is cut off";
    case ETHERPARSE_VERDICT_UNTESTED_UNKNOWN_DESTINATION: return "not tested: the final destination is not known";
    case ETHERPARSE_VERDICT_UNTESTED_OTHER_PROTOCOL: return "not tested: another protocol";
    case ETHERPARSE_VERDICT_UNTESTED_ZERO_LENGTH: return "not tested: the length field of UDP is 0";
    case ETHERPARSE_VERDICT_UNTESTED_TOO_LONG: return "not tested: the packet is too long";
    default: return "unknown verdict";
    }
}

#undef ETHERPARSE_CASE

#ifdef __cplusplus
}
#endif

#endif
