/*
 * SPDX-FileCopyrightText: 2026 The etherparse_transport developers
 * SPDX-License-Identifier: MIT OR Apache-2.0
 *
 * packets COUNT SEED: makes COUNT packets, and the calls of the library for each of them. recorder.c records what is passed and returned.
 *
 * Packets are UDP, TCP and ICMP over both versions of IP, also with options, extension headers and quoted packets. Half of them have right
 * checksums. Then some are cut off, some have a byte or two replaced, and every sixteenth consists of random bytes.
 */
#include "etherparse_transport.h"

#include <stdlib.h>
#include <string.h>

enum { ROOM = 256, MAX_DATA = 40 };

static uint64_t state;
static uint8_t packet[ROOM], copy[ROOM];
static size_t len;
static etherparse_error error;

/* A number below a limit, of a generator of 64 bits (xorshift64*). */
static size_t below(size_t limit)
{
    state ^= state >> 12;
    state ^= state << 25;
    state ^= state >> 27;
    return (size_t)(state * 0x2545f4914f6cdd1dULL >> 33) % limit;
}

static int is_one_of(size_t count) { return below(count) == 0; }

static void append(size_t byte) { packet[len++] = (uint8_t)byte; }

static void append_random(size_t count)
{
    while (count-- > 0)
        append(below(256));
}

static void store16(size_t place, size_t number)
{
    packet[place] = (uint8_t)(number >> 8);
    packet[place + 1] = (uint8_t)number;
}

/* An address of a few hosts, so that runs of zeros occur, or of random bytes. */
static void append_address(size_t address_len)
{
    size_t i;
    for (i = 0; i + 1 < address_len; i++)
        append(is_one_of(3) ? below(256) : is_one_of(2) ? 10 : 0);
    append(1 + below(3));
}

/* IPv4 with up to 3 words of options, of which some are a source route. The header length is returned. */
static size_t append_ipv4(size_t protocol)
{
    size_t words = is_one_of(4) ? 1 + below(3) : 0;
    append(0x45 + words);
    append(below(256));
    append_random(4);
    append(is_one_of(8) ? below(0x40) : is_one_of(2) ? 0x40 : 0);
    append(packet[6] & 0x3f ? below(256) : 0);
    append(64);
    append(protocol);
    append_random(2);
    append_address(4);
    append_address(4);
    if (words == 2 && is_one_of(2)) {
        append(131);
        append(7);
        append(4 + 4 * below(2));
        append_address(4);
        append(0);
    } else {
        while (words-- > 0)
            append_random(3), append(1);
    }
    return len;
}

/* IPv6 with up to 2 extension headers of 8 bytes: hop-by-hop or destination options, a fragment header, or a routing header. */
static size_t append_ipv6(size_t protocol)
{
    static const uint8_t kinds[4] = {0, 60, 44, 43};
    size_t headers = is_one_of(4) ? 1 + below(2) : 0, next = 6;
    append(0x60);
    append_random(3);
    append(0);
    append(0);
    append(0);
    append(64);
    append_address(16);
    append_address(16);
    while (headers-- > 0) {
        size_t kind = kinds[below(4)];
        packet[next] = (uint8_t)kind;
        next = len;
        append(0);
        append(0);
        if (kind == 44)
            append(0), append(is_one_of(2) ? below(256) : 0), append_random(4);
        else if (kind == 43)
            append(below(4)), append(below(2)), append_random(4);
        else
            append(1), append(4), append_random(4);
    }
    packet[next] = (uint8_t)protocol;
    return len;
}

static void append_udp(void)
{
    size_t data = below(MAX_DATA);
    append_random(4);
    append(0);
    append(is_one_of(16) ? below(256) : is_one_of(16) ? 0 : 8 + data);
    append(0);
    append(0);
    append_random(data);
}

/* TCP with well-formed options of the six kinds and of another one, or with random bytes for options. */
static void append_tcp(void)
{
    static const uint8_t options[7][10] = {{1}, {2, 4, 5, 180}, {3, 3, 7}, {4, 2}, {5, 10, 0, 0, 0, 1, 0, 0, 0, 2},
                                           {8, 10, 0, 0, 0, 7, 0, 0, 0, 9}, {28, 4, 128, 10}};
    static const uint8_t lens[7] = {1, 4, 3, 2, 10, 10, 4};
    size_t start = len, end, i;
    append_random(12);
    append(0);
    append(below(256));
    append_random(6);
    end = len + 4 * (is_one_of(2) ? below(11) : 0);
    while (len < end) {
        size_t kind = below(7);
        if (is_one_of(6) || len + lens[kind] > end)
            append(is_one_of(2) ? 0 : below(256));
        else
            for (i = 0; i < lens[kind]; i++)
                append(options[kind][i]);
    }
    packet[start + 12] = (uint8_t)((len - start) / 4 << 4 | (is_one_of(8) ? below(16) : below(2)));
    append_random(below(MAX_DATA));
}

/* ICMP with a likely type, and in an error the front of another packet. */
static void append_icmp(int is_ipv6)
{
    static const uint8_t types4[8] = {0, 3, 5, 8, 11, 12, 13, 14}, types6[9] = {1, 2, 3, 4, 128, 129, 133, 134, 136};
    size_t type = is_ipv6 ? types6[below(9)] : types4[below(8)];
    int is_error = is_ipv6 ? type < 128 : type == 3 || type == 5 || type == 11 || type == 12;
    append(is_one_of(16) ? below(256) : type);
    append(is_one_of(3) ? below(17) : 0);
    append_random(2);
    append_random(is_error ? 1 : 4);
    if (is_error) {
        append(is_one_of(4) ? below(12) : 0);
        append_random(2);
        (is_ipv6 ? append_ipv6 : append_ipv4)(is_one_of(2) ? 17 : is_ipv6 ? 58 : 1);
        append_random(8 + below(8));
    } else if (!is_ipv6 && (type == 13 || type == 14)) {
        append_random(is_one_of(4) ? below(13) : 12);
    } else {
        append_random(below(MAX_DATA));
    }
}

/* Stores the right checksum of the transport and of the IPv4 header, if the packet is accepted. */
static void store_checksums(void)
{
    etherparse_ip_transport found;
    uint8_t *bytes;
    int stored = 0;
    if (etherparse_transport_in_ip(packet, len, &found, &error) != ETHERPARSE_OK)
        return;
    bytes = packet + found.payload_offset;
    if (found.protocol == ETHERPARSE_PROTOCOL_UDP)
        stored = found.version == 4
            ? etherparse_udp_checksum_store_ipv4(bytes, found.payload_len, found.source, found.destination, &error) == 0
            : etherparse_udp_checksum_store_ipv6(bytes, found.payload_len, found.source, found.destination, &error) == 0;
    if (found.protocol == ETHERPARSE_PROTOCOL_TCP)
        stored = found.version == 4
            ? etherparse_tcp_checksum_store_ipv4(bytes, found.payload_len, found.source, found.destination, &error) == 0
            : etherparse_tcp_checksum_store_ipv6(bytes, found.payload_len, found.source, found.destination, &error) == 0;
    if (found.protocol == ETHERPARSE_PROTOCOL_ICMPV4)
        stored = etherparse_icmpv4_checksum_store(bytes, found.payload_len, &error) == 0;
    if (found.protocol == ETHERPARSE_PROTOCOL_ICMPV6)
        stored = etherparse_icmpv6_checksum_store(bytes, found.payload_len, found.source, found.destination, &error) == 0;
    if (stored && etherparse_ipv4_header_checksum_store(packet, len, &error) == ETHERPARSE_OK)
        return;
}

static void make_packet(void)
{
    int is_ipv6 = is_one_of(2);
    size_t kind = below(3), number = kind == 0 ? 17 : kind == 1 ? 6 : is_ipv6 ? 58 : 1, i;
    len = 0;
    if (is_one_of(16)) {
        append_random(below(100));
        return;
    }
    (is_ipv6 ? append_ipv6 : append_ipv4)(number);
    if (kind == 0)
        append_udp();
    else if (kind == 1)
        append_tcp();
    else
        append_icmp(is_ipv6);
    if (is_ipv6)
        store16(4, is_one_of(32) ? 0 : len - 40);
    else
        store16(2, is_one_of(32) ? 0 : len);
    if (is_one_of(2))
        store_checksums();
    if (is_one_of(4))
        append_random(below(8));
    if (is_one_of(8))
        len = below(len);
    if (is_one_of(6) && len > 0)
        for (i = 1 + below(2); i > 0; i--)
            packet[below(len)] = (uint8_t)below(256);
}

/* A call for a UDP packet or a TCP packet in `bytes`, for each version of IP, and one that stores in a copy. */
#define OVER_ADDRESSES(protocol, version)                                                                                            \
    do {                                                                                                                             \
        (void)(etherparse_##protocol##_checksum_##version(bytes, bytes_len, source, destination, &checksum, &error) == 0);             \
        (void)(etherparse_##protocol##_checksum_test_##version(bytes, bytes_len, source, destination, &error) == 0);                   \
        memcpy(copy, bytes, bytes_len);                                                                                              \
        (void)(etherparse_##protocol##_checksum_store_##version(copy, bytes_len, source, destination, &error) == 0);                   \
    } while (0)

static void call_udp(const uint8_t *bytes, size_t bytes_len, int is_ipv6, const uint8_t *source, const uint8_t *destination)
{
    etherparse_udp_packet found;
    uint16_t checksum;
    size_t written;
    (void)(etherparse_udp_packet_read(bytes, bytes_len, &found, &error) == 0);
    if (etherparse_udp_packet_read_lax(bytes, bytes_len, &found, &error) == ETHERPARSE_OK)
        (void)(etherparse_udp_header_write(&found.header, copy, ROOM, &written, &error) == 0);
    if (is_ipv6)
        OVER_ADDRESSES(udp, ipv6);
    else
        OVER_ADDRESSES(udp, ipv4);
}

/* Reads all options by both calls, and writes the known ones again. */
static void call_options(const uint8_t *options, size_t options_len)
{
    etherparse_tcp_option option, read[ETHERPARSE_TCP_MAX_OPTIONS_LEN];
    etherparse_tcp_raw_option raw;
    size_t place = 0, count = 0, written;
    while (etherparse_tcp_raw_option_next(options, options_len, &place, &raw, &error) == ETHERPARSE_OK) {
    }
    place = 0;
    while (etherparse_tcp_option_next(options, options_len, &place, &option, &error) == ETHERPARSE_OK)
        read[count++] = option;
    (void)(etherparse_tcp_options_write(read, count, copy, ROOM, &written, &error) == 0);
}

static void call_tcp(const uint8_t *bytes, size_t bytes_len, int is_ipv6, const uint8_t *source, const uint8_t *destination)
{
    etherparse_tcp_packet found;
    uint16_t checksum;
    size_t written;
    if (etherparse_tcp_packet_read(bytes, bytes_len, &found, &error) == ETHERPARSE_OK) {
        const uint8_t *options = bytes + found.options_offset;
        call_options(options, found.options_len);
        (void)(etherparse_tcp_header_write(&found.header, options, found.options_len, copy, ROOM, &written, &error) == 0);
    }
    memset(&found.header, (int)below(256), sizeof found.header);
    found.header.flags = (uint16_t)below(0x240);
    memcpy(copy, bytes, bytes_len);
    (void)(etherparse_tcp_header_store(&found.header, copy, bytes_len, &error) == 0);
    if (is_ipv6)
        OVER_ADDRESSES(tcp, ipv6);
    else
        OVER_ADDRESSES(tcp, ipv4);
}

static void call_icmpv4(const uint8_t *bytes, size_t bytes_len)
{
    etherparse_icmpv4_packet found;
    uint16_t checksum;
    size_t written, offset;
    if (etherparse_icmpv4_packet_read(bytes, bytes_len, &found, &error) == ETHERPARSE_OK)
        (void)(etherparse_icmpv4_header_write(&found.header, copy, ROOM, &written, &error) == 0);
    (void)(etherparse_icmpv4_checksum(bytes, bytes_len, &checksum, &error) == 0);
    (void)(etherparse_icmpv4_checksum_test(bytes, bytes_len, &error) == 0);
    memcpy(copy, bytes, bytes_len);
    (void)(etherparse_icmpv4_checksum_store(copy, bytes_len, &error) == 0);
    (void)(etherparse_icmpv4_quoted_packet(bytes, bytes_len, &offset, &written, &error) == 0);
}

static void call_icmpv6(const uint8_t *bytes, size_t bytes_len, const uint8_t *source, const uint8_t *destination)
{
    etherparse_icmpv6_packet found;
    uint16_t checksum;
    size_t written, offset;
    if (etherparse_icmpv6_packet_read(bytes, bytes_len, &found, &error) == ETHERPARSE_OK)
        (void)(etherparse_icmpv6_header_write(&found.header, copy, ROOM, &written, &error) == 0);
    (void)(etherparse_icmpv6_checksum(bytes, bytes_len, source, destination, &checksum, &error) == 0);
    (void)(etherparse_icmpv6_checksum_test(bytes, bytes_len, source, destination, &error) == 0);
    memcpy(copy, bytes, bytes_len);
    (void)(etherparse_icmpv6_checksum_store(copy, bytes_len, source, destination, &error) == 0);
    (void)(etherparse_icmpv6_quoted_packet(bytes, bytes_len, &offset, &written, &error) == 0);
}

/* Answers the packet, and tests the reply. */
static void call_echo(int is_ipv6, const uint8_t *source)
{
    size_t reply_len;
    memcpy(copy, packet, len);
    if (etherparse_echo_answer(copy, len, (uint8_t)below(256), &reply_len, &error) == ETHERPARSE_OK) {
        (void)(etherparse_echo_is_reply(packet, len, copy, reply_len, &error) == 0);
        (void)(etherparse_echo_is_reply_from_any(packet, len, copy, reply_len, &error) == 0);
        copy[below(reply_len)] ^= (uint8_t)(1 << below(8));
        (void)(etherparse_echo_is_reply(packet, len, copy, reply_len, &error) == 0);
        (void)(etherparse_echo_is_reply_from_any(packet, len, copy, reply_len, &error) == 0);
        memcpy(copy, packet, len);
        if (is_ipv6)
            (void)(etherparse_echo_answer_ipv6(copy, len, source, 64, &reply_len, &error) == 0);
        else
            (void)(etherparse_echo_answer_ipv4(copy, len, source, 64, &reply_len, &error) == 0);
    }
}

/* Replaces some of addresses and ports, and at least one address. */
static void call_translate(int is_ipv6)
{
    etherparse_ipv4_translation to4 = {{203, 0, 113, 7}, {198, 51, 100, 9}, 40001, 53, 0, 0, 0, 0};
    etherparse_ipv6_translation to6 = {{0x20, 1, 0x0d, 0xb8, 0, 0, 9}, {0x20, 1, 0x0d, 0xb8, 8}, 40001, 53, 0, 0, 0, 0};
    etherparse_ipv4_translation quoted4;
    etherparse_ipv6_translation quoted6;
    memcpy(copy, packet, len);
    to4.has_source = to6.has_source = (uint8_t)below(2);
    to4.has_destination = to6.has_destination = (uint8_t)(to4.has_source ? below(2) : 1);
    to4.has_source_port = to6.has_source_port = (uint8_t)below(2);
    to4.has_destination_port = to6.has_destination_port = (uint8_t)below(2);
    if (is_ipv6)
        (void)(etherparse_translate_ipv6(copy, len, &to6, &error) == 0);
    else
        (void)(etherparse_translate_ipv4(copy, len, &to4, &error) == 0);
    /* The packet of an ICMP error is translated by another translation, which has no source port. */
    quoted4 = to4;
    quoted6 = to6;
    quoted4.has_source_port = quoted6.has_source_port = 0;
    memcpy(copy, packet, len);
    if (is_ipv6)
        (void)(etherparse_translate_ipv6_with_quoted(copy, len, &to6, &quoted6, &error) == 0);
    else
        (void)(etherparse_translate_ipv4_with_quoted(copy, len, &to4, &quoted4, &error) == 0);
}

/* ICMP errors about the packet, and messages about which the library knows that they are no errors. */
static void call_icmp_errors(void)
{
    static const uint8_t router4[4] = {192, 0, 2, 254}, router6[16] = {0x20, 1, 0xd, 0xb8, [15] = 0xfe};
    static uint8_t room[1280];
    etherparse_icmpv4_header header4;
    etherparse_icmpv6_header header6;
    size_t written;
    memset(&header4, 0, sizeof header4);
    memset(&header6, 0, sizeof header6);
    header4.kind = (uint32_t)below(10);
    header6.kind = (uint32_t)below(13);
    header4.code = header6.code = (uint8_t)below(4);
    (void)(etherparse_icmpv4_error_about(packet, len, &header4, router4, 64, room, sizeof room, &written, &error) == 0);
    (void)(etherparse_icmpv6_error_about(packet, len, &header6, router6, 64, room, sizeof room, &written, &error) == 0);
}

/* Translates the packet between IPv4 and IPv6, with a prefix of each length. */
static void call_between_versions(void)
{
    static const uint8_t lens[7] = {32, 40, 48, 56, 64, 96, 33};
    static uint8_t room[ROOM + 1280];
    etherparse_prefix64 prefix = {{0x20, 1, 0x0d, 0xb8}, 0};
    etherparse_prefix64 well_known = {{0, 0x64, 0xff, 0x9b}, 96};
    size_t written;
    prefix.len = lens[below(7)];
    (void)(etherparse_ipv4_to_ipv6(packet, len, &prefix, &well_known, room, sizeof room, &written, &error) == 0);
    (void)(etherparse_ipv6_to_ipv4(packet, len, &well_known, &prefix, 7, room, sizeof room, &written, &error) == 0);
}

/* Tests whether the checksum is partial, stores the right checksum, and lowers the hop limit and the maximum segment size. */
static void call_packet_checksum(void)
{
    uint32_t is_partial;
    uint16_t checksum;
    (void)(etherparse_packet_checksum_is_partial(packet, len, &is_partial, &error) == 0);
    memcpy(copy, packet, len);
    (void)(etherparse_packet_checksum_store(copy, len, &checksum, &error) == 0);
    memcpy(copy, packet, len);
    (void)(etherparse_hop_limit_lower(copy, len, &error) == 0);
    memcpy(copy, packet, len);
    (void)(etherparse_maximum_segment_size_lower(copy, len, 536, &checksum, &error) == 0);
}

/* Reads the fragment in the packet, and puts it together with itself. */
static void call_fragments(void)
{
    static uint8_t room[ETHERPARSE_REASSEMBLY_ROOM_MAX_LEN];
    etherparse_fragment fragment;
    size_t written;
    (void)(etherparse_fragment_read(packet, len, &fragment, &error) == 0);
    (void)(etherparse_reassembly_packet(packet, len, &len, 1, room, sizeof room, copy, ROOM, &written, &error) == 0);
}

/* Writes a packet with this message between these addresses. */
static void call_write_packet(const etherparse_ip_transport *found, const uint8_t *message)
{
    etherparse_ipv4_header header4 = {{0}, {0}, (uint8_t)below(256), (uint8_t)found->protocol};
    etherparse_ipv6_header header6 = {{0}, {0}, (uint8_t)below(256), (uint8_t)found->protocol};
    size_t written;
    memcpy(header4.source, found->source, 4);
    memcpy(header4.destination, found->destination, 4);
    memcpy(header6.source, found->source, 16);
    memcpy(header6.destination, found->destination, 16);
    if (found->version == 6)
        (void)(etherparse_write_packet_ipv6(&header6, message, found->payload_len, copy, ROOM, &written, &error) == 0);
    else
        (void)(etherparse_write_packet_ipv4(&header4, message, found->payload_len, copy, ROOM, &written, &error) == 0);
}

/* The sum of the packet in two parts, and the change of its checksum if the parts change places. */
static void call_sums(void)
{
    size_t first = len / 4 * 2;
    etherparse_sum sum = etherparse_sum_add_at(etherparse_sum_add(etherparse_sum_new(), packet, first), first, packet + first, len - first);
    etherparse_checksum_change change = etherparse_checksum_change_new();
    uint16_t checksum = etherparse_sum_checksum(sum);
    change = etherparse_checksum_change_replace(change, packet, first, packet + len - first, first);
    (void)(etherparse_sum_udp_checksum(sum) + etherparse_checksum_change_apply(change, checksum) +
           etherparse_checksum_change_apply_udp(etherparse_checksum_change_reversed(change), checksum));
}

static void call_all(void)
{
    etherparse_ip_transport found;
    etherparse_ip_packet judged;
    etherparse_ip_addresses addresses;
    etherparse_packet_flow flow;
    uint16_t checksum;
    size_t written;
    const uint8_t *bytes;
    (void)(etherparse_transport_in_ip(packet, len, &found, &error) == 0);
    (void)(etherparse_packet_verdict(packet, len, &judged, &error) == 0);
    (void)(etherparse_packet_verdict_lax(packet, len, &judged, &error) == 0);
    (void)(etherparse_ip_header_addresses(packet, len, &addresses, &error) == 0);
    (void)(etherparse_flow(packet, len, &flow, &error) == 0);
    call_fragments();
    (void)(etherparse_ipv4_header_checksum(packet, len, &checksum, &error) == 0);
    (void)(etherparse_ipv4_header_checksum_test(packet, len, &error) == 0);
    call_packet_checksum();
    call_icmp_errors();
    call_between_versions();
    call_sums();
    if (etherparse_transport_in_ip_lax(packet, len, &found, &error) != ETHERPARSE_OK)
        return;
    bytes = packet + found.payload_offset;
    call_write_packet(&found, bytes);
    (void)(etherparse_canonical_header(found.protocol, bytes, found.payload_len, copy, ROOM, &written, &error) == 0);
    if (found.protocol == ETHERPARSE_PROTOCOL_UDP)
        call_udp(bytes, found.payload_len, found.version == 6, found.source, found.destination);
    if (found.protocol == ETHERPARSE_PROTOCOL_TCP)
        call_tcp(bytes, found.payload_len, found.version == 6, found.source, found.destination);
    if (found.protocol == ETHERPARSE_PROTOCOL_ICMPV4)
        call_icmpv4(bytes, found.payload_len);
    if (found.protocol == ETHERPARSE_PROTOCOL_ICMPV6)
        call_icmpv6(bytes, found.payload_len, found.source, found.destination);
    call_echo(found.version == 6, found.destination);
    call_translate(found.version == 6);
}

int main(int argc, char **argv)
{
    unsigned long count = argc == 3 ? strtoul(argv[1], NULL, 10) : 0;
    state = argc == 3 ? strtoull(argv[2], NULL, 10) : 0;
    if (count == 0 || state == 0)
        return 2;
    while (count-- > 0) {
        make_packet();
        call_all();
    }
    return 0;
}
