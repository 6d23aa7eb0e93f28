/*
 * SPDX-FileCopyrightText: 2026 The etherparse_transport developers
 * SPDX-License-Identifier: MIT OR Apache-2.0
 *
 * Measures calls of the library beside plain readers in C (plain.c), on the same bytes.
 *
 *     rows              writes a line for each row: nanoseconds of the library's call, of the plain one, and their ratio
 *     rows names        compares what both answer, and writes the names of the rows
 *     rows NAME N       makes the library's call of the row N times, or of NAME with `plain ` before it the plain one
 *
 * c_library/benchmark/run builds it. A time is the least of many samples, with the loop's own time.
 */
#define _POSIX_C_SOURCE 199309L
#include "plain.h"

#include <stdio.h>
#include <stdlib.h>
#include <string.h>
#include <time.h>

enum { SAMPLES = 400, CALLS = 2000 };

static const uint8_t source4[4] = {192, 168, 1, 1}, destination4[4] = {192, 168, 1, 2};
static const uint8_t over_ipv4[31] = {0x45, 0, 0, 31, 0, 7, 0, 0, 64, 17, 0, 0, 192, 168, 1, 1,
                                      192, 168, 1, 2, 0, 21, 4, 210, 0, 11, 0xb3, 0x3a, 'a', 'b', 'c'};
static const uint8_t over_ipv6[56] = {0x60, 0, 0, 0, 0, 16, 0, 64, 0x20, 0x01, 0x0d, 0xb8, 0,  0,  0, 0,   0, 0, 0,
                                      0,    0, 0, 0, 1, 0x20, 0x01, 0x0d, 0xb8, 0, 0, 0, 0, 0,  0,  0, 0,   0, 0,
                                      0,    2, 17, 0, 1, 4, 0, 0, 0, 0, 0, 21, 4, 210, 0, 8, 0, 0};
static const uint8_t syn[40] = {0xc3, 0x50, 0, 0x50, 0, 0, 0, 1, 0, 0, 0, 0, 0xa0, 0x02, 0xff, 0xf0, 0x37, 0x39, 0, 0,
                                2, 4, 0x05, 0xb4, 4, 2, 8, 10, 0, 0, 0, 7, 0, 0, 0, 0, 1, 3, 3, 7};
static const uint8_t ping[12] = {8, 0, 0x19, 0x2c, 0, 1, 0, 2, 'p', 'i', 'n', 'g'};
static const uint8_t ping6[12] = {128, 0, 0x19, 0x2c, 0, 1, 0, 2, 'p', 'i', 'n', 'g'};
static uint8_t middle_packet[64], long_packet[1508];
static const uint8_t udp_over_ipv4[31] = {0x45, 0, 0, 31, 0, 7, 0, 0, 64, 17, 0xf7, 0x73, 192, 168, 1, 1,
                                          192, 168, 1, 2, 0, 21, 4, 210, 0, 11, 0xb3, 0x3a, 'a', 'b', 'c'};
static const uint8_t ping_over_ipv4[32] = {0x45, 0, 0, 32, 0, 7, 0, 0, 64, 1, 0xf7, 0x82, 192, 168, 1, 1,
                                           192, 168, 1, 2, 8, 0, 0x19, 0x2c, 0, 1, 0, 2, 'p', 'i', 'n', 'g'};
static const etherparse_ipv4_translation outbound = {
    .source = {203, 0, 113, 7}, .source_port = 40000, .has_source = 1, .has_source_port = 1};

/* Each call changes one of these packets in place. All are put back before the first one is changed again. */
enum { CHANGED = 64 };
static uint8_t changed[CHANGED][32];
static size_t changed_place, reply_len;

/* Packets of UDP that are translated to the other version of IP. `main` fills them. The source has the first prefix over IPv6. */
static const etherparse_prefix64 host = {{0x20, 1, 0x0d, 0xb8, 0, 1}, 96}, network = {{0x20, 1, 0x0d, 0xb8, 0, 0x64}, 96};
static uint8_t short_ipv4[64], long_ipv4[1400], short_ipv6[64], long_ipv6[1400], translated[1420];

/* Fragments of UDP over IPv4 with 1,440 bytes of payload, the last with 700 bytes. `main` fills them. */
enum { FRAGMENTS = 45 };
static uint8_t fragments[FRAGMENTS * 1460], room[ETHERPARSE_REASSEMBLY_ROOM_MAX_LEN], joined[65535];
static size_t lens[FRAGMENTS];

static etherparse_error error;
static etherparse_ip_transport transport;
static etherparse_udp_packet udp_packet;
static etherparse_tcp_packet tcp_packet;
static etherparse_icmpv4_packet icmpv4_packet;
static etherparse_icmpv6_packet icmpv6_packet;
static etherparse_tcp_option option;
static etherparse_tcp_raw_option raw_option;
static uint8_t buffer[64];
static size_t written;

/* What is added up of the answers, so that no call is left out. */
static size_t total;

/* A row: a function for the library and one for the plain reader, each of which makes the call a number of times. */
#define ROW(function, call, plain)                                                                                                     \
    static void function(int is_plain, int calls)                                                                                      \
    {                                                                                                                                  \
        int i;                                                                                                                         \
        if (is_plain)                                                                                                                  \
            for (i = 0; i < calls; i++)                                                                                                \
                total += plain;                                                                                                        \
        else                                                                                                                           \
            for (i = 0; i < calls; i++)                                                                                                \
                total += call;                                                                                                         \
    }

static etherparse_status options_of(etherparse_status next(const uint8_t *, size_t, size_t *, etherparse_tcp_option *, etherparse_error *))
{
    size_t place = 0;
    etherparse_status status;
    while ((status = next(syn + 20, 20, &place, &option, &error)) == ETHERPARSE_OK)
        total += option.kind;
    return status;
}

static etherparse_status raw_options_of(etherparse_status next(const uint8_t *, size_t, size_t *, etherparse_tcp_raw_option *,
                                                               etherparse_error *))
{
    size_t place = 0;
    etherparse_status status;
    while ((status = next(syn + 20, 20, &place, &raw_option, &error)) == ETHERPARSE_OK)
        total += raw_option.kind;
    return status;
}

/* The next packet to change. */
static uint8_t *next_of(const uint8_t *packet, size_t len)
{
    size_t i;
    if (changed_place == 0)
        for (i = 0; i < CHANGED; i++)
            memcpy(changed[i], packet, len);
    changed_place = (changed_place + 1) % CHANGED;
    return changed[(changed_place + CHANGED - 1) % CHANGED];
}

/* Makes the fragment with this number the last, of 700 bytes, or one of 1,440 bytes that more fragments follow. The length of the packet
 * in `lens` stays that of the longer fragment, so the shorter one has padding. */
static void mark_last(size_t number, int is_last)
{
    uint8_t *packet = fragments + (number - 1) * 1460;
    size_t len = is_last ? 720 : 1460;
    packet[2] = (uint8_t)(len >> 8);
    packet[3] = (uint8_t)len;
    packet[6] = (uint8_t)((packet[6] & 0x1f) | (is_last ? 0 : 0x20));
}

/* All fragments, of which the first `count` are a packet: only the last of these has no more fragments after it. */
static const uint8_t *fragments_of(size_t count)
{
    static size_t last = FRAGMENTS;
    if (last != count) {
        mark_last(last, 0);
        mark_last(count, 1);
        last = count;
    }
    return fragments;
}

ROW(ip4, etherparse_transport_in_ip(over_ipv4, sizeof over_ipv4, &transport, &error),
    plain_transport_in_ip(over_ipv4, sizeof over_ipv4, &transport, &error))
ROW(ip6, etherparse_transport_in_ip(over_ipv6, sizeof over_ipv6, &transport, &error),
    plain_transport_in_ip(over_ipv6, sizeof over_ipv6, &transport, &error))
ROW(udp_read, etherparse_udp_packet_read(over_ipv4 + 20, 11, &udp_packet, &error),
    plain_udp_packet_read(over_ipv4 + 20, 11, &udp_packet, &error))
ROW(udp_refused, etherparse_udp_packet_read(over_ipv4 + 20, 10, &udp_packet, &error),
    plain_udp_packet_read(over_ipv4 + 20, 10, &udp_packet, &error))
ROW(udp_write, etherparse_udp_header_write(&udp_packet.header, buffer, sizeof buffer, &written, &error),
    plain_udp_header_write(&udp_packet.header, buffer, sizeof buffer, &written, &error))
ROW(udp_test_short, etherparse_udp_checksum_test_ipv4(over_ipv4 + 20, 11, source4, destination4, &error),
    plain_udp_checksum_test_ipv4(over_ipv4 + 20, 11, source4, destination4, &error))
ROW(udp_test_middle, etherparse_udp_checksum_test_ipv4(middle_packet, sizeof middle_packet, source4, destination4, &error),
    plain_udp_checksum_test_ipv4(middle_packet, sizeof middle_packet, source4, destination4, &error))
ROW(udp_test_long, etherparse_udp_checksum_test_ipv4(long_packet, sizeof long_packet, source4, destination4, &error),
    plain_udp_checksum_test_ipv4(long_packet, sizeof long_packet, source4, destination4, &error))
ROW(tcp_read, etherparse_tcp_packet_read(syn, sizeof syn, &tcp_packet, &error), plain_tcp_packet_read(syn, sizeof syn, &tcp_packet, &error))
ROW(options, options_of(etherparse_tcp_option_next), options_of(plain_tcp_option_next))
ROW(raw_options, raw_options_of(etherparse_tcp_raw_option_next), raw_options_of(plain_tcp_raw_option_next))
ROW(icmpv4_read, etherparse_icmpv4_packet_read(ping, sizeof ping, &icmpv4_packet, &error),
    plain_icmpv4_packet_read(ping, sizeof ping, &icmpv4_packet, &error))
ROW(icmpv6_read, etherparse_icmpv6_packet_read(ping6, sizeof ping6, &icmpv6_packet, &error),
    plain_icmpv6_packet_read(ping6, sizeof ping6, &icmpv6_packet, &error))
ROW(translate, etherparse_translate_ipv4(next_of(udp_over_ipv4, sizeof udp_over_ipv4), sizeof udp_over_ipv4, &outbound, &error),
    plain_translate_ipv4(next_of(udp_over_ipv4, sizeof udp_over_ipv4), sizeof udp_over_ipv4, &outbound, &error))
ROW(echo,
    etherparse_echo_answer_ipv4(next_of(ping_over_ipv4, sizeof ping_over_ipv4), sizeof ping_over_ipv4, destination4, 64, &reply_len,
                                &error),
    plain_echo_answer_ipv4(next_of(ping_over_ipv4, sizeof ping_over_ipv4), sizeof ping_over_ipv4, destination4, 64, &reply_len, &error))
#define TO_IPV6(function, plain, packet)                                                                                               \
    ROW(function, etherparse_ipv4_to_ipv6(packet, sizeof packet, &host, &network, translated, sizeof translated, &written, &error),    \
        plain(packet, sizeof packet, &host, &network, translated, sizeof translated, &written, &error))
#define TO_IPV4(function, plain, packet)                                                                                               \
    ROW(function, etherparse_ipv6_to_ipv4(packet, sizeof packet, &host, &network, 7, translated, sizeof translated, &written, &error), \
        plain(packet, sizeof packet, &host, &network, 7, translated, sizeof translated, &written, &error))
TO_IPV6(short_to_ipv6, plain_ipv4_to_ipv6, short_ipv4)
TO_IPV6(long_to_ipv6, plain_ipv4_to_ipv6, long_ipv4)
TO_IPV4(short_to_ipv4, plain_ipv6_to_ipv4, short_ipv6)
TO_IPV4(long_to_ipv4, plain_ipv6_to_ipv4, long_ipv6)
TO_IPV6(short_to_ipv6_checked, plain_checked_ipv4_to_ipv6, short_ipv4)
TO_IPV6(long_to_ipv6_checked, plain_checked_ipv4_to_ipv6, long_ipv4)
TO_IPV4(short_to_ipv4_checked, plain_checked_ipv6_to_ipv4, short_ipv6)
TO_IPV4(long_to_ipv4_checked, plain_checked_ipv6_to_ipv4, long_ipv6)
#define JOIN(function, count)                                                                                                          \
    ROW(function,                                                                                                                      \
        etherparse_reassembly_packet(fragments_of(count), sizeof fragments, lens, count, room, sizeof room, joined, sizeof joined,     \
                                     &written, &error),                                                                                \
        plain_reassembly_packet(fragments_of(count), sizeof fragments, lens, count, room, sizeof room, joined, sizeof joined,          \
                                &written, &error))
JOIN(join_two, 2)
JOIN(join_ten, 10)
JOIN(join_most, FRAGMENTS)

static const struct {
    const char *name;
    void (*calls)(int is_plain, int calls);
} rows[] = {
    {"transport_in_ip, UDP over IPv4", ip4},
    {"transport_in_ip, UDP over IPv6 behind hop-by-hop options", ip6},
    {"udp_packet_read", udp_read},
    {"udp_packet_read, refused", udp_refused},
    {"udp_header_write", udp_write},
    {"udp_checksum_test_ipv4, 11 bytes", udp_test_short},
    {"udp_checksum_test_ipv4, 64 bytes", udp_test_middle},
    {"udp_checksum_test_ipv4, 1508 bytes", udp_test_long},
    {"tcp_packet_read, 20 bytes of options", tcp_read},
    {"tcp_option_next, six options of a SYN and the end", options},
    {"tcp_raw_option_next, six options of a SYN and the end", raw_options},
    {"icmpv4_packet_read, echo request", icmpv4_read},
    {"icmpv6_packet_read, echo request", icmpv6_read},
    {"translate_ipv4, UDP with 3 bytes, source address and port", translate},
    {"echo_answer_ipv4, 4 bytes", echo},
    {"ipv4_to_ipv6, UDP, 64 bytes", short_to_ipv6},
    {"ipv4_to_ipv6, UDP, 1400 bytes", long_to_ipv6},
    {"ipv6_to_ipv4, UDP, 64 bytes", short_to_ipv4},
    {"ipv6_to_ipv4, UDP, 1400 bytes", long_to_ipv4},
    {"ipv4_to_ipv6, UDP, 64 bytes, the same checks", short_to_ipv6_checked},
    {"ipv4_to_ipv6, UDP, 1400 bytes, the same checks", long_to_ipv6_checked},
    {"ipv6_to_ipv4, UDP, 64 bytes, the same checks", short_to_ipv4_checked},
    {"ipv6_to_ipv4, UDP, 1400 bytes, the same checks", long_to_ipv4_checked},
    {"reassembly_packet, 2 fragments", join_two},
    {"reassembly_packet, 10 fragments", join_ten},
    {"reassembly_packet, 45 fragments", join_most},
};
enum { ROWS = sizeof rows / sizeof rows[0] };

/* The least time of a call, in nanoseconds. */
static double measured(int row, int is_plain)
{
    double least = 1e9;
    int sample;
    changed_place = 0;
    for (sample = 0; sample < SAMPLES; sample++) {
        struct timespec begin, end;
        double time;
        clock_gettime(CLOCK_MONOTONIC, &begin);
        rows[row].calls(is_plain, CALLS);
        clock_gettime(CLOCK_MONOTONIC, &end);
        time = ((double)(end.tv_sec - begin.tv_sec) * 1e9 + (double)(end.tv_nsec - begin.tv_nsec)) / CALLS;
        if (time < least)
            least = time;
    }
    return least;
}

/* Mixes a number into another. */
static size_t mixed(size_t all, size_t number)
{
    return (all ^ number) * 0x100000001b3u;
}

static size_t mixed_bytes(size_t all, const uint8_t *bytes, size_t len)
{
    size_t i;
    for (i = 0; i < len; i++)
        all = mixed(all, bytes[i]);
    return all;
}

/* One number of what a single call of a row answers and writes. Of an error that is the status alone. */
static size_t answer(int row, int is_plain)
{
    size_t all;
    memset(&transport, 0, sizeof transport);
    memset(&udp_packet, 0x11, sizeof udp_packet);
    memset(&tcp_packet, 0, sizeof tcp_packet);
    memset(&icmpv4_packet, 0, sizeof icmpv4_packet);
    memset(&icmpv6_packet, 0, sizeof icmpv6_packet);
    memset(&option, 0, sizeof option);
    memset(&raw_option, 0, sizeof raw_option);
    memset(buffer, 0, sizeof buffer);
    memset(changed, 0, sizeof changed);
    memset(translated, 0, sizeof translated);
    memset(joined, 0, sizeof joined);
    changed_place = reply_len = written = 0;
    total = 0;
    rows[row].calls(is_plain, 1);
    all = mixed(mixed(total, transport.version), transport.protocol);
    all = mixed(mixed(all, transport.payload_offset), transport.payload_len);
    all = mixed(mixed(mixed(all, transport.is_fragment), transport.is_cut_off), transport.has_destination);
    all = mixed(mixed(mixed(all, transport.is_length_missing), transport.is_later_fragment), transport.hop_limit);
    all = mixed(mixed(all, transport.fragment_offset), transport.identification);
    all = mixed(mixed(all, transport.dont_fragment), transport.traffic_class);
    all = mixed_bytes(mixed_bytes(all, transport.source, 16), transport.destination, 16);
    all = mixed(mixed(all, udp_packet.header.source_port), udp_packet.header.checksum);
    all = mixed(mixed(all, udp_packet.payload_len), udp_packet.payload_len_source);
    all = mixed(mixed(all, tcp_packet.header.sequence_number), tcp_packet.header.flags);
    all = mixed(mixed(all, tcp_packet.options_len), tcp_packet.payload_len);
    all = mixed(mixed(all, icmpv4_packet.header.kind), icmpv4_packet.header.sequence_number);
    all = mixed(mixed(all, icmpv6_packet.header.kind), icmpv6_packet.header.sequence_number);
    all = mixed(mixed(all, option.value_count), option.values[0]);
    all = mixed(mixed(all, raw_option.value_offset), raw_option.value_len);
    all = mixed_bytes(mixed(all, reply_len), changed[0], sizeof changed[0]);
    all = mixed_bytes(mixed(all, written), translated, sizeof translated);
    all = mixed_bytes(all, joined, sizeof joined);
    return mixed_bytes(all, buffer, 8);
}

/* Whether both answer the same of a row's bytes. */
static int agree(int row)
{
    return answer(row, 0) == answer(row, 1);
}

/* Fills an IPv4 packet of UDP, from 192.0.2.33 to 198.51.100.7, and an IPv6 packet of the same length with these addresses embedded. */
static void fill_packets(uint8_t *over_4, uint8_t *over_6, size_t len)
{
    static const uint8_t front[20] = {0x45, 0, 0, 0, 0, 7, 0x40, 0, 64, 17, 0, 0, 192, 0, 2, 33, 198, 51, 100, 7};
    size_t i;
    for (i = 0; i < len; i++)
        over_4[i] = over_6[i] = (uint8_t)(i * 7);
    memcpy(over_4, front, sizeof front);
    over_4[2] = (uint8_t)(len >> 8);
    over_4[3] = (uint8_t)len;
    i = etherparse_sum_checksum(etherparse_sum_add(etherparse_sum_new(), over_4, sizeof front));
    over_4[10] = (uint8_t)(i >> 8);
    over_4[11] = (uint8_t)i;
    memset(over_6, 0, 40);
    over_6[0] = 0x60;
    over_6[4] = (uint8_t)((len - 40) >> 8);
    over_6[5] = (uint8_t)(len - 40);
    over_6[6] = 17;
    over_6[7] = 64;
    memcpy(over_6 + 8, host.address, 12);
    memcpy(over_6 + 20, front + 12, 4);
    memcpy(over_6 + 24, network.address, 12);
    memcpy(over_6 + 36, front + 16, 4);
}

/* Fills fragments of one packet from 192.168.1.1 to 192.168.1.2, of which the last number is the last fragment. */
static void fill_fragments(void)
{
    static const uint8_t front[20] = {0x45, 0, 0, 0, 0x1a, 0x2b, 0, 0, 64, 17, 0, 0, 192, 168, 1, 1, 192, 168, 1, 2};
    size_t number, i;
    for (number = 1; number <= FRAGMENTS; number++) {
        uint8_t *packet = fragments + (number - 1) * 1460;
        size_t offset = (number - 1) * 1440 / 8;
        for (i = 0; i < 1460; i++)
            packet[i] = (uint8_t)(i * 7 + number);
        memcpy(packet, front, sizeof front);
        packet[6] = (uint8_t)(offset >> 8);
        packet[7] = (uint8_t)offset;
        mark_last(number, number == FRAGMENTS);
        lens[number - 1] = 1460;
    }
}

int main(int argc, char **argv)
{
    static const uint8_t front[8] = {0, 21, 4, 210, 1508 / 256, 1508 % 256, 0x11, 0x22}, middle_front[8] = {0, 21, 4, 210, 0, 64, 0x77, 0x33};
    int row;
    memcpy(long_packet, front, sizeof front);
    memcpy(middle_packet, middle_front, sizeof middle_front);
    fill_packets(short_ipv4, short_ipv6, sizeof short_ipv4);
    fill_packets(long_ipv4, long_ipv6, sizeof long_ipv4);
    fill_fragments();
    for (row = 0; row < ROWS; row++) {
        if (argc == 3) {
            int is_plain = strncmp(argv[1], "plain ", 6) == 0;
            if (strcmp(argv[1] + (is_plain ? 6 : 0), rows[row].name) == 0)
                rows[row].calls(is_plain, atoi(argv[2]));
        } else if (!agree(row)) {
            printf("%s: the two don't agree\n", rows[row].name);
            return 1;
        } else if (argc == 2) {
            printf("%s\n", rows[row].name);
        } else {
            double of_library = measured(row, 0), of_plain = measured(row, 1);
            printf("%s\t%.2f\t%.2f\t%.2f\n", rows[row].name, of_library, of_plain, of_plain / of_library);
        }
    }
    return 0;
}
