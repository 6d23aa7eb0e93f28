/*
 * SPDX-FileCopyrightText: 2026 The etherparse_transport developers
 * SPDX-License-Identifier: MIT OR Apache-2.0
 *
 * Makes every call of the library, and compares what it answers with numbers that were worked out by hand and by another program.
 * It names each line that is wrong; the status is 0 where none is.
 *
 *     cc -std=c99 -I include examples/calls.c libetherparse_transport.a -o calls
 *     ./calls
 */
#include "etherparse_transport.h"

#include <stdio.h>
#include <string.h>

static int compared;
static int wrong;

/* Counts a comparison, and names its line where it fails. */
static void expect(int holds, int line)
{
    compared++;
    if (!holds) {
        printf("line %d\n", line);
        wrong = 1;
    }
}

#define EXPECT(condition) expect(condition, __LINE__)

/* Compares an answer with the status that is wanted, and that the error has it where the call refused. */
#define REFUSED(call, wanted) EXPECT((call) == (wanted) && error.status == (wanted))
#define OK(call) EXPECT((call) == ETHERPARSE_OK)

/* The same of a status without another field, whatever the error contained before. */
#define FILLED(call, wanted) (memset(&error, 0x77, sizeof error), EXPECT((call) == (wanted) && error_is_only(wanted)))

static const uint8_t source4[4] = {192, 168, 1, 1};
static const uint8_t destination4[4] = {192, 168, 1, 2};
static const uint8_t source6[16] = {0x20, 0x01, 0x0d, 0xb8, 0, 0, 0, 0, 0, 0, 0, 0, 0, 0, 0, 1};
static const uint8_t destination6[16] = {0x20, 0x01, 0x0d, 0xb8, 0, 0, 0, 0, 0, 0, 0, 0, 0, 0, 0, 2};
static const uint8_t none[1];

static etherparse_error error;
static uint8_t buffer[64];
static size_t written;
static uint16_t checksum;

/* Sets what calls write to what no call writes. */
static void clear(void)
{
    memset(&error, 0x77, sizeof error);
    memset(buffer, 0xee, sizeof buffer);
    written = 77;
    checksum = 0x7777;
}

/* Whether the buffer begins with these bytes, behind which nothing was written, and *written is their number; 77 of a refusal. */
static int holds(const uint8_t *expected, size_t len, size_t written_len)
{
    size_t i;
    if (memcmp(buffer, expected, len) != 0 || written != written_len)
        return 0;
    for (i = len; i < sizeof buffer; i++)
        if (buffer[i] != 0xee)
            return 0;
    return 1;
}

/* Whether the error is as clear left it. */
static int error_is_untouched(void)
{
    etherparse_error untouched;
    memset(&untouched, 0x77, sizeof untouched);
    return memcmp(&error, &untouched, sizeof error) == 0;
}

/* Whether the error contains this status, and 0 in every other field. */
static int error_is_only(etherparse_status status)
{
    return error.status == status && error.layer == 0 && error.len_source == 0 && error.value_type == 0 && error.data_offset == 0 &&
           error.option_kind == 0 && error.option_size == 0 && error.required_len == 0 && error.len == 0 &&
           error.layer_start_offset == 0 && error.actual == 0 && error.max_allowed == 0;
}

/* Whether the error has this text. */
static int error_has_text(const char *expected)
{
    char text[ETHERPARSE_ERROR_TEXT_MAX_LEN + 1];
    return etherparse_error_text(&error, text, sizeof text) == strlen(expected) && strcmp(text, expected) == 0;
}

/* Whether the bytes are those of a packet but for two of them, which hold this checksum. */
static int stores(const uint8_t *bytes, const uint8_t *packet, size_t len, size_t place, uint16_t stored)
{
    return memcmp(bytes, packet, place) == 0 && bytes[place] == stored >> 8 && bytes[place + 1] == (stored & 0xff) &&
           memcmp(bytes + place + 2, packet + place + 2, len - place - 2) == 0;
}

/* A UDP packet of 8 bytes over IPv4 with 4 bytes of options, and 2 bytes of padding; and one over IPv6 with a hop-by-hop header. */
static const uint8_t over_ipv4[34] = {0x46, 0, 0, 32, 0, 7, 0, 0, 64, 17, 0, 0, 192, 168, 1, 1, 192,
                                      168,  1, 2, 1,  1, 1, 1, 0, 21, 4,  210, 0, 8, 0, 0, 0xff, 0xff};
static const uint8_t over_ipv6[56] = {0x60, 0, 0, 0, 0, 16, 0, 64, 0x20, 0x01, 0x0d, 0xb8, 0,  0,  0, 0,   0, 0, 0,
                                      0,    0, 0, 0, 1, 0x20, 0x01, 0x0d, 0xb8, 0, 0, 0, 0, 0,  0,  0, 0,   0, 0,
                                      0,    2, 17, 0, 1, 4, 0, 0, 0, 0, 0, 21, 4, 210, 0, 8, 0, 0};

static void ip(void)
{
    static const uint8_t source[16] = {192, 168, 1, 1}, destination[16] = {192, 168, 1, 2};
    etherparse_ip_transport transport;
    uint8_t changed[34];
    clear();
    OK(etherparse_transport_in_ip(over_ipv4, 34, &transport, &error));
    EXPECT(transport.version == 4 && transport.protocol == ETHERPARSE_PROTOCOL_UDP && transport.is_fragment == 0);
    EXPECT(transport.payload_offset == 24 && transport.payload_len == 8 && transport.is_cut_off == 0);
    EXPECT(memcmp(transport.source, source, 16) == 0 && memcmp(transport.destination, destination, 16) == 0);
    EXPECT(transport.has_destination == 1 && transport.is_length_missing == 0 && error_is_untouched());
    EXPECT(transport.is_later_fragment == 0 && transport.hop_limit == 64);
    EXPECT(transport.identification == 7 && transport.fragment_offset == 0 && transport.dont_fragment == 0 && transport.traffic_class == 0);
    OK(etherparse_transport_in_ip(over_ipv6, 56, &transport, &error));
    EXPECT(transport.version == 6 && transport.protocol == ETHERPARSE_PROTOCOL_UDP && transport.has_destination == 1);
    EXPECT(transport.payload_offset == 48 && transport.payload_len == 8);
    EXPECT(memcmp(transport.source, source6, 16) == 0 && memcmp(transport.destination, destination6, 16) == 0);
    EXPECT(transport.identification == 0 && transport.fragment_offset == 0 && transport.dont_fragment == 0 && transport.traffic_class == 0);
    REFUSED(etherparse_transport_in_ip(over_ipv6, 55, &transport, &error), ETHERPARSE_STATUS_IP_PACKET_CUT_OFF);
    EXPECT(error.required_len == 56 && error.len == 55 && transport.payload_len == 8);
    OK(etherparse_transport_in_ip_lax(over_ipv6, 55, &transport, &error));
    EXPECT(transport.is_cut_off == 1 && transport.payload_offset == 48 && transport.payload_len == 7 && transport.is_length_missing == 0);
    REFUSED(etherparse_transport_in_ip_lax(over_ipv6, 47, &transport, &error), ETHERPARSE_STATUS_IP_EXTENSION_CUT_OFF);
    EXPECT(error.actual == 0 && error.layer_start_offset == 40);
    REFUSED(etherparse_transport_in_ip(over_ipv4, 0, &transport, &error), ETHERPARSE_STATUS_IP_HEADER_CUT_OFF);
    EXPECT(error.required_len == 1 && error.len == 0);
    REFUSED(etherparse_transport_in_ip(over_ipv4, 23, &transport, &error), ETHERPARSE_STATUS_IP_HEADER_CUT_OFF);
    EXPECT(error.required_len == 24 && error.len == 23);
    memcpy(changed, over_ipv4, 34);
    changed[6] = 0x20;
    OK(etherparse_transport_in_ip(changed, 34, &transport, &error));
    EXPECT(transport.is_fragment == 1 && transport.is_later_fragment == 0 && transport.fragment_offset == 0);
    changed[7] = 1;
    changed[8] = 3;
    OK(etherparse_transport_in_ip(changed, 34, &transport, &error));
    EXPECT(transport.is_fragment == 1 && transport.is_later_fragment == 1 && transport.hop_limit == 3);
    changed[3] = 23;
    REFUSED(etherparse_transport_in_ip(changed, 34, &transport, &error), ETHERPARSE_STATUS_IP_TOTAL_LENGTH);
    EXPECT(error.required_len == 24 && error.len == 23);
    changed[0] = 0x44;
    REFUSED(etherparse_transport_in_ip(changed, 34, &transport, &error), ETHERPARSE_STATUS_IP_HEADER_LENGTH);
    EXPECT(error.required_len == 20 && error.len == 16);
    changed[0] = 0x56;
    REFUSED(etherparse_transport_in_ip(changed, 34, &transport, &error), ETHERPARSE_STATUS_IP_VERSION);
    EXPECT(error.actual == 5);
    memcpy(changed, over_ipv4, 34);
    changed[3] = 0;
    REFUSED(etherparse_transport_in_ip(changed, 34, &transport, &error), ETHERPARSE_STATUS_IP_TOTAL_LENGTH);
    OK(etherparse_transport_in_ip_lax(changed, 34, &transport, &error));
    EXPECT(transport.payload_offset == 24 && transport.payload_len == 10 && transport.is_cut_off == 0);
    EXPECT(transport.is_length_missing == 1);
}

/* An IPv6 packet with hop-by-hop options that have a jumbo payload length, perhaps beside a payload length. */
static void jumbograms(void)
{
    etherparse_ip_transport transport;
    uint8_t packet[56];
    clear();
    memcpy(packet, over_ipv6, 56);
    packet[5] = 0;
    REFUSED(etherparse_transport_in_ip(packet, 56, &transport, &error), ETHERPARSE_STATUS_IP_JUMBO_PAYLOAD_MISSING);
    packet[42] = 0xc2;
    packet[45] = 1;
    REFUSED(etherparse_transport_in_ip(packet, 56, &transport, &error), ETHERPARSE_STATUS_IP_PACKET_CUT_OFF);
    EXPECT(error.required_len == 65576 && error.len == 56);
    OK(etherparse_transport_in_ip_lax(packet, 56, &transport, &error));
    EXPECT(transport.payload_offset == 48 && transport.payload_len == 8 && transport.is_cut_off == 1);
    packet[40] = 44;
    REFUSED(etherparse_transport_in_ip_lax(packet, 56, &transport, &error), ETHERPARSE_STATUS_IP_JUMBO_PAYLOAD_FRAGMENT);
    EXPECT(error.layer_start_offset == 48);
    packet[45] = 0;
    REFUSED(etherparse_transport_in_ip(packet, 56, &transport, &error), ETHERPARSE_STATUS_IP_JUMBO_PAYLOAD_LENGTH);
    EXPECT(error.required_len == 65536 && error.len == 0);
    packet[5] = 16;
    REFUSED(etherparse_transport_in_ip(packet, 56, &transport, &error), ETHERPARSE_STATUS_IP_JUMBO_PAYLOAD_UNEXPECTED);
    EXPECT(error.actual == 16);
}

/* A UDP packet from 192.168.1.1 to 192.168.1.2, and an ICMPv6 message behind a routing header of a type that is not known. */
static const uint8_t whole_ipv4[31] = {0x45, 0, 0, 31, 0, 7, 0, 0, 64, 17, 0, 0, 192, 168, 1, 1,
                                       192, 168, 1, 2, 0, 21, 4, 210, 0, 11, 0xb3, 0x3a, 'a', 'b', 'c'};
static const uint8_t routed_ipv6[56] = {0x60, 0, 0, 0, 0, 16, 43, 64, 0x20, 0x01, 0x0d, 0xb8, 0, 0,  0, 0, 0, 0,   0,
                                        0,    0, 0, 0, 1, 0x20, 0x01, 0x0d, 0xb8, 0,  0, 0,   0, 0,  0, 0, 0, 0,   0,
                                        0,    2, 58, 0, 99, 1, 0, 0, 0, 0, 128, 0, 0, 0, 0, 1, 0, 2};

/* Whether this is said of the packet: the protocol of the header, the verdict, and the expected checksum. */
static int is_judged(const etherparse_ip_packet *packet, uint32_t header_protocol, uint32_t verdict, uint16_t expected_checksum)
{
    return packet->header_protocol == header_protocol && packet->verdict == verdict && packet->expected_checksum == expected_checksum;
}

static void packet_verdict(void)
{
    etherparse_ip_packet packet;
    etherparse_ip_transport transport;
    uint8_t changed[31], untouched[sizeof packet];
    clear();
    OK(etherparse_packet_verdict(whole_ipv4, 31, &packet, &error));
    OK(etherparse_transport_in_ip(whole_ipv4, 31, &transport, &error));
    EXPECT(is_judged(&packet, ETHERPARSE_PROTOCOL_UDP, ETHERPARSE_VERDICT_RIGHT, 0) && error_is_untouched());
    EXPECT(memcmp(packet.transport.source, transport.source, 16) == 0 && packet.transport.has_destination == 1);
    EXPECT(memcmp(packet.transport.destination, transport.destination, 16) == 0 && packet.transport.version == 4);
    EXPECT(packet.transport.payload_offset == 20 && packet.transport.payload_len == 11 && packet.transport.protocol == 17);
    OK(etherparse_packet_verdict(over_ipv4, 34, &packet, &error));
    EXPECT(is_judged(&packet, ETHERPARSE_PROTOCOL_UDP, ETHERPARSE_VERDICT_ABSENT, 0));
    OK(etherparse_packet_verdict(over_ipv6, 56, &packet, &error));
    EXPECT(is_judged(&packet, ETHERPARSE_PROTOCOL_UDP, ETHERPARSE_VERDICT_WRONG, 0x9f82) && packet.transport.version == 6);
    OK(etherparse_packet_verdict(routed_ipv6, 56, &packet, &error));
    EXPECT(is_judged(&packet, ETHERPARSE_PROTOCOL_ICMPV6, ETHERPARSE_VERDICT_UNTESTED_UNKNOWN_DESTINATION, 0));
    EXPECT(packet.transport.has_destination == 0 && packet.transport.payload_offset == 48);
    memcpy(changed, whole_ipv4, 31);
    changed[26] = 0xb2;
    OK(etherparse_packet_verdict(changed, 31, &packet, &error));
    EXPECT(is_judged(&packet, ETHERPARSE_PROTOCOL_UDP, ETHERPARSE_VERDICT_WRONG, 0xb33a));
    changed[26] = 0x83;
    changed[27] = 0x70;
    OK(etherparse_packet_verdict(changed, 31, &packet, &error));
    EXPECT(is_judged(&packet, ETHERPARSE_PROTOCOL_UDP, ETHERPARSE_VERDICT_PARTIAL, 0xb33a));
    OK(etherparse_packet_verdict_lax(changed, 31, &packet, &error));
    EXPECT(is_judged(&packet, ETHERPARSE_PROTOCOL_UDP, ETHERPARSE_VERDICT_PARTIAL, 0xb33a));
    changed[25] = 0;
    OK(etherparse_packet_verdict(changed, 31, &packet, &error));
    EXPECT(is_judged(&packet, ETHERPARSE_PROTOCOL_UDP, ETHERPARSE_VERDICT_UNTESTED_ZERO_LENGTH, 0));
    changed[9] = ETHERPARSE_PROTOCOL_ICMPV6;
    OK(etherparse_packet_verdict(changed, 31, &packet, &error));
    EXPECT(is_judged(&packet, 0, ETHERPARSE_VERDICT_UNTESTED_OTHER_PROTOCOL, 0) && packet.transport.protocol == 58);
    changed[6] = 0x20;
    OK(etherparse_packet_verdict(changed, 31, &packet, &error));
    EXPECT(is_judged(&packet, 0, ETHERPARSE_VERDICT_UNTESTED_FRAGMENT, 0) && packet.transport.is_fragment == 1);
    OK(etherparse_packet_verdict_lax(whole_ipv4, 30, &packet, &error));
    EXPECT(is_judged(&packet, ETHERPARSE_PROTOCOL_UDP, ETHERPARSE_VERDICT_UNTESTED_CUT_OFF, 0) && packet.transport.payload_len == 10);
    memcpy(untouched, &packet, sizeof packet);
    REFUSED(etherparse_packet_verdict(whole_ipv4, 30, &packet, &error), ETHERPARSE_STATUS_IP_PACKET_CUT_OFF);
    REFUSED(etherparse_packet_verdict_lax(whole_ipv4, 27, &packet, &error), ETHERPARSE_STATUS_LENGTH);
    EXPECT(error.layer == ETHERPARSE_LAYER_UDP_HEADER && error.required_len == 8 && error.len == 7 && error.layer_start_offset == 20);
    memcpy(changed, whole_ipv4, 31);
    changed[9] = ETHERPARSE_PROTOCOL_TCP;
    REFUSED(etherparse_packet_verdict(changed, 31, &packet, &error), ETHERPARSE_STATUS_LENGTH);
    EXPECT(error.layer == ETHERPARSE_LAYER_TCP_HEADER && error.required_len == 20 && error.len == 11 && error.layer_start_offset == 20);
    EXPECT(memcmp(untouched, &packet, sizeof packet) == 0);
}

static void udp(void)
{
    static const uint8_t packet4[12] = {0x00, 0x15, 0x04, 0xd2, 0x00, 0x0b, 0xb3, 0x3a, 'a', 'b', 'c', 0};
    static const uint8_t packet6[11] = {0x00, 0x15, 0x04, 0xd2, 0x00, 0x0b, 0xdb, 0x19, 'a', 'b', 'c'};
    static const uint8_t unsummed[8] = {0, 1, 0, 2, 0, 8, 0, 0}, short_length[8] = {0, 1, 0, 2, 0, 7, 0, 0};
    etherparse_udp_header header = {21, 1234, 11, 0xb33a};
    etherparse_udp_packet packet;
    uint8_t changed[12];
    clear();
    OK(etherparse_udp_packet_read(packet4, 12, &packet, &error));
    EXPECT(memcmp(&packet.header, &header, sizeof header) == 0 && packet.payload_offset == 8 && packet.payload_len == 3);
    EXPECT(packet.payload_len_source == ETHERPARSE_LEN_SOURCE_UDP_HEADER_LEN && error_is_untouched());
    REFUSED(etherparse_udp_packet_read(packet4, 10, &packet, &error), ETHERPARSE_STATUS_LENGTH);
    EXPECT(error.layer == ETHERPARSE_LAYER_UDP_PAYLOAD && error.len_source == ETHERPARSE_LEN_SOURCE_SLICE);
    EXPECT(error.required_len == 11 && error.len == 10 && packet.payload_len == 3);
    EXPECT(error.value_type == 0 && error.actual == 0 && error.max_allowed == 0 && error.layer_start_offset == 0);
    REFUSED(etherparse_udp_packet_read(none, 0, &packet, &error), ETHERPARSE_STATUS_LENGTH);
    EXPECT(error.layer == ETHERPARSE_LAYER_UDP_HEADER && error.required_len == ETHERPARSE_UDP_HEADER_LEN && error.len == 0);
    REFUSED(etherparse_udp_packet_read(short_length, 8, &packet, &error), ETHERPARSE_STATUS_LENGTH);
    EXPECT(error.len == 7 && error.len_source == ETHERPARSE_LEN_SOURCE_UDP_HEADER_LEN);
    OK(etherparse_udp_packet_read_lax(packet4, 10, &packet, &error));
    EXPECT(packet.payload_len == 2 && packet.payload_len_source == ETHERPARSE_LEN_SOURCE_SLICE);
    REFUSED(etherparse_udp_header_write(&header, buffer, 7, &written, &error), ETHERPARSE_STATUS_BUFFER_TOO_SMALL);
    EXPECT(error.required_len == 8 && error.len == 7 && holds(none, 0, 77));
    OK(etherparse_udp_header_write(&header, buffer, sizeof buffer, &written, &error));
    EXPECT(holds(packet4, 8, ETHERPARSE_UDP_HEADER_LEN));
    OK(etherparse_udp_checksum_ipv4(packet4, 11, source4, destination4, &checksum, &error));
    EXPECT(checksum == 0xb33a);
    OK(etherparse_udp_checksum_ipv6(packet4, 11, source6, destination6, &checksum, &error));
    EXPECT(checksum == 0xdb19);
    clear();
    memcpy(changed, packet4, 12);
    OK(etherparse_udp_checksum_store_ipv6(changed, 12, source6, destination6, &error));
    EXPECT(stores(changed, packet4, 12, 6, 0xdb19));
    OK(etherparse_udp_checksum_store_ipv4(changed, 12, source4, destination4, &error));
    EXPECT(stores(changed, packet4, 12, 6, 0xb33a));
    changed[6] = 0;
    REFUSED(etherparse_udp_checksum_store_ipv4(changed, 10, source4, destination4, &error), ETHERPARSE_STATUS_LENGTH);
    REFUSED(etherparse_udp_checksum_store_ipv6(changed, 7, source6, destination6, &error), ETHERPARSE_STATUS_LENGTH);
    EXPECT(stores(changed, packet4, 12, 6, 0x003a));
    clear();
    OK(etherparse_udp_checksum_test_ipv4(packet4, 11, source4, destination4, &error));
    OK(etherparse_udp_checksum_test_ipv6(packet6, 11, source6, destination6, &error));
    EXPECT(error_is_untouched());
    FILLED(etherparse_udp_checksum_test_ipv4(packet4, 11, source4, source4, &error), ETHERPARSE_STATUS_CHECKSUM_WRONG);
    FILLED(etherparse_udp_checksum_test_ipv6(packet4, 11, source6, destination6, &error), ETHERPARSE_STATUS_CHECKSUM_WRONG);
    EXPECT(error_has_text("Checksum Error: the checksum is wrong."));
    FILLED(etherparse_udp_checksum_test_ipv4(unsummed, 8, source4, destination4, &error), ETHERPARSE_STATUS_CHECKSUM_ABSENT);
    FILLED(etherparse_udp_checksum_test_ipv6(unsummed, 8, source6, destination6, &error), ETHERPARSE_STATUS_CHECKSUM_ABSENT);
    EXPECT(error_has_text("Checksum Error: there is no checksum."));
}

/* A packet of 65,536 bytes, whose length field is 0: more than a pseudo header of IPv4 can count. */
static void udp_too_long(void)
{
    static uint8_t jumbogram[65536];
    clear();
    REFUSED(etherparse_udp_checksum_ipv4(jumbogram, sizeof jumbogram, source4, destination4, &checksum, &error),
            ETHERPARSE_STATUS_VALUE_TOO_BIG);
    EXPECT(error.value_type == ETHERPARSE_VALUE_UDP_PAYLOAD_LENGTH_IPV4 && error.actual == 65528 && error.max_allowed == 65527);
    EXPECT(checksum == 0x7777);
    REFUSED(etherparse_udp_checksum_store_ipv4(jumbogram, sizeof jumbogram, source4, destination4, &error),
            ETHERPARSE_STATUS_VALUE_TOO_BIG);
    EXPECT(jumbogram[6] == 0 && jumbogram[7] == 0);
    OK(etherparse_udp_checksum_ipv6(jumbogram, sizeof jumbogram, source6, destination6, &checksum, &error));
}

static const uint8_t syn[28] = {0xc3, 0x50, 0, 0x50, 0, 0, 0, 1,    0,    0, 0, 0, 0x70, 0x02,
                                0xff, 0xf0, 0x37, 0x39, 0, 0, 2, 4, 0x05, 0xb4, 3, 3, 7, 0};

static void tcp(void)
{
    etherparse_tcp_header header = {1, 0, 50000, 80, ETHERPARSE_TCP_SYN, 65520, 0x3739, 0};
    etherparse_tcp_packet packet;
    uint8_t options[41] = {0}, changed[28];
    clear();
    OK(etherparse_tcp_packet_read(syn, 28, &packet, &error));
    EXPECT(memcmp(&packet.header, &header, sizeof header) == 0 && error_is_untouched());
    EXPECT(packet.options_offset == 20 && packet.options_len == 8 && packet.payload_offset == 28 && packet.payload_len == 0);
    REFUSED(etherparse_tcp_packet_read(syn, 27, &packet, &error), ETHERPARSE_STATUS_LENGTH);
    EXPECT(error.layer == ETHERPARSE_LAYER_TCP_HEADER && error.required_len == 28 && error.len == 27);
    memcpy(changed, syn, 28);
    changed[12] = 0x40;
    REFUSED(etherparse_tcp_packet_read(changed, 28, &packet, &error), ETHERPARSE_STATUS_DATA_OFFSET);
    EXPECT(error.data_offset == 4);
    REFUSED(etherparse_tcp_header_write(&header, syn + 20, 7, buffer, 27, &written, &error), ETHERPARSE_STATUS_BUFFER_TOO_SMALL);
    EXPECT(error.required_len == 28 && holds(none, 0, 77));
    OK(etherparse_tcp_header_write(&header, syn + 20, 7, buffer, sizeof buffer, &written, &error));
    EXPECT(holds(syn, 28, 28));
    OK(etherparse_tcp_header_write(&header, none, 0, buffer, sizeof buffer, &written, &error));
    EXPECT(written == ETHERPARSE_TCP_MIN_HEADER_LEN);
    OK(etherparse_tcp_header_write(&header, options, ETHERPARSE_TCP_MAX_OPTIONS_LEN, buffer, sizeof buffer, &written, &error));
    EXPECT(written == ETHERPARSE_TCP_MAX_HEADER_LEN && buffer[12] == 0xf0);
    REFUSED(etherparse_tcp_header_write(&header, options, 41, buffer, 64, &written, &error), ETHERPARSE_STATUS_OPTIONS_TOO_LONG);
    EXPECT(error.required_len == ETHERPARSE_TCP_MAX_OPTIONS_LEN && error.len == 41);
    header.flags = 0x200;
    REFUSED(etherparse_tcp_header_write(&header, options, 0, buffer, 64, &written, &error), ETHERPARSE_STATUS_FLAGS_UNKNOWN);
    EXPECT(error.actual == 512 && error.max_allowed == ETHERPARSE_TCP_FLAGS);
    header.flags = ETHERPARSE_TCP_NS | ETHERPARSE_TCP_FIN;
    OK(etherparse_tcp_header_write(&header, options, 0, buffer, sizeof buffer, &written, &error));
    EXPECT(buffer[12] == 0x51 && buffer[13] == 0x01);
    memcpy(changed, syn, 28);
    changed[0] = 0;
    changed[12] |= 0x0e;
    header.flags = ETHERPARSE_TCP_SYN;
    OK(etherparse_tcp_header_store(&header, changed, 28, &error));
    EXPECT(memcmp(changed, syn, 28) == 0);
    header.source_port = 0;
    REFUSED(etherparse_tcp_header_store(&header, changed, 27, &error), ETHERPARSE_STATUS_LENGTH);
    header.flags = 0x200;
    REFUSED(etherparse_tcp_header_store(&header, changed, 28, &error), ETHERPARSE_STATUS_FLAGS_UNKNOWN);
    EXPECT(memcmp(changed, syn, 28) == 0);
    OK(etherparse_tcp_checksum_ipv4(syn, 28, source4, destination4, &checksum, &error));
    EXPECT(checksum == 0x3739);
    OK(etherparse_tcp_checksum_test_ipv4(syn, 28, source4, destination4, &error));
    FILLED(etherparse_tcp_checksum_test_ipv4(syn, 28, source4, source4, &error), ETHERPARSE_STATUS_CHECKSUM_WRONG);
    OK(etherparse_tcp_checksum_ipv6(syn, 28, source6, destination6, &checksum, &error));
    EXPECT(checksum == 0x5f18);
    FILLED(etherparse_tcp_checksum_test_ipv6(syn, 28, source6, destination6, &error), ETHERPARSE_STATUS_CHECKSUM_WRONG);
    memcpy(changed, syn, 28);
    changed[16] = 0x5f;
    changed[17] = 0x18;
    OK(etherparse_tcp_checksum_test_ipv6(changed, 28, source6, destination6, &error));
    OK(etherparse_tcp_checksum_store_ipv4(changed, 28, source4, destination4, &error));
    EXPECT(stores(changed, syn, 28, 16, 0x3739));
    OK(etherparse_tcp_checksum_store_ipv6(changed, 28, source6, destination6, &error));
    EXPECT(stores(changed, syn, 28, 16, 0x5f18));
    REFUSED(etherparse_tcp_checksum_store_ipv4(changed, 27, source4, destination4, &error), ETHERPARSE_STATUS_LENGTH);
    changed[12] = 0x40;
    REFUSED(etherparse_tcp_checksum_store_ipv6(changed, 28, source6, destination6, &error), ETHERPARSE_STATUS_DATA_OFFSET);
    changed[12] = syn[12];
    EXPECT(stores(changed, syn, 28, 16, 0x5f18));
}

static void tcp_options(void)
{
    static const uint8_t all[40] = {2, 4, 0x05, 0xb4, 4, 2, 8, 10, 0, 0, 0, 7, 0,    0,    0, 9, 1, 3, 3, 7,
                                    5, 18, 0, 0, 0, 1, 0, 0, 0, 2, 0, 0, 0, 3, 0xff, 0xff, 0xff, 0xff, 0, 0};
    static const etherparse_tcp_option list[6] = {{2, 1, {1460, 0, 0, 0, 0, 0, 0, 0}}, {4, 0, {0, 0, 0, 0, 0, 0, 0, 0}},
                                                  {8, 2, {7, 9, 0, 0, 0, 0, 0, 0}},    {1, 0, {0, 0, 0, 0, 0, 0, 0, 0}},
                                                  {3, 1, {7, 0, 0, 0, 0, 0, 0, 0}},    {5, 4, {1, 2, 3, 0xffffffff, 0, 0, 0, 0}}};
    static const size_t places[6] = {4, 6, 16, 17, 20, 38};
    static const uint8_t cut_off[3] = {2, 4, 5}, wrong_size[4] = {2, 3, 5, 0}, unknown[2] = {6, 2};
    etherparse_tcp_option option, many[40];
    size_t place = 0, i;
    clear();
    for (i = 0; i < 6; i++) {
        OK(etherparse_tcp_option_next(all, 40, &place, &option, &error));
        EXPECT(memcmp(&option, &list[i], sizeof option) == 0 && place == places[i]);
    }
    EXPECT(error_is_untouched());
    FILLED(etherparse_tcp_option_next(all, 40, &place, &option, &error), ETHERPARSE_STATUS_OPTIONS_END);
    EXPECT(place == 40 && error_has_text("Option Error: no option is left."));
    place = SIZE_MAX;
    FILLED(etherparse_tcp_option_next(all, 40, &place, &option, &error), ETHERPARSE_STATUS_OPTIONS_END);
    EXPECT(place == 40 && option.kind == ETHERPARSE_TCP_OPTION_SACK);
    place = 0;
    REFUSED(etherparse_tcp_option_next(cut_off, 3, &place, &option, &error), ETHERPARSE_STATUS_OPTION_CUT_OFF);
    EXPECT(place == 3 && error.option_kind == ETHERPARSE_TCP_OPTION_MAXIMUM_SEGMENT_SIZE && error.required_len == 4 && error.len == 3);
    place = 0;
    REFUSED(etherparse_tcp_option_next(wrong_size, 4, &place, &option, &error), ETHERPARSE_STATUS_OPTION_SIZE);
    EXPECT(place == 4 && error.option_kind == 2 && error.option_size == 3);
    place = 0;
    REFUSED(etherparse_tcp_option_next(unknown, 2, &place, &option, &error), ETHERPARSE_STATUS_OPTION_UNKNOWN);
    EXPECT(place == 2 && error.option_kind == 6);
    clear();
    REFUSED(etherparse_tcp_options_write(list, 6, buffer, 39, &written, &error), ETHERPARSE_STATUS_BUFFER_TOO_SMALL);
    EXPECT(error.required_len == 40 && holds(none, 0, 77));
    OK(etherparse_tcp_options_write(list, 6, buffer, sizeof buffer, &written, &error));
    EXPECT(holds(all, 40, 40));
    OK(etherparse_tcp_options_write(list, 0, buffer, 0, &written, &error));
    EXPECT(written == 0);
    memset(many, 0, sizeof many);
    REFUSED(etherparse_tcp_options_write(many, 1, buffer, 64, &written, &error), ETHERPARSE_STATUS_OPTION_UNKNOWN);
    EXPECT(error.option_kind == 0);
    for (i = 0; i < 40; i++)
        many[i].kind = ETHERPARSE_TCP_OPTION_NOOP;
    OK(etherparse_tcp_options_write(many, 40, buffer, sizeof buffer, &written, &error));
    many[0].value_count = 1;
    REFUSED(etherparse_tcp_options_write(many, 1, buffer, 64, &written, &error), ETHERPARSE_STATUS_OPTION_VALUES);
    EXPECT(error.option_kind == ETHERPARSE_TCP_OPTION_NOOP);
    many[0].kind = ETHERPARSE_TCP_OPTION_WINDOW_SCALE;
    many[0].values[0] = 256;
    REFUSED(etherparse_tcp_options_write(many, 1, buffer, 64, &written, &error), ETHERPARSE_STATUS_OPTION_VALUES);
}

/* Options of more than 40 bytes are refused with the number of their bytes, however many they are, unless one is no option. */
static void too_many_tcp_options(void)
{
    static const etherparse_tcp_option noop = {1, 0, {0, 0, 0, 0, 0, 0, 0, 0}}, timestamp = {8, 2, {7, 9, 0, 0, 0, 0, 0, 0}};
    static const etherparse_tcp_option unknown = {6, 0, {0, 0, 0, 0, 0, 0, 0, 0}}, long_noop = {1, 1, {0, 0, 0, 0, 0, 0, 0, 0}};
    /* Options of 4, 3, 2, 10, 18, 26, 34 and 10 bytes. */
    static const etherparse_tcp_option each[8] = {{2, 1, {1460, 0, 0, 0, 0, 0, 0, 0}}, {3, 1, {7, 0, 0, 0, 0, 0, 0, 0}},
                                                  {4, 0, {0, 0, 0, 0, 0, 0, 0, 0}},    {5, 2, {1, 2, 0, 0, 0, 0, 0, 0}},
                                                  {5, 4, {1, 2, 3, 4, 0, 0, 0, 0}},    {5, 6, {1, 2, 3, 4, 5, 6, 0, 0}},
                                                  {5, 8, {1, 2, 3, 4, 5, 6, 7, 8}},    {8, 2, {7, 9, 0, 0, 0, 0, 0, 0}}};
    etherparse_tcp_option many[48];
    size_t i;
    clear();
    for (i = 0; i < 48; i++)
        many[i] = noop;
    REFUSED(etherparse_tcp_options_write(many, 41, buffer, 64, &written, &error), ETHERPARSE_STATUS_OPTIONS_TOO_LONG);
    EXPECT(error.len == 41 && error.required_len == 40);
    EXPECT(error_has_text("TcpOptionWriteError: Not enough memory to store all options in the options section of a tcp header "
                          "(maximum 40 bytes can be stored, the options would have needed 41 bytes)."));
    for (i = 0; i < 48; i++)
        many[i] = timestamp;
    REFUSED(etherparse_tcp_options_write(many, 5, buffer, 64, &written, &error), ETHERPARSE_STATUS_OPTIONS_TOO_LONG);
    EXPECT(error.len == 50 && error.required_len == 40);
    REFUSED(etherparse_tcp_options_write(many, 41, buffer, 64, &written, &error), ETHERPARSE_STATUS_OPTIONS_TOO_LONG);
    EXPECT(error.len == 410 && error.required_len == 40);
    many[40] = unknown;
    REFUSED(etherparse_tcp_options_write(many, 41, buffer, 64, &written, &error), ETHERPARSE_STATUS_OPTION_UNKNOWN);
    EXPECT(error.option_kind == 6 && error.len == 0 && error.required_len == 0);
    many[39] = long_noop;
    REFUSED(etherparse_tcp_options_write(many, 41, buffer, 64, &written, &error), ETHERPARSE_STATUS_OPTION_VALUES);
    EXPECT(error.option_kind == ETHERPARSE_TCP_OPTION_NOOP && error.len == 0 && error.required_len == 0);
    for (i = 0; i < 48; i++)
        many[i] = each[i % 8];
    REFUSED(etherparse_tcp_options_write(many, 48, buffer, 64, &written, &error), ETHERPARSE_STATUS_OPTIONS_TOO_LONG);
    EXPECT(error.len == 6 * 107 && error.required_len == 40);
    EXPECT(holds(none, 0, 77));
}

static void tcp_raw_options(void)
{
    /* A user timeout (RFC 5482), which is no kind of the other cursor, between two that are. */
    static const uint8_t bytes[11] = {1, 28, 4, 0x80, 0x0a, 3, 3, 7, 0, 9, 9};
    static const uint8_t wrong_size[2] = {28, 1}, cut_off[3] = {28, 4, 0}, alone[1] = {28};
    etherparse_tcp_raw_option option;
    size_t place = 0;
    clear();
    OK(etherparse_tcp_raw_option_next(bytes, 11, &place, &option, &error));
    EXPECT(place == 1 && option.kind == ETHERPARSE_TCP_OPTION_NOOP && option.value_len == 0);
    OK(etherparse_tcp_raw_option_next(bytes, 11, &place, &option, &error));
    EXPECT(place == 5 && option.kind == 28 && option.value_offset == 3 && option.value_len == 2);
    OK(etherparse_tcp_raw_option_next(bytes, 11, &place, &option, &error));
    EXPECT(place == 8 && option.kind == ETHERPARSE_TCP_OPTION_WINDOW_SCALE && option.value_offset == 7 && option.value_len == 1);
    EXPECT(error_is_untouched());
    FILLED(etherparse_tcp_raw_option_next(bytes, 11, &place, &option, &error), ETHERPARSE_STATUS_OPTIONS_END);
    EXPECT(place == 11 && option.kind == ETHERPARSE_TCP_OPTION_WINDOW_SCALE);
    place = 0;
    REFUSED(etherparse_tcp_raw_option_next(wrong_size, 2, &place, &option, &error), ETHERPARSE_STATUS_OPTION_SIZE);
    EXPECT(place == 2 && error.option_kind == 28 && error.option_size == 1);
    place = 0;
    REFUSED(etherparse_tcp_raw_option_next(cut_off, 3, &place, &option, &error), ETHERPARSE_STATUS_OPTION_CUT_OFF);
    EXPECT(place == 3 && error.required_len == 4 && error.len == 3);
    place = 0;
    REFUSED(etherparse_tcp_raw_option_next(alone, 1, &place, &option, &error), ETHERPARSE_STATUS_OPTION_CUT_OFF);
    EXPECT(place == 1 && error.required_len == 2 && error.len == 1);
}

static const uint8_t ping4[12] = {8, 0, 0x19, 0x2c, 0, 1, 0, 2, 'p', 'i', 'n', 'g'};

static void icmpv4(void)
{
    static const uint8_t timestamp[20] = {13, 0, 0xf2, 0xe6, 0, 3, 0, 4, 0, 0, 0, 5, 0, 0, 0, 6, 0, 0, 0, 7};
    static const uint8_t other[8] = {200, 3, 0x12, 0x34, 1, 2, 3, 4}, needed[8] = {3, 4, 0, 0, 0, 0, 0x05, 0x78};
    static const uint8_t redirect[8] = {5, 1, 0, 0, 192, 0, 2, 1}, problem[8] = {12, 0, 0, 0, 9, 0, 0, 0};
    etherparse_icmpv4_packet packet;
    etherparse_icmpv4_header header;
    uint8_t changed[12];
    clear();
    OK(etherparse_icmpv4_packet_read(ping4, 12, &packet, &error));
    EXPECT(packet.header.kind == ETHERPARSE_ICMPV4_KIND_ECHO_REQUEST && packet.header.code == 0);
    EXPECT(packet.header.type == ETHERPARSE_ICMPV4_TYPE_ECHO_REQUEST && ETHERPARSE_ICMPV4_TYPE_ECHO_REQUEST == 8);
    EXPECT(packet.header.id == 1 && packet.header.sequence_number == 2 && packet.header.checksum == 0x192c);
    EXPECT(packet.payload_offset == ETHERPARSE_ICMPV4_HEADER_LEN && packet.payload_len == 4 && packet.header.bytes4to7[3] == 2);
    EXPECT(packet.header.next_hop_mtu == 0 && packet.header.pointer == 0 && packet.header.transmit_timestamp == 0);
    OK(etherparse_icmpv4_header_write(&packet.header, buffer, sizeof buffer, &written, &error));
    EXPECT(holds(ping4, 8, 8));
    clear();
    OK(etherparse_icmpv4_packet_read(timestamp, 20, &packet, &error));
    EXPECT(packet.header.kind == ETHERPARSE_ICMPV4_KIND_TIMESTAMP_REQUEST && packet.header.originate_timestamp == 5);
    EXPECT(packet.header.receive_timestamp == 6 && packet.header.transmit_timestamp == 7 && packet.payload_len == 0);
    OK(etherparse_icmpv4_header_write(&packet.header, buffer, sizeof buffer, &written, &error));
    EXPECT(holds(timestamp, 20, ETHERPARSE_ICMPV4_TIMESTAMP_LEN));
    REFUSED(etherparse_icmpv4_packet_read(timestamp, 19, &packet, &error), ETHERPARSE_STATUS_LENGTH);
    EXPECT(error.layer == ETHERPARSE_LAYER_ICMPV4_TIMESTAMP && error.required_len == 20 && error.len == 19);
    REFUSED(etherparse_icmpv4_packet_read(ping4, 7, &packet, &error), ETHERPARSE_STATUS_LENGTH);
    EXPECT(error.layer == ETHERPARSE_LAYER_ICMPV4 && error.required_len == 8 && error.len == 7);
    clear();
    OK(etherparse_icmpv4_packet_read(other, 8, &packet, &error));
    EXPECT(packet.header.kind == ETHERPARSE_ICMPV4_KIND_UNKNOWN);
    OK(etherparse_icmpv4_header_write(&packet.header, buffer, sizeof buffer, &written, &error));
    EXPECT(holds(other, 8, 8));
    memset(&header, 0, sizeof header);
    header.kind = ETHERPARSE_ICMPV4_KIND_DESTINATION_UNREACHABLE;
    header.code = ETHERPARSE_ICMPV4_CODE_FRAGMENTATION_NEEDED;
    header.next_hop_mtu = 1400;
    OK(etherparse_icmpv4_header_write(&header, buffer, sizeof buffer, &written, &error));
    EXPECT(holds(needed, 8, 8));
    header.kind = ETHERPARSE_ICMPV4_KIND_REDIRECT;
    header.code = ETHERPARSE_ICMPV4_CODE_REDIRECT_HOST;
    memcpy(header.bytes4to7, redirect + 4, 4);
    OK(etherparse_icmpv4_header_write(&header, buffer, sizeof buffer, &written, &error));
    EXPECT(holds(redirect, 8, 8));
    header.kind = ETHERPARSE_ICMPV4_KIND_PARAMETER_PROBLEM;
    header.code = ETHERPARSE_ICMPV4_CODE_POINTER_INDICATES_ERROR;
    header.pointer = 9;
    OK(etherparse_icmpv4_header_write(&header, buffer, sizeof buffer, &written, &error));
    EXPECT(holds(problem, 8, 8));
    header.code = 3;
    REFUSED(etherparse_icmpv4_header_write(&header, buffer, 64, &written, &error), ETHERPARSE_STATUS_MESSAGE_UNKNOWN);
    header.kind = 9;
    REFUSED(etherparse_icmpv4_header_write(&header, buffer, 64, &written, &error), ETHERPARSE_STATUS_MESSAGE_UNKNOWN);
    OK(etherparse_icmpv4_checksum(ping4, 12, &checksum, &error));
    EXPECT(checksum == 0x192c);
    OK(etherparse_icmpv4_checksum_test(ping4, 12, &error));
    FILLED(etherparse_icmpv4_checksum_test(ping4, 11, &error), ETHERPARSE_STATUS_CHECKSUM_WRONG);
    memcpy(changed, ping4, 12);
    changed[2] = 0;
    REFUSED(etherparse_icmpv4_checksum_store(changed, 7, &error), ETHERPARSE_STATUS_LENGTH);
    EXPECT(stores(changed, ping4, 12, 2, 0x002c));
    OK(etherparse_icmpv4_checksum_store(changed, 12, &error));
    EXPECT(stores(changed, ping4, 12, 2, 0x192c));
}

static void icmpv6(void)
{
    static const uint8_t ping6[12] = {128, 0, 0x45, 0x70, 0, 1, 0, 2, 'p', 'i', 'n', 'g'};
    static const uint8_t router[16] = {134, 0, 0xd6, 0xb7, 64, 0x80, 0x07, 0x08, 0, 0, 0, 0, 0, 0, 0, 0};
    static const uint8_t neighbor[8] = {136, 0, 0, 0, 0xe0, 0, 0, 0}, too_big[8] = {2, 0, 0, 0, 0, 0, 0x05, 0x00};
    etherparse_icmpv6_packet packet;
    etherparse_icmpv6_header header;
    uint8_t changed[12];
    clear();
    OK(etherparse_icmpv6_packet_read(ping6, 12, &packet, &error));
    EXPECT(packet.header.kind == ETHERPARSE_ICMPV6_KIND_ECHO_REQUEST && packet.header.id == 1);
    EXPECT(packet.header.type == ETHERPARSE_ICMPV6_TYPE_ECHO_REQUEST && ETHERPARSE_ICMPV6_TYPE_ECHO_REQUEST == 128);
    EXPECT(packet.header.sequence_number == 2 && packet.payload_offset == ETHERPARSE_ICMPV6_HEADER_LEN && packet.payload_len == 4);
    OK(etherparse_icmpv6_header_write(&packet.header, buffer, sizeof buffer, &written, &error));
    EXPECT(holds(ping6, 8, 8));
    OK(etherparse_icmpv6_packet_read(router, 16, &packet, &error));
    EXPECT(packet.header.kind == ETHERPARSE_ICMPV6_KIND_ROUTER_ADVERTISEMENT && packet.header.cur_hop_limit == 64);
    EXPECT(packet.header.flags == ETHERPARSE_ICMPV6_ROUTER_MANAGED && packet.header.router_lifetime == 1800);
    clear();
    OK(etherparse_icmpv6_header_write(&packet.header, buffer, sizeof buffer, &written, &error));
    EXPECT(holds(router, 8, 8));
    REFUSED(etherparse_icmpv6_packet_read(ping6, 7, &packet, &error), ETHERPARSE_STATUS_LENGTH);
    EXPECT(error.layer == ETHERPARSE_LAYER_ICMPV6 && error.required_len == 8 && error.len == 7);
    memset(&header, 0, sizeof header);
    header.kind = ETHERPARSE_ICMPV6_KIND_NEIGHBOR_ADVERTISEMENT;
    header.flags = ETHERPARSE_ICMPV6_NEIGHBOR_ROUTER | ETHERPARSE_ICMPV6_NEIGHBOR_SOLICITED | ETHERPARSE_ICMPV6_NEIGHBOR_OVERRIDE;
    OK(etherparse_icmpv6_header_write(&header, buffer, sizeof buffer, &written, &error));
    EXPECT(holds(neighbor, 8, 8));
    header.kind = ETHERPARSE_ICMPV6_KIND_PACKET_TOO_BIG;
    header.mtu = 1280;
    OK(etherparse_icmpv6_header_write(&header, buffer, sizeof buffer, &written, &error));
    EXPECT(holds(too_big, 8, 8));
    header.kind = ETHERPARSE_ICMPV6_KIND_DESTINATION_UNREACHABLE;
    header.code = 7;
    REFUSED(etherparse_icmpv6_header_write(&header, buffer, 64, &written, &error), ETHERPARSE_STATUS_MESSAGE_UNKNOWN);
    header.kind = 12;
    REFUSED(etherparse_icmpv6_header_write(&header, buffer, 64, &written, &error), ETHERPARSE_STATUS_MESSAGE_UNKNOWN);
    OK(etherparse_icmpv6_checksum(ping6, 12, source6, destination6, &checksum, &error));
    EXPECT(checksum == 0x4570);
    OK(etherparse_icmpv6_checksum(router, 16, source6, destination6, &checksum, &error));
    EXPECT(checksum == 0xd6b7);
    OK(etherparse_icmpv6_checksum_test(ping6, 12, source6, destination6, &error));
    FILLED(etherparse_icmpv6_checksum_test(ping6, 12, source6, source6, &error), ETHERPARSE_STATUS_CHECKSUM_WRONG);
    memcpy(changed, ping6, 12);
    changed[2] = 0;
    REFUSED(etherparse_icmpv6_checksum_store(changed, 7, source6, destination6, &error), ETHERPARSE_STATUS_LENGTH);
    EXPECT(stores(changed, ping6, 12, 2, 0x0070));
    OK(etherparse_icmpv6_checksum_store(changed, 12, source6, destination6, &error));
    EXPECT(stores(changed, ping6, 12, 2, 0x4570));
}

/* The packet that an ICMP error is about, with and without the length field of RFC 4884, which counts at least 128 bytes, in units of 4 and
 * of 8 bytes. */
static void quoted(void)
{
    static const uint8_t unused[14] = {11, 0, 0, 0, 0, 0, 0, 0, 0x45, 0, 0, 32, 0, 7};
    static const uint8_t below[14] = {3, 1, 0, 0, 0, 1, 0, 0, 0x45, 0, 0, 32, 0xee, 0xee};
    static const uint8_t counted[140] = {3, 1, 0, 0, 0, 32, 0, 0, 0x45, 0, 0, 32};
    static const uint8_t counted6[140] = {1, 0, 0, 0, 16, 0, 0, 0, 0x60, 0, 0, 0, 0, 12, 58, 9};
    static const uint8_t ping[8] = {128};
    size_t offset = 0;
    clear();
    OK(etherparse_icmpv4_quoted_packet(unused, 14, &offset, &written, &error));
    EXPECT(offset == 8 && written == 6);
    OK(etherparse_icmpv4_quoted_packet(below, 14, &offset, &written, &error));
    EXPECT(offset == 8 && written == 6);
    OK(etherparse_icmpv4_quoted_packet(counted, 140, &offset, &written, &error));
    EXPECT(offset == 8 && written == 128);
    OK(etherparse_icmpv4_quoted_packet(unused, 8, &offset, &written, &error));
    EXPECT(offset == 8 && written == 0);
    OK(etherparse_icmpv6_quoted_packet(counted6, 140, &offset, &written, &error));
    EXPECT(offset == 8 && written == 128);
    OK(etherparse_icmpv6_quoted_packet(unused, 14, &offset, &written, &error));
    EXPECT(offset == 8 && written == 6);
    OK(etherparse_icmpv6_quoted_packet(counted, 14, &offset, &written, &error));
    EXPECT(offset == 8 && written == 6 && error_is_untouched());
    offset = written = 77;
    REFUSED(etherparse_icmpv4_quoted_packet(counted6, 18, &offset, &written, &error), ETHERPARSE_STATUS_NO_ICMP_ERROR);
    REFUSED(etherparse_icmpv6_quoted_packet(ping, 8, &offset, &written, &error), ETHERPARSE_STATUS_NO_ICMP_ERROR);
    REFUSED(etherparse_icmpv4_quoted_packet(unused, 7, &offset, &written, &error), ETHERPARSE_STATUS_LENGTH);
    REFUSED(etherparse_icmpv6_quoted_packet(counted6, 7, &offset, &written, &error), ETHERPARSE_STATUS_LENGTH);
    EXPECT(error.layer == ETHERPARSE_LAYER_ICMPV6 && error.required_len == 8 && error.len == 7);
    EXPECT(offset == 77 && written == 77);
}

/* The last code of each type with a kind. A message with the code after it has the kind 0. */
static void kinds_of_types(void)
{
    static const uint32_t icmpv4_rows[][3] = {
        {ETHERPARSE_ICMPV4_KIND_ECHO_REPLY, ETHERPARSE_ICMPV4_TYPE_ECHO_REPLY, 0},
        {ETHERPARSE_ICMPV4_KIND_DESTINATION_UNREACHABLE, ETHERPARSE_ICMPV4_TYPE_DESTINATION_UNREACHABLE,
         ETHERPARSE_ICMPV4_CODE_PRECEDENCE_CUTOFF},
        {ETHERPARSE_ICMPV4_KIND_REDIRECT, ETHERPARSE_ICMPV4_TYPE_REDIRECT, ETHERPARSE_ICMPV4_CODE_REDIRECT_HOST_FOR_SERVICE},
        {ETHERPARSE_ICMPV4_KIND_ECHO_REQUEST, ETHERPARSE_ICMPV4_TYPE_ECHO_REQUEST, 0},
        {ETHERPARSE_ICMPV4_KIND_TIME_EXCEEDED, ETHERPARSE_ICMPV4_TYPE_TIME_EXCEEDED, ETHERPARSE_ICMPV4_CODE_REASSEMBLY_TIME_EXCEEDED},
        {ETHERPARSE_ICMPV4_KIND_PARAMETER_PROBLEM, ETHERPARSE_ICMPV4_TYPE_PARAMETER_PROBLEM, ETHERPARSE_ICMPV4_CODE_BAD_LENGTH},
        {ETHERPARSE_ICMPV4_KIND_TIMESTAMP_REQUEST, ETHERPARSE_ICMPV4_TYPE_TIMESTAMP_REQUEST, 0},
        {ETHERPARSE_ICMPV4_KIND_TIMESTAMP_REPLY, ETHERPARSE_ICMPV4_TYPE_TIMESTAMP_REPLY, 0}};
    static const uint32_t icmpv6_rows[][3] = {
        {ETHERPARSE_ICMPV6_KIND_DESTINATION_UNREACHABLE, ETHERPARSE_ICMPV6_TYPE_DESTINATION_UNREACHABLE,
         ETHERPARSE_ICMPV6_CODE_REJECT_ROUTE},
        {ETHERPARSE_ICMPV6_KIND_PACKET_TOO_BIG, ETHERPARSE_ICMPV6_TYPE_PACKET_TOO_BIG, 0},
        {ETHERPARSE_ICMPV6_KIND_TIME_EXCEEDED, ETHERPARSE_ICMPV6_TYPE_TIME_EXCEEDED, ETHERPARSE_ICMPV6_CODE_REASSEMBLY_TIME_EXCEEDED},
        {ETHERPARSE_ICMPV6_KIND_PARAMETER_PROBLEM, ETHERPARSE_ICMPV6_TYPE_PARAMETER_PROBLEM, ETHERPARSE_ICMPV6_CODE_OPTION_TOO_BIG},
        {ETHERPARSE_ICMPV6_KIND_ECHO_REQUEST, ETHERPARSE_ICMPV6_TYPE_ECHO_REQUEST, 0},
        {ETHERPARSE_ICMPV6_KIND_ECHO_REPLY, ETHERPARSE_ICMPV6_TYPE_ECHO_REPLY, 0},
        {ETHERPARSE_ICMPV6_KIND_ROUTER_SOLICITATION, ETHERPARSE_ICMPV6_TYPE_ROUTER_SOLICITATION, 0},
        {ETHERPARSE_ICMPV6_KIND_ROUTER_ADVERTISEMENT, ETHERPARSE_ICMPV6_TYPE_ROUTER_ADVERTISEMENT, 0},
        {ETHERPARSE_ICMPV6_KIND_NEIGHBOR_SOLICITATION, ETHERPARSE_ICMPV6_TYPE_NEIGHBOR_SOLICITATION, 0},
        {ETHERPARSE_ICMPV6_KIND_NEIGHBOR_ADVERTISEMENT, ETHERPARSE_ICMPV6_TYPE_NEIGHBOR_ADVERTISEMENT, 0},
        {ETHERPARSE_ICMPV6_KIND_REDIRECT, ETHERPARSE_ICMPV6_TYPE_REDIRECT, 0}};
    etherparse_icmpv4_packet icmpv4_packet;
    etherparse_icmpv6_packet icmpv6_packet;
    uint8_t message[ETHERPARSE_ICMPV4_TIMESTAMP_LEN] = {0};
    size_t row;
    uint32_t code;
    for (row = 0; row < sizeof icmpv4_rows / sizeof icmpv4_rows[0]; row++)
        for (code = 0; code <= icmpv4_rows[row][2] + 1; code++) {
            message[0] = (uint8_t)icmpv4_rows[row][1];
            message[1] = (uint8_t)code;
            OK(etherparse_icmpv4_packet_read(message, sizeof message, &icmpv4_packet, NULL));
            EXPECT(icmpv4_packet.header.kind == (code <= icmpv4_rows[row][2] ? icmpv4_rows[row][0] : ETHERPARSE_ICMPV4_KIND_UNKNOWN));
        }
    for (row = 0; row < sizeof icmpv6_rows / sizeof icmpv6_rows[0]; row++)
        for (code = 0; code <= icmpv6_rows[row][2] + 1; code++) {
            message[0] = (uint8_t)icmpv6_rows[row][1];
            message[1] = (uint8_t)code;
            OK(etherparse_icmpv6_packet_read(message, sizeof message, &icmpv6_packet, NULL));
            EXPECT(icmpv6_packet.header.kind == (code <= icmpv6_rows[row][2] ? icmpv6_rows[row][0] : ETHERPARSE_ICMPV6_KIND_UNKNOWN));
        }
}

/* The addresses of a header itself: a source route leads to 10.0.0.3, and a routing header of IPv6 leads to another address too. */
static void addresses(void)
{
    static const uint8_t routed[28] = {0x47, 0, 0, 28, 0, 0, 0, 0, 64, 17, 0, 0, 10, 0, 0, 1, 10, 0, 0, 2, 131, 7, 4, 10, 0, 0, 3, 0};
    static const uint8_t source[16] = {10, 0, 0, 1}, destination[16] = {10, 0, 0, 2}, last[16] = {10, 0, 0, 3};
    etherparse_ip_addresses found;
    etherparse_ip_transport transport;
    clear();
    memset(&found, 0x77, sizeof found);
    OK(etherparse_ip_header_addresses(routed, 28, &found, &error));
    EXPECT(found.version == 4 && memcmp(found.source, source, 16) == 0 && memcmp(found.destination, destination, 16) == 0);
    OK(etherparse_transport_in_ip(routed, 28, &transport, &error));
    EXPECT(memcmp(transport.source, source, 16) == 0 && memcmp(transport.destination, last, 16) == 0);
    OK(etherparse_ip_header_addresses(over_ipv6, 40, &found, &error));
    EXPECT(found.version == 6 && memcmp(found.source, source6, 16) == 0 && memcmp(found.destination, destination6, 16) == 0);
    EXPECT(error_is_untouched());
    REFUSED(etherparse_ip_header_addresses(over_ipv6, 39, &found, &error), ETHERPARSE_STATUS_IP_HEADER_CUT_OFF);
    EXPECT(error.required_len == 40 && error.len == 39 && found.version == 6);
    REFUSED(etherparse_ip_header_addresses(routed, 27, &found, &error), ETHERPARSE_STATUS_IP_HEADER_CUT_OFF);
    EXPECT(error.required_len == 28 && error.len == 27);
    REFUSED(etherparse_ip_header_addresses(routed + 1, 27, &found, &error), ETHERPARSE_STATUS_IP_VERSION);
    EXPECT(error.actual == 0 && found.version == 6 && memcmp(found.source, source6, 16) == 0);
}

/* The fields of headers that tell fragments apart: of IPv4, and of IPv6 with hop-by-hop options before the fragment header. */
static void fragments(void)
{
    static const uint8_t ipv4[20] = {0x45, 0xb9, 0, 20, 0xab, 0xcd, 0x5f, 0xff, 9, 17, 0, 0, 10, 0, 0, 1, 10, 0, 0, 2};
    uint8_t ipv6[64] = {0x6b, 0x91, 0x23, 0x45, 0, 24, 0, 64};
    static const uint8_t extensions[16] = {44, 0, 1, 4, 0, 0, 0, 0, 17, 0, 0, 9, 0xde, 0xad, 0xbe, 0xef};
    etherparse_ip_transport transport;
    clear();
    OK(etherparse_transport_in_ip(ipv4, 20, &transport, &error));
    EXPECT(transport.traffic_class == 0xb9 && transport.identification == 0xabcd && transport.dont_fragment == 1);
    EXPECT(transport.fragment_offset == 65528 && transport.is_later_fragment == 1);
    memcpy(ipv6 + 40, extensions, 16);
    OK(etherparse_transport_in_ip(ipv6, 64, &transport, &error));
    EXPECT(transport.traffic_class == 0xb9 && transport.identification == 0xdeadbeef && transport.dont_fragment == 0);
    EXPECT(transport.fragment_offset == 8 && transport.is_later_fragment == 1 && transport.payload_offset == 56);
    OK(etherparse_transport_in_ip_lax(ipv6, 56, &transport, &error));
    EXPECT(transport.fragment_offset == 8 && transport.identification == 0xdeadbeef && transport.is_cut_off == 1);
    ipv6[51] = 0;
    OK(etherparse_transport_in_ip(ipv6, 64, &transport, &error));
    EXPECT(transport.fragment_offset == 0 && transport.identification == 0xdeadbeef && transport.is_fragment == 0);
    EXPECT(error_is_untouched());
}

/* Whether the flow of a packet has these ports, each or -1, and is about another packet or not. */
static int flow_has(const uint8_t *packet, size_t len, int source_port, int destination_port, int is_error)
{
    etherparse_packet_flow flow;
    memset(&flow, 0x77, sizeof flow);
    return etherparse_flow(packet, len, &flow, &error) == ETHERPARSE_OK && flow.ends.has_source_port == (source_port >= 0) &&
           flow.ends.has_destination_port == (destination_port >= 0) && flow.ends.source_port == (source_port < 0 ? 0 : source_port) &&
           flow.ends.destination_port == (destination_port < 0 ? 0 : destination_port) && (flow.quoted.version != 0) == is_error;
}

static void flows(void)
{
    static const uint8_t source[16] = {10, 0, 0, 1}, destination[16] = {10, 0, 0, 2}, nothing[sizeof(etherparse_flow_ends)] = {0};
    /* A time exceeded message from 10.0.0.1 to 10.0.0.2, with eight bytes of TCP from port 443 of 10.0.0.2 to port 40000 of 10.0.0.1. */
    static const uint8_t exceeded[56] = {0x45, 0, 0, 56, 0, 0, 0, 0, 64, 1, 0, 0, 10, 0, 0, 1, 10, 0, 0, 2, /* IPv4 */
                                         11, 0, 0, 0, 0, 0, 0, 0, /* ICMPv4 */
                                         0x45, 0, 0, 60, 0, 0, 0, 0, 1, 6, 0, 0, 10, 0, 0, 2, 10, 0, 0, 1, /* the quoted packet */
                                         1, 0xbb, 0x9c, 0x40, 0, 0, 0, 1};
    uint8_t query[28] = {0x45, 0, 0, 28, 0, 0, 0, 0, 64, 1, 0, 0, 10, 0, 0, 1, 10, 0, 0, 2, 8, 0, 0, 0, 0xab, 0xcd, 0, 1};
    etherparse_packet_flow flow;
    clear();
    OK(etherparse_flow(exceeded, 56, &flow, &error));
    EXPECT(flow.ends.version == 4 && flow.ends.protocol == ETHERPARSE_PROTOCOL_ICMPV4 && flow.ends.has_destination == 1);
    EXPECT(memcmp(flow.ends.source, source, 16) == 0 && memcmp(flow.ends.destination, destination, 16) == 0);
    EXPECT(flow.ends.is_fragment == 0 && flow.ends.has_source_port == 0 && flow.ends.has_destination_port == 0);
    EXPECT(flow.quoted.version == 4 && flow.quoted.protocol == ETHERPARSE_PROTOCOL_TCP && flow.quoted.is_fragment == 0);
    EXPECT(memcmp(flow.quoted.source, destination, 16) == 0 && memcmp(flow.quoted.destination, source, 16) == 0);
    EXPECT(flow.quoted.has_source_port == 1 && flow.quoted.source_port == 443 && flow.quoted.has_destination_port == 1);
    EXPECT(flow.quoted.destination_port == 40000 && flow.quoted.has_destination == 1 && flow.quoted.is_later_fragment == 0);
    OK(etherparse_flow(over_ipv6, 56, &flow, &error));
    EXPECT(flow.ends.version == 6 && flow.ends.protocol == ETHERPARSE_PROTOCOL_UDP && memcmp(flow.ends.source, source6, 16) == 0);
    EXPECT(memcmp(flow.ends.destination, destination6, 16) == 0 && memcmp(&flow.quoted, nothing, sizeof nothing) == 0);
    EXPECT(flow_has(over_ipv6, 56, 21, 1234, 0) && flow_has(over_ipv6, 52, 21, 1234, 0) && flow_has(over_ipv6, 51, -1, -1, 0));
    EXPECT(flow_has(query, 28, 0xabcd, -1, 0) && flow_has(query, 26, 0xabcd, -1, 0) && flow_has(query, 25, -1, -1, 0));
    query[20] = 0;
    EXPECT(flow_has(query, 28, -1, 0xabcd, 0) && flow_has(exceeded, 55, -1, -1, 1) && error_is_untouched());
    query[6] = 0x20;
    OK(etherparse_flow(query, 28, &flow, &error));
    EXPECT(flow.ends.is_fragment == 1 && flow.ends.is_later_fragment == 0 && flow.ends.destination_port == 0xabcd);
    query[7] = 1;
    OK(etherparse_flow(query, 28, &flow, &error));
    EXPECT(flow.ends.is_fragment == 1 && flow.ends.is_later_fragment == 1 && flow.ends.has_destination_port == 0);
    REFUSED(etherparse_flow(query, 19, &flow, &error), ETHERPARSE_STATUS_IP_HEADER_CUT_OFF);
    EXPECT(error.required_len == 20 && error.len == 19 && flow.ends.is_later_fragment == 1);
}

/* A UDP message of three bytes of payload, with a wrong length field and checksum, and packets with it. */
static void written_packets(void)
{
    static const uint8_t message[11] = {0, 21, 4, 210, 0xff, 0xff, 0xff, 0xff, 'a', 'b', 'c'};
    static const uint8_t expected4[31] = {0x45, 0,   0, 31, 0, 0,   0x40, 0, 64, 17,   0xb7, 0x7a, 192, 168, 1,  1,
                                          192,  168, 1, 2,  0, 21,  4, 210, 0, 11, 0xb3, 0x3a, 'a', 'b', 'c'};
    static const uint8_t echo[8] = {128, 0, 0, 0, 0, 7, 0, 1};
    etherparse_ipv4_header header4 = {{192, 168, 1, 1}, {192, 168, 1, 2}, 64, ETHERPARSE_PROTOCOL_UDP};
    etherparse_ipv6_header header6 = {{0}, {0}, 5, ETHERPARSE_PROTOCOL_ICMPV6};
    etherparse_ip_packet packet;
    static uint8_t long_message[65516];
    clear();
    OK(etherparse_write_packet_ipv4(&header4, message, 11, buffer, sizeof buffer, &written, &error));
    EXPECT(holds(expected4, 31, 31) && error_is_untouched());
    OK(etherparse_packet_verdict(buffer, sizeof buffer, &packet, &error));
    EXPECT(packet.verdict == ETHERPARSE_VERDICT_RIGHT && packet.transport.payload_len == 11 && packet.transport.dont_fragment == 1);
    OK(etherparse_ipv4_header_checksum_test(buffer, sizeof buffer, &error));
    clear();
    memcpy(header6.source, source6, 16);
    memcpy(header6.destination, destination6, 16);
    OK(etherparse_write_packet_ipv6(&header6, echo, 8, buffer, 48, &written, &error));
    EXPECT(written == 48 && buffer[48] == 0xee);
    OK(etherparse_packet_verdict(buffer, 48, &packet, &error));
    EXPECT(packet.verdict == ETHERPARSE_VERDICT_RIGHT && packet.header_protocol == ETHERPARSE_PROTOCOL_ICMPV6);
    EXPECT(packet.transport.hop_limit == 5 && memcmp(packet.transport.destination, destination6, 16) == 0);
    clear();
    REFUSED(etherparse_write_packet_ipv4(&header4, message, 11, buffer, 30, &written, &error), ETHERPARSE_STATUS_BUFFER_TOO_SMALL);
    EXPECT(error.required_len == 31 && error.len == 30 && holds(none, 0, 77));
    REFUSED(etherparse_write_packet_ipv4(&header4, message, 7, buffer, 64, &written, &error), ETHERPARSE_STATUS_LENGTH);
    EXPECT(error.layer == ETHERPARSE_LAYER_UDP_HEADER && error.required_len == 8 && error.len == 7);
    REFUSED(etherparse_write_packet_ipv4(&header4, long_message, 65516, buffer, 64, &written, &error), ETHERPARSE_STATUS_VALUE_TOO_BIG);
    EXPECT(error.value_type == ETHERPARSE_VALUE_IP_PAYLOAD_LENGTH && error.actual == 65508 && error.max_allowed == 65507);
    EXPECT(error_has_text("Payload Error: a payload of 65508 bytes is above 65507."));
    header4.protocol = ETHERPARSE_PROTOCOL_ICMPV6;
    REFUSED(etherparse_write_packet_ipv4(&header4, echo, 8, buffer, 64, &written, &error), ETHERPARSE_STATUS_PROTOCOL_UNKNOWN);
    EXPECT(error.actual == 58 && error_has_text("Protocol Error: the call does not accept the protocol 58."));
    header4.protocol = ETHERPARSE_PROTOCOL_TCP;
    REFUSED(etherparse_write_packet_ipv4(&header4, long_message, 20, buffer, 64, &written, &error), ETHERPARSE_STATUS_DATA_OFFSET);
    header4.protocol = ETHERPARSE_PROTOCOL_ICMPV4;
    long_message[0] = 13;
    REFUSED(etherparse_write_packet_ipv4(&header4, long_message, 21, buffer, 64, &written, &error), ETHERPARSE_STATUS_LENGTH);
    EXPECT(error.layer == ETHERPARSE_LAYER_ICMPV4_TIMESTAMP && error.required_len == 20 && error.len == 21);
    header6.next_header = ETHERPARSE_PROTOCOL_ICMPV4;
    REFUSED(etherparse_write_packet_ipv6(&header6, echo, 8, buffer, 64, &written, &error), ETHERPARSE_STATUS_PROTOCOL_UNKNOWN);
    EXPECT(error.actual == 1);
    header6.next_header = ETHERPARSE_PROTOCOL_UDP;
    REFUSED(etherparse_write_packet_ipv6(&header6, message, 11, buffer, 50, &written, &error), ETHERPARSE_STATUS_BUFFER_TOO_SMALL);
    EXPECT(error.required_len == 51 && error.len == 50 && holds(none, 0, 77));
}

/* The checksum of an IPv4 header with options, 0xf470, which does not cover the two bytes behind the header. */
static void ipv4_header(void)
{
    static const uint8_t header[26] = {0x46, 0,   0, 32, 0,   7,   0, 0, 64, 17, 0xf4, 0x70, 192,
                                       168,  1,   1, 192, 168, 1,   2, 1, 1,  1,  1,    0xee, 0xee};
    uint8_t changed[26];
    memcpy(changed, header, 26);
    clear();
    OK(etherparse_ipv4_header_checksum(header, 26, &checksum, &error));
    EXPECT(checksum == 0xf470);
    OK(etherparse_ipv4_header_checksum_test(header, 24, &error));
    EXPECT(error_is_untouched());
    changed[10] = 0x12;
    OK(etherparse_ipv4_header_checksum(changed, 26, &checksum, &error));
    EXPECT(checksum == 0xf470);
    FILLED(etherparse_ipv4_header_checksum_test(changed, 26, &error), ETHERPARSE_STATUS_CHECKSUM_WRONG);
    changed[8] = 63;
    OK(etherparse_ipv4_header_checksum_store(changed, 26, &error));
    changed[8] = 64;
    EXPECT(stores(changed, header, 26, 10, 0xf570));
    checksum = 77;
    REFUSED(etherparse_ipv4_header_checksum(header, 0, &checksum, &error), ETHERPARSE_STATUS_IP_HEADER_CUT_OFF);
    EXPECT(error.required_len == 1 && error.len == 0);
    REFUSED(etherparse_ipv4_header_checksum(over_ipv6, 56, &checksum, &error), ETHERPARSE_STATUS_IP_VERSION);
    EXPECT(error.actual == 6);
    REFUSED(etherparse_ipv4_header_checksum_test(header, 19, &error), ETHERPARSE_STATUS_IP_HEADER_CUT_OFF);
    EXPECT(error.required_len == 20 && error.len == 19);
    memcpy(changed, header, 26);
    REFUSED(etherparse_ipv4_header_checksum_store(changed, 23, &error), ETHERPARSE_STATUS_IP_HEADER_CUT_OFF);
    EXPECT(error.required_len == 24 && error.len == 23 && memcmp(changed, header, 26) == 0);
    changed[0] = 0x44;
    REFUSED(etherparse_ipv4_header_checksum_store(changed, 26, &error), ETHERPARSE_STATUS_IP_HEADER_LENGTH);
    EXPECT(error.required_len == 20 && error.len == 16 && checksum == 77);
}

/* An echo request from 192.168.1.1 to 192.168.1.2 and its reply, and both over IPv6; each with 2 bytes of padding. */
static const uint8_t request_ipv4[34] = {0x45, 0, 0, 32, 0, 7, 0, 0, 9, 1, 0x2e, 0x83, 192, 168, 1, 1, 192,
                                         168, 1, 2, 8, 0, 0x19, 0x2c, 0, 1, 0, 2, 'p', 'i', 'n', 'g', 0xaa, 0xbb};
static const uint8_t reply_ipv4[34] = {0x45, 0, 0, 32, 0, 7, 0x40, 0, 64, 1, 0xb7, 0x82, 192, 168, 1, 2, 192,
                                       168, 1, 1, 0, 0, 0x21, 0x2c, 0, 1, 0, 2, 'p', 'i', 'n', 'g', 0xaa, 0xbb};
/* The request over IPv4 with the options "no operation", twice, and "end of option list", and a byte behind it. */
static const uint8_t padded_ipv4[38] = {0x46, 0, 0, 36, 0, 7, 0, 0, 9, 1, 0x2c, 0x77, 192, 168, 1, 1, 192, 168, 1,
                                        2, 1, 1, 0, 7, 8, 0, 0x19, 0x2c, 0, 1, 0, 2, 'p', 'i', 'n', 'g', 0xaa, 0xbb};
static const uint8_t request_ipv6[54] = {0x60, 0, 0, 0, 0, 12, 58, 9, 0x20, 0x01, 0x0d, 0xb8, 0, 0, 0, 0, 0, 0,
                                         0, 0, 0, 0, 0, 1, 0x20, 0x01, 0x0d, 0xb8, 0, 0, 0, 0, 0, 0, 0, 0,
                                         0, 0, 0, 2, 128, 0, 0x45, 0x70, 0, 1, 0, 2, 'p', 'i', 'n', 'g', 0xaa, 0xbb};
static const uint8_t reply_ipv6[54] = {0x60, 0, 0, 0, 0, 12, 58, 64, 0x20, 0x01, 0x0d, 0xb8, 0, 0, 0, 0, 0, 0,
                                       0, 0, 0, 0, 0, 2, 0x20, 0x01, 0x0d, 0xb8, 0, 0, 0, 0, 0, 0, 0, 0,
                                       0, 0, 0, 1, 129, 0, 0x44, 0x70, 0, 1, 0, 2, 'p', 'i', 'n', 'g', 0xaa, 0xbb};

static void echo(void)
{
    static const uint8_t host4[4] = {192, 168, 1, 3}, group4[4] = {224, 0, 0, 1}, group6[16] = {0xff, 2};
    uint8_t host6[16], packet4[34], packet6[54];
    clear();
    memcpy(host6, destination6, 16);
    host6[15] = 3;
    memcpy(packet4, request_ipv4, 34);
    memcpy(packet6, request_ipv6, 54);
    OK(etherparse_echo_answer(packet4, 34, 64, &written, &error));
    EXPECT(memcmp(packet4, reply_ipv4, 34) == 0 && written == 32);
    OK(etherparse_echo_answer(packet6, 54, 64, &written, &error));
    EXPECT(memcmp(packet6, reply_ipv6, 54) == 0 && written == 52 && error_is_untouched());
    memcpy(packet4, request_ipv4, 34);
    memcpy(packet6, request_ipv6, 54);
    written = 77;
    REFUSED(etherparse_echo_answer_ipv4(packet4, 34, group4, 64, &written, &error), ETHERPARSE_STATUS_ECHO_REPLY_SOURCE);
    REFUSED(etherparse_echo_answer_ipv6(packet6, 54, group6, 64, &written, &error), ETHERPARSE_STATUS_ECHO_REPLY_SOURCE);
    REFUSED(etherparse_echo_answer_ipv4(packet6, 54, host4, 64, &written, &error), ETHERPARSE_STATUS_ECHO_NO_REQUEST);
    REFUSED(etherparse_echo_answer_ipv6(packet4, 34, host6, 64, &written, &error), ETHERPARSE_STATUS_ECHO_NO_REQUEST);
    EXPECT(memcmp(packet4, request_ipv4, 34) == 0 && memcmp(packet6, request_ipv6, 54) == 0 && written == 77);
    OK(etherparse_echo_answer_ipv4(packet4, 34, host4, 64, &written, &error));
    EXPECT(packet4[15] == 3 && memcmp(packet4 + 16, reply_ipv4 + 16, 18) == 0 && stores(packet4, reply_ipv4, 12, 10, 0xb781));
    OK(etherparse_echo_answer_ipv6(packet6, 54, host6, 64, &written, &error));
    EXPECT(packet6[23] == 3 && stores(packet6 + 24, reply_ipv6 + 24, 30, 18, 0x446f) && written == 52);
}

/* Whether the request over IPv4, with another byte at a place, is refused with this status and otherwise stays as it is. */
static int is_not_answered(size_t place, uint8_t byte, etherparse_status status)
{
    uint8_t changed[34], untouched[34];
    clear();
    memcpy(changed, request_ipv4, 34);
    changed[place] = byte;
    memcpy(untouched, changed, 34);
    return etherparse_echo_answer(changed, 34, 64, &written, &error) == status && error.status == status && written == 77 &&
           memcmp(changed, untouched, 34) == 0;
}

/* The reply to a request with such options is the reply to the request without them. All bytes behind the reply stay. */
static void echo_padded(void)
{
    static const uint8_t host4[4] = {192, 168, 1, 2};
    uint8_t packet[38];
    clear();
    memcpy(packet, padded_ipv4, 38);
    OK(etherparse_echo_answer(packet, 38, 64, &written, &error));
    EXPECT(memcmp(packet, reply_ipv4, 32) == 0 && memcmp(packet + 32, padded_ipv4 + 32, 6) == 0 && written == 32);
    memcpy(packet, padded_ipv4, 38);
    OK(etherparse_echo_answer_ipv4(packet, 38, host4, 64, &written, &error));
    EXPECT(memcmp(packet, reply_ipv4, 32) == 0 && memcmp(packet + 32, padded_ipv4 + 32, 6) == 0 && written == 32);
    memcpy(packet, padded_ipv4, 38);
    packet[20] = 7;
    REFUSED(etherparse_echo_answer(packet, 38, 64, &written, &error), ETHERPARSE_STATUS_ECHO_HAS_OPTIONS);
}

static void echo_refused(void)
{
    static const char expected[] = "Echo Error: the source of the request is not the address of a host.";
    uint8_t packet[34];
    char text[ETHERPARSE_ERROR_TEXT_MAX_LEN + 1];
    EXPECT(is_not_answered(3, 35, ETHERPARSE_STATUS_IP_PACKET_CUT_OFF) && error.required_len == 35 && error.len == 34);
    EXPECT(is_not_answered(6, 0x20, ETHERPARSE_STATUS_ECHO_FRAGMENT));
    EXPECT(is_not_answered(9, ETHERPARSE_PROTOCOL_UDP, ETHERPARSE_STATUS_ECHO_NO_REQUEST));
    EXPECT(is_not_answered(0, 0x46, ETHERPARSE_STATUS_ECHO_HAS_OPTIONS));
    EXPECT(is_not_answered(3, 27, ETHERPARSE_STATUS_LENGTH) && error.layer == ETHERPARSE_LAYER_ICMPV4);
    EXPECT(error.required_len == 8 && error.len == 7 && error.layer_start_offset == 0);
    EXPECT(is_not_answered(20, 0, ETHERPARSE_STATUS_ECHO_NO_REQUEST));
    EXPECT(is_not_answered(31, 'G', ETHERPARSE_STATUS_CHECKSUM_WRONG));
    EXPECT(is_not_answered(8, 10, ETHERPARSE_STATUS_ECHO_HEADER_CHECKSUM_WRONG));
    memcpy(packet, request_ipv4, 34);
    memcpy(packet + 10, "\x10\x2b\xe0\x00\x00\x01", 6);
    REFUSED(etherparse_echo_answer(packet, 34, 64, &written, &error), ETHERPARSE_STATUS_ECHO_REQUEST_SOURCE);
    EXPECT(etherparse_error_text(&error, text, sizeof text) == sizeof expected - 1 && strcmp(text, expected) == 0);
}

/* Whether the reply over IPv4, with another byte at a place, is not the reply. */
static int is_no_reply(size_t place, uint8_t byte)
{
    uint8_t changed[34];
    clear();
    memcpy(changed, reply_ipv4, 34);
    changed[place] = byte;
    return etherparse_echo_is_reply(request_ipv4, 34, changed, 34, &error) == ETHERPARSE_STATUS_ECHO_NO_REPLY &&
           error.status == ETHERPARSE_STATUS_ECHO_NO_REPLY && error.required_len == 0 && error.len == 0;
}

/* The reply, also of other lengths of padding; then every byte that makes it none, and the packets in the other order. */
static void echo_replies(void)
{
    static const char expected[] = "Echo Error: the packet is not the reply to the request.";
    uint8_t request[34];
    char text[ETHERPARSE_ERROR_TEXT_MAX_LEN + 1];
    size_t place;
    clear();
    OK(etherparse_echo_is_reply(request_ipv4, 34, reply_ipv4, 34, &error));
    OK(etherparse_echo_is_reply(request_ipv4, 32, reply_ipv4, 33, &error));
    OK(etherparse_echo_is_reply(request_ipv6, 54, reply_ipv6, 52, &error));
    memcpy(request, request_ipv4, 34);
    request[10] = request[22] = 0;
    OK(etherparse_echo_is_reply(request, 34, reply_ipv4, 34, &error));
    memcpy(request + 16, "\xe0\x00\x00\x01", 4);
    OK(etherparse_echo_is_reply(request, 34, reply_ipv4, 34, &error));
    EXPECT(error_is_untouched());
    for (place = 0; place < 32; place++)
        EXPECT(is_no_reply(place, (uint8_t)(reply_ipv4[place] + 1)));
    EXPECT(!is_no_reply(32, 0) && !is_no_reply(33, 0));
    FILLED(etherparse_echo_is_reply(reply_ipv4, 34, request_ipv4, 34, &error), ETHERPARSE_STATUS_ECHO_NO_REPLY);
    FILLED(etherparse_echo_is_reply(request_ipv4, 34, request_ipv4, 34, &error), ETHERPARSE_STATUS_ECHO_NO_REPLY);
    FILLED(etherparse_echo_is_reply(request_ipv4, 34, reply_ipv6, 54, &error), ETHERPARSE_STATUS_ECHO_NO_REPLY);
    FILLED(etherparse_echo_is_reply(request_ipv4, 31, reply_ipv4, 34, &error), ETHERPARSE_STATUS_ECHO_NO_REPLY);
    FILLED(etherparse_echo_is_reply(request_ipv6, 54, reply_ipv6, 51, &error), ETHERPARSE_STATUS_ECHO_NO_REPLY);
    EXPECT(etherparse_error_text(&error, text, sizeof text) == sizeof expected - 1 && strcmp(text, expected) == 0);
}

/* Errors about echo requests, which quote them; and refusals. */
static void icmp_errors(void)
{
    static const uint8_t no_host[4] = {127, 0, 0, 1};
    uint8_t packet[54];
    uint8_t error_ipv6[128];
    etherparse_icmpv4_header expired;
    etherparse_icmpv6_header too_big;
    etherparse_ip_packet found;
    clear();
    memset(&expired, 0, sizeof expired);
    memset(&too_big, 0, sizeof too_big);
    expired.kind = ETHERPARSE_ICMPV4_KIND_TIME_EXCEEDED;
    too_big.kind = ETHERPARSE_ICMPV6_KIND_PACKET_TOO_BIG;
    too_big.mtu = 1280;
    memcpy(packet, request_ipv4, 34);
    OK(etherparse_icmpv4_error_about(packet, 34, &expired, destination4, 64, buffer, sizeof buffer, &written, &error));
    EXPECT(written == 28 + (size_t)(packet[2] * 256 + packet[3]) && memcmp(buffer + 28, packet, written - 28) == 0 && buffer[20] == 11);
    OK(etherparse_packet_verdict(buffer, written, &found, &error));
    EXPECT(found.verdict == ETHERPARSE_VERDICT_RIGHT);
    REFUSED(etherparse_icmpv4_error_about(buffer, written, &expired, destination4, 64, packet, sizeof packet, &written, &error),
            ETHERPARSE_STATUS_ICMP_ERROR_ABOUT_ERROR);
    REFUSED(etherparse_icmpv4_error_about(packet, 34, &expired, destination4, 64, buffer, 20, &written, &error), ETHERPARSE_STATUS_BUFFER_TOO_SMALL);
    REFUSED(etherparse_icmpv4_error_about(packet, 34, &expired, no_host, 64, buffer, sizeof buffer, &written, &error),
            ETHERPARSE_STATUS_ICMP_ERROR_SOURCE);
    packet[16] = 224;
    REFUSED(etherparse_icmpv4_error_about(packet, 34, &expired, destination4, 64, buffer, sizeof buffer, &written, &error),
            ETHERPARSE_STATUS_ICMP_ERROR_ABOUT_GROUP);
    packet[7] = 1;
    REFUSED(etherparse_icmpv4_error_about(packet, 34, &expired, destination4, 64, buffer, sizeof buffer, &written, &error),
            ETHERPARSE_STATUS_ICMP_ERROR_LATER_FRAGMENT);
    expired.kind = ETHERPARSE_ICMPV4_KIND_ECHO_REPLY;
    REFUSED(etherparse_icmpv4_error_about(packet, 34, &expired, destination4, 64, buffer, sizeof buffer, &written, &error),
            ETHERPARSE_STATUS_NO_ICMP_ERROR);
    memcpy(packet, request_ipv6, 54);
    OK(etherparse_icmpv6_error_about(packet, 54, &too_big, destination6, 64, error_ipv6, sizeof error_ipv6, &written, &error));
    EXPECT(written == 100 && memcmp(error_ipv6 + 48, packet, 52) == 0 && error_ipv6[40] == 2);
    OK(etherparse_packet_verdict(error_ipv6, written, &found, &error));
    EXPECT(found.verdict == ETHERPARSE_VERDICT_RIGHT);
}

/* The time to live 64 of a request becomes 63, and the checksum of its header stays right. A hop limit of 1 stays. */
static void hop_limits(void)
{
    uint8_t packet[54];
    clear();
    memcpy(packet, request_ipv4, 34);
    packet[8] = 2;
    OK(etherparse_ipv4_header_checksum_store(packet, 34, &error));
    OK(etherparse_hop_limit_lower(packet, 34, &error));
    EXPECT(packet[8] == 1 && memcmp(packet + 12, request_ipv4 + 12, 22) == 0);
    OK(etherparse_ipv4_header_checksum_test(packet, 34, &error));
    EXPECT(error_is_untouched());
    REFUSED(etherparse_hop_limit_lower(packet, 34, &error), ETHERPARSE_STATUS_HOP_LIMIT_EXPIRED);
    EXPECT(error.actual == 1 && packet[8] == 1);
    REFUSED(etherparse_hop_limit_lower(packet, 19, &error), ETHERPARSE_STATUS_IP_HEADER_CUT_OFF);
    packet[0] = 0x44;
    REFUSED(etherparse_hop_limit_lower(packet, 34, &error), ETHERPARSE_STATUS_IP_HEADER_LENGTH);
    packet[0] = 0x55;
    REFUSED(etherparse_hop_limit_lower(packet, 34, &error), ETHERPARSE_STATUS_IP_VERSION);
    memcpy(packet, request_ipv6, 54);
    packet[7] = 64;
    OK(etherparse_hop_limit_lower(packet, 40, &error));
    EXPECT(packet[7] == 63 && memcmp(packet, request_ipv6, 7) == 0 && memcmp(packet + 8, request_ipv6 + 8, 46) == 0);
}

/* The maximum segment size 1460 of a SYN becomes 1360, and the checksum of TCP stays right. A lower size stays. */
static void maximum_segment_sizes(void)
{
    static const uint8_t syn[48] = {
        0x45, 0, 0, 48, 0, 0, 0, 0, 64, 6, 0xF7, 0x74, 192, 168, 1, 1, 192, 168, 1, 2, 0xC3, 0x50, 0, 80, 0, 0, 0, 1, 0, 0, 0, 0, 0x70, 2,
        0x20, 0, 0x6E, 0xDB, 0, 0, 1, 2, 4, 0x05, 0xB4, 1, 1, 1
    };
    uint8_t packet[48];
    uint16_t size = 7;
    etherparse_ip_packet found;
    clear();
    memcpy(packet, syn, sizeof packet);
    OK(etherparse_maximum_segment_size_lower(packet, 48, 1460, &size, &error));
    EXPECT(size == 1460 && memcmp(packet, syn, sizeof packet) == 0);
    OK(etherparse_maximum_segment_size_lower(packet, 48, 1360, &size, &error));
    EXPECT(size == 1460 && packet[43] == 0x05 && packet[44] == 0x50 && packet[36] == 0xD2 && packet[37] == 0xDB);
    EXPECT(memcmp(packet, syn, 36) == 0 && memcmp(packet + 38, syn + 38, 5) == 0 && memcmp(packet + 45, syn + 45, 3) == 0);
    OK(etherparse_packet_verdict(packet, 48, &found, &error));
    EXPECT(found.verdict == ETHERPARSE_VERDICT_RIGHT);
    OK(etherparse_maximum_segment_size_lower(packet, 48, 1460, &size, &error));
    EXPECT(size == 1360 && error_is_untouched());
    size = 7;
    packet[45] = 2;
    packet[42] = 5;
    REFUSED(etherparse_maximum_segment_size_lower(packet, 48, 536, &size, &error), ETHERPARSE_STATUS_OPTION_SIZE);
    EXPECT(size == 7 && error.option_kind == 2 && error.option_size == 5 && packet[44] == 0x50);
    packet[42] = 1;
    REFUSED(etherparse_maximum_segment_size_lower(packet, 48, 536, &size, &error), ETHERPARSE_STATUS_OPTION_SIZE);
    packet[41] = 3;
    packet[42] = 8;
    REFUSED(etherparse_maximum_segment_size_lower(packet, 48, 536, &size, &error), ETHERPARSE_STATUS_OPTION_CUT_OFF);
    packet[41] = 0;
    REFUSED(etherparse_maximum_segment_size_lower(packet, 48, 536, &size, &error), ETHERPARSE_STATUS_SEGMENT_SIZE_NO_OPTION);
    packet[33] = 0x10;
    REFUSED(etherparse_maximum_segment_size_lower(packet, 48, 536, &size, &error), ETHERPARSE_STATUS_SEGMENT_SIZE_NO_SYN);
    packet[32] = 0x40;
    REFUSED(etherparse_maximum_segment_size_lower(packet, 48, 536, &size, &error), ETHERPARSE_STATUS_DATA_OFFSET);
    packet[32] = 0x80;
    REFUSED(etherparse_maximum_segment_size_lower(packet, 48, 536, &size, &error), ETHERPARSE_STATUS_LENGTH);
    packet[7] = 1;
    REFUSED(etherparse_maximum_segment_size_lower(packet, 48, 536, &size, &error), ETHERPARSE_STATUS_SEGMENT_SIZE_LATER_FRAGMENT);
    packet[9] = 17;
    REFUSED(etherparse_maximum_segment_size_lower(packet, 48, 536, &size, &error), ETHERPARSE_STATUS_PROTOCOL_UNKNOWN);
    EXPECT(size == 7 && error.actual == 17);
    REFUSED(etherparse_maximum_segment_size_lower(packet, 19, 536, &size, &error), ETHERPARSE_STATUS_IP_HEADER_CUT_OFF);
}

/* Two fragments of a UDP packet over IPv4 from 10.0.0.1 to 10.0.0.2, with identification 7: 8 bytes, and 1 byte. */
static const uint8_t two_fragments[49] = {
    0x45, 0, 0, 28, 0, 7, 0x20, 0, 64, 17, 0, 0, 10, 0, 0, 1, 10, 0, 0, 2, 0, 1, 0, 2, 0, 9, 0x73, 0xD6,
    0x45, 0, 0, 21, 0, 7, 0, 1, 64, 17, 0, 0, 10, 0, 0, 1, 10, 0, 0, 2, 'x'
};

/* The fragment in a packet: its fields, padding that does not count, and packets that are no fragment. */
static void fragments_read(void)
{
    static const uint8_t source[16] = {10, 0, 0, 1}, destination[16] = {10, 0, 0, 2};
    uint8_t ipv6_fragment[56] = {0x60, 0, 0, 0, 0, 16, 44, 64, 0x20, 1, [23] = 1, [24] = 0x20, [25] = 1, [39] = 2,
                             [40] = 17, 0, 0, 9, 1, 2, 3, 4, 'a', 'b', 'c', 'd', 'e', 'f', 'g', 'h'};
    etherparse_fragment fragment;
    clear();
    memset(&fragment, 0x77, sizeof fragment);
    OK(etherparse_fragment_read(two_fragments, 49, &fragment, &error));
    EXPECT(fragment.version == 4 && fragment.protocol == 17 && fragment.identification == 7 && fragment.offset == 0);
    EXPECT(fragment.more_fragments == 1 && fragment.payload_offset == 20 && fragment.payload_len == 8);
    EXPECT(memcmp(fragment.source, source, 16) == 0 && memcmp(fragment.destination, destination, 16) == 0);
    OK(etherparse_fragment_read(two_fragments + 28, 21, &fragment, &error));
    EXPECT(fragment.offset == 8 && fragment.more_fragments == 0 && fragment.payload_len == 1);
    OK(etherparse_fragment_read(ipv6_fragment, 56, &fragment, &error));
    EXPECT(fragment.version == 6 && fragment.protocol == 0 && fragment.identification == 0x01020304 && fragment.offset == 8);
    EXPECT(fragment.more_fragments == 1 && fragment.payload_offset == 48 && fragment.payload_len == 8 && error_is_untouched());
    ipv6_fragment[43] = 1;
    ipv6_fragment[5] = 15;
    REFUSED(etherparse_fragment_read(ipv6_fragment, 56, &fragment, &error), ETHERPARSE_STATUS_REASSEMBLY_HEADER_CHAIN_CUT_OFF);
    EXPECT(error.required_len == 8 && error.len == 7 && fragment.payload_offset == 48);
    ipv6_fragment[43] = 0;
    REFUSED(etherparse_fragment_read(ipv6_fragment, 56, &fragment, &error), ETHERPARSE_STATUS_REASSEMBLY_NO_FRAGMENT);
    REFUSED(etherparse_fragment_read(two_fragments, 27, &fragment, &error), ETHERPARSE_STATUS_IP_PACKET_CUT_OFF);
}

/* Puts the fragments in these packets together, which must be refused with this status. */
#define NOT_JOINED(packets, lens, count, room_len, buffer_len, wanted)                                                           \
    REFUSED(etherparse_reassembly_packet(packets, sizeof packets, lens, count, room, room_len, buffer, buffer_len, &written, &error), \
            wanted)

/* A byte of the third or fourth of four fragments, another value for it, and the status of the refusal. */
static const struct {
    size_t place;
    uint8_t value;
    etherparse_status wanted;
} wrong_fragments[] = {
    {54, 8, ETHERPARSE_STATUS_REASSEMBLY_OTHER_KEY},        {52, 20, ETHERPARSE_STATUS_REASSEMBLY_EMPTY},
    {52, 27, ETHERPARSE_STATUS_REASSEMBLY_FRAGMENT_LENGTH}, {55, 0, ETHERPARSE_STATUS_REASSEMBLY_NO_FRAGMENT},
    {69, 9, ETHERPARSE_STATUS_REASSEMBLY_OVERLAP},          {56, 1, ETHERPARSE_STATUS_REASSEMBLY_BEHIND_END},
    {84, 2, ETHERPARSE_STATUS_REASSEMBLY_OTHER_END},        {83, 0x1F, ETHERPARSE_STATUS_REASSEMBLY_OTHER_END}
};

/* Each of these fragments is refused, with room for every payload. */
static void packets_not_put_together(uint8_t packets[98], const size_t lens[4], uint8_t room[ETHERPARSE_REASSEMBLY_ROOM_MAX_LEN])
{
    size_t i;
    for (i = 0; i < sizeof wrong_fragments / sizeof *wrong_fragments; i++) {
        const uint8_t before = packets[wrong_fragments[i].place];
        packets[wrong_fragments[i].place] = wrong_fragments[i].value;
        REFUSED(etherparse_reassembly_packet(packets, 98, lens, 4, room, ETHERPARSE_REASSEMBLY_ROOM_MAX_LEN, buffer, 29, &written, &error),
                wrong_fragments[i].wanted);
        packets[wrong_fragments[i].place] = before;
    }
    packets[55] = 0x3F;
    packets[56] = 0xFF;
    REFUSED(etherparse_reassembly_packet(packets, 98, lens, 4, room, 69, buffer, 29, &written, &error),
            ETHERPARSE_STATUS_REASSEMBLY_TOO_LONG);
    EXPECT(error.len == 65536 && error.required_len == 65535);
    packets[55] = 0x20;
    packets[56] = 0;
}

/* A packet is put together from its fragments in any order. Each reason not to put it together has its status. */
static void packets_put_together(void)
{
    static const size_t lens[4] = {28, 21, 28, 21}, too_long[2] = {28, 22}, reversed[2] = {21, 28};
    static uint8_t room[ETHERPARSE_REASSEMBLY_ROOM_MAX_LEN];
    uint8_t packets[98], turned[49];
    etherparse_ip_packet found;
    clear();
    memset(buffer, 0, sizeof buffer);
    memcpy(turned, two_fragments + 28, 21);
    memcpy(turned + 21, two_fragments, 28);
    memcpy(packets, two_fragments, 49);
    memcpy(packets + 49, two_fragments, 49);
    OK(etherparse_reassembly_packet(turned, 49, reversed, 2, room, sizeof room, buffer, sizeof buffer, &written, &error));
    EXPECT(written == 29 && buffer[2] == 0 && buffer[3] == 29 && buffer[6] == 0 && buffer[7] == 0 && buffer[28] == 'x' && buffer[29] == 0);
    OK(etherparse_packet_verdict(buffer, written, &found, &error));
    EXPECT(found.verdict == ETHERPARSE_VERDICT_RIGHT);
    OK(etherparse_ipv4_header_checksum_test(buffer, written, &error));
    written = 7;
    OK(etherparse_reassembly_packet(packets, 98, lens, 4, room, 69, buffer, 29, &written, &error));
    EXPECT(written == 29 && error_is_untouched());
    written = 7;
    NOT_JOINED(packets, lens, 4, 69, 28, ETHERPARSE_STATUS_BUFFER_TOO_SMALL);
    EXPECT(error.required_len == 29 && error.len == 28);
    NOT_JOINED(packets, lens, 4, 68, 29, ETHERPARSE_STATUS_REASSEMBLY_ROOM);
    EXPECT(error.required_len == 9 && error.len == 8);
    NOT_JOINED(packets, lens, 1, 69, 29, ETHERPARSE_STATUS_REASSEMBLY_INCOMPLETE);
    NOT_JOINED(packets, lens, 0, 69, 29, ETHERPARSE_STATUS_REASSEMBLY_INCOMPLETE);
    NOT_JOINED(two_fragments, too_long, 2, 69, 29, ETHERPARSE_STATUS_REASSEMBLY_LENGTHS);
    EXPECT(error.required_len == 22 && error.len == 21);
    packets_not_put_together(packets, lens, room);
    packets[0] = 0x55;
    NOT_JOINED(packets, lens, 4, 69, 29, ETHERPARSE_STATUS_IP_VERSION);
    EXPECT(written == 7);
}

/* UDP over IPv4, 192.168.1.1 to 192.168.1.2; and over IPv6, with the prefix 2001:db8:64::/96. */
static const uint8_t siit_ipv4[31] = {0x45, 0, 0, 31, 0, 7, 0, 0, 64, 17, 0xf7, 0x73, 192, 168, 1, 1,
                                      192, 168, 1, 2, 0, 21, 4, 210, 0, 11, 0xb3, 0x3a, 'a', 'b', 'c'};
static const uint8_t siit_ipv6[51] = {0x60, 0, 0, 0, 0, 11, 17, 63, 0x20, 1, 0x0d, 0xb8, 0, 0x64, 0, 0, 0, 0, 0, 0, 192, 168, 1, 1, 0x20, 1,
                                      0x0d, 0xb8, 0, 0x64, 0, 0, 0, 0, 0, 0, 192, 168, 1, 2, 0, 21, 4, 210, 0, 11, 0x57, 0, 'a', 'b', 'c'};
static const etherparse_prefix64 prefix64 = {{0x20, 1, 0x0d, 0xb8, 0, 0x64}, 96};
static const etherparse_prefix64 well_known64 = {{0, 0x64, 0xff, 0x9b}, 96};

/* A packet is translated to IPv6 and back. Only identification, time to live and header checksum differ. */
static void between_versions(void)
{
    uint8_t back[64];
    clear();
    OK(etherparse_ipv4_to_ipv6(siit_ipv4, 31, &prefix64, &prefix64, buffer, 51, &written, &error));
    EXPECT(holds(siit_ipv6, 51, 51) && error_is_untouched());
    OK(etherparse_ipv6_to_ipv4(siit_ipv6, 51, &prefix64, &prefix64, 9, back, 31, &written, &error));
    EXPECT(written == 31 && memcmp(back, siit_ipv4, 5) == 0 && back[5] == 9 && back[8] == 62 && memcmp(back + 12, siit_ipv4 + 12, 19) == 0);
    EXPECT(back[6] == 0 && back[10] == 0xf9 && back[11] == 0x71 && error_is_untouched());
}

/* The first fragment of UDP over IPv6, with the same addresses. Its message has 24 bytes, of which these are 16. */
static const uint8_t siit_fragment[64] = {0x60, 0, 0, 0, 0, 24, 44, 63, 0x20, 1, 0x0d, 0xb8, 0, 0x64, 0, 0, 0, 0, 0, 0, 192, 168,
                                          1, 1, 0x20, 1, 0x0d, 0xb8, 0, 0x64, 0, 0, 0, 0, 0, 0, 192, 168, 1, 2, 17, 0, 0, 1,
                                          0xab, 0xcd, 0x12, 0x34, 0, 21, 4, 210, 0, 24, 0x57, 0, 'a', 'b', 'c', 'd', 'e', 'f', 'g', 'h'};

/* A packet with another byte at a place. */
static const uint8_t *siit_with(const uint8_t *from, size_t len, size_t place, uint8_t byte)
{
    static uint8_t packet[64];
    memcpy(packet, from, len);
    packet[place] = byte;
    return packet;
}

#define FRAGMENT_TO_IPV4(place, byte) \
    etherparse_ipv6_to_ipv4(siit_with(siit_fragment, 64, place, byte), 64, &prefix64, &prefix64, 9, buffer, 36, &written, &error)

/* Fragments over IPv6 with this byte of the offset, and the flags, the offset and the UDP checksum over IPv4. */
static const struct {
    uint8_t offset, flags_and_offset[2], checksum[2];
} siit_fragments[3] = {
    {1, {0x20, 0}, {0xb3, 0x3a}}, /* a first fragment */
    {0x10, {0, 2}, {0x57, 0}},    /* a later fragment, whose bytes are copied */
    {0, {0, 0}, {0xb3, 0x3a}},    /* an atomic fragment */
};

/* A first fragment of UDP over IPv4, and its translation. */
static void fragment_over_ipv4(void)
{
    uint8_t packet[31];
    clear();
    memcpy(packet, siit_ipv4, 31);
    packet[6] = 0x20;
    packet[10] = 0xd7;
    OK(etherparse_ipv4_to_ipv6(packet, 31, &prefix64, &prefix64, buffer, 59, &written, &error));
    EXPECT(written == 59 && buffer[5] == 19 && buffer[6] == 44 && memcmp(buffer + 8, siit_ipv6 + 8, 32) == 0);
    EXPECT(memcmp(buffer + 40, "\21\0\0\1\0\0\0\7", 8) == 0 && memcmp(buffer + 48, siit_ipv6 + 40, 11) == 0 && error_is_untouched());
    packet[26] = packet[27] = 0;
    clear();
    FILLED(etherparse_ipv4_to_ipv6(packet, 31, &prefix64, &prefix64, buffer, 59, &written, &error),
           ETHERPARSE_STATUS_SIIT_FRAGMENT_CHECKSUM);
    EXPECT(error_has_text("Translation Error: a fragment of a UDP packet has no checksum.") && holds(none, 0, 77));
}

/* The fragment header determines the identification. A fragment of ICMPv6 is refused. */
static void fragments_between_versions(void)
{
    size_t i;
    clear();
    for (i = 0; i < sizeof siit_fragments / sizeof *siit_fragments; i++) {
        OK(FRAGMENT_TO_IPV4(43, siit_fragments[i].offset));
        EXPECT(written == 36 && buffer[3] == 36 && buffer[4] == 0x12 && buffer[5] == 0x34 && buffer[9] == 17 && buffer[36] == 0xee);
        EXPECT(memcmp(buffer + 6, siit_fragments[i].flags_and_offset, 2) == 0 && memcmp(buffer + 12, siit_ipv4 + 12, 8) == 0);
        EXPECT(memcmp(buffer + 20, siit_fragment + 48, 6) == 0 && memcmp(buffer + 26, siit_fragments[i].checksum, 2) == 0);
        EXPECT(memcmp(buffer + 28, siit_fragment + 56, 8) == 0 && error_is_untouched());
    }
    clear();
    FILLED(FRAGMENT_TO_IPV4(40, 58), ETHERPARSE_STATUS_SIIT_ICMP_FRAGMENT);
    EXPECT(error_has_text("Translation Error: a fragment of an ICMP message is not translated."));
    REFUSED(FRAGMENT_TO_IPV4(40, 60), ETHERPARSE_STATUS_SIIT_EXTENSION_HEADER);
    EXPECT(error.actual == 60);
    REFUSED(FRAGMENT_TO_IPV4(5, 7), ETHERPARSE_STATUS_SIIT_EXTENSION_HEADER_CUT_OFF);
    EXPECT(error.actual == 44 && error.required_len == 8 && error.len == 7);
    REFUSED(FRAGMENT_TO_IPV4(5, 15), ETHERPARSE_STATUS_SIIT_TRANSPORT_HEADER);
    EXPECT(error.required_len == 8 && error.len == 7 && holds(none, 0, 77));
}

/* The prefix is refused first, the source before the destination. */
static void prefixes_refused(void)
{
    etherparse_prefix64 other = prefix64;
    clear();
    other.len = 33;
    REFUSED(etherparse_ipv4_to_ipv6(siit_ipv4, 31, &other, &other, buffer, 51, &written, &error), ETHERPARSE_STATUS_PREFIX_LENGTH);
    EXPECT(error.actual == 33);
    other.len = 32;
    FILLED(etherparse_ipv6_to_ipv4(siit_ipv6, 51, &prefix64, &other, 9, buffer, 51, &written, &error), ETHERPARSE_STATUS_PREFIX_SUFFIX);
    other.address[8] = 1;
    FILLED(etherparse_ipv4_to_ipv6(siit_ipv4, 31, &prefix64, &other, buffer, 51, &written, &error),
           ETHERPARSE_STATUS_PREFIX_RESERVED_OCTET);
    EXPECT(holds(none, 0, 77));
}

#define TO_IPV6(place, byte) \
    etherparse_ipv4_to_ipv6(siit_with(siit_ipv4, 31, place, byte), 31, &prefix64, &prefix64, buffer, 51, &written, &error)
#define TO_IPV4(place, byte) \
    etherparse_ipv6_to_ipv4(siit_with(siit_ipv6, 51, place, byte), 51, &prefix64, &prefix64, 9, buffer, 51, &written, &error)

/* Packets that are not translated between IPv4 and IPv6. Nothing is written. */
static void between_versions_refused(void)
{
    uint8_t routed[51];
    clear();
    REFUSED(TO_IPV6(0, 0x60), ETHERPARSE_STATUS_SIIT_NO_HEADER);
    EXPECT(error.actual == 4);
    REFUSED(TO_IPV4(0, 0x40), ETHERPARSE_STATUS_SIIT_NO_HEADER);
    EXPECT(error.actual == 6);
    REFUSED(TO_IPV6(3, 19), ETHERPARSE_STATUS_IP_TOTAL_LENGTH);
    EXPECT(error.len == 19 && error.required_len == 20);
    FILLED(TO_IPV6(10, 0), ETHERPARSE_STATUS_SIIT_HEADER_CHECKSUM);
    REFUSED(TO_IPV4(6, 44), ETHERPARSE_STATUS_SIIT_EXTENSION_HEADER);
    EXPECT(error.actual == 0);
    REFUSED(TO_IPV4(6, 43), ETHERPARSE_STATUS_SIIT_EXTENSION_HEADER_CUT_OFF);
    EXPECT(error.actual == 43 && error.required_len == 176 && error.len == 11);
    memcpy(routed, siit_ipv6, 51);
    routed[6] = 43;
    REFUSED(etherparse_ipv6_to_ipv4(siit_with(routed, 51, 41, 0), 51, &prefix64, &prefix64, 9, buffer, 51, &written, &error),
            ETHERPARSE_STATUS_SIIT_SEGMENTS_LEFT);
    EXPECT(error.actual == 43);
    REFUSED(TO_IPV4(4, 0xff), ETHERPARSE_STATUS_IP_PACKET_CUT_OFF);
    FILLED(TO_IPV4(7, 1), ETHERPARSE_STATUS_SIIT_TIME_EXCEEDED);
    REFUSED(TO_IPV4(28, 1), ETHERPARSE_STATUS_SIIT_NOT_EMBEDDED);
    EXPECT(error.actual == 1);
    REFUSED(etherparse_ipv4_to_ipv6(siit_ipv4, 31, &well_known64, &prefix64, buffer, 51, &written, &error),
            ETHERPARSE_STATUS_SIIT_NOT_GLOBAL);
    EXPECT(error.actual == 0);
    REFUSED(etherparse_ipv4_to_ipv6(siit_ipv4, 30, &prefix64, &prefix64, buffer, 51, &written, &error),
            ETHERPARSE_STATUS_IP_PACKET_CUT_OFF);
    EXPECT(error.len == 30 && error.required_len == 31);
    REFUSED(TO_IPV4(5, 7), ETHERPARSE_STATUS_SIIT_TRANSPORT_HEADER);
    EXPECT(error.len == 7 && error.required_len == 8);
    FILLED(etherparse_ipv6_to_ipv4(siit_with(siit_ipv6, 51, 46, 0), 51, &prefix64, &prefix64, 9, buffer, 51, &written, &error),
           ETHERPARSE_STATUS_SIIT_NO_UDP_CHECKSUM);
    REFUSED(TO_IPV4(6, 58), ETHERPARSE_STATUS_SIIT_ICMP_MESSAGE);
    EXPECT(error.actual == 21);
    REFUSED(etherparse_ipv4_to_ipv6(siit_ipv4, 31, &prefix64, &prefix64, buffer, 50, &written, &error), ETHERPARSE_STATUS_BUFFER_TOO_SMALL);
    EXPECT(error.len == 50 && error.required_len == 51 && holds(none, 0, 77));
}

/* The reply from another host, which only the second test accepts; and a reply with another sequence number. */
static void echo_replies_from_any(void)
{
    uint8_t reply[54];
    clear();
    OK(etherparse_echo_is_reply_from_any(request_ipv4, 34, reply_ipv4, 34, &error));
    OK(etherparse_echo_is_reply_from_any(request_ipv6, 54, reply_ipv6, 52, &error));
    memcpy(reply, reply_ipv4, 34);
    reply[15]++;
    OK(etherparse_ipv4_header_checksum_store(reply, 34, &error));
    OK(etherparse_echo_is_reply_from_any(request_ipv4, 34, reply, 34, &error));
    EXPECT(error_is_untouched());
    FILLED(etherparse_echo_is_reply(request_ipv4, 34, reply, 34, &error), ETHERPARSE_STATUS_ECHO_NO_REPLY);
    reply[27]++;
    OK(etherparse_icmpv4_checksum_store(reply + 20, 12, &error));
    FILLED(etherparse_echo_is_reply_from_any(request_ipv4, 34, reply, 34, &error), ETHERPARSE_STATUS_ECHO_NO_REPLY);
    memcpy(reply, reply_ipv6, 54);
    reply[23]++;
    OK(etherparse_icmpv6_checksum_store(reply + 40, 12, reply + 8, reply + 24, &error));
    OK(etherparse_echo_is_reply_from_any(request_ipv6, 54, reply, 54, &error));
    FILLED(etherparse_echo_is_reply(request_ipv6, 54, reply, 54, &error), ETHERPARSE_STATUS_ECHO_NO_REPLY);
    FILLED(etherparse_echo_is_reply_from_any(reply_ipv4, 34, request_ipv4, 34, &error), ETHERPARSE_STATUS_ECHO_NO_REPLY);
    FILLED(etherparse_echo_is_reply_from_any(request_ipv4, 34, reply_ipv6, 54, &error), ETHERPARSE_STATUS_ECHO_NO_REPLY);
}

/*
 * Packets as an address translator receives and sends them, made by a program that computes every checksum anew. The host inside has
 * 192.168.1.1 or 2001:db8::1 and port or identifier 21. Outside it has 203.0.113.7 or 2001:db8:ffff::7 and 40001. The ICMP errors are about
 * the UDP packet and about an echo request over IPv6, and come from another host.
 */
static const uint8_t udp_inside[31] = {0x45, 0, 0, 0x1f, 0, 7, 0, 0, 0x40, 0x11, 0xf7, 0x73, 0xc0, 0xa8, 1, 1, 0xc0, 0xa8, 1, 2,
    0, 0x15, 4, 0xd2, 0, 0x0b, 0xb3, 0x3a, 0x61, 0x62, 0x63};
static const uint8_t udp_outside[31] = {0x45, 0, 0, 0x1f, 0, 7, 0, 0, 0x40, 0x11, 0x7d, 0x15, 0xcb, 0, 0x71, 7, 0xc0, 0xa8, 1,
    2, 0x9c, 0x41, 4, 0xd2, 0, 0x0b, 0x9c, 0xaf, 0x61, 0x62, 0x63};
static const uint8_t echo_inside[32] = {0x45, 0, 0, 0x20, 0, 7, 0, 0, 0x40, 1, 0xf7, 0x82, 0xc0, 0xa8, 1, 1, 0xc0, 0xa8, 1, 2,
    8, 0, 0x19, 0x18, 0, 0x15, 0, 2, 0x70, 0x69, 0x6e, 0x67};
static const uint8_t echo_outside[32] = {0x45, 0, 0, 0x20, 0, 7, 0, 0, 0x40, 1, 0x7d, 0x24, 0xcb, 0, 0x71, 7, 0xc0, 0xa8, 1, 2,
    8, 0, 0x7c, 0xeb, 0x9c, 0x41, 0, 2, 0x70, 0x69, 0x6e, 0x67};
static const uint8_t tcp_inside_ipv6[61] = {0x60, 0, 0, 0, 0, 0x15, 6, 0x40, 0x20, 1, 0x0d, 0xb8, 0, 0, 0, 0, 0, 0, 0, 0, 0, 0,
    0, 1, 0x20, 1, 0x0d, 0xb8, 0, 0, 0, 0, 0, 0, 0, 0, 0, 0, 0, 2, 0, 0x15, 0, 0x50, 1, 2, 3, 4, 5, 6, 7, 8, 0x50, 0x18, 4, 0,
    0xc7, 0xdd, 0, 0, 0x78};
static const uint8_t tcp_outside_ipv6[61] = {0x60, 0, 0, 0, 0, 0x15, 6, 0x40, 0x20, 1, 0x0d, 0xb8, 0xff, 0xff, 0, 0, 0, 0, 0, 0,
    0, 0, 0, 7, 0x20, 1, 0x0d, 0xb8, 0, 0, 0, 0, 0, 0, 0, 0, 0, 0, 0, 2, 0x9c, 0x41, 0, 0x50, 1, 2, 3, 4, 5, 6, 7, 8, 0x50,
    0x18, 4, 0, 0x2b, 0xab, 0, 0, 0x78};
/* An echo reply of zeros, its checksum included, which is wrong; and with another identifier, with the right checksum. */
static const uint8_t zeros_outside[28] = {0x45, 0, 0, 28, 0, 7, 0, 0, 64, 1, 0xf7, 0x86, 192, 168, 1, 2, 192, 168, 1, 1,
    0, 0, 0, 0, 0, 0, 0, 0};
static const uint8_t zeros_inside[28] = {0x45, 0, 0, 28, 0, 7, 0, 0, 64, 1, 0xf7, 0x86, 192, 168, 1, 2, 192, 168, 1, 1,
    0, 0, 0xff, 0xea, 0, 21, 0, 0};
static const uint8_t icmp_error_outside[59] = {0x45, 0, 0, 0x3b, 0, 7, 0, 0, 0x40, 1, 0x14, 0x7f, 0xc6, 0x33, 0x64, 1, 0xcb, 0,
    0x71, 7, 3, 3, 0xfa, 0xcb, 0, 0, 0, 0, 0x45, 0, 0, 0x1f, 0, 7, 0, 0, 0x40, 0x11, 0x7d, 0x15, 0xcb, 0, 0x71, 7, 0xc0, 0xa8,
    1, 2, 0x9c, 0x41, 4, 0xd2, 0, 0x0b, 0x9c, 0xaf, 0x61, 0x62, 0x63};
static const uint8_t icmp_error_inside[59] = {0x45, 0, 0, 0x3b, 0, 7, 0, 0, 0x40, 1, 0x8e, 0xdd, 0xc6, 0x33, 0x64, 1, 0xc0,
    0xa8, 1, 1, 3, 3, 0x80, 0x6d, 0, 0, 0, 0, 0x45, 0, 0, 0x1f, 0, 7, 0, 0, 0x40, 0x11, 0xf7, 0x73, 0xc0, 0xa8, 1, 1, 0xc0,
    0xa8, 1, 2, 0, 0x15, 4, 0xd2, 0, 0x0b, 0xb3, 0x3a, 0x61, 0x62, 0x63};
static const uint8_t icmp_error_outside_ipv6[100] = {0x60, 0, 0, 0, 0, 0x3c, 0x3a, 0x40, 0x20, 1, 0x0d, 0xb8, 0, 0, 0, 0, 0, 0,
    0, 0, 0, 0, 0, 3, 0x20, 1, 0x0d, 0xb8, 0xff, 0xff, 0, 0, 0, 0, 0, 0, 0, 0, 0, 7, 1, 4, 9, 3, 0, 0, 0, 0, 0x60, 0, 0, 0, 0,
    0x0c, 0x3a, 0x40, 0x20, 1, 0x0d, 0xb8, 0xff, 0xff, 0, 0, 0, 0, 0, 0, 0, 0, 0, 7, 0x20, 1, 0x0d, 0xb8, 0, 0, 0, 0, 0, 0, 0,
    0, 0, 0, 0, 2, 0x80, 0, 0xa9, 0x29, 0x9c, 0x41, 0, 2, 0x70, 0x69, 0x6e, 0x67};
static const uint8_t icmp_error_inside_ipv6[100] = {0x60, 0, 0, 0, 0, 0x3c, 0x3a, 0x40, 0x20, 1, 0x0d, 0xb8, 0, 0, 0, 0, 0, 0,
    0, 0, 0, 0, 0, 3, 0x20, 1, 0x0d, 0xb8, 0, 0, 0, 0, 0, 0, 0, 0, 0, 0, 0, 1, 1, 4, 9, 9, 0, 0, 0, 0, 0x60, 0, 0, 0, 0, 0x0c,
    0x3a, 0x40, 0x20, 1, 0x0d, 0xb8, 0, 0, 0, 0, 0, 0, 0, 0, 0, 0, 0, 1, 0x20, 1, 0x0d, 0xb8, 0, 0, 0, 0, 0, 0, 0, 0, 0, 0, 0,
    2, 0x80, 0, 0x45, 0x5c, 0, 0x15, 0, 2, 0x70, 0x69, 0x6e, 0x67};

/* The first two translate what the host sends, and the other two what it receives. Any flag but 0 is set. */
static const etherparse_ipv4_translation to_outside = {{203, 0, 113, 7}, {0, 0, 0, 0}, 40001, 0, 1, 0, 1, 0};
static const etherparse_ipv4_translation back_inside = {{192, 168, 1, 1}, {9, 9, 9, 9}, 21, 9, 0x80, 0, 0xff, 0};
static const etherparse_ipv4_translation to_inside = {{9, 9, 9, 9}, {192, 168, 1, 1}, 9, 21, 0, 2, 0, 2};
static const etherparse_ipv4_translation back_outside = {{0, 0, 0, 0}, {203, 0, 113, 7}, 0, 40001, 0, 1, 0, 1};

/* The same over IPv6. */
static etherparse_ipv6_translation translation_ipv6(int of_source, int is_outside)
{
    static const uint8_t outside[16] = {0x20, 0x01, 0x0d, 0xb8, 0xff, 0xff, 0, 0, 0, 0, 0, 0, 0, 0, 0, 7};
    etherparse_ipv6_translation new_parts;
    memset(&new_parts, 0, sizeof new_parts);
    memcpy(of_source ? new_parts.source : new_parts.destination, is_outside ? outside : source6, 16);
    new_parts.source_port = new_parts.destination_port = is_outside ? 40001 : 21;
    new_parts.has_source = new_parts.has_source_port = (uint8_t)of_source;
    new_parts.has_destination = new_parts.has_destination_port = (uint8_t)!of_source;
    return new_parts;
}

/* Whether the packet becomes the other one, a byte behind it stays, and so does the error. */
static int becomes(const uint8_t *packet, const uint8_t *other, size_t len, const etherparse_ipv4_translation *new_parts)
{
    uint8_t changed[101];
    clear();
    memcpy(changed, packet, len);
    changed[len] = 0xaa;
    return etherparse_translate_ipv4(changed, len + 1, new_parts, &error) == ETHERPARSE_OK && memcmp(changed, other, len) == 0 &&
           changed[len] == 0xaa && error_is_untouched();
}

static int becomes_ipv6(const uint8_t *packet, const uint8_t *other, size_t len, etherparse_ipv6_translation new_parts)
{
    uint8_t changed[101];
    clear();
    memcpy(changed, packet, len);
    changed[len] = 0xaa;
    return etherparse_translate_ipv6(changed, len + 1, &new_parts, &error) == ETHERPARSE_OK && memcmp(changed, other, len) == 0 &&
           changed[len] == 0xaa && error_is_untouched();
}

/* The packet with a quoted total length without the header, as hosts that follow BSD quote it. The quoted checksum becomes 20 more. */
static void without_header_len(uint8_t changed[59], const uint8_t packet[59])
{
    memcpy(changed, packet, 59);
    changed[31] -= 20;
    changed[39] += 20;
}

/* The TCP segment over IPv6 behind hop-by-hop options. */
static void behind_options(uint8_t changed[69], const uint8_t packet[61])
{
    static const uint8_t options[8] = {6, 0, 1, 4, 0, 0, 0, 0};
    memcpy(changed, packet, 40);
    changed[5] += 8;
    changed[6] = 0;
    memcpy(changed + 40, options, 8);
    memcpy(changed + 48, packet + 40, 21);
}

static void translations(void)
{
    static const etherparse_ipv4_translation nothing = {{1, 2, 3, 4}, {5, 6, 7, 8}, 9, 10, 0, 0, 0, 0};
    uint8_t fragment[31], expected[31], outside[69], inside[69];
    EXPECT(becomes(udp_inside, udp_outside, 31, &to_outside) && becomes(udp_outside, udp_inside, 31, &back_inside));
    EXPECT(becomes(echo_inside, echo_outside, 32, &to_outside) && becomes(echo_outside, echo_inside, 32, &back_inside));
    EXPECT(becomes(icmp_error_outside, icmp_error_inside, 59, &to_inside));
    EXPECT(becomes(icmp_error_inside, icmp_error_outside, 59, &back_outside));
    EXPECT(becomes(udp_inside, udp_inside, 31, &nothing) && becomes(icmp_error_inside, icmp_error_inside, 59, &nothing));
    EXPECT(becomes_ipv6(tcp_inside_ipv6, tcp_outside_ipv6, 61, translation_ipv6(1, 1)));
    EXPECT(becomes_ipv6(tcp_outside_ipv6, tcp_inside_ipv6, 61, translation_ipv6(1, 0)));
    EXPECT(becomes_ipv6(icmp_error_outside_ipv6, icmp_error_inside_ipv6, 100, translation_ipv6(0, 0)));
    EXPECT(becomes_ipv6(icmp_error_inside_ipv6, icmp_error_outside_ipv6, 100, translation_ipv6(0, 1)));
    without_header_len(outside, icmp_error_outside);
    without_header_len(inside, icmp_error_inside);
    EXPECT(becomes(outside, inside, 59, &to_inside) && becomes(inside, outside, 59, &back_outside));
    behind_options(outside, tcp_outside_ipv6);
    behind_options(inside, tcp_inside_ipv6);
    EXPECT(becomes_ipv6(inside, outside, 69, translation_ipv6(1, 1)) && becomes_ipv6(outside, inside, 69, translation_ipv6(1, 0)));
    EXPECT(becomes(zeros_outside, zeros_inside, 28, &to_inside));
    EXPECT(etherparse_icmpv4_checksum_test(zeros_outside + 20, 8, NULL) == ETHERPARSE_STATUS_CHECKSUM_WRONG);
    OK(etherparse_icmpv4_checksum_test(zeros_inside + 20, 8, NULL));
    /* In a later fragment the first bytes of the payload are no ports. */
    memcpy(fragment, udp_inside, 31);
    fragment[7] = 1;
    memcpy(expected, udp_outside, 20);
    memcpy(expected + 20, udp_inside + 20, 11);
    expected[7] = 1;
    EXPECT(becomes(fragment, expected, 31, &to_outside));
}

/* Whether the packet, with another byte at a place, is refused with this status and otherwise stays as it is. */
static int is_not_translated(const uint8_t *packet, size_t len, size_t place, uint8_t byte, etherparse_status status)
{
    uint8_t changed[100], untouched[100];
    clear();
    memcpy(changed, packet, len);
    changed[place] = byte;
    memcpy(untouched, changed, len);
    return etherparse_translate_ipv4(changed, len, &to_outside, &error) == status && error.status == status &&
           memcmp(changed, untouched, len) == 0;
}

static void translations_refused(void)
{
    const etherparse_ipv6_translation new_parts = translation_ipv6(1, 1);
    static const uint8_t source_route[8] = {131, 7, 4, 10, 0, 0, 1, 0};
    uint8_t packet[100];
    EXPECT(is_not_translated(udp_inside, 31, 0, 0x55, ETHERPARSE_STATUS_IP_VERSION) && error.actual == 5);
    EXPECT(is_not_translated(tcp_inside_ipv6, 61, 0, 0x60, ETHERPARSE_STATUS_IP_VERSION) && error.actual == 6);
    EXPECT(error_has_text("IP Error: the version is 6."));
    memcpy(packet, udp_inside, 20);
    memcpy(packet + 20, source_route, 8);
    memcpy(packet + 28, udp_inside + 20, 11);
    packet[3] = 39;
    EXPECT(is_not_translated(packet, 39, 0, 0x47, ETHERPARSE_STATUS_TRANSLATE_SOURCE_ROUTE));
    EXPECT(error_is_only(error.status) && error_has_text("Translation Error: the IPv4 options contain a source route."));
    EXPECT(is_not_translated(udp_inside, 31, 9, 58, ETHERPARSE_STATUS_TRANSLATE_PROTOCOL) && error.actual == 58);
    EXPECT(error_has_text("Translation Error: the protocol 58 is not translated."));
    EXPECT(is_not_translated(udp_inside, 27, 9, 17, ETHERPARSE_STATUS_TRANSLATE_HEADER_CUT_OFF));
    EXPECT(error.required_len == 8 && error.len == 7);
    EXPECT(error_has_text("Translation Error: the transport header has at least 8 bytes, and the packet contains 7."));
    EXPECT(is_not_translated(echo_inside, 32, 20, 9, ETHERPARSE_STATUS_TRANSLATE_ICMP_MESSAGE));
    EXPECT(error_is_only(error.status) && error_has_text("Translation Error: the ICMP message is no query and no error, or a redirect."));
    EXPECT(is_not_translated(icmp_error_inside, 59, 28, 0x55, ETHERPARSE_STATUS_TRANSLATE_QUOTED_PACKET));
    EXPECT(error_is_only(error.status));
    EXPECT(error_has_text("Translation Error: the packet that the ICMP error is about can't be translated."));
    memcpy(packet, udp_inside, 31);
    REFUSED(etherparse_translate_ipv6(packet, 31, &new_parts, &error), ETHERPARSE_STATUS_IP_VERSION);
    EXPECT(error.actual == 4 && memcmp(packet, udp_inside, 31) == 0);
    memcpy(packet, tcp_inside_ipv6, 61);
    REFUSED(etherparse_translate_ipv6(packet, 47, &new_parts, &error), ETHERPARSE_STATUS_TRANSLATE_HEADER_CUT_OFF);
    EXPECT(error.required_len == 8 && error.len == 7 && memcmp(packet, tcp_inside_ipv6, 61) == 0);
}

/* An ICMP error whose quoted packet is translated as if it had come back, by a translation of its own. */
static void translations_of_quoted(void)
{
    static const etherparse_ipv4_translation host = {{0, 0, 0, 0}, {192, 168, 1, 1}, 0, 0, 0, 1, 0, 0};
    static const etherparse_ipv4_translation quoted = {{192, 168, 1, 1}, {9, 9, 9, 9}, 21, 9, 1, 0, 1, 0};
    static const etherparse_ipv4_translation nothing = {{9, 9, 9, 9}, {9, 9, 9, 9}, 9, 9, 0, 0, 0, 0};
    etherparse_ipv6_translation host_ipv6 = translation_ipv6(0, 0), quoted_ipv6 = translation_ipv6(1, 0);
    uint8_t packet[100], other[100];
    clear();
    memcpy(packet, icmp_error_outside, 59);
    OK(etherparse_translate_ipv4_with_quoted(packet, 59, &host, &quoted, &error));
    EXPECT(memcmp(packet, icmp_error_inside, 59) == 0);
    memcpy(packet, icmp_error_outside, 59);
    OK(etherparse_translate_ipv4_with_quoted(packet, 59, &host, &nothing, &error));
    EXPECT(memcmp(packet, icmp_error_inside, 20) == 0 && memcmp(packet + 20, icmp_error_outside + 20, 39) == 0);
    memcpy(packet, udp_inside, 31);
    OK(etherparse_translate_ipv4_with_quoted(packet, 31, &to_outside, &nothing, &error));
    EXPECT(memcmp(packet, udp_outside, 31) == 0);
    memcpy(packet, icmp_error_outside_ipv6, 100);
    OK(etherparse_translate_ipv6_with_quoted(packet, 100, &host_ipv6, &quoted_ipv6, &error));
    EXPECT(memcmp(packet, icmp_error_inside_ipv6, 100) == 0 && error_is_untouched());
    /* Protocol 47 in the quoted packet is refused only with a port. */
    memcpy(packet, icmp_error_outside, 59);
    packet[37] = 47;
    memcpy(other, packet, 59);
    FILLED(etherparse_translate_ipv4_with_quoted(packet, 59, &host, &quoted, &error), ETHERPARSE_STATUS_TRANSLATE_QUOTED_PACKET);
    EXPECT(memcmp(packet, other, 59) == 0);
    OK(etherparse_translate_ipv4_with_quoted(packet, 59, &host, &host, &error));
    memcpy(packet, icmp_error_outside_ipv6, 100);
    packet[54] = 47;
    memcpy(other, packet, 100);
    FILLED(etherparse_translate_ipv6_with_quoted(packet, 100, &host_ipv6, &quoted_ipv6, &error), ETHERPARSE_STATUS_TRANSLATE_QUOTED_PACKET);
    EXPECT(memcmp(packet, other, 100) == 0);
    REFUSED(etherparse_translate_ipv4_with_quoted(packet, 100, &host, &quoted, &error), ETHERPARSE_STATUS_IP_VERSION);
}

/* Whether this checksum in the packet is partial, and the call stores the other one, after which the packet is the first again. */
static int is_completed(const uint8_t *packet, size_t len, size_t place, uint16_t partial)
{
    uint8_t changed[101];
    uint32_t is_partial = 7, is_still_partial = 7;
    clear();
    memcpy(changed, packet, len);
    changed[len] = 0xaa;
    changed[place] = (uint8_t)(partial >> 8);
    changed[place + 1] = (uint8_t)partial;
    return etherparse_packet_checksum_is_partial(changed, len + 1, &is_partial, &error) == ETHERPARSE_OK && is_partial == 1 &&
           etherparse_packet_checksum_store(changed, len + 1, &checksum, &error) == ETHERPARSE_OK &&
           etherparse_packet_checksum_is_partial(changed, len + 1, &is_still_partial, &error) == ETHERPARSE_OK && is_still_partial == 0 &&
           checksum == packet[place] * 256 + packet[place + 1] && memcmp(changed, packet, len) == 0 && changed[len] == 0xaa &&
           error_is_untouched();
}

/* Whether the packet, with another byte at a place, is refused for this verdict and otherwise stays as it is. It is not partial. */
static int is_not_completed(const uint8_t *packet, size_t len, size_t place, uint8_t byte, uint32_t verdict)
{
    uint8_t changed[100], untouched[100];
    uint32_t is_partial = 7;
    clear();
    memcpy(changed, packet, len);
    changed[place] = byte;
    memcpy(untouched, changed, len);
    return etherparse_packet_checksum_is_partial(changed, len, &is_partial, &error) == ETHERPARSE_OK && is_partial == 0 &&
           error_is_untouched() &&
           etherparse_packet_checksum_store(changed, len, &checksum, &error) == ETHERPARSE_STATUS_CHECKSUM_UNTESTED &&
           error.status == ETHERPARSE_STATUS_CHECKSUM_UNTESTED && error.actual == verdict && error.len == 0 && checksum == 0x7777 &&
           memcmp(changed, untouched, len) == 0;
}

static void packet_checksums(void)
{
    uint8_t packet[100];
    uint32_t is_partial = 7;
    /* The sums of the pseudo headers, worked out by hand. */
    EXPECT(is_completed(udp_inside, 31, 26, 0x8370));
    EXPECT(is_completed(tcp_inside_ipv6, 61, 56, 0x5b90));
    EXPECT(is_completed(icmp_error_inside_ipv6, 100, 42, 0x5bec));
    memcpy(packet, echo_inside, 32);
    packet[22] = packet[23] = 0;
    OK(etherparse_packet_checksum_is_partial(packet, 32, &is_partial, &error));
    OK(etherparse_packet_checksum_store(packet, 32, &checksum, &error));
    EXPECT(is_partial == 0 && checksum == 0x1918 && memcmp(packet, echo_inside, 32) == 0);
    EXPECT(is_not_completed(udp_inside, 31, 6, 0x20, ETHERPARSE_VERDICT_UNTESTED_FRAGMENT));
    EXPECT(error_has_text("Checksum Error: the packet is a fragment."));
    EXPECT(is_not_completed(udp_inside, 31, 9, 47, ETHERPARSE_VERDICT_UNTESTED_OTHER_PROTOCOL));
    EXPECT(error_has_text("Checksum Error: the protocol has no known checksum."));
    EXPECT(is_not_completed(udp_inside, 31, 25, 0, ETHERPARSE_VERDICT_UNTESTED_ZERO_LENGTH));
    EXPECT(error_has_text("Checksum Error: the length field of the UDP packet is 0."));
    error.actual = ETHERPARSE_VERDICT_UNTESTED_CUT_OFF;
    EXPECT(error_has_text("Checksum Error: the packet is cut off."));
    error.actual = ETHERPARSE_VERDICT_UNTESTED_UNKNOWN_DESTINATION;
    EXPECT(error_has_text("Checksum Error: the final destination is unknown."));
    error.actual = ETHERPARSE_VERDICT_UNTESTED_TOO_LONG;
    EXPECT(error_has_text("Checksum Error: the packet is too long for its pseudo header."));
    error.actual = ETHERPARSE_VERDICT_RIGHT;
    EXPECT(error_has_text("Unknown error."));
    clear();
    memcpy(packet, udp_inside, 31);
    packet[25] = 12;
    is_partial = 7;
    REFUSED(etherparse_packet_checksum_store(packet, 31, &checksum, &error), ETHERPARSE_STATUS_LENGTH);
    EXPECT(error.layer_start_offset == 0 && error.required_len == 12 && error.len == 11 && checksum == 0x7777);
    REFUSED(etherparse_packet_checksum_is_partial(packet, 31, &is_partial, &error), ETHERPARSE_STATUS_LENGTH);
    EXPECT(error.layer_start_offset == 20 && error.required_len == 12 && error.len == 11 && is_partial == 7);
    REFUSED(etherparse_packet_checksum_store(packet, 30, &checksum, &error), ETHERPARSE_STATUS_IP_PACKET_CUT_OFF);
    REFUSED(etherparse_packet_checksum_is_partial(packet, 30, &is_partial, &error), ETHERPARSE_STATUS_IP_PACKET_CUT_OFF);
    EXPECT(checksum == 0x7777 && is_partial == 7);
}

static void canonical(void)
{
    static const uint8_t captured[8] = {3, 4, 0, 0, 1, 2, 5, 0xdc}, expected[8] = {3, 4, 0, 0, 0, 0, 5, 0xdc};
    static const uint8_t solicitation[8] = {133, 0, 1, 2, 9, 9, 9, 9}, cleared[8] = {133, 0, 1, 2, 0, 0, 0, 0};
    uint8_t reserved[28], canonical_udp[8] = {0, 21, 0, 22, 0, 7, 0, 0};
    clear();
    OK(etherparse_canonical_header(ETHERPARSE_PROTOCOL_ICMPV4, captured, 8, buffer, 64, &written, &error));
    EXPECT(holds(expected, 8, 8));
    OK(etherparse_canonical_header(ETHERPARSE_PROTOCOL_ICMPV6, solicitation, 8, buffer, 64, &written, &error));
    EXPECT(holds(cleared, 8, 8));
    OK(etherparse_canonical_header(ETHERPARSE_PROTOCOL_UDP, canonical_udp, 8, buffer, 64, &written, &error));
    EXPECT(holds(canonical_udp, 8, 8));
    memcpy(reserved, syn, 28);
    reserved[12] |= 0x0e;
    OK(etherparse_canonical_header(ETHERPARSE_PROTOCOL_TCP, reserved, 28, buffer, 64, &written, &error));
    EXPECT(holds(syn, 28, 28));
    REFUSED(etherparse_canonical_header(2, captured, 8, buffer, 64, &written, &error), ETHERPARSE_STATUS_PROTOCOL_UNKNOWN);
    EXPECT(error.actual == 2);
    REFUSED(etherparse_canonical_header(6, captured, 8, buffer, 64, &written, &error), ETHERPARSE_STATUS_LENGTH);
}

static void sums(void)
{
    static const uint8_t bytes[5] = {0x45, 0, 0, 31, 1};
    etherparse_sum whole = etherparse_sum_add(etherparse_sum_new(), bytes, 5);
    etherparse_sum parts = etherparse_sum_add(etherparse_sum_add(etherparse_sum_new(), bytes, 4), bytes + 4, 1);
    size_t first;
    EXPECT(etherparse_sum_new().value == 0 && whole.value == 0x461f && parts.value == 0x461f);
    EXPECT(etherparse_sum_checksum(whole) == 0xb9e0 && etherparse_sum_udp_checksum(whole) == 0xb9e0);
    /* In two parts, wherever they are parted, and in five parts of one byte. */
    for (first = 0; first <= 5; first++) {
        parts = etherparse_sum_add_at(etherparse_sum_new(), 0, bytes, first);
        EXPECT(etherparse_sum_add_at(parts, first, bytes + first, 5 - first).value == whole.value);
    }
    parts = etherparse_sum_new();
    for (first = 0; first < 5; first++)
        parts = etherparse_sum_add_at(parts, first, bytes + first, 1);
    EXPECT(parts.value == whole.value);
    whole.value = 0xffff;
    EXPECT(etherparse_sum_checksum(whole) == 0 && etherparse_sum_udp_checksum(whole) == 0xffff);
}

/* The packet of udp, from 203.0.113.7 and port 40001. */
static void changes(void)
{
    static const uint8_t outside[4] = {203, 0, 113, 7}, old_port[2] = {0, 21}, new_port[2] = {0x9c, 0x41};
    etherparse_checksum_change change = etherparse_checksum_change_new(), back;
    EXPECT(change.removed == 0 && change.added == 0 && etherparse_checksum_change_apply(change, 0xb33a) == 0xb33a);
    change = etherparse_checksum_change_replace(change, source4, 4, outside, 4);
    change = etherparse_checksum_change_replace(change, old_port, 2, new_port, 2);
    EXPECT(change.removed == 0xc1be && change.added == 0xd849);
    EXPECT(etherparse_checksum_change_apply(change, 0xb33a) == 0x9caf && etherparse_checksum_change_apply_udp(change, 0xb33a) == 0x9caf);
    EXPECT(etherparse_checksum_change_apply_udp(change, 0) == 0);
    back = etherparse_checksum_change_reversed(change);
    EXPECT(back.removed == change.added && back.added == change.removed);
    EXPECT(etherparse_checksum_change_apply(back, 0x9caf) == 0xb33a);
    /* Of bytes that were all zeros the wrong checksum becomes right. */
    change.removed = 0;
    change.added = 0x0015;
    EXPECT(etherparse_checksum_change_apply(change, 0) == 0xffea && etherparse_checksum_change_apply(change, 0xffff) == 0xffea);
    /* Equation 4 of RFC 1624, section 4, gives 0000 and not ffff. */
    change.removed = 0x5555;
    change.added = 0x3285;
    EXPECT(etherparse_checksum_change_apply(change, 0xdd2f) == 0x0000 && etherparse_checksum_change_apply_udp(change, 0xdd2f) == 0xffff);
}

/* The name of a status, and that its length is answered, also where the buffer is too small for it. */
static void named(etherparse_status status, const char *name, int line)
{
    char text[64] = "", front[5] = "";
    expect(etherparse_status_name(status, text, sizeof text) == strlen(name) && strcmp(text, name) == 0, line);
    expect(etherparse_status_name(status, front, 0) == strlen(name) && front[0] == 0, line);
    expect(etherparse_status_name(status, front, 5) == strlen(name) && strncmp(front, name, 4) == 0 && front[4] == 0, line);
}

#define NAMED(status) named(status, #status, __LINE__)

static void names(void)
{
    NAMED(ETHERPARSE_OK);
    NAMED(ETHERPARSE_STATUS_LENGTH);
    NAMED(ETHERPARSE_STATUS_DATA_OFFSET);
    NAMED(ETHERPARSE_STATUS_VALUE_TOO_BIG);
    NAMED(ETHERPARSE_STATUS_BUFFER_TOO_SMALL);
    NAMED(ETHERPARSE_STATUS_CHECKSUM_WRONG);
    NAMED(ETHERPARSE_STATUS_CHECKSUM_ABSENT);
    NAMED(ETHERPARSE_STATUS_OPTIONS_TOO_LONG);
    NAMED(ETHERPARSE_STATUS_FLAGS_UNKNOWN);
    NAMED(ETHERPARSE_STATUS_PROTOCOL_UNKNOWN);
    NAMED(ETHERPARSE_STATUS_OPTIONS_END);
    NAMED(ETHERPARSE_STATUS_OPTION_CUT_OFF);
    NAMED(ETHERPARSE_STATUS_OPTION_SIZE);
    NAMED(ETHERPARSE_STATUS_OPTION_UNKNOWN);
    NAMED(ETHERPARSE_STATUS_MESSAGE_UNKNOWN);
    NAMED(ETHERPARSE_STATUS_IP_HEADER_CUT_OFF);
    NAMED(ETHERPARSE_STATUS_IP_VERSION);
    NAMED(ETHERPARSE_STATUS_IP_HEADER_LENGTH);
    NAMED(ETHERPARSE_STATUS_IP_TOTAL_LENGTH);
    NAMED(ETHERPARSE_STATUS_IP_PACKET_CUT_OFF);
    NAMED(ETHERPARSE_STATUS_IP_EXTENSION_CUT_OFF);
    NAMED(ETHERPARSE_STATUS_IP_JUMBO_PAYLOAD_MISSING);
    NAMED(ETHERPARSE_STATUS_IP_JUMBO_PAYLOAD_LENGTH);
    NAMED(ETHERPARSE_STATUS_IP_JUMBO_PAYLOAD_UNEXPECTED);
    NAMED(ETHERPARSE_STATUS_IP_JUMBO_PAYLOAD_FRAGMENT);
    NAMED(ETHERPARSE_STATUS_OPTION_VALUES);
    NAMED(ETHERPARSE_STATUS_ECHO_FRAGMENT);
    NAMED(ETHERPARSE_STATUS_ECHO_NO_REQUEST);
    NAMED(ETHERPARSE_STATUS_ECHO_HAS_OPTIONS);
    NAMED(ETHERPARSE_STATUS_ECHO_HEADER_CHECKSUM_WRONG);
    NAMED(ETHERPARSE_STATUS_ECHO_REQUEST_SOURCE);
    NAMED(ETHERPARSE_STATUS_ECHO_REPLY_SOURCE);
    NAMED(ETHERPARSE_STATUS_NO_ICMP_ERROR);
    NAMED(ETHERPARSE_STATUS_TRANSLATE_HAS_OPTIONS);
    NAMED(ETHERPARSE_STATUS_TRANSLATE_PROTOCOL);
    NAMED(ETHERPARSE_STATUS_TRANSLATE_HEADER_CUT_OFF);
    NAMED(ETHERPARSE_STATUS_TRANSLATE_ICMP_MESSAGE);
    NAMED(ETHERPARSE_STATUS_TRANSLATE_QUOTED_PACKET);
    NAMED(ETHERPARSE_STATUS_ECHO_NO_REPLY);
    NAMED(ETHERPARSE_STATUS_TRANSLATE_SOURCE_ROUTE);
    NAMED(ETHERPARSE_STATUS_CHECKSUM_UNTESTED);
    named(25, "unknown status", __LINE__);
}

/* The name of a verdict, and that its length is answered, also where the buffer is too small for it. */
static void verdict_named(uint32_t verdict, const char *name, int line)
{
    char text[64] = "", front[5] = "";
    expect(etherparse_verdict_name(verdict, text, sizeof text) == strlen(name) && strcmp(text, name) == 0, line);
    expect(etherparse_verdict_name(verdict, front, 0) == strlen(name) && front[0] == 0, line);
    expect(etherparse_verdict_name(verdict, front, 5) == strlen(name) && strncmp(front, name, 4) == 0 && front[4] == 0, line);
}

#define VERDICT_NAMED(verdict) verdict_named(verdict, #verdict, __LINE__)

static void verdict_names(void)
{
    VERDICT_NAMED(ETHERPARSE_VERDICT_RIGHT);
    VERDICT_NAMED(ETHERPARSE_VERDICT_ABSENT);
    VERDICT_NAMED(ETHERPARSE_VERDICT_WRONG);
    VERDICT_NAMED(ETHERPARSE_VERDICT_PARTIAL);
    VERDICT_NAMED(ETHERPARSE_VERDICT_UNTESTED_FRAGMENT);
    VERDICT_NAMED(ETHERPARSE_VERDICT_UNTESTED_CUT_OFF);
    VERDICT_NAMED(ETHERPARSE_VERDICT_UNTESTED_UNKNOWN_DESTINATION);
    VERDICT_NAMED(ETHERPARSE_VERDICT_UNTESTED_OTHER_PROTOCOL);
    VERDICT_NAMED(ETHERPARSE_VERDICT_UNTESTED_ZERO_LENGTH);
    VERDICT_NAMED(ETHERPARSE_VERDICT_UNTESTED_TOO_LONG);
    verdict_named(0, "unknown verdict", __LINE__);
    verdict_named(5, "unknown verdict", __LINE__);
    verdict_named(22, "unknown verdict", __LINE__);
    verdict_named(UINT32_MAX, "unknown verdict", __LINE__);
}

/* The constant words of a number are those that the calls write. A verdict has a text of its own if it has a name. */
static void words_of(uint32_t number, int line)
{
    char name[64];
    int is_verdict;
    expect(etherparse_status_name(number, name, sizeof name) < sizeof name && strcmp(name, etherparse_name_of_status(number)) == 0, line);
    expect(etherparse_verdict_name(number, name, sizeof name) < sizeof name && strcmp(name, etherparse_name_of_verdict(number)) == 0, line);
    is_verdict = strcmp(name, "unknown verdict") != 0;
    expect((strcmp(etherparse_text_of_verdict(number), "unknown verdict") != 0) == is_verdict, line);
}

static void words(void)
{
    uint32_t number, other;
    int bit;
    for (number = 0; number < 128; number++)
        words_of(number, __LINE__);
    for (bit = 7; bit < 32; bit++)
        words_of((uint32_t)1 << bit, __LINE__);
    words_of(UINT32_MAX, __LINE__);
    for (number = 0; number < 32; number++)
        for (other = 0; other < number; other++)
            EXPECT(strcmp(etherparse_text_of_verdict(number), etherparse_text_of_verdict(other)) != 0 ||
                   strcmp(etherparse_text_of_verdict(number), "unknown verdict") == 0);
    EXPECT(strcmp(etherparse_text_of_verdict(ETHERPARSE_VERDICT_PARTIAL), "the checksum is partial") == 0);
}

/* What a status means, and that its length is answered, also where the buffer is too small for it. */
static void means(etherparse_status status, const char *meaning, int line)
{
    char text[128], front[5] = "";
    memset(text, 0x77, sizeof text);
    expect(etherparse_status_text(status, text, sizeof text) == strlen(meaning) && strcmp(text, meaning) == 0, line);
    expect(etherparse_status_text(status, front, 0) == strlen(meaning) && front[0] == 0, line);
    expect(etherparse_status_text(status, front, 5) == strlen(meaning) && strncmp(front, meaning, 4) == 0 && front[4] == 0, line);
}

#define MEANS(status, meaning) means(status, meaning, __LINE__)

static void meanings(void)
{
    MEANS(ETHERPARSE_OK, "no error");
    MEANS(ETHERPARSE_STATUS_LENGTH, "a length is too short or too long");
    MEANS(ETHERPARSE_STATUS_DATA_OFFSET, "the data offset of a TCP header is below 5");
    MEANS(ETHERPARSE_STATUS_VALUE_TOO_BIG, "a value is above its limit");
    MEANS(ETHERPARSE_STATUS_BUFFER_TOO_SMALL, "the buffer is too small");
    MEANS(ETHERPARSE_STATUS_CHECKSUM_WRONG, "the checksum is wrong");
    MEANS(ETHERPARSE_STATUS_CHECKSUM_ABSENT, "the UDP packet has no checksum");
    MEANS(ETHERPARSE_STATUS_OPTIONS_TOO_LONG, "more than 40 bytes of TCP options");
    MEANS(ETHERPARSE_STATUS_FLAGS_UNKNOWN, "the TCP flags are above 0x1ff");
    MEANS(ETHERPARSE_STATUS_PROTOCOL_UNKNOWN, "the call does not accept the protocol");
    MEANS(ETHERPARSE_STATUS_OPTIONS_END, "no TCP option is left");
    MEANS(ETHERPARSE_STATUS_OPTION_CUT_OFF, "the bytes end within a TCP option");
    MEANS(ETHERPARSE_STATUS_OPTION_SIZE, "the length byte of a TCP option is wrong");
    MEANS(ETHERPARSE_STATUS_OPTION_UNKNOWN, "the kind of a TCP option is unknown");
    MEANS(ETHERPARSE_STATUS_MESSAGE_UNKNOWN, "the kind or the code of an ICMP message is unknown");
    MEANS(ETHERPARSE_STATUS_IP_HEADER_CUT_OFF, "the bytes end within the IP header");
    MEANS(ETHERPARSE_STATUS_IP_VERSION, "the call does not accept this version of IP");
    MEANS(ETHERPARSE_STATUS_IP_HEADER_LENGTH, "the header length of an IPv4 packet is below 20 bytes");
    MEANS(ETHERPARSE_STATUS_IP_TOTAL_LENGTH, "the total length of an IPv4 packet is below its header length");
    MEANS(ETHERPARSE_STATUS_IP_PACKET_CUT_OFF, "the IP header counts more bytes than there are");
    MEANS(ETHERPARSE_STATUS_IP_EXTENSION_CUT_OFF, "the packet ends within an extension header");
    MEANS(ETHERPARSE_STATUS_IP_JUMBO_PAYLOAD_MISSING, "an IPv6 packet has payload length 0 and no jumbo payload option");
    MEANS(ETHERPARSE_STATUS_IP_JUMBO_PAYLOAD_LENGTH, "the jumbo payload length is not above 65535");
    MEANS(ETHERPARSE_STATUS_IP_JUMBO_PAYLOAD_UNEXPECTED, "an IPv6 packet has a jumbo payload option and a payload length above 0");
    MEANS(ETHERPARSE_STATUS_IP_JUMBO_PAYLOAD_FRAGMENT, "an IPv6 packet has a jumbo payload option and a fragment header");
    MEANS(ETHERPARSE_STATUS_OPTION_VALUES, "a TCP option of this kind cannot have these values");
    MEANS(ETHERPARSE_STATUS_ECHO_FRAGMENT, "the packet is a fragment, which is not answered");
    MEANS(ETHERPARSE_STATUS_ECHO_NO_REQUEST, "the packet is no echo request, or has another IP version");
    MEANS(ETHERPARSE_STATUS_ECHO_HAS_OPTIONS, "the packet has IPv4 options, an authentication header or extension headers");
    MEANS(ETHERPARSE_STATUS_ECHO_HEADER_CHECKSUM_WRONG, "the checksum of the IPv4 header is wrong");
    MEANS(ETHERPARSE_STATUS_ECHO_REQUEST_SOURCE, "the source of the request is not the address of one host");
    MEANS(ETHERPARSE_STATUS_ECHO_REPLY_SOURCE, "the source of the reply is not the address of one host");
    MEANS(ETHERPARSE_STATUS_NO_ICMP_ERROR, "the ICMP message is not an error");
    MEANS(ETHERPARSE_STATUS_TRANSLATE_HAS_OPTIONS, "the packet has IPv4 options, and is not translated");
    MEANS(ETHERPARSE_STATUS_TRANSLATE_PROTOCOL, "the protocol is not translated");
    MEANS(ETHERPARSE_STATUS_TRANSLATE_HEADER_CUT_OFF, "the packet ends within a transport header that would be translated");
    MEANS(ETHERPARSE_STATUS_TRANSLATE_ICMP_MESSAGE, "the ICMP message is no query and no error, or a redirect, and is not translated");
    MEANS(ETHERPARSE_STATUS_TRANSLATE_QUOTED_PACKET, "the packet that the ICMP error is about cannot be translated");
    MEANS(ETHERPARSE_STATUS_ECHO_NO_REPLY, "the packet is not the reply to the echo request");
    MEANS(ETHERPARSE_STATUS_TRANSLATE_SOURCE_ROUTE, "the packet has a source route, and is not translated");
    MEANS(ETHERPARSE_STATUS_CHECKSUM_UNTESTED, "the checksum of the packet is not tested");
    MEANS(25, "unknown status");
    MEANS(0xffffffff, "unknown status");
}

static void texts(void)
{
    static const char expected[] = "Length Error: layer UdpHeader at offset 0 requires length 8, the length is 3 (from Slice).";
    etherparse_udp_packet packet;
    char text[ETHERPARSE_ERROR_TEXT_MAX_LEN + 1];
    size_t len = sizeof expected - 1;
    clear();
    REFUSED(etherparse_udp_packet_read(ping4, 3, &packet, &error), ETHERPARSE_STATUS_LENGTH);
    memset(text, 0x77, sizeof text);
    EXPECT(etherparse_error_text(&error, text, sizeof text) == len && strcmp(text, expected) == 0 && text[len + 1] == 0x77);
    memset(text, 0x77, sizeof text);
    EXPECT(etherparse_error_text(&error, text, len + 1) == len && strcmp(text, expected) == 0 && text[len + 1] == 0x77);
    memset(text, 0x77, sizeof text);
    EXPECT(etherparse_error_text(&error, text, len) == len && strlen(text) == len - 1 && memcmp(text, expected, len - 1) == 0);
    EXPECT(text[len] == 0x77 && etherparse_error_text(&error, text, 1) == len && text[0] == 0 && text[1] == expected[1]);
    memset(text, 0x77, sizeof text);
    EXPECT(etherparse_error_text(&error, text, 0) == len && text[0] == 0x77);
    memset(&error, 0xff, sizeof error);
    EXPECT(etherparse_error_text(&error, text, sizeof text) == strlen(text) && text[0] != 0);
}

/* The same where `told` is &error or NULL, whatever the error contained before. */
#define ANSWERS_TO(call, wanted, filled) (memset(&error, 0x77, sizeof error), EXPECT((call) == (wanted) && (told == NULL || (filled))))
#define REFUSED_TO(call, wanted) ANSWERS_TO(call, wanted, error.status == (wanted))
#define FILLED_TO(call, wanted) ANSWERS_TO(call, wanted, error_is_only(wanted))

/* The six checksum calls that UDP and TCP each have, without bytes. */
#define NO_CHECKSUM_OF(protocol)                                                                                                  \
    REFUSED_TO(etherparse_##protocol##_checksum_ipv4(NULL, 0, source4, destination4, &checksum, told), ETHERPARSE_STATUS_LENGTH); \
    REFUSED_TO(etherparse_##protocol##_checksum_ipv6(NULL, 0, source6, destination6, &checksum, told), ETHERPARSE_STATUS_LENGTH); \
    REFUSED_TO(etherparse_##protocol##_checksum_store_ipv4(NULL, 0, source4, destination4, told), ETHERPARSE_STATUS_LENGTH);      \
    REFUSED_TO(etherparse_##protocol##_checksum_store_ipv6(NULL, 0, source6, destination6, told), ETHERPARSE_STATUS_LENGTH);      \
    REFUSED_TO(etherparse_##protocol##_checksum_test_ipv4(NULL, 0, source4, destination4, told), ETHERPARSE_STATUS_LENGTH);       \
    REFUSED_TO(etherparse_##protocol##_checksum_test_ipv6(NULL, 0, source6, destination6, told), ETHERPARSE_STATUS_LENGTH)

/* Each pointer that has a number beside it, as NULL with 0; and each call with this error, or without one. */
static void nulls(etherparse_error *told)
{
    static const etherparse_udp_header udp_header;
    static const etherparse_tcp_header tcp_header;
    static const etherparse_ipv4_header ipv4_udp = {{0}, {0}, 64, ETHERPARSE_PROTOCOL_UDP};
    static const etherparse_ipv6_header ipv6_udp = {{0}, {0}, 64, ETHERPARSE_PROTOCOL_UDP};
    static const etherparse_icmpv4_header echo4 = {ETHERPARSE_ICMPV4_KIND_ECHO_REPLY, 0, 0, 0, 0, 0, 0, 0, 0, 0, 0, {0, 0, 0, 0}};
    static const etherparse_icmpv6_header echo6 = {ETHERPARSE_ICMPV6_KIND_ECHO_REPLY, 0, 0, 0, 0, 0, 0, 0, 0, 0, 0, {0, 0, 0, 0}};
    etherparse_ip_transport transport;
    etherparse_ip_addresses addresses_found;
    etherparse_ip_packet packet;
    etherparse_packet_flow flow;
    etherparse_fragment fragment;
    etherparse_udp_packet udp_packet;
    etherparse_tcp_packet tcp_packet;
    etherparse_tcp_option option;
    etherparse_tcp_raw_option raw_option;
    etherparse_icmpv4_packet icmpv4_packet;
    etherparse_icmpv6_packet icmpv6_packet;
    etherparse_ipv6_translation new_parts = translation_ipv6(1, 1);
    etherparse_checksum_change change = {1, 2};
    etherparse_sum sum = {3};
    size_t place = 0;
    uint32_t is_partial = 7;
    clear();
    REFUSED_TO(etherparse_transport_in_ip(NULL, 0, &transport, told), ETHERPARSE_STATUS_IP_HEADER_CUT_OFF);
    REFUSED_TO(etherparse_transport_in_ip_lax(NULL, 0, &transport, told), ETHERPARSE_STATUS_IP_HEADER_CUT_OFF);
    REFUSED_TO(etherparse_ip_header_addresses(NULL, 0, &addresses_found, told), ETHERPARSE_STATUS_IP_HEADER_CUT_OFF);
    REFUSED_TO(etherparse_ipv4_header_checksum(NULL, 0, &checksum, told), ETHERPARSE_STATUS_IP_HEADER_CUT_OFF);
    REFUSED_TO(etherparse_ipv4_header_checksum_store(NULL, 0, told), ETHERPARSE_STATUS_IP_HEADER_CUT_OFF);
    REFUSED_TO(etherparse_ipv4_header_checksum_test(NULL, 0, told), ETHERPARSE_STATUS_IP_HEADER_CUT_OFF);
    REFUSED_TO(etherparse_packet_verdict(NULL, 0, &packet, told), ETHERPARSE_STATUS_IP_HEADER_CUT_OFF);
    REFUSED_TO(etherparse_packet_verdict_lax(NULL, 0, &packet, told), ETHERPARSE_STATUS_IP_HEADER_CUT_OFF);
    REFUSED_TO(etherparse_flow(NULL, 0, &flow, told), ETHERPARSE_STATUS_IP_HEADER_CUT_OFF);
    REFUSED_TO(etherparse_fragment_read(NULL, 0, &fragment, told), ETHERPARSE_STATUS_IP_HEADER_CUT_OFF);
    REFUSED_TO(etherparse_reassembly_packet(NULL, 0, NULL, 0, NULL, 0, NULL, 0, &written, told), ETHERPARSE_STATUS_REASSEMBLY_INCOMPLETE);
    REFUSED_TO(etherparse_write_packet_ipv4(&ipv4_udp, NULL, 0, NULL, 0, &written, told), ETHERPARSE_STATUS_LENGTH);
    REFUSED_TO(etherparse_write_packet_ipv4(&ipv4_udp, over_ipv4, 8, NULL, 0, &written, told), ETHERPARSE_STATUS_BUFFER_TOO_SMALL);
    REFUSED_TO(etherparse_write_packet_ipv6(&ipv6_udp, NULL, 0, NULL, 0, &written, told), ETHERPARSE_STATUS_LENGTH);
    REFUSED_TO(etherparse_udp_packet_read(NULL, 0, &udp_packet, told), ETHERPARSE_STATUS_LENGTH);
    REFUSED_TO(etherparse_udp_packet_read_lax(NULL, 0, &udp_packet, told), ETHERPARSE_STATUS_LENGTH);
    REFUSED_TO(etherparse_udp_header_write(&udp_header, NULL, 0, &written, told), ETHERPARSE_STATUS_BUFFER_TOO_SMALL);
    NO_CHECKSUM_OF(udp);
    REFUSED_TO(etherparse_tcp_packet_read(NULL, 0, &tcp_packet, told), ETHERPARSE_STATUS_LENGTH);
    REFUSED_TO(etherparse_tcp_header_write(&tcp_header, NULL, 0, NULL, 0, &written, told), ETHERPARSE_STATUS_BUFFER_TOO_SMALL);
    REFUSED_TO(etherparse_tcp_header_store(&tcp_header, NULL, 0, told), ETHERPARSE_STATUS_LENGTH);
    NO_CHECKSUM_OF(tcp);
    FILLED_TO(etherparse_tcp_option_next(NULL, 0, &place, &option, told), ETHERPARSE_STATUS_OPTIONS_END);
    FILLED_TO(etherparse_tcp_raw_option_next(NULL, 0, &place, &raw_option, told), ETHERPARSE_STATUS_OPTIONS_END);
    REFUSED_TO(etherparse_icmpv4_packet_read(NULL, 0, &icmpv4_packet, told), ETHERPARSE_STATUS_LENGTH);
    REFUSED_TO(etherparse_icmpv4_header_write(&echo4, NULL, 0, &written, told), ETHERPARSE_STATUS_BUFFER_TOO_SMALL);
    REFUSED_TO(etherparse_icmpv4_checksum(NULL, 0, &checksum, told), ETHERPARSE_STATUS_LENGTH);
    REFUSED_TO(etherparse_icmpv4_checksum_store(NULL, 0, told), ETHERPARSE_STATUS_LENGTH);
    REFUSED_TO(etherparse_icmpv4_checksum_test(NULL, 0, told), ETHERPARSE_STATUS_LENGTH);
    REFUSED_TO(etherparse_icmpv6_packet_read(NULL, 0, &icmpv6_packet, told), ETHERPARSE_STATUS_LENGTH);
    REFUSED_TO(etherparse_icmpv6_header_write(&echo6, NULL, 0, &written, told), ETHERPARSE_STATUS_BUFFER_TOO_SMALL);
    REFUSED_TO(etherparse_icmpv6_checksum(NULL, 0, source6, destination6, &checksum, told), ETHERPARSE_STATUS_LENGTH);
    REFUSED_TO(etherparse_icmpv6_checksum_store(NULL, 0, source6, destination6, told), ETHERPARSE_STATUS_LENGTH);
    REFUSED_TO(etherparse_icmpv6_checksum_test(NULL, 0, source6, destination6, told), ETHERPARSE_STATUS_LENGTH);
    REFUSED_TO(etherparse_icmpv4_quoted_packet(NULL, 0, &place, &written, told), ETHERPARSE_STATUS_LENGTH);
    REFUSED_TO(etherparse_icmpv6_quoted_packet(NULL, 0, &place, &written, told), ETHERPARSE_STATUS_LENGTH);
    REFUSED_TO(etherparse_echo_answer(NULL, 0, 64, &written, told), ETHERPARSE_STATUS_IP_HEADER_CUT_OFF);
    REFUSED_TO(etherparse_echo_answer_ipv4(NULL, 0, source4, 64, &written, told), ETHERPARSE_STATUS_IP_HEADER_CUT_OFF);
    REFUSED_TO(etherparse_echo_answer_ipv6(NULL, 0, source6, 64, &written, told), ETHERPARSE_STATUS_IP_HEADER_CUT_OFF);
    FILLED_TO(etherparse_echo_is_reply(NULL, 0, NULL, 0, told), ETHERPARSE_STATUS_ECHO_NO_REPLY);
    FILLED_TO(etherparse_echo_is_reply_from_any(NULL, 0, NULL, 0, told), ETHERPARSE_STATUS_ECHO_NO_REPLY);
    REFUSED_TO(etherparse_packet_checksum_is_partial(NULL, 0, &is_partial, told), ETHERPARSE_STATUS_IP_HEADER_CUT_OFF);
    REFUSED_TO(etherparse_packet_checksum_store(NULL, 0, &checksum, told), ETHERPARSE_STATUS_IP_HEADER_CUT_OFF);
    REFUSED_TO(etherparse_hop_limit_lower(NULL, 0, told), ETHERPARSE_STATUS_IP_HEADER_CUT_OFF);
    REFUSED_TO(etherparse_maximum_segment_size_lower(NULL, 0, 0, &checksum, told), ETHERPARSE_STATUS_IP_HEADER_CUT_OFF);
    REFUSED_TO(etherparse_icmpv4_error_about(NULL, 0, &echo4, source4, 64, NULL, 0, &written, told), ETHERPARSE_STATUS_NO_ICMP_ERROR);
    REFUSED_TO(etherparse_icmpv6_error_about(NULL, 0, &echo6, source6, 64, NULL, 0, &written, told), ETHERPARSE_STATUS_NO_ICMP_ERROR);
    REFUSED_TO(etherparse_ipv4_to_ipv6(NULL, 0, &prefix64, &prefix64, NULL, 0, &written, told), ETHERPARSE_STATUS_SIIT_NO_HEADER);
    REFUSED_TO(etherparse_ipv6_to_ipv4(NULL, 0, &prefix64, &prefix64, 0, NULL, 0, &written, told), ETHERPARSE_STATUS_SIIT_NO_HEADER);
    REFUSED_TO(etherparse_translate_ipv4(NULL, 0, &to_outside, told), ETHERPARSE_STATUS_IP_HEADER_CUT_OFF);
    REFUSED_TO(etherparse_translate_ipv6(NULL, 0, &new_parts, told), ETHERPARSE_STATUS_IP_HEADER_CUT_OFF);
    REFUSED_TO(etherparse_translate_ipv4_with_quoted(NULL, 0, &to_outside, &to_inside, told), ETHERPARSE_STATUS_IP_HEADER_CUT_OFF);
    REFUSED_TO(etherparse_translate_ipv6_with_quoted(NULL, 0, &new_parts, &new_parts, told), ETHERPARSE_STATUS_IP_HEADER_CUT_OFF);
    REFUSED_TO(etherparse_canonical_header(17, NULL, 0, NULL, 0, &written, told), ETHERPARSE_STATUS_LENGTH);
    REFUSED_TO(etherparse_canonical_header(17, over_ipv4, 8, NULL, 0, &written, told), ETHERPARSE_STATUS_BUFFER_TOO_SMALL);
    EXPECT(written == 77 && checksum == 0x7777 && is_partial == 7);
    OK(etherparse_tcp_options_write(NULL, 0, NULL, 0, &written, told));
    EXPECT(written == 0 && etherparse_sum_add(sum, NULL, 0).value == 3 && etherparse_sum_add_at(sum, 1, NULL, 0).value == 3);
    change = etherparse_checksum_change_replace(change, NULL, 0, NULL, 0);
    EXPECT(change.removed == 1 && change.added == 2);
    EXPECT(etherparse_error_text(&error, NULL, 0) > 0 && etherparse_status_name(ETHERPARSE_OK, NULL, 0) == 13);
    EXPECT(etherparse_status_text(ETHERPARSE_OK, NULL, 0) == 8);
    EXPECT(etherparse_verdict_name(ETHERPARSE_VERDICT_RIGHT, NULL, 0) == 24);
    EXPECT(etherparse_icmpv4_checksum_test(NULL, 0, NULL) == ETHERPARSE_STATUS_LENGTH);
    EXPECT(etherparse_icmpv4_checksum_test(NULL, 0, ETHERPARSE_NO_ERROR) == ETHERPARSE_STATUS_LENGTH);
}

int main(void)
{
    EXPECT(etherparse_processor_is_supported() == 1);
    EXPECT(etherparse_version() == ETHERPARSE_VERSION);
    ip();
    jumbograms();
    packet_verdict();
    udp();
    udp_too_long();
    tcp();
    tcp_options();
    too_many_tcp_options();
    tcp_raw_options();
    icmpv4();
    icmpv6();
    kinds_of_types();
    quoted();
    addresses();
    fragments();
    flows();
    written_packets();
    ipv4_header();
    echo();
    echo_padded();
    echo_refused();
    echo_replies();
    hop_limits();
    maximum_segment_sizes();
    fragments_read();
    packets_put_together();
    between_versions();
    fragment_over_ipv4();
    fragments_between_versions();
    prefixes_refused();
    between_versions_refused();
    icmp_errors();
    echo_replies_from_any();
    translations();
    translations_refused();
    translations_of_quoted();
    packet_checksums();
    canonical();
    sums();
    changes();
    texts();
    names();
    verdict_names();
    words();
    meanings();
    nulls(&error);
    nulls(NULL);
    printf("%d compared, %s\n", compared, wrong ? "some wrong" : "all right");
    return wrong;
}
