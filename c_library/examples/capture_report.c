/*
 * SPDX-FileCopyrightText: 2026 The etherparse_transport developers
 * SPDX-License-Identifier: MIT OR Apache-2.0
 *
 * Reads a capture, and writes a line for each frame: what its transport layer is, and whether the checksum is right.
 *
 *     cc -std=c99 -I include examples/capture_report.c libetherparse_transport.a -o capture_report
 *     ./capture_report capture.pcap
 */
#include "capture.h"

#include <inttypes.h>

static const char *verdict(etherparse_status status)
{
    switch (status) {
    case ETHERPARSE_OK:
        return "checksum right";
    case ETHERPARSE_STATUS_CHECKSUM_WRONG:
        return "checksum wrong";
    case ETHERPARSE_STATUS_CHECKSUM_ABSENT:
        return "no checksum";
    default:
        return "checksum not tested";
    }
}

/* Prints why a packet was refused, or an option. */
static void print_error(const etherparse_error *error)
{
    char text[ETHERPARSE_ERROR_TEXT_MAX_LEN + 1];
    etherparse_error_text(error, text, sizeof text);
    printf("%s", text);
}

static void print_refusal(const char *protocol, const etherparse_error *error)
{
    printf("%s refused: ", protocol);
    print_error(error);
    printf("\n");
}

static void report_udp(const struct ip_packet *ip)
{
    const uint8_t *source = ip->transport.source, *destination = ip->transport.destination;
    etherparse_udp_packet packet;
    etherparse_error error;
    etherparse_status status;
    if (etherparse_udp_packet_read(ip->bytes, ip->len, &packet, &error) != ETHERPARSE_OK) {
        print_refusal("udp", &error);
        return;
    }
    status = ip->transport.version == 4 ? etherparse_udp_checksum_test_ipv4(ip->bytes, ip->len, source, destination, &error)
                              : etherparse_udp_checksum_test_ipv6(ip->bytes, ip->len, source, destination, &error);
    printf("udp %u to %u, payload %zu, %s\n", packet.header.source_port, packet.header.destination_port, packet.payload_len,
           verdict(status));
}

static void print_options(const uint8_t *options, size_t len)
{
    etherparse_tcp_option option;
    etherparse_error error;
    etherparse_status status;
    size_t place = 0;
    uint32_t i;
    printf(" options");
    while ((status = etherparse_tcp_option_next(options, len, &place, &option, &error)) == ETHERPARSE_OK) {
        printf(" %" PRIu32, option.kind);
        for (i = 0; i < option.value_count; i++)
            printf("%c%" PRIu32, i == 0 ? ':' : '/', option.values[i]);
    }
    if (status != ETHERPARSE_STATUS_OPTIONS_END) {
        printf(" fault: ");
        print_error(&error);
    }
}

static void report_tcp(const struct ip_packet *ip)
{
    static const char names[] = "FSRPAUECN";
    const uint8_t *source = ip->transport.source, *destination = ip->transport.destination;
    etherparse_tcp_packet packet;
    etherparse_error error;
    etherparse_status status;
    int i;
    if (etherparse_tcp_packet_read(ip->bytes, ip->len, &packet, &error) != ETHERPARSE_OK) {
        print_refusal("tcp", &error);
        return;
    }
    status = ip->transport.version == 4 ? etherparse_tcp_checksum_test_ipv4(ip->bytes, ip->len, source, destination, &error)
                              : etherparse_tcp_checksum_test_ipv6(ip->bytes, ip->len, source, destination, &error);
    printf("tcp %u to %u, ", packet.header.source_port, packet.header.destination_port);
    for (i = 0; i < 9; i++)
        if (packet.header.flags >> i & 1)
            putchar(names[i]);
    printf(", seq %" PRIu32 ",", packet.header.sequence_number);
    print_options(ip->bytes + packet.options_offset, packet.options_len);
    printf(", payload %zu, %s\n", packet.payload_len, verdict(status));
}

static void report_icmpv4(const struct ip_packet *ip)
{
    etherparse_icmpv4_packet packet;
    etherparse_error error;
    if (etherparse_icmpv4_packet_read(ip->bytes, ip->len, &packet, &error) != ETHERPARSE_OK) {
        print_refusal("icmpv4", &error);
        return;
    }
    printf("icmpv4 kind %" PRIu32 " code %u id %u sequence %u mtu %u, payload %zu, %s\n", packet.header.kind, packet.header.code,
           packet.header.id, packet.header.sequence_number, packet.header.next_hop_mtu, packet.payload_len,
           verdict(etherparse_icmpv4_checksum_test(ip->bytes, ip->len, &error)));
}

static void report_icmpv6(const struct ip_packet *ip)
{
    const uint8_t *source = ip->transport.source, *destination = ip->transport.destination;
    etherparse_icmpv6_packet packet;
    etherparse_error error;
    if (etherparse_icmpv6_packet_read(ip->bytes, ip->len, &packet, &error) != ETHERPARSE_OK) {
        print_refusal("icmpv6", &error);
        return;
    }
    printf("icmpv6 kind %" PRIu32 " code %u id %u sequence %u mtu %" PRIu32 " flags %02x, payload %zu, %s\n", packet.header.kind,
           packet.header.code, packet.header.id, packet.header.sequence_number, packet.header.mtu, packet.header.flags,
           packet.payload_len,
           verdict(etherparse_icmpv6_checksum_test(ip->bytes, ip->len, source, destination, &error)));
}

static void report(const struct ip_packet *ip)
{
    if (ip->transport.protocol == ETHERPARSE_PROTOCOL_UDP)
        report_udp(ip);
    else if (ip->transport.protocol == ETHERPARSE_PROTOCOL_TCP)
        report_tcp(ip);
    else if (ip->transport.protocol == ETHERPARSE_PROTOCOL_ICMPV4 && ip->transport.version == 4)
        report_icmpv4(ip);
    else if (ip->transport.protocol == ETHERPARSE_PROTOCOL_ICMPV6 && ip->transport.version == 6)
        report_icmpv6(ip);
    else
        printf("protocol %" PRIu32 "\n", ip->transport.protocol);
}

int main(int argc, char **argv)
{
    static struct capture capture;
    struct ip_packet ip;
    uint32_t number = 0;
    if (!etherparse_processor_is_supported()) {
        fprintf(stderr, "capture_report needs a processor of the level x86-64-v2\n");
        return 1;
    }
    if (argc != 2 || !open_capture(&capture, argv[1])) {
        fprintf(stderr, "usage: capture_report capture.pcap\n");
        return 2;
    }
    while (next_frame(&capture)) {
        const char *none = find_transport(&capture, &ip);
        printf("%" PRIu32 " ", ++number);
        if (none == NULL)
            report(&ip);
        else
            printf("%s\n", none);
    }
    fclose(capture.file);
    return 0;
}
