/*
 * SPDX-FileCopyrightText: 2026 The etherparse_transport developers
 * SPDX-License-Identifier: MIT OR Apache-2.0
 *
 * Reads a capture with echo requests of ICMPv4 and ICMPv6, and writes the replies to another one: a line for each frame says what
 * was done. Only requests whose checksum is right are answered, none that was sent to a group, and none with IPv6 extension
 * headers.
 *
 * etherparse_echo_answer makes such a reply in one call, but refuses IPv4 options. This program shows how to change a packet by the
 * calls for its header and its checksum.
 *
 *     cc -std=c99 -I include examples/ping_reply.c libetherparse_transport.a -o ping_reply
 *     ./ping_reply requests.pcap replies.pcap
 */
#include "capture.h"

#include <inttypes.h>
#include <string.h>

enum { FIRST_HOP_LIMIT = 64, IPV6_HEADER_LEN = 40 };

/* Exchanges two addresses. */
static void exchange(uint8_t *one, uint8_t *other, size_t len)
{
    uint8_t kept[16];
    memcpy(kept, one, len);
    memcpy(one, other, len);
    memcpy(other, kept, len);
}

/* Makes an ICMPv4 echo request a reply in place. NULL, or why not. */
static const char *reply_icmpv4(const struct ip_packet *ip)
{
    etherparse_icmpv4_packet packet;
    etherparse_error error;
    size_t written;
    if (etherparse_icmpv4_packet_read(ip->bytes, ip->len, &packet, &error) != ETHERPARSE_OK)
        return "refused";
    if (packet.header.kind != ETHERPARSE_ICMPV4_KIND_ECHO_REQUEST)
        return "no echo request";
    if (etherparse_icmpv4_checksum_test(ip->bytes, ip->len, &error) != ETHERPARSE_OK)
        return "checksum wrong";
    packet.header.kind = ETHERPARSE_ICMPV4_KIND_ECHO_REPLY;
    if (etherparse_icmpv4_header_write(&packet.header, ip->bytes, ip->len, &written, &error) != ETHERPARSE_OK ||
        etherparse_icmpv4_checksum_store(ip->bytes, ip->len, &error) != ETHERPARSE_OK)
        return "not written";
    printf("id %u sequence %u, payload %zu: ", packet.header.id, packet.header.sequence_number, packet.payload_len);
    return NULL;
}

/* Makes an ICMPv6 echo request a reply in place. NULL, or why not. */
static const char *reply_icmpv6(const struct ip_packet *ip)
{
    const uint8_t *source = ip->transport.source, *destination = ip->transport.destination;
    etherparse_icmpv6_packet packet;
    etherparse_error error;
    size_t written;
    if (etherparse_icmpv6_packet_read(ip->bytes, ip->len, &packet, &error) != ETHERPARSE_OK)
        return "refused";
    if (packet.header.kind != ETHERPARSE_ICMPV6_KIND_ECHO_REQUEST)
        return "no echo request";
    if (etherparse_icmpv6_checksum_test(ip->bytes, ip->len, source, destination, &error) != ETHERPARSE_OK)
        return "checksum wrong";
    packet.header.kind = ETHERPARSE_ICMPV6_KIND_ECHO_REPLY;
    if (etherparse_icmpv6_header_write(&packet.header, ip->bytes, ip->len, &written, &error) != ETHERPARSE_OK ||
        etherparse_icmpv6_checksum_store(ip->bytes, ip->len, destination, source, &error) != ETHERPARSE_OK)
        return "not written";
    printf("id %u sequence %u, payload %zu: ", packet.header.id, packet.header.sequence_number, packet.payload_len);
    return NULL;
}

/* Sends the packet back to where it came from: exchanges the addresses, and begins with a new hop limit. */
static void send_back(const struct ip_packet *ip)
{
    exchange(source_field(ip), destination_field(ip), ip->transport.version == 4 ? 4 : 16);
    if (ip->transport.version == 4) {
        ip->header[8] = FIRST_HOP_LIMIT;
        /* The header was read before, so it is not refused. */
        (void)(etherparse_ipv4_header_checksum_store(ip->header, ip->transport.payload_offset, NULL) == ETHERPARSE_OK);
    } else {
        ip->header[7] = FIRST_HOP_LIMIT;
    }
}

/* Makes the frame a reply in place. NULL, or why not. */
static const char *reply(struct capture *capture)
{
    struct ip_packet ip;
    const char *none = find_transport(capture, &ip);
    if (none != NULL)
        return none;
    if (ip.transport.version == 4 ? ip.transport.destination[0] >= 224 : ip.transport.destination[0] == 0xff)
        return "sent to a group";
    if (ip.transport.version == 6 && ip.transport.payload_offset != IPV6_HEADER_LEN)
        return "extension headers";
    if (ip.transport.version == 4 && ip.transport.protocol == ETHERPARSE_PROTOCOL_ICMPV4)
        none = reply_icmpv4(&ip);
    else if (ip.transport.version == 6 && ip.transport.protocol == ETHERPARSE_PROTOCOL_ICMPV6)
        none = reply_icmpv6(&ip);
    else
        none = "not ICMP";
    if (none != NULL)
        return none;
    send_back(&ip);
    if (capture->link == LINK_ETHERNET)
        exchange(capture->frame, capture->frame + 6, 6);
    return NULL;
}

int main(int argc, char **argv)
{
    static struct capture capture;
    uint32_t number = 0;
    FILE *replies;
    int failed;
    if (argc != 3 || !open_capture(&capture, argv[1]) || (replies = fopen(argv[2], "wb")) == NULL) {
        fprintf(stderr, "usage: ping_reply requests.pcap replies.pcap\n");
        return 2;
    }
    failed = fwrite(capture.header, 1, CAPTURE_HEADER_LEN, replies) != CAPTURE_HEADER_LEN;
    while (next_frame(&capture)) {
        const char *none;
        printf("%" PRIu32 " ", ++number);
        none = reply(&capture);
        printf("%s\n", none == NULL ? "replied" : none);
        if (none == NULL && !write_frame(&capture, replies))
            failed = 1;
    }
    fclose(capture.file);
    return fclose(replies) != 0 || failed;
}
