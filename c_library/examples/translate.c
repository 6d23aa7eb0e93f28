/*
 * SPDX-FileCopyrightText: 2026 The etherparse_transport developers
 * SPDX-License-Identifier: MIT OR Apache-2.0
 *
 * Translates addresses: reads a capture, gives each UDP and TCP packet another source address and another source port, and writes
 * them to another capture. No checksum is computed anew: each is updated by what was replaced (RFC 1624), and tested before and
 * after.
 * A packet with a wrong checksum stays one, and a UDP packet without a checksum gets none.
 *
 *     cc -std=c99 -I include examples/translate.c libetherparse_transport.a -o translate
 *     ./translate capture.pcap translated.pcap
 */
#include "capture.h"

#include <inttypes.h>
#include <string.h>

/* The address outside, one of documentation for each version (RFC 5737; RFC 3849), and the first port outside. */
static const uint8_t outside_ipv4[4] = {203, 0, 113, 7};
static const uint8_t outside_ipv6[16] = {0x20, 0x01, 0x0d, 0xb8, 0xff, 0xff, 0, 0, 0, 0, 0, 0, 0, 0, 0, 7};
enum { FIRST_PORT = 40000 };

static int is_udp(const struct ip_packet *ip)
{
    return ip->transport.protocol == ETHERPARSE_PROTOCOL_UDP;
}

static etherparse_status test(const struct ip_packet *ip, etherparse_error *error)
{
    const uint8_t *source = ip->transport.source, *destination = ip->transport.destination;
    if (is_udp(ip))
        return ip->transport.version == 4 ? etherparse_udp_checksum_test_ipv4(ip->bytes, ip->len, source, destination, error)
                                : etherparse_udp_checksum_test_ipv6(ip->bytes, ip->len, source, destination, error);
    return ip->transport.version == 4 ? etherparse_tcp_checksum_test_ipv4(ip->bytes, ip->len, source, destination, error)
                            : etherparse_tcp_checksum_test_ipv6(ip->bytes, ip->len, source, destination, error);
}

static int ipv4_header_is_right(const struct ip_packet *ip)
{
    return etherparse_ipv4_header_checksum_test(ip->header, ip->transport.payload_offset, NULL) == ETHERPARSE_OK;
}

/*
 * Replaces the source address of the header. It is added to the change of the transport layer's checksum, unless the packet has a home
 * address (RFC 6275), which that checksum covers in its place.
 */
static etherparse_checksum_change replace_source(struct ip_packet *ip, etherparse_checksum_change change)
{
    size_t len = ip->transport.version == 4 ? sizeof outside_ipv4 : sizeof outside_ipv6;
    const uint8_t *outside = ip->transport.version == 4 ? outside_ipv4 : outside_ipv6;
    uint8_t *source = source_field(ip);
    if (ip->transport.version == 4) {
        etherparse_checksum_change of_header = etherparse_checksum_change_new();
        of_header = etherparse_checksum_change_replace(of_header, source, len, outside, len);
        put_big_endian_16(ip->header + 10,
                          etherparse_checksum_change_apply(of_header, (uint16_t)big_endian_16(ip->header + 10)));
    }
    if (memcmp(source, ip->transport.source, len) == 0) {
        change = etherparse_checksum_change_replace(change, source, len, outside, len);
        memcpy(ip->transport.source, outside, len);
    }
    memcpy(source, outside, len);
    return change;
}

/* Replaces source address and source port, and updates the checksum. The change that was made. */
static etherparse_checksum_change translate(struct ip_packet *ip, uint16_t port)
{
    uint8_t *place = ip->bytes + (is_udp(ip) ? 6 : 16);
    uint16_t checksum = (uint16_t)big_endian_16(place);
    uint8_t new_port[2];
    etherparse_checksum_change change = replace_source(ip, etherparse_checksum_change_new());
    put_big_endian_16(new_port, port);
    change = etherparse_checksum_change_replace(change, ip->bytes, 2, new_port, 2);
    memcpy(ip->bytes, new_port, 2);
    put_big_endian_16(place, is_udp(ip) ? etherparse_checksum_change_apply_udp(change, checksum)
                                        : etherparse_checksum_change_apply(change, checksum));
    return change;
}

/* Whether the change, reversed, gives the checksum back that the packet had. */
static int comes_back(const struct ip_packet *ip, etherparse_checksum_change change, uint16_t before)
{
    etherparse_checksum_change back = etherparse_checksum_change_reversed(change);
    if (is_udp(ip))
        return etherparse_checksum_change_apply_udp(back, (uint16_t)big_endian_16(ip->bytes + 6)) == before;
    return etherparse_checksum_change_apply(back, (uint16_t)big_endian_16(ip->bytes + 16)) == before;
}

static const char *verdict(etherparse_status status)
{
    return status == ETHERPARSE_OK ? "right" : status == ETHERPARSE_STATUS_CHECKSUM_WRONG ? "wrong" : "absent";
}

/* Translates the frame, and says how. 1 where the verdicts agree, 0 where they don't, -1 where there is nothing to translate. */
static int translate_frame(struct capture *capture, uint16_t port)
{
    struct ip_packet ip;
    etherparse_error error;
    etherparse_status before, after;
    etherparse_checksum_change change;
    uint16_t checksum;
    int is_back;
    if (find_transport(capture, &ip) != NULL || (!is_udp(&ip) && ip.transport.protocol != ETHERPARSE_PROTOCOL_TCP))
        return -1;
    before = test(&ip, &error);
    if (before != ETHERPARSE_OK && before != ETHERPARSE_STATUS_CHECKSUM_WRONG && before != ETHERPARSE_STATUS_CHECKSUM_ABSENT)
        return -1;
    checksum = (uint16_t)big_endian_16(ip.bytes + (is_udp(&ip) ? 6 : 16));
    change = translate(&ip, port);
    after = test(&ip, &error);
    is_back = comes_back(&ip, change, checksum);
    printf("%s over IPv%" PRIu32 ", port %u: checksum %s, then %s%s\n", is_udp(&ip) ? "udp" : "tcp", ip.transport.version, port,
           verdict(before), verdict(after), is_back ? ", and back again" : "");
    return before == after && is_back && (ip.transport.version == 6 || ipv4_header_is_right(&ip));
}

int main(int argc, char **argv)
{
    static struct capture capture;
    uint32_t number = 0;
    FILE *translated;
    int failed;
    if (argc != 3 || !open_capture(&capture, argv[1]) || (translated = fopen(argv[2], "wb")) == NULL) {
        fprintf(stderr, "usage: translate capture.pcap translated.pcap\n");
        return 2;
    }
    failed = fwrite(capture.header, 1, CAPTURE_HEADER_LEN, translated) != CAPTURE_HEADER_LEN;
    while (next_frame(&capture)) {
        int agrees;
        printf("%" PRIu32 " ", ++number);
        agrees = translate_frame(&capture, (uint16_t)(FIRST_PORT + number));
        if (agrees == -1)
            printf("not translated\n");
        else if (!agrees || !write_frame(&capture, translated))
            failed = 1;
    }
    fclose(capture.file);
    return fclose(translated) != 0 || failed;
}
