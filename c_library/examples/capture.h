/*
 * SPDX-FileCopyrightText: 2026 The etherparse_transport developers
 * SPDX-License-Identifier: MIT OR Apache-2.0
 *
 * What the examples share: captures, and the way from a frame to its transport layer.
 *
 * A capture is a classic pcap file (not pcapng) of Ethernet frames or of raw IP packets. Fragments are passed over.
 */
#ifndef CAPTURE_H
#define CAPTURE_H

#include "etherparse_transport.h"

#include <stddef.h>
#include <stdint.h>
#include <stdio.h>

enum { CAPTURE_HEADER_LEN = 24, RECORD_HEADER_LEN = 16, LONGEST_FRAME = 262144, LINK_ETHERNET = 1, LINK_RAW = 101 };

/* An open capture, and the frame that was read last, with the header of its record. */
struct capture {
    FILE *file;
    int swapped;   /* the numbers of the file are big-endian */
    uint32_t link; /* LINK_ETHERNET or LINK_RAW */
    uint8_t header[CAPTURE_HEADER_LEN];
    uint8_t record[RECORD_HEADER_LEN];
    uint8_t frame[LONGEST_FRAME];
    size_t len;
};

/* An IP packet: its first byte, what it carries, and the bytes of its transport layer. */
struct ip_packet {
    uint8_t *header;
    etherparse_ip_transport transport;
    uint8_t *bytes;
    size_t len;
};

/* A number of a pcap file. */
static inline uint32_t file_number(const uint8_t *bytes, int swapped)
{
    return swapped ? (uint32_t)bytes[0] << 24 | (uint32_t)bytes[1] << 16 | (uint32_t)bytes[2] << 8 | bytes[3]
                   : (uint32_t)bytes[3] << 24 | (uint32_t)bytes[2] << 16 | (uint32_t)bytes[1] << 8 | bytes[0];
}

/* Opens a capture. 0 where it is none that can be read here. */
static inline int open_capture(struct capture *capture, const char *name)
{
    uint32_t magic;
    capture->file = fopen(name, "rb");
    if (capture->file == NULL || fread(capture->header, 1, CAPTURE_HEADER_LEN, capture->file) != CAPTURE_HEADER_LEN)
        return 0;
    magic = file_number(capture->header, 0);
    capture->swapped = magic == 0xd4c3b2a1 || magic == 0x4d3cb2a1;
    if (!capture->swapped && magic != 0xa1b2c3d4 && magic != 0xa1b23c4d)
        return 0;
    capture->link = file_number(capture->header + 20, capture->swapped) & 0x0fffffff;
    return capture->link == LINK_ETHERNET || capture->link == LINK_RAW;
}

/* Reads the next frame. 0 at the end of the file, and where it is cut off. */
static inline int next_frame(struct capture *capture)
{
    if (fread(capture->record, 1, RECORD_HEADER_LEN, capture->file) != RECORD_HEADER_LEN)
        return 0;
    capture->len = file_number(capture->record + 8, capture->swapped);
    return capture->len <= LONGEST_FRAME && fread(capture->frame, 1, capture->len, capture->file) == capture->len;
}

/* Appends the frame, which may have been changed, to another capture. 0 where writing fails. */
static inline int write_frame(const struct capture *capture, FILE *file)
{
    return fwrite(capture->record, 1, RECORD_HEADER_LEN, file) == RECORD_HEADER_LEN &&
           fwrite(capture->frame, 1, capture->len, file) == capture->len;
}

static inline uint32_t big_endian_16(const uint8_t *bytes)
{
    return (uint32_t)bytes[0] << 8 | bytes[1];
}

static inline void put_big_endian_16(uint8_t *bytes, uint16_t number)
{
    bytes[0] = (uint8_t)(number >> 8);
    bytes[1] = (uint8_t)number;
}

/* Where the source address, and where the destination address of an IP packet is. */
static inline uint8_t *source_field(const struct ip_packet *packet)
{
    return packet->header + (packet->transport.version == 4 ? 12 : 8);
}

static inline uint8_t *destination_field(const struct ip_packet *packet)
{
    return packet->header + (packet->transport.version == 4 ? 16 : 24);
}

/* Finds the transport layer in the frame. NULL, or why there is none. */
static inline const char *find_transport(struct capture *capture, struct ip_packet *packet)
{
    etherparse_error error;
    size_t len = capture->len;
    packet->header = capture->frame;
    if (capture->link == LINK_ETHERNET) {
        if (len < 14 || (big_endian_16(capture->frame + 12) != 0x0800 && big_endian_16(capture->frame + 12) != 0x86dd))
            return "not IP";
        packet->header += 14;
        len -= 14;
    }
    if (etherparse_transport_in_ip(packet->header, len, &packet->transport, &error) != ETHERPARSE_OK)
        return "an IP packet that is refused";
    if (packet->transport.is_fragment)
        return "a fragment";
    if (!packet->transport.has_destination)
        return "a routing header that does not say the final destination";
    packet->bytes = packet->header + packet->transport.payload_offset;
    packet->len = packet->transport.payload_len;
    return NULL;
}

#endif
