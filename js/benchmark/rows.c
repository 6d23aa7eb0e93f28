/*
 * SPDX-FileCopyrightText: 2026 The etherparse_transport developers
 * SPDX-License-Identifier: MIT OR Apache-2.0
 *
 * Measures calls of the library for C on the inputs of rows.js, and writes a line for each row: its name, and nanoseconds a call. A time is
 * the least of many samples, with the loop's own time.
 */
#define _POSIX_C_SOURCE 199309L
#include "etherparse_transport.h"

#include <stdio.h>
#include <string.h>
#include <time.h>

enum { SAMPLES = 40, CALLS = 2000, LONG_LEN = 1480 };

static const uint8_t source[4] = {192, 168, 1, 1}, destination[4] = {192, 168, 1, 2};
static const uint8_t over_ipv4[31] = {0x45, 0, 0, 31, 0, 7, 0, 0, 64, 17, 0, 0, 192, 168, 1, 1,
                                      192, 168, 1, 2, 0, 21, 4, 210, 0, 11, 0xb3, 0x3a, 'a', 'b', 'c'};
static const uint8_t over_ipv6[48] = {0x60, 0, 0, 0, 0, 8, 17, 64, 0x20, 1, 0x0d, 0xb8, 0, 0, 0, 0, 0, 0, 0, 0, 0, 0, 0, 1,
                                      0x20, 1, 0x0d, 0xb8, 0, 0, 0, 0, 0, 0, 0, 0, 0, 0, 0, 2, 0, 21, 4, 210, 0, 8, 0x9f, 0x82};
static const uint8_t segment[32] = {0xc3, 0x50, 0, 0x50, 0, 0, 0, 1, 0, 0, 0, 0, 0x80, 0x10, 0xff, 0xf0,
                                    0x37, 0x39, 0, 0, 1, 1, 8, 10, 0, 0, 0, 7, 0, 0, 0, 0};
static const etherparse_ipv4_translation translation = {{203, 0, 113, 7}, {0}, 40001, 0, 1, 0, 1, 0};
static uint8_t long_message[LONG_LEN] = {0, 1, 0, 2, LONG_LEN >> 8, LONG_LEN & 255}, changed[31];
static etherparse_error error;
static etherparse_ip_packet packet;
static etherparse_udp_packet udp;
static etherparse_tcp_packet tcp;
static uint16_t checksum;

/* What is added up of the statuses, so that no call is left out. */
static size_t total;

#define ROW(name, call)                \
    static void name(void)             \
    {                                  \
        int i;                         \
        for (i = 0; i < CALLS; i++)    \
            total += (size_t)(call);   \
    }

ROW(verdict_ipv4, etherparse_packet_verdict(over_ipv4, 31, &packet, &error))
ROW(verdict_ipv6, etherparse_packet_verdict(over_ipv6, 48, &packet, &error))
ROW(refused, etherparse_packet_verdict(over_ipv4, 30, &packet, &error))
ROW(read_udp, etherparse_udp_packet_read(over_ipv4 + 20, 11, &udp, &error))
ROW(read_tcp, etherparse_tcp_packet_read(segment, 32, &tcp, &error))
ROW(udp_checksum, etherparse_udp_checksum_ipv4(long_message, LONG_LEN, source, destination, &checksum, &error))
ROW(translate, etherparse_translate_ipv4(changed, 31, &translation, &error))

static double seconds(void)
{
    struct timespec now;
    clock_gettime(CLOCK_MONOTONIC, &now);
    return (double)now.tv_sec + (double)now.tv_nsec * 1e-9;
}

static void measure(const char *name, void (*row)(void))
{
    double least = 1e9;
    int sample;
    for (sample = 0; sample < SAMPLES; sample++) {
        double start = seconds(), spent;
        row();
        spent = seconds() - start;
        least = spent < least ? spent : least;
    }
    printf("%s\t%.1f\n", name, least * 1e9 / CALLS);
}

int main(void)
{
    memcpy(changed, over_ipv4, sizeof changed);
    measure("verdict, UDP over IPv4, 31 bytes", verdict_ipv4);
    measure("verdict, UDP over IPv6, 48 bytes", verdict_ipv6);
    measure("verdict, refused, 30 bytes", refused);
    measure("readUdp, 11 bytes", read_udp);
    measure("readTcp, 32 bytes", read_tcp);
    measure("udpChecksum, 1,480 bytes", udp_checksum);
    measure("translate, UDP over IPv4, 31 bytes", translate);
    return total == 0;
}
