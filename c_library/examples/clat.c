/*
 * SPDX-FileCopyrightText: 2026 The etherparse_transport developers
 * SPDX-License-Identifier: MIT OR Apache-2.0
 *
 * The translator of a customer (CLAT) of 464XLAT (RFC 6877) on a TUN device of Linux: programs that use IPv4 reach hosts over a network that
 * has only IPv6, if the network has a NAT64. An IPv4 packet that the system sends to the device comes back from it as an IPv6 packet, whose
 * source begins with the prefix LOCAL and whose destination begins with the prefix NETWORK. An IPv6 packet comes back as an IPv4 packet.
 *
 * Packets that the library refuses are dropped, such as fragments of ICMP messages. So is a packet whose time to live would become 0,
 * without an ICMP error. A partial checksum is completed. The program ends at SIGTERM, or when the device is deleted, and then prints how
 * many packets it translated and dropped. As root, with the IPv4 address 192.0.0.4, which no other host has (RFC 7335):
 *
 *     cc -std=c99 -I include examples/clat.c libetherparse_transport.a -o clat
 *     ./clat clat0 2001:db8:c1a7::/96 64:ff9b::/96 &
 *     ip address add 192.0.0.4/32 dev clat0 && ip link set clat0 up
 *     ip route add default dev clat0 src 192.0.0.4 mtu 1480 && ip route add 2001:db8:c1a7::/96 dev clat0
 *     sysctl net.ipv6.conf.all.forwarding=1
 *     ping 198.51.100.1
 */
#define _DEFAULT_SOURCE
#include "etherparse_transport.h"

#include <arpa/inet.h>
#include <errno.h>
#include <fcntl.h>
#include <linux/if_tun.h>
#include <net/if.h>
#include <poll.h>
#include <signal.h>
#include <stdio.h>
#include <stdlib.h>
#include <string.h>
#include <sys/ioctl.h>
#include <sys/signalfd.h>
#include <unistd.h>

/* A translated packet is at most 28 bytes longer. */
enum { LONGEST_PACKET = 65535, LONGEST_TRANSLATED = LONGEST_PACKET + 28 };

static etherparse_prefix64 local, network;
static unsigned long translated, dropped;

/* Completes a partial checksum, which a translation would update as if it were whole. */
static void complete_checksum(uint8_t *packet, size_t len)
{
    uint32_t is_partial;
    uint16_t checksum;
    if (etherparse_packet_checksum_is_partial(packet, len, &is_partial, NULL) == ETHERPARSE_OK && is_partial)
        (void)(etherparse_packet_checksum_store(packet, len, &checksum, NULL) == ETHERPARSE_OK);
}

/* Translates a packet to the other IP version. Returns its length, or 0 if the library refuses it. */
static size_t translate(const uint8_t *packet, size_t len, uint8_t *buffer, size_t buffer_len)
{
    static uint16_t identification;
    size_t written = 0;
    etherparse_status status = packet[0] >> 4 == 4
        ? etherparse_ipv4_to_ipv6(packet, len, &local, &network, buffer, buffer_len, &written, NULL)
        : etherparse_ipv6_to_ipv4(packet, len, &network, &local, ++identification, buffer, buffer_len, &written, NULL);
    return status == ETHERPARSE_OK ? written : 0;
}

/* Reads packets from the device, and writes them back. Returns 0 if the device is gone. */
static int forward(int device)
{
    static uint8_t packet[LONGEST_PACKET], buffer[LONGEST_TRANSLATED];
    for (;;) {
        ssize_t len = read(device, packet, sizeof packet);
        size_t written;
        if (len <= 0)
            return errno == EAGAIN;
        complete_checksum(packet, (size_t)len);
        written = translate(packet, (size_t)len, buffer, sizeof buffer);
        if (written > 0 && write(device, buffer, written) == (ssize_t)written)
            translated++;
        else
            dropped++;
    }
}

/* Reads a prefix such as 64:ff9b::/96. Returns 0 if the text is no prefix. The library refuses a wrong length. */
static int read_prefix(const char *text, etherparse_prefix64 *prefix)
{
    char address[INET6_ADDRSTRLEN];
    const char *slash = strchr(text, '/');
    size_t len = slash ? (size_t)(slash - text) : 0;
    int bits = slash ? atoi(slash + 1) : 0;
    if (len == 0 || len >= sizeof address || bits < 0 || bits > 128)
        return 0;
    memcpy(address, text, len);
    address[len] = 0;
    prefix->len = (uint8_t)bits;
    return inet_pton(AF_INET6, address, prefix->address) == 1;
}

/* Opens the TUN device with this name, or creates it. Returns its descriptor, or -1. */
static int open_device(const char *name)
{
    struct ifreq request;
    int device = open("/dev/net/tun", O_RDWR | O_NONBLOCK);
    memset(&request, 0, sizeof request);
    request.ifr_flags = IFF_TUN | IFF_NO_PI;
    if (device < 0 || strlen(name) >= sizeof request.ifr_name)
        return -1;
    memcpy(request.ifr_name, name, strlen(name));
    return ioctl(device, TUNSETIFF, &request) == 0 ? device : -1;
}

/* Returns a descriptor that can be read once SIGTERM was sent. */
static int open_sigterm(void)
{
    sigset_t signals;
    sigemptyset(&signals);
    sigaddset(&signals, SIGTERM);
    return sigprocmask(SIG_BLOCK, &signals, NULL) == 0 ? signalfd(-1, &signals, 0) : -1;
}

int main(int argc, char **argv)
{
    struct pollfd ready[2];
    int device = argc == 4 ? open_device(argv[1]) : -1, sigterm = open_sigterm();
    if (device < 0 || sigterm < 0 || !read_prefix(argv[2], &local) || !read_prefix(argv[3], &network)) {
        fprintf(stderr, "usage: clat DEVICE LOCAL NETWORK, a TUN device that this user may open or create, and two prefixes such as "
                        "64:ff9b::/96\n");
        return 2;
    }
    ready[0] = (struct pollfd){device, POLLIN, 0};
    ready[1] = (struct pollfd){sigterm, POLLIN, 0};
    while (poll(ready, 2, -1) > 0 && ready[1].revents == 0)
        if (ready[0].revents != 0 && !forward(device))
            break;
    fprintf(stderr, "translated %lu, dropped %lu\n", translated, dropped);
    return 0;
}
