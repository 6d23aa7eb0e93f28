/*
 * SPDX-FileCopyrightText: 2026 The etherparse_transport developers
 * SPDX-License-Identifier: MIT OR Apache-2.0
 *
 * Answers ping on a TUN device of Linux. It reads the IP packets that the system sends to the device, and writes back the reply to each
 * echo request of ICMPv4 and ICMPv6. It ignores every packet that etherparse_echo_answer refuses.
 *
 * The program creates the device if it does not exist. It ends at SIGTERM, or when the device is deleted, and then prints how many packets
 * it answered and ignored. As root:
 *
 *     cc -std=c99 -I include examples/ping_responder.c libetherparse_transport.a -o ping_responder
 *     ./ping_responder tun0 &
 *     ip address add 192.0.2.1/24 dev tun0
 *     ip link set tun0 up
 *     ping 192.0.2.2
 */
#define _DEFAULT_SOURCE
#include "etherparse_transport.h"

#include <errno.h>
#include <fcntl.h>
#include <linux/if_tun.h>
#include <net/if.h>
#include <poll.h>
#include <signal.h>
#include <stdio.h>
#include <string.h>
#include <sys/ioctl.h>
#include <sys/signalfd.h>
#include <unistd.h>

/* A packet without a jumbo payload option has at most an IPv6 header and 65,535 bytes. */
enum { IPV4_HEADER_LEN = 20, IPV6_HEADER_LEN = 40, LONGEST_PACKET = IPV6_HEADER_LEN + 65535, FIRST_HOP_LIMIT = 64 };

/* Turns the packet into the reply, and returns the length of the reply. Returns 0 for a packet to ignore. */
static size_t reply(uint8_t *packet, size_t len)
{
    size_t reply_len;
    etherparse_status status = etherparse_echo_answer(packet, len, FIRST_HOP_LIMIT, &reply_len, NULL);
    return status == ETHERPARSE_OK ? reply_len : 0;
}

/* Opens the TUN device with this name, or creates it. Returns its descriptor, or -1. */
static int open_device(const char *name)
{
    struct ifreq request;
    int device = open("/dev/net/tun", O_RDWR | O_NONBLOCK);
    memset(&request, 0, sizeof request);
    request.ifr_flags = IFF_TUN | IFF_NO_PI;
    if (device < 0 || strlen(name) >= sizeof request.ifr_name)
        return -1;
    memcpy(request.ifr_name, name, strlen(name));
    return ioctl(device, TUNSETIFF, &request) == 0 ? device : -1;
}

/* Returns a descriptor that can be read once SIGTERM was sent. */
static int open_sigterm(void)
{
    sigset_t signals;
    sigemptyset(&signals);
    sigaddset(&signals, SIGTERM);
    return sigprocmask(SIG_BLOCK, &signals, NULL) == 0 ? signalfd(-1, &signals, 0) : -1;
}

/* Reads the next packet. Returns its length, or 0 after SIGTERM and if the device is gone. */
static size_t next_packet(int device, int sigterm, uint8_t *packet)
{
    struct pollfd ready[2] = {{device, POLLIN, 0}, {sigterm, POLLIN, 0}};
    while (poll(ready, 2, -1) > 0 && ready[1].revents == 0) {
        ssize_t len = read(device, packet, LONGEST_PACKET);
        if (len > 0)
            return (size_t)len;
        if (errno != EAGAIN)
            break;
    }
    return 0;
}

int main(int argc, char **argv)
{
    static uint8_t packet[LONGEST_PACKET];
    unsigned long answered = 0, ignored = 0;
    int sigterm = open_sigterm();
    int device = argc == 2 ? open_device(argv[1]) : -1;
    size_t len;
    if (device < 0 || sigterm < 0) {
        fprintf(stderr, "usage: ping_responder DEVICE, a TUN device that this user may open or create\n");
        return 2;
    }
    while ((len = next_packet(device, sigterm, packet)) > 0) {
        len = reply(packet, len);
#ifdef WRONG_CHECKSUM /* a wrong build, to test that ping and the system count no reply with a wrong checksum */
        packet[(packet[0] >> 4 == 4 ? IPV4_HEADER_LEN : IPV6_HEADER_LEN) + 3] ^= 1;
#endif
        if (len > 0 && write(device, packet, len) == (ssize_t)len)
            answered++;
        else
            ignored++;
    }
    fprintf(stderr, "answered %lu, ignored %lu\n", answered, ignored);
    return 0;
}
