/*
 * SPDX-FileCopyrightText: 2026 The etherparse_transport developers
 * SPDX-License-Identifier: MIT OR Apache-2.0
 *
 * An address translator (NAT, RFC 3022) for IPv4 and IPv6 between two TUN devices of Linux. Packets that the system sends to the device
 * INSIDE leave the device OUTSIDE with the source IPV4 or IPV6, and the answers return. Each port inside gets a port outside, which any
 * host outside can send to, and each identifier of an ICMP query an identifier. An ICMP error finds the flow of the packet that it is
 * about. The hop limit, which IPv4 calls time to live, is lowered by 1.
 *
 * Fragments, and packets that the library refuses to translate, are dropped. So is a packet whose hop limit would become 0, without an ICMP
 * error. A partial checksum is completed. No flow ends by time: if all ports are in use, the oldest flow loses its port. The program ends
 * at SIGTERM, or when a device is deleted, and then prints how many packets it translated and dropped. As root, with a network namespace as
 * the network outside:
 *
 *     cc -std=c99 -I include examples/address_translator.c libetherparse_transport.a -o address_translator
 *     ./address_translator tun0 tun1 203.0.113.7 2001:db8:113::7 &
 *     ip address add 192.168.1.1/24 dev tun0 && ip address add fd00::1/64 dev tun0 && ip link set tun0 up
 *     ip route add 198.51.100.0/24 dev tun0 && ip route add 2001:db8:100::/64 dev tun0
 *     ip netns add outside && ip link set tun1 netns outside
 *     ip -n outside address add 198.51.100.1/24 dev tun1 && ip -n outside address add 2001:db8:100::1/64 dev tun1
 *     ip -n outside link set tun1 up && ip -n outside route add 203.0.113.7 dev tun1 && ip -n outside route add 2001:db8:113::7 dev tun1
 *     ping 198.51.100.1 && ping 2001:db8:100::1
 */
#define _DEFAULT_SOURCE
#include "etherparse_transport.h"

#include <arpa/inet.h>
#include <errno.h>
#include <fcntl.h>
#include <linux/if_tun.h>
#include <net/if.h>
#include <poll.h>
#include <signal.h>
#include <stdio.h>
#include <string.h>
#include <sys/ioctl.h>
#include <sys/signalfd.h>
#include <unistd.h>

/* At most BURST packets are read from one device before the other has its turn. */
enum { FIRST_PORT = 40000, MAX_FLOWS = 1024, LONGEST_PACKET = 65535, BURST = 64 };

/* One end of a flow: the IP version, the protocol, the address, and the port or the identifier. Zeros follow an IPv4 address. */
struct end {
    uint32_t version;
    uint32_t protocol;
    uint8_t address[16];
    uint16_t port;
};

/* The ends inside. The end at index i has port FIRST_PORT + i outside. */
static struct end flows[MAX_FLOWS];
static size_t flow_count, oldest_flow;
static uint8_t outside_ipv4[16], outside_ipv6[16];
static unsigned long translated, dropped;

static const uint8_t *outside_address(uint32_t version)
{
    return version == 4 ? outside_ipv4 : outside_ipv6;
}

/* Finds the source or the destination of a packet, or of an ICMP error the other end of the packet that it is about, which went in the
   other direction. Returns 0 for a fragment, and if there is no port and no identifier. */
static int find_end(const uint8_t *packet, size_t len, int is_source, struct end *end, int *is_error)
{
    etherparse_packet_flow flow;
    const etherparse_flow_ends *ends = &flow.ends;
    if (etherparse_flow(packet, len, &flow, NULL) != ETHERPARSE_OK || flow.ends.is_fragment)
        return 0;
    *is_error = flow.quoted.version != 0;
    if (*is_error) {
        ends = &flow.quoted;
        is_source = !is_source;
    }
    end->version = ends->version;
    end->protocol = ends->protocol;
    memcpy(end->address, is_source ? ends->source : ends->destination, sizeof end->address);
    end->port = is_source ? ends->source_port : ends->destination_port;
    return !ends->is_fragment && (is_source ? ends->has_source_port : ends->has_destination_port);
}

/* Returns the index of the flow with this end inside, or flow_count. */
static size_t find_flow(const struct end *inside)
{
    size_t i;
    for (i = 0; i < flow_count; i++)
        if (flows[i].version == inside->version && flows[i].protocol == inside->protocol && flows[i].port == inside->port &&
            memcmp(flows[i].address, inside->address, sizeof inside->address) == 0)
            break;
    return i;
}

/* Returns the index of a new flow with this end inside. */
static size_t add_flow(const struct end *inside)
{
    size_t added = flow_count < MAX_FLOWS ? flow_count++ : oldest_flow++ % MAX_FLOWS;
    flows[added] = *inside;
    return added;
}

/* Gives a packet this source, or else this destination. Returns 0 if the library refuses the packet, or it has the other IP version. */
static int replace_end(uint8_t *packet, size_t len, int is_source, const struct end *by)
{
    etherparse_ipv4_translation ipv4 = {.has_source = is_source, .has_source_port = is_source, .source_port = by->port,
                                        .has_destination = !is_source, .has_destination_port = !is_source, .destination_port = by->port};
    etherparse_ipv6_translation ipv6 = {.has_source = is_source, .has_source_port = is_source, .source_port = by->port,
                                        .has_destination = !is_source, .has_destination_port = !is_source, .destination_port = by->port};
    if (by->version == 4) {
        memcpy(is_source ? ipv4.source : ipv4.destination, by->address, sizeof ipv4.source);
        return etherparse_translate_ipv4(packet, len, &ipv4, NULL) == ETHERPARSE_OK;
    }
    memcpy(is_source ? ipv6.source : ipv6.destination, by->address, sizeof ipv6.source);
    return etherparse_translate_ipv6(packet, len, &ipv6, NULL) == ETHERPARSE_OK;
}

/* Translates a packet from inside. Returns whether it was translated. An ICMP error begins no flow. */
static int translate_outbound(uint8_t *packet, size_t len)
{
    struct end inside, outside;
    size_t flow;
    int is_error;
    if (!find_end(packet, len, 1, &inside, &is_error))
        return 0;
    flow = find_flow(&inside);
    if (flow == flow_count && is_error)
        return 0;
    if (flow == flow_count)
        flow = add_flow(&inside);
    outside = inside;
    memcpy(outside.address, outside_address(inside.version), sizeof outside.address);
    outside.port = (uint16_t)(FIRST_PORT + flow);
    return replace_end(packet, len, 1, &outside);
}

/* Translates a packet from outside. Returns whether it was translated. */
static int translate_inbound(uint8_t *packet, size_t len)
{
    struct end outside;
    size_t flow;
    int is_error;
    if (!find_end(packet, len, 0, &outside, &is_error))
        return 0;
    flow = (size_t)outside.port - FIRST_PORT;
    if (flow >= flow_count || flows[flow].protocol != outside.protocol ||
        memcmp(outside.address, outside_address(outside.version), sizeof outside.address) != 0)
        return 0;
    return replace_end(packet, len, 0, &flows[flow]);
}

/* Lowers the hop limit of a translated packet by 1. Returns 0 if it would become 0. In IPv4 the checksum of the header covers it. */
static int lower_hop_limit(uint8_t *packet)
{
    int is_ipv4 = packet[0] >> 4 == 4;
    uint8_t *hop_limit = packet + (is_ipv4 ? 8 : 7), *checksum = packet + 10;
    uint8_t old = *hop_limit;
    if (old <= 1)
        return 0;
    *hop_limit = old - 1;
    if (is_ipv4) {
        etherparse_checksum_change change = etherparse_checksum_change_replace(etherparse_checksum_change_new(), &old, 1, hop_limit, 1);
        uint16_t changed = etherparse_checksum_change_apply(change, (uint16_t)(checksum[0] << 8 | checksum[1]));
        checksum[0] = (uint8_t)(changed >> 8);
        checksum[1] = (uint8_t)changed;
    }
    return 1;
}

#ifdef WRONG_CHECKSUM /* a wrong build, to test that the system counts and drops packets with a wrong checksum */
static void turn_bit(uint8_t *packet)
{
    int is_ipv4 = packet[0] >> 4 == 4;
    uint8_t protocol = packet[is_ipv4 ? 9 : 6];
    packet[(is_ipv4 ? 20 : 40) + (protocol == ETHERPARSE_PROTOCOL_TCP ? 16 : protocol == ETHERPARSE_PROTOCOL_UDP ? 6 : 2)] ^= 1;
}
#endif

/* Completes a partial checksum, which etherparse_translate_ipv4 would update as if it were whole. The system completes the checksum of each
   packet that it sends to a TUN device without offload. A packet socket (AF_PACKET) does not. */
static void complete_checksum(uint8_t *packet, size_t len)
{
    uint32_t is_partial;
    uint16_t checksum;
    if (etherparse_packet_checksum_is_partial(packet, len, &is_partial, NULL) == ETHERPARSE_OK && is_partial)
        (void)(etherparse_packet_checksum_store(packet, len, &checksum, NULL) == ETHERPARSE_OK);
}

/* Reads packets from one device, and writes them to the other. Returns 0 if a device is gone. */
static int forward(int from, int to, int (*translate)(uint8_t *packet, size_t len))
{
    static uint8_t packet[LONGEST_PACKET];
    int i;
    for (i = 0; i < BURST; i++) {
        ssize_t len = read(from, packet, sizeof packet);
        if (len <= 0)
            return errno == EAGAIN;
        complete_checksum(packet, (size_t)len);
        if (!translate(packet, (size_t)len) || !lower_hop_limit(packet)) {
            dropped++;
            continue;
        }
#ifdef WRONG_CHECKSUM
        turn_bit(packet);
#endif
        if (write(to, packet, (size_t)len) == len)
            translated++;
        else
            dropped++;
    }
    return 1;
}

/* Opens the TUN device with this name, or creates it. Returns its descriptor, or -1. */
static int open_device(const char *name)
{
    struct ifreq request;
    int device = open("/dev/net/tun", O_RDWR | O_NONBLOCK);
    memset(&request, 0, sizeof request);
    request.ifr_flags = IFF_TUN | IFF_NO_PI;
    if (device < 0 || strlen(name) >= sizeof request.ifr_name)
        return -1;
    memcpy(request.ifr_name, name, strlen(name));
    return ioctl(device, TUNSETIFF, &request) == 0 ? device : -1;
}

/* Returns a descriptor that can be read once SIGTERM was sent. */
static int open_sigterm(void)
{
    sigset_t signals;
    sigemptyset(&signals);
    sigaddset(&signals, SIGTERM);
    return sigprocmask(SIG_BLOCK, &signals, NULL) == 0 ? signalfd(-1, &signals, 0) : -1;
}

int main(int argc, char **argv)
{
    struct pollfd ready[3];
    int inside = argc == 5 ? open_device(argv[1]) : -1, outside = argc == 5 ? open_device(argv[2]) : -1, sigterm = open_sigterm();
    if (inside < 0 || outside < 0 || sigterm < 0 || inet_pton(AF_INET, argv[3], outside_ipv4) != 1 ||
        inet_pton(AF_INET6, argv[4], outside_ipv6) != 1) {
        fprintf(stderr, "usage: address_translator INSIDE OUTSIDE IPV4 IPV6, two TUN devices that this user may open or create, and the "
                        "addresses outside\n");
        return 2;
    }
    ready[0] = (struct pollfd){inside, POLLIN, 0};
    ready[1] = (struct pollfd){outside, POLLIN, 0};
    ready[2] = (struct pollfd){sigterm, POLLIN, 0};
    while (poll(ready, 3, -1) > 0 && ready[2].revents == 0) {
        if (ready[0].revents != 0 && !forward(inside, outside, translate_outbound))
            break;
        if (ready[1].revents != 0 && !forward(outside, inside, translate_inbound))
            break;
    }
    fprintf(stderr, "translated %lu, dropped %lu\n", translated, dropped);
    return 0;
}
