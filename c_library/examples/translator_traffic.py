#!/usr/bin/env python3
# SPDX-FileCopyrightText: 2026 The etherparse_transport developers
# SPDX-License-Identifier: MIT OR Apache-2.0
"""Sends TCP, UDP, echo requests and ICMP errors of Linux through address_translator, from one network namespace to another.

    translator_traffic.py SPACE          SPACE is the file of the namespace outside, such as /run/netns/outside
    translator_traffic.py SPACE wrong    expects that nothing arrives, since the translator makes each checksum wrong
    translator_traffic.py SPACE clat     sends IPv4 through clat and a NAT64 instead, between which the packets are IPv6 packets

It runs in the namespace inside. IPV4, IPV6 and CLAT list the addresses, which the namespaces must have. What is not as it should be raises
an error. Otherwise the number of bytes is printed that TCP carried in each direction, over IPv4 and over IPv6: as many as fit into 15
seconds, and at most 100 MB, or 20 MB through clat.
"""
import ctypes
import errno
import random
import socket
import struct
import sys
import threading
import time
from typing import NamedTuple

FIRST_PORT, FLOWS, MTU, SMALL_MTU = 40000, 1024, 1500, 1300
BYTES, CLAT_BYTES, SECONDS = 100_000_000, 20_000_000, 15
BLOCK = random.Random(1).getrandbits(8_000_000).to_bytes(1_000_000, "big")
# Values of Linux, which the module socket lacks.
CLONE_NEWNET, PMTUDISC_DO, MSG_ERRQUEUE = 0x40000000, 2, 0x2000


class Version(NamedTuple):
    """A version of IP: its addresses, and its numbers in Linux, most of which the module socket lacks."""
    inside: tuple  # the hosts inside
    outside: str  # what these hosts are outside
    no_outside: str  # an address that also leads to the translator, and belongs to no flow
    server: str  # the host outside, which is also a router
    unreachable: str  # to which the router has no route
    narrow: str  # to which the router has a route with SMALL_MTU
    behind: str  # the host behind the router
    family: int
    level: int  # of the socket options hop_limit to mtu
    hop_limit: int
    mtu_discover: int
    report_errors: int
    mtu: int
    icmp: int
    echo_request: int
    echo_reply: int
    unreachable_port: tuple  # type and code of this ICMP error
    no_route: int  # the error of a socket that sends to the unreachable address
    header_len: int
    first_port: int = FIRST_PORT  # the least port outside
    path_mtu: int = MTU  # of the routes inside
    reply_mtu: int = MTU  # for packets without "don't fragment", such as an echo reply of Linux
    router: int = 2  # the hop limit with which a packet ends at the server
    most: int = BYTES  # that TCP sends


# The last IPv6 address inside consists of the first IPv4 address inside and zeros, so the translator must compare the versions of flows.
IPV4 = Version(
    inside=("192.168.1.1", "192.168.1.2"), outside="203.0.113.7", no_outside="203.0.113.8", server="198.51.100.1",
    unreachable="198.51.101.1", narrow="198.51.102.1", behind="198.51.103.2", family=socket.AF_INET, level=socket.IPPROTO_IP,
    hop_limit=socket.IP_TTL, mtu_discover=10, report_errors=11, mtu=14, icmp=socket.IPPROTO_ICMP, echo_request=8, echo_reply=0,
    unreachable_port=(3, 3), no_route=errno.EHOSTUNREACH, header_len=20)
IPV6 = Version(
    inside=("fd00::1", "fd00::2", "c0a8:101::"), outside="2001:db8:113::7", no_outside="2001:db8:113::8", server="2001:db8:100::1",
    unreachable="2001:db8:101::1", narrow="2001:db8:102::1", behind="2001:db8:103::2", family=socket.AF_INET6, level=socket.IPPROTO_IPV6,
    hop_limit=socket.IPV6_UNICAST_HOPS, mtu_discover=23, report_errors=25, mtu=24, icmp=socket.IPPROTO_ICMPV6, echo_request=128,
    echo_reply=129, unreachable_port=(1, 4), no_route=errno.ENETUNREACH, header_len=40)
# A NAT64 translates the IPv6 address for 192.0.0.4 to the address outside. clat, both systems and the NAT64 lower the hop limit. tayga
# fragments IPv6 packets of more than 1,280 bytes unless "don't fragment" is set, and fragments of ICMP messages are not translated.
CLAT = IPV4._replace(inside=("192.0.0.4",), first_port=0, path_mtu=1480, reply_mtu=1260, router=5, most=CLAT_BYTES)


def expect(expected, found):
    if expected != found:
        raise AssertionError(f"expected {expected!r}, found {found!r}")


def enter(space):
    """Enters the namespace of an open file."""
    libc = ctypes.CDLL(None, use_errno=True)
    if libc.setns(space.fileno(), CLONE_NEWNET) != 0:
        raise OSError(ctypes.get_errno(), "setns")


def made(ip, kind, protocol, seconds):
    """A socket. Its port can be in use twice, as long as the addresses differ. Errors that may be over later are reported too."""
    it = socket.socket(ip.family, kind, protocol)
    it.setsockopt(socket.SOL_SOCKET, socket.SO_REUSEADDR, 1)
    it.setsockopt(ip.level, ip.report_errors, 1)
    it.settimeout(seconds)
    return it


def inside(ip, host, port, kind, protocol=0, seconds=5):
    it = made(ip, kind, protocol, seconds)
    it.bind((ip.inside[host % len(ip.inside)], port))
    return it


def outside(ip, port, kind, protocol=0, seconds=5):
    """A socket in the namespace outside, where it stays."""
    with open("/proc/self/ns/net", "rb") as home, open(sys.argv[1], "rb") as space:
        enter(space)
        try:
            it = made(ip, kind, protocol, seconds)
        finally:
            enter(home)
    it.bind((ip.server, port))
    return it


def send(it, most, end):
    """Sends the block again and again, until so many bytes are sent or the time is over."""
    sent = 0
    while sent < most and time.monotonic() < end:
        it.sendall(BLOCK)
        sent += len(BLOCK)
    it.shutdown(socket.SHUT_WR)


def receive(it, received):
    """Receives what the other side sends, and tests that it is the block again and again."""
    twice = BLOCK + BLOCK
    count = 0
    while data := it.recv(1 << 18):
        place = count % len(BLOCK)
        expect(True, data == twice[place : place + len(data)])
        count += len(data)
    received.append(count)


def tcp(ip):
    """Both sides send at the same time. Returns how many bytes each received at least."""
    with outside(ip, 80, socket.SOCK_STREAM) as listener, inside(ip, 0, 5000, socket.SOCK_STREAM, seconds=2 * SECONDS) as client:
        listener.listen()
        client.connect((ip.server, 80))
        server, (address, port, *_) = listener.accept()
        server.settimeout(2 * SECONDS)
        expect((ip.outside, True), (address, port >= ip.first_port))
        received, end = [], time.monotonic() + SECONDS
        threads = [threading.Thread(target=send, args=(it, ip.most, end)) for it in (client, server)]
        threads += [threading.Thread(target=receive, args=(it, received)) for it in (client, server)]
        for thread in threads:
            thread.start()
        for thread in threads:
            thread.join()
        server.close()
    expect(2, len(received))
    return min(received)


def udp(ip):
    """All hosts inside use one port, and each receives its own answers. Then the port is closed inside, which the host outside is told."""
    longest = ip.path_mtu - ip.header_len - 8
    with outside(ip, 53, socket.SOCK_DGRAM) as server:
        clients = [inside(ip, host, 5000, socket.SOCK_DGRAM) for host in range(len(ip.inside))]
        ports = set()
        for length in (0, 1, 2, 3, 8, 100, longest - 1, longest):
            for number, client in enumerate(clients):
                payload = BLOCK[number : number + length]
                client.sendto(payload, (ip.server, 53))
                found, (address, port, *_) = server.recvfrom(2000)
                expect((payload, ip.outside, True), (found, address, port >= ip.first_port))
                ports.add(port)
                server.sendto(payload[::-1], (address, port))
                found, (address, port, *_) = client.recvfrom(2000)
                expect((payload[::-1], ip.server, 53), (found, address, port))
        expect(len(clients), len(ports))
        for client in clients:
            client.close()
        for port in ports:
            server.connect((ip.outside, port))
            server.send(b"late")
            refused(errno.ECONNREFUSED, lambda: server.recv(2000))


def echo_request(ip, sequence, payload):
    """An echo request, in which the system sets identifier and checksum."""
    return struct.pack(">BBHHH", ip.echo_request, 0, 0, 0, sequence) + payload


def echo(ip):
    """All hosts inside use one identifier, and each receives its own replies."""
    clients = [inside(ip, host, 77, socket.SOCK_DGRAM, ip.icmp) for host in range(len(ip.inside))]
    for sequence, length in enumerate((0, 1, 56, 57, ip.reply_mtu - ip.header_len - 8)):
        for number, client in enumerate(clients):
            payload = BLOCK[number : number + length]
            client.sendto(echo_request(ip, sequence, payload), (ip.server, 0))
            reply, (address, *_) = client.recvfrom(2000)
            expect((ip.echo_reply, 0, 77, sequence), (reply[0], reply[1], *struct.unpack(">HH", reply[4:8])))
            expect((payload, ip.server), (reply[8:], address))
    for client in clients:
        client.close()


def refused(number, call):
    try:
        call()
    except OSError as error:
        expect(errno.errorcode[number], errno.errorcode.get(error.errno, str(error)))
    else:
        raise AssertionError(f"no {errno.errorcode[number]}")


def errors(ip):
    """ICMP errors about each protocol reach the socket inside that sent the packet."""
    with inside(ip, 1, 6000, socket.SOCK_DGRAM) as client:
        client.connect((ip.server, 9))
        client.send(b"to a closed port")
        refused(errno.ECONNREFUSED, lambda: client.recv(2000))
    with inside(ip, 1, 6001, socket.SOCK_DGRAM) as client:
        client.connect((ip.unreachable, 9))
        client.send(b"to no host")
        refused(ip.no_route, lambda: client.recv(2000))
    with inside(ip, 1, 6002, socket.SOCK_STREAM) as client:
        refused(ip.no_route, lambda: client.connect((ip.unreachable, 80)))
    with inside(ip, 1, 6003, socket.SOCK_DGRAM) as client:
        client.setsockopt(ip.level, ip.mtu_discover, PMTUDISC_DO)
        client.connect((ip.narrow, 9))
        client.send(bytes(1400))
        refused(errno.EMSGSIZE, lambda: client.recv(2000))
        expect(SMALL_MTU, client.getsockopt(ip.level, ip.mtu))
    with inside(ip, 1, 78, socket.SOCK_DGRAM, ip.icmp) as client:
        client.connect((ip.unreachable, 0))
        client.send(echo_request(ip, 1, b"ping"))
        refused(ip.no_route, lambda: client.recv(2000))


def reported(ip, client):
    """The payload of the packet that an ICMP error is about, and who sent the error: Linux writes the address behind 16 other bytes."""
    packet, [(_, _, report)], _, _ = client.recvmsg(2000, 1000, MSG_ERRQUEUE)
    begin, end = (20, 24) if ip.family == socket.AF_INET else (24, 40)
    return packet, socket.inet_ntop(ip.family, report[begin:end])


def probe(ip, client, hop_limit, payload):
    client.setsockopt(ip.level, ip.hop_limit, hop_limit)
    client.send(payload)


def udp_probes(ip):
    """By its hop limit a packet ends at a translator, which is silent, at the router outside, or at the host behind it."""
    with inside(ip, 1, 6100, socket.SOCK_DGRAM) as client:
        client.connect((ip.behind, 9))
        probe(ip, client, 1, b"to the translator")
        for hop_limit, payload, host, number in (
            (ip.router, b"to the router", ip.server, errno.EHOSTUNREACH),
            (ip.router + 1, b"to a closed port", ip.behind, errno.ECONNREFUSED),
        ):
            probe(ip, client, hop_limit, payload)
            refused(number, lambda: client.recv(2000))
            expect((payload, host), reported(ip, client))


def echo_probes(ip):
    """An echo request ends at the router, or at the host behind it."""
    with inside(ip, 1, 80, socket.SOCK_DGRAM, ip.icmp) as client:
        client.connect((ip.behind, 0))
        probe(ip, client, ip.router, echo_request(ip, 1, b"to the router"))
        refused(errno.EHOSTUNREACH, lambda: client.recv(2000))
        expect(ip.server, reported(ip, client)[1])
        probe(ip, client, ip.router + 1, echo_request(ip, 2, b"to the host"))
        expect(b"to the host", client.recv(2000)[8:])


def tcp_probes(ip):
    """A connection ends at the router, or at the host behind it."""
    for hop_limit, number in (ip.router, errno.EHOSTUNREACH), (ip.router + 1, errno.ECONNREFUSED):
        with inside(ip, 1, 6100 + hop_limit, socket.SOCK_STREAM) as client:
            client.setsockopt(ip.level, ip.hop_limit, hop_limit)
            refused(number, lambda: client.connect((ip.behind, 9)))


def outside_port(ip, server, port):
    """The port outside of a port inside."""
    with inside(ip, 0, port, socket.SOCK_DGRAM) as client:
        client.sendto(b"which port?", (ip.server, 53))
        payload, (_, translated, *_) = server.recvfrom(2 * MTU)
        expect(b"which port?", payload)
        return translated


def quoted_packet(ip):
    """The front of a UDP packet from the server to port 7999 of the first host inside."""
    addresses = socket.inet_pton(ip.family, ip.server) + socket.inet_pton(ip.family, ip.inside[0])
    udp_header = struct.pack(">HHHH", 53, 7999, 8, 0)
    if ip is IPV4:
        return struct.pack(">BBHHHBBH", 0x45, 0, 28, 0, 0, 64, socket.IPPROTO_UDP, 0) + addresses + udp_header
    return struct.pack(">IHBB", 6 << 28, 8, socket.IPPROTO_UDP, 64) + addresses + udp_header


def strangers(ip):
    """A packet from outside arrives only if a flow has its protocol, address and port. Fragments and ICMP errors begin no flow."""
    with outside(ip, 53, socket.SOCK_DGRAM) as server, outside(ip, 54, socket.SOCK_DGRAM) as stranger:
        port = outside_port(ip, server, 79)
        with inside(ip, 0, 79, socket.SOCK_DGRAM, ip.icmp) as client:
            client.sendto(echo_request(ip, 1, b"ping"), (ip.server, 0))
            client.recv(2000)
        with socket.socket(ip.family, socket.SOCK_RAW, ip.icmp) as client:
            client.sendto(struct.pack(">BBHI", *ip.unreachable_port, 0, 0) + quoted_packet(ip), (ip.server, 0))
        with inside(ip, 0, 7000, socket.SOCK_DGRAM) as client:
            client.sendto(bytes(2 * MTU), (ip.server, 53))
        identifier = port + 1
        expect(port + 2, outside_port(ip, server, 7001))
        with inside(ip, 0, 79, socket.SOCK_DGRAM) as client:
            stranger.sendto(b"of another protocol", (ip.outside, identifier))
            stranger.sendto(b"to another address", (ip.no_outside, port))
            stranger.sendto(b"from any host", (ip.outside, port))
            expect(b"from any host", client.recv(2000))
        with outside(ip, identifier, socket.SOCK_DGRAM, ip.icmp, seconds=0.3) as pinger:
            pinger.sendto(echo_request(ip, 1, b"ping"), (ip.outside, 0))
            refused(errno.ETIMEDOUT, lambda: arrives(pinger.recv, 2000))


def many(ip):
    """More flows than there are ports: each new one has another port than those before it."""
    with outside(ip, 53, socket.SOCK_DGRAM) as server:
        ports = [outside_port(ip, server, 10000 + number) for number in range(2 * FLOWS + 10)]
    expect(set(range(FIRST_PORT, FIRST_PORT + FLOWS)), set(ports))
    expect(FLOWS, len(set(ports[-FLOWS:])))


def nothing_arrives(ip):
    """One packet of each protocol, or more of TCP, which are dropped by the system that receives them."""
    with outside(ip, 53, socket.SOCK_DGRAM, seconds=0.3) as server, inside(ip, 0, 5000, socket.SOCK_DGRAM) as client:
        client.sendto(b"wrong", (ip.server, 53))
        refused(errno.ETIMEDOUT, lambda: arrives(server.recv, 2000))
    with outside(ip, 80, socket.SOCK_STREAM) as listener, inside(ip, 0, 5000, socket.SOCK_STREAM, seconds=0.3) as client:
        listener.listen()
        refused(errno.ETIMEDOUT, lambda: arrives(client.connect, (ip.server, 80)))
    with inside(ip, 0, 77, socket.SOCK_DGRAM, ip.icmp, seconds=0.3) as client:
        client.sendto(echo_request(ip, 1, b"ping"), (ip.server, 0))
        refused(errno.ETIMEDOUT, lambda: arrives(client.recv, 2000))


def arrives(call, argument):
    try:
        return call(argument)
    except socket.timeout:
        raise OSError(errno.ETIMEDOUT, "timed out") from None


def everything_arrives():
    """Prints how many bytes TCP carried. The flows of `many` take the ports of all others, so they are the last."""
    for ip in IPV4, IPV6:
        for test in udp, echo, errors, udp_probes, echo_probes, tcp_probes, strangers:
            test(ip)
    print(tcp(IPV4), tcp(IPV6))
    many(IPV4)
    many(IPV6)


def everything_arrives_through_clat():
    """Prints how many bytes TCP carried."""
    for test in udp, echo, errors, udp_probes, echo_probes, tcp_probes:
        test(CLAT)
    print(tcp(CLAT))


if sys.argv[2:] == ["clat"]:
    everything_arrives_through_clat()
elif sys.argv[2:] == ["wrong"]:
    nothing_arrives(IPV4)
    nothing_arrives(IPV6)
else:
    everything_arrives()
