"""Comparisons with tshark."""
import itertools
import json
import pathlib
import shutil
import subprocess
import tempfile

from ..build import ETHERNET, LINKS, NFLOG, RAW, capture
from ..kinds import every_kind, further_headers, packets_in_tunnels, packets_in_udp_tunnels
from .report import ends_of, lines_of, parts_of, run, verdict_of


def check_against_tshark(tally):
    """Tshark's verdict on each packet."""
    tshark = shutil.which("tshark")
    if tshark is None:
        print("tshark is not installed: its verdicts are not compared")
        return
    # An ICMP error has a status too for the packet that it quotes, so that of ICMP comes first.
    protocols = ["icmp", "icmpv6", "udp", "tcp"]
    fields = [word for protocol in protocols for word in ("-e", f"{protocol}.checksum.status")]
    options = [word for protocol in ("ip", "udp", "tcp") for word in ("-o", f"{protocol}.check_checksum:TRUE")]
    # Without this preference an IPv6 packet with payload length 0 ends with its header. Over IPv4 it has this value from the start.
    options += ["-o", "ipv6.tso_support:TRUE"]
    with tempfile.TemporaryDirectory() as room:
        for link in LINKS:
            frames = every_kind(link)[0] + further_headers(link)[0]
            data = capture(link, frames)
            path = pathlib.Path(room) / "capture.pcap"
            path.write_bytes(data)
            done = subprocess.run([tshark, "-r", path, *options, "-o", "ip.defragment:FALSE", "-o", "ipv6.defragment:FALSE",
                                   "-T", "fields", "-E", "occurrence=f", *fields], capture_output=True, text=True, timeout=120)
            ours = [verdict_of(line) for line in lines_of(run(data, "--packets").stdout)]
            theirs = [(columns.strip().split() or ["-"])[0] for columns in done.stdout.splitlines()]
            if link == NFLOG:
                # In a frame that is cut off after its packet, tshark looks for a further attribute, and then reads no packet.
                whole = [not isinstance(entry, tuple) for entry in frames]
                ours, theirs = (list(itertools.compress(verdicts, whole)) for verdicts in (ours, theirs))
            compare_verdicts(tally, link, ours, theirs)


def compare_verdicts(tally, link, ours, theirs):
    """Of each packet the program's verdict and tshark's status: 0 is wrong, 1 right, 2 not tested, 3 none, 4 none where there has to be one,
    and - where it finds no checksum. Where the program refuses a packet, or doesn't know the final destination, tshark may test a sum.
    It tests that of a packet without a length over the bytes of the frame, unless hop-by-hop options should contain the length."""
    agreeing = {"right": "1", "wrong": "04", "none": "3", "refused": "012-", "destination": "1", "length": "12-"}
    differing = []
    for number, (mine, other) in enumerate(zip(ours, theirs, strict=True), 1):
        if other not in agreeing.get(mine, "2-"):
            differing.append((number, mine, other))
    tally.expect(f"tshark's verdicts, link type {link}", differing, [])


def check_payloads_against_tshark(tally):
    """Tshark's lengths of UDP datagrams and TCP segments, cut ones included. It takes a packet without a length as long as its frame was."""
    tshark = shutil.which("tshark")
    if tshark is None:
        return
    data = capture(ETHERNET, every_kind(ETHERNET)[0])
    with tempfile.TemporaryDirectory() as room:
        path = pathlib.Path(room) / "capture.pcap"
        path.write_bytes(data)
        fields = ["-e", "udp.length", "-e", "tcp.len", "-E", "occurrence=f", "-E", "separator=,"]
        done = subprocess.run([tshark, "-r", path, "-T", "fields", *fields], capture_output=True, text=True, timeout=120)
    packets = [json.loads(line) for line in lines_of(run(data, "--packets", "--json").stdout)]
    compared = 0
    for packet, line in zip(packets, done.stdout.splitlines(), strict=True):
        datagram, segment = line.split(",")
        if packet.get("reason") != "no_length_stated" and "refused" not in packet and (segment if "tcp" in packet else "udp" in packet):
            stated = int(segment) if "tcp" in packet else min(int(datagram) - 8, packet["payload_length"])
            tally.expect(f"tshark's payload of packet {packet['number']}", packet["payload_length"], stated)
            compared += 1
    tally.expect("payloads that tshark has too", compared > 20, True)


def check_tunnels_against_tshark(tally):
    """The sources and protocols that tshark finds in packets in tunnels, and its status of the innermost checksum."""
    tshark = shutil.which("tshark")
    if tshark is None:
        return
    data = capture(RAW, [packet for _, packet, inner in packets_in_tunnels() if inner[0] & 15 != 4])
    with tempfile.TemporaryDirectory() as room:
        path = pathlib.Path(room) / "capture.pcap"
        path.write_bytes(data)
        fields = [word for field in ("ip.src", "ipv6.src", "udp.checksum.status", "tcp.checksum.status") for word in ("-e", field)]
        options = [word for protocol in ("udp", "tcp") for word in ("-o", f"{protocol}.check_checksum:TRUE")]
        done = subprocess.run([tshark, "-r", path, *options, "-T", "fields", "-E", "separator=;", *fields], capture_output=True, text=True,
                              timeout=120)
    for line, theirs in zip(lines_of(run(data, "--packets").stdout), done.stdout.splitlines(), strict=True):
        sources = [ends_of("1 - length unknown: " + part)[0][0] for part in parts_of(line)[3].split(" | ")]
        *stated, of_udp, of_tcp = theirs.split(";")
        tally.expect("sources of a packet in a tunnel",
                     [[source for source in sources if (":" in source) == is_ipv6] for is_ipv6 in (False, True)],
                     [column.split(",") if column else [] for column in stated])
        tally.expect("checksum of a packet in a tunnel", {"right": "1", "wrong": "0"}[verdict_of(line)], of_udp + of_tcp)


def check_udp_tunnels_against_tshark(tally):
    """The sources, the networks and the ether types that tshark finds in VXLAN and Geneve, and its status of the innermost checksum."""
    tshark = shutil.which("tshark")
    if tshark is None:
        return
    data = capture(RAW, [packet for _, packet, _, _ in packets_in_udp_tunnels()])
    with tempfile.TemporaryDirectory() as room:
        path = pathlib.Path(room) / "capture.pcap"
        path.write_bytes(data)
        fields = [word for field in ("ip.src", "ipv6.src", "vxlan.vni", "geneve.vni", "arp.opcode", "udp.checksum.status", "tcp.checksum.status")
                  for word in ("-e", field)]
        options = [word for protocol in ("udp", "tcp") for word in ("-o", f"{protocol}.check_checksum:TRUE")]
        done = subprocess.run([tshark, "-r", path, *options, "-T", "fields", "-E", "separator=;", *fields], capture_output=True, text=True,
                              timeout=120)
    packets = [json.loads(line) for line in lines_of(run(data, "--packets", "--json", "--tunnels").stdout)]
    for packet, theirs in zip(packets, done.stdout.splitlines(), strict=True):
        # A refused packet has a source too, but not in tshark.
        parts = packet["tunnels"] if "refused" in packet else (*packet["tunnels"], packet)
        sources = [part["source"] for part in parts if "source" in part]
        columns = [column.split(",") if column else [] for column in theirs.split(";")]
        name = f"tshark's packet {packet['number']} in a tunnel in UDP"
        tally.expect(f"{name}: sources", [[source for source in sources if (":" in source) == is_ipv6] for is_ipv6 in (False, True)], columns[:2])
        numbers = [[tunnel["vni"] for tunnel in packet["tunnels"] if tunnel.get("encapsulation") == kind] for kind in ("VXLAN", "Geneve")]
        tally.expect(f"{name}: networks", numbers, [[int(text, 0) for text in column] for column in columns[2:4]])
        tally.expect(f"{name}: ARP", [str(packet["arp"]["operation"])] if "arp" in packet else [], columns[4])
        if packet.get("checksum") in ("right", "wrong"):
            # tshark also has a status for each outer datagram.
            status = (columns[6] or columns[5])[-1]
            tally.expect(f"{name}: checksum", packet["checksum"], {"1": "right", "0": "wrong"}[status])
