"""Tests of the options that choose packets."""
import ipaddress
import re

from ..build import ETHERNET, capture, pcapng
from ..kinds import every_kind
from .report import INTERFACE, LENGTH, ends_of, lines_of, quoted_ends_of, run, verdict_of


def in_network(address, hosts):
    """Whether an address of a line is in one of these networks."""
    return address != "unknown" and any(ipaddress.ip_address(address) in ipaddress.ip_network(host) for host in hosts)


def protocols_of(names):
    """The protocols with these names, where `icmp` is both versions."""
    return [protocol for name in names for protocol in (("icmpv4", "icmpv6") if name.lower() == "icmp" else (name.lower(),))]


def in_ranges(port, values):
    """Whether a port is in one of these lists of ports and ranges."""
    ranges = [(item.split("-") * 2)[:2] for value in values for item in str(value).split(",")]
    return port is not None and any(int(first) <= int(port) <= int(last) for first, last in ranges)


def is_chosen(line, protocol=(), **values):
    """Whether the packet of a line is one of these, by what its line says of it."""
    named = re.match(rf"\d+ \S+ {INTERFACE}{LENGTH}(?:\S+ > \S+ )?([A-Za-z][\w-]*)", line)
    own = ends_of(line)
    ends = own + quoted_ends_of(line)
    hosts = {"host": ends, "source": own[:1], "destination": own[1:], "not-host": ends}
    found = {key: any(in_network(address, values[key]) for address, _ in hosts[key]) for key in hosts if key in values}
    found |= {key: any(in_ranges(port, values[key]) for _, port in ends) for key in ("port", "not-port") if key in values}
    return (all(matches != key.startswith("not-") for key, matches in found.items())
            and (not protocol or named is not None and named.group(1).lower() in protocols_of(protocol)))


def check_choices(tally):
    """Packets that are chosen: their lines are those among the lines of all, and they alone are counted and checked."""
    frames, _ = every_kind(ETHERNET)
    for name, data in (("classic", capture(ETHERNET, frames)), ("pcapng", pcapng(ETHERNET, frames))):
        lines = lines_of(run(data, "--packets").stdout)
        for choice in [
            {"host": ["192.0.2.1"]}, {"host": ["192.0.2.2"]}, {"host": ["2001:db8::1"]}, {"host": ["2001:db8::2"]}, {"host": ["192.0.2.3"]},
            {"port": [53]}, {"port": [49152]}, {"port": [80]}, {"port": [0]},
            {"host": ["198.51.100.7"]}, {"host": ["2001:db8::7"]}, {"port": [33434]}, {"host": ["198.51.100.7"], "port": [33434]},
            {"host": ["198.51.100.7"], "port": [53]}, {"host": ["198.51.100.7"], "protocol": ["udp"]},
            {"protocol": ["udp"]}, {"protocol": ["tcp"]}, {"protocol": ["icmpv4"]}, {"protocol": ["icmpv6"]},
            {"protocol": ["icmp"]}, {"protocol": ["TCP", "Udp"]}, {"protocol": ["ICMPv6"]}, {"protocol": ["icmp", "tcp"]},
            {"host": ["192.0.2.1"], "port": [53]}, {"host": ["2001:db8::1"], "port": [80]}, {"host": ["2001:db8::2"], "protocol": ["udp"]},
            {"port": [53], "protocol": ["tcp"]}, {"host": ["2001:db8::2"], "port": [80], "protocol": ["tcp"]},
            {"host": ["192.0.2.1", "2001:db8::2"]}, {"host": ["192.0.2.3", "198.51.100.7"]}, {"port": [53, 80]}, {"port": [1, 2, 33434]},
            {"host": ["192.0.2.1", "2001:db8::1"], "port": [80, 33434]}, {"host": [f"192.0.2.{number}" for number in range(1, 17)]},
            {"host": ["192.0.2.0/24"]}, {"host": ["192.0.2.0/31"]}, {"host": ["198.51.100.0/29"]}, {"host": ["192.0.2.1/32"]},
            {"host": ["0.0.0.0/0"]}, {"host": ["::/0"]}, {"host": ["2001:db8::/32"]}, {"host": ["2001:db8::2/127"]}, {"host": ["2001:db9::/32"]},
            {"host": ["198.51.100.0/24", "2001:db8::4/126"]},
            {"source": ["192.0.2.1"]}, {"destination": ["192.0.2.1"]}, {"source": ["192.0.2.2"]}, {"destination": ["192.0.2.0/24", "2001:db8::2"]},
            {"source": ["192.0.2.1"], "destination": ["192.0.2.1"]}, {"source": ["198.51.100.7"]}, {"not-host": ["192.0.2.1"]}, {"not-host": ["::/0"]},
            {"not-host": ["0.0.0.0/0", "2001:db8::1"]}, {"not-port": [53]}, {"not-port": ["0-65535"]}, {"host": ["192.0.2.1"], "not-port": ["53,80"]},
            {"port": ["80,53"]}, {"port": ["50-60"]}, {"port": ["1,50-53", 80]}, {"port": ["54-79"]}, {"port": ["0-65535"]},
            {"port": ["0-65535"], "not-port": ["49152"]}, {"protocol": ["arp"]}, {"protocol": ["OSPF", "gre"]}, {"protocol": ["arp", "icmp"]},
        ]:
            arguments = [word for key, values in choice.items() for value in values for word in (f"--{key}", str(value))]
            wanted = [line for line in lines if is_chosen(line, **choice)]
            tally.expect(f"{name}, {arguments}: lines", lines_of(run(data, "--packets", *arguments).stdout), wanted)
            faults = [line for line in wanted if verdict_of(line) in ("wrong", "refused")]
            done = run(data, "--wrong", "--packets", "--check", *arguments)
            tally.expect(f"{name}, {arguments}: faults", (done.returncode, lines_of(done.stdout)), (4 if faults else 0, faults))
            summary = run(data, "--summary", *arguments).stdout.decode()
            tally.expect(f"{name}, {arguments}: packets", re.search(r"^packets (\d+)", summary, re.M).group(1), str(len(wanted)))
    written = run(capture(ETHERNET, frames), "--packets", "--host", "2001:0DB8:0:0::1").stdout
    tally.expect("another text of an address", written, run(capture(ETHERNET, frames), "--packets", "--host", "2001:db8::1").stdout)
    # An empty line separates lines and summary, and is left out if there are no lines.
    data = capture(ETHERNET, frames)
    for arguments, is_empty in [(("--port", "61000"), False), (("--protocol", "ospf", "--wrong"), False), ((), True), (("--wrong",), True), (("--summary",), False)]:
        summary = lines_of(run(data, *(word for word in arguments if word != "--wrong"), "--summary").stdout)
        written = lines_of(run(data, *arguments).stdout)
        tally.expect(f"{arguments}: the line before the summary", (written[-len(summary):], written[:-len(summary)][-1:]), (summary, [""] if is_empty else []))
