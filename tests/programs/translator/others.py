"""Comparisons with tshark and tcprewrite."""
import collections
import pathlib
import shutil
import subprocess
import tempfile
import xml.etree.ElementTree

from .. import build, kinds
from .captures import TABLES, Capture, captures, is_right
from .run import run

# Parts of the names of fields that contain what is replaced, texts about it, or what tshark finds in other packets between the same ends. To
# tshark an IPv6 packet with hop-by-hop options and payload length 0 is a trailer.
REPLACED = ("src", "dst", "addr", "host", "port", "checksum", "stream", "trailer", "_ws.expert", "tcp.analysis", "tcp.completeness", "tcp.time",
            "udp.time")


def fields_of(tshark, path):
    """All fields of a capture by tshark, a list for each packet: names and values, except for those that are replaced."""
    checks = [word for protocol in ("ip", "udp", "tcp") for word in ("-o", f"{protocol}.check_checksum:TRUE")]
    # Without this tshark takes the bytes of an IPv6 packet that states no length for a trailer of the frame.
    checks += ["-o", "ipv6.tso_support:TRUE"]
    done = subprocess.run([tshark, "-r", path, *checks, "-o", "ip.defragment:FALSE", "-o", "ipv6.defragment:FALSE", "-T", "pdml"],
                          capture_output=True, timeout=120)
    packets = []
    for packet in xml.etree.ElementTree.fromstring(done.stdout).iter("packet"):
        fields = [(field.get("name"), field.get("show")) for field in packet.iter("field")]
        packets.append([field for field in fields if field[0].endswith("checksum.status") or not any(word in field[0] for word in REPLACED)])
    return packets


def check_against_tshark(tally):
    """Tshark finds the same fields in each packet before and after, and the same verdicts on checksums."""
    tshark = shutil.which("tshark")
    if tshark is None:
        print("tshark is not installed: its fields are not compared")
        return
    table = TABLES["both sides alike"]
    chosen = ("c_library/", "capture_parts, link type 1, <", "pcapng_parts, link type 113, >", "mixed")
    with tempfile.TemporaryDirectory() as room:
        for name, data in captures():
            if not name.startswith(chosen):
                continue
            before, after = pathlib.Path(room) / "before", pathlib.Path(room) / "after"
            before.write_bytes(data)
            after.write_bytes(run(data, *table.arguments).stdout)
            was, now = fields_of(tshark, before), fields_of(tshark, after)
            differing = [(number, [pair for pair in zip(one, other) if pair[0] != pair[1]][:3], len(one), len(other))
                         for number, (one, other) in enumerate(zip(was, now, strict=True), 1) if one != other]
            tally.expect(f"{name}: fields of tshark", differing, [])


def check_against_tcprewrite(tally):
    """tcprewrite writes the same packets of IPv4, except for the kinds that are stated here, each with its number."""
    tcprewrite = shutil.which("tcprewrite")
    if tcprewrite is None:
        print("tcprewrite is not installed: its packets are not compared")
        return
    source, destination = "192.0.2.0/24=10.1.2.0/24", "192.0.2.0/24=172.16.5.0/24"
    packets = [packet for verdict, packet in kinds.transports() if verdict not in ("refused", "cut") and packet[0] >> 4 == 4]
    data = build.capture(build.ETHERNET, [build.frame(build.ETHERNET, packet) for packet in packets])
    ours = run(data, "--source", source, "--destination", destination).stdout
    with tempfile.TemporaryDirectory() as room:
        before, after = pathlib.Path(room) / "before", pathlib.Path(room) / "after"
        before.write_bytes(data)
        subprocess.run([tcprewrite, "--srcipmap=" + source.replace("=", ":"), "--dstipmap=" + destination.replace("=", ":"),
                        f"--infile={before}", f"--outfile={after}"], capture_output=True, timeout=120)
        theirs = after.read_bytes()
    frames = [[frame[14:] for _, _, frame in Capture(one).frames()] for one in (data, ours, theirs)]
    differences = collections.Counter(kind_of_difference(*three) for three in zip(*frames, strict=True))
    # The packets that stay are errors about a packet with other addresses, a redirect, and an ICMP message that is no query and no error.
    tally.expect("packets of tcprewrite", dict(differences), {"the same": 10, "a wrong checksum, which tcprewrite corrects": 3, "a packet that stays": 5})


def kind_of_difference(was, mine, other):
    """How the program and tcprewrite differ in a packet."""
    if mine == other:
        return "the same"
    if mine == was:
        return "a packet that stays"
    is_corrected = is_right(was) == is_right(mine) == (True, False) and is_right(other) == (True, True)
    return "a wrong checksum, which tcprewrite corrects" if is_corrected else f"unexplained: {was.hex()} {mine.hex()} {other.hex()}"
