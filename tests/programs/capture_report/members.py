"""The members of the object of a packet in JSON, as its line and its bytes state them."""
import datetime
import ipaddress
import json
import re
import struct

from .names import ETHER_TYPES, NLPIDS, NUMBERS, PPP_NAMES
from .report import FRAGMENT, HOP_LIMIT, ends_of, lines_of, parts_of, quoted_ends_of, run, with_underscores


def protocol_of(text):
    """The protocol at the front of a text, as members: its number, and its name if it has one."""
    if found := re.match(r"protocol (\d+)", text):
        return {"protocol": int(found.group(1))}
    name = max((name for name in NUMBERS if text.startswith(name)), key=len)
    return {"protocol": NUMBERS[name], "protocol_name": name}


def arp_of(text):
    """What a line says of an ARP packet after its name, as a member. Of addresses the line shows a part."""
    if found := re.fullmatch(r", who has (\S+), asked by (\S+)", text):
        return {"arp": {"operation": 1, "sender_address": found.group(2), "target_address": found.group(1)}}
    if found := re.fullmatch(r", (\S+) is at (\S+)", text):
        return {"arp": {"operation": 2, "sender_address": found.group(1), "sender_hardware_address": found.group(2)}}
    operation, cut_off = re.fullmatch(r"(?:, operation (\d+))?(, cut off)?", text).groups()
    return {"arp": ({"operation": int(operation)} if operation else {}) | {"cut_off": bool(cut_off)}}


def network_of(text):
    """What a line says of a frame without an IP packet, as members."""
    if text.startswith("ARP"):
        return {"ether_type": 0x0806, "protocol_name": "ARP"} | arp_of(text[len("ARP"):])
    if text == "STP":
        return {"llc_dsap": 0x42, "llc_ssap": 0x42, "protocol_name": text}
    for member, names in (("ether_type", ETHER_TYPES), ("ppp_protocol", PPP_NAMES), ("nlpid", NLPIDS)):
        if text in names:
            return {member: names[text], "protocol_name": text}
    kinds = {"ether type": ("ether_type",), "address family": ("address_family",), "link type": ("link_type",),
             "IEEE 802.11 frame control": ("frame_control",), "radiotap version": ("radiotap_version", "radiotap_length"),
             "LLC DSAP": ("llc_dsap", "llc_ssap"), "SNAP": ("snap_organization_code", "snap_protocol"),
             "PPP protocol": ("ppp_protocol",), "Frame Relay": ("frame_relay_header",), "NLPID": ("nlpid",)}
    for words, names in kinds.items():
        if text.startswith(words + " "):
            numbers = re.findall(r"\b[0-9A-F]+\b", text[len(words):])
            base = 10 if words in ("address family", "link type", "radiotap version") else 16
            return dict(zip(names, (int(number, base) for number in numbers)))
    return {}


def transport_of(text):
    """What a line says of a packet after its addresses, as members."""
    rest, length, captured = re.fullmatch(r"(.*), payload (\d+)(?:, (\d+) captured)?", text).groups()
    members = {"payload_length": int(length)} | protocol_of(rest)
    if captured:
        members["payload_captured_length"] = int(captured)
    if found := re.fullmatch(r"UDP length (\d+)", rest):
        members["udp"] = {"length": int(found.group(1))}
    elif found := re.fullmatch(r"TCP flags (.*?), sequence (\d+), acknowledgment (\d+), window (\d+)(?:, urgent pointer (\d+))?"
                               r"(?:, options \[(.*)\])?", rest):
        flags, *numbers, urgent, options = found.groups()
        names = ("sequence", "acknowledgment", "window")
        members["tcp"] = {"flags": [] if flags == "none" else flags.split(), "options": options or ""}
        members["tcp"] |= dict(zip(names, map(int, numbers))) | ({"urgent_pointer": int(urgent)} if urgent else {})
    elif found := re.fullmatch(r"(ICMPv[46]) (.+?)( for \S+ > \S+ .+)?", rest):
        members[found.group(1).lower()] = {"message": found.group(2)}
        if found.group(3):
            word = found.group(3).split(" > ")[1].split(" ", 1)[1]
            members["quoted"] = protocol_of(word) | members_of_ends(quoted_ends_of(rest))
    return members


def members_of_ends(ends):
    """Addresses and ports as members."""
    members = {}
    for name, (address, port) in zip(("source", "destination"), ends):
        members[name] = None if address == "unknown" else address
        members |= {} if port is None else {f"{name}_port": port}
    return members


def reason_of(text):
    """Why a checksum is not tested, as the members of an object."""
    if found := re.fullmatch(r"(\d+) bytes, more than \d+", text):
        return {"reason": "too_long", "required_length": int(found.group(1))}
    words = {"a fragment": "fragment", "the final destination is not known": "final destination unknown"}
    return {"reason": with_underscores(words.get(text, text))}


def tunnel_of(text):
    """What a line says of an outer packet, as members."""
    network = re.search(r", (VXLAN|Geneve), VNI (\d+)$", text)
    members = {"encapsulation": network.group(1), "vni": int(network.group(2))} if network else {}
    return members_of_ends(ends_of("1 - length unknown: " + text)) | protocol_of(text.split(" ", 3)[3]) | members


def members_of(line):
    """What a line with -v says of a packet, as the members of its object, without the time in numbers; of a message without type and code,
    and its options as one text."""
    limit = {with_underscores(name): int(value) for name, value in HOP_LIMIT.findall(line)}
    limit |= {"interface": int(number) for number in re.findall(r"^\d+ \S+ interface (\d+) ", line)}
    fragments = [{"identification": int(identification, 16), "offset": int(offset), "more_fragments": bool(more)}
                 for identification, offset, more in FRAGMENT.findall(line)]
    number, time, length, rest = parts_of(FRAGMENT.sub("", HOP_LIMIT.sub("", line)))
    *outer, rest = rest.split(" | ")
    line = f"{number} {time} {length}{rest}"
    what, _, verdict = rest.rpartition("; ")
    if not what and not verdict.startswith(("checksum ", "refused: ")):
        what, verdict = rest, "checksum not looked at: another protocol"
    members = {"type": "packet", "number": int(number), "time": None if time == "-" else time} | limit
    members |= {"fragment": fragments[0]} if fragments else {}
    members |= {"tunnels": [tunnel_of(text) for text in outer]} if outer else {}
    if lengths := re.findall(r"\d+", length):
        members |= {"length": int(lengths[0]), "captured_length": int(lengths[-1])}
    if verdict.startswith("refused: "):
        members["refused"] = verdict[len("refused: "):]
    elif verdict.startswith("checksum not looked at: "):
        members |= {"checksum": "not_looked_at"} | reason_of(verdict[len("checksum not looked at: "):])
    elif found := re.fullmatch(r"checksum wrong, ([0-9A-F]{4}) expected", verdict):
        members |= {"checksum": "wrong", "expected_checksum": int(found.group(1), 16)}
    else:
        members["checksum"] = with_underscores(verdict[len("checksum "):])
    ends = ends_of(line)
    members |= members_of_ends(ends)
    after = re.fullmatch(r"\S+ > \S+ (.+)", what)
    return members | (transport_of(after.group(1)) if after else {} if ends else network_of(what))


# What a line says of an option of this kind.
KINDS = {0: "end of options", 1: "no operation", 2: "maximum segment size {maximum_segment_size}", 3: "window scale {shift}",
         4: "selective acknowledgment permitted", 8: "timestamp {value} {echo_reply}"}


def option_text(option):
    """What a line says of an option of a TCP header, from its object."""
    if "data" in option:
        count = len(option["data"]) // 2
        return f"option {option['kind']} of {count} byte{'' if count == 1 else 's'}" + (f": {option['data']}" if count else "")
    if "selective_acknowledgment" in option:
        return "selective acknowledgment" + "".join(f" {block['left']}-{block['right']}" for block in option["selective_acknowledgment"])
    return KINDS[option["kind"]].format(**option)


def field_texts(message):
    """What a line says of the fields of an ICMP message, from its members."""
    words = {"identifier": "identifier", "sequence": "sequence number", "mtu": "MTU", "pointer": "pointer", "gateway": "gateway",
             "target": "target", "destination": "destination", "group": "group", "link_layer_address": "link-layer address",
             "maximum_response_code": "maximum response code", "records": "records"}
    return [f"{words[name]} {value}" for name, value in message.items() if name in words]


def without_details(packet):
    """An object of a packet in the form of `members_of`."""
    packet = json.loads(json.dumps(packet))
    for name in ("icmpv4", "icmpv6"):
        if name in packet:
            missing = [text for text in field_texts(packet[name]) if text not in packet[name]["message"]]
            packet[name] = {"message": packet[name]["message"]} | ({"missing": missing} if missing else {})
    if packet.get("arp", {}).get("operation") in (1, 2) and "target_address" in packet["arp"]:
        # The line of a request has the two addresses, and the line of a reply the sender's.
        names = ("sender_address", "target_address") if packet["arp"]["operation"] == 1 else ("sender_address", "sender_hardware_address")
        packet["arp"] = {name: value for name, value in packet["arp"].items() if name in ("operation", *names)}
    elif "target_address" in packet.get("arp", {}):
        packet["arp"] = {"operation": packet["arp"]["operation"], "cut_off": False}
    if "tcp" in packet:
        fault = [packet["tcp"].pop("options_fault")] if "options_fault" in packet["tcp"] else []
        packet["tcp"]["options"] = ", ".join([option_text(option) for option in packet["tcp"]["options"]] + fault)
    return packet


def numbers_of(text, names=("seconds", "nanoseconds")):
    """A date and time, or seconds and a fraction, as the two numbers with these names, the seconds rounded down."""
    date, _, fraction = text.removesuffix("Z").partition(".")
    nanoseconds = int(fraction.ljust(9, "0"))
    if not text.endswith("Z"):
        whole = int(date) * 10 ** 9 + (-nanoseconds if date.startswith("-") else nanoseconds)
    else:
        passed = datetime.datetime.fromisoformat(date) - datetime.datetime(1970, 1, 1)
        whole = (passed.days * 86400 + passed.seconds) * 10 ** 9 + nanoseconds
    return dict(zip(names, divmod(whole, 10 ** 9)))


def fields_of(packet):
    """Addresses, ports, numbers of a whole packet over IPv4, from its bytes."""
    members, body = flow_fields_of(packet), packet[20:]
    if packet[9] == 6:
        members["payload_length"] = len(body) - (body[12] >> 4) * 4
        members["tcp"] = dict(zip(("sequence", "acknowledgment"), struct.unpack(">II", body[4:12])))
        members["tcp"]["window"] = struct.unpack(">H", body[14:16])[0]
    if packet[9] == 1:
        members["icmpv4"] = {"type": body[0], "code": body[1]}
        if body[0] in (3, 4, 5, 11, 12) and body[8] == 0x45:
            members["quoted"] = flow_fields_of(body[8:])
    return members


def flow_fields_of(packet):
    """Addresses, ports and protocol of a packet over IPv4, from its bytes."""
    source, destination = (str(ipaddress.IPv4Address(packet[place:place + 4])) for place in (12, 16))
    members = {"source": source, "destination": destination, "protocol": packet[9]}
    if packet[9] in (6, 17) and struct.unpack(">H", packet[6:8])[0] & 0x1FFF == 0:
        members["source_port"], members["destination_port"] = struct.unpack(">HH", packet[20:24])
    return members


def is_within(some, whole):
    return all(is_within(value, whole[name]) if isinstance(value, dict) else whole[name] == value for name, value in some.items())


def check_objects(tally, name, data, *arguments):
    """The objects of packets have the members that their lines say."""
    lines, dates = (lines_of(run(data, "--packets", more, *arguments).stdout) for more in ("-v", "--absolute"))
    done = run(data, "--packets", "--json", *arguments)
    packets = [without_details(json.loads(line)) for line in lines_of(done.stdout)]
    times = [parts_of(date)[1] for date in dates]
    wanted = [members_of(line) | ({} if time == "-" else numbers_of(time)) for line, time in zip(lines, times, strict=True)]
    tally.expect(f"{name}, {arguments}: objects", done.returncode, 0)
    for line, packet, members in zip(lines, packets, wanted, strict=True):
        tally.expect(f"{name}, {arguments}: the object of {line}", packet, members)
