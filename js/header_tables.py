# SPDX-FileCopyrightText: 2026 The etherparse_transport developers
# SPDX-License-Identifier: MIT OR Apache-2.0
"""What the header of the library for C has, as JavaScript needs it: the numbers by their groups, the places of fields, the prototypes.

Types of fields come from the sources of the crate. Places come from the record of the header, c_library/abi/VERSION, which a C compiler
made. `.ci/c_library` compares both with the header.
"""
import pathlib
import re
import sys

sys.dont_write_bytecode = True
TOP = pathlib.Path(__file__).resolve().parent.parent
sys.path.insert(0, str(TOP / "c_library"))
from crate_exports import HEADER, c_field, c_name, header_numbers, numbers, prototypes, structs

# The groups of numbers, by the first name of their `enum` in the header: the name of each group, its prefix in C, and what it is.
GROUPS = {
    "LAYER_UDP_HEADER": [("Layer", "LAYER_", "The layer whose length was wrong. 0 is none.")],
    "LEN_SOURCE_SLICE": [
        ("LenSource", "LEN_SOURCE_", "Where a length came from: the number of bytes, or the length field of a UDP header. 0 is none.")
    ],
    "VALUE_UDP_PAYLOAD_LENGTH_IPV4": [("ValueType", "VALUE_", "Which value was above its limit. 0 is none.")],
    "PROTOCOL_ICMPV4": [("Protocol", "PROTOCOL_", "The protocols that the library reads, by their numbers in IP.")],
    "VERDICT_RIGHT": [
        ("VerdictKind", "VERDICT_", "The verdict on a checksum. From 16 on it is the reason why the checksum was not tested.")
    ],
    "TCP_FIN": [("TcpFlags", "TCP_", "The flags of a TCP header.")],
    "TCP_OPTION_NOOP": [("TcpOptionKind", "TCP_OPTION_", "The kinds of TCP options whose values the library knows.")],
    "ICMPV4_KIND_UNKNOWN": [("Icmpv4Kind", "ICMPV4_KIND_", "How the library reads an ICMPv4 message. It is not the type of the packet.")],
    "ICMPV6_KIND_UNKNOWN": [("Icmpv6Kind", "ICMPV6_KIND_", "How the library reads an ICMPv6 message. It is not the type of the packet.")],
    "ICMPV4_TYPE_ECHO_REPLY": [("Icmpv4Type", "ICMPV4_TYPE_", "The types of ICMPv4 messages (RFC 792): byte 0.")],
    "ICMPV4_CODE_NETWORK_UNREACHABLE": [
        ("Icmpv4UnreachableCode", "ICMPV4_CODE_", "The codes of ICMPv4 destination unreachable (RFC 792; RFC 1122; RFC 1812).")
    ],
    "ICMPV4_CODE_REDIRECT_NETWORK": [("Icmpv4RedirectCode", "ICMPV4_CODE_REDIRECT_", "The codes of ICMPv4 redirect (RFC 792).")],
    "ICMPV4_CODE_TIME_TO_LIVE_EXCEEDED": [("Icmpv4TimeExceededCode", "ICMPV4_CODE_", "The codes of ICMPv4 time exceeded (RFC 792).")],
    "ICMPV4_CODE_POINTER_INDICATES_ERROR": [
        ("Icmpv4ParameterProblemCode", "ICMPV4_CODE_", "The codes of an ICMPv4 parameter problem (RFC 792; RFC 1122).")
    ],
    "ICMPV6_TYPE_DESTINATION_UNREACHABLE": [
        ("Icmpv6Type", "ICMPV6_TYPE_", "The types of ICMPv6 messages (RFC 4443; RFC 4861): byte 0.")
    ],
    "ICMPV6_CODE_NO_ROUTE": [
        ("Icmpv6UnreachableCode", "ICMPV6_CODE_", "The codes of ICMPv6 destination unreachable (RFC 4443).")
    ],
    "ICMPV6_CODE_HOP_LIMIT_EXCEEDED": [("Icmpv6TimeExceededCode", "ICMPV6_CODE_", "The codes of ICMPv6 time exceeded (RFC 4443).")],
    "ICMPV6_CODE_ERRONEOUS_HEADER_FIELD": [
        ("Icmpv6ParameterProblemCode", "ICMPV6_CODE_", "The codes of an ICMPv6 parameter problem (RFC 4443; RFC 7112; RFC 8754; RFC 8883).")
    ],
    "ICMPV6_ROUTER_MANAGED": [
        ("RouterFlags", "ICMPV6_ROUTER_", "The flags of a router advertisement."),
        ("NeighborFlags", "ICMPV6_NEIGHBOR_", "The flags of a neighbor advertisement."),
    ],
}
STATUS = ("Status", "STATUS_", "Why a call refused.")
# What has another form in JavaScript: success, all nine flags, and the version.
OTHERS = {"OK", "TCP_FLAGS", "VERSION_MAJOR", "VERSION_MINOR", "VERSION_PATCH"}


def without_prefix(name):
    return name.removeprefix("ETHERPARSE_")


def groups():
    """Each group of numbers: its name, what it is, and its numbers by their names. A number that no group has is an error."""
    values = {without_prefix(name): int(number, 0) for name, number in numbers().items()}
    left = {without_prefix(name) for name in header_numbers()} - OTHERS
    enums = [re.findall(r"\bETHERPARSE_(\w+) = ", body) for body in re.findall(r"^enum \{\n(.*?)^\};", HEADER.read_text(), re.M | re.S)]
    statuses = re.findall(r"^#define ETHERPARSE_(STATUS_\w+) \d+$", HEADER.read_text(), re.M)
    found = []
    for names in [statuses, *enums]:
        for group, prefix, what in [STATUS] if names is statuses else GROUPS[names[0]]:
            mine = [name for name in names if name.startswith(prefix) and name not in OTHERS]
            found.append((group, what, {name.removeprefix(prefix): values[name] for name in mine}))
            left -= {*mine}
    if left:
        raise SystemExit(f"numbers in no group: {sorted(left)}")
    return found


def record():
    """The numbers that a C compiler found in the header, by their expressions."""
    files = (TOP / "c_library" / "abi").iterdir()
    lines = max(files, key=lambda file: [int(part) for part in file.name.split(".")]).read_text().splitlines()
    return {expression: int(number) for number, _, expression in (line.partition(" ") for line in lines) if number.isdigit()}


def layouts():
    """Each struct by its name in C: its size, and its fields by their names in C, with place and type. A type is u8, u16, u32, usize, the
    name of a struct, or of an array a pair of the type and the number of its elements."""
    found, numbers_in_c = {}, record()
    for rust, fields in structs():
        name, places = c_name(rust), {}
        for field, its_type in fields:
            array = re.fullmatch(r"\[(\w+); (\d+)\]", its_type)
            known = (array[1], int(array[2])) if array else c_name(its_type) if its_type.startswith("Etherparse") else its_type
            places[c_field(field)] = numbers_in_c[f"offsetof({name}, {c_field(field)})"], known
        found[name] = numbers_in_c[f"sizeof({name})"], places
    return found


def calls():
    """Each call of the library: its name, the type of its result, and its parameters as pairs of type and name, both as in C."""
    found = []
    for prototype in prototypes():
        if prototype.startswith("static"):
            continue
        result, name, parameters = re.fullmatch(r"([\w ]+) (\w+)\((.*)\)", prototype).groups()
        pairs = [re.fullmatch(r"(.*?)(\w+)(\[\d+\])?", text).groups() for text in parameters.split(", ") if text != "void"]
        found.append((name, result, [(kind.strip() + (length or ""), parameter) for kind, parameter, length in pairs]))
    return found


def camel(name):
    """A name of C in JavaScript: source_port is sourcePort."""
    return re.sub(r"_(\w)", lambda found: found[1].upper(), name)


def pascal(name):
    """The name of a struct in JavaScript: etherparse_udp_header is UdpHeader."""
    return camel("_" + name.removeprefix("etherparse_"))
