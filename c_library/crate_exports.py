# SPDX-FileCopyrightText: 2026 The etherparse_transport developers
# SPDX-License-Identifier: MIT OR Apache-2.0
"""What the crate's sources say of its interface: the numbers, the structs that cross to C, and the exports."""
import pathlib
import re

TOP = pathlib.Path(__file__).resolve().parent.parent
CRATE = TOP / "crates" / "etherparse_transport_c"
ICMP = TOP / "crates" / "icmp_part" / "src"
HEADER = TOP / "c_library" / "include" / "etherparse_transport.h"
SOURCES = [path.read_text() for path in sorted((CRATE / "src").rglob("*.rt"))]
# A struct of one pointer is passed as that pointer, and a struct of one number is returned as that number (System V ABI for x86-64).
# So these two are no structs in C.
SCALARS = {"ErrorPlace": "&mut EtherparseError", "Answer": "u32"}

# The types and codes of ICMP with other names in C than in icmp_part, which has the names of etherparse.
ICMP_NAMES = {
    "icmpv4": {
        "TYPE_DEST_UNREACH": "TYPE_DESTINATION_UNREACHABLE", "TYPE_TIMESTAMP": "TYPE_TIMESTAMP_REQUEST",
        "TYPE_INFO_REQUEST": "TYPE_INFORMATION_REQUEST", "TYPE_INFO_REPLY": "TYPE_INFORMATION_REPLY",
        "TYPE_ADDRESS": "TYPE_ADDRESS_MASK_REQUEST", "TYPE_ADDRESSREPLY": "TYPE_ADDRESS_MASK_REPLY",
        "CODE_DST_UNREACH_NET": "CODE_NETWORK_UNREACHABLE", "CODE_DST_UNREACH_HOST": "CODE_HOST_UNREACHABLE",
        "CODE_DST_UNREACH_PROTOCOL": "CODE_PROTOCOL_UNREACHABLE", "CODE_DST_UNREACH_PORT": "CODE_PORT_UNREACHABLE",
        "CODE_DST_UNREACH_NEED_FRAG": "CODE_FRAGMENTATION_NEEDED", "CODE_DST_UNREACH_SOURCE_ROUTE_FAILED": "CODE_SOURCE_ROUTE_FAILED",
        "CODE_DST_UNREACH_NET_UNKNOWN": "CODE_NETWORK_UNKNOWN", "CODE_DST_UNREACH_HOST_UNKNOWN": "CODE_HOST_UNKNOWN",
        "CODE_DST_UNREACH_ISOLATED": "CODE_SOURCE_HOST_ISOLATED", "CODE_DST_UNREACH_NET_PROHIB": "CODE_NETWORK_PROHIBITED",
        "CODE_DST_UNREACH_HOST_PROHIB": "CODE_HOST_PROHIBITED", "CODE_DST_UNREACH_TOS_NET": "CODE_NETWORK_UNREACHABLE_FOR_SERVICE",
        "CODE_DST_UNREACH_TOS_HOST": "CODE_HOST_UNREACHABLE_FOR_SERVICE",
        "CODE_DST_UNREACH_FILTER_PROHIB": "CODE_COMMUNICATION_PROHIBITED",
        "CODE_DST_UNREACH_HOST_PRECEDENCE_VIOLATION": "CODE_HOST_PRECEDENCE_VIOLATION",
        "CODE_DST_UNREACH_PRECEDENCE_CUTOFF": "CODE_PRECEDENCE_CUTOFF", "CODE_REDIRECT_FOR_NETWORK": "CODE_REDIRECT_NETWORK",
        "CODE_REDIRECT_FOR_HOST": "CODE_REDIRECT_HOST", "CODE_REDIRECT_TYPE_OF_SERVICE_AND_NETWORK": "CODE_REDIRECT_NETWORK_FOR_SERVICE",
        "CODE_REDIRECT_TYPE_OF_SERVICE_AND_HOST": "CODE_REDIRECT_HOST_FOR_SERVICE",
        "CODE_TIME_EXCEEDED_TTL_EXCEEDED_IN_TRANSIT": "CODE_TIME_TO_LIVE_EXCEEDED",
        "CODE_TIME_EXCEEDED_FRAG_REASSEMBLY_TIME_EXCEEDED": "CODE_REASSEMBLY_TIME_EXCEEDED",
        "CODE_PARAMETER_PROBLEM_POINTER_INDICATES_ERROR": "CODE_POINTER_INDICATES_ERROR",
        "CODE_PARAMETER_PROBLEM_MISSING_REQUIRED_OPTION": "CODE_REQUIRED_OPTION_MISSING",
        "CODE_PARAMETER_PROBLEM_BAD_LENGTH": "CODE_BAD_LENGTH",
    },
    "icmpv6": {
        "TYPE_DST_UNREACH": "TYPE_DESTINATION_UNREACHABLE", "TYPE_MULTICAST_LISTENER_REDUCTION": "TYPE_MULTICAST_LISTENER_DONE",
        "TYPE_REDIRECT_MESSAGE": "TYPE_REDIRECT", "TYPE_INVERSE_NEIGHBOR_DISCOVERY_SOLICITATION": "TYPE_INVERSE_NEIGHBOR_SOLICITATION",
        "TYPE_INVERSE_NEIGHBOR_DISCOVERY_ADVERTISEMENT": "TYPE_INVERSE_NEIGHBOR_ADVERTISEMENT",
        "TYPE_EXT_ECHO_REQUEST": "TYPE_EXTENDED_ECHO_REQUEST", "TYPE_EXT_ECHO_REPLY": "TYPE_EXTENDED_ECHO_REPLY",
        "CODE_DST_UNREACH_NO_ROUTE": "CODE_NO_ROUTE", "CODE_DST_UNREACH_PROHIBITED": "CODE_COMMUNICATION_PROHIBITED",
        "CODE_DST_UNREACH_BEYOND_SCOPE": "CODE_BEYOND_SCOPE", "CODE_DST_UNREACH_ADDR": "CODE_ADDRESS_UNREACHABLE",
        "CODE_DST_UNREACH_PORT": "CODE_PORT_UNREACHABLE",
        "CODE_DST_UNREACH_SOURCE_ADDRESS_FAILED_POLICY": "CODE_SOURCE_ADDRESS_FAILED_POLICY",
        "CODE_DST_UNREACH_REJECT_ROUTE_TO_DEST": "CODE_REJECT_ROUTE", "CODE_TIME_EXCEEDED_HOP_LIMIT_EXCEEDED": "CODE_HOP_LIMIT_EXCEEDED",
        "CODE_TIME_EXCEEDED_FRAGMENT_REASSEMBLY_TIME_EXCEEDED": "CODE_REASSEMBLY_TIME_EXCEEDED",
        "CODE_PARAM_PROBLEM_ERR_HEADER_FIELD": "CODE_ERRONEOUS_HEADER_FIELD",
        "CODE_PARAM_PROBLEM_UNRECOG_NEXT_HEADER": "CODE_UNRECOGNIZED_NEXT_HEADER",
        "CODE_PARAM_PROBLEM_UNRECOG_IPV6_OPTION": "CODE_UNRECOGNIZED_OPTION",
        "CODE_PARAM_PROBLEM_IPV6_FIRST_FRAG_INCOMP_HEADER_CHAIN": "CODE_INCOMPLETE_HEADER_CHAIN",
        "CODE_PARAM_PROBLEM_SR_UPPER_LAYER_HEADER_ERROR": "CODE_UPPER_LAYER_HEADER_ERROR",
        "CODE_PARAM_PROBLEM_UNRECOG_NEXT_HEADER_BY_INTERMEDIATE_NODE": "CODE_NEXT_HEADER_UNRECOGNIZED_BY_ROUTER",
        "CODE_PARAM_PROBLEM_EXT_HEADER_TOO_BIG": "CODE_EXTENSION_HEADER_TOO_BIG",
        "CODE_PARAM_PROBLEM_EXT_HEADER_CHAIN_TOO_LONG": "CODE_EXTENSION_HEADER_CHAIN_TOO_LONG",
        "CODE_PARAM_PROBLEM_TOO_MANY_EXT_HEADERS": "CODE_TOO_MANY_EXTENSION_HEADERS",
        "CODE_PARAM_PROBLEM_TOO_MANY_OPTIONS_EXT_HEADER": "CODE_TOO_MANY_OPTIONS",
        "CODE_PARAM_PROBLEM_OPTION_TOO_BIG": "CODE_OPTION_TOO_BIG",
    },
}


def icmp_numbers():
    """The types and codes of ICMP that icmp_part declares, by their names in C."""
    found = {}
    for module, names in ICMP_NAMES.items():
        declared = re.findall(r"^pub const ((?:TYPE|CODE)_\w+): u8 = (\d+);$", (ICMP / f"{module}.rt").read_text(), re.M)
        found |= {f"ETHERPARSE_{module.upper()}_{names.get(name, name)}": number for name, number in declared}
    return found


def numbers():
    """The numbers of specs/Numbers.antt and of ICMP by their names in C. A definition that is no number, or stands twice, is an error."""
    text = (CRATE / "specs" / "Numbers.antt").read_text()
    declared = re.findall(r"^abbrev pub (\w+) ", text, re.M)
    found = dict(re.findall(r"^(\w+) = (\d+|0x[0-9a-f]+)$", text, re.M))
    if len(set(declared)) != len(declared) or list(found) != declared or not declared:
        raise SystemExit("specs/Numbers.antt: a definition is no number, or stands twice")
    return {"ETHERPARSE_" + re.sub("^status_ok$", "ok", name).upper(): number for name, number in found.items()} | icmp_numbers()


def header_numbers():
    """The names of the header's numbers, enumerators and macros, but for those that specs/Numbers.antt doesn't have: lengths, and the level
    of the processor, which c_library/install sets. A status has one name for an enumerator and a macro."""
    found = re.findall(r"\b(ETHERPARSE_\w+) = |^#define (ETHERPARSE_\w+) \d\w*$", HEADER.read_text(), re.M)
    return list(dict.fromkeys(enumerator or macro for enumerator, macro in found if not macro.endswith(("_LEN", "_LEVEL"))))


def header_statuses():
    """The statuses in the header, as the enumerators and as the macros, each as a list of names and numbers."""
    text = HEADER.read_text()
    [table] = re.findall(r"^enum etherparse_status_number \{\n(.*?)^\};", text, re.M | re.S)
    return re.findall(r"(\w+) = (\d+)", table), re.findall(r"^#define (ETHERPARSE_OK|ETHERPARSE_STATUS_\w+) (\d+)$", text, re.M)


def header_lengths():
    """The names of the header's lengths, which are macros."""
    return re.findall(r"^#define (ETHERPARSE_\w+_LEN) \d+$", HEADER.read_text(), re.M)


def header_structs():
    """The names of the header's structs."""
    return re.findall(r"^typedef struct (\w+) {", HEADER.read_text(), re.M)


def prototypes():
    """The prototype of each call in the header, in one line, without comments and attributes, and of the function that the header defines.
    One that isn't read is an error."""
    text = re.sub(r"/\*.*?\*/", "", HEADER.read_text(), flags=re.S)
    found = re.findall(r"^\w[\w *]*\betherparse_\w+\([^()]*\)(?=;|\n{$)", text, re.M)
    if len(found) != len(re.findall(r"\betherparse_\w+\(", text)):
        raise SystemExit("the header: a prototype was not read")
    return [" ".join(prototype.split()) for prototype in found]


def c_name(rust):
    """The name in C of a struct: EtherparseUdpHeader is etherparse_udp_header."""
    return re.sub(r"(?<=[a-z0-9])([A-Z])", r"_\1", rust).lower()


def c_field(name):
    """The name in C of a field: type_u8 is type, a word that Rust keeps for itself."""
    return re.sub(r"_u8$", "", name)


def structs():
    """The name and the fields of each struct of C, a field as its name and its type."""
    for text in SOURCES:
        for name, body in re.findall(r"#\[repr\(C\)\]\n(?:#[^\n]*\n)*pub struct (\w+) \{\n(.*?)\n\}", text, re.S):
            if name not in SCALARS:
                yield name, re.findall(r"^    pub (\w+): (.*),$", body, re.M)


def exports():
    """The name, the types of the parameters, and the type of the result of each export, with a scalar for a struct of one field."""
    for text in SOURCES:
        for name, parameters, result in re.findall(r'pub extern "C" fn (\w+)\((.*?)\) -> (\w+)', text, re.S):
            types = [found.strip() for found in re.findall(r"\w+: ([^,]*?\[[^\]]*\]|[^,]+)", parameters)]
            yield name, [SCALARS.get(it, it) for it in types], SCALARS.get(result, result)


def export_count():
    """How many exports there are, counted by another mark than the one that they are read by."""
    return sum(text.count("#[unsafe(no_mangle)]") for text in SOURCES)
