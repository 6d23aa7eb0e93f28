"""Tests of the report in JSON."""
import json
import pathlib
import re
import tempfile

from ..build import IPV4, LINKS, OTHER_LINK, RAW, capture, ipv4, pcapng, udp
from ..kinds import every_kind, transports
from .members import check_objects, fields_of, is_within, numbers_of
from .names import LINK_NAMES
from .report import last_table, lines_of, rows_of_conversations, rows_of_endpoints, run, table_of, totals_of, with_underscores


def row_of(conversation):
    """The row of a conversation in the table, from its object."""
    ends = [(conversation[name], conversation[f"{name}_port"]) for name in ("source", "destination")]
    source, destination = (f"[{address}]:{port}" if ":" in address else f"{address}:{port}" for address, port in ends)
    counts = [count[name] for count in (conversation, conversation["forward"], conversation["reverse"]) for name in ("packets", "bytes")]
    times = [conversation[name] for name in ("first_packet", "duration", "bits_per_second") if name in conversation]
    return " ".join((conversation["protocol_name"], source, "<>", destination, *map(str, counts + times)))


def times_as_numbers(counted):
    """The numbers that belong to the texts of the times of the summary or of a conversation."""
    hours, minutes, rest = counted["duration"].split(":")
    seconds, fraction = rest.split(".")
    texts = {name: counted[name] for name in ("first_packet", "last_packet")}
    texts["duration"] = f"{int(hours) * 3600 + int(minutes) * 60 + int(seconds)}.{fraction}"
    return {member: number for name, text in texts.items()
            for member, number in numbers_of(text, (f"{name}_seconds", f"{name}_nanoseconds")).items()}


def other_rows(report, title="busiest conversations"):
    """The last rows of a table, for packets of no conversation that has a row: the name of each as JSON has it, and its numbers."""
    rows = [re.fullmatch(r"(packets [a-z ]+?) +(\d+) +(\d+)", row) for row in last_table(report, title)]
    return {with_underscores(row.group(1)): {"packets": int(row.group(2)), "bytes": int(row.group(3))} for row in rows if row}


def check_other_rows(tally, name, report, summary):
    """The numbers of packets without ports and of other flows are those of the text, which has no row for no packets. So are the endpoints."""
    members = {member: summary[member] for member in ("packets_without_ports", "packets_of_other_flows")}
    for title in ("busiest conversations", "busiest endpoints") if summary["endpoints"] else ("busiest conversations",):
        tally.expect(f"{name}: packets of no conversation, {title}", {member: row for member, row in members.items() if row["packets"]},
                     other_rows(report, title))
    tally.expect(f"{name}: endpoints", [tuple(row.values()) for row in summary["endpoints"]], rows_of_endpoints(report))


def check_json(tally):
    """Objects in lines: each packet has the members that its line says, and those that its bytes say; so has the summary."""
    for link in LINKS + (OTHER_LINK,):
        frames = every_kind(link)[0]
        data = pcapng(link, frames)
        for arguments in ((), ("--wrong",), ("--host", "2001:db8::2")):
            check_objects(tally, f"link type {link}", data, *arguments)
        report = run(data, "--summary").stdout
        text = report.decode()
        whole = lines_of(run(data, "--json").stdout)
        summary = json.loads(whole[-1])
        tally.expect(f"link type {link}: lines before the summary", whole[:-1], lines_of(run(data, "--packets", "--json").stdout))
        tally.expect(f"link type {link}: the summary alone", lines_of(run(data, "--summary", "--json").stdout), whole[-1:])
        *totals, duration = totals_of(report)
        stated = [f"packets {summary['packets']}, bytes {summary['bytes']}, bytes a packet {summary['bytes_per_packet']}",
                  f"conversations {summary['conversations']}", f"first packet {summary['first_packet']}",
                  f"last packet {summary['last_packet']}"]
        tally.expect(f"link type {link}: totals", stated, totals)
        stated = (f"duration {summary['duration']}, packets a second {summary['packets_per_second']}, "
                  f"bits a second {summary['bits_per_second']}")
        tally.expect(f"link type {link}: duration", stated, duration)
        for counted in (summary, *summary["busiest_conversations"]):
            tally.expect(f"link type {link}: times as numbers", is_within(times_as_numbers(counted), counted), True)
        rows = [row_of(row) for row in summary["busiest_conversations"]]
        tally.expect(f"link type {link}: conversations", rows, rows_of_conversations(report)[0])
        check_other_rows(tally, f"link type {link}", report, summary)
        links = {name: [row] for name, row in summary["link_types"].items() if row}
        tally.expect(f"link type {link}: link types", (links, table_of(text, "link type")), ({with_underscores(LINK_NAMES[link]): [summary["packets"]]},) * 2)
        protocols = {name: [row["packets"], row["bytes"]] for name, row in summary["protocols"].items() if row["packets"]}
        rows = table_of(text, "protocol")
        tally.expect(f"link type {link}: protocols", protocols, rows)
        tally.expect(f"link type {link}: order of protocols", list(rows), sorted(protocols, key=lambda name: -protocols[name][0]))
        checksums = {name: [row] for name, row in summary["checksums"].items() if row}
        tally.expect(f"link type {link}: checksums", checksums, table_of(text, "checksum"))
        refused = {name: [row] for name, row in summary["refusals"].items() if row}
        tally.expect(f"link type {link}: refusals", refused, table_of(text, "refused"))
    # 65,536 conversations are counted, and three packets are of other flows.
    packets = [ipv4(17, udp(IPV4, b"", source=number & 0xFFFF, destination=53 + (number >> 16), stored=0)) for number in range(65_539)]
    data = capture(RAW, packets)
    report, summary = run(data, "--summary").stdout, json.loads(run(data, "--summary", "--json").stdout)
    check_other_rows(tally, "65,539 conversations", report, summary)
    tally.expect("packets of other flows", other_rows(report), {"packets_of_other_flows": {"packets": 3, "bytes": 3 * 28}})
    tally.expect("endpoints of 65,536 conversations", rows_of_endpoints(report), [(f"192.0.2.{end}", 65_536, 65_536 * 28) for end in (1, 2)])
    whole = [(number, packet) for number, (verdict, packet) in enumerate(transports())
             if verdict in ("right", "wrong", "none") and packet[0] == 0x45]
    objects = lines_of(run(capture(RAW, [packet for _, packet in transports()]), "--packets", "--json").stdout)
    for number, packet in whole:
        tally.expect(f"fields of packet {number + 1}", is_within(fields_of(packet), json.loads(objects[number])), True)
    with tempfile.TemporaryDirectory() as room:
        names = ["a \"capture\".pcap", "\u00fc.pcap"]
        for name in names:
            (pathlib.Path(room) / name).write_bytes(capture(RAW, [whole[0][1]]))
        done = run(b"", "--json", *names, cwd=room)
        read = [json.loads(line) for line in lines_of(done.stdout)]
        stated = [("file", names[0]), ("packet", 1), ("file", names[1]), ("packet", 1), ("summary", None)]
        tally.expect("objects of two captures", [(line["type"], line.get("file", line.get("number"))) for line in read], stated)
