"""Tests of translated captures: of each kind, cut off, malformed and long."""
import pathlib
import struct
import subprocess
import sys
import tempfile

from .. import build, kinds
from .captures import TABLES, captures, model, verdicts
from .run import PROGRAM, counts_of, first_difference, run


WARNING = "translator: warning: two addresses can become one, "


def check_captures(tally):
    """Each capture, with each table: the bytes of the model, its counts, and right checksums where they were right."""
    for name, data in captures():
        for title, table in TABLES.items():
            done = run(data, *table.arguments)
            wanted, counts = model(data, table)
            tally.expect(f"{name}, {title}: status", done.returncode, 0)
            tally.expect(f"{name}, {title}: where the bytes differ", first_difference(done.stdout, wanted), None)
            tally.expect(f"{name}, {title}: counts", counts_of(done.stderr.decode()), counts)
            tally.expect(f"{name}, {title}: warning", done.stderr.decode().splitlines()[-1].startswith(WARNING), table.merges())
            tally.expect(f"{name}, {title}: checksums", verdicts(done.stdout), verdicts(data))


def check_reasons(tally):
    """The line of a packet that stays names the protocol or the extension header, or contains the error of the library. Of several packets
    with refused IP headers, it contains the error of the first one."""
    short, other, cut = b"\x45" + bytes(12), b"\x50" + bytes(19), build.ipv4(17, b"", words=4)
    refused = "the IP headers are refused or cut off, first error: IP Error: "
    rows = [
        ([build.ipv4(33, bytes(16))], ["1 not translated: the protocol 33"]),
        ([build.ipv4(47, bytes(16))], []),
        ([build.ipv4(51, bytes(24)), build.ipv4(112, bytes(16)), build.ipv4(51, bytes(24))],
         ["2 not translated: the protocol 51", "1 not translated: the protocol 112"]),
        ([build.ipv4(60, bytes(16))], []),
        ([build.ipv6(89, bytes(16))], ["1 not translated: the protocol 89"]),
        ([build.ipv6(135, bytes([59]) + bytes(7))], ["1 not translated: the IPv6 extension header 135"]),
        ([build.ipv6(140, bytes([59]) + bytes(7))], ["1 not translated: the IPv6 extension header 140"]),
        # Segments are left in a routing header.
        ([build.ipv6(43, bytes([59, 0, 0, 1, 0, 0, 0, 0]))], ["1 not translated: the IPv6 extension header 43"]),
        ([short], [f"1 not translated: {refused}the header has at least 20 bytes, and 13 are there."]),
        ([other, short], [f"2 not translated: {refused}the version is 5."]),
        ([cut, other], [f"2 not translated: {refused}the stated header length is 16."]),
        ([build.ipv6(0, bytes(4))],
         [f"1 not translated: {refused}the extension header with protocol number 0 at offset 40 has at least 8 bytes, and 4 are left."]),
    ]
    for packets, wanted in rows:
        numbers = [0x86DD if packet[0] >> 4 == 6 else 0x0800 for packet in packets]
        data = build.capture(build.ETHERNET, [build.frame(build.ETHERNET, packet, number=number) for packet, number in zip(packets, numbers)])
        done = run(data, *TABLES["both sides"].arguments)
        tally.expect(f"{wanted}", (done.returncode, done.stderr.decode().splitlines()[1:]), (0, [f"translator: {line}" for line in wanted]))


def check_cuts(tally):
    """A capture of each form that ends at each byte: its whole packets are translated, and what is left is written as it is. Nothing is
    written if its header or its first block is cut off."""
    table = TABLES["both sides"]
    frames = kinds.every_kind(build.ETHERNET)[0][:5]
    for parts in (build.capture_parts, build.pcapng_parts):
        data, starts, at = b"".join(parts(build.ETHERNET, frames)), set(), 0
        for part in parts(build.ETHERNET, frames):
            starts.add(at)
            at += len(part)
        for length in range(len(data)):
            done = run(data[:length], *table.arguments)
            start = max(place for place in starts if place <= length)
            status = 0 if length in starts and length else 2 if length < sorted(starts)[1] else 1
            written = model(data[:length], table)[0] if status < 2 else b""
            said = done.stderr.decode().splitlines()
            if status == 1:
                wanted = f"translator: At byte {start} of the file: {cut_text(parts, data[start:], length - start)}"
                tally.expect(f"{parts.__name__}, {length} bytes: the error", said[0], wanted)
            # The line of the error is the first one, and the counts follow.
            counts_at = [place for place, line in enumerate(said) if line.endswith(" packets without a replacement")]
            tally.expect(f"{parts.__name__}, {length} bytes", (done.returncode, done.stdout, counts_at), (status, written, [min(status, 1)]))


def cut_text(parts, rest, left):
    """The text for a record or block that is cut off: the length of it as far as it is known, and the bytes that are left."""
    if parts == build.pcapng_parts:
        required = struct.unpack("<I", rest[4:8])[0] if left >= 12 else 12
        return f"The block has at least {required} bytes, and {left} are left."
    required = 16 + struct.unpack("<I", rest[8:12])[0] if left >= 16 else 16
    return f"The record has at least {required} bytes, and {left} are left."


def check_faults(tally):
    """Blocks and headers that can't be read: what was read of them is written, and their place is said."""
    table, begin = TABLES["both sides"], build.section_header() + build.interface_description(build.ETHERNET)
    frame = kinds.every_kind(build.ETHERNET)[0][0]
    packet = build.block(6, struct.pack("<IIIII", 0, 1, 2, len(frame), len(frame)) + frame)
    good = model(begin + packet, table)[0]
    faults = {
        "a total length of 13": (struct.pack("<III", 6, 13, 0), "total length of the block, in its bytes 4 to 7, is 13"),
        "another last length": (packet[:-4] + struct.pack("<I", 12), "and 12 in its last four bytes"),
        "an interface that is not there": (build.block(6, struct.pack("<IIIII", 1, 1, 2, 4, 4) + bytes(4)), "interface"),
        "captured bytes beyond the block": (build.block(6, struct.pack("<IIIII", 0, 1, 2, 99, 99) + bytes(4)), ""),
        "a section of version 2": (build.section_header(major=2), "2"),
    }
    for name, (block, text) in faults.items():
        done = run(begin + packet + block + packet, *table.arguments)
        said = done.stderr.decode()
        tally.expect(name, (done.returncode, first_difference(done.stdout, good + block), f"At byte {len(begin + packet)} " in said, text in said),
                     (1, None, True, True))
    for name, data, status in (("no capture", b"no capture at all, but a text", 2), ("nothing", b"", 2),
                               ("version 2.3", build.capture(build.ETHERNET, [frame]).replace(b"\2\0\4\0", b"\2\0\3\0", 1), 1),
                               ("a first section of version 2", build.section_header(major=2) + packet, 1),
                               ("a first section without a magic", build.section_header()[:8] + bytes(20) + packet, 2),
                               ("a first section with another last length", build.section_header()[:-4] + struct.pack("<I", 12) + packet, 2)):
        done = run(data, *table.arguments)
        tally.expect(name, (done.returncode, done.stdout), (status, b""))
    for magic, command in (("1F8B0800", "gzip"), ("1F8BFFFF", "gzip"), ("28B52FFD", "zstd")):
        done = run(bytes.fromhex(magic) + bytes(40), *table.arguments)
        wanted = f"translator: The capture is compressed, and is read by {command} -dc FILE | translator OPTIONS."
        tally.expect(magic, (done.returncode, done.stdout, done.stderr.decode().splitlines()[0]), (2, b"", wanted))
    done = run(bytes.fromhex("28B52FFE") + bytes(40), *table.arguments)
    tally.expect("not zstd", (done.returncode, done.stdout, b"compressed" in done.stderr), (2, b"", False))
    data = build.capture(build.OTHER_LINK, [frame])
    done = run(data, *table.arguments)
    tally.expect("a link type", (done.returncode, done.stdout), (0, data))


def expect_model(tally, name, data, status=0):
    """Runs the program. Its output and its counts are those of the model. Returns the lines on standard error."""
    table = TABLES["both sides"]
    done = run(data, *table.arguments)
    wanted, counts = model(data, table)
    said = done.stderr.decode()
    tally.expect(name, (done.returncode, first_difference(done.stdout, wanted), counts_of(said)), (status, None, counts))
    return said.splitlines()


def check_long(tally):
    """Records and blocks without room in the buffer, before a packet: they are copied. A packet in one that is cut off is not counted."""
    frame = kinds.every_kind(build.ETHERNET)[0][0]
    for length in (524_288, 524_289, 1_200_000):
        long = frame + bytes(length - len(frame))
        data = build.capture(build.ETHERNET, [long, frame])
        expect_model(tally, f"a record of {length} bytes", data)
        cut = data[:40 + min(length - 1, 600_000)]
        said = expect_model(tally, "a record that is cut off", cut, 1)
        wanted = f"translator: At byte 24 of the file: {cut_text(build.capture_parts, cut[24:], len(cut) - 24)}"
        tally.expect("a record that is cut off: the error", said[0], wanted)
        begin = build.section_header() + build.interface_description(build.ETHERNET)
        packets = [build.block(6, struct.pack("<IIIII", 0, 1, 2, len(data), len(data)) + data) for data in (long, frame)]
        other = build.block(0x0BAD, long)
        expect_model(tally, f"blocks of {length} bytes", begin + other + b"".join(packets))
        for name, before, block in (("another block", begin, other), ("a packet block", begin + other, packets[0])):
            said = expect_model(tally, f"{name} that is cut off", before + block[:524_289], 1)
            wanted = f"translator: At byte {len(before)} of the file: {cut_text(build.pcapng_parts, block, 524_289)}"
            tally.expect(f"{name} that is cut off: the error", said[0], wanted)
            check_last_length(tally, before, block, packets[1])


def check_last_length(tally, begin, long, packet):
    """The last total length of a block without room in the buffer: it is cut off, or it is another number. The block is not counted."""
    for left in (1, 2, 3, 4, 5):
        said = expect_model(tally, f"a long block without its last bytes, {left}", begin + long[:-left], 1)
        wanted = f"translator: At byte {len(begin)} of the file: {cut_text(build.pcapng_parts, long, len(long) - left)}"
        tally.expect(f"a long block without its last bytes, {left}: the error", said[0], wanted)
    wrong = long[:-4] + struct.pack("<I", 12)
    expect_refused(tally, "a long block with another last length", begin, wrong, packet, "and 12 in its last four bytes.")


def expect_refused(tally, name, before, block, after, text):
    """A block is refused. It is written as it was read, and neither it nor the block after it is counted."""
    table = TABLES["both sides"]
    done = run(before + block + after, *table.arguments)
    wanted, counts = model(before, table)
    said = done.stderr.decode()
    tally.expect(name, (done.returncode, first_difference(done.stdout, wanted + block), counts_of(said)), (1, None, counts))
    line, place = said.splitlines()[0], f"translator: At byte {len(before)} of the file: "
    tally.expect(f"{name}: the error", (line.startswith(place), line.endswith(text)), (True, True))


def check_long_blocks(tally):
    """Blocks that are long only by their options or other bytes after their packet. If such a block has no room in the buffer, its packet
    is too long. A section header or interface description without room is refused, since later packets can't be read without it."""
    frame = kinds.every_kind(build.ETHERNET)[0][0]
    counted = struct.pack("<II", len(frame), len(frame))
    begin = build.section_header() + build.interface_description(build.ETHERNET)
    bodies = {6: struct.pack("<III", 0, 1, 2) + counted, 3: counted[4:], 2: struct.pack("<HHII", 0, 0, 1, 2) + counted}
    packet = build.block(6, bodies[6] + frame)
    for kind, body in bodies.items():
        for length in (524_284, 524_288, 524_292):
            block = lengthened(kind, body + frame, length)
            expect_model(tally, f"a block of type {kind} and {length} bytes", begin + packet + block + packet)
    for kind, body in ((0x0A0D0D0A, build.section_header()[8:-4]), (1, build.interface_description(build.ETHERNET)[8:-4])):
        # After a section header no interface is described.
        after = packet if kind == 1 else b""
        expect_model(tally, f"a block of type {kind:#x} and 524288 bytes", begin + packet + lengthened(kind, body, 524_288) + after)
        text = f"The block has type {kind:#x} and 524292 bytes, for which the buffer has no room."
        expect_refused(tally, f"a block of type {kind:#x} and 524292 bytes", begin + packet, lengthened(kind, body, 524_292), packet, text)
    done = run(lengthened(0x0A0D0D0A, build.section_header()[8:-4], 524_292) + packet, *TABLES["both sides"].arguments)
    wanted = "translator: At byte 0 of the file: The block has type 0xa0d0d0a and 524292 bytes, for which the buffer has no room."
    tally.expect("a first block of 524292 bytes", (done.returncode, done.stdout, done.stderr.decode().splitlines()[0]), (1, b"", wanted))


def lengthened(kind, body, length):
    """A block of this length, with options after this body: comments of up to 65,532 bytes."""
    body += bytes(-len(body) % 4)
    room = length - 12 - len(body)
    while room:
        option = build.option(1, b"x" * (min(room, 65_536) - 4))
        body, room = body + option, room - len(option)
    return build.block(kind, body)


def check_memory(tally):
    """A long capture needs no more memory than a short one, and each of its packets is translated."""
    frame, table = kinds.every_kind(build.ETHERNET)[0][0], TABLES["both sides"]
    code = "import resource,subprocess,sys; done = subprocess.run(sys.argv[2:], stdin=sys.stdin, stdout=open(sys.argv[1], 'wb')); " \
           "print(done.returncode, resource.getrusage(resource.RUSAGE_CHILDREN).ru_maxrss)"
    for parts, most in ((build.capture_parts, 400_000), (build.pcapng_parts, 70_000)):
        *begin, packet = parts(build.ETHERNET, [frame])
        begin, used = b"".join(begin), []
        new = model(begin + packet, table)[0][len(begin):]
        for count in (1, most):
            with tempfile.TemporaryDirectory() as room:
                path = pathlib.Path(room) / "translated"
                done = subprocess.run([sys.executable, "-c", code, path, PROGRAM.path, *table.arguments], input=begin + packet * count,
                                      capture_output=True, timeout=120)
                status, size = map(int, done.stdout.split())
                found = (status, path.read_bytes() == begin + new * count, counts_of(done.stderr.decode()))
            tally.expect(f"{parts.__name__}, {count} packets", found, (0, True, {f"IPv{frame[14] >> 4} translated": count}))
            used.append(size)
        tally.expect(f"{parts.__name__}: memory in KB grows by less than 1,000", used[1] < used[0] + 1000, True)
