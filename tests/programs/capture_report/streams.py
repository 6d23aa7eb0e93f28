"""Tests of input and output: streams that fail, live captures, terminals, and the progress line."""
import os
import pathlib
import pty
import select
import signal
import subprocess
import tempfile

from ..build import ETHERNET, IPV4, capture, frame, ipv4, udp, write_long_capture
from .report import PROGRAM, run


def check_streams(tally, everything):
    """Input and output that fail, and an input that comes in pieces."""
    with open("/dev/full", "wb") as full:
        done = subprocess.run([PROGRAM.path], input=everything, stdout=full, stderr=subprocess.PIPE, timeout=60)
        helped = subprocess.run([PROGRAM.path, "--help"], input=b"", stdout=full, stderr=subprocess.PIPE, timeout=60)
    tally.expect("standard output full", done.returncode, 3)
    tally.expect("--help where standard output is full", helped.returncode, 3)
    for arguments in ((), ("--json",), ("-l", "--check"), ("--help",)):
        reader, writer = os.pipe()
        os.close(reader)
        done = subprocess.run([PROGRAM.path, *arguments], input=everything, stdout=writer, stderr=subprocess.PIPE, timeout=60)
        os.close(writer)
        tally.expect(f"{arguments}: the reader of standard output ended", (done.returncode, done.stderr), (141, b""))
    with tempfile.TemporaryDirectory() as room:
        folder = os.open(room, os.O_RDONLY)
        done = subprocess.run([PROGRAM.path], stdin=folder, capture_output=True, timeout=60)
        os.close(folder)
    tally.expect("standard input that cannot be read", (done.returncode, done.stdout), (3, b""))
    with subprocess.Popen([PROGRAM.path], stdin=subprocess.PIPE, stdout=subprocess.PIPE) as process:
        for place in range(0, len(everything), 37):
            process.stdin.write(everything[place:place + 37])
            process.stdin.flush()
        process.stdin.close()
        pieces = process.stdout.read()
    tally.expect("an input in pieces of 37 bytes", pieces, run(everything).stdout)


def line_within(file, seconds=20):
    """The bytes that are there to read, once there are any; none after so many seconds."""
    ready, _, _ = select.select([file], [], [], seconds)
    return os.read(file.fileno(), 4096) if ready else b""


def check_live(tally):
    """A line is written when its packet has come: with --line-buffered, and where standard output is a terminal."""
    first, second = (capture(ETHERNET, [frame(ETHERNET, ipv4(17, udp(IPV4, bytes(length))))]) for length in (4, 5))
    both = run(first + second[24:], "--packets").stdout.splitlines(keepends=True)
    for option in ("--line-buffered", "-l"):
        with subprocess.Popen([PROGRAM.path, option, "--packets"], stdin=subprocess.PIPE, stdout=subprocess.PIPE, bufsize=0) as process:
            found = []
            for part in (first, second[24:]):
                process.stdin.write(part)
                found.append(line_within(process.stdout))
            process.stdin.close()
            tally.expect(f"{option}: each line before the next packet", found, both)
            tally.expect(f"{option}: status", process.wait(20), 0)
    terminal, its_end = pty.openpty()
    with open(terminal, "rb", buffering=0) as file, subprocess.Popen([PROGRAM.path], stdin=subprocess.PIPE, stdout=its_end, bufsize=0) as process:
        process.stdin.write(first)
        tally.expect("standard output is a terminal", line_within(file).replace(b"\r\n", b"\n"), both[0])
        process.stdin.close()
        process.wait(20)
    os.close(its_end)
    check_interrupts(tally, first)


def check_interrupts(tally, whole):
    """The forms by which a live report ends with its summary. The writer stands in for tcpdump."""
    report = run(whole).stdout
    shell = f"trap '' INT; exec {PROGRAM.path} -l"
    with subprocess.Popen(["sh", "-c", shell], stdin=subprocess.PIPE, stdout=subprocess.PIPE, bufsize=0) as process:
        process.stdin.write(whole)
        found = line_within(process.stdout)
        process.send_signal(signal.SIGINT)
        process.stdin.close()
        tally.expect("a report that ignores the interrupt", (found + process.stdout.read(), process.wait(20)), (report, 0))
    with tempfile.TemporaryDirectory() as room:
        path = pathlib.Path(room) / "capture.pcap"
        path.write_bytes(whole)
        shell = f"timeout 0.5 sh -c 'cat {path}; exec sleep 60' | {PROGRAM.path}"
        done = subprocess.run(["sh", "-c", shell], capture_output=True, timeout=60)
        tally.expect("a writer that is ended", (done.stdout, done.returncode), (report, 0))


on_terminal = PROGRAM.on_terminal


def check_progress(tally):
    """A file above 100 MB has a progress line on a terminal, which is erased."""
    progress, erased = PROGRAM.progress()
    whole = b"".join(progress) + erased
    with tempfile.TemporaryDirectory() as room:
        path = pathlib.Path(room) / "long.pcap"
        write_long_capture(path)
        plain = run(b"", path)
        tally.expect("no terminal has a progress line", (plain.returncode, plain.stderr), (0, b""))
        tally.expect("a progress line", on_terminal(path), (0, plain.stdout, whole))
        tally.expect("a progress line before a summary", on_terminal("--summary", path, both=True), (0, None, whole + run(b"", "--summary", path).stdout))
        chosen = ("--protocol", "tcp", path)
        tally.expect("no progress line among lines", on_terminal(*chosen, both=True), (0, None, run(b"", *chosen).stdout))
        with open(path, "rb") as file:
            tally.expect("no progress line of standard input", on_terminal(stdin=file), (0, plain.stdout, b""))
        counts = b"capture_report: 1600 packets read, 1600 written\n"
        tally.expect("a progress line with -w FILE", on_terminal("-w", "/dev/null", path, both=True), (0, None, whole + counts))
        copied = on_terminal("-w", "-", path)
        tally.expect("a progress line with -w -", (copied[0], copied[1] == path.read_bytes(), copied[2]), (0, True, whole + counts))
        half = on_terminal("--count", "790", path)
        tally.expect("a progress line of some packets", (half[0], half[2]), (0, b"".join(progress[:49]) + erased))
        for length, shown in ((100_000_001, True), (100_000_000, False)):
            os.truncate(path, length)
            status, _, found = on_terminal(path)
            error = run(b"", path).stderr
            tally.expect(f"a cut file of {length} bytes", (status, found.endswith(error), found.startswith(progress[0])), (1, True, shown))
            tally.expect(f"the line of a cut file of {length} bytes", found.removesuffix(error).endswith(erased), shown)
