"""Tests of arguments, and of input and output that fail."""
import os
import pathlib
import pty
import re
import subprocess
import tempfile

from .. import build, kinds
from ..program import TOP, version
from .captures import TABLES, model
from .run import PROGRAM, first_difference, run


def check_arguments(tally):
    """Arguments that are refused, by name, and what help and version write."""
    data = build.capture(build.ETHERNET, [])
    refused = {
        "10.0.0.0/8": "not of the form OLD=NEW", "10.0.0.0/8=": "not an IPv4 or IPv6 address", "10.0.0/8=10.0.0.0/8": "not an IPv4 or IPv6 address",
        "10.0.0.0/33=10.0.0.0/33": "not a number from 0 to 32", "::/129=::/129": "not a number from 0 to 32", "10.0.0.0/x=10.0.0.0/8": "not a number from 0",
        "10.0.0.1/8=10.0.0.0/8": "bits other than 0 after its prefix", "10.0.0.0/8=10.0.0.1/24": "bits other than 0 after its prefix",
        "10.0.0.0/8=::/8": "different IP versions", "10.0.0.0/16=10.0.0.0/8": "shorter than the old prefix", "::1=::/127": "shorter than the old prefix",
    }
    for text, reason in refused.items():
        for option in ("source", "destination", "both"):
            done = run(data, f"--{option}", text)
            tally.expect(text, (done.returncode, done.stdout, f"'{text}' for '--{option} " in done.stderr.decode(), reason in done.stderr.decode()),
                         (2, b"", True, True))
    for text, reason in {"80": "OLD=NEW", "80=65536": "not a number from 0 to 65535", "x=80": "not a number", "=1": "not a number"}.items():
        for option in ("source-port", "destination-port"):
            done = run(data, f"--{option}", text)
            tally.expect(text, (done.returncode, done.stdout, reason in done.stderr.decode()), (2, b"", True))
    tally.expect("no replacement", run(data).returncode, 2)
    tally.expect("an unknown option", run(data, "--sources", "::=::").returncode, 2)
    done = run(b"", "--help")
    tally.expect("help", (done.returncode, all(word in done.stdout.decode() for word in ("Example:", "Exit status:", "\n  141  ", "--destination-port <OLD=NEW>"))), (0, True))
    check_page(tally, done.stdout.decode())
    tally.expect("version", (run(b"", "--version").returncode, run(b"", "--version").stdout.decode()), (0, f"translator {version()}\n"))


def check_page(tally, text):
    """The page of the program lists the options of the help, and no others."""
    page = (TOP / "crates" / "translator" / "README.md").read_text()
    table = [line for line in page.splitlines() if line.startswith("| `-")]
    found = [set(re.findall(r"--[a-z-]+", lines)) for lines in (text.split("Options:")[1].split("A replacement")[0], "\n".join(table))]
    tally.expect("the options of the page", found[1], found[0] - {"--help", "--version"})


def check_streams(tally):
    """A named file, standard input by name, and streams that fail."""
    table = TABLES["both sides"]
    data = build.capture(build.ETHERNET, kinds.every_kind(build.ETHERNET)[0])
    wanted = model(data, table)[0]
    check_both(tally, data)
    check_warnings(tally, data)
    with tempfile.TemporaryDirectory() as room:
        path = pathlib.Path(room) / "capture.pcap"
        path.write_bytes(data)
        check_written(tally, table, path, data)
        cut = path.with_name("cut.pcap")
        cut.write_bytes(data[:-1])
        done = run(b"", *table.arguments, cut)
        tally.expect("the name in an error", (done.returncode, done.stderr.decode().startswith(f"translator: {cut}: At byte ")), (1, True))
        tally.expect("a file", run(b"", *table.arguments, path).stdout, wanted)
        tally.expect("standard input", run(data, *table.arguments, "-").stdout, wanted)
        done = run(b"", *table.arguments, path.with_name("missing"))
        tally.expect("no file", (done.returncode, done.stdout, "missing: " in done.stderr.decode()), (3, b"", True))
        tally.expect("a folder", run(b"", *table.arguments, room).returncode, 3)
    check_terminal(tally, table)
    check_failed_output(tally, table, data)
    check_failed_errors(tally, table, data)


def check_both(tally, data):
    """`--both` is `--source` and `--destination` with the same value, and comes after them in any order of the words."""
    network, other = "192.0.2.0/24=10.1.2.0/24", "192.0.2.0/24=172.16.5.0/24"
    wanted = run(data, "--source", network, "--destination", network)
    done = run(data, "--both", network)
    tally.expect("--both", (done.stdout, done.stderr), (wanted.stdout, wanted.stderr))
    tally.expect("--both changes bytes", done.stdout != data, True)
    tally.expect("--both before --source", run(data, "--both", network, "--source", other).stdout,
                 run(data, "--source", other, "--destination", network).stdout)
    tally.expect("--both twice", run(data, "--both", network, "--both", other).stdout, wanted.stdout)


def check_warnings(tally, data):
    """The warning comes after the counts, exactly if two addresses can become one."""
    warned = {
        ("--both", "10.0.0.0/8=192.0.2.0/24"): True, ("--both", "10.1.2.0/24=192.0.2.0/24"): False, ("--both", "::/0=::/0"): False,
        ("--source", "10.1.2.0/24=192.0.2.0/24", "--source", "10.1.3.0/24=192.0.2.0/24"): True,
        ("--source", "10.1.2.0/24=192.0.2.0/24", "--source", "10.1.3.0/24=192.0.3.0/24"): False,
        ("--source", "10.1.2.0/24=192.0.2.0/24", "--destination", "10.1.3.0/24=192.0.2.0/24"): True,
        ("--source", "10.1.2.0/24=192.0.2.0/24", "--both", "10.1.2.0/24=192.0.2.0/24"): False,
        ("--source", "10.1.2.0/24=192.0.2.0/24", "--both", "10.1.2.7=192.0.2.9"): True,
        ("--destination", "2001:db8::/32=fd00::/48"): True, ("--destination", "2001:db8::/32=fd00::/32", "--source", "::1=fd00::7"): True,
        ("--source", "0.0.0.0/24=10.0.0.0/24", "--source", "::/120=::10.0.0.0/120"): False,
    }
    for arguments, is_warned in warned.items():
        lines = run(data, *arguments).stderr.decode().splitlines()
        tally.expect(f"{arguments}: warnings", [place for place, line in enumerate(lines) if "two addresses can become one" in line],
                     [len(lines) - 1] if is_warned else [])


def check_written(tally, table, path, data):
    """-w writes a file, never over the capture, and only after its beginning was accepted. -r names the capture."""
    wanted, new = model(data, table)[0], path.with_name("new.pcap")
    for arguments, read in ((("-w", new, path), b""), (("-r", path, "--write", new), b""), (("-w", new), data), (("-w", new, "-"), data)):
        done = run(read, *table.arguments, *arguments)
        tally.expect(f"{arguments}", (done.returncode, done.stdout, new.read_bytes() == wanted), (0, b"", True))
        new.write_bytes(b"kept")
    tally.expect("-w -", run(b"", *table.arguments, "-w", "-", "--read", path).stdout, wanted)
    done = run(b"no capture at all", *table.arguments, "-w", new)
    tally.expect("-w without a capture", (done.returncode, new.read_bytes()), (2, b"kept"))
    linked = path.with_name("linked.pcap")
    os.link(path, linked)
    for name in (path, linked):
        done = run(b"", *table.arguments, "-w", name, path)
        tally.expect("-w over the capture", (done.returncode, b"is the capture" in done.stderr, path.read_bytes() == data), (2, True, True))
        with open(path, "rb") as standard_input:
            done = subprocess.run([PROGRAM.path, *table.arguments, "-w", name], stdin=standard_input, capture_output=True, timeout=60)
        tally.expect("-w over standard input", (done.returncode, b"is the capture" in done.stderr, path.read_bytes() == data), (2, True, True))
    done = run(b"", *table.arguments, "-w", path.with_name("none") / "a.pcap", path)
    tally.expect("-w into no folder", (done.returncode, b"a.pcap: No such file" in done.stderr), (3, True))
    done = run(b"", *table.arguments, "-r", path, path)
    tally.expect("two captures", (done.returncode, b"'--read <FILE>' is used with another FILE" in done.stderr), (2, True))


def check_terminal(tally, table):
    """A terminal is read if its name is given. Without a name it is refused, and so is a terminal as output."""
    terminal, its_end = pty.openpty()
    done = subprocess.run([PROGRAM.path, *table.arguments, "-"], input=b"", stdout=its_end, stderr=subprocess.PIPE, timeout=60)
    tally.expect("a terminal as output", (done.returncode, b"standard output is a terminal" in done.stderr), (2, True))
    os.close(its_end)
    os.close(terminal)
    for arguments, refusal in (((), True), (("-",), False)):
        terminal, its_end = pty.openpty()
        # The character ends the input of a terminal for one read.
        os.write(terminal, b"\4" * 8)
        done = subprocess.run([PROGRAM.path, *table.arguments, *arguments], stdin=its_end, capture_output=True, timeout=60)
        os.close(its_end)
        os.close(terminal)
        said = done.stderr.decode()
        tally.expect(f"{arguments}, a terminal", (done.returncode, done.stdout, "no FILE is named" in said, "the input contains 0." in said),
                     (2, b"", refusal, not refusal))


def check_failed_output(tally, table, data):
    """If writing fails, the status is 3 also after a capture that is cut off. The error is written, and the counts are left out."""
    if not pathlib.Path("/dev/full").exists():
        return
    failed = "translator: Writing failed: No space left on device (os error 28)."
    # A long capture fails before its end, and the others at the flush.
    header, *records = build.capture_parts(build.ETHERNET, [data[:1000]])
    for name, read, errors in (("a capture", data, 1), ("a capture that is cut off", data[:200], 2), ("a long capture", header + records[0] * 1000, 1)):
        with open("/dev/full", "wb") as full:
            done = subprocess.run([PROGRAM.path, *table.arguments], input=read, stdout=full, stderr=subprocess.PIPE, timeout=120)
        said = done.stderr.decode().splitlines()
        tally.expect(f"{name}, full output", (done.returncode, said[-1], len(said)), (3, failed, errors))
    for arguments in (table.arguments, ("--help",)):
        reader, writer = os.pipe()
        os.close(reader)
        done = subprocess.run([PROGRAM.path, *arguments], input=data, stdout=writer, stderr=subprocess.PIPE, timeout=60)
        os.close(writer)
        tally.expect(f"{arguments}: the reader of standard output ended", (done.returncode, done.stderr), (141, b""))


def check_failed_errors(tally, table, data):
    """If standard error can't be written, the capture has been written, and the status is that of a failure."""
    if not pathlib.Path("/dev/full").exists():
        return
    reader, ended = os.pipe()
    os.close(reader)
    with open("/dev/full", "wb") as full:
        for name, errors, status in (("full", full, 3), ("without a reader", ended, 141), ("closed", None, 3)):
            for form, read in (("a capture", data), ("a capture that is cut off", data[:-1])):
                done = PROGRAM.with_errors_to(errors, read, *table.arguments)
                tally.expect(f"{form}, standard error {name}", (done.returncode, first_difference(done.stdout, model(read, table)[0])), (status, None))
            for arguments in ((*table.arguments, "missing.pcap"), ("--bogus",), ()):
                done = PROGRAM.with_errors_to(errors, data, *arguments)
                tally.expect(f"{arguments}, standard error {name}", (done.returncode, done.stdout), (status, b""))
    os.close(ended)


def check_progress(tally):
    """A file above 100 MB has a progress line if standard error is a terminal. It is erased, and then the counts follow."""
    progress, erased = PROGRAM.progress()
    whole = b"".join(progress) + erased
    arguments = TABLES["both sides"].arguments
    with tempfile.TemporaryDirectory() as room:
        path = pathlib.Path(room) / "long.pcap"
        build.write_long_capture(path)
        new = path.with_name("new.pcap")
        plain = run(b"", *arguments, "-w", new, path)
        tally.expect("no terminal has a progress line", (plain.returncode, plain.stderr.startswith(b"translator: 0 IPv4 and ")), (0, True))
        counts = plain.stderr
        tally.expect("a progress line with -w FILE", PROGRAM.on_terminal(*arguments, "-w", new, path), (0, b"", whole + counts))
        status, written, shown = PROGRAM.on_terminal(*arguments, path)
        tally.expect("a progress line", (status, written == path.read_bytes(), shown), (0, True, whole + counts))
        with open(path, "rb") as file:
            shown = PROGRAM.on_terminal(*arguments, "-w", new, stdin=file)
        tally.expect("no progress line of standard input", shown, (0, b"", counts))
        for length, is_shown in ((100_000_001, True), (100_000_000, False)):
            os.truncate(path, length)
            status, _, shown = PROGRAM.on_terminal(*arguments, "-w", new, path)
            error = run(b"", *arguments, "-w", new, path).stderr
            tally.expect(f"a cut file of {length} bytes", (status, shown.endswith(error), shown.startswith(progress[0])), (1, True, is_shown))
