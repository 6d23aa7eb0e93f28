"""Tests of arguments: values that are refused, pairs of options, and long words."""
import itertools
import pathlib
import re
import tempfile

from ..build import IPV4, RAW, capture, ipv4, udp
from .files import files_table
from .report import lines_of, run


# A value of the options with a time.
A_TIME = "2020-09-13T12:26:40Z"

# The options with an address or a network.
HOST_OPTIONS = ("--host", "--source", "--destination", "--not-host")


def check_values(tally):
    """Values that are refused, and what the message names."""
    for arguments, words in [
        (("--port", "70000"), "70000"), (("--port", "-1"), "-1"), (("--port", "http"), "http"), (("--host", "x"), "'x'"),
        (("--host", "192.0.2.256"), "192.0.2.256"), (("--host", "192.0.2.1:53"), "192.0.2.1:53"), (("--host", ""), "--host"),
        (("--host", "192.0.2.0/33"), "prefix length"), (("--host", "2001:db8::/129"), "prefix length"), (("--host", "192.0.2.1/24"), "bits"),
        (("--host", "192.0.2.0/24", "--host", "x"), "'x'"), (("--port", "1") * 17, "--port"), (("--host", "::1") * 17, "--host"),
        (("--protocol", "sctpp"), "'sctpp'"), (("--protocol", "pppoe session"), "'pppoe session'"),
        (("--port", "80,"), "''"), (("--port", "80,x,y"), "'x'"), (("--port", "81-80"), "'81-80'"), (("--port", "80-"), "'80-'"),
        (("--port", "1-2-3"), "'1-2-3'"), (("--not-port", "65536"), "'65536' for '--not-port <N>'"), (("--port", ",".join(["1"] * 17)), "--port"),
        (("--source", "x"), "'x' for '--source <ADDRESS>'"), (("--destination", "::1/3"), "'--destination <ADDRESS>'"),
        (("--not-host", "192.0.2.1/24"), "'--not-host <ADDRESS>'"), (("--source", "x", "--host", "y"), "'y'"), (("--port", "x", "--not-host", "y"), "'y'"),
        (("--protocol", "x", "--not-port", "y"), "'y'"), (("--protocol", "udp") * 17, "--protocol"), (("--top", "-1"), "-1"), (("--top", "ten"), "ten"),
        (("--top", "18446744073709551616"), "18446744073709551616"), (("--top", "3", "--packets"), "--packets"), (("--host",), "--host"),
        (("--absolute", "--summary"), "--summary"), (("--from", "2023-02-29T00:00:00Z"), "'2023-02-29T00:00:00Z' for '--from <TIME>'"),
        (("--to", "2.5"), "'2.5' for '--to <TIME>': not a date and time such as 2023-11-14T22:13:20Z"), (("--to", "x", "--from", "y"), "'y'"),
        (("--from", "x", "--protocol", "y"), "'y'"), (("--from",), "--from"),
        (("-c", "0"), "'0'"), (("-c", "-1"), "-1"), (("--count", "x"), "'x'"),
        (("-c", "18446744073709551616"), "18446744073709551616"),
        *((("--interval", text), f"invalid value '{text}' for '--interval <SECONDS>': not a number of seconds")
          for text in ("x", "0", "0.0", "0.0000000001", "1.0000000000", "1000000000.000000001", "1000000001", "1.", ".5", ".", "+1", "1.+5", "1e3", "1,5", "1.2.3",
                       " 1", "1 ", "18446744073709551616", "9" * 50, "1." + "0" * 50, "٣")),
        (("--interval=-1",), "'-1' for '--interval <SECONDS>'"), (("--interval", "x", "--host", "y"), "'y'"), (("--interval=",), "--interval"),
    ]:
        done = run(b"", *arguments)
        tally.expect(f"{arguments}", (done.returncode, done.stdout, words in done.stderr.decode()), (2, b"", True))


def check_unknown_options(tally):
    """A word that looks like an option and is none is named, and no other option is."""
    for word in ("--filter", "-i", "-nx", "--summry", "--write-to=-", "-1"):
        done = run(b"", word, "eth0")
        message = f"error: unexpected argument '{word}' found\n\nUsage: capture_report [OPTIONS] [FILE]...\n\nFor more information, try '--help'.\n"
        tally.expect(f"{word}", (done.returncode, done.stdout, done.stderr.decode()), (2, b"", message))


def check_known_options(tally):
    """Each option that the help shows is known, so that an error about another word names this word."""
    shown = re.findall(r"^ +(?:(-[a-zA-Z]), )?(--[a-z-]+)", run(b"", "--help").stdout.decode(), re.MULTILINE)
    tally.expect("options of the help", len(shown), 27)
    for name in [name for names in shown for name in names if name not in ("", "-h", "--help", "-V", "--version")]:
        value = {"--protocol": "udp", "--from": A_TIME, "--to": A_TIME}.get(name, "192.0.2.1" if name in HOST_OPTIONS else "1")
        done = run(b"", name, value, "--other")
        tally.expect(f"{name} and --other", (done.returncode, done.stderr.decode().split("\n")[0]), (2, "error: unexpected argument '--other' found"))


def check_repeated_options(tally):
    """A repeated option replaces its earlier use."""
    data = capture(RAW, [ipv4(17, udp(IPV4, b"abc"))] * 3)
    for arguments, same in [
        (("-nn",), ("-n",)), (("-vvv",), ("-v",)), (("-nnvvr", "-"), ("-nvr", "-")), (("--json", "--json"), ("--json",)), (("-ll", "-l"), ("-l",)),
        (("--packets", "-c", "1", "--packets", "-c", "2"), ("--packets", "-c", "2")), (("--top", "x", "--top", "2"), ("--top", "x")),
        (("--top", "1", "--top", "0"), ("--top", "0")), (("-w", "none/a.pcap", "-w", "-"), ("-w", "-")),
    ]:
        done, wanted = run(data, *arguments), run(data, *same)
        tally.expect(f"{arguments}", (done.returncode, done.stdout, done.stderr), (wanted.returncode, wanted.stdout, wanted.stderr))


def check_options_not_utf_8(tally):
    """An option that is not UTF-8 is refused, also if its value is not UTF-8. Such a word after `--` is the name of a file."""
    data = capture(RAW, [ipv4(17, udp(IPV4, b"abc"))])
    for word, shown in [(b"--host=10.0.0.1\xff", "--host=10.0.0.1\\xFF"), (b"--write=caf\xe9", "--write=caf\\xE9"), (b"-\xff", "-\\xFF"),
                        (b"--summary\xff", "--summary\\xFF"), (b"-r\xff.pcap", "-r\\xFF.pcap")]:
        message = f"error: the argument '{shown}' is not UTF-8\n\nUsage: capture_report [OPTIONS] [FILE]...\n\nFor more information, try '--help'.\n"
        for arguments in ((word,), (word, "-"), ("-", word), ("--port", "70", word, b"-\xfe")):
            done = run(data, *arguments)
            tally.expect(f"{arguments}", (done.returncode, done.stdout, done.stderr.decode()), (2, b"", message))
        done = run(data, "--packets", "--", word)
        line = f"capture_report: {shown}: The name is not UTF-8, and no file is opened by such a name.\n"
        tally.expect(f"{word} after --", (done.returncode, done.stdout, done.stderr.decode()), (3, b"", line))
        done = run(data, word, "--help")
        tally.expect(f"{word} and --help", (done.returncode, done.stdout, done.stderr), (0, run(b"", "--help").stdout, b""))


# The pairs of options that are not used together, as a message writes them.
EXCLUSIVE = [("--summary", "--packets"), ("--wrong", "--summary"), ("--absolute", "--summary"), ("--top <N>", "--packets"), ("--timeline", "--packets"),
             ("--interval <SECONDS>", "--packets"),
             *(("--write <FILE>", option) for option in ("--summary", "--packets", "--absolute", "--check", "--json", "--top <N>", "--timeline", "--interval <SECONDS>"))]

# The options that are used with any other option.
FREE_OPTIONS = ["--verbose", "--tunnels", *(f"{name} <ADDRESS>" for name in HOST_OPTIONS), "--port <N>", "--not-port <N>", "--protocol <NAME>",
                "--from <TIME>", "--to <TIME>", "--count <N>", "--line-buffered", "--numeric", "--read <FILE>"]


def check_pairs(tally):
    """Each two options in either order: a pair of the list is refused by its names, and every other pair is accepted."""
    data = capture(RAW, [ipv4(17, udp(IPV4, b"abc"))])
    values = {"<N>": "3", "<SECONDS>": "0.5", "<FILE>": "-", "<ADDRESS>": "::1", "<NAME>": "udp", "<TIME>": A_TIME}
    for options in itertools.permutations(sorted({option for pair in EXCLUSIVE for option in pair}) + FREE_OPTIONS, 2):
        arguments = [values.get(word, word) for option in options for word in option.split()]
        done = run(data, *arguments)
        named = [pair for pair in EXCLUSIVE if set(pair) == set(options)]
        message = "".join(f"error: the argument '{first}' cannot be used with '{second}'\n\nUsage: capture_report [OPTIONS] [FILE]...\n\n"
                          "For more information, try '--help'.\n" for first, second in named)
        found = (done.returncode, done.stderr.decode() if named else "", bool(done.stdout) and bool(named))
        tally.expect(f"{arguments}", found, (2 if named else 0, message, False))
    done = run(data, "--json", "--packets", "--summary", "-w", "-")
    tally.expect("three pairs", (done.returncode, done.stderr.decode().splitlines()[0]),
                 (2, "error: the argument '--summary' cannot be used with '--packets'"))


def check_long_words(tally):
    """An argument of as many bytes as Linux accepts, and more than 64 arguments."""
    packet = capture(RAW, [ipv4(17, udp(IPV4, b"abc"))])
    row = files_table([{"file": "-", "packets": 1, "bytes": len(ipv4(17, udp(IPV4, b"abc"))), "wrong": 0, "refused": 0}]).encode()
    for length in (100_000, 131_071):
        name = "x" * length
        done = run(packet, "--host", name)
        tally.expect(f"a host of {length} bytes", (done.returncode, done.stdout, f"error: invalid value '{name}' for '--host <ADDRESS>': " in done.stderr.decode()),
                     (2, b"", True))
        done = run(packet, "--summary", name, "-")
        tally.expect(f"a file name of {length} bytes", (done.returncode, done.stdout, done.stderr.decode()),
                     (3, run(packet, "--summary").stdout + row, f"capture_report: {name}: File name too long (os error 36)\n"))
    with tempfile.TemporaryDirectory() as room:
        names = [f"{number}.pcap" for number in range(70)]
        for name in names:
            (pathlib.Path(room) / name).write_bytes(packet)
        lines = lines_of(run(b"", *names, cwd=room).stdout)
        tally.expect("70 files", [line for line in lines if line.startswith("==> ")], [f"==> {name} <==" for name in names])
        tally.expect("the packets of 70 files", [line.split(",")[0] for line in lines if line.startswith("packets 70,")], ["packets 70"])
