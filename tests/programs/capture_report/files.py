"""Tests of captures that are named as arguments."""
import bz2
import gzip
import json
import lzma
import os
import pathlib
import pty
import subprocess
import tempfile

from ..build import COOKED2, ETHERNET, IPV4, capture, frame, ipv4, udp
from ..kinds import every_kind
from ..program import version
from .choices import is_chosen
from .report import PROGRAM, lines_of, parts_of, run, without_facts


def check_files(tally):
    """Captures that are named as arguments: their headings, one summary of all, and the status of all."""
    with tempfile.TemporaryDirectory() as room:
        def kept(name, data):
            (pathlib.Path(room) / name).write_bytes(data)
            return name

        def run_in(*arguments, data=b""):
            return run(data, *arguments, cwd=room)

        run_in.room = room
        frames, _ = every_kind(ETHERNET)
        everything = capture(ETHERNET, frames)
        right = capture(COOKED2, [frame(COOKED2, ipv4(17, udp(IPV4, bytes(4))))] * 2, ">", True)
        kept("all.pcap", everything)
        kept("right.pcap", right)
        kept("cut.pcap", right[:-1])
        kept("all_cut.pcap", everything[:-1])
        kept("text", b"This is no capture, but a text of some lines.\n")
        kept("all.pcap.gz", gzip.compress(everything))
        kept("all.pcap.zst", bytes.fromhex("28B52FFD") + bytes(40))
        kept("all.pcap.xz", lzma.compress(everything))
        kept("all.pcap.bz2", bz2.compress(everything))
        kept("all.pcap.lz4", bytes.fromhex("04224D18") + bytes(40))
        kept("all.pcap.Z", bytes.fromhex("1F9D90") + bytes(40))
        for name in ("all.pcap", "right.pcap"):
            tally.expect(f"{name} alone", run_in(name).stdout, run((pathlib.Path(room) / name).read_bytes()).stdout)
        tally.expect("- alone", run_in("-", data=right).stdout, run(right).stdout)
        # As in tcpdump and tshark, -r names a capture. -n has no effect.
        for arguments in (("-r", "right.pcap"), ("-n", "right.pcap"), ("-nr", "right.pcap"), ("--read", "right.pcap", "--numeric")):
            tally.expect(" ".join(arguments), run_in(*arguments).stdout, run_in("right.pcap").stdout)
        tally.expect("-r is first", run_in("all.pcap", "-r", "right.pcap").stdout, run_in("right.pcap", "all.pcap").stdout)
        done = run_in("all.pcap", "-", "right.pcap", data=right)
        its_lines = [run(data, "--packets").stdout.decode() for data in (everything, right, right)]
        wanted = "\n".join(f"==> {name} <==\n{lines}" for name, lines in zip(("all.pcap", "-", "right.pcap"), its_lines))
        tally.expect("lines of three captures", done.stdout.decode().startswith(wanted + f"\npackets {len(frames) + 4}, bytes "), True)
        summary = run_in("--summary", "all.pcap", "-", "right.pcap", data=right).stdout
        tally.expect("summary of three captures", (done.stdout[len(wanted) + 1:], done.returncode, done.stderr), (summary, 0, b""))
        for name, command in (("all.pcap.gz", "gzip -dc"), ("all.pcap.zst", "zstd -dc"), ("all.pcap.xz", "xz -dc"),
                              ("all.pcap.bz2", "bzip2 -dc"), ("all.pcap.lz4", "lz4 -dc"), ("all.pcap.Z", "gzip -dc")):
            done = run_in(name)
            tally.expect(name, (done.returncode, done.stderr.decode()),
                         (2, f"capture_report: {name}: The capture is compressed, and is read by {command} FILE | capture_report.\n"))
        for arguments, status in [
            (("right.pcap",), 0), (("--check", "right.pcap"), 0), (("all.pcap",), 0), (("--check", "all.pcap"), 4),
            (("--check", "--summary", "right.pcap", "all.pcap"), 4), (("--check", "--wrong", "all.pcap", "right.pcap"), 4),
            (("--check", "all.pcap", "cut.pcap"), 4), (("--check", "all_cut.pcap"), 4), (("--check", "all.pcap", "text", "none.pcap"), 4),
            (("all_cut.pcap",), 1), (("--check", "cut.pcap"), 1), (("cut.pcap", "right.pcap"), 1), (("cut.pcap", "text", "cut.pcap"), 2),
            (("text", "none.pcap", "cut.pcap"), 3), (("none.pcap",), 3), ((".",), 3),
        ]:
            done = run_in(*arguments)
            named = [name for name in arguments if name in ("cut.pcap", "all_cut.pcap", "text", "none.pcap", ".")]
            tally.expect(f"status of {arguments}", (done.returncode, [line.split(": ")[1] for line in lines_of(done.stderr)]), (status, named))
        # Names are shown without control characters. A name that is not UTF-8 is an error, and the next captures are read.
        kept("a\n\x1b[2J\u009b\u00fc\\.pcap", right)
        for name, shown, error in [
            ("a\n\x1b[2J\u009b\u00fc\\.pcap", "a\\x0A\\x1B[2J\\x9B\u00fc\\.pcap", ""),
            (b"a\n\xfc\\.pcap", "a\\x0A\\xFC\\x5C.pcap", "The name is not UTF-8, and no file is opened by such a name."),
        ]:
            done = run_in("right.pcap", name, "right.pcap", "--packets")
            lines = its_lines[1]
            wanted = "\n".join(f"==> {file} <==\n{text}" for file, text in (("right.pcap", lines), (shown, "" if error else lines), ("right.pcap", lines)))
            line = f"capture_report: {shown}: {error}\n" if error else ""
            tally.expect(f"{name}", (done.returncode, done.stdout.decode(), done.stderr.decode()), (3 if error else 0, wanted, line))
            files = [json.loads(line).get("file") for line in lines_of(run_in("right.pcap", name, "--packets", "--json").stdout)]
            tally.expect(f"{name} in JSON", [file for file in files if file], ["right.pcap", shown if error else name])
        check_filters(tally, run_in, right, its_lines[1], kept)
        check_headings(tally, run_in)
        check_rows(tally, run_in, kept)
        check_count(tally, run_in, its_lines[0].splitlines(), its_lines[1].splitlines())
        check_wrong_count(tally, run_in)
    terminal, its_end = pty.openpty()
    done = subprocess.run([PROGRAM.path], stdin=its_end, capture_output=True, timeout=60)
    tally.expect("a terminal as standard input", (done.returncode, done.stdout, "[FILE]..." in done.stderr.decode()), (2, b"", True))
    os.close(its_end)
    os.close(terminal)
    done = run(b"", "--version")
    tally.expect("--version", (done.returncode, done.stdout.decode()), (0, f"capture_report {version()}\n"))


def check_filters(tally, run_in, right, its_lines, kept):
    """A filter among the names has status 2 and a hint at the end of its message, and no capture is read. A file with such a name is read."""
    hint = "; filters are --host, --port and --protocol"
    for arguments, word in [
        (("tcp", "port", "80", "--packets"), "tcp"), (("-r", "right.pcap", "port", "53"), "port"), (("right.pcap", "host", "10.0.0.1"), "host"),
        (("right.pcap", "none.pcap", "udp"), "udp"), (("tcp port 80",), "tcp port 80"), (("-w", "-", "udp"), "udp"), (("--json", "right.pcap", "net"), "net"),
        (("right.pcap", b"a\xff.pcap", "not"), "not"), (("-l", "right.pcap", "src"), "src"), (("host " + "x" * 300,), "host " + "x" * 300),
        (("right.pcap", "vlan", "10"), "vlan"), (("less", "64"), "less"), (("greater", "64"), "greater"), (("sctp",), "sctp"),
    ]:
        done = run_in(*arguments, data=right)
        error = "File name too long (os error 36)" if len(word) > 255 else "No such file or directory (os error 2)"
        tally.expect(f"{arguments}", (done.returncode, done.stdout, done.stderr.decode()), (2, b"", f"capture_report: {word}: {error}{hint}\n"))
    with subprocess.Popen([PROGRAM.path, "port", "53"], stdin=subprocess.PIPE, stdout=subprocess.PIPE, stderr=subprocess.PIPE) as process:
        # The pipe stays open, and nothing is read from it.
        tally.expect("a filter, and a pipe as input", (process.wait(20), process.stdout.read(), process.stderr.read().decode().endswith(f"{hint}\n")), (2, b"", True))
    done = run_in("--port", "x", "port", "53")
    tally.expect("a wrong option before a filter", (done.returncode, done.stdout, done.stderr.decode().startswith("error: invalid value 'x' for '--port <N>'")), (2, b"", True))
    done = run_in("-w", "a.pcap", "right.pcap", "udp")
    tally.expect("-w and a filter", (done.returncode, done.stdout, done.stderr.decode().splitlines()[0]),
                 (2, b"", f"error: '--write <FILE>' is used with more than one capture{hint}"))
    for name in ("none.pcap", "tcpdump.pcap", "80"):
        done = run_in(name, "right.pcap", "--packets")
        tally.expect(f"{name} is no filter", (done.returncode, done.stderr.decode()), (3, f"capture_report: {name}: No such file or directory (os error 2)\n"))
    for name in ("arp", "port 53"):
        kept(name, right)
        done = run_in(name, "--packets")
        tally.expect(f"a file with the name {name}", (done.returncode, done.stdout.decode(), done.stderr), (0, its_lines, b""))
    os.mkfifo(os.path.join(run_in.room, "net"))
    with subprocess.Popen([PROGRAM.path, "--packets", "net"], stdout=subprocess.PIPE, cwd=run_in.room) as process:
        with open(os.path.join(run_in.room, "net"), "wb") as pipe:
            pipe.write(right)
        tally.expect("a named pipe with the name of a filter", (process.stdout.read().decode(), process.wait(20)), (its_lines, 0))


def row_of(run_in, name, *arguments):
    """The row of a capture in the table of files, as in JSON. Its numbers are those of the summary of only this capture."""
    alone = json.loads(lines_of(run_in("--json", "--summary", *arguments, name).stdout)[-1])
    return {"file": name, "packets": alone["packets"], "bytes": alone["bytes"], **{kind: alone["checksums"][kind] for kind in ("wrong", "refused")}}


def files_table(rows, *others):
    """The table of files as text, from its rows as in JSON."""
    lines = [("packets", "bytes", "wrong", "refused", "files"), *(tuple(row.values())[1:] + (row["file"],) for row in rows), *others]
    return "\n" + "".join(f"{packets:>11} {size:>17} {wrong:>11} {refused:>11} {name}\n" for packets, size, wrong, refused, name in lines)


def check_rows(tally, run_in, kept):
    """Each of several captures has a row, which counts what its own summary counts. Those after the first 64 are counted together."""
    names = ["all.pcap", "cut.pcap", "text", "right.pcap", "none.pcap", "all_cut.pcap", "all.pcap"]
    for arguments in ((), ("--wrong",), ("--port", "53"), ("--protocol", "tcp"), ("--tunnels",)):
        rows = [row_of(run_in, name, *(argument for argument in arguments if argument != "--wrong")) for name in names if name not in ("text", "none.pcap")]
        done = run_in(*arguments, *names)
        tally.expect(f"rows of files with {arguments}", done.stdout.decode().endswith(files_table(rows)), True)
        summary = json.loads(lines_of(run_in("--json", *arguments, *names).stdout)[-1])
        tally.expect(f"rows of files in JSON with {arguments}", (summary["files"], "other_files" in summary), (rows, False))
        tally.expect(f"sum of rows with {arguments}", [sum(row[kind] for row in rows) for kind in ("packets", "bytes", "wrong", "refused")],
                     [summary["packets"], summary["bytes"], summary["checksums"]["wrong"], summary["checksums"]["refused"]])
    for names in ((), ("right.pcap",), ("-",)):
        done = run_in("--json", *names, data=(pathlib.Path(run_in.room) / "right.pcap").read_bytes())
        tally.expect(f"no rows of {names}", "files" in json.loads(lines_of(done.stdout)[-1]), False)
    rows = [row_of(run_in, "right.pcap")]
    for arguments, read in ((("-c", "2"), 1), (("-c", "3"), 2)):
        found = json.loads(lines_of(run_in("--json", *arguments, "right.pcap", "right.pcap").stdout)[-1])["files"]
        tally.expect(f"rows with {arguments}", [row["packets"] for row in found], [2, 1][:read])
    others = {kind: 3 * rows[0][kind] for kind in ("packets", "bytes", "wrong", "refused")}
    done = run_in("--summary", *["right.pcap"] * 67)
    tally.expect("rows of 67 files", done.stdout.decode().endswith(files_table(rows * 64, (*others.values(), "other captures: 3"))), True)
    summary = json.loads(lines_of(run_in("--summary", "--json", *["right.pcap"] * 67).stdout)[-1])
    tally.expect("rows of 67 files in JSON", (summary["files"], summary["other_files"]), (rows * 64, {"files": 3, **others}))
    kept("a\n\x9b\u00fc.pcap", (pathlib.Path(run_in.room) / "right.pcap").read_bytes())
    done = run_in("--summary", "a\n\x9b\u00fc.pcap", "right.pcap")
    shown = "a\\x0A\\x9B\u00fc.pcap"
    tally.expect("the name in a row", done.stdout.decode().endswith(files_table([{**rows[0], "file": shown}, *rows])), True)


def check_headings(tally, run_in):
    """An empty line separates the headings from the summary, also if only one capture can be read and no packet has a line."""
    summary = without_facts(run_in("--summary", "right.pcap"))
    for names in (("right.pcap", "none.pcap"), ("none.pcap", "right.pcap"), ("text", "right.pcap", "none.pcap")):
        for arguments in (("--wrong",), ("--wrong", "--port", "53")):
            done = run_in(*arguments, *names)
            wanted = "\n\n".join(f"==> {name} <==" for name in names) + "\n\n"
            tally.expect(f"{arguments} of {names}", (done.returncode, done.stdout.decode().startswith(f"{wanted}file type classic, ")), (3, True))
    done = run_in("--wrong", "right.pcap", "none.pcap")
    tally.expect("the summary of one of two captures", without_facts(done).split(f"==> none.pcap <==\n\n{summary}")[1:], [files_table([row_of(run_in, "right.pcap")])])
    done = run_in("--wrong", "right.pcap")
    tally.expect("no empty line without headings", done.stdout.decode().startswith("file type classic, "), True)


def check_wrong_count(tally, run_in):
    """With --wrong only the lines that are written count, and with --summary the packets that are selected."""
    wrong = lines_of(run_in("--wrong", "--packets", "all.pcap").stdout)
    for count in (1, 2, 5, len(wrong)):
        done = run_in("-c", str(count), "--wrong", "--packets", "all.pcap")
        tally.expect(f"-c {count} --wrong", (done.returncode, lines_of(done.stdout)), (0, wrong[:count]))
        done = run_in("-c", str(count), "--wrong", "right.pcap", "all.pcap", "none.pcap")
        wanted = ["==> right.pcap <==", "", "==> all.pcap <==", *wrong[:count], ""]
        last = parts_of(wrong[count - 1])[0]
        tally.expect(f"-c {count} --wrong of three", (done.returncode, lines_of(done.stdout)[:len(wanted)], done.stderr), (0, wanted, b""))
        tally.expect(f"packets of -c {count} --wrong", f"\npackets {int(last) + 2}, bytes " in done.stdout.decode(), True)
        done = run_in("-c", str(count), "--summary", "all.pcap")
        tally.expect(f"-c {count} --summary", (done.returncode, without_facts(done).startswith(f"packets {count}, bytes ")), (0, True))
    done = run_in("-c", str(len(wrong) + 1), "--wrong", "--packets", "all.pcap", "none.pcap")
    tally.expect("-c above all wrong lines", (done.returncode, lines_of(done.stdout)), (3, ["==> all.pcap <==", *wrong, "", "==> none.pcap <=="]))


def check_count(tally, run_in, every, right):
    """The report ends after a number of lines, and reads no further capture. These are the lines of two captures."""
    for count in (1, 3, len(every) - 1, len(every)):
        done = run_in("-c", str(count), "--packets", "all.pcap")
        tally.expect(f"-c {count}", (done.returncode, lines_of(done.stdout)), (0, every[:count]))
        done = run_in("--count", str(count), "all.pcap", "right.pcap", "none.pcap")
        wanted = ["==> all.pcap <==", *every[:count], "", f"packets {count}, bytes "]
        tally.expect(f"--count {count} of three", (done.returncode, lines_of(done.stdout)[:len(wanted) - 1], done.stderr), (0, wanted[:-1], b""))
        tally.expect(f"packets of --count {count}", without_facts(done).split("\n\n", 1)[1].startswith(wanted[-1]), True)
    wanted = ["==> all.pcap <==", *every, "", "==> right.pcap <==", right[0]]
    done = run_in("-c", str(len(every) + 1), "--packets", "all.pcap", "right.pcap", "none.pcap")
    tally.expect("-c in the second capture", (done.returncode, lines_of(done.stdout), done.stderr), (0, wanted, b""))
    done = run_in("-c", str(len(every) + 3), "--packets", "all.pcap", "right.pcap", "none.pcap")
    tally.expect("-c above all packets", (done.returncode, lines_of(done.stdout)), (3, [*wanted, *right[1:], "", "==> none.pcap <=="]))
    done = run_in("-c", "2", "--packets", "--protocol", "tcp", "all.pcap")
    tally.expect("-c of some", lines_of(done.stdout), [line for line in every if is_chosen(line, protocol=["tcp"])][:2])
    for count, status in ((1, 0), (2, 1)):
        done = run_in("-c", str(count), "--packets", "cut.pcap")
        tally.expect(f"-c {count} of a capture that is cut", (done.returncode, lines_of(done.stdout)), (status, right[:1]))
