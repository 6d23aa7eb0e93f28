"""A program that is tested, and what its tests count."""
import contextlib
import os
import pathlib
import pty
import re
import subprocess

TOP = pathlib.Path(__file__).resolve().parent.parent.parent


class Program:
    """A program of a crate, as `rt ci` left it, or as it is built here."""

    def __init__(self, name):
        self.crate = TOP / "crates" / name
        self.path = self.crate / "out" / name

    def is_stale(self):
        """Whether the program is missing, or a source of it is newer than it."""
        if not self.path.exists():
            return True
        made = self.path.stat().st_mtime
        # What checks keep in `out` can be tens of thousands of files.
        entries = (entry for entry in (TOP / "crates").glob("*/*") if entry.name != "out")
        return any(path.stat().st_mtime > made for entry in entries for path in (entry, *entry.rglob("*")) if path.is_file())

    def make(self):
        """Builds the program if it is stale. Returns what a failed build printed, or None if there is a program."""
        if not self.is_stale():
            return None
        arguments = (self.crate / "args").read_text().split()
        with open(self.crate / "stdin", "rb") as stored:
            done = subprocess.run(["rt", "run", "--", *arguments], cwd=self.crate, stdin=stored, capture_output=True)
        return None if self.path.exists() else (done.stdout[-2000:] + done.stderr[-2000:]).decode(errors="replace")

    def run(self, data, *arguments, **others):
        """A run on this standard input."""
        return subprocess.run([self.path, *arguments], input=data, capture_output=True, timeout=120, **others)

    def with_errors_to(self, errors, data, *arguments, **others):
        """A run whose standard error is this file, or is closed if there is no file."""
        if errors is None:
            command = ["sh", "-c", 'exec "$0" "$@" 2>&-', self.path, *arguments]
            return subprocess.run(command, input=data, stdout=subprocess.PIPE, timeout=60, **others)
        return subprocess.run([self.path, *arguments], input=data, stdout=subprocess.PIPE, stderr=errors, timeout=60, **others)

    def on_terminal(self, *arguments, both=False, stdin=subprocess.DEVNULL):
        """The status, standard output, and what is written to a terminal. It is standard error, or `both` outputs."""
        terminal, its_end = pty.openpty()
        output = its_end if both else subprocess.PIPE
        done = subprocess.run([self.path, *arguments], stdin=stdin, stdout=output, stderr=its_end, timeout=60)
        os.close(its_end)
        shown = b""
        # At its end a terminal has an error.
        with contextlib.suppress(OSError):
            while piece := os.read(terminal, 4096):
                shown += piece
        os.close(terminal)
        return done.returncode, done.stdout, shown.replace(b"\r\n", b"\n")

    def progress(self):
        """The progress lines of a long capture, and what erases the last of them."""
        return [f"{self.crate.name}: {percent} %\r".encode() for percent in range(1, 100)], b" " * 21 + b"\r"


class Tally:
    """How many checks passed and failed."""

    def __init__(self):
        self.passed = self.failed = 0

    def expect(self, name, found, stated):
        if found == stated:
            self.passed += 1
        else:
            self.failed += 1
            print(f"{name}: stated and found:\n{stated!r}\n{found!r}", flush=True)


def run_checks(program, checks):
    """Runs the checks of a program, prints what they count, and returns the exit status."""
    fault = program.make()
    if fault is not None:
        print(fault, "0 passed, 1 failed", sep="\n")
        return 1
    tally = Tally()
    for check in checks:
        check(tally)
    print(f"{tally.passed} passed, {tally.failed} failed")
    return 1 if tally.failed or not tally.passed else 0


def version():
    """The version of the library, which is that of the programs too."""
    header = (TOP / "c_library" / "include" / "etherparse_transport.h").read_text()
    return re.search(r'ETHERPARSE_VERSION_STRING "(.*)"', header).group(1)
