"""How the program is run, and what its output is compared with."""
import collections

from ..program import Program

PROGRAM = Program("translator")
run = PROGRAM.run


def counts_of(text):
    """The counts that the program writes to standard error."""
    counts = collections.Counter()
    for line in text.splitlines():
        words = line.removeprefix("translator: ").split()
        if words[5:7] == ["packets", "translated,"]:
            counts["IPv4 translated"], counts["IPv6 translated"] = int(words[0]), int(words[3])
            counts["IPv4 without"], counts["IPv6 without"] = int(words[7]), int(words[10])
        elif words[1:3] == ["not", "translated:"]:
            # `check_reasons` tests the error of the first packet with refused headers.
            counts[" ".join(words[3:]).partition(", first error: ")[0]] = int(words[0])
    return +counts


def first_difference(some, others):
    """Where bytes differ, or None."""
    if some == others:
        return None
    return next((place for place, (one, other) in enumerate(zip(some, others)) if one != other), min(len(some), len(others)))
