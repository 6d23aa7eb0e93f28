"""Runs translator on captures, and compares what it writes.

The program is the one that `rt ci` left, or is built here. The captures are those of the repository, and captures that are built here. A
model in Python, which shares nothing with the program, translates each of them: it replaces addresses and ports, and updates checksums. If
tcprewrite is installed, it translates packets too. If tshark is installed, all fields of the packets are compared before and after. The last
line is 'N passed, N failed'; the status is 0 if none failed.
"""
from ..program import run_checks
from .others import check_against_tcprewrite, check_against_tshark
from .run import PROGRAM
from .streams import check_arguments, check_progress, check_streams
from .translations import check_captures, check_cuts, check_faults, check_long, check_long_blocks, check_memory, check_reasons

CHECKS = (
    check_captures, check_cuts, check_faults, check_reasons, check_long, check_long_blocks, check_arguments, check_streams, check_progress,
    check_memory, check_against_tshark, check_against_tcprewrite)


def main():
    return run_checks(PROGRAM, CHECKS)
