"""Runs capture_report on captures that are built here, and compares its reports.

The program is the one that `rt ci` left, or is built here. The captures have both forms, every link type, both byte orders and both
resolutions. Other captures have a fault each. If tshark is installed, its verdict on each packet is compared with the verdict of the program.
The module `tshark` lists the differences that docs/CAPTURE_REPORT.md explains. The last line is 'N passed, N failed'; the status is 0 if none
failed.
"""
import pathlib
import sys

from ..program import run_checks
from .arguments import (
    check_known_options, check_long_words, check_options_not_utf_8, check_pairs, check_repeated_options, check_unknown_options, check_values,
)
from .choices import check_choices
from .comments import check_comments, check_comments_against_tshark
from .every_row import check_every_row, every_row
from .facts import check_facts, check_statistics, check_texts
from .faults import check_cuts, check_faults
from .files import check_files
from .interfaces import check_interfaces, check_interfaces_against_tshark
from .objects import check_json
from .packets import (
    check_arp, check_every_kind, check_fragments, check_further_headers, check_hop_limits, check_names, check_neighbors, check_other_links,
    check_payloads, check_tunnels, check_udp_tunnels)
from .ranges import check_ranges, check_shown_times
from .report import PROGRAM
from .streams import check_live, check_progress
from .summary import check_conversations, check_sums, check_top, check_totals
from .timeline import check_interval, check_timeline
from .timeline_table import check_timeline_table
from .times import check_dates, check_times_as_numbers
from .tshark import check_against_tshark, check_payloads_against_tshark, check_tunnels_against_tshark, check_udp_tunnels_against_tshark
from .writing import check_writing

CHECKS = (
    check_every_kind, check_further_headers, check_tunnels, check_other_links, check_cuts, check_faults, check_writing, check_live,
    check_progress, check_files, check_sums, check_choices, check_ranges, check_shown_times, check_top, check_conversations, check_dates, check_totals, check_timeline_table, check_facts, check_statistics,
    check_texts, check_comments, check_comments_against_tshark,
    check_json, check_timeline, check_interval, check_every_row, check_hop_limits, check_times_as_numbers, check_payloads, check_names, check_values, check_unknown_options,
    check_fragments, check_arp, check_neighbors, check_known_options, check_repeated_options, check_options_not_utf_8, check_pairs, check_long_words, check_against_tshark,
    check_payloads_against_tshark, check_tunnels_against_tshark, check_interfaces, check_interfaces_against_tshark, check_udp_tunnels,
    check_udp_tunnels_against_tshark)


def main():
    if len(sys.argv) > 1:
        pathlib.Path(sys.argv[1]).write_bytes(b"".join(every_row()))
        return 0
    return run_checks(PROGRAM, CHECKS)
