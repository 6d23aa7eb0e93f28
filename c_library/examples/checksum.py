# SPDX-FileCopyrightText: 2026 The etherparse_transport developers
# SPDX-License-Identifier: MIT OR Apache-2.0
"""Tests the checksum of a UDP packet by the shared library, whose path is the argument."""
import ctypes
import sys

library = ctypes.CDLL(sys.argv[1])
packet = bytes.fromhex("001504d2000bb33a616263")
error = ctypes.create_string_buffer(72)  # the size of etherparse_error
arguments = packet, ctypes.c_size_t(len(packet)), bytes([192, 168, 1, 1]), bytes([192, 168, 1, 2]), error
status = library.etherparse_udp_checksum_test_ipv4(*arguments)
print({0: "the checksum is right", 5: "the checksum is wrong", 6: "there is no checksum"}.get(status, f"status {status}"))
