/*
 * SPDX-FileCopyrightText: 2026 The etherparse_transport developers
 * SPDX-License-Identifier: MIT OR Apache-2.0
 */
/* Plain C that fills the same structs as the library's calls, or changes the same packets, as one writes it by hand. What it refuses has
 * status 1. */
#ifndef PLAIN_H
#define PLAIN_H

#include "etherparse_transport.h"

etherparse_status plain_transport_in_ip(const uint8_t *bytes, size_t len, etherparse_ip_transport *transport, etherparse_error *error);
etherparse_status plain_udp_packet_read(const uint8_t *bytes, size_t len, etherparse_udp_packet *packet, etherparse_error *error);
etherparse_status plain_tcp_packet_read(const uint8_t *bytes, size_t len, etherparse_tcp_packet *packet, etherparse_error *error);
etherparse_status plain_tcp_option_next(const uint8_t *options, size_t options_len, size_t *place, etherparse_tcp_option *option,
                                        etherparse_error *error);
etherparse_status plain_tcp_raw_option_next(const uint8_t *options, size_t options_len, size_t *place, etherparse_tcp_raw_option *option,
                                            etherparse_error *error);
etherparse_status plain_icmpv4_packet_read(const uint8_t *bytes, size_t len, etherparse_icmpv4_packet *packet, etherparse_error *error);
etherparse_status plain_icmpv6_packet_read(const uint8_t *bytes, size_t len, etherparse_icmpv6_packet *packet, etherparse_error *error);
etherparse_status plain_udp_checksum_test_ipv4(const uint8_t *bytes, size_t len, const uint8_t source[4], const uint8_t destination[4],
                                               etherparse_error *error);
etherparse_status plain_udp_header_write(const etherparse_udp_header *header, uint8_t *buffer, size_t buffer_len, size_t *written,
                                         etherparse_error *error);
etherparse_status plain_translate_ipv4(uint8_t *packet, size_t packet_len, const etherparse_ipv4_translation *translation,
                                       etherparse_error *error);
etherparse_status plain_echo_answer_ipv4(uint8_t *packet, size_t packet_len, const uint8_t source[4], uint8_t time_to_live,
                                         size_t *reply_len, etherparse_error *error);
etherparse_status plain_ipv4_to_ipv6(const uint8_t *packet, size_t packet_len, const etherparse_prefix64 *source,
                                     const etherparse_prefix64 *destination, uint8_t *buffer, size_t buffer_len, size_t *written,
                                     etherparse_error *error);
etherparse_status plain_ipv6_to_ipv4(const uint8_t *packet, size_t packet_len, const etherparse_prefix64 *source,
                                     const etherparse_prefix64 *destination, uint16_t identification, uint8_t *buffer,
                                     size_t buffer_len, size_t *written, etherparse_error *error);
etherparse_status plain_checked_ipv4_to_ipv6(const uint8_t *packet, size_t packet_len, const etherparse_prefix64 *source,
                                             const etherparse_prefix64 *destination, uint8_t *buffer, size_t buffer_len, size_t *written,
                                             etherparse_error *error);
etherparse_status plain_checked_ipv6_to_ipv4(const uint8_t *packet, size_t packet_len, const etherparse_prefix64 *source,
                                             const etherparse_prefix64 *destination, uint16_t identification, uint8_t *buffer,
                                             size_t buffer_len, size_t *written, etherparse_error *error);
etherparse_status plain_reassembly_packet(const uint8_t *packets, size_t packets_len, const size_t *lens, size_t lens_len, uint8_t *room,
                                          size_t room_len, uint8_t *buffer, size_t buffer_len, size_t *written, etherparse_error *error);

#endif
