/*
 * SPDX-FileCopyrightText: 2026 The etherparse_transport developers
 * SPDX-License-Identifier: MIT OR Apache-2.0
 */
#include "plain.h"

#include <string.h>

static uint16_t big_endian_16(const uint8_t *bytes)
{
    return (uint16_t)(bytes[0] << 8 | bytes[1]);
}

static uint32_t big_endian_32(const uint8_t *bytes)
{
    return (uint32_t)bytes[0] << 24 | (uint32_t)bytes[1] << 16 | (uint32_t)bytes[2] << 8 | bytes[3];
}

static etherparse_status refuse(etherparse_error *error, size_t required_len, size_t len)
{
    memset(error, 0, sizeof *error);
    error->status = ETHERPARSE_STATUS_LENGTH;
    error->required_len = required_len;
    error->len = len;
    return ETHERPARSE_STATUS_LENGTH;
}

/* The extension headers that RFC 8200, section 4, RFC 4302, RFC 6275, RFC 7401 and RFC 5533 have. */
static int is_extension(uint32_t protocol)
{
    return protocol == 0 || protocol == 43 || protocol == 44 || protocol == 51 || protocol == 60 || protocol == 135
        || protocol == 139 || protocol == 140;
}

/* Whether hop-by-hop options have a jumbo payload option (RFC 2675, section 2), which a payload length that isn't 0 rules out. */
static int has_jumbo_payload(const uint8_t *header, size_t len)
{
    size_t place = 2;
    while (place < len) {
        if (header[place] == 0) {
            place += 1;
            continue;
        }
        if (len - place < 2 || len - place - 2 < header[place + 1])
            return 0;
        if (header[place] == 0xc2 && header[place + 1] == 4)
            return 1;
        place += (size_t)2 + header[place + 1];
    }
    return 0;
}

static etherparse_status ipv6(const uint8_t *bytes, size_t len, etherparse_ip_transport *transport, etherparse_error *error)
{
    size_t place = 40, counted;
    uint32_t protocol, is_fragment = 0, is_later_fragment = 0, has_destination = 1, fragment_offset = 0, identification = 0;
    if (len < 40)
        return refuse(error, 40, len);
    counted = 40 + (size_t)big_endian_16(bytes + 4);
    if (len < counted)
        return refuse(error, counted, len);
    protocol = bytes[6];
    while (is_extension(protocol)) {
        const uint8_t *header = bytes + place;
        size_t header_len = 8;
        if (counted - place < 8)
            return refuse(error, 8, counted - place);
        if (protocol == 51)
            header_len = (header[1] + (size_t)2) * 4;
        else if (protocol != 44)
            header_len = (header[1] + (size_t)1) * 8;
        if (counted - place < header_len)
            return refuse(error, header_len, counted - place);
        if (protocol == 0 && place == 40 && has_jumbo_payload(header, header_len))
            return refuse(error, header_len, header_len);
        if (protocol == 43 && header[3] != 0)
            has_destination = 0;
        if (protocol == 44) {
            uint16_t fragment = big_endian_16(header + 2);
            is_fragment |= (fragment & 0xfff9) != 0;
            fragment_offset = fragment & 0xfff8;
            identification = (uint32_t)big_endian_16(header + 4) << 16 | big_endian_16(header + 6);
            if (fragment >> 3 != 0) {
                is_later_fragment = 1;
                protocol = header[0];
                place += header_len;
                break;
            }
        }
        protocol = header[0];
        place += header_len;
    }
    transport->version = 6;
    transport->protocol = protocol;
    transport->payload_offset = place;
    transport->payload_len = counted - place;
    transport->is_fragment = is_fragment;
    transport->is_cut_off = 0;
    transport->has_destination = has_destination;
    transport->is_length_missing = 0;
    transport->is_later_fragment = is_later_fragment;
    transport->hop_limit = bytes[7];
    transport->fragment_offset = fragment_offset;
    transport->identification = identification;
    transport->dont_fragment = 0;
    transport->traffic_class = (bytes[0] & 0xfu) << 4 | bytes[1] >> 4;
    memcpy(transport->source, bytes + 8, 16);
    memcpy(transport->destination, bytes + 24, 16);
    return ETHERPARSE_OK;
}

etherparse_status plain_transport_in_ip(const uint8_t *bytes, size_t len, etherparse_ip_transport *transport, etherparse_error *error)
{
    size_t header_len, total_len;
    if (len == 0)
        return refuse(error, 1, len);
    if (bytes[0] >> 4 == 6)
        return ipv6(bytes, len, transport, error);
    if (bytes[0] >> 4 != 4 || len < 20)
        return refuse(error, 20, len);
    header_len = (bytes[0] & 0xfu) * 4u;
    total_len = big_endian_16(bytes + 2);
    if (header_len < 20 || len < header_len || total_len < header_len || len < total_len)
        return refuse(error, header_len, len);
    transport->version = 4;
    transport->protocol = bytes[9];
    transport->payload_offset = header_len;
    transport->payload_len = total_len - header_len;
    transport->is_fragment = (big_endian_16(bytes + 6) & 0x3fff) != 0;
    transport->is_cut_off = 0;
    transport->has_destination = 1;
    transport->is_length_missing = 0;
    transport->is_later_fragment = (big_endian_16(bytes + 6) & 0x1fff) != 0;
    transport->hop_limit = bytes[8];
    transport->fragment_offset = (big_endian_16(bytes + 6) & 0x1fffu) * 8;
    transport->identification = big_endian_16(bytes + 4);
    transport->dont_fragment = (bytes[6] & 0x40) != 0;
    transport->traffic_class = bytes[1];
    memset(transport->source, 0, 16);
    memset(transport->destination, 0, 16);
    memcpy(transport->source, bytes + 12, 4);
    memcpy(transport->destination, bytes + 16, 4);
    return ETHERPARSE_OK;
}

etherparse_status plain_udp_packet_read(const uint8_t *bytes, size_t len, etherparse_udp_packet *packet, etherparse_error *error)
{
    size_t length;
    if (len < 8)
        return refuse(error, 8, len);
    length = big_endian_16(bytes + 4);
    if (len < length)
        return refuse(error, length, len);
    if (length != 0 && length < 8)
        return refuse(error, 8, length);
    packet->header.source_port = big_endian_16(bytes);
    packet->header.destination_port = big_endian_16(bytes + 2);
    packet->header.length = (uint16_t)length;
    packet->header.checksum = big_endian_16(bytes + 6);
    packet->payload_offset = 8;
    packet->payload_len = (length == 0 ? len : length) - 8;
    packet->payload_len_source = length == 0 ? ETHERPARSE_LEN_SOURCE_SLICE : ETHERPARSE_LEN_SOURCE_UDP_HEADER_LEN;
    return ETHERPARSE_OK;
}

etherparse_status plain_udp_header_write(const etherparse_udp_header *header, uint8_t *buffer, size_t buffer_len, size_t *written,
                                         etherparse_error *error)
{
    if (buffer_len < 8)
        return refuse(error, 8, buffer_len);
    buffer[0] = (uint8_t)(header->source_port >> 8);
    buffer[1] = (uint8_t)header->source_port;
    buffer[2] = (uint8_t)(header->destination_port >> 8);
    buffer[3] = (uint8_t)header->destination_port;
    buffer[4] = (uint8_t)(header->length >> 8);
    buffer[5] = (uint8_t)header->length;
    buffer[6] = (uint8_t)(header->checksum >> 8);
    buffer[7] = (uint8_t)header->checksum;
    *written = 8;
    return ETHERPARSE_OK;
}

etherparse_status plain_tcp_packet_read(const uint8_t *bytes, size_t len, etherparse_tcp_packet *packet, etherparse_error *error)
{
    size_t header_len;
    if (len < 20)
        return refuse(error, 20, len);
    header_len = (bytes[12] >> 4) * 4u;
    if (header_len < 20 || len < header_len)
        return refuse(error, header_len, len);
    packet->header.source_port = big_endian_16(bytes);
    packet->header.destination_port = big_endian_16(bytes + 2);
    packet->header.sequence_number = big_endian_32(bytes + 4);
    packet->header.acknowledgment_number = big_endian_32(bytes + 8);
    packet->header.flags = big_endian_16(bytes + 12) & ETHERPARSE_TCP_FLAGS;
    packet->header.window_size = big_endian_16(bytes + 14);
    packet->header.checksum = big_endian_16(bytes + 16);
    packet->header.urgent_pointer = big_endian_16(bytes + 18);
    packet->options_offset = 20;
    packet->options_len = header_len - 20;
    packet->payload_offset = header_len;
    packet->payload_len = len - header_len;
    return ETHERPARSE_OK;
}

/* The length of an option of this kind, or 0 of one that is not known; of a selective acknowledgement the shortest one. */
static size_t option_len(uint8_t kind)
{
    switch (kind) {
    case ETHERPARSE_TCP_OPTION_NOOP: return 1;
    case ETHERPARSE_TCP_OPTION_MAXIMUM_SEGMENT_SIZE: return 4;
    case ETHERPARSE_TCP_OPTION_WINDOW_SCALE: return 3;
    case ETHERPARSE_TCP_OPTION_SACK_PERMITTED: return 2;
    case ETHERPARSE_TCP_OPTION_SACK: return 10;
    case ETHERPARSE_TCP_OPTION_TIMESTAMP: return 10;
    default: return 0;
    }
}

etherparse_status plain_tcp_option_next(const uint8_t *options, size_t options_len, size_t *place, etherparse_tcp_option *option,
                                        etherparse_error *error)
{
    const uint8_t *bytes = options + *place;
    size_t left, len, i;
    if (*place >= options_len || bytes[0] == 0) {
        *place = options_len;
        return ETHERPARSE_STATUS_OPTIONS_END;
    }
    left = options_len - *place;
    len = option_len(bytes[0]);
    if (bytes[0] == ETHERPARSE_TCP_OPTION_SACK && left >= 2 && (bytes[1] == 18 || bytes[1] == 26 || bytes[1] == 34))
        len = bytes[1];
    if (len == 0 || left < len || (len > 1 && bytes[1] != len)) {
        *place = options_len;
        return refuse(error, len, left);
    }
    option->kind = bytes[0];
    option->value_count = 0;
    memset(option->values, 0, sizeof option->values);
    if (len == 4)
        option->values[option->value_count++] = big_endian_16(bytes + 2);
    else if (len == 3)
        option->values[option->value_count++] = bytes[2];
    else
        for (i = 2; i + 4 <= len; i += 4)
            option->values[option->value_count++] = big_endian_32(bytes + i);
    *place += len;
    return ETHERPARSE_OK;
}

etherparse_status plain_tcp_raw_option_next(const uint8_t *options, size_t options_len, size_t *place, etherparse_tcp_raw_option *option,
                                            etherparse_error *error)
{
    const uint8_t *bytes = options + *place;
    size_t left;
    if (*place >= options_len || bytes[0] == 0) {
        *place = options_len;
        return ETHERPARSE_STATUS_OPTIONS_END;
    }
    left = options_len - *place;
    if (bytes[0] == 1) {
        option->kind = 1;
        option->value_len = 0;
        option->value_offset = *place += 1;
        return ETHERPARSE_OK;
    }
    if (left < 2 || bytes[1] < 2 || left < bytes[1]) {
        *place = options_len;
        return refuse(error, 2, left);
    }
    option->kind = bytes[0];
    option->value_offset = *place + 2;
    option->value_len = bytes[1] - 2u;
    *place += bytes[1];
    return ETHERPARSE_OK;
}

etherparse_status plain_icmpv4_packet_read(const uint8_t *bytes, size_t len, etherparse_icmpv4_packet *packet, etherparse_error *error)
{
    etherparse_icmpv4_header *header = &packet->header;
    size_t header_len = 8;
    if (len < 8)
        return refuse(error, 8, len);
    if ((bytes[0] == 13 || bytes[0] == 14) && bytes[1] == 0) {
        if (len != 20)
            return refuse(error, 20, len);
        header_len = 20;
    }
    memset(header, 0, sizeof *header);
    header->type = bytes[0];
    header->code = bytes[1];
    header->checksum = big_endian_16(bytes + 2);
    memcpy(header->bytes4to7, bytes + 4, 4);
    switch (bytes[0]) {
    case 0:
    case 8:
        if (bytes[1] != 0)
            break;
        header->kind = bytes[0] == 0 ? ETHERPARSE_ICMPV4_KIND_ECHO_REPLY : ETHERPARSE_ICMPV4_KIND_ECHO_REQUEST;
        header->id = big_endian_16(bytes + 4);
        header->sequence_number = big_endian_16(bytes + 6);
        break;
    case 3:
        if (bytes[1] > 15)
            break;
        header->kind = ETHERPARSE_ICMPV4_KIND_DESTINATION_UNREACHABLE;
        if (bytes[1] == 4)
            header->next_hop_mtu = big_endian_16(bytes + 6);
        break;
    case 5:
        if (bytes[1] <= 3)
            header->kind = ETHERPARSE_ICMPV4_KIND_REDIRECT;
        break;
    case 11:
        if (bytes[1] <= 1)
            header->kind = ETHERPARSE_ICMPV4_KIND_TIME_EXCEEDED;
        break;
    case 12:
        if (bytes[1] > 2)
            break;
        header->kind = ETHERPARSE_ICMPV4_KIND_PARAMETER_PROBLEM;
        if (bytes[1] == 0)
            header->pointer = bytes[4];
        break;
    case 13:
    case 14:
        if (bytes[1] != 0)
            break;
        header->kind = bytes[0] == 13 ? ETHERPARSE_ICMPV4_KIND_TIMESTAMP_REQUEST : ETHERPARSE_ICMPV4_KIND_TIMESTAMP_REPLY;
        header->id = big_endian_16(bytes + 4);
        header->sequence_number = big_endian_16(bytes + 6);
        header->originate_timestamp = big_endian_32(bytes + 8);
        header->receive_timestamp = big_endian_32(bytes + 12);
        header->transmit_timestamp = big_endian_32(bytes + 16);
        break;
    default:
        break;
    }
    packet->payload_offset = header_len;
    packet->payload_len = len - header_len;
    return ETHERPARSE_OK;
}

/* Sets the kind of a message with its fields in a header in which none of these is set. */
static void set_icmpv6_message(const uint8_t *bytes, etherparse_icmpv6_header *header)
{
    static const uint32_t kinds[] = {
        ETHERPARSE_ICMPV6_KIND_ROUTER_SOLICITATION, ETHERPARSE_ICMPV6_KIND_ROUTER_ADVERTISEMENT,
        ETHERPARSE_ICMPV6_KIND_NEIGHBOR_SOLICITATION, ETHERPARSE_ICMPV6_KIND_NEIGHBOR_ADVERTISEMENT, ETHERPARSE_ICMPV6_KIND_REDIRECT};
    switch (bytes[0]) {
    case 1:
        if (bytes[1] <= 6)
            header->kind = ETHERPARSE_ICMPV6_KIND_DESTINATION_UNREACHABLE;
        break;
    case 2:
        if (bytes[1] != 0)
            break;
        header->kind = ETHERPARSE_ICMPV6_KIND_PACKET_TOO_BIG;
        header->mtu = big_endian_32(bytes + 4);
        break;
    case 3:
        if (bytes[1] <= 1)
            header->kind = ETHERPARSE_ICMPV6_KIND_TIME_EXCEEDED;
        break;
    case 4:
        if (bytes[1] > 10)
            break;
        header->kind = ETHERPARSE_ICMPV6_KIND_PARAMETER_PROBLEM;
        header->pointer = big_endian_32(bytes + 4);
        break;
    case 128:
    case 129:
        if (bytes[1] != 0)
            break;
        header->kind = bytes[0] == 128 ? ETHERPARSE_ICMPV6_KIND_ECHO_REQUEST : ETHERPARSE_ICMPV6_KIND_ECHO_REPLY;
        header->id = big_endian_16(bytes + 4);
        header->sequence_number = big_endian_16(bytes + 6);
        break;
    case 133:
    case 134:
    case 135:
    case 136:
    case 137:
        if (bytes[1] != 0)
            break;
        header->kind = kinds[bytes[0] - 133];
        if (bytes[0] == 134) {
            header->cur_hop_limit = bytes[4];
            header->flags = bytes[5] & (ETHERPARSE_ICMPV6_ROUTER_MANAGED | ETHERPARSE_ICMPV6_ROUTER_OTHER_CONFIG);
            header->router_lifetime = big_endian_16(bytes + 6);
        } else if (bytes[0] == 136) {
            header->flags = bytes[4] & (ETHERPARSE_ICMPV6_NEIGHBOR_ROUTER | ETHERPARSE_ICMPV6_NEIGHBOR_SOLICITED
                                        | ETHERPARSE_ICMPV6_NEIGHBOR_OVERRIDE);
        }
        break;
    default:
        break;
    }
}

etherparse_status plain_icmpv6_packet_read(const uint8_t *bytes, size_t len, etherparse_icmpv6_packet *packet, etherparse_error *error)
{
    etherparse_icmpv6_header *header = &packet->header;
    if (len < 8 || len > UINT32_MAX)
        return refuse(error, 8, len);
    memset(header, 0, sizeof *header);
    header->type = bytes[0];
    header->code = bytes[1];
    header->checksum = big_endian_16(bytes + 2);
    memcpy(header->bytes4to7, bytes + 4, 4);
    set_icmpv6_message(bytes, header);
    packet->payload_offset = 8;
    packet->payload_len = len - 8;
    return ETHERPARSE_OK;
}

/* The sum of eight bytes at a time, as RFC 1071, section 2 (C) allows. */
static uint64_t add(uint64_t sum, const uint8_t *bytes, size_t len)
{
    uint64_t number;
    for (; len >= 8; bytes += 8, len -= 8) {
        memcpy(&number, bytes, 8);
        sum += number;
        sum += sum < number;
    }
    if (len > 0) {
        number = 0;
        memcpy(&number, bytes, len);
        sum += number;
        sum += sum < number;
    }
    return sum;
}

etherparse_status plain_udp_checksum_test_ipv4(const uint8_t *bytes, size_t len, const uint8_t source[4], const uint8_t destination[4],
                                               etherparse_error *error)
{
    etherparse_udp_packet packet;
    uint8_t pseudo_header[12] = {0};
    uint64_t sum;
    size_t packet_len;
    etherparse_status status = plain_udp_packet_read(bytes, len, &packet, error);
    if (status != ETHERPARSE_OK)
        return status;
    packet_len = packet.payload_len + 8;
    if (packet_len > 65535)
        return refuse(error, 65535, packet_len);
    if (packet.header.checksum == 0)
        return ETHERPARSE_STATUS_CHECKSUM_ABSENT;
    memcpy(pseudo_header, source, 4);
    memcpy(pseudo_header + 4, destination, 4);
    pseudo_header[9] = ETHERPARSE_PROTOCOL_UDP;
    pseudo_header[10] = (uint8_t)(packet_len >> 8);
    pseudo_header[11] = (uint8_t)packet_len;
    sum = add(add(0, pseudo_header, 12), bytes, packet_len);
    sum = (sum >> 32) + (sum & 0xffffffff);
    sum = (sum >> 16) + (sum & 0xffff);
    sum = (sum >> 16) + (sum & 0xffff);
    sum = (sum >> 16) + (sum & 0xffff);
    return sum == 0xffff ? ETHERPARSE_OK : ETHERPARSE_STATUS_CHECKSUM_WRONG;
}

static void put_16(uint8_t *bytes, uint16_t number)
{
    bytes[0] = (uint8_t)(number >> 8);
    bytes[1] = (uint8_t)number;
}

static uint16_t folded(uint64_t sum)
{
    sum = (sum >> 32) + (sum & 0xffffffff);
    sum = (sum >> 16) + (sum & 0xffff);
    sum = (sum >> 16) + (sum & 0xffff);
    sum = (sum >> 16) + (sum & 0xffff);
    return (uint16_t)sum;
}

/* Replaces four bytes, or two, and returns what RFC 1624, equation 3, adds for them. */
static uint64_t replace_4(uint8_t *bytes, const uint8_t *new_bytes)
{
    uint32_t old = big_endian_32(bytes), now = big_endian_32(new_bytes);
    memcpy(bytes, new_bytes, 4);
    return (uint64_t)(uint32_t)~old + now;
}

static uint64_t replace_2(uint8_t *bytes, uint16_t now)
{
    uint16_t old = big_endian_16(bytes);
    put_16(bytes, now);
    return (uint64_t)(uint16_t)~old + now;
}

static uint16_t updated(const uint8_t *checksum, uint64_t change)
{
    return (uint16_t)~folded(change + (uint16_t)~big_endian_16(checksum));
}

/* Of a packet with a header of 20 bytes that is there as a whole: where its message ends. 0 of any other packet. */
static size_t ipv4_end(const uint8_t *packet, size_t packet_len)
{
    size_t total_len;
    if (packet_len < 20 || packet[0] != 0x45)
        return 0;
    total_len = big_endian_16(packet + 2);
    return total_len < 20 || packet_len < total_len ? 0 : total_len;
}

/* ICMP errors are refused, which the library translates. */
etherparse_status plain_translate_ipv4(uint8_t *packet, size_t packet_len, const etherparse_ipv4_translation *translation,
                                       etherparse_error *error)
{
    uint8_t *message = packet + 20;
    size_t end = ipv4_end(packet, packet_len), required_len, checksum_place = 6;
    uint64_t addresses = 0, change;
    uint16_t checksum;
    int is_first;
    if (end == 0)
        return refuse(error, 20, packet_len);
    is_first = (big_endian_16(packet + 6) & 0x1fff) == 0;
    required_len = packet[9] == ETHERPARSE_PROTOCOL_TCP ? 20 : 8;
    if (is_first && end - 20 < required_len)
        return refuse(error, required_len, end - 20);
    switch (packet[9]) {
    case ETHERPARSE_PROTOCOL_UDP: break;
    case ETHERPARSE_PROTOCOL_TCP: checksum_place = 16; break;
    case ETHERPARSE_PROTOCOL_ICMPV4:
        checksum_place = 2;
        if (is_first && ((message[0] != 0 && message[0] != 8) || message[1] != 0))
            return refuse(error, 0, 0);
        break;
    default: return refuse(error, 0, packet[9]);
    }
    if (translation->has_source)
        addresses += replace_4(packet + 12, translation->source);
    if (translation->has_destination)
        addresses += replace_4(packet + 16, translation->destination);
    put_16(packet + 10, updated(packet + 10, addresses));
    if (!is_first)
        return ETHERPARSE_OK;
    change = addresses;
    if (checksum_place == 2) {
        change = 0;
        if (message[0] == 8 && translation->has_source_port)
            change = replace_2(message + 4, translation->source_port);
        if (message[0] == 0 && translation->has_destination_port)
            change = replace_2(message + 4, translation->destination_port);
    } else {
        if (translation->has_source_port)
            change += replace_2(message, translation->source_port);
        if (translation->has_destination_port)
            change += replace_2(message + 2, translation->destination_port);
    }
    if (checksum_place == 6 && big_endian_16(message + 6) == 0)
        return ETHERPARSE_OK;
    checksum = updated(message + checksum_place, change);
    if (checksum == 0 && (checksum_place == 6 || (checksum_place == 2 && message[0] == 0)))
        checksum = 0xffff;
    put_16(message + checksum_place, checksum);
    return ETHERPARSE_OK;
}

/* Whether this is the address of one host. */
static int is_host(const uint8_t address[4])
{
    uint32_t number = big_endian_32(address);
    return number != 0 && number != 0xffffffff && number >> 28 != 0xe;
}

etherparse_status plain_echo_answer_ipv4(uint8_t *packet, size_t packet_len, const uint8_t source[4], uint8_t time_to_live,
                                         size_t *reply_len, etherparse_error *error)
{
    uint8_t *message = packet + 20, host[4];
    size_t end = ipv4_end(packet, packet_len);
    uint64_t change;
    uint16_t checksum;
    if (end < 28)
        return refuse(error, 28, packet_len);
    if (packet[9] != ETHERPARSE_PROTOCOL_ICMPV4 || (big_endian_16(packet + 6) & 0x3fff) != 0 || message[0] != 8 || message[1] != 0)
        return refuse(error, 0, packet[9]);
    if (folded(add(0, message, end - 20)) != 0xffff || folded(add(0, packet, 20)) != 0xffff)
        return refuse(error, 0, 0);
    if (!is_host(packet + 12) || !is_host(source))
        return refuse(error, 0, 4);
    memcpy(host, packet + 12, 4);
    change = replace_4(packet + 12, source);
    change += replace_4(packet + 16, host);
    change += replace_2(packet + 6, 0x4000);
    change += replace_2(packet + 8, (uint16_t)(time_to_live << 8 | ETHERPARSE_PROTOCOL_ICMPV4));
    put_16(packet + 10, updated(packet + 10, change));
    checksum = updated(message + 2, replace_2(message, 0));
    put_16(message + 2, checksum == 0 ? 0xffff : checksum);
    *reply_len = end;
    return ETHERPARSE_OK;
}

/* Whether this is a prefix of 96 bits with an octet 64 to 71 of 0. The library also takes the other lengths of RFC 6052. */
static int is_prefix_of_96_bits(const etherparse_prefix64 *prefix)
{
    return prefix->len == 96 && prefix->address[8] == 0 && big_endian_32(prefix->address + 12) == 0;
}

/* Where the checksum of a message of UDP or TCP is. 0 if it is shorter than its header, or of another protocol. */
static size_t checksum_place_of(uint8_t protocol, size_t message_len)
{
    if (protocol == ETHERPARSE_PROTOCOL_UDP && message_len >= 8)
        return 6;
    return protocol == ETHERPARSE_PROTOCOL_TCP && message_len >= 20 ? 16 : 0;
}

/* The sum of words of two bytes, from a sum in the byte order of this machine. */
static uint16_t sum_of_words(uint64_t sum)
{
    uint16_t number = folded(sum);
    uint8_t bytes[2];
    memcpy(bytes, &number, 2);
    return big_endian_16(bytes);
}

/* Updates the checksum of a message after the words of its addresses have other sums. */
static void update_addresses(uint8_t *message, size_t checksum_place, uint64_t old_sum, uint64_t new_sum)
{
    uint16_t checksum = updated(message + checksum_place, (uint64_t)(uint16_t)~sum_of_words(old_sum) + sum_of_words(new_sum));
    put_16(message + checksum_place, checksum == 0 && checksum_place == 6 ? 0xffff : checksum);
}

/* Messages of other protocols than UDP and TCP, fragments, options and UDP without a checksum are refused, which the library translates. */
etherparse_status plain_ipv4_to_ipv6(const uint8_t *packet, size_t packet_len, const etherparse_prefix64 *source,
                                     const etherparse_prefix64 *destination, uint8_t *buffer, size_t buffer_len, size_t *written,
                                     etherparse_error *error)
{
    size_t end = ipv4_end(packet, packet_len), place;
    if (!is_prefix_of_96_bits(source) || !is_prefix_of_96_bits(destination) || end == 0 || folded(add(0, packet, 20)) != 0xffff)
        return refuse(error, 20, packet_len);
    if (packet[8] < 2 || (big_endian_16(packet + 6) & 0xbfff) != 0 || !is_host(packet + 12) || !is_host(packet + 16))
        return refuse(error, 2, packet[8]);
    place = checksum_place_of(packet[9], end - 20);
    if (place == 0 || buffer_len < end + 20 || (place == 6 && big_endian_16(packet + 26) == 0))
        return refuse(error, end + 20, buffer_len);
    put_16(buffer, (uint16_t)(0x6000 | packet[1] << 4));
    put_16(buffer + 2, 0);
    put_16(buffer + 4, (uint16_t)(end - 20));
    buffer[6] = packet[9];
    buffer[7] = (uint8_t)(packet[8] - 1);
    memcpy(buffer + 8, source->address, 12);
    memcpy(buffer + 20, packet + 12, 4);
    memcpy(buffer + 24, destination->address, 12);
    memcpy(buffer + 36, packet + 16, 4);
    memcpy(buffer + 40, packet + 20, end - 20);
    update_addresses(buffer + 40, place, add(0, packet + 12, 8), add(0, buffer + 8, 32));
    *written = end + 20;
    return ETHERPARSE_OK;
}

/* Extension headers and messages of other protocols than UDP and TCP are refused, which the library translates. */
etherparse_status plain_ipv6_to_ipv4(const uint8_t *packet, size_t packet_len, const etherparse_prefix64 *source,
                                     const etherparse_prefix64 *destination, uint16_t identification, uint8_t *buffer,
                                     size_t buffer_len, size_t *written, etherparse_error *error)
{
    size_t len, place;
    if (packet_len < 40 || packet[0] >> 4 != 6 || !is_prefix_of_96_bits(source) || !is_prefix_of_96_bits(destination))
        return refuse(error, 40, packet_len);
    len = big_endian_16(packet + 4);
    if (packet_len - 40 < len || len > 65515 || packet[7] < 2 || !is_host(packet + 20) || !is_host(packet + 36)
        || memcmp(packet + 8, source->address, 12) != 0 || memcmp(packet + 24, destination->address, 12) != 0)
        return refuse(error, len, packet_len - 40);
    place = checksum_place_of(packet[6], len);
    if (place == 0 || buffer_len < len + 20 || (place == 6 && big_endian_16(packet + 46) == 0))
        return refuse(error, len + 20, buffer_len);
    buffer[0] = 0x45;
    buffer[1] = (uint8_t)(big_endian_16(packet) >> 4);
    put_16(buffer + 2, (uint16_t)(len + 20));
    put_16(buffer + 4, identification);
    put_16(buffer + 6, len + 20 > 1260 ? 0x4000 : 0);
    buffer[8] = (uint8_t)(packet[7] - 1);
    buffer[9] = packet[6];
    put_16(buffer + 10, 0);
    memcpy(buffer + 12, packet + 20, 4);
    memcpy(buffer + 16, packet + 36, 4);
    put_16(buffer + 10, (uint16_t)~sum_of_words(add(0, buffer, 20)));
    memcpy(buffer + 20, packet + 40, len);
    update_addresses(buffer + 20, place, add(0, packet + 8, 32), add(0, buffer + 12, 8));
    *written = len + 20;
    return ETHERPARSE_OK;
}

/* The blocks of IPv4 addresses that are not global (RFC 5735, section 4, and RFC 6598). */
static const struct {
    uint32_t block;
    unsigned len;
} special[] = {
    {0x00000000, 8},  {0x0a000000, 8},  {0x64400000, 10}, {0x7f000000, 8},  {0xa9fe0000, 16},
    {0xac100000, 12}, {0xc0000000, 24}, {0xc0000200, 24}, {0xc0586300, 24}, {0xc0a80000, 16},
    {0xc6120000, 15}, {0xc6336400, 24}, {0xcb007100, 24}, {0xe0000000, 4},  {0xf0000000, 4},
};

/* Whether this is the address of a host (RFC 1812, section 5.3.7), which the well-known prefix embeds only if it is global (RFC 6052,
 * section 3.1). */
static int is_translated(const uint8_t address[4], const etherparse_prefix64 *prefix)
{
    static const uint8_t well_known[12] = {0, 0x64, 0xff, 0x9b};
    uint32_t number = big_endian_32(address);
    size_t i;
    if (address[0] == 0 || address[0] == 127 || address[0] > 223)
        return 0;
    if (memcmp(prefix->address, well_known, sizeof well_known) == 0)
        for (i = 0; i < sizeof special / sizeof special[0]; i++)
            if ((number ^ special[i].block) >> (32 - special[i].len) == 0)
                return 0;
    return 1;
}

/* The same translation, which also refuses the addresses that the library refuses. */
etherparse_status plain_checked_ipv4_to_ipv6(const uint8_t *packet, size_t packet_len, const etherparse_prefix64 *source,
                                             const etherparse_prefix64 *destination, uint8_t *buffer, size_t buffer_len, size_t *written,
                                             etherparse_error *error)
{
    if (packet_len < 20 || !is_translated(packet + 12, source) || !is_translated(packet + 16, destination))
        return refuse(error, 20, packet_len);
    return plain_ipv4_to_ipv6(packet, packet_len, source, destination, buffer, buffer_len, written, error);
}

etherparse_status plain_checked_ipv6_to_ipv4(const uint8_t *packet, size_t packet_len, const etherparse_prefix64 *source,
                                             const etherparse_prefix64 *destination, uint16_t identification, uint8_t *buffer,
                                             size_t buffer_len, size_t *written, etherparse_error *error)
{
    if (packet_len < 40 || !is_translated(packet + 20, source) || !is_translated(packet + 36, destination))
        return refuse(error, 40, packet_len);
    return plain_ipv6_to_ipv4(packet, packet_len, source, destination, identification, buffer, buffer_len, written, error);
}

/* The place of a fragment in the payload of its packet. */
struct part {
    size_t offset, end;
};

/* Adds the fragment in a packet to the packet in `buffer`, and returns its place. Its end is 0 if the fragment is refused. `key` is a
 * fragment of the same packet. No part ends after the place `reach`. */
static struct part add_fragment(const uint8_t *packet, size_t packet_len, const uint8_t *key, const struct part *parts, size_t count,
                                size_t reach, uint8_t *buffer, size_t buffer_len)
{
    static const struct part refused = {0, 0};
    struct part added;
    size_t len = ipv4_end(packet, packet_len), i;
    if (len <= 20 || (big_endian_16(packet + 6) & 0x3fff) == 0 || memcmp(packet + 12, key + 12, 8) != 0 || packet[9] != key[9]
        || memcmp(packet + 4, key + 4, 2) != 0)
        return refused;
    added.offset = (big_endian_16(packet + 6) & 0x1fffu) * 8u;
    added.end = added.offset + len - 20;
    if (added.end > 65535 || added.end > buffer_len - 20 || ((packet[6] & 0x20) != 0 && (len - 20) % 8 != 0))
        return refused;
    for (i = 0; added.offset < reach && i < count; i++)
        if (added.offset < parts[i].end && parts[i].offset < added.end)
            return refused;
    memcpy(buffer + 20 + added.offset, packet + 20, len - 20);
    return added;
}

/* Writes the header of a whole packet. `first` is its first fragment. */
static void write_whole_header(uint8_t *buffer, const uint8_t *first, size_t len)
{
    memcpy(buffer, first, 20);
    put_16(buffer + 2, (uint16_t)len);
    put_16(buffer + 6, (uint16_t)((first[6] & 0xc0) << 8));
    put_16(buffer + 10, 0);
    put_16(buffer + 10, (uint16_t)~sum_of_words(add(0, buffer, 20)));
}

/* Copies each payload once, to its place in `buffer`, and needs no `room`. Fragments over IPv6, with options, or that repeat another
 * fragment are refused, which the library puts together. */
etherparse_status plain_reassembly_packet(const uint8_t *packets, size_t packets_len, const size_t *lens, size_t lens_len, uint8_t *room,
                                          size_t room_len, uint8_t *buffer, size_t buffer_len, size_t *written, etherparse_error *error)
{
    struct part parts[128];
    const uint8_t *packet = packets, *first = NULL;
    size_t i, received = 0, reach = 0, end = 0;
    (void)room;
    if (lens_len == 0 || lens_len > 128 || packets_len < 20 || buffer_len < 20)
        return refuse(error, 20, packets_len);
    for (i = 0; i < lens_len; packet += lens[i++]) {
        if ((size_t)(packets + packets_len - packet) < lens[i])
            return refuse(error, lens[i], room_len);
        parts[i] = add_fragment(packet, lens[i], packets, parts, i, reach, buffer, buffer_len);
        if (parts[i].end == 0)
            return refuse(error, 20, lens[i]);
        if ((packet[6] & 0x20) == 0 ? end != 0 || parts[i].end < reach : end != 0 && end <= parts[i].end)
            return refuse(error, end, parts[i].end);
        if ((packet[6] & 0x20) == 0)
            end = parts[i].end;
        if (parts[i].offset == 0)
            first = packet;
        if (reach < parts[i].end)
            reach = parts[i].end;
        received += parts[i].end - parts[i].offset;
    }
    if (first == NULL || end == 0 || received != end || end > 65515)
        return refuse(error, end, received);
    write_whole_header(buffer, first, end + 20);
    *written = end + 20;
    return ETHERPARSE_OK;
}
