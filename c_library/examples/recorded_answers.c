/*
 * SPDX-FileCopyrightText: 2026 The etherparse_transport developers
 * SPDX-License-Identifier: MIT OR Apache-2.0
 *
 * Compares the library with recorded answers of the crate `etherparse`.
 *
 *     recorded_answers INPUT ANSWERS
 *
 * A line of INPUT is a protocol and the bytes of a packet in hex, or the word `elements` and TCP options. The same line of ANSWERS contains
 * what the calls of the crate returned, as `key=value`. This program makes the calls of the library that return the same, and compares each
 * value. It prints how many values it compared. The status is 0 if all are equal.
 */
#include <etherparse_transport.h>
#include <stdio.h>
#include <stdlib.h>
#include <string.h>

enum { MAX_LINE = 1 << 16, MAX_TEXT = 2 * MAX_LINE };

static const uint8_t source4[4] = {192, 0, 2, 129}, destination4[4] = {203, 0, 113, 254};
static const uint8_t source6[16] = {0x20, 0x01, 0x0d, 0xb8, 0, 1, 2, 3, 4, 5, 6, 7, 8, 9, 10, 11};
static const uint8_t destination6[16] = {0xfe, 0x80, 0xff, 0xee, 0xdd, 0xcc, 0xbb, 0xaa,
                                         0x99, 0x88, 0x77, 0x66, 0x55, 0x44, 0x33, 0x22};

static char input[MAX_LINE], answers[MAX_LINE], text[MAX_TEXT];
static uint8_t bytes[MAX_LINE], changed[MAX_LINE];
static etherparse_error error;
static unsigned long line, compared, wrong;

/* Compares the text with the value of a key, which must be there. */
static void compare(const char *key)
{
    char start[64];
    const char *found;
    size_t len = strlen(text);
    snprintf(start, sizeof start, " %s=", key);
    found = strstr(answers, start);
    compared++;
    if (found && strncmp(found + strlen(start), text, len) == 0 && strchr(" \n", found[strlen(start) + len]))
        return;
    wrong++;
    printf("line %lu: %s is %s\n", line, key, text);
}

static void compare_number(const char *key, unsigned long number)
{
    snprintf(text, sizeof text, "%lu", number);
    compare(key);
}

static void compare_bytes(const char *key, const uint8_t *from, size_t len)
{
    size_t i;
    strcpy(text, "-");
    for (i = 0; i < len; i++)
        sprintf(text + 2 * i, "%02x", from[i]);
    compare(key);
}

/* Compares a refusal, or `ok`. Returns whether the call did what it is for. */
static int compare_status(const char *key, etherparse_status status)
{
    static const char *const layers[] = {"",       "UdpHeader",       "UdpPayload",           "TcpHeader",
                                         "Icmpv4", "Icmpv4Timestamp", "Icmpv4TimestampReply", "Icmpv6"};
    if (status == ETHERPARSE_STATUS_LENGTH)
        snprintf(text, sizeof text, "len,%zu,%zu,%s,%s,%zu", error.required_len, error.len,
                 error.len_source == ETHERPARSE_LEN_SOURCE_SLICE ? "Slice" : "UdpHeaderLen", layers[error.layer], error.layer_start_offset);
    else if (status == ETHERPARSE_STATUS_DATA_OFFSET)
        snprintf(text, sizeof text, "offset,%u", error.data_offset);
    else
        strcpy(text, status == ETHERPARSE_OK ? "ok" : "another status");
    compare(key);
    return status == ETHERPARSE_OK;
}

/* A call that is not refused. */
static void must(etherparse_status status)
{
    if (status == ETHERPARSE_OK)
        return;
    wrong++;
    printf("line %lu: status %u\n", line, status);
}

static void compare_udp_packet(const char *read, etherparse_status status, const etherparse_udp_packet *packet)
{
    char key[64];
#define KEY(name) (snprintf(key, sizeof key, "%s.%s", read, name), key)
    if (!compare_status(read, status))
        return;
    compare_number(KEY("source_port"), packet->header.source_port);
    compare_number(KEY("destination_port"), packet->header.destination_port);
    compare_number(KEY("length"), packet->header.length);
    compare_number(KEY("checksum"), packet->header.checksum);
    compare_number(KEY("payload_len"), packet->payload_len);
    compare_bytes(KEY("payload"), bytes + packet->payload_offset, packet->payload_len);
    strcpy(text, packet->payload_len_source == ETHERPARSE_LEN_SOURCE_SLICE ? "Slice" : "UdpHeaderLen");
    compare(KEY("payload_len_source"));
}

static void udp(size_t len)
{
    etherparse_udp_packet packet;
    etherparse_status status = etherparse_udp_packet_read(bytes, len, &packet, &error);
    size_t written;
    compare_udp_packet("strict", status, &packet);
    status = etherparse_udp_packet_read_lax(bytes, len, &packet, &error);
    compare_udp_packet("lax", status, &packet);
    if (status != ETHERPARSE_OK)
        return;
    must(etherparse_udp_header_write(&packet.header, changed, sizeof changed, &written, &error));
    compare_bytes("bytes", changed, written);
    /* A header for the whole payload. */
    packet.header.length = (uint16_t)len;
    memcpy(changed, bytes, len);
    must(etherparse_udp_header_write(&packet.header, changed, len, &written, &error));
    must(etherparse_udp_checksum_store_ipv4(changed, len, source4, destination4, &error));
    compare_bytes("with4", changed, written);
    must(etherparse_udp_checksum_store_ipv6(changed, len, source6, destination6, &error));
    compare_bytes("with6", changed, written);
}

/* Writes an option at the end of the text. */
static void add_option(const etherparse_tcp_option *option)
{
    char *end = text + strlen(text);
    const uint32_t *values = option->values;
    uint32_t i;
    switch (option->kind) {
    case ETHERPARSE_TCP_OPTION_NOOP: strcpy(end, "N"); break;
    case ETHERPARSE_TCP_OPTION_MAXIMUM_SEGMENT_SIZE: sprintf(end, "M%u", values[0]); break;
    case ETHERPARSE_TCP_OPTION_WINDOW_SCALE: sprintf(end, "W%u", values[0]); break;
    case ETHERPARSE_TCP_OPTION_SACK_PERMITTED: strcpy(end, "P"); break;
    case ETHERPARSE_TCP_OPTION_TIMESTAMP: sprintf(end, "T%u,%u", values[0], values[1]); break;
    default:
        for (i = 0; i < 8; i += 2)
            if (i < option->value_count)
                end += sprintf(end, "%s%u,%u", i ? ";" : "S", values[i], values[i + 1]);
            else
                end += sprintf(end, ";-");
    }
}

/* Compares the options, each with the number of bytes after it, and what ends them. */
static void compare_options(const char *key, const uint8_t *options, size_t len)
{
    etherparse_tcp_option option;
    etherparse_status status;
    size_t place = 0;
    text[0] = 0;
    while ((status = etherparse_tcp_option_next(options, len, &place, &option, &error)) == ETHERPARSE_OK) {
        add_option(&option);
        sprintf(text + strlen(text), "@%zu|", len - place);
    }
    if (status == ETHERPARSE_STATUS_OPTION_UNKNOWN)
        sprintf(text + strlen(text), "unknown,%u@0|", error.option_kind);
    else if (status == ETHERPARSE_STATUS_OPTION_SIZE)
        sprintf(text + strlen(text), "size,%u,%u@0|", error.option_kind, error.option_size);
    else if (status == ETHERPARSE_STATUS_OPTION_CUT_OFF)
        sprintf(text + strlen(text), "eos,%u,%zu,%zu@0|", error.option_kind, error.required_len, error.len);
    strcat(text, "$0");
    compare(key);
}

static void compare_flags(unsigned flags)
{
    static const char *const names[] = {"fin", "syn", "rst", "psh", "ack", "urg", "ece", "cwr", "ns"};
    int i;
    for (i = 0; i < 9; i++)
        compare_number(names[i], flags >> i & 1);
}

static void tcp(size_t len)
{
    etherparse_tcp_packet packet;
    size_t written;
    uint16_t checksum;
    int is_read = compare_status("dec", etherparse_tcp_packet_read(bytes, len, &packet, &error));
    compare_options("items_all", bytes, len);
    if (!is_read)
        return;
    compare_number("source_port", packet.header.source_port);
    compare_number("destination_port", packet.header.destination_port);
    compare_number("sequence_number", packet.header.sequence_number);
    compare_number("acknowledgment_number", packet.header.acknowledgment_number);
    compare_number("window_size", packet.header.window_size);
    compare_number("checksum", packet.header.checksum);
    compare_number("urgent_pointer", packet.header.urgent_pointer);
    compare_flags(packet.header.flags);
    compare_number("header_len", packet.payload_offset);
    compare_bytes("options", bytes + packet.options_offset, packet.options_len);
    compare_bytes("rest", bytes + packet.payload_offset, packet.payload_len);
    compare_options("items", bytes + packet.options_offset, packet.options_len);
    must(etherparse_tcp_header_write(&packet.header, bytes + packet.options_offset, packet.options_len, changed, sizeof changed, &written,
                                     &error));
    compare_bytes("bytes", changed, written);
    must(etherparse_tcp_checksum_ipv4(bytes, len, source4, destination4, &checksum, &error));
    compare_number("slice.calc4", checksum);
    must(etherparse_tcp_checksum_ipv6(bytes, len, source6, destination6, &checksum, &error));
    compare_number("slice.calc6", checksum);
}

static void icmpv4(size_t len)
{
    etherparse_icmpv4_packet packet;
    size_t written;
    uint16_t checksum;
    if (!compare_status("dec", etherparse_icmpv4_packet_read(bytes, len, &packet, &error)))
        return;
    compare_number("slice.type_u8", packet.header.type);
    compare_number("slice.code_u8", packet.header.code);
    compare_number("checksum", packet.header.checksum);
    compare_bytes("slice.bytes5to8", packet.header.bytes4to7, sizeof packet.header.bytes4to7);
    compare_number("header_len", packet.payload_offset);
    compare_bytes("rest", bytes + packet.payload_offset, packet.payload_len);
    memcpy(changed, bytes, len);
    must(etherparse_icmpv4_header_write(&packet.header, changed, len, &written, &error));
    compare_bytes("bytes", changed, written);
    must(etherparse_icmpv4_checksum(changed, len, &checksum, &error));
    compare_number("calc", checksum);
    must(etherparse_icmpv4_checksum_store(changed, len, &error));
    compare_bytes("update", changed, written);
}

static void icmpv6(size_t len)
{
    etherparse_icmpv6_packet packet;
    size_t written;
    uint16_t checksum;
    if (!compare_status("dec", etherparse_icmpv6_packet_read(bytes, len, &packet, &error)))
        return;
    compare_number("slice.type_u8", packet.header.type);
    compare_number("slice.code_u8", packet.header.code);
    compare_number("checksum", packet.header.checksum);
    compare_bytes("slice.bytes5to8", packet.header.bytes4to7, sizeof packet.header.bytes4to7);
    compare_bytes("rest", bytes + packet.payload_offset, packet.payload_len);
    compare_number("slice.valid", etherparse_icmpv6_checksum_test(bytes, len, source6, destination6, &error) == ETHERPARSE_OK);
    memcpy(changed, bytes, len);
    must(etherparse_icmpv6_header_write(&packet.header, changed, len, &written, &error));
    compare_bytes("bytes", changed, written);
    must(etherparse_icmpv6_checksum(changed, len, source6, destination6, &checksum, &error));
    compare_number("calc", checksum);
    must(etherparse_icmpv6_checksum_store(changed, len, source6, destination6, &error));
    compare_bytes("update", changed, written);
}

/* The option that a word is: `N`, `P`, `M1460`, `W7`, `T1,2`, or `S1,2;3,4;-;-`. */
static etherparse_tcp_option option_of(char *word)
{
    static const char letters[] = "NPMWTS";
    static const uint32_t kinds[] = {ETHERPARSE_TCP_OPTION_NOOP,         ETHERPARSE_TCP_OPTION_SACK_PERMITTED,
                                     ETHERPARSE_TCP_OPTION_MAXIMUM_SEGMENT_SIZE, ETHERPARSE_TCP_OPTION_WINDOW_SCALE,
                                     ETHERPARSE_TCP_OPTION_TIMESTAMP,    ETHERPARSE_TCP_OPTION_SACK};
    etherparse_tcp_option option = {0};
    option.kind = kinds[strchr(letters, *word) - letters];
    for (word++; *word; word += *word != 0)
        if (*word >= '0' && *word <= '9')
            option.values[option.value_count++] = (uint32_t)strtoul(word, &word, 10);
    return option;
}

static void elements(char *list)
{
    static const uint8_t old_options[4] = {3, 3, 7, 1};
    const etherparse_tcp_header header = {.source_port = 1, .destination_port = 2, .sequence_number = 3, .window_size = 4};
    etherparse_tcp_option options[64];
    size_t count = 0, written;
    etherparse_status status;
    char *word;
    for (word = strtok(list, " \n"); word; word = strtok(NULL, " \n"))
        options[count++] = option_of(word);
    status = etherparse_tcp_options_write(options, count, bytes, sizeof bytes, &written, &error);
    if (status == ETHERPARSE_STATUS_OPTIONS_TOO_LONG) {
        snprintf(text, sizeof text, "space,%zu", error.len);
        compare("res");
        memcpy(bytes, old_options, sizeof old_options);
        written = sizeof old_options;
    } else {
        compare_status("res", status);
        compare_bytes("options", bytes, written);
    }
    must(etherparse_tcp_header_write(&header, bytes, written, changed, sizeof changed, &written, &error));
    compare_bytes("header", changed, written);
}

/* Reads the hex digits into the bytes, and returns their number. */
static size_t read_bytes(const char *digits)
{
    size_t len = 0;
    unsigned byte;
    for (; sscanf(digits, "%2x", &byte) == 1; digits += 2)
        bytes[len++] = (uint8_t)byte;
    return len;
}

static void answer(void)
{
    char *rest = strchr(input, ' ') + 1;
    if (strncmp(input, "udp ", 4) == 0)
        udp(read_bytes(rest));
    else if (strncmp(input, "tcp ", 4) == 0)
        tcp(read_bytes(rest));
    else if (strncmp(input, "icmpv4 ", 7) == 0)
        icmpv4(read_bytes(rest));
    else if (strncmp(input, "icmpv6 ", 7) == 0)
        icmpv6(read_bytes(rest));
    else
        elements(rest);
}

int main(int count, char **arguments)
{
    FILE *inputs = count == 3 ? fopen(arguments[1], "r") : NULL;
    FILE *recorded = count == 3 ? fopen(arguments[2], "r") : NULL;
    if (!inputs || !recorded) {
        fprintf(stderr, "usage: recorded_answers INPUT ANSWERS\n");
        return 2;
    }
    while (fgets(input, sizeof input, inputs)) {
        /* A value follows a space. */
        answers[0] = ' ';
        if (!fgets(answers + 1, sizeof answers - 1, recorded)) {
            fprintf(stderr, "there are fewer answers than inputs\n");
            return 2;
        }
        line++;
        answer();
    }
    printf("%lu values compared for %lu inputs, %s\n", compared, line, wrong ? "some wrong" : "all right");
    return wrong != 0;
}
