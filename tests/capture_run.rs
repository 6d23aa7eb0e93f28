//! Tests of the crate `capture_run`.

mod named;

use crate::captures::{
    ALL, ENHANCED, ENHANCED_END, ENHANCED_OF_SECOND, FaultyReader, FaultyWriter, OTHER_BLOCK,
    OTHER_LINK, RAW_IP, SECTION, SIMPLE, SIMPLE_END, UDP, capture, changed_capture, first_bytes,
    long_capture, raw_capture, two_packets,
};
use crate::expect::{
    expect_all_written, expect_at, expect_equal, expect_ok, expect_written, joined, joined_texts,
};
use capture_run::{
    Choice, ExitStatus, Format, Lines, MAX_PACKET_LEN, Open, Outputs, Parts, STANDARD_INPUT,
    Sources, WriteError, run,
};
use capture_summary::{MAX_CHOSEN, PortRange};
use std::hash::RandomState;
use std::io;
use std::io::{ErrorKind, Write};
use std::num::NonZeroU128;
use std::process::Abort;
use std::random::RandomSource;

/// Only the lines of packets.
const ONLY_LINES: Parts = Parts {
    summary: false,
    ..ALL
};

/// The line of this packet alone.
const LINE: &str =
    "1 00:00:00.000000 length 29: 192.0.2.1:7 > 192.0.2.2:9 UDP length 9, payload 1; checksum right\n";

/// The end of this line, after the length of the frame.
const AFTER_LENGTH: &str = "192.0.2.1:7 > 192.0.2.2:9 UDP length 9, payload 1; checksum right\n";

/// The number of a link type, the bytes before an IPv4 packet, and the length of the frame.
type LinkRow = (u32, &'static [u8], &'static str);

#[rattlefmt::skip]
static LINKS: [LinkRow; 5] = [
    (1, &[2, 0, 0, 0, 0, 2, 2, 0, 0, 0, 0, 1, 0x08, 0x00], "43"),
    (1, &[2, 0, 0, 0, 0, 2, 2, 0, 0, 0, 0, 1, 0x81, 0x00, 0, 5, 0x08, 0x00], "47"),
    (101, &[], "29"),
    (113, &[0, 0, 0, 1, 0, 6, 2, 0, 0, 0, 0, 1, 0, 0, 0x08, 0x00], "45"),
    (276, &[0x08, 0x00, 0, 0, 0, 0, 0, 1, 0, 1, 0, 6, 2, 0, 0, 0, 0, 1, 0, 0], "49"),
];

/// Captures by their names.
#[derive(Drop)]
struct Captures<'a> {
    named: &'a [(&'a str, &'a [u8])],
}

impl<'a> Open for Captures<'a> {
    type Input = &'a [u8];

    ghost opens = { λ captures name input. Unit {0} };

    ghost misses = { λ captures name. Unit {0} };

    fn open(&self, name: &str) -> io::Result<&'a [u8]> {
        for (given, bytes) in self.named {
            if *given == name {
                return Ok(*bytes);
            }
        }
        Err(io::Error::from(ErrorKind::NotFound))
    }
}

/// Runs a report. The buffer is an array, since a checked build fills and drops a vector byte by byte, which takes long.
fn run_into<O: Open, W: Write, E: Write>(
    rt: &(impl Abort + RandomSource),
    parts: Parts,
    sources: &Sources<'_, O>,
    outputs: &mut Outputs<W, E>,
) -> Result<ExitStatus, WriteError> {
    let state = expect_ok(rt, RandomState::new(rt));
    let mut buffer = [0; MAX_PACKET_LEN];
    run(sources, parts, state, &mut buffer, outputs)
}

/// The exit status of a run. If nothing more could be reported, it is the exit status of the program in this case.
fn status_of(outcome: Result<ExitStatus, WriteError>) -> u8 {
    match outcome {
        Ok(status) => status.number(),
        Err(_) => ExitStatus::Failed.number(),
    }
}

/// What a run wrote, and its status.
#[derive(Drop)]
struct Ran {
    status: u8,
    output: Vec<u8>,
    errors: Vec<u8>,
}

fn run_over<O: Open + Drop>(
    rt: &(impl Abort + AllocGlobal + RandomSource),
    parts: Parts,
    names: &[&str],
    opener: &O,
) -> Ran {
    let mut outputs = Outputs {
        alloc: rt.alloc(),
        report: Vec::new(rt.alloc()),
        errors: Vec::new(rt.alloc()),
    };
    let outcome = run_into(rt, parts, &Sources { names, opener }, &mut outputs);
    let Outputs { report, errors, .. } = outputs;
    Ran {
        status: status_of(outcome),
        output: report,
        errors,
    }
}

/// Runs a report of this capture as standard input, without a name.
fn run_alone(rt: &(impl Abort + AllocGlobal + RandomSource), parts: Parts, input: &[u8]) -> Ran {
    let named = [(STANDARD_INPUT, input)];
    run_over(rt, parts, &[], &Captures { named: &named })
}

/// Stops the test unless a run has this status, and writes this output and these errors.
fn expect_ran(rt: &impl Abort, ran: &Ran, status: u8, output: &str, errors: &str) {
    expect_equal(rt, &ran.status, &status);
    expect_written(rt, &ran.output, output);
    expect_written(rt, &ran.errors, errors);
}

/// Stops the test unless a run over this capture that writes only lines has this status, and writes this output and these errors.
fn expect_run(
    rt: &(impl Abort + AllocGlobal + RandomSource),
    input: &[u8],
    status: u8,
    output: &str,
    errors: &str,
) {
    let ran = run_alone(rt, ONLY_LINES, input);
    expect_ran(rt, &ran, status, output, errors);
}

/// Stops the test unless a run has this status, and an output that begins with these texts.
fn expect_first_text(rt: &(impl Abort + AllocGlobal), ran: &Ran, status: u8, wanted: [&str; 3]) {
    expect_equal(rt, &ran.status, &status);
    let wanted = joined_texts(rt, &wanted);
    let written = first_bytes(&ran.output, wanted.len());
    expect_equal(rt, &written, &wanted.as_slice());
}

/// Stops the test unless the packet of a capture with the link type of a row has a line.
fn expect_link(
    rt: &(impl Abort + AllocGlobal + RandomSource),
    row: &LinkRow,
    is_little_endian: bool,
) {
    let (link_type, link, len) = *row;
    let bytes = expect_ok(rt, capture(rt.alloc(), is_little_endian, link_type, link));
    let ran = run_alone(rt, ONLY_LINES, &bytes);
    expect_equal(rt, &ran.status, &0);
    let start = "1 00:00:00.000000 length ";
    expect_all_written(rt, &ran.output, &[start, len, ": ", AFTER_LENGTH]);
    expect_written(rt, &ran.errors, "");
}

#[test]
fn every_link_and_order_is_read(rt: HostRuntime) {
    for row in &LINKS {
        expect_link(&rt, row, false);
        expect_link(&rt, row, true);
    }
}

/// Inputs that are not captures, and the error of each.
#[rattlefmt::skip]
const NO_CAPTURES: [(&[u8], &str); 11] = [
    (&[], "capture_report: The header of a capture has 24 bytes, and the input contains 0.\n"),
    (b"\x0A\x0D\x0D\x0A and so on",
     "capture_report: The byte-order magic of the section, its bytes 8 to 11, is 0x20736f20.\n"),
    (b"\x0A\x0D\x0D\x0A\x10\0\0\0\x4D\x3C\x2B\x1A\x10\0\0\0",
     "capture_report: The section header block has 16 bytes, and needs at least 28.\n"),
    (b"PK\x03\x04, and then twenty bytes",
     "capture_report: The input is no capture: its first four bytes are 0x504b0304.\n"),
    (b"\x1F\x8B\x08\0, and then twenty bytes",
     "capture_report: The capture is compressed, and is read by gzip -dc FILE | capture_report.\n"),
    (b"\x28\xB5\x2F\xFD, and then twenty bytes",
     "capture_report: The capture is compressed, and is read by zstd -dc FILE | capture_report.\n"),
    (b"\x1F\x9D\x90\0, and then twenty bytes",
     "capture_report: The capture is compressed, and is read by gzip -dc FILE | capture_report.\n"),
    (b"\xFD7zX, and then twenty bytes",
     "capture_report: The capture is compressed, and is read by xz -dc FILE | capture_report.\n"),
    (b"BZh1, and then twenty bytes",
     "capture_report: The capture is compressed, and is read by bzip2 -dc FILE | capture_report.\n"),
    (b"BZh9, and then twenty bytes",
     "capture_report: The capture is compressed, and is read by bzip2 -dc FILE | capture_report.\n"),
    (b"\x04\x22\x4D\x18, and then twenty bytes",
     "capture_report: The capture is compressed, and is read by lz4 -dc FILE | capture_report.\n"),
];

/// The number of bytes of a capture that are present, and the status and the error.
#[rattlefmt::skip]
const CUT_CAPTURES: [(usize, u8, &str); 3] = [
    (23, 2, "capture_report: The header of a capture has 24 bytes, and the input contains 23.\n"),
    (39, 1,
     "capture_report: At byte 24 of the capture, in or before packet 1: The record or block has at least 16 bytes, and 15 are left.\n"),
    (68, 1,
     "capture_report: At byte 24 of the capture, in or before packet 1: The record or block has at least 45 bytes, and 44 are left.\n"),
];

#[test]
fn faults_of_a_capture_are_named(rt: HostRuntime) {
    for (input, error) in &NO_CAPTURES {
        expect_run(&rt, input, 2, "", error);
    }
    let whole = expect_ok(&rt, capture(rt.alloc(), true, 101, &[]));
    for (len, status, error) in &CUT_CAPTURES {
        expect_run(&rt, first_bytes(&whole, *len), *status, "", error);
    }
}

/// The parts of a file, and the status, the output and the errors of its report.
type FileRow = (&'static [&'static [u8]], u8, &'static str, &'static str);

#[rattlefmt::skip]
static PCAPNG_FILES: [FileRow; 5] = [
    (&[SECTION, RAW_IP, OTHER_BLOCK, ENHANCED, &UDP, ENHANCED_END], 0, LINE, ""),
    (&[SECTION, RAW_IP, OTHER_LINK, ENHANCED, &UDP, ENHANCED_END, ENHANCED_OF_SECOND, &UDP, ENHANCED_END], 0,
     "1 00:00:00.000000 interface 0 length 29: 192.0.2.1:7 > 192.0.2.2:9 UDP length 9, payload 1; checksum right\n2 -00:00:00.000004994 interface 1 length 29: link type 147\n",
     ""),
    (&[SECTION, RAW_IP, SIMPLE, &UDP, SIMPLE_END], 0, "1 - length 29: 192.0.2.1:7 > 192.0.2.2:9 UDP length 9, payload 1; checksum right\n", ""),
    (&[SECTION, RAW_IP, ENHANCED, &UDP, ENHANCED_END, ENHANCED_OF_SECOND, &UDP, ENHANCED_END], 1, LINE,
     "capture_report: At byte 112 of the file: The packet is of interface 1, and the section has 1.\n"),
    (&[SECTION, RAW_IP, OTHER_BLOCK, ENHANCED, &UDP], 1, "",
     "capture_report: At byte 60 of the capture, in or before packet 1: The record or block has at least 64 bytes, and 57 are left.\n"),
];

/// Stops the test unless the file of a row has the report of the row.
fn expect_file(rt: &(impl Abort + AllocGlobal + RandomSource), row: &FileRow) {
    let (parts, status, output, errors) = *row;
    expect_run(rt, &joined(rt, parts), status, output, errors);
}

#[test]
fn pcapng_files_are_reported(rt: HostRuntime) {
    for row in &PCAPNG_FILES {
        expect_file(&rt, row);
    }
}

/// The summary of a pcapng file of two interfaces and one of its packets, in each format.
#[rattlefmt::skip]
const OF_TWO_INTERFACES: [(Format, &str); 2] = [
    (Format::Text,
     "file type pcapng, byte order little-endian, interfaces 2\ninterface 0, snap length 0, time resolution 10^-6 s\ninterface 1, snap length 0, time resolution 10^-9 s\npackets 1, "),
    (Format::Json,
     r#"{"type":"summary","file_type":"pcapng","byte_order":"little-endian","interfaces":[{"snap_length":0,"time_resolution":"10^-6 s"},{"snap_length":0,"time_resolution":"10^-9 s"}],"packets":1,"#),
];

/// Stops the test unless the summary in this format begins with this text.
fn expect_totals(
    rt: &(impl Abort + AllocGlobal + RandomSource),
    bytes: &[u8],
    format: Format,
    wanted: &str,
) {
    let parts = Parts {
        lines: Lines::None,
        format,
        ..ALL
    };
    expect_first_text(rt, &run_alone(rt, parts, bytes), 0, [wanted, "", ""]);
}

#[test]
fn interfaces_are_in_the_summary(rt: HostRuntime) {
    let parts = [SECTION, RAW_IP, OTHER_LINK, ENHANCED, &UDP, ENHANCED_END];
    let bytes = joined(&rt, &parts);
    for (format, wanted) in &OF_TWO_INTERFACES {
        expect_totals(&rt, &bytes, *format, wanted);
    }
}

/// Stops the test unless the report of the first bytes of a file has no lines, and a status that tells where the file is cut.
fn expect_cut(rt: &(impl Abort + AllocGlobal + RandomSource), bytes: &[u8], cut: usize) {
    let ran = run_alone(rt, ONLY_LINES, first_bytes(bytes, cut));
    let status = match cut {
        0..28 => 2,
        28 | 48 => 0,
        _ => 1,
    };
    expect_at(rt, &cut, &ran.status, &status);
    expect_at(rt, &cut, &ran.output.len(), &0);
}

#[test]
fn pcapng_files_are_cut(rt: HostRuntime) {
    let parts = [SECTION, RAW_IP, ENHANCED, &UDP, ENHANCED_END];
    let bytes = joined(&rt, &parts);
    for cut in 0..bytes.len() {
        expect_cut(&rt, &bytes, cut);
    }
}

/// A place in the capture and its byte, and the status without a check and with one. The places are in the port, the UDP length, the IP
/// version, the total length, the magic number, the version of the capture, the link type, the captured length and the original length of
/// the packet.
type ChangeRow = (usize, u8, u8, u8);

#[rattlefmt::skip]
static CHANGES: [ChangeRow; 10] = [
    (60, 0, 0, 0),
    (60, 1, 0, 4),
    (65, 0, 0, 4),
    (40, 0x55, 0, 4),
    (43, 0, 0, 0),
    (0, 0xA0, 2, 2),
    (7, 3, 1, 1),
    (23, 147, 0, 0),
    (35, 30, 1, 1),
    (39, 30, 0, 0),
];

/// Stops the test unless a report of this capture with a check, or without one, has this status.
fn expect_status(
    rt: &(impl Abort + AllocGlobal + RandomSource),
    row: &ChangeRow,
    check: bool,
    status: u8,
) {
    let bytes = expect_ok(rt, changed_capture(rt.alloc(), row.0, row.1));
    let parts = Parts {
        check,
        ..ONLY_LINES
    };
    let ran = run_alone(rt, parts, &bytes);
    expect_at(rt, row, &ran.status, &status);
}

#[test]
fn the_status_says_what_is_wrong(rt: HostRuntime) {
    for row in &CHANGES {
        expect_status(&rt, row, false, row.2);
        expect_status(&rt, row, true, row.3);
    }
}

/// A capture whose reader is faulty.
#[derive(Drop)]
struct FaultyCapture<'a> {
    bytes: &'a [u8],
    reads: usize,
}

impl<'a> Open for FaultyCapture<'a> {
    type Input = FaultyReader<'a>;

    ghost opens = { λ capture name input. Unit {0} };

    ghost misses = { λ capture name. Unit {0} };

    fn open(&self, _name: &str) -> io::Result<FaultyReader<'a>> {
        Ok(FaultyReader {
            rest: self.bytes,
            reads: self.reads,
        })
    }
}

/// Stops the test unless a run whose reader fails after this many reads has the lines of the packets before the fault. The first packet
/// ends after `one` bytes.
fn expect_lines_before(
    rt: &(impl Abort + AllocGlobal + RandomSource),
    bytes: &[u8],
    one: usize,
    reads: usize,
) {
    let ran = run_over(rt, ONLY_LINES, &[], &FaultyCapture { bytes, reads });
    let len = if reads < one {
        0
    } else if reads < bytes.len() {
        LINE.len()
    } else {
        LINE.len().saturating_mul(2)
    };
    expect_at(rt, &reads, &ran.status, &3);
    expect_at(rt, &reads, &ran.output.len(), &len);
}

#[test]
fn read_faults_leave_the_report_before_them(rt: HostRuntime) {
    let one = expect_ok(&rt, raw_capture(rt.alloc())).len();
    let bytes = two_packets(&rt, 9);
    // Each byte needs a read, and the end of the capture needs another.
    for reads in 0..bytes.len() + 1 {
        expect_lines_before(&rt, &bytes, one, reads);
    }
}

/// Stops the test unless a run whose writer fails, or takes nothing, at the call after `calls` has written the beginning of a report
/// that is `whole` without the fault.
fn expect_beginning<O: Open>(
    rt: &(impl Abort + AllocGlobal + RandomSource),
    parts: Parts,
    sources: &Sources<'_, O>,
    whole: &[u8],
    calls: usize,
    takes_nothing: bool,
) {
    let output = FaultyWriter {
        written: Vec::new(rt.alloc()),
        calls,
        takes_nothing,
    };
    let mut outputs = Outputs {
        alloc: rt.alloc(),
        report: output,
        errors: Vec::new(rt.alloc()),
    };
    let outcome = run_into(rt, parts, sources, &mut outputs);
    // Each byte needs a write, and the flush is one call more.
    let expected = if calls <= whole.len() { 3 } else { 0 };
    expect_at(rt, &calls, &status_of(outcome), &expected);
    let written = outputs.report.written.as_slice();
    expect_at(rt, &calls, &written, &first_bytes(whole, calls));
}

/// Stops the test unless a run over this capture whose writer fails, or takes nothing, has written the beginning of the lines.
fn expect_beginnings(
    rt: &(impl Abort + AllocGlobal + RandomSource),
    opener: &Captures<'_>,
    whole: &[u8],
    takes_nothing: bool,
) {
    let sources = Sources { names: &[], opener };
    for calls in 0..whole.len().saturating_add(2) {
        expect_beginning(rt, ONLY_LINES, &sources, whole, calls, takes_nothing);
    }
}

#[test]
fn write_faults_leave_a_beginning(rt: HostRuntime) {
    let bytes = expect_ok(&rt, capture(rt.alloc(), true, 101, &[]));
    let named = [(STANDARD_INPUT, bytes.as_slice())];
    let captures = Captures { named: &named };
    let whole = run_over(&rt, ONLY_LINES, &[], &captures);
    expect_equal(&rt, &whole.status, &0);
    expect_beginnings(&rt, &captures, &whole.output, false);
    expect_beginnings(&rt, &captures, &whole.output, true);
}

#[test]
fn write_faults_within_the_summary(rt: HostRuntime) {
    let bytes = expect_ok(&rt, capture(rt.alloc(), true, 101, &[]));
    let named = [(STANDARD_INPUT, bytes.as_slice())];
    let captures = Captures { named: &named };
    let whole = run_over(&rt, ALL, &[], &captures);
    expect_equal(&rt, &whole.status, &0);
    let output = whole.output.as_slice();
    let len = output.len();
    let sources = Sources {
        names: &[],
        opener: &captures,
    };
    for calls in [len / 2, len.saturating_sub(1), len, len.saturating_add(1)] {
        expect_beginning(&rt, ALL, &sources, output, calls, false);
    }
}

/// The line of a second packet, to port 10.
const TO_TEN: &str =
    "2 00:00:00.000000 length 29: 192.0.2.1:7 > 192.0.2.2:10 UDP length 9, payload 1; checksum wrong, 19C7 expected\n";

/// The port that is chosen, the status, and the lines of packets and the totals.
type PortRow = (u16, u8, [&'static str; 3]);

#[rattlefmt::skip]
static OF_PORTS: [PortRow; 4] = [
    (7, 4, [LINE, TO_TEN, "\nfile type classic, byte order big-endian, snap length 0, time resolution 10^-6 s\npackets 2, bytes 58, bytes a packet 29\n"]),
    (9, 0, [LINE, "", "\nfile type classic, byte order big-endian, snap length 0, time resolution 10^-6 s\npackets 1, bytes 29, bytes a packet 29\n"]),
    (10, 4, ["", TO_TEN, "\nfile type classic, byte order big-endian, snap length 0, time resolution 10^-6 s\npackets 1, bytes 29, bytes a packet 29\n"]),
    (11, 0, ["", "", "file type classic, byte order big-endian, snap length 0, time resolution 10^-6 s\npackets 0, bytes 0\n"]),
];

/// The report of the packets of this port, with a limit of lines if there is one.
fn parts_of_port(port: u16, check: bool, limit: Option<u64>) -> Parts {
    let mut ports = [None; MAX_CHOSEN];
    ports[0] = Some(PortRange {
        first: port,
        last: port,
    });
    Parts {
        choice: Choice {
            ports: Some(ports),
            ..Choice::ALL
        },
        check,
        limit,
        ..ALL
    }
}

/// Stops the test unless the port of a row has the report of the row.
fn expect_port(rt: &(impl Abort + AllocGlobal + RandomSource), whole: &[u8], row: &PortRow) {
    let (port, status, wanted) = *row;
    let ran = run_alone(rt, parts_of_port(port, true, None), whole);
    expect_first_text(rt, &ran, status, wanted);
}

#[test]
fn packets_that_are_not_chosen_are_left_out(rt: HostRuntime) {
    let whole = two_packets(&rt, 10);
    for row in &OF_PORTS {
        expect_port(&rt, &whole, row);
    }
}

/// A number of packets, the length of the capture that is read, the status, and the lines of packets and the totals. The first packet of
/// the capture ends after 69 bytes, and the second after 114.
type LimitRow = (u64, usize, u8, [&'static str; 3]);

#[rattlefmt::skip]
static LIMITS: [LimitRow; 6] = [
    (1, 114, 0, [LINE, "", "\nfile type classic, byte order big-endian, snap length 0, time resolution 10^-6 s\npackets 1, bytes 29, bytes a packet 29\n"]),
    (2, 114, 0, [LINE, TO_TEN, "\nfile type classic, byte order big-endian, snap length 0, time resolution 10^-6 s\npackets 2, bytes 58, bytes a packet 29\n"]),
    (3, 114, 0, [LINE, TO_TEN, "\nfile type classic, byte order big-endian, snap length 0, time resolution 10^-6 s\npackets 2, bytes 58, bytes a packet 29\n"]),
    // The bytes after the last packet are not read.
    (1, 113, 0, [LINE, "", "\nfile type classic, byte order big-endian, snap length 0, time resolution 10^-6 s\npackets 1, bytes 29, bytes a packet 29\n"]),
    (2, 113, 1, [LINE, "", "\nfile type classic, byte order big-endian, snap length 0, time resolution 10^-6 s\npackets 1, bytes 29, bytes a packet 29\n"]),
    (0, 114, 0, ["", "", ""]),
];

/// Stops the test unless the limit of a row has the report of the row.
fn expect_limit(rt: &(impl Abort + AllocGlobal + RandomSource), whole: &[u8], row: &LimitRow) {
    let (limit, len, status, wanted) = *row;
    let parts = Parts {
        limit: Some(limit),
        ..ALL
    };
    let ran = run_alone(rt, parts, first_bytes(whole, len));
    expect_first_text(rt, &ran, status, wanted);
}

#[test]
fn the_report_ends_after_a_number_of_lines(rt: HostRuntime) {
    let whole = two_packets(&rt, 10);
    for row in &LIMITS {
        expect_limit(&rt, &whole, row);
    }
}

#[test]
fn packets_that_are_not_chosen_do_not_count(rt: HostRuntime) {
    let whole = two_packets(&rt, 10);
    let ran = run_alone(&rt, parts_of_port(10, false, Some(1)), &whole);
    let totals =
        "\nfile type classic, byte order big-endian, snap length 0, time resolution 10^-6 s\npackets 1, bytes 29, bytes a packet 29\n";
    expect_first_text(&rt, &ran, 0, [TO_TEN, "", totals]);
}

/// The forms of a report, and the line of this packet in each.
#[rattlefmt::skip]
static LONG_LINES: [(Format, &str); 2] = [
    (Format::Text, "1 00:00:00.000000 length 528384: checksum not looked at: 528384 bytes, more than 524288\n"),
    (Format::Json, "{\"type\":\"packet\",\"number\":1,\"time\":\"00:00:00.000000\",\"seconds\":5,\"nanoseconds\":7000,\"length\":528384,\"captured_length\":528384,\"checksum\":\"not_looked_at\",\"reason\":\"too_long\",\"required_length\":528384}\n"),
];

/// Stops the test unless this is the line of the packet in this format.
fn expect_long_line(
    rt: &(impl Abort + AllocGlobal + RandomSource),
    bytes: &[u8],
    format: Format,
    line: &str,
) {
    let parts = Parts {
        format,
        check: true,
        ..ONLY_LINES
    };
    expect_ran(rt, &run_alone(rt, parts, bytes), 0, line, "");
}

#[test]
fn a_packet_that_is_too_long_is_not_read(rt: HostRuntime) {
    let bytes = long_capture(&rt);
    for (format, line) in &LONG_LINES {
        expect_long_line(&rt, &bytes, *format, line);
    }
}

/// The object of the packet.
const OBJECT: &str =
    r#"{"type":"packet","number":1,"time":"00:00:00.000000","seconds":5,"nanoseconds":7000,"length":29,"captured_length":29,"source":"192.0.2.1","destination":"192.0.2.2","protocol":17,"protocol_name":"UDP","source_port":7,"destination_port":9,"udp":{"length":9},"payload_length":1,"time_to_live":64,"checksum":"right"}"#;

/// The first members of the object of the summary.
const TOTALS: &str =
    r#"{"type":"summary","file_type":"classic","byte_order":"big-endian","snap_length":0,"time_resolution":"10^-6 s","packets":1,"bytes":29,"bytes_per_packet":29,"conversations":1,"first_packet":"1970-01-01T00:00:05.000007Z","first_packet_seconds":5,"first_packet_nanoseconds":7000,"last_packet":"1970-01-01T00:00:05.000007Z","last_packet_seconds":5,"last_packet_nanoseconds":7000,"duration":"00:00:00.000000","duration_seconds":0,"duration_nanoseconds":0,"link_types":{"BSD_loopback":0,"#;

/// The lines of the report, whether it has a summary, and the beginning of the report.
type ObjectsRow = (Lines, bool, [&'static str; 3]);

#[rattlefmt::skip]
static OBJECTS: [ObjectsRow; 3] = [
    (Lines::All, false, [OBJECT, "\n", ""]),
    (Lines::None, true, [TOTALS, "", ""]),
    (Lines::Wrong, true, [TOTALS, "", ""]),
];

/// Stops the test unless the report in JSON of a row begins as the row says.
fn expect_objects(rt: &(impl Abort + AllocGlobal + RandomSource), bytes: &[u8], row: &ObjectsRow) {
    let (lines, summary, wanted) = *row;
    let parts = Parts {
        lines,
        summary,
        format: Format::Json,
        ..ALL
    };
    expect_first_text(rt, &run_alone(rt, parts, bytes), 0, wanted);
}

#[test]
fn a_report_in_json(rt: HostRuntime) {
    let bytes = expect_ok(&rt, raw_capture(rt.alloc()));
    for row in &OBJECTS {
        expect_objects(&rt, &bytes, row);
    }
}

/// The table of the timeline of the packet.
const TIMELINE: &str = "
timeline, seconds             packets             bytes       wrong     refused
              0.000000000           1                29           0           0 ########################################
";

/// Only a summary of text contains the table of the timeline, and only if it is requested.
#[test]
fn the_table_of_the_timeline_is_requested(rt: HostRuntime) {
    let bytes = expect_ok(&rt, raw_capture(rt.alloc()));
    for timeline in [false, true] {
        for format in [Format::Text, Format::Json] {
            let parts = Parts {
                timeline,
                format,
                ..ALL
            };
            let ran = run_alone(&rt, parts, &bytes);
            let text = expect_ok(&rt, std::str::from_utf8(&ran.output));
            let has_table = timeline && format == Format::Text;
            expect_equal(&rt, &text.ends_with(TIMELINE), &has_table);
        }
    }
}

/// The timeline of a run has the requested width.
#[test]
fn the_width_of_the_timeline_is_requested(rt: HostRuntime) {
    let bytes = expect_ok(&rt, raw_capture(rt.alloc()));
    let parts = Parts {
        format: Format::Json,
        interval: NonZeroU128::new(90_000_000_007),
        ..ALL
    };
    let ran = run_alone(&rt, parts, &bytes);
    let text = expect_ok(&rt, std::str::from_utf8(&ran.output));
    let width = r#","interval_seconds":90,"interval_nanoseconds":7,"intervals":["#;
    expect_equal(&rt, &text.contains(width), &true);
}
