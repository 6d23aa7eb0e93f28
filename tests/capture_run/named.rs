//! Runs over captures with names.

use super::{
    Captures, LINE, ONLY_LINES, Ran, expect_beginning, expect_first_text, expect_ran, run_into,
    run_over,
};
use crate::captures::{ALL, FaultyWriter, changed_capture};
use crate::expect::{bytes_from, expect_equal, expect_written};
use capture_run::{ExitStatus, Format, Lines, Open, Outputs, Parts, Sources, WriteError};
use std::alloc::Global;
use std::io;
use std::io::{Cursor, ErrorKind};
use std::process::Abort;
use std::random::RandomSource;

/// The names that can be opened. Each is a capture of the packet in which a byte is changed: in the port, in the length of UDP, in the
/// version, in the link type, in the captured length, and in the magic number.
#[rattlefmt::skip]
static CHANGED: [(&str, usize, u8); 8] = [
    ("-", 60, 0),
    ("right", 60, 0),
    ("wrong", 60, 1),
    ("zero", 65, 0),
    ("version", 7, 3),
    ("link", 23, 147),
    ("cut", 35, 30),
    ("magic", 0, 0xA0),
];

/// Opens these captures.
#[derive(Drop)]
struct Changed {
    alloc: Global,
}

impl Open for Changed {
    type Input = Cursor<Vec<u8>>;

    ghost opens = { λ captures name input. Unit {0} };

    ghost misses = { λ captures name. Unit {0} };

    fn open(&self, name: &str) -> io::Result<Cursor<Vec<u8>>> {
        for (given, place, byte) in &CHANGED {
            if *given == name {
                let bytes = changed_capture(self.alloc, *place, *byte)?;
                return Ok(Cursor::new(bytes));
            }
        }
        Err(io::Error::from(ErrorKind::NotFound))
    }
}

/// Lines of packets with a check.
const CHECKED_LINES: Parts = Parts {
    check: true,
    ..ONLY_LINES
};

/// The parts of the report of a row. `Parts` contains arrays, which the borrow checker does not allow in a table with references.
#[derive(Clone, Copy)]
enum Asked {
    /// All that is written without options.
    All,
    /// All parts, with a check.
    CheckedAll,
    /// Lines of packets with a check.
    CheckedLines,
    /// Only the lines of packets that are wrong or refused.
    WrongLines,
    /// The first line of a packet that is wrong or refused, and the summary.
    FirstWrong,
    /// The summary of the first packet.
    SummaryOfOne,
    /// Nothing but the exit status of a check.
    OnlyStatus,
    /// Nothing but the summary.
    OnlySummary,
    /// Objects of packets and of the summary.
    AllObjects,
    /// Only the objects of packets.
    OnlyObjects,
    /// All of the first packets, up to two.
    AllOfTwo,
}

/// The lines of the report, whether it has a summary and a check, its format, and its limit of lines.
fn options_of(asked: Asked) -> (Lines, bool, bool, Format, Option<u64>) {
    match asked {
        Asked::All => (Lines::All, true, false, Format::Text, None),
        Asked::CheckedAll => (Lines::All, true, true, Format::Text, None),
        Asked::CheckedLines => (Lines::All, false, true, Format::Text, None),
        Asked::WrongLines => (Lines::Wrong, false, false, Format::Text, None),
        Asked::FirstWrong => (Lines::Wrong, true, false, Format::Text, Some(1)),
        Asked::SummaryOfOne => (Lines::None, true, false, Format::Text, Some(1)),
        Asked::OnlyStatus => (Lines::None, false, true, Format::Text, None),
        Asked::OnlySummary => (Lines::None, true, false, Format::Text, None),
        Asked::AllObjects => (Lines::All, true, false, Format::Json, None),
        Asked::OnlyObjects => (Lines::All, false, false, Format::Json, None),
        Asked::AllOfTwo => (Lines::All, true, false, Format::Text, Some(2)),
    }
}

/// The parts of a report that a row asks for.
fn parts_of(asked: Asked) -> Parts {
    let (lines, summary, check, format, limit) = options_of(asked);
    Parts {
        lines,
        summary,
        check,
        format,
        limit,
        ..ALL
    }
}

/// Runs a report over captures with these names.
fn run_named(rt: &(impl Abort + AllocGlobal + RandomSource), parts: Parts, names: &[&str]) -> Ran {
    run_over(rt, parts, names, &Changed { alloc: rt.alloc() })
}

/// The names of captures, the requested parts of their report, the status, the output, and the errors.
type RunRow = (
    &'static [&'static str],
    Asked,
    u8,
    &'static str,
    &'static str,
);

/// At most one name: there is no heading, and an error names the capture.
#[rattlefmt::skip]
static RUNS_OF_ONE: [RunRow; 18] = [
    (&[], Asked::CheckedLines, 0, LINE, ""),
    (&["-"], Asked::CheckedLines, 0, LINE, ""),
    (&["right"], Asked::OnlyObjects, 0, RIGHT_OBJECT, ""),
    (&["wrong"], Asked::CheckedLines, 4,
     "1 00:00:00.000000 length 29: 192.0.2.1:263 > 192.0.2.2:9 UDP length 9, payload 1; checksum wrong, 18C8 expected\n", ""),
    // The length field of this packet is 0, so the packet is refused.
    (&["zero"], Asked::CheckedLines, 4,
     "1 00:00:00.000000 length 29: 192.0.2.1:7 > 192.0.2.2:9 UDP, payload 9; refused: UDP header needs 8 bytes, the UDP length is 0\n", ""),
    (&["zero"], Asked::OnlyObjects, 0, ZERO_OBJECT, ""),
    (&["missing"], Asked::CheckedLines, 3, "", "capture_report: missing: entity not found\n"),
    // A control character in a name is shown by its number. After NUL a name is escaped already.
    (&["a\n\u{1B}[2J\u{9B}\u{FC}\\"], Asked::CheckedLines, 3, "", "capture_report: a\\x0A\\x1B[2J\\x9B\u{FC}\\: entity not found\n"),
    (&["\0a\\xFC"], Asked::CheckedLines, 3, "", "capture_report: a\\xFC: entity not found\n"),
    (&["tcp"], Asked::CheckedLines, 3, "", "capture_report: tcp: entity not found; filters are --host, --port and --protocol\n"),
    (&["portrange"], Asked::CheckedLines, 3, "", "capture_report: portrange: entity not found; filters are --host, --port and --protocol\n"),
    (&["tcp port 80"], Asked::CheckedLines, 3, "", "capture_report: tcp port 80: entity not found; filters are --host, --port and --protocol\n"),
    (&["vlan 10"], Asked::CheckedLines, 3, "", "capture_report: vlan 10: entity not found; filters are --host, --port and --protocol\n"),
    (&["greater 100"], Asked::CheckedLines, 3, "", "capture_report: greater 100: entity not found; filters are --host, --port and --protocol\n"),
    (&["a tcp"], Asked::CheckedLines, 3, "", "capture_report: a tcp: entity not found\n"),
    (&["lesser"], Asked::CheckedLines, 3, "", "capture_report: lesser: entity not found\n"),
    (&["version"], Asked::CheckedLines, 1, "", "capture_report: version: The capture has version 2.3, which is not read.\n"),
    (&["link"], Asked::CheckedLines, 0, "1 00:00:00.000000 length 29: link type 147\n", ""),
];

const RIGHT_OBJECT: &str =
    r#"{"type":"packet","number":1,"time":"00:00:00.000000","seconds":5,"nanoseconds":7000,"length":29,"captured_length":29,"source":"192.0.2.1","destination":"192.0.2.2","protocol":17,"protocol_name":"UDP","source_port":7,"destination_port":9,"udp":{"length":9},"payload_length":1,"time_to_live":64,"checksum":"right"}
"#;

const ZERO_OBJECT: &str =
    r#"{"type":"packet","number":1,"time":"00:00:00.000000","seconds":5,"nanoseconds":7000,"length":29,"captured_length":29,"source":"192.0.2.1","destination":"192.0.2.2","protocol":17,"protocol_name":"UDP","source_port":7,"destination_port":9,"payload_length":9,"time_to_live":64,"refused":"UDP header needs 8 bytes, the UDP length is 0"}
"#;

/// Several names: each capture has a heading, unless no packet has a line. If a capture can't be read, the next one is still reported.
#[rattlefmt::skip]
static RUNS: [RunRow; 12] = [
    (&["right", "wrong"], Asked::CheckedLines, 4, OF_TWO, ""),
    (&["right", "missing", "wrong"], Asked::CheckedLines, 4, WITH_MISSING, "capture_report: missing: entity not found\n"),
    (&["right", "version", "wrong", "cut"], Asked::CheckedLines, 4, OF_FOUR, ERRORS_OF_FOUR),
    (&["right", "version", "wrong", "cut", "missing"], Asked::OnlyStatus, 4, "", ERRORS_WITH_MISSING),
    (&["version", "right", "magic", "cut", "-"], Asked::CheckedLines, 2, OF_FIVE, ERRORS_OF_FIVE),
    (&["right", "wrong", "right"], Asked::WrongLines, 0, OF_WRONG_LINES, ""),
    (&["right", "missing", "zero"], Asked::OnlyStatus, 4, "", "capture_report: missing: entity not found\n"),
    (&["right", "zero"], Asked::OnlyStatus, 4, "", ""),
    (&["right", "a \"name\"", "wrong"], Asked::OnlyObjects, 3, OBJECTS, "capture_report: a \"name\": entity not found\n"),
    (&["a\nb", "\0a\\xFC"], Asked::CheckedLines, 3, "==> a\\x0Ab <==\n\n==> a\\xFC <==\n",
     "capture_report: a\\x0Ab: entity not found\ncapture_report: a\\xFC: entity not found\n"),
    (&["a\nb", "\0a\\xFC"], Asked::OnlyObjects, 3, ESCAPED_OBJECTS,
     "capture_report: a\\x0Ab: entity not found\ncapture_report: a\\xFC: entity not found\n"),
    // The header of no capture is accepted, so there is no summary.
    (&["missing", "version"], Asked::All, 3, "==> missing <==\n\n==> version <==\n",
     "capture_report: missing: entity not found\ncapture_report: version: The capture has version 2.3, which is not read.\n"),
];

const ESCAPED_OBJECTS: &str = r#"{"type":"file","file":"a\nb"}
{"type":"file","file":"a\\xFC"}
"#;

const OF_TWO: &str = "\
==> right <==
1 00:00:00.000000 length 29: 192.0.2.1:7 > 192.0.2.2:9 UDP length 9, payload 1; checksum right

==> wrong <==
1 00:00:00.000000 length 29: 192.0.2.1:263 > 192.0.2.2:9 UDP length 9, payload 1; checksum wrong, 18C8 expected
";

const WITH_MISSING: &str = "\
==> right <==
1 00:00:00.000000 length 29: 192.0.2.1:7 > 192.0.2.2:9 UDP length 9, payload 1; checksum right

==> missing <==

==> wrong <==
1 00:00:00.000000 length 29: 192.0.2.1:263 > 192.0.2.2:9 UDP length 9, payload 1; checksum wrong, 18C8 expected
";

const OF_FOUR: &str = "\
==> right <==
1 00:00:00.000000 length 29: 192.0.2.1:7 > 192.0.2.2:9 UDP length 9, payload 1; checksum right

==> version <==

==> wrong <==
1 00:00:00.000000 length 29: 192.0.2.1:263 > 192.0.2.2:9 UDP length 9, payload 1; checksum wrong, 18C8 expected

==> cut <==
";

const ERRORS_OF_FOUR: &str = "\
capture_report: version: The capture has version 2.3, which is not read.
capture_report: cut: At byte 24 of the capture, in or before packet 1: The record or block has at least 46 bytes, and 45 are left.
";

const ERRORS_WITH_MISSING: &str = "\
capture_report: version: The capture has version 2.3, which is not read.
capture_report: cut: At byte 24 of the capture, in or before packet 1: The record or block has at least 46 bytes, and 45 are left.
capture_report: missing: entity not found
";

const OF_FIVE: &str = "\
==> version <==

==> right <==
1 00:00:00.000000 length 29: 192.0.2.1:7 > 192.0.2.2:9 UDP length 9, payload 1; checksum right

==> magic <==

==> cut <==

==> - <==
1 00:00:00.000000 length 29: 192.0.2.1:7 > 192.0.2.2:9 UDP length 9, payload 1; checksum right
";

const ERRORS_OF_FIVE: &str = "\
capture_report: version: The capture has version 2.3, which is not read.
capture_report: magic: The input is no capture: its first four bytes are 0xa0b2c3d4.
capture_report: cut: At byte 24 of the capture, in or before packet 1: The record or block has at least 46 bytes, and 45 are left.
";

const OF_WRONG_LINES: &str = "\
==> right <==

==> wrong <==
1 00:00:00.000000 length 29: 192.0.2.1:263 > 192.0.2.2:9 UDP length 9, payload 1; checksum wrong, 18C8 expected

==> right <==
";

const OBJECTS: &str = r#"{"type":"file","file":"right"}
{"type":"packet","number":1,"time":"00:00:00.000000","seconds":5,"nanoseconds":7000,"length":29,"captured_length":29,"source":"192.0.2.1","destination":"192.0.2.2","protocol":17,"protocol_name":"UDP","source_port":7,"destination_port":9,"udp":{"length":9},"payload_length":1,"time_to_live":64,"checksum":"right"}
{"type":"file","file":"a \"name\""}
{"type":"file","file":"wrong"}
{"type":"packet","number":1,"time":"00:00:00.000000","seconds":5,"nanoseconds":7000,"length":29,"captured_length":29,"source":"192.0.2.1","destination":"192.0.2.2","protocol":17,"protocol_name":"UDP","source_port":263,"destination_port":9,"udp":{"length":9},"payload_length":1,"time_to_live":64,"checksum":"wrong","expected_checksum":6344}
"#;

/// Stops the test unless the run of a row has the status, the output and the errors of the row.
fn expect_named(rt: &(impl Abort + AllocGlobal + RandomSource), row: &RunRow) {
    let (names, asked, status, output, errors) = *row;
    let ran = run_named(rt, parts_of(asked), names);
    expect_ran(rt, &ran, status, output, errors);
}

#[test]
fn one_capture_is_reported_without_a_heading(rt: HostRuntime) {
    for row in &RUNS_OF_ONE {
        expect_named(&rt, row);
    }
}

#[test]
fn captures_are_reported_one_after_the_other(rt: HostRuntime) {
    for row in &RUNS {
        expect_named(&rt, row);
    }
}

#[test]
fn standard_input_that_cannot_be_opened(rt: HostRuntime) {
    let ran = run_over(&rt, ALL, &[], &Captures { named: &[] });
    let errors = "capture_report: -: entity not found\n";
    expect_ran(&rt, &ran, 3, "", errors);
}

/// The names of captures, the requested parts of their report, the status, and the beginning of the output: the lines, an empty line, and
/// the totals of all captures.
type SummaryRow = (&'static [&'static str], Asked, u8, [&'static str; 3]);

/// An empty line, and what the capture is.
const FACTS: &str =
    "\nfile type classic, byte order big-endian, snap length 0, time resolution 10^-6 s\n";

/// What the capture is, without an empty line before it.
const FACTS_ALONE: &str =
    "file type classic, byte order big-endian, snap length 0, time resolution 10^-6 s\n";

const RIGHT_AND_MISSING: &str = "==> right <==\n\n==> missing <==\n";

const ONLY_WRONG: &str = "\
==> wrong <==
1 00:00:00.000000 length 29: 192.0.2.1:263 > 192.0.2.2:9 UDP length 9, payload 1; checksum wrong, 18C8 expected
";

const TO_WRONG: &str = "\
==> right <==

==> wrong <==
1 00:00:00.000000 length 29: 192.0.2.1:263 > 192.0.2.2:9 UDP length 9, payload 1; checksum wrong, 18C8 expected
";

const TO_ZERO: &str = "\
==> right <==

==> zero <==
1 00:00:00.000000 length 29: 192.0.2.1:7 > 192.0.2.2:9 UDP, payload 9; refused: UDP header needs 8 bytes, the UDP length is 0
";

#[rattlefmt::skip]
static SUMMARIES: [SummaryRow; 11] = [
    // Only one capture is read, and its packet has no line.
    (&["right", "missing"], Asked::FirstWrong, 3, [RIGHT_AND_MISSING, FACTS, "packets 1, bytes 29, bytes a packet 29\n"]),
    (&["missing", "right"], Asked::FirstWrong, 3, ["==> missing <==\n\n==> right <==\n", FACTS, "packets 1, bytes 29, bytes a packet 29\n"]),
    // A packet without a line does not count towards the limit. Without lines each packet counts.
    (&["right", "wrong", "zero", "missing"], Asked::FirstWrong, 0, [TO_WRONG, "\n", "packets 2, bytes 58, bytes a packet 29\nconversations 2\n"]),
    (&["right", "zero", "wrong", "missing"], Asked::FirstWrong, 0, [TO_ZERO, "\n", "packets 2, bytes 58, bytes a packet 29\nconversations 1\n"]),
    (&["wrong", "missing"], Asked::FirstWrong, 0, [ONLY_WRONG, FACTS, "packets 1, bytes 29, bytes a packet 29\n"]),
    (&["right", "wrong", "missing"], Asked::SummaryOfOne, 0, ["", FACTS_ALONE, "packets 1, bytes 29, bytes a packet 29\n"]),
    // Neither the capture after the last packet nor its heading is part of the report.
    (&["right", "wrong", "missing", "right"], Asked::AllOfTwo, 0, [OF_TWO, "\n", "packets 2, bytes 58, bytes a packet 29\nconversations 2\n"]),
    (&["right", "missing", "wrong"], Asked::CheckedAll, 4, [WITH_MISSING, "\n", "packets 2, bytes 58, bytes a packet 29\nconversations 2\n"]),
    (&["right", "wrong"], Asked::CheckedAll, 4, [OF_TWO, "\n", "packets 2, bytes 58, bytes a packet 29\nconversations 2\n"]),
    (&["right", "cut", "zero"], Asked::OnlySummary, 1, ["", "", "packets 2, bytes 58, bytes a packet 29\nconversations 1\n"]),
    (&["right", "a \"name\"", "wrong"], Asked::AllObjects, 3,
     [OBJECTS, r#"{"type":"summary","packets":2,"bytes":58,"#, r#""bytes_per_packet":29,"conversations":2,"#]),
];

/// Stops the test unless the output of a row begins with the texts of the row.
fn expect_summary(rt: &(impl Abort + AllocGlobal + RandomSource), row: &SummaryRow) {
    let (names, asked, status, wanted) = *row;
    let ran = run_named(rt, parts_of(asked), names);
    expect_first_text(rt, &ran, status, wanted);
}

#[test]
fn the_summary_is_of_all_captures(rt: HostRuntime) {
    for row in &SUMMARIES {
        expect_summary(&rt, row);
    }
}

/// The names of captures, the requested parts of their report, the status, and the end of the output after the table of endpoints.
type FilesRow = (&'static [&'static str], Asked, u8, &'static str);

/// A capture that is cut off has a row, and so has a capture without selected packets. A capture that can't be opened, whose beginning is
/// not accepted, or that is not read has none.
#[rattlefmt::skip]
static FILES: [FilesRow; 5] = [
    (&["right"], Asked::OnlySummary, 0, ONE_ENDPOINT),
    (&["right", "missing", "wrong", "version", "zero", "cut"], Asked::OnlySummary, 3, OF_FOUR_FILES),
    (&["\0right", "right"], Asked::OnlySummary, 3, OF_ONE_FILE),
    (&["right", "wrong", "missing"], Asked::SummaryOfOne, 0, OF_ONE_FILE),
    (&["right", "wrong", "missing"], Asked::AllObjects, 3, FILE_OBJECTS),
];

const ONE_ENDPOINT: &str = "192.0.2.2                         1            29\n";

const OF_FOUR_FILES: &str = "
    packets             bytes       wrong     refused files
          1                29           0           0 right
          1                29           1           0 wrong
          1                29           0           1 zero
          0                 0           0           0 cut
";

const OF_ONE_FILE: &str = "
    packets             bytes       wrong     refused files
          1                29           0           0 right
";

const FILE_OBJECTS: &str =
    r#","packets_of_other_flows":{"packets":0,"bytes":0},"files":[{"file":"right","packets":1,"bytes":29,"wrong":0,"refused":0},{"file":"wrong","packets":1,"bytes":29,"wrong":1,"refused":0}]}
"#;

/// Stops the test unless the output of a row ends with the text of the row.
fn expect_files(rt: &(impl Abort + AllocGlobal + RandomSource), row: &FilesRow) {
    let (names, asked, status, wanted) = *row;
    let ran = run_named(rt, parts_of(asked), names);
    expect_equal(rt, &ran.status, &status);
    let start = ran.output.len().saturating_sub(wanted.len());
    expect_written(rt, bytes_from(rt, &ran.output, start), wanted);
}

#[test]
fn the_summary_has_a_row_for_each_capture(rt: HostRuntime) {
    for row in &FILES {
        expect_files(&rt, row);
    }
}

/// The kind of the fault of a writer, if a run returned it.
fn kind_of(outcome: Result<ExitStatus, WriteError>) -> Option<ErrorKind> {
    match outcome {
        Err(WriteError::Write(error)) => Some(error.kind()),
        _ => None,
    }
}

/// Stops the test unless a run that can't write one of its errors reports the captures, and then returns that fault. The fault is at the
/// call after `calls`.
fn expect_without_errors(rt: &(impl Abort + AllocGlobal + RandomSource), calls: usize) {
    let sources = Sources {
        names: &["right", "missing", "wrong"],
        opener: &Changed { alloc: rt.alloc() },
    };
    let errors = FaultyWriter {
        written: Vec::new(rt.alloc()),
        calls,
        takes_nothing: false,
    };
    let mut outputs = Outputs {
        alloc: rt.alloc(),
        report: Vec::new(rt.alloc()),
        errors,
    };
    let outcome = run_into(rt, CHECKED_LINES, &sources, &mut outputs);
    expect_equal(rt, &kind_of(outcome), &Some(ErrorKind::BrokenPipe));
    expect_written(rt, &outputs.report, WITH_MISSING);
}

#[test]
fn errors_that_cannot_be_written(rt: HostRuntime) {
    expect_without_errors(&rt, 0);
    expect_without_errors(&rt, 20);
}

/// The number of calls of the writer before its fault, which is in the first heading, in the line after it, in the empty line before the
/// second heading, in the second heading, or in the line after it.
#[rattlefmt::skip]
static CALLS: [usize; 6] = [0, 5, 14, 98, 99, 113];

#[test]
fn write_faults_within_headings(rt: HostRuntime) {
    let opener = Changed { alloc: rt.alloc() };
    let names = ["right", "right"];
    let whole = run_over(&rt, ONLY_LINES, &names, &opener);
    expect_equal(&rt, &whole.status, &0);
    let sources = Sources {
        names: &names,
        opener: &opener,
    };
    for calls in &CALLS {
        expect_beginning(&rt, ONLY_LINES, &sources, &whole.output, *calls, false);
    }
}
