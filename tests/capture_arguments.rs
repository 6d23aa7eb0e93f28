//! Tests of the crate `capture_arguments`: the command line of the program `capture_report`.

use crate::expect::{expect_at, expect_equal, expect_ok, expect_some};
use capture_arguments::{Arguments, no_capture, output_is_capture, requested_options, words_of};
use capture_file::pcapng::TimeResolution;
use capture_file::{PacketTime, nanoseconds_of};
use std::env::FillError;
use std::io::ErrorKind;
use std::process::Abort;

/// The arguments of a test, the name of the program first.
#[derive(Drop)]
struct Given {
    words: &'static [&'static [u8]],
}

impl Arguments for Given {
    ghost holds = { λ arguments place bytes. Unit {0} };

    ghost ends = { λ arguments place. Unit {0} };

    ghost exceeds = { λ arguments place len. Unit {0} };

    fn argument(&self, place: usize, buffer: &mut [u8]) -> Result<usize, FillError> {
        copy_word(self.words, place, buffer)
    }
}

/// Copies the word in this place, and returns its length.
fn copy_word(words: &[&[u8]], place: usize, buffer: &mut [u8]) -> Result<usize, FillError> {
    let Some(word) = words.get(place) else {
        return Err(FillError::NotPresent);
    };
    let Some(room) = buffer.get_mut(..word.len()) else {
        return Err(FillError::TooLong);
    };
    room.copy_from_slice(word);
    Ok(word.len())
}

/// The name of the program.
const NAME: &[u8] = b"capture_report";

/// The beginning of 1970.
const BEGINNING_OF_1970: PacketTime = PacketTime {
    seconds: 0,
    fraction: 0,
    resolution: TimeResolution::PowerOfTen(6),
    offset: 0,
};

/// An argument that is one byte longer than Linux accepts.
const TOO_LONG: &[u8] = &[b'a'; 131073];

/// Arguments that are accepted: the number of captures, the file for the packets, and whether lines are written out at once.
static ACCEPTED: [(&[&[u8]], usize, Option<&str>, bool); 16] = [
    (&[b"capture_report"], 0, None, false),
    (&[b"capture_report", b"a.pcap", b"-l"], 1, None, true),
    (
        &[b"capture_report", b"-r", b"a.pcap", b"b.pcap"],
        2,
        None,
        false,
    ),
    (
        &[b"capture_report", b"-w", b"-", b"a.pcap"],
        1,
        Some("-"),
        false,
    ),
    (&[b"capture_report", b"\xFF.pcap"], 1, None, false),
    (&[b"capture_report", b"--", b"-\xFF.pcap"], 1, None, false),
    (&[b"-\xFF", b"a.pcap"], 1, None, false),
    (&[NAME; 150], 149, None, false),
    (
        &[
            b"capture_report",
            b"--port=80,443,8000-8100",
            b"--not-port",
            b"53",
            b"--protocol",
            b"PPPoE-session",
            b"a.pcap",
        ],
        1,
        None,
        false,
    ),
    (
        &[
            b"capture_report",
            b"--source",
            b"10.0.0.0/8",
            b"--destination",
            b"::1",
            b"--not-host=::/0",
        ],
        0,
        None,
        false,
    ),
    (
        &[
            b"capture_report",
            b"--timeline",
            b"--json",
            b"--summary",
            b"--timeline",
        ],
        0,
        None,
        false,
    ),
    (
        &[b"capture_report", b"--interval", b"0.5", b"--json", b"a"],
        1,
        None,
        false,
    ),
    // A repeated option replaces its earlier use.
    (&[b"capture_report", b"-nnvvll", b"-n"], 0, None, true),
    (
        &[b"capture_report", b"-nnr", b"a.pcap", b"--json", b"--json"],
        1,
        None,
        false,
    ),
    (
        &[b"capture_report", b"-w", b"b.pcap", b"-w", b"-", b"a.pcap"],
        1,
        Some("-"),
        false,
    ),
    (
        &[b"capture_report", b"-c", b"1", b"-c", b"2", b"--", b"-i"],
        1,
        None,
        false,
    ),
];

/// Arguments that are refused, or request a text, with the exit status.
static REJECTED: [(&[&[u8]], i32); 21] = [
    (&[b"capture_report", b"--help"], 0),
    (&[b"capture_report", b"--version"], 0),
    (&[b"capture_report", b"--unknown"], 2),
    (&[b"capture_report", b"--summary", b"--packets"], 2),
    (&[b"capture_report", b"--timeline", b"--packets"], 2),
    (&[b"capture_report", b"--timeline", b"-w", b"-"], 2),
    (&[b"capture_report", b"--interval", b"1", b"--packets"], 2),
    (&[b"capture_report", b"--interval", b"1", b"-w", b"-"], 2),
    (&[b"capture_report", b"--interval", b"0"], 2),
    (&[b"capture_report", b"--port", b"65536"], 2),
    (&[b"capture_report", b"--port", b"80,"], 2),
    (&[b"capture_report", b"--not-port", b"81-80"], 2),
    (&[b"capture_report", b"--protocol", b"pppoe session"], 2),
    (&[b"capture_report", b"--not-host", b"10.0.0.1/8"], 2),
    (&[b"capture_report", b"--from", b"2.5"], 2),
    (&[b"capture_report", b"--to=2023-02-29T00:00:00Z"], 2),
    (
        &[
            b"capture_report",
            b"--port",
            b"1,2,3,4,5,6,7,8,9",
            b"--port",
            b"1,2,3,4,5,6,7,8",
        ],
        2,
    ),
    (&[b"capture_report", b"-w", b"a.pcap", b"a.pcap"], 2),
    (&[b"capture_report", b"--host=10.0.0.1\xFF", b"a.pcap"], 2),
    (&[b"capture_report", b"a.pcap", b"-\xFF"], 2),
    (&[b"capture_report", b"--help", b"-\xFF"], 0),
];

/// A value of `--from`, and the nanoseconds from the beginning of 1970 to this time. The first five are from RFC 3339, section 5.8.
#[rattlefmt::skip]
static TIMES: [(&[&[u8]], i128); 11] = [
    (&[NAME, b"--from", b"1985-04-12T23:20:50.52Z"], 482_196_050_520_000_000),
    (&[NAME, b"--from", b"1996-12-19T16:39:57-08:00"], 851_042_397_000_000_000),
    (&[NAME, b"--from", b"1990-12-31T23:59:60Z"], 662_688_000_000_000_000),
    (&[NAME, b"--from", b"1990-12-31T15:59:60-08:00"], 662_688_000_000_000_000),
    (&[NAME, b"--from", b"1937-01-01T12:00:27.87+00:20"], -1_041_337_172_130_000_000),
    (&[NAME, b"--from", b"2024-02-29t00:00:00z"], 1_709_164_800_000_000_000),
    (&[NAME, b"--from", b"2000-02-29 23:59:59.999999999-00:00"], 951_868_799_999_999_999),
    (&[NAME, b"--from", b"2023-11-14T22:13:20.000200Z"], 1_700_000_000_000_200_000),
    (&[NAME, b"--from", b"0001-01-01T00:00:00.1+23:59"], -62_135_683_139_900_000_000),
    (&[NAME, b"--from", b"0000-03-01T00:00:00Z"], -62_162_035_200_000_000_000),
    (&[NAME, b"--from", b"9999-12-31T23:59:59.000000001-23:59"], 253_402_387_139_000_000_001),
];

/// Values that are no date and time.
#[rattlefmt::skip]
static NO_TIMES: [&[&[u8]]; 29] = [
    &[NAME, b"--to", b"2023-11-14"],
    &[NAME, b"--to", b"2023-11-14T22:13:20"],
    &[NAME, b"--to", b"2023-11-14T22:13:20.Z"],
    &[NAME, b"--to", b"2023-11-14T22:13:20.0123456789Z"],
    &[NAME, b"--to", b"2023-02-29T00:00:00Z"],
    &[NAME, b"--to", b"1900-02-29T00:00:00Z"],
    &[NAME, b"--to", b"2023-04-31T00:00:00Z"],
    &[NAME, b"--to", b"2023-13-01T00:00:00Z"],
    &[NAME, b"--to", b"2023-00-01T00:00:00Z"],
    &[NAME, b"--to", b"2023-01-00T00:00:00Z"],
    &[NAME, b"--to", b"2023-11-14T24:00:00Z"],
    &[NAME, b"--to", b"2023-11-14T22:60:00Z"],
    &[NAME, b"--to", b"2023-11-14T22:13:61Z"],
    &[NAME, b"--to", b"2023-11-14_22:13:20Z"],
    &[NAME, b"--to", b"2023/11/14T22:13:20Z"],
    &[NAME, b"--to", b"2023-11-14T22:13:20+24:00"],
    &[NAME, b"--to", b"2023-11-14T22:13:20+01:60"],
    &[NAME, b"--to", b"2023-11-14T22:13:20+0100"],
    &[NAME, b"--to", b"2023-11-14T22:13:20+01"],
    &[NAME, b"--to", b"+023-11-14T22:13:20Z"],
    &[NAME, b"--to", b"2023-11-14T22:13:20,5Z"],
    &[NAME, b"--to", b"2023-11-14T22:13:20.5aZ"],
    &[NAME, b"--to", b"2023-11-14T22:13:20ZZ"],
    &[NAME, b"--to", b" 2023-11-14T22:13:20Z"],
    &[NAME, b"--to", b"20231114T221320Z"],
    &[NAME, b"--to", b"2.5"],
    &[NAME, b"--to", b"0"],
    &[NAME, b"--to", b""],
    &[NAME, b"--to", b"Z"],
];

/// Words that look like options but are not options, each with the text of the error, which names no other option.
static UNKNOWN: [(&[&[u8]], &str); 6] = [
    (&[b"capture_report", b"--filter", b"tcp"], "--filter"),
    (&[b"capture_report", b"-i", b"eth0"], "-i"),
    (&[b"capture_report", b"a.pcap", b"-nx"], "-nx"),
    (&[b"capture_report", b"--summry"], "--summry"),
    (&[b"capture_report", b"--host", b"-1"], "-1"),
    (&[b"capture_report", b"--write-to=-", b"-q"], "--write-to=-"),
];

/// Several captures with `-w`, and whether the error contains the hint at the options for filters.
static SEVERAL: [(&[&[u8]], bool); 3] = [
    (
        &[b"capture_report", b"-w", b"-", b"a.pcap", b"b.pcap"],
        false,
    ),
    (
        &[b"capture_report", b"-w", b"-", b"a.pcap", b"port", b"53"],
        true,
    ),
    (
        &[b"capture_report", b"-w", b"-", b"a.pcap", b"tcp port 53"],
        true,
    ),
];

/// The words of these arguments.
fn words(rt: &(impl Abort + AllocGlobal), words: &'static [&'static [u8]]) -> Vec<String> {
    expect_ok(rt, words_of(&rt.alloc(), &Given { words }))
}

/// Stops the test unless the arguments of a row have the options of the row.
fn expect_options(
    rt: &(impl Abort + AllocGlobal),
    row: &(&'static [&'static [u8]], usize, Option<&str>, bool),
) {
    let words = words(rt, row.0);
    let options = expect_some(rt, requested_options(&rt.alloc(), words.as_slice()).ok());
    expect_at(rt, row, &options.files.len(), &row.1);
    expect_at(rt, row, &options.write, &row.2);
    expect_at(rt, row, &options.line_buffered, &row.3);
}

/// Stops the test unless the arguments of a row have the exit status of the row.
fn expect_rejected(rt: &(impl Abort + AllocGlobal), row: &(&'static [&'static [u8]], i32)) {
    let words = words(rt, row.0);
    let error = expect_some(rt, requested_options(&rt.alloc(), words.as_slice()).err());
    expect_at(rt, row, &error.exit_code(), &row.1);
}

/// Stops the test unless the option `--from` of a row has the time of the row.
fn expect_time(rt: &(impl Abort + AllocGlobal), row: &(&'static [&'static [u8]], i128)) {
    let words = words(rt, row.0);
    let options = expect_some(rt, requested_options(&rt.alloc(), words.as_slice()).ok());
    let range = options.parts.choice.time_range;
    let begin = nanoseconds_of(BEGINNING_OF_1970) as i128;
    expect_at(rt, row, &range.from, &Some((begin + row.1) as u128));
    expect_at(rt, row, &range.to, &None);
}

/// Stops the test unless the value of a row is refused, and the error names the option and the value.
fn expect_no_time(rt: &(impl Abort + AllocGlobal), row: &'static [&'static [u8]]) {
    let words = words(rt, row);
    let error = expect_some(rt, requested_options(&rt.alloc(), words.as_slice()).err());
    let text = expect_ok(rt, format!(in rt.alloc(); "{error}"));
    let wanted = expect_ok(
        rt,
        format!(in rt.alloc();
            "error: invalid value '{}' for '--to <TIME>': not a date and time such as 2023-11-14T22:13:20Z\n\n",
            words.as_slice()[2]
        ),
    );
    expect_at(rt, &row, &text.as_str().starts_with(wanted.as_str()), &true);
    expect_at(rt, &row, &error.exit_code(), &2);
}

/// Stops the test unless the error of a row is this text and the usage.
fn expect_unknown(rt: &(impl Abort + AllocGlobal), row: &(&'static [&'static [u8]], &str)) {
    let words = words(rt, row.0);
    let error = expect_some(rt, requested_options(&rt.alloc(), words.as_slice()).err());
    let text = expect_ok(rt, format!(in rt.alloc(); "{error}"));
    let wanted = expect_ok(
        rt,
        format!(in rt.alloc();
            "error: unexpected argument '{}' found\n\nUsage: capture_report [OPTIONS] [FILE]...\n\nFor more information, try '--help'.\n",
            row.1
        ),
    );
    expect_at(rt, row, &text.as_str(), &wanted.as_str());
}

/// Stops the test unless the error of a row has the hint if the row says so.
fn expect_hint(rt: &(impl Abort + AllocGlobal), row: &(&'static [&'static [u8]], bool)) {
    let words = words(rt, row.0);
    let error = expect_some(rt, requested_options(&rt.alloc(), words.as_slice()).err());
    let text = expect_ok(rt, format!(in rt.alloc(); "{error}"));
    let has_hint = text
        .as_str()
        .contains("; filters are --host, --port and --protocol\n");
    expect_at(rt, row, &has_hint, &row.1);
}

/// Stops the test unless an argument that is too long is refused for its length.
fn expect_too_long(rt: &(impl Abort + AllocGlobal)) {
    static WORDS: [&[u8]; 2] = [NAME, TOO_LONG];
    let error = expect_some(rt, words_of(&rt.alloc(), &Given { words: &WORDS }).err());
    expect_equal(rt, &error.kind(), &ErrorKind::ArgumentListTooLong);
}

#[test]
fn arguments_are_options(rt: HostRuntime) {
    for row in &ACCEPTED {
        expect_options(&rt, row);
    }
}

#[test]
fn arguments_are_rejected(rt: HostRuntime) {
    for row in &REJECTED {
        expect_rejected(&rt, row);
    }
    expect_too_long(&rt);
}

#[test]
fn dates_and_times_are_read(rt: HostRuntime) {
    for row in &TIMES {
        expect_time(&rt, row);
    }
    for row in &NO_TIMES {
        expect_no_time(&rt, row);
    }
}

#[test]
fn unknown_options_are_named_without_other_options(rt: HostRuntime) {
    for row in &UNKNOWN {
        expect_unknown(&rt, row);
    }
}

#[test]
fn filters_among_several_captures_get_a_hint(rt: HostRuntime) {
    for row in &SEVERAL {
        expect_hint(&rt, row);
    }
}

#[test]
fn errors_about_the_captures_have_status_2(rt: HostRuntime) {
    expect_equal(&rt, &no_capture(&rt.alloc()).exit_code(), &2);
    expect_equal(&rt, &output_is_capture(&rt.alloc()).exit_code(), &2);
}

/// Texts of the option `--interval`, and their numbers of nanoseconds. `None` is a text that is refused.
#[rattlefmt::skip]
static INTERVALS: [(&[u8], Option<u128>); 31] = [
    (b"1", Some(1_000_000_000)), (b"0.5", Some(500_000_000)), (b"0.000001", Some(1_000)), (b"0.000000001", Some(1)),
    (b"001.50", Some(1_500_000_000)), (b"10.000000001", Some(10_000_000_001)), (b"0.123456789", Some(123_456_789)),
    (b"3600", Some(3_600_000_000_000)), (b"1000000000", Some(1_000_000_000_000_000_000)),
    (b"999999999.999999999", Some(999_999_999_999_999_999)), (b"1000000000.0", Some(1_000_000_000_000_000_000)),
    (b"1000000000.000000001", None), (b"1000000001", None), (b"18446744073709551616", None), (b"99999999999999999999999999", None), (b"0", None),
    (b"0.0", None), (b"0.000000000", None), (b"0.0000000001", None), (b"0.0000000000", None), (b"", None), (b".", None), (b".5", None),
    (b"1.", None), (b"+1", None), (b"1.+5", None), (b"1.2.3", None), (b"1e3", None), (b" 1", None), (b"1,5", None), (b"x", None),
];

/// The arguments of a test of `--interval`: the text of its value.
#[derive(Drop)]
struct Interval {
    text: &'static [u8],
}

impl Arguments for Interval {
    ghost holds = { λ arguments place bytes. Unit {0} };

    ghost ends = { λ arguments place. Unit {0} };

    ghost exceeds = { λ arguments place len. Unit {0} };

    fn argument(&self, place: usize, buffer: &mut [u8]) -> Result<usize, FillError> {
        copy_word(&[NAME, b"--interval", self.text], place, buffer)
    }
}

/// Stops the test unless the option `--interval` with the text of a row has the value of the row.
fn expect_interval(rt: &(impl Abort + AllocGlobal), row: &(&'static [u8], Option<u128>)) {
    let arguments = Interval { text: row.0 };
    let words = expect_ok(rt, words_of(&rt.alloc(), &arguments));
    match requested_options(&rt.alloc(), words.as_slice()) {
        Ok(options) => {
            let interval = options.parts.interval.map(|interval| interval.get());
            expect_at(rt, row, &interval, &row.1);
            expect_at(rt, row, &options.parts.timeline, &true);
        }
        Err(error) => {
            expect_at(rt, row, &error.exit_code(), &2);
            expect_at(rt, row, &None, &row.1);
        }
    }
}

#[test]
fn intervals_of_the_timeline(rt: HostRuntime) {
    for row in &INTERVALS {
        expect_interval(&rt, row);
    }
}
