//! Tests of the crate `capture_selection`: the selected packets of a capture are written to another capture.

use crate::captures::{
    ALL, ENHANCED, ENHANCED_END, ENHANCED_OF_SECOND, FaultyReader, FaultyWriter, OTHER_BLOCK,
    OTHER_LINK, RAW_IP, SECTION, SIMPLE, SIMPLE_END, UDP, first_bytes, long_capture, two_packets,
};
use crate::expect::{expect_at, expect_equal, expect_some, joined};
use capture_file::pcapng::TimeResolution;
use capture_file::{PacketTime, nanoseconds_of};
use capture_packet::MAX_PACKET_LEN;
use capture_run::{CaptureError, Choice, ExitStatus, Lines, Parts};
use capture_selection::{Copier, Counts, SelectionError, write_selected};
use capture_summary::{MAX_CHOSEN, PortRange, TimeRange};
use std::io::{Read, Write};
use std::process::Abort;

/// The beginning of 1970.
const BEGINNING_OF_1970: PacketTime = PacketTime {
    seconds: 0,
    fraction: 0,
    resolution: TimeResolution::PowerOfTen(6),
    offset: 0,
};

/// The counts of a selection, its exit status, and the place in its error. An error of the writer has no status.
#[derive(Drop)]
struct Selected {
    status: Option<ExitStatus>,
    counts: Counts,
    place: Option<(u64, u64)>,
}

/// The number of the packet and the offset in an error, if it contains them.
fn place_in(error: &CaptureError) -> Option<(u64, u64)> {
    match error {
        CaptureError::RecordCutOff { number, offset, .. } => Some((*number, *offset)),
        CaptureError::Read { number, offset, .. } => Some((*number, *offset)),
        _ => None,
    }
}

/// Selects packets of a capture. The buffer is an array, since a checked build fills and drops a vector byte by byte, which takes long.
fn select<R: Read, W: Write>(input: &mut R, output: &mut W, parts: &Parts) -> Selected {
    let mut buffer = [0; MAX_PACKET_LEN];
    let mut counts = Counts::NONE;
    let mut copier = Copier::new(input, output, &mut buffer);
    let (status, place) = match write_selected(&mut copier, parts, &mut counts) {
        Ok(_) => (Some(ExitStatus::Success), None),
        Err(SelectionError::Capture(error)) => (Some(error.status()), place_in(&error)),
        Err(SelectionError::Write(_)) => (None, None),
    };
    Selected {
        status,
        counts,
        place,
    }
}

/// The options that select packets of this port, if there is one.
fn of_port(port: Option<u16>, lines: Lines, limit: Option<u64>) -> Parts {
    let mut ports = [None; MAX_CHOSEN];
    if let Some(first) = ports.first_mut() {
        *first = port.map(|port| PortRange {
            first: port,
            last: port,
        });
    }
    Parts {
        choice: Choice {
            ports: if port.is_some() { Some(ports) } else { None },
            ..Choice::ALL
        },
        lines,
        limit,
        ..ALL
    }
}

/// A port, the lines, a limit, and the part of a capture of two packets that is written: the numbers of bytes before the records and of the
/// records. Then the numbers of packets that are read, chosen and written. The second packet is wrong.
type SelectionRow = (
    Option<u16>,
    Lines,
    Option<u64>,
    (usize, usize),
    (u64, u64, u64),
);

#[rattlefmt::skip]
static SELECTIONS: [SelectionRow; 10] = [
    (None, Lines::All, None, (24, 114), (2, 2, 2)),
    (None, Lines::Wrong, None, (69, 114), (2, 2, 1)),
    (None, Lines::None, None, (24, 24), (2, 2, 0)),
    (Some(9), Lines::All, None, (24, 69), (2, 1, 1)),
    (Some(10), Lines::All, None, (69, 114), (2, 1, 1)),
    (Some(9), Lines::Wrong, None, (24, 24), (2, 1, 0)),
    (None, Lines::All, Some(1), (24, 69), (1, 1, 1)),
    (Some(10), Lines::All, Some(1), (69, 114), (2, 1, 1)),
    // A packet that is not written does not count towards the limit.
    (None, Lines::Wrong, Some(1), (69, 114), (2, 2, 1)),
    (None, Lines::None, Some(1), (24, 24), (2, 2, 0)),
];

/// Stops the test unless this many packets are read, chosen and written.
fn expect_counts(rt: &impl Abort, counts: &Counts, expected: (u64, u64, u64)) {
    let (read, chosen, written) = expected;
    expect_equal(rt, &counts.read, &read);
    expect_equal(rt, &counts.chosen, &chosen);
    expect_equal(rt, &counts.written, &written);
}

/// Stops the test unless the packets of a row are selected.
fn expect_selection(rt: &(impl Abort + AllocGlobal), whole: &[u8], row: &SelectionRow) {
    let (port, lines, limit, (start, end), numbers) = *row;
    let mut input = whole;
    let mut output = Vec::new(rt.alloc());
    let parts = of_port(port, lines, limit);
    let selected = select(&mut input, &mut output, &parts);
    let records = expect_some(rt, whole.get(start..end));
    let wanted = joined(rt, &[first_bytes(whole, 24), records]);
    expect_equal(rt, &output.as_slice(), &wanted.as_slice());
    expect_equal(rt, &selected.status, &Some(ExitStatus::Success));
    expect_counts(rt, &selected.counts, numbers);
}

#[test]
fn records_are_selected(rt: HostRuntime) {
    let whole = two_packets(&rt, 10);
    for row in &SELECTIONS {
        expect_selection(&rt, &whole, row);
    }
}

/// The expected selection of a cut capture: its status, its length, the number of packets that are read, and the place in its error.
type Cut = (ExitStatus, usize, u64, Option<(u64, u64)>);

/// The selection of all packets of a capture that is cut here.
fn of_cut_capture(cut: usize) -> Cut {
    match cut {
        0..24 => (ExitStatus::NoCapture, 0, 0, None),
        24 => (ExitStatus::Success, 24, 0, None),
        25..69 => (ExitStatus::Unfinished, 24, 0, Some((1, 24))),
        69 => (ExitStatus::Success, 69, 1, None),
        _ => (ExitStatus::Unfinished, 69, 1, Some((2, 69))),
    }
}

/// Stops the test unless this is the selection of all packets of a cut capture.
fn expect_cut(rt: &(impl Abort + AllocGlobal), whole: &[u8], cut: usize, expected: Cut) {
    let mut input = first_bytes(whole, cut);
    let mut output = Vec::new(rt.alloc());
    let parts = of_port(None, Lines::All, None);
    let selected = select(&mut input, &mut output, &parts);
    let (status, len, read, place) = expected;
    expect_at(rt, &cut, &output.as_slice(), &first_bytes(whole, len));
    expect_at(rt, &cut, &selected.status, &Some(status));
    expect_at(rt, &cut, &selected.counts.read, &read);
    expect_at(rt, &cut, &selected.place, &place);
}

#[test]
fn cut_captures_are_selected(rt: HostRuntime) {
    let whole = two_packets(&rt, 10);
    for cut in 0..whole.len() {
        expect_cut(&rt, &whole, cut, of_cut_capture(cut));
    }
}

/// A port, the number of bytes that are missing at the end of a capture with one packet that is too long, whether the present bytes of the
/// record are written, and the status.
type LongRow = (Option<u16>, usize, bool, ExitStatus);

#[rattlefmt::skip]
static LONG: [LongRow; 4] = [
    (None, 0, true, ExitStatus::Success),
    (None, 1, true, ExitStatus::Unfinished),
    (Some(9), 0, false, ExitStatus::Success),
    (Some(9), 1, false, ExitStatus::Unfinished),
];

/// Stops the test unless the packet is selected as a row says.
fn expect_long(rt: &(impl Abort + AllocGlobal), whole: &[u8], row: &LongRow) {
    let (port, missing, is_written, status) = *row;
    let bytes = first_bytes(whole, whole.len().saturating_sub(missing));
    let mut input = bytes;
    let mut output = Vec::new(rt.alloc());
    let parts = of_port(port, Lines::All, None);
    let selected = select(&mut input, &mut output, &parts);
    let len = if is_written { bytes.len() } else { 24 };
    let is_equal = output.as_slice() == first_bytes(bytes, len);
    expect_equal(rt, &is_equal, &true);
    expect_equal(rt, &selected.status, &Some(status));
}

#[test]
fn a_packet_that_is_too_long_is_selected(rt: HostRuntime) {
    let whole = long_capture(&rt);
    for row in &LONG {
        expect_long(&rt, &whole, row);
    }
}

/// The beginning and the end of a range of times in nanoseconds since 1970, and whether a packet at 5.000007 seconds is written.
#[rattlefmt::skip]
static TIME_RANGES: [(Option<u64>, Option<u64>, bool); 5] = [
    (Some(5_000_007_000), None, true),
    (Some(5_000_007_001), None, false),
    (None, Some(5_000_007_000), false),
    (None, Some(5_000_007_001), true),
    (Some(5_000_000_000), Some(6_000_000_000), true),
];

/// Stops the test unless the packets of a capture are all written, or all left out, as a row states.
fn expect_times(
    rt: &(impl Abort + AllocGlobal),
    whole: &[u8],
    row: &(Option<u64>, Option<u64>, bool),
) {
    let begin = nanoseconds_of(BEGINNING_OF_1970);
    let time_range = TimeRange {
        from: row.0.map(|time| begin + u128::from(time)),
        to: row.1.map(|time| begin + u128::from(time)),
    };
    let parts = Parts {
        choice: Choice {
            time_range,
            ..Choice::ALL
        },
        ..ALL
    };
    let mut input = whole;
    let mut output = Vec::new(rt.alloc());
    let selected = select(&mut input, &mut output, &parts);
    let len = if row.2 { whole.len() } else { 24 };
    let is_equal = output.as_slice() == first_bytes(whole, len);
    expect_at(rt, row, &is_equal, &true);
    expect_at(rt, row, &selected.status, &Some(ExitStatus::Success));
}

#[test]
fn times_select_packets_of_any_length(rt: HostRuntime) {
    let (kept, long) = (two_packets(&rt, 10), long_capture(&rt));
    for row in &TIME_RANGES {
        expect_times(&rt, &kept, row);
        expect_times(&rt, &long, row);
    }
}

/// Stops the test unless a selection whose writer fails at the call after `calls` has written the first bytes of the capture.
fn expect_beginning(rt: &(impl Abort + AllocGlobal), whole: &[u8], calls: usize) {
    let mut input = whole;
    let mut output = FaultyWriter {
        written: Vec::new(rt.alloc()),
        calls,
        takes_nothing: false,
    };
    let parts = of_port(None, Lines::All, None);
    let selected = select(&mut input, &mut output, &parts);
    expect_equal(rt, &selected.status, &None);
    let written = output.written.as_slice();
    expect_equal(rt, &written, &first_bytes(whole, calls));
}

#[test]
fn write_faults_leave_the_first_bytes_of_a_selection(rt: HostRuntime) {
    let whole = two_packets(&rt, 10);
    for calls in 0..whole.len() {
        expect_beginning(&rt, &whole, calls);
    }
}

/// Stops the test unless a selection whose reader fails after this many reads ends there.
fn expect_read_fault(rt: &(impl Abort + AllocGlobal), whole: &[u8], reads: usize) {
    let mut input = FaultyReader { rest: whole, reads };
    let mut output = Vec::new(rt.alloc());
    let parts = of_port(None, Lines::All, None);
    let selected = select(&mut input, &mut output, &parts);
    let (len, place) = match reads {
        0..24 => (0, None),
        24..69 => (24, Some((1, 24))),
        69..114 => (69, Some((2, 69))),
        _ => (114, Some((3, 114))),
    };
    expect_at(rt, &reads, &selected.status, &Some(ExitStatus::Failed));
    expect_at(rt, &reads, &selected.place, &place);
    expect_at(rt, &reads, &output.as_slice(), &first_bytes(whole, len));
}

#[test]
fn read_faults_end_a_selection(rt: HostRuntime) {
    let whole = two_packets(&rt, 10);
    for reads in 0..whole.len() + 1 {
        expect_read_fault(&rt, &whole, reads);
    }
}

/// A port, the lines, and what is written for a pcapng file with two sections, four packets and blocks without a packet. The link type of
/// the second packet is not read.
type FileRow = (Option<u16>, Lines, &'static [&'static [u8]]);

#[rattlefmt::skip]
static FILES: [FileRow; 4] = [
    (None, Lines::All, PARTS),
    (Some(9), Lines::All, &[SECTION, RAW_IP, OTHER_LINK, OTHER_BLOCK, ENHANCED, &UDP, ENHANCED_END,
      SECTION, RAW_IP, SIMPLE, &UDP, SIMPLE_END, ENHANCED, &UDP, ENHANCED_END, OTHER_BLOCK]),
    (Some(10), Lines::All, &[SECTION, RAW_IP, OTHER_LINK, OTHER_BLOCK, SECTION, RAW_IP, OTHER_BLOCK]),
    (None, Lines::Wrong, &[SECTION, RAW_IP, OTHER_LINK, OTHER_BLOCK, SECTION, RAW_IP, OTHER_BLOCK]),
];

/// The parts of the file.
#[rattlefmt::skip]
const PARTS: &[&[u8]] = &[
    SECTION, RAW_IP, OTHER_LINK, OTHER_BLOCK, ENHANCED, &UDP, ENHANCED_END, ENHANCED_OF_SECOND, &UDP, ENHANCED_END,
    SECTION, RAW_IP, SIMPLE, &UDP, SIMPLE_END, ENHANCED, &UDP, ENHANCED_END, OTHER_BLOCK,
];

/// Stops the test unless the blocks of a row are selected.
fn expect_blocks(rt: &(impl Abort + AllocGlobal), whole: &[u8], row: &FileRow) {
    let (port, lines, wanted) = *row;
    let mut input = whole;
    let mut output = Vec::new(rt.alloc());
    let parts = of_port(port, lines, None);
    let selected = select(&mut input, &mut output, &parts);
    let wanted = joined(rt, wanted);
    expect_equal(rt, &output.as_slice(), &wanted.as_slice());
    expect_equal(rt, &selected.status, &Some(ExitStatus::Success));
    expect_equal(rt, &selected.counts.read, &4);
}

#[test]
fn blocks_are_selected(rt: HostRuntime) {
    let whole = joined(&rt, PARTS);
    for row in &FILES {
        expect_blocks(&rt, &whole, row);
    }
}

/// The selection of all packets of a pcapng file with one packet that is cut here.
fn of_cut_file(cut: usize) -> Cut {
    match cut {
        4..28 => (ExitStatus::NoCapture, 0, 0, None),
        28 => (ExitStatus::Success, 28, 0, None),
        29..48 => (ExitStatus::Unfinished, 28, 0, Some((1, 28))),
        48 => (ExitStatus::Success, 48, 0, None),
        _ => (ExitStatus::Unfinished, 48, 0, Some((1, 48))),
    }
}

#[test]
fn cut_pcapng_files_are_selected(rt: HostRuntime) {
    let whole = joined(&rt, &[SECTION, RAW_IP, ENHANCED, &UDP, ENHANCED_END]);
    for cut in 4..whole.len() {
        expect_cut(&rt, &whole, cut, of_cut_file(cut));
    }
}

/// A section header block, and its copy, in which the section length is not specified.
type SectionRow = (&'static [u8], &'static [u8]);

#[rattlefmt::skip]
static SECTION_LENGTHS: [SectionRow; 3] = [
    (b"\x0A\x0D\x0D\x0A\x1C\0\0\0\x4D\x3C\x2B\x1A\x01\0\0\0\x14\0\0\0\0\0\0\0\x1C\0\0\0",
     b"\x0A\x0D\x0D\x0A\x1C\0\0\0\x4D\x3C\x2B\x1A\x01\0\0\0\xFF\xFF\xFF\xFF\xFF\xFF\xFF\xFF\x1C\0\0\0"),
    (b"\x0A\x0D\x0D\x0A\0\0\0\x1C\x1A\x2B\x3C\x4D\0\x01\0\0\0\0\0\0\0\0\0\x14\0\0\0\x1C",
     b"\x0A\x0D\x0D\x0A\0\0\0\x1C\x1A\x2B\x3C\x4D\0\x01\0\0\xFF\xFF\xFF\xFF\xFF\xFF\xFF\xFF\0\0\0\x1C"),
    (SECTION, SECTION),
];

/// Stops the test unless the section header block of a row is written as its copy, twice in a file.
fn expect_section_len(rt: &(impl Abort + AllocGlobal), row: &SectionRow) {
    let (section, copy) = *row;
    let whole = joined(rt, &[section, section]);
    let mut input = whole.as_slice();
    let mut output = Vec::new(rt.alloc());
    let selected = select(&mut input, &mut output, &of_port(None, Lines::All, None));
    let wanted = joined(rt, &[copy, copy]);
    expect_equal(rt, &output.as_slice(), &wanted.as_slice());
    expect_equal(rt, &selected.status, &Some(ExitStatus::Success));
}

#[test]
fn the_length_of_a_section_is_not_specified(rt: HostRuntime) {
    for row in &SECTION_LENGTHS {
        expect_section_len(&rt, row);
    }
}
