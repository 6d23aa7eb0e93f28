//! Tests of times as words.

use crate::expect::{expect_ok, expect_written};
use capture_file::PacketTime;
use capture_file::classic::{Resolution, Time};
use capture_file::pcapng::TimeResolution;
use capture_words::{write_absolute, write_since};
use std::process::Abort;

const SECONDS: TimeResolution = TimeResolution::PowerOfTen(0);

const MICROSECONDS: TimeResolution = TimeResolution::PowerOfTen(6);

const NANOSECONDS: TimeResolution = TimeResolution::PowerOfTen(9);

/// Stops the test unless this is the text of the time from the first packet to another.
fn expect_since(
    rt: &(impl Abort + AllocGlobal),
    first: Option<PacketTime>,
    time: Option<PacketTime>,
    wanted: &str,
) {
    let mut text = Vec::new(rt.alloc());
    expect_ok(rt, write_since(&mut text, first, time));
    expect_written(rt, &text, wanted);
}

/// The seconds and the fraction of the first packet and of another, and the text of the time between them.
#[rattlefmt::skip]
const SINCE_FIRST: [(Resolution, (u32, u32), (u32, u32), &str); 13] = [
    (Resolution::Microseconds, (5, 0), (5, 0), "00:00:00.000000"),
    (Resolution::Microseconds, (5, 999_900), (6, 100), "00:00:00.000200"),
    (Resolution::Microseconds, (0, 0), (3_661, 1), "01:01:01.000001"),
    (Resolution::Microseconds, (0, 0), (359_999, 999_999), "99:59:59.999999"),
    (Resolution::Microseconds, (0, 0), (360_000, 0), "100:00:00.000000"),
    (Resolution::Microseconds, (0, 0), (4_294_967_295, 0), "1193046:28:15.000000"),
    (Resolution::Microseconds, (10, 0), (9, 999_999), "-00:00:00.000001"),
    (Resolution::Microseconds, (90_000, 5), (0, 0), "-25:00:00.000005"),
    (Resolution::Microseconds, (1, 0), (1, 1_500_000), "00:00:01.500000"),
    (Resolution::Microseconds, (0, 0), (4_294_967_295, 4_294_967_295), "1193047:39:49.967295"),
    (Resolution::Nanoseconds, (7, 1), (8, 0), "00:00:00.999999999"),
    (Resolution::Nanoseconds, (8, 0), (7, 1), "-00:00:00.999999999"),
    (Resolution::Nanoseconds, (0, 0), (0, 4_294_967_295), "00:00:04.294967295"),
];

/// The time of a packet of a classic capture.
fn time_of(resolution: Resolution, (seconds, fraction): (u32, u32)) -> Option<PacketTime> {
    let time = Time { seconds, fraction };
    Some(PacketTime::from_record(resolution, time))
}

#[test]
fn times_since_the_first_packet(rt: HostRuntime) {
    for (resolution, first, time, wanted) in &SINCE_FIRST {
        let first = time_of(*resolution, *first);
        expect_since(&rt, first, time_of(*resolution, *time), wanted);
    }
}

/// 10.25 seconds after the beginning of 1970.
const START: PacketTime = PacketTime {
    seconds: 10,
    fraction: 250_000,
    resolution: MICROSECONDS,
    offset: 0,
};

/// The times of the first packet and of another, and the text of the time between them.
#[rattlefmt::skip]
const IN_OTHER_RESOLUTIONS: [(Option<PacketTime>, Option<PacketTime>, &str); 12] = [
    (None, None, "-"),
    (Some(START), None, "-"),
    (None, Some(START), "00:00:00.000000"),
    (Some(START), Some(PacketTime { seconds: 11, fraction: 0, resolution: SECONDS, offset: 0 }), "00:00:00.750000"),
    (Some(START), Some(PacketTime { seconds: 10, fraction: 512, resolution: TimeResolution::PowerOfTwo(10), offset: 0 }),
     "00:00:00.250000"),
    (Some(START), Some(PacketTime { seconds: 10, fraction: 1, resolution: TimeResolution::PowerOfTwo(10), offset: 0 }),
     "-00:00:00.249023"),
    (Some(START), Some(PacketTime { seconds: 10, fraction: 1, resolution: TimeResolution::PowerOfTwo(30), offset: 0 }),
     "-00:00:00.250000000"),
    (Some(START), Some(PacketTime { seconds: 0, fraction: u64::MAX, resolution: TimeResolution::PowerOfTen(127), offset: 0 }),
     "-00:00:10.250000000"),
    (Some(START),
     Some(PacketTime { seconds: 10, fraction: 999_999_999_999_999_999, resolution: TimeResolution::PowerOfTen(18), offset: 0 }),
     "00:00:00.749999999"),
    (Some(START), Some(PacketTime { seconds: 10, fraction: 0, resolution: SECONDS, offset: 60 }), "00:00:59.750000"),
    (Some(START), Some(PacketTime { seconds: 10, fraction: 0, resolution: SECONDS, offset: -3_600 }), "-01:00:00.250000"),
    (Some(PacketTime { seconds: 0, fraction: 0, resolution: SECONDS, offset: i64::MIN }),
     Some(PacketTime { seconds: u64::MAX, fraction: 0, resolution: SECONDS, offset: i64::MAX }), "10248191152060862:00:30.000000"),
];

#[test]
fn times_in_other_resolutions(rt: HostRuntime) {
    for (first, time, wanted) in &IN_OTHER_RESOLUTIONS {
        expect_since(&rt, *first, *time, wanted);
    }
}

/// The seconds, the fraction and the offset of a time, and its date and time of day.
type DateRow = (TimeResolution, u64, u64, i64, &'static str);

#[rattlefmt::skip]
static DATES: [DateRow; 14] = [
    (MICROSECONDS, 0, 0, 0, "1970-01-01T00:00:00.000000Z"),
    (MICROSECONDS, 1_700_000_000, 200, 0, "2023-11-14T22:13:20.000200Z"),
    (NANOSECONDS, 1_700_000_000, 200, -3_600, "2023-11-14T21:13:20.000000200Z"),
    (SECONDS, 951_782_400, 0, 0, "2000-02-29T00:00:00.000000Z"),
    (SECONDS, 978_307_199, 0, 0, "2000-12-31T23:59:59.000000Z"),
    (SECONDS, 4_107_542_400, 0, 0, "2100-03-01T00:00:00.000000Z"),
    (MICROSECONDS, 4_294_967_295, 4_294_967_295, 0, "2106-02-07T07:39:49.967295Z"),
    (NANOSECONDS, 0, 999_999_999, -1, "1969-12-31T23:59:59.999999999Z"),
    (SECONDS, 0, 0, -62_167_219_200, "0000-01-01T00:00:00.000000Z"),
    (SECONDS, 0, 0, -62_167_219_201, "-62167219201.000000"),
    (NANOSECONDS, 253_402_300_799, 999_999_999, 0, "9999-12-31T23:59:59.999999999Z"),
    (MICROSECONDS, 253_402_300_800, 1, 0, "253402300800.000001"),
    (NANOSECONDS, 0, 1, i64::MIN, "-9223372036854775807.999999999"),
    (SECONDS, u64::MAX, 0, i64::MAX, "27670116110564327422.000000"),
];

/// Stops the test unless the time of a row has the text of the row.
fn expect_date(rt: &(impl Abort + AllocGlobal), row: &DateRow) {
    let (resolution, seconds, fraction, offset, wanted) = *row;
    let time = PacketTime {
        seconds,
        fraction,
        resolution,
        offset,
    };
    let mut text = Vec::new(rt.alloc());
    expect_ok(rt, write_absolute(&mut text, time));
    expect_written(rt, &text, wanted);
}

#[test]
fn dates_and_times_of_day(rt: HostRuntime) {
    for row in &DATES {
        expect_date(&rt, row);
    }
}
