//! Tests of the crate `timeline`.

use crate::expect::{expect_at, expect_equal, expect_ok, expect_some};
use std::alloc::Global;
use std::num::NonZeroU128;
use std::process::Abort;
use timeline::{
    Count, Counts, Event, Fault, MAX_FIXED_INTERVALS, MAX_INTERVALS, Timeline, Transport,
};

/// A UDP packet of 100 bytes at this time.
fn udp(time: Option<u128>) -> Event {
    Event {
        time,
        len: 100,
        transport: Transport::Udp,
        fault: None,
    }
}

/// A count of this number of packets and of bytes.
fn count(packets: u64, bytes: u64) -> Count {
    Count { packets, bytes }
}

/// The intervals of a timeline.
fn intervals(rt: &impl Abort, alloc: Global, timeline: &Timeline) -> Vec<Counts> {
    expect_ok(rt, timeline.intervals(alloc))
}

/// Stops the test unless the intervals that are read one by one are these. Other intervals contain no packets.
fn expect_each_interval(rt: &impl Abort, timeline: &Timeline, shown: &[Counts]) {
    expect_equal(rt, &timeline.interval_count(), &shown.len());
    for (place, counts) in shown.iter().enumerate() {
        expect_at(rt, &place, &timeline.interval(place), counts);
    }
    for place in [shown.len(), usize::MAX] {
        expect_at(rt, &place, &timeline.interval(place), &Counts::NONE);
    }
}

/// Stops the test unless the width and the number of intervals are these after a packet at time 1000 and another packet so much later.
fn expect_width(rt: &impl Abort, alloc: Global, row: &(u128, u128, usize)) {
    let mut timeline = expect_ok(rt, Timeline::new(alloc));
    timeline.add(&udp(Some(1000)));
    timeline.add(&udp(Some(1000 + row.0)));
    let shown = intervals(rt, alloc, &timeline);
    expect_at(rt, row, &timeline.width(), &row.1);
    expect_at(rt, row, &shown.len(), &row.2);
    expect_each_interval(rt, &timeline, &shown);
    if let Some(last) = shown.last() {
        let packets = if shown.len() == 1 { 2 } else { 1 };
        expect_at(rt, row, &last.udp.packets, &packets);
    }
}

#[test]
fn the_width_is_the_least_that_fits(rt: HostRuntime) {
    let rows: [(u128, u128, usize); 14] = [
        (0, 1, 1),
        (255, 1, 256),
        (256, 2, 129),
        (511, 2, 256),
        (512, 5, 103),
        (1_279, 5, 256),
        (1_280, 10, 129),
        (2_559, 10, 256),
        (2_560, 20, 129),
        (12_799, 50, 256),
        (12_800, 100, 129),
        (3_600_000_000_000, 20_000_000_000, 181),
        (
            u128::from(u64::MAX) * 1_000_000_000,
            100_000_000_000_000_000_000_000_000,
            185,
        ),
        (
            u128::MAX - 1000,
            2_000_000_000_000_000_000_000_000_000_000_000_000,
            171,
        ),
    ];
    for row in &rows {
        expect_width(&rt, rt.alloc(), row);
    }
}

#[test]
fn bins_keep_their_packets_if_the_unit_grows(rt: HostRuntime) {
    let mut timeline = expect_ok(&rt, Timeline::new(rt.alloc()));
    for time in 0..1_280 {
        timeline.add(&udp(Some(time)));
    }
    timeline.add(&udp(Some(12_799)));
    let shown = intervals(&rt, rt.alloc(), &timeline);
    expect_equal(&rt, &timeline.width(), &50);
    expect_equal(&rt, &shown.len(), &MAX_INTERVALS);
    for place in 0..26 {
        let packets = if place < 25 { 50 } else { 30 };
        expect_at(
            &rt,
            &place,
            &shown[place].udp,
            &count(packets, packets * 100),
        );
    }
    expect_equal(&rt, &shown[26], &Counts::NONE);
    expect_equal(&rt, &shown[255].udp, &count(1, 100));
}

#[test]
fn protocols_and_faults_are_counted(rt: HostRuntime) {
    let rows: [(Transport, Option<Fault>); 5] = [
        (Transport::Udp, None),
        (Transport::Tcp, Some(Fault::Wrong)),
        (Transport::Icmp, Some(Fault::Refused)),
        (Transport::Other, Some(Fault::Refused)),
        (Transport::Other, None),
    ];
    let mut timeline = expect_ok(&rt, Timeline::new(rt.alloc()));
    for (transport, fault) in rows {
        let event = Event {
            time: Some(7),
            len: 10,
            transport,
            fault,
        };
        timeline.add(&event);
    }
    let shown = intervals(&rt, rt.alloc(), &timeline);
    let expected = Counts {
        udp: count(1, 10),
        tcp: count(1, 10),
        icmp: count(1, 10),
        other: count(2, 20),
        wrong: count(1, 10),
        refused: count(2, 20),
    };
    expect_equal(&rt, &shown.as_slice(), &[expected].as_slice());
    expect_equal(&rt, &shown[0].total(), &count(5, 50));
}

#[test]
fn older_packets_and_packets_without_a_time_are_apart(rt: HostRuntime) {
    let mut timeline = expect_ok(&rt, Timeline::new(rt.alloc()));
    expect_equal(&rt, &timeline.start(), &None);
    expect_equal(&rt, &intervals(&rt, rt.alloc(), &timeline).len(), &0);
    expect_each_interval(&rt, &timeline, &[]);
    timeline.add(&udp(None));
    expect_equal(&rt, &timeline.start(), &None);
    for time in [1_000, 999, 1_001, 0] {
        timeline.add(&udp(Some(time)));
    }
    timeline.add(&udp(None));
    expect_equal(&rt, &timeline.start(), &Some(1_000));
    expect_equal(&rt, &timeline.untimed().udp, &count(2, 200));
    expect_equal(&rt, &timeline.older().udp, &count(2, 200));
    let shown = intervals(&rt, rt.alloc(), &timeline);
    expect_equal(&rt, &Counts::sum(&shown).udp, &count(2, 200));
    expect_equal(&rt, &timeline.later(), &Counts::NONE);
}

/// A timeline without packets, of this width.
fn with_width(rt: &impl Abort, alloc: Global, width: u128) -> Timeline {
    let width = expect_some(rt, NonZeroU128::new(width));
    expect_ok(rt, Timeline::with_width(alloc, width))
}

/// Stops the test unless the number of intervals and of later packets are these after a packet at time 1000 and another packet so much
/// later. The first number of the row is the width.
fn expect_fixed(rt: &impl Abort, alloc: Global, row: &(u128, u128, usize, u64)) {
    let mut timeline = with_width(rt, alloc, row.0);
    timeline.add(&udp(Some(1000)));
    timeline.add(&udp(Some(1000 + row.1)));
    expect_at(rt, row, &timeline.width(), &row.0);
    expect_at(rt, row, &timeline.interval_count(), &row.2);
    expect_at(rt, row, &timeline.later().udp.packets, &row.3);
    let shown = intervals(rt, alloc, &timeline);
    expect_at(rt, row, &shown.len(), &row.2);
    expect_at(rt, row, &Counts::sum(&shown).udp.packets, &(2 - row.3));
    let last = timeline.interval(row.2 - 1).udp.packets;
    let expected = if row.2 == 1 { 2 - row.3 } else { 1 };
    expect_at(rt, row, &last, &expected);
}

#[test]
fn a_fixed_width_does_not_grow(rt: HostRuntime) {
    expect_equal(&rt, &MAX_FIXED_INTERVALS, &65_536);
    let rows: [(u128, u128, usize, u64); 11] = [
        (1, 0, 1, 0),
        (1, 256, 257, 0),
        (1, 65_535, 65_536, 0),
        (1, 65_536, 1, 1),
        (3, 7, 3, 0),
        (10, 9, 1, 0),
        (10, 10, 2, 0),
        (10, 655_359, 65_536, 0),
        (10, 655_360, 1, 1),
        (1, u128::MAX - 1000, 1, 1),
        (u128::MAX, u128::MAX - 1000, 1, 0),
    ];
    for row in &rows {
        expect_fixed(&rt, rt.alloc(), row);
    }
}

#[test]
fn packets_in_no_interval_of_a_fixed_width_are_apart(rt: HostRuntime) {
    let mut timeline = with_width(&rt, rt.alloc(), 2);
    expect_equal(&rt, &timeline.width(), &2);
    expect_each_interval(&rt, &timeline, &[]);
    let times = [
        None,
        Some(7),
        Some(6),
        Some(131_079),
        Some(9),
        None,
        Some(131_078),
        Some(8),
    ];
    for time in times {
        timeline.add(&udp(time));
    }
    expect_equal(&rt, &timeline.start(), &Some(7));
    expect_equal(&rt, &timeline.untimed().udp, &count(2, 200));
    expect_equal(&rt, &timeline.older().udp, &count(1, 100));
    expect_equal(&rt, &timeline.later().udp, &count(1, 100));
    expect_equal(&rt, &timeline.interval_count(), &65_536);
    for (place, packets) in [(0, 2), (1, 1), (2, 0), (65_535, 1), (65_536, 0)] {
        expect_at(
            &rt,
            &place,
            &timeline.interval(place).udp,
            &count(packets, packets * 100),
        );
    }
}

#[test]
fn counts_saturate(rt: HostRuntime) {
    let mut timeline = expect_ok(&rt, Timeline::new(rt.alloc()));
    let event = Event {
        len: u64::MAX,
        ..udp(Some(3))
    };
    timeline.add(&event);
    timeline.add(&udp(Some(3)));
    let shown = intervals(&rt, rt.alloc(), &timeline);
    expect_equal(&rt, &shown[0].udp, &count(2, u64::MAX));
}
