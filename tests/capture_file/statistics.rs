use crate::expect::{append, expect_at, joined};
use capture_file::{ByteOrder, FileTexts, InterfaceStatistics};

/// The type of a section header block.
const SECTION_HEADER: u32 = 0x0A0D_0D0A;

/// The type of an interface description block.
const INTERFACE_DESCRIPTION: u32 = 1;

/// The type of an interface statistics block.
const INTERFACE_STATISTICS: u32 = 5;

/// The statistics of interface 0: a comment, 1000 packets received, 12 dropped, and 3 dropped by the operating system.
const ALL: &[u8] =
    b"\0\0\0\0\x01\0\0\0\x02\0\0\0\x01\0\x01\0a\0\0\0\x04\0\x08\0\xE8\x03\0\0\0\0\0\0\x05\0\x08\0\x0C\0\0\0\0\0\0\0\x07\0\x08\0\x03\0\0\0\0\0\0\0";

/// The statistics of interface 1: 2^32 packets dropped, and a number of packets received with a length of four bytes.
const DROPPED: &[u8] =
    b"\x01\0\0\0\x01\0\0\0\x02\0\0\0\x04\0\x04\0\x09\0\0\0\x05\0\x08\0\0\0\0\0\x01\0\0\0";

/// The statistics of interface 0 without a number.
const NONE: &[u8] = b"\0\0\0\0\x01\0\0\0\x02\0\0\0";

/// The statistics of an interface that is not described.
const OF_THIRD: &[u8] = b"\x02\0\0\0\x01\0\0\0\x02\0\0\0\x05\0\x08\0\x07\0\0\0\0\0\0\0";

/// The numbers that the statistics of an interface state.
type Counts = (Option<u64>, Option<u64>, Option<u64>);

/// The bodies of interface statistics blocks, and the statistics of two interfaces after them.
#[rattlefmt::skip]
static ROWS: [(&[&[u8]], [Counts; 2]); 6] = [
    (&[], [(None, None, None), (None, None, None)]),
    (&[ALL], [(Some(1000), Some(12), Some(3)), (None, None, None)]),
    (&[ALL, DROPPED], [(Some(1000), Some(12), Some(3)), (None, Some(0x1_0000_0000), None)]),
    (&[ALL, NONE, OF_THIRD], [(None, None, None), (None, None, None)]),
    (&[NONE, ALL], [(Some(1000), Some(12), Some(3)), (None, None, None)]),
    // A body that is too short changes nothing.
    (&[ALL, b"\0\0\0\0\0\0\0\0\0\0\0"], [(Some(1000), Some(12), Some(3)), (None, None, None)]),
];

/// The numbers of these statistics.
fn counts_of(statistics: InterfaceStatistics) -> Counts {
    (
        statistics.received,
        statistics.dropped,
        statistics.dropped_by_system,
    )
}

#[test]
fn newest_statistics_of_interfaces(rt: HostRuntime) {
    for (row, (bodies, wanted)) in ROWS.iter().enumerate() {
        let mut texts = FileTexts::new();
        texts.note(ByteOrder::LittleEndian, INTERFACE_DESCRIPTION, &[0; 8]);
        texts.note(ByteOrder::LittleEndian, INTERFACE_DESCRIPTION, &[0; 8]);
        for body in bodies.iter() {
            texts.note(ByteOrder::LittleEndian, INTERFACE_STATISTICS, body);
        }
        for (number, counts) in wanted.iter().enumerate() {
            let statistics = texts.interfaces.as_slice()[number].statistics;
            expect_at(&rt, &(row, number), &counts_of(statistics), counts);
        }
    }
}

#[test]
fn no_statistics_of_an_earlier_section(rt: HostRuntime) {
    let mut texts = FileTexts::new();
    texts.note(ByteOrder::LittleEndian, INTERFACE_DESCRIPTION, &[0; 8]);
    texts.note(ByteOrder::LittleEndian, INTERFACE_STATISTICS, ALL);
    let mut section = joined(&rt, &[b"\x4D\x3C\x2B\x1A\x01\0\0\0"]);
    append(&rt, &mut section, &[0xFF; 8]);
    texts.note(ByteOrder::LittleEndian, SECTION_HEADER, &section);
    texts.note(ByteOrder::LittleEndian, INTERFACE_DESCRIPTION, &[0; 8]);
    let statistics = texts.interfaces.as_slice()[0].statistics;
    expect_at(&rt, &0, &statistics, &InterfaceStatistics::default());
}
