//! Tests of the facts of a capture as text.

use crate::expect::{expect_ok, expect_some, expect_written};
use capture_file::classic::{CaptureHeader, Resolution};
use capture_file::pcapng::{InterfaceDescription, TimeResolution};
use capture_file::reader::{CaptureReader, ClassicReader, PcapngReader, Section};
use capture_file::{ByteOrder, FileTexts, InterfaceStatistics};
use capture_words::write_facts;
use std::process::Abort;

/// Stops the test unless the facts of the capture are this text.
fn expect_facts(rt: &(impl Abort + AllocGlobal), capture: &Option<CaptureReader>, wanted: &str) {
    let mut text = Vec::new(rt.alloc());
    expect_ok(rt, write_facts(&mut text, capture));
    expect_written(rt, &text, wanted);
}

/// The byte order, the resolution and the snap length of a classic capture, and its text.
type ClassicRow = (ByteOrder, Resolution, u32, &'static str);

#[rattlefmt::skip]
static CLASSIC: [ClassicRow; 2] = [
    (ByteOrder::BigEndian, Resolution::Microseconds, 0,
     "file type classic, byte order big-endian, snap length 0, time resolution 10^-6 s\n"),
    (ByteOrder::LittleEndian, Resolution::Nanoseconds, u32::MAX,
     "file type classic, byte order little-endian, snap length 4294967295, time resolution 10^-9 s\n"),
];

/// Stops the test unless the capture of a row has the text of the row.
fn expect_classic(rt: &(impl Abort + AllocGlobal), row: &ClassicRow) {
    let (byte_order, resolution, snap_len, wanted) = *row;
    let header = CaptureHeader {
        byte_order,
        resolution,
        snap_len,
        link_type: Err(147),
    };
    let capture = Some(CaptureReader::Classic(ClassicReader::new(header)));
    expect_facts(rt, &capture, wanted);
}

#[test]
fn what_a_classic_capture_is(rt: HostRuntime) {
    expect_facts(&rt, &None, "");
    for row in &CLASSIC {
        expect_classic(&rt, row);
    }
}

/// The lines of a section with no interface, one and two.
static OF_SECTIONS: [&str; 3] = [
    "file type pcapng, byte order big-endian, interfaces 0\n",
    "file type pcapng, byte order big-endian, interfaces 1\ninterface 0, snap length 0, time resolution 10^-0 s\n",
    "file type pcapng, byte order big-endian, interfaces 2\ninterface 0, snap length 0, time resolution 10^-0 s\ninterface 1, snap length 96, time resolution 2^-127 s\n",
];

/// The snap length and the resolution of each interface.
static INTERFACES: [(u32, TimeResolution); 2] = [
    (0, TimeResolution::PowerOfTen(0)),
    (96, TimeResolution::PowerOfTwo(127)),
];

/// Appends an interface to a section.
fn push_interface(
    rt: &impl Abort,
    section: &mut Section,
    snap_len: u32,
    time_resolution: TimeResolution,
) {
    let interface = InterfaceDescription {
        snap_len,
        time_resolution,
        ..InterfaceDescription::default()
    };
    expect_some(rt, section.interfaces.try_push(interface).ok());
}

/// Stops the test unless this text shows a file with this section.
fn expect_file(rt: &(impl Abort + AllocGlobal), section: Section, texts: FileTexts, wanted: &str) {
    let reader = PcapngReader {
        section,
        offset: 28,
        texts,
    };
    expect_facts(rt, &Some(CaptureReader::Pcapng(reader)), wanted);
}

/// A section with the first of `INTERFACES`.
fn section_of(rt: &impl Abort, count: usize) -> Section {
    let mut section = Section::new(ByteOrder::BigEndian);
    for (snap_len, time_resolution) in INTERFACES.iter().take(count) {
        push_interface(rt, &mut section, *snap_len, *time_resolution);
    }
    section
}

#[test]
fn what_a_pcapng_file_is(rt: HostRuntime) {
    for (count, wanted) in OF_SECTIONS.iter().enumerate() {
        expect_file(&rt, section_of(&rt, count), FileTexts::new(), wanted);
    }
}

/// The type of a section header block, and of an interface description block.
const SECTION_HEADER: u32 = 0x0A0D_0D0A;

const INTERFACE_DESCRIPTION: u32 = 1;

/// The bodies of a section header block and of an interface description block, in little-endian order. The section has a comment with an
/// escape character, hardware with a byte that is not UTF-8, an operating system, and an application. The interface has a name, a
/// description and a comment.
#[rattlefmt::skip]
const SECTION: [u8; 52] = [
    0x4D, 0x3C, 0x2B, 0x1A, 1, 0, 0, 0, 0xFF, 0xFF, 0xFF, 0xFF, 0xFF, 0xFF, 0xFF, 0xFF,
    1, 0, 3, 0, b'a', 0x1B, b'b', 0,
    2, 0, 2, 0, b'x', 0xE9, 0, 0,
    3, 0, 5, 0, b'L', b'i', b'n', b'u', b'x', 0, 0, 0,
    4, 0, 4, 0, b'd', b'u', b'm', b'p',
];

#[rattlefmt::skip]
const INTERFACE: [u8; 36] = [
    1, 0, 0, 0, 0, 0, 4, 0,
    2, 0, 4, 0, b'e', b't', b'h', b'0',
    3, 0, 3, 0, b'L', b'A', b'N', 0,
    1, 0, 2, 0, 0xC3, 0xA9, 0, 0,
    0, 0, 0, 0,
];

/// The lines of a section with these texts.
const OF_TEXTS: &str =
    "file type pcapng, byte order little-endian, interfaces 1\napplication dump\noperating system Linux\nhardware x\\xE9\ncomment a\\x1Bb\ninterface 0, snap length 262144, time resolution 10^-6 s\ninterface 0 name eth0\ninterface 0 description LAN\ninterface 0 comment \u{E9}\n";

#[test]
fn texts_of_a_pcapng_file(rt: HostRuntime) {
    let mut section = Section::new(ByteOrder::LittleEndian);
    let microseconds = TimeResolution::PowerOfTen(6);
    push_interface(&rt, &mut section, 262_144, microseconds);
    let mut texts = FileTexts::new();
    texts.note(ByteOrder::LittleEndian, SECTION_HEADER, &SECTION);
    texts.note(ByteOrder::LittleEndian, INTERFACE_DESCRIPTION, &INTERFACE);
    expect_file(&rt, section, texts, OF_TEXTS);
}

/// The lines of a section with two interfaces. The last statistics of interface 0 state three numbers, and those of interface 1 state one.
const OF_STATISTICS: &str =
    "file type pcapng, byte order little-endian, interfaces 2\ninterface 0, snap length 0, time resolution 10^-6 s\ninterface 0 packets received 1000\ninterface 0 packets dropped 0\ninterface 0 packets dropped by the operating system 3\ninterface 1, snap length 0, time resolution 10^-6 s\ninterface 1 packets dropped 7\n";

#[test]
fn statistics_of_interfaces(rt: HostRuntime) {
    let mut section = Section::new(ByteOrder::LittleEndian);
    let mut texts = FileTexts::new();
    for _ in 0..2 {
        push_interface(&rt, &mut section, 0, TimeResolution::PowerOfTen(6));
        texts.note(ByteOrder::LittleEndian, INTERFACE_DESCRIPTION, &[0; 8]);
    }
    texts.interfaces.as_mut_slice()[0].statistics = InterfaceStatistics {
        received: Some(1000),
        dropped: Some(0),
        dropped_by_system: Some(3),
    };
    texts.interfaces.as_mut_slice()[1].statistics.dropped = Some(7);
    expect_file(&rt, section, texts, OF_STATISTICS);
}
