use crate::expect::{append, expect_ok, expect_written, joined_texts};
use capture_summary::{Count, FileCount, FileTable, MAX_FILES};
use capture_text::write_files;
use std::process::Abort;

/// Two packets with a wrong checksum, and a refused packet, of three packets.
const FAULTS: FileCount = FileCount {
    all: Count {
        packets: 3,
        bytes: 98,
    },
    wrong: 2,
    refused: 1,
};

/// Numbers that are wider than their columns.
const MOST: FileCount = FileCount {
    all: Count {
        packets: u64::MAX,
        bytes: u64::MAX,
    },
    wrong: u64::MAX,
    refused: u64::MAX,
};

/// A control character in a name is shown by its number.
const TWO_ROWS: &str = "
    packets             bytes       wrong     refused files
          3                98           2           1 a.pcap
          0                 0           0           0 b\\x0A\u{FC}.pcap
";

const HEAD: &str = "
    packets             bytes       wrong     refused files
";

const ROW: &str = "          3                98           2           1 a.pcap\n";

const OTHERS: &str =
    "18446744073709551615 18446744073709551615 18446744073709551615 18446744073709551615 other captures: 2\n";

/// Stops the test unless the text of a table is this text.
fn expect_table(rt: &(impl Abort + AllocGlobal), files: &FileTable<'_>, wanted: &str) {
    let mut text = Vec::new(rt.alloc());
    expect_ok(rt, write_files(&mut text, files));
    expect_written(rt, &text, wanted);
}

#[test]
fn the_table_of_files(rt: HostRuntime) {
    let mut files = FileTable::new();
    expect_table(&rt, &files, "");
    files.add("a.pcap", FAULTS);
    files.add("b\n\u{FC}.pcap", FileCount::NONE);
    expect_table(&rt, &files, TWO_ROWS);
}

/// The captures after the first 64 have one row together. Its numbers saturate.
#[test]
fn the_row_of_other_captures(rt: HostRuntime) {
    let mut files = FileTable::new();
    let mut wanted = joined_texts(&rt, &[HEAD]);
    for _ in 0..MAX_FILES {
        files.add("a.pcap", FAULTS);
        append(&rt, &mut wanted, ROW.as_bytes());
    }
    expect_table(&rt, &files, expect_ok(&rt, std::str::from_utf8(&wanted)));
    files.add("b.pcap", MOST);
    files.add("c.pcap", FAULTS);
    append(&rt, &mut wanted, OTHERS.as_bytes());
    expect_table(&rt, &files, expect_ok(&rt, std::str::from_utf8(&wanted)));
}
