use crate::expect::{expect_at, expect_equal};
use crate::summaries::{judge, new_summary, refuse};
use capture_file::LinkType;
use capture_summary::{
    CaptureInfo, Count, FileCount, FileTable, FrameLen, MAX_FILES, Protocol, RefusalKind, Summary,
    VerdictKind,
};
use std::process::Abort;

const UDP: Protocol = Protocol::Udp;

/// What a capture of Ethernet states about a packet with this number of bytes.
fn info_of(len: u64) -> CaptureInfo {
    CaptureInfo {
        link_type: Some(Ok(LinkType::Ethernet)),
        time: None,
        len: Some(FrameLen {
            original: len,
            captured: len,
        }),
    }
}

/// These numbers of packets, bytes, packets with a wrong checksum, and refused packets.
fn count_of(packets: u64, bytes: u64, wrong: u64, refused: u64) -> FileCount {
    FileCount {
        all: Count { packets, bytes },
        wrong,
        refused,
    }
}

/// Counts a packet with each verdict of a row, and a refused packet.
fn count_some(rt: &impl Abort, summary: &mut Summary, verdicts: &[VerdictKind]) {
    for verdict in verdicts {
        judge(rt, summary, UDP, *verdict, None, info_of(10));
    }
    refuse(rt, summary, UDP, RefusalKind::UdpLength, info_of(100));
}

#[test]
fn the_packets_of_each_capture(rt: HostRuntime) {
    let mut summary = new_summary(&rt);
    expect_equal(&rt, &summary.file(), &FileCount::NONE);
    let (right, wrong, partial) = (VerdictKind::Right, VerdictKind::Wrong, VerdictKind::Partial);
    count_some(&rt, &mut summary, &[right, wrong, partial, wrong]);
    expect_equal(&rt, &summary.file(), &count_of(5, 140, 2, 1));
    summary.start_file();
    expect_equal(&rt, &summary.file(), &FileCount::NONE);
    expect_equal(&rt, &summary.packets(), &5);
    count_some(&rt, &mut summary, &[right]);
    expect_equal(&rt, &summary.file(), &count_of(2, 110, 0, 1));
    expect_equal(&rt, &(summary.packets(), summary.bytes()), &(7, 250));
    expect_equal(&rt, &summary.verdict(VerdictKind::Wrong), &2);
}

#[test]
fn the_rows_of_a_table_of_files(rt: HostRuntime) {
    let mut files = FileTable::new();
    for number in 0..MAX_FILES as u64 {
        files.add("a", count_of(number, 0, 0, 0));
    }
    for (number, row) in files.rows().iter().enumerate() {
        expect_at(&rt, &number, &row.count.all.packets, &(number as u64));
    }
    expect_equal(&rt, &files.rows().len(), &MAX_FILES);
    expect_equal(
        &rt,
        &(files.other_files(), files.others()),
        &(0, FileCount::NONE),
    );
    files.add("b", count_of(4, 3, 2, 1));
    files.add("c", count_of(u64::MAX, u64::MAX - 3, 1, 1));
    expect_equal(&rt, &files.rows().len(), &MAX_FILES);
    let others = count_of(u64::MAX, u64::MAX, 3, 2);
    expect_equal(&rt, &(files.other_files(), files.others()), &(2, others));
}
