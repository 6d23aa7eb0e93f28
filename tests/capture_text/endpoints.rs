use crate::expect::{expect_ok, expect_some, expect_written};
use capture_summary::{Count, EndpointCount};
use capture_text::write_endpoints;
use std::net::IpAddr;
use std::process::Abort;

/// The count without packets.
const NONE: Count = Count {
    packets: 0,
    bytes: 0,
};

const ONE: Count = Count {
    packets: 1,
    bytes: 40,
};

/// Numbers that are wider than their columns.
const MOST: Count = Count {
    packets: u64::MAX,
    bytes: u64::MAX,
};

const ONE_ROW: &str = "
busiest endpoints           packets         bytes
255.255.255.255                   1            40
packets of other flows            1            40
";

/// The column is as wide as the longest address.
const TWO_ROWS: &str = "
busiest endpoints                         packets         bytes
ffff:ffff:ffff:ffff:ffff:ffff:ffff:ffff 18446744073709551615 18446744073709551615
255.255.255.255                                 1            40
packets without ports                           1            40
";

/// The first row and the end of the rows of a table, the counts of packets without ports and of other flows, and the text.
type TableRow = (usize, usize, Count, Count, &'static str);

#[rattlefmt::skip]
static TABLES: [TableRow; 4] = [
    (0, 0, NONE, NONE, ""),
    (0, 0, ONE, ONE, ""),
    (1, 2, NONE, ONE, ONE_ROW),
    (0, 2, ONE, NONE, TWO_ROWS),
];

/// Stops the test unless the table of these endpoints is the text of a row.
fn expect_table(rt: &(impl Abort + AllocGlobal), rows: &[EndpointCount], table: &TableRow) {
    let (first, end, without_ports, without_room, wanted) = *table;
    let endpoints = expect_some(rt, rows.get(first..end));
    let mut text = Vec::new(rt.alloc());
    let written = write_endpoints(&mut text, endpoints, without_ports, without_room);
    expect_ok(rt, written);
    expect_written(rt, &text, wanted);
}

#[test]
fn the_table_of_endpoints(rt: HostRuntime) {
    let rows = [
        EndpointCount {
            address: IpAddr::from([0xFFFFu16; 8]),
            count: MOST,
        },
        EndpointCount {
            address: IpAddr::from([255u8; 4]),
            count: ONE,
        },
    ];
    for table in &TABLES {
        expect_table(&rt, &rows, table);
    }
}
