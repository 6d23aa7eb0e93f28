use crate::expect::{expect_ok, expect_some, expect_written};
use crate::summaries::flow_of_ipv4;
use capture_file::PacketTime;
use capture_file::pcapng::TimeResolution;
use capture_summary::{ConversationCount, Count, Flow, FlowProtocol, TimeSpan};
use capture_text::write_conversations;
use std::net::{IpAddr, SocketAddr};
use std::process::Abort;

/// The count without packets.
const NONE: Count = Count {
    packets: 0,
    bytes: 0,
};

const ONE: Count = Count {
    packets: 1,
    bytes: 40,
};

const SEVERAL: Count = Count {
    packets: 12,
    bytes: 1500,
};

const MANY: Count = Count {
    packets: 999_999_999,
    bytes: 9_999_999_999_999,
};

/// Numbers that are wider than their columns, and whose sums saturate.
const MOST: Count = Count {
    packets: u64::MAX,
    bytes: u64::MAX,
};

const WITHOUT_ROWS: &str = "
busiest conversations       packets         bytes   packets >       bytes >   packets <       bytes < first packet                duration         bits a second
packets without ports             1            40
packets of other flows    999999999 9999999999999
";

const ONE_ROW: &str = "
busiest conversations                 packets         bytes   packets >       bytes >   packets <       bytes < first packet                duration         bits a second
UDP 192.0.2.1:49152 <> 192.0.2.2:53        13          1540          12          1500           1            40 2023-11-14T22:13:20.000000Z 00:00:00.001500        8213333
packets of other flows                      1            40
";

const THREE_ROWS: &str = "
busiest conversations                                                                                    packets         bytes   packets >       bytes >   packets <       bytes < first packet                duration         bits a second
TCP [ffff:ffff:ffff:ffff:ffff:ffff:ffff:ffff]:65535 <> [fffe:fffe:fffe:fffe:fffe:fffe:fffe:fffe]:65535 999999999 9999999999999   999999999 9999999999999           0             0
UDP 192.0.2.1:49152 <> 192.0.2.2:53                                                                           13          1540          12          1500           1            40 2023-11-14T22:13:20.000000Z 00:00:00.001500        8213333
UDP 192.0.2.1:49152 <> 192.0.2.2:53                                                                    18446744073709551615 18446744073709551615 18446744073709551615 18446744073709551615           1            40 2023-11-14T22:13:20.000000007Z 00:00:00.000000000
";

/// The rows from one number up to another, the count of packets without ports, the count of packets of conversations for which there was no
/// room, and the table.
type TableRow = (usize, usize, Count, Count, &'static str);

#[rattlefmt::skip]
static TABLES: [TableRow; 4] = [
    (0, 0, NONE, NONE, ""),
    (0, 0, ONE, MANY, WITHOUT_ROWS),
    (1, 2, NONE, ONE, ONE_ROW),
    (0, 3, NONE, NONE, THREE_ROWS),
];

/// A conversation with these counts, in this span of times.
fn row(flow: Flow, forward: Count, reverse: Count, span: Option<TimeSpan>) -> ConversationCount {
    ConversationCount {
        flow,
        forward,
        reverse,
        span,
    }
}

/// The time this many units of ten to the power of minus `exponent` seconds after 2023-11-14 22:13:20 UTC.
fn time(fraction: u64, exponent: u8) -> PacketTime {
    PacketTime {
        seconds: 1_700_000_000,
        fraction,
        resolution: TimeResolution::PowerOfTen(exponent),
        offset: 0,
    }
}

/// Stops the test unless the table of these conversations is the one of a row.
fn expect_table(rt: &(impl Abort + AllocGlobal), rows: &[ConversationCount], table: &TableRow) {
    let (first, end, without_ports, without_room, wanted) = *table;
    let busiest = expect_some(rt, rows.get(first..end));
    let mut text = Vec::new(rt.alloc());
    let written = write_conversations(&mut text, busiest, without_ports, without_room);
    expect_ok(rt, written);
    expect_written(rt, &text, wanted);
}

#[test]
fn the_table_of_conversations(rt: HostRuntime) {
    let ipv4 = flow_of_ipv4();
    // The longest name.
    let ipv6 = Flow {
        protocol: FlowProtocol::Tcp,
        source: SocketAddr::new(IpAddr::from([0xFFFFu16; 8]), 65535),
        destination: SocketAddr::new(IpAddr::from([0xFFFEu16; 8]), 65535),
    };
    let several = TimeSpan {
        earliest: time(0, 6),
        latest: time(1500, 6),
    };
    // Equal times have no rate.
    let one = TimeSpan {
        earliest: time(7, 9),
        latest: time(7, 9),
    };
    let rows = [
        row(ipv6, MANY, NONE, None),
        row(ipv4, SEVERAL, ONE, Some(several)),
        row(ipv4, MOST, ONE, Some(one)),
    ];
    for table in &TABLES {
        expect_table(&rt, &rows, table);
    }
}
