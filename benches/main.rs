//! This library and `etherparse`, in one process, on the same inputs, in turn. README.md says how to read the table.
#![allow(unsafe_op_in_unsafe_fn, dead_code, deprecated)]

use std::hint::black_box;

// So many bytes before all other code. `benches/run` builds the program four times, with its code at four places.
std::arch::global_asm!(concat!(
    ".section .text.place,\"axR\",@progbits\n.skip ",
    env!("BENCH_PLACE"),
    ", 0x90\n.text"
));

/// `etherparse` as a crate of its own, as cargo builds it: what is not `#[inline]` there stays a call.
mod apart {
    use etherparse_apart as ep;
    include!("etherparse/walk.rs");
    include!("etherparse/sums.rs");
    include!("etherparse/udp.rs");
    include!("etherparse/tcp.rs");
    include!("etherparse/icmp.rs");
    include!("etherparse/ip.rs");
    include!("etherparse/whole.rs");
}
/// `etherparse` in one unit with its walks, as with link time optimisation.
use etherparse_one_unit::walks as unit;

use measure::{add_kept, measure, Input, Row, Walk};

mod library {
    use super::apart::Answer;
    macro_rules! walks {
        ($($name:ident)*) => { unsafe extern "C" { $( pub fn $name(packets: *const u8, size: usize, lens: *const u32, count: usize) -> u64; )* } };
    }
    walks! { library_boundary library_nothing library_add_slice }
    walks! { library_udp_header_from_slice library_udp_header_slice library_udp_slice library_udp_slice_lax library_udp_to_bytes }
    walks! { library_udp_checksum_ipv4 library_udp_checksum_ipv6 }
    walks! { library_sunk library_tcp_header_from_slice library_tcp_to_bytes library_tcp_header_slice library_tcp_to_header }
    walks! { library_tcp_options_iterator library_tcp_options_from_elements library_tcp_set_options_raw }
    walks! { library_tcp_checksum_ipv4 library_tcp_checksum_ipv6 library_tcp_slice_checksum_ipv4 library_tcp_slice_checksum_ipv6 }
    walks! { library_icmpv4_header_from_slice library_icmpv4_to_bytes library_icmpv4_slice library_icmpv4_with_checksum }
    walks! { library_icmpv6_header_from_slice library_icmpv6_to_bytes library_icmpv6_slice library_icmpv6_to_header library_icmpv6_is_checksum_valid }
    walks! { library_canonical_udp library_canonical_tcp library_canonical_icmpv4 library_canonical_icmpv6 library_receive library_receive_slices }
    walks! { library_transport_in_ip }
    walks! { library_tcp_raw_options_iterator library_tcp_write_to_slice library_udp_write_to_slice }
    walks! { library_icmpv4_write_to_slice library_icmpv6_write_to_slice }
    walks! { library_verdict library_verdict_by_hand library_transport_slice library_transport_slice_by_hand }
    walks! { library_is_checksum_valid library_is_checksum_valid_by_hand library_change library_change_by_hand }
    walks! { library_translate_tcp library_translate_tcp_by_hand library_translate_udp library_translate_udp_by_hand }
    walks! { library_quoted_packet library_quoted_packet_by_hand }
    unsafe extern "C" {
        pub fn library_call_nothing(bytes: *const u8, len: usize, out: &mut Answer) -> bool;
        pub fn library_call_udp_header(bytes: *const u8, len: usize, out: &mut Answer) -> bool;
        pub fn library_call_add_slice(bytes: *const u8, len: usize) -> u16;
    }
}

mod measure;
mod packets;

/// The lengths of the payloads that the checksum calls of UDP are timed on, and those of TCP.
const PAYLOADS: [usize; 10] = [0, 8, 20, 64, 100, 200, 512, 1472, 9000, 65507];
const TCP_PAYLOADS: [usize; 5] = [0, 64, 512, 1460, 65000];
/// The lengths that the sum alone is timed on.
const SUMS: [usize; 9] = [8, 20, 40, 64, 128, 256, 512, 1500, 65507];
/// How often a walk over built values goes over all of them (`walk_built`).
const BUILT_ROUNDS: usize = 64;

fn main() {
    let udp = Input::udp();
    let short = Input {
        packets: udp.packets.clone(),
        lens: vec![7u32; 64],
    };
    let sums: Vec<(usize, Input)> = SUMS.map(|n| (n, Input::even(n))).into();
    let payloads = |before: usize| -> Vec<(usize, Input)> { PAYLOADS.map(|n| (n, Input::even(n + before))).into() };
    let (payloads4, payloads6) = (payloads(8), payloads(32));
    let (mixed, mixed4, mixed6) = (Input::mixed(0), Input::mixed(8), Input::mixed(32));
    let one = Input {
        packets: vec![0; 64],
        lens: vec![64],
    };

    let tcp = [20, 32, 60].map(|n| (n, packets::tcp(n)));
    let tcp_short = Input {
        packets: tcp[0].1.packets.clone(),
        lens: vec![19u32; 64],
    };
    let options = packets::options();
    let ip = packets::ip();
    let verdicts: Vec<(String, usize, Input)> = [("TCP", 6), ("UDP", 17), ("ICMPv4", 1), ("ICMPv6", 58)]
        .iter()
        .flat_map(|&(name, protocol)| {
            [(64, true), (1448, true), (64, false), (1448, false)].map(|(n, right)| {
                let of = if right { "right" } else { "wrong" };
                (format!("{name}, {of}, {n} B"), n, packets::found_in_ip(protocol, n, right))
            })
        })
        .collect();
    let segments = [64, 1448].map(|n| (n, packets::with_addresses(6, n)));
    let datagrams = [64, 1448].map(|n| (n, packets::with_addresses(17, n)));
    let forty = Input::even(40);
    let tcp4 = TCP_PAYLOADS.map(|n| (n, packets::tcp_with_addresses(8, 20, n)));
    let tcp6 = TCP_PAYLOADS.map(|n| (n, packets::tcp_with_addresses(32, 20, n)));
    let (tcp4_32, tcp6_32) = (
        packets::tcp_with_addresses(8, 32, 1448),
        packets::tcp_with_addresses(32, 32, 1428),
    );
    let (icmp4, icmp6) = (packets::icmpv4(), packets::icmpv6());
    let pings4 = [56, 1472].map(|n| (n, Input::even(n)));
    let pings6 = [56, 1440].map(|n| (n, Input::even(n + 32)));
    let messages6 = [64, 1440].map(|n| (n, packets::icmpv6_with_addresses(n)));
    let mixes = [
        ("60 % TCP with timestamps, 30 % UDP, 10 % ICMP", packets::mix(1448)),
        ("the same, at most 64 B of payload", packets::mix(64)),
    ];

    let (header, sixty) = (&udp.packets[..72], &udp.packets[..64]);
    let mut rows: Vec<Row> = Vec::new();
    macro_rules! row {
        ($name:expr, $bytes:expr, $input:expr, $library:ident, $theirs:ident $(, $more:expr)*) => {
            rows.push(Row::walks($name, $bytes, $input, &[("library", library::$library as Walk), ("etherparse", apart::$theirs), ("unit", unit::$theirs) $(, $more)*]))
        };
    }
    /// A walk over values that are built before, 64 times.
    macro_rules! built {
        ($name:expr, $bytes:expr, $input:expr, $library:ident, $theirs:ident) => {{
            row!($name, $bytes, $input, $library, $theirs);
            rows.last_mut().unwrap().calls *= BUILT_ROUNDS;
        }};
    }
    /// Two walks of this library: a call, and what a caller writes by hand without it.
    macro_rules! by_hand {
        ($name:expr, $bytes:expr, $input:expr, $library:ident, $by_hand:ident) => {
            rows.push(Row::walks(
                $name,
                $bytes,
                $input,
                &[("library", library::$library as Walk), ("by hand", library::$by_hand)],
            ))
        };
    }
    row!("(boundary: one empty call of a walk)", 0, &one, library_boundary, boundary);
    row!("(the walk itself, a slice)", 0, &udp, library_nothing, nothing);
    row!("(the walk and the sink)", 0, &udp, library_sunk, sunk);

    // ---- UDP
    row!(
        "UdpHeader::from_slice, 4 fields, rest",
        0,
        &udp,
        library_udp_header_from_slice,
        udp_header_from_slice
    );
    row!(
        "UdpHeader::from_slice refused, 7 bytes",
        0,
        &short,
        library_udp_header_from_slice,
        udp_header_from_slice
    );
    row!(
        "UdpHeaderSlice::from_slice, all getters",
        0,
        &udp,
        library_udp_header_slice,
        udp_header_slice
    );
    row!("UdpSlice::from_slice, all getters", 0, &udp, library_udp_slice, udp_slice);
    row!(
        "UdpSlice::from_slice_lax, all getters",
        0,
        &udp,
        library_udp_slice_lax,
        udp_slice_lax
    );
    row!("UdpHeader::to_bytes", 0, &udp, library_udp_to_bytes, udp_to_bytes);
    row!(
        "UdpHeader::write_to_slice, compared with to_bytes",
        0,
        &udp,
        library_udp_write_to_slice,
        udp_to_bytes
    );
    for (n, input) in &payloads4 {
        row!(
            &format!("UdpHeader::calc_checksum_ipv4_raw, {n} B"),
            *n,
            input,
            library_udp_checksum_ipv4,
            udp_checksum_ipv4
        );
    }
    row!(
        "UdpHeader::calc_checksum_ipv4_raw, mixed 0 to 125 B",
        55,
        &mixed4,
        library_udp_checksum_ipv4,
        udp_checksum_ipv4
    );
    for (n, input) in &payloads6 {
        row!(
            &format!("UdpHeader::calc_checksum_ipv6_raw, {n} B"),
            *n,
            input,
            library_udp_checksum_ipv6,
            udp_checksum_ipv6
        );
    }
    row!(
        "UdpHeader::calc_checksum_ipv6_raw, mixed 0 to 125 B",
        55,
        &mixed6,
        library_udp_checksum_ipv6,
        udp_checksum_ipv6
    );
    row!("canonical_header, UDP", 0, &udp, library_canonical_udp, canonical_udp);

    // ---- TCP
    for (n, input) in &tcp {
        row!(
            &format!("TcpHeader::from_slice, {n} B"),
            0,
            input,
            library_tcp_header_from_slice,
            tcp_header_from_slice
        );
    }
    row!(
        "TcpHeader::from_slice refused, 19 bytes",
        0,
        &tcp_short,
        library_tcp_header_from_slice,
        tcp_header_from_slice
    );
    for (n, input) in &tcp {
        built!(
            &format!("TcpHeader::to_bytes, {n} B"),
            0,
            input,
            library_tcp_to_bytes,
            tcp_to_bytes
        );
    }
    for (n, input) in &tcp {
        built!(
            &format!("TcpHeader::write_to_slice, compared with to_bytes, {n} B"),
            0,
            input,
            library_tcp_write_to_slice,
            tcp_to_bytes
        );
    }
    for (n, input) in &tcp {
        row!(
            &format!("TcpHeaderSlice::from_slice, all getters, {n} B"),
            0,
            input,
            library_tcp_header_slice,
            tcp_header_slice
        );
    }
    for (n, input) in &tcp {
        row!(
            &format!("TcpHeaderSlice::to_header, {n} B"),
            0,
            input,
            library_tcp_to_header,
            tcp_to_header
        );
    }
    for (n, input) in &tcp {
        row!(
            &format!("canonical_header, TCP {n} B"),
            0,
            input,
            library_canonical_tcp,
            canonical_tcp
        );
    }
    for (name, input) in &options {
        row!(
            &format!("TcpOptionsIterator, {name}"),
            0,
            input,
            library_tcp_options_iterator,
            tcp_options_iterator
        );
    }
    // Where a list has a fault, the items of the two iterators are not the same.
    for (name, input) in options.iter().filter(|(name, _)| !name.ends_with("fault")) {
        row!(
            &format!("TcpRawOptionsIterator, element, compared with TcpOptionsIterator, {name}"),
            0,
            input,
            library_tcp_raw_options_iterator,
            tcp_options_iterator
        );
    }
    row!(
        "TcpOptions::try_from_elements, SYN",
        0,
        &udp,
        library_tcp_options_from_elements,
        tcp_options_from_elements
    );
    row!(
        "TcpHeader::set_options_raw, 40 B",
        0,
        &forty,
        library_tcp_set_options_raw,
        tcp_set_options_raw
    );
    for (n, input) in &tcp4 {
        built!(
            &format!("TcpHeader::calc_checksum_ipv4_raw, 20 + {n} B"),
            20 + n,
            input,
            library_tcp_checksum_ipv4,
            tcp_checksum_ipv4
        );
    }
    built!(
        "TcpHeader::calc_checksum_ipv4_raw, 32 + 1448 B",
        1480,
        &tcp4_32,
        library_tcp_checksum_ipv4,
        tcp_checksum_ipv4
    );
    for (n, input) in &tcp6 {
        built!(
            &format!("TcpHeader::calc_checksum_ipv6_raw, 20 + {n} B"),
            20 + n,
            input,
            library_tcp_checksum_ipv6,
            tcp_checksum_ipv6
        );
    }
    built!(
        "TcpHeader::calc_checksum_ipv6_raw, 32 + 1428 B",
        1460,
        &tcp6_32,
        library_tcp_checksum_ipv6,
        tcp_checksum_ipv6
    );
    for (n, input) in &tcp4 {
        row!(
            &format!("TcpHeaderSlice, calc_checksum_ipv4_raw, 20 + {n} B"),
            20 + n,
            input,
            library_tcp_slice_checksum_ipv4,
            tcp_slice_checksum_ipv4
        );
    }
    row!(
        "TcpHeaderSlice, calc_checksum_ipv4_raw, 32 + 1448 B",
        1480,
        &tcp4_32,
        library_tcp_slice_checksum_ipv4,
        tcp_slice_checksum_ipv4
    );
    for (n, input) in &tcp6 {
        row!(
            &format!("TcpHeaderSlice, calc_checksum_ipv6_raw, 20 + {n} B"),
            20 + n,
            input,
            library_tcp_slice_checksum_ipv6,
            tcp_slice_checksum_ipv6
        );
    }
    row!(
        "TcpHeaderSlice, calc_checksum_ipv6_raw, 32 + 1428 B",
        1460,
        &tcp6_32,
        library_tcp_slice_checksum_ipv6,
        tcp_slice_checksum_ipv6
    );

    // ---- ICMPv4
    for (name, input) in &icmp4 {
        row!(
            &format!("Icmpv4Header::from_slice, {name}"),
            0,
            input,
            library_icmpv4_header_from_slice,
            icmpv4_header_from_slice
        );
    }
    for (name, input) in &icmp4 {
        built!(
            &format!("Icmpv4Header::to_bytes, {name}"),
            0,
            input,
            library_icmpv4_to_bytes,
            icmpv4_to_bytes
        );
    }
    for (name, input) in &icmp4 {
        built!(
            &format!("Icmpv4Header::write_to_slice, compared with to_bytes, {name}"),
            0,
            input,
            library_icmpv4_write_to_slice,
            icmpv4_to_bytes
        );
    }
    for (name, input) in &icmp4 {
        row!(
            &format!("Icmpv4Slice, icmp_type, payload, {name}"),
            0,
            input,
            library_icmpv4_slice,
            icmpv4_slice
        );
    }
    for (name, input) in &icmp4 {
        row!(
            &format!("canonical_header, ICMPv4 {name}"),
            0,
            input,
            library_canonical_icmpv4,
            canonical_icmpv4
        );
    }
    for (n, input) in &pings4 {
        row!(
            &format!("Icmpv4Header::with_checksum, echo, {n} B"),
            *n,
            input,
            library_icmpv4_with_checksum,
            icmpv4_with_checksum
        );
    }

    // ---- ICMPv6
    for (name, input) in &icmp6 {
        row!(
            &format!("Icmpv6Header::from_slice, {name}"),
            0,
            input,
            library_icmpv6_header_from_slice,
            icmpv6_header_from_slice
        );
    }
    for (name, input) in &icmp6 {
        built!(
            &format!("Icmpv6Header::to_bytes, {name}"),
            0,
            input,
            library_icmpv6_to_bytes,
            icmpv6_to_bytes
        );
    }
    for (name, input) in &icmp6 {
        built!(
            &format!("Icmpv6Header::write_to_slice, compared with to_bytes, {name}"),
            0,
            input,
            library_icmpv6_write_to_slice,
            icmpv6_to_bytes
        );
    }
    for (name, input) in &icmp6 {
        row!(
            &format!("Icmpv6Slice, icmp_type, payload, {name}"),
            0,
            input,
            library_icmpv6_slice,
            icmpv6_slice
        );
    }
    for (name, input) in &icmp6 {
        row!(
            &format!("canonical_header, ICMPv6 {name}"),
            0,
            input,
            library_canonical_icmpv6,
            canonical_icmpv6
        );
    }
    for (n, input) in &pings6 {
        row!(
            &format!("Icmpv6Type::to_header, echo, {n} B"),
            *n,
            input,
            library_icmpv6_to_header,
            icmpv6_to_header
        );
    }
    for (n, input) in &messages6 {
        row!(
            &format!("Icmpv6Slice, is_checksum_valid, {n} B"),
            *n,
            input,
            library_icmpv6_is_checksum_valid,
            icmpv6_is_checksum_valid
        );
    }

    // ---- what a receiver does: packets a second below
    for (name, input) in &mixes {
        row!(
            &format!("receive: {name}"),
            input.packets.len() / input.lens.len(),
            input,
            library_receive,
            receive
        );
        row!(
            &format!("receive: {name}, by slices and raw options"),
            input.packets.len() / input.lens.len(),
            input,
            library_receive_slices,
            receive
        );
    }

    // ---- one call through the boundary each time
    macro_rules! call {
        ($name:expr, $bytes:expr, $slice:expr, $library:expr, $apart:expr, $unit:expr) => {{
            let slice: &[u8] = $slice;
            rows.push(Row {
                name: $name.to_string(),
                bytes: $bytes,
                calls: 64,
                rounds: 1,
                who: vec![
                    (
                        "library",
                        Box::new(move || {
                            for _ in 0..64 {
                                $library(black_box(slice));
                            }
                            0
                        }),
                        Vec::new(),
                    ),
                    (
                        "etherparse",
                        Box::new(move || {
                            for _ in 0..64 {
                                $apart(black_box(slice));
                            }
                            0
                        }),
                        Vec::new(),
                    ),
                    (
                        "unit",
                        Box::new(move || {
                            for _ in 0..64 {
                                $unit(black_box(slice));
                            }
                            0
                        }),
                        Vec::new(),
                    ),
                ],
            });
        }};
    }
    macro_rules! answered {
        ($f:path, $empty:path) => {
            |s: &[u8]| unsafe {
                let mut a = $empty;
                black_box($f(s.as_ptr(), s.len(), &mut a));
                black_box(&a);
            }
        };
    }
    call!(
        "call: (empty, of that shape)",
        0,
        header,
        answered!(library::library_call_nothing, apart::EMPTY),
        answered!(apart::call_nothing, apart::EMPTY),
        answered!(unit::call_nothing, unit::EMPTY)
    );
    call!(
        "call: UdpHeader::from_slice, fields stored",
        0,
        header,
        answered!(library::library_call_udp_header, apart::EMPTY),
        answered!(apart::call_udp_header, apart::EMPTY),
        answered!(unit::call_udp_header, unit::EMPTY)
    );
    macro_rules! summed {
        ($f:path) => {
            |s: &[u8]| unsafe {
                black_box($f(s.as_ptr(), s.len()));
            }
        };
    }
    call!(
        "call: add_slice, complement, 64 B",
        64,
        sixty,
        summed!(library::library_call_add_slice),
        summed!(apart::call_add_slice),
        summed!(unit::call_add_slice)
    );

    // ---- IP, compared with a plain Rust reader
    for (name, input) in &ip {
        row!(
            &format!("transport_in_ip, {name}"),
            0,
            input,
            library_transport_in_ip,
            transport_in_ip_plain
        );
    }
    for (name, input) in &ip[..2] {
        row!(
            &format!("transport_in_ip, {name}, compared with a reader that looks for source routes"),
            0,
            input,
            library_transport_in_ip,
            transport_in_ip_routes_plain
        );
    }
    // ---- the sum alone
    row!(
        "add_slice, ones_complement, mixed 0 to 125 B",
        55,
        &mixed,
        library_add_slice,
        add_slice
    );
    for (n, input) in &sums {
        row!(
            &format!("add_slice, ones_complement, {n} B"),
            *n,
            input,
            library_add_slice,
            add_slice
        );
    }

    // ---- one call, and what is written by hand without it
    for (name, n, input) in &verdicts {
        by_hand!(
            &format!("checksum_verdict, {name}"),
            *n,
            input,
            library_verdict,
            library_verdict_by_hand
        );
    }
    for (name, input) in &mixes {
        by_hand!(
            &format!("checksum_verdict, {name}"),
            input.packets.len() / input.lens.len(),
            input,
            library_verdict,
            library_verdict_by_hand
        );
        by_hand!(
            &format!("transport_slice, {name}"),
            0,
            input,
            library_transport_slice,
            library_transport_slice_by_hand
        );
    }
    for (name, input) in &icmp4[..2] {
        by_hand!(
            &format!("Icmpv4Slice::quoted_packet, {name}"),
            0,
            input,
            library_quoted_packet,
            library_quoted_packet_by_hand
        );
    }
    for (n, input) in &segments {
        by_hand!(
            &format!("TcpSlice::is_checksum_valid_ipv4, compared with the sum, {n} B"),
            *n,
            input,
            library_is_checksum_valid,
            library_is_checksum_valid_by_hand
        );
        by_hand!(
            &format!("ChecksumChange, address and port, compared with the sum, {n} B"),
            *n,
            input,
            library_change,
            library_change_by_hand
        );
        by_hand!(
            &format!("TcpHeader::translate_source_ipv4, compared with calc_checksum_ipv4_raw, {n} B"),
            *n,
            input,
            library_translate_tcp,
            library_translate_tcp_by_hand
        );
    }
    for (n, input) in &datagrams {
        by_hand!(
            &format!("UdpHeader::translate_source_ipv4, compared with calc_checksum_ipv4_raw, {n} B"),
            *n,
            input,
            library_translate_udp,
            library_translate_udp_by_hand
        );
    }

    measure(&mut rows);
    if let Ok(path) = std::env::var("BENCH_KEPT") {
        add_kept(&mut rows, &path);
    }
    let (pairs, rows): (Vec<Row>, Vec<Row>) = rows.into_iter().partition(|r| r.of("by hand").is_some());
    println!("Least nanoseconds a call (median in brackets). The ratio is the least of etherparse by that of this library: above 1 this library is faster.\n");
    println!("| call | this library | etherparse | etherparse, one unit | ratio | ratio, one unit | GB/s, this library | GB/s, etherparse |");
    println!("|---|---|---|---|---|---|---|---|");
    for r in &rows {
        let (o, om) = r.of("library").unwrap();
        let (a, am) = r.of("etherparse").unwrap();
        let (u, um) = r.of("unit").unwrap();
        let rate = |ns: f64| {
            if r.bytes > 0 {
                format!("{:.2}", r.bytes as f64 / ns)
            } else {
                "-".into()
            }
        };
        println!(
            "| {} | {o:.2} ({om:.2}) | {a:.2} ({am:.2}) | {u:.2} ({um:.2}) | {:.2} | {:.2} | {} | {} |",
            r.name,
            a / o,
            u / o,
            rate(o),
            rate(a)
        );
    }
    println!("\nPackets a second, in millions, at the least ns (decoded, and the checksum tested):\n");
    println!("| mix | bytes a packet | this library | etherparse | etherparse, one unit | Gbit/s, this library |");
    println!("|---|---|---|---|---|---|");
    for r in rows.iter().filter(|r| r.name.starts_with("receive: ")) {
        let rate = |who: &str| 1e3 / r.of(who).unwrap().0;
        println!(
            "| {} | {} | {:.1} | {:.1} | {:.1} | {:.1} |",
            &r.name[9..],
            r.bytes,
            rate("library"),
            rate("etherparse"),
            rate("unit"),
            rate("library") * r.bytes as f64 * 8.0 / 1e3
        );
    }
    println!("\nOne call, and what a caller writes by hand without it, both by this library. Above 1 the call is faster.\n");
    println!("| call | ns | by hand, ns | ratio |");
    println!("|---|---|---|---|");
    for r in &pairs {
        let (o, om) = r.of("library").unwrap();
        let (h, hm) = r.of("by hand").unwrap();
        println!("| {} | {o:.2} ({om:.2}) | {h:.2} ({hm:.2}) | {:.2} |", r.name, h / o);
    }
    let mut slow: Vec<(f64, f64, &str)> = rows
        .iter()
        .map(|r| {
            (
                r.of("etherparse").unwrap().0 / r.of("library").unwrap().0,
                r.of("unit").unwrap().0 / r.of("library").unwrap().0,
                &r.name[..],
            )
        })
        .collect();
    slow.retain(|(apart, unit, _)| apart.min(*unit) < 0.9);
    slow.sort_by(|a, b| a.0.min(a.1).total_cmp(&b.0.min(b.1)));
    println!(
        "\nRows with a ratio below 0.9, the lowest first (ratio, ratio with one unit): {} of {}\n",
        slow.len(),
        rows.len()
    );
    for (apart, unit, name) in slow {
        println!("- {apart:.2} {unit:.2} {name}");
    }
}
