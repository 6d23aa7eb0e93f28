//! Calls of this library that change a packet in place, and plain Rust for the same, on the same packets, in turn. README.md says how to
//! read the table.
#![allow(unsafe_op_in_unsafe_fn, dead_code)]

use measure::{add_kept, measure, Input, Row, WalkInPlace};
use plain::{Side, Transport};

// So many bytes before all other code, as in `main.rs`.
std::arch::global_asm!(concat!(
    ".section .text.place,\"axR\",@progbits\n.skip ",
    env!("BENCH_PLACE"),
    ", 0x90\n.text"
));

mod measure;
mod packets;
mod plain;

mod library {
    macro_rules! walks {
        ($($name:ident)*) => { unsafe extern "C" { $( pub fn $name(packets: *mut u8, size: usize, lens: *const u32, count: usize) -> u64; )* } };
    }
    walks! { library_in_place_nothing library_outbound_ipv4 library_inbound_ipv4 library_outbound_ipv6 library_answer_echo }
    walks! { library_is_reply_to library_write_udp_ipv4 library_write_tcp_ipv4 library_write_udp_ipv6 library_write_tcp_ipv6 }
}

/// The address that a translator has outside, over IPv4 and over IPv6.
const ADDRESS4: [u8; 4] = [203, 0, 113, 7];
const ADDRESS6: [u8; 16] = [0x20, 0x01, 0x0d, 0xb8, 0, 0, 0, 0, 0, 0, 0, 0, 0, 0, 0, 7];

/// The address of the other side.
const OTHER4: [u8; 4] = [198, 51, 100, 7];
const OTHER6: [u8; 16] = [0x20, 0x01, 0x0d, 0xb8, 0, 1, 0, 0, 0, 0, 0, 0, 0, 0, 0, 9];

/// What a walk answers of a packet that was refused.
const REFUSED: u64 = 0x55;

/// The walk of `library_in_place/lib.rt.txt`.
#[inline(always)]
unsafe fn walk(packets: *mut u8, size: usize, lens: *const u32, count: usize, call: impl Fn(&mut [u8], u16) -> u64) -> u64 {
    let packets = std::slice::from_raw_parts_mut(packets, size);
    let mut start = 0usize;
    let mut all = 0u64;
    let mut turn = 0u16;
    for len in std::slice::from_raw_parts(lens, count) {
        let end = start.wrapping_add(*len as usize);
        let Some(packet) = packets.get_mut(start..end) else {
            return all;
        };
        all = all.rotate_left(1).wrapping_add(call(packet, turn));
        turn = turn.wrapping_add(1);
        start = end;
    }
    all
}

macro_rules! walks {
    ($($name:ident = $call:expr;)*) => {
        $(
            #[inline(never)]
            unsafe extern "C" fn $name(packets: *mut u8, size: usize, lens: *const u32, count: usize) -> u64 {
                walk(packets, size, lens, count, $call)
            }
        )*
    };
}

fn answer(result: Result<(), plain::Refused>, turn: u16) -> u64 {
    match result {
        Ok(()) => u64::from(turn),
        Err(_) => REFUSED,
    }
}

walks! {
    nothing = |packet, turn| packet.len() as u64 ^ u64::from(turn);
    outbound_ipv4 = |packet, turn| answer(plain::translate_ipv4(packet, Side::Source, ADDRESS4, turn), turn);
    inbound_ipv4 = |packet, turn| answer(plain::translate_ipv4(packet, Side::Destination, ADDRESS4, turn), turn);
    outbound_ipv6 = |packet, turn| answer(plain::translate_ipv6(packet, Side::Source, ADDRESS6, turn), turn);
    answer_echo = |packet, turn| match plain::answer_echo(packet, turn.to_be_bytes()[1]) {
        Ok(len) => len as u64,
        Err(_) => REFUSED,
    };
    is_reply_to = |packet, turn| match packet.split_at_checked(packet.len() / 2) {
        Some((request, reply)) => u64::from(plain::is_reply_to(request, reply)) ^ u64::from(turn) << 1,
        None => REFUSED,
    };
    write_udp_ipv4 = |packet, turn| write_ipv4(packet, 28, &udp(turn));
    write_tcp_ipv4 = |packet, turn| write_ipv4(packet, 40, &tcp(turn));
    write_udp_ipv6 = |packet, turn| write_ipv6(packet, 48, &udp(turn));
    write_tcp_ipv6 = |packet, turn| write_ipv6(packet, 60, &tcp(turn));
}

#[inline(always)]
fn udp(turn: u16) -> Transport {
    Transport::Udp {
        source_port: turn,
        destination_port: 53,
    }
}

#[inline(always)]
fn tcp(turn: u16) -> Transport {
    Transport::Tcp {
        source_port: turn,
        destination_port: 80,
        sequence_number: 0x0102_0304,
        window_size: 0x2000,
    }
}

/// The place of a packet, and its payload after it.
#[inline(always)]
fn write_ipv4(packet: &mut [u8], headers_len: usize, transport: &Transport) -> u64 {
    let payload_len = packet.len().wrapping_sub(headers_len) / 2;
    let Some((out, payload)) = packet.split_at_mut_checked(headers_len + payload_len) else {
        return REFUSED;
    };
    plain::write_packet_ipv4(out, ADDRESS4, OTHER4, 64, transport, payload).map_or(REFUSED, |len| len as u64)
}

/// The same over IPv6.
#[inline(always)]
fn write_ipv6(packet: &mut [u8], headers_len: usize, transport: &Transport) -> u64 {
    let payload_len = packet.len().wrapping_sub(headers_len) / 2;
    let Some((out, payload)) = packet.split_at_mut_checked(headers_len + payload_len) else {
        return REFUSED;
    };
    plain::write_packet_ipv6(out, ADDRESS6, OTHER6, 64, transport, payload).map_or(REFUSED, |len| len as u64)
}

fn main() {
    let lens = [64, 1448];
    let inputs = |make: &dyn Fn(usize) -> Input| lens.map(|n| (n, make(n)));
    let (udp4, tcp4, echo4) = (
        inputs(&|n| packets::ipv4(17, n)),
        inputs(&|n| packets::ipv4(6, n)),
        inputs(&|n| packets::ipv4(1, n)),
    );
    let errors = inputs(&packets::errors_ipv4);
    let (udp6, tcp6, echo6) = (
        inputs(&|n| packets::ipv6(17, n)),
        inputs(&|n| packets::ipv6(6, n)),
        inputs(&|n| packets::ipv6(58, n)),
    );
    let answered = |input: &Input| packets::requests_and_replies(input, |packet| drop(plain::answer_echo(packet, 64)));
    let answered: Vec<(&str, usize, Input)> = [("IPv4", &echo4), ("IPv6", &echo6)]
        .iter()
        .flat_map(|(kind, inputs)| inputs.iter().map(|(n, input)| (*kind, *n, answered(input))))
        .collect();
    let written: [(&str, usize, WalkInPlace, WalkInPlace); 4] = [
        ("ipv4, compared with plain Rust, UDP", 28, library::library_write_udp_ipv4, write_udp_ipv4),
        ("ipv4, compared with plain Rust, TCP", 40, library::library_write_tcp_ipv4, write_tcp_ipv4),
        ("ipv6, compared with plain Rust, UDP", 48, library::library_write_udp_ipv6, write_udp_ipv6),
        ("ipv6, compared with plain Rust, TCP", 60, library::library_write_tcp_ipv6, write_tcp_ipv6),
    ];
    let places = written.map(|(_, headers_len, _, _)| inputs(&|n| packets::places(headers_len, n)));

    let mut rows: Vec<Row> = Vec::new();
    let mut row = |name: &str, input, library: WalkInPlace, plain: WalkInPlace, is_changed| {
        rows.push(Row::in_place(
            name,
            input,
            is_changed,
            &[("library", library), ("plain", plain)],
        ));
    };
    let [(_, short), _] = &udp4;
    row(
        "(the walk itself, a packet put back)",
        short,
        library::library_in_place_nothing,
        nothing,
        false,
    );
    let translated4: [(&str, &[(usize, Input)], WalkInPlace, WalkInPlace); 4] = [
        ("UDP", &udp4, library::library_outbound_ipv4, outbound_ipv4),
        ("TCP", &tcp4, library::library_outbound_ipv4, outbound_ipv4),
        ("echo request", &echo4, library::library_outbound_ipv4, outbound_ipv4),
        ("ICMP error about UDP", &errors, library::library_inbound_ipv4, inbound_ipv4),
    ];
    for (kind, inputs, library, plain) in translated4 {
        for (n, input) in inputs {
            row(
                &format!("translate_ipv4, compared with plain Rust, {kind}, {n} B"),
                input,
                library,
                plain,
                true,
            );
        }
    }
    for (kind, inputs) in [("UDP", &udp6), ("TCP", &tcp6)] {
        for (n, input) in inputs {
            row(
                &format!("translate_ipv6, compared with plain Rust, {kind}, {n} B"),
                input,
                library::library_outbound_ipv6,
                outbound_ipv6,
                true,
            );
        }
    }
    for (kind, inputs) in [("IPv4", &echo4), ("IPv6", &echo6)] {
        for (n, input) in inputs {
            row(
                &format!("answer_echo, compared with plain Rust, {kind}, {n} B"),
                input,
                library::library_answer_echo,
                answer_echo,
                true,
            );
        }
    }

    for (kind, n, input) in &answered {
        row(
            &format!("is_reply_to, compared with plain Rust, {kind}, {n} B"),
            input,
            library::library_is_reply_to,
            is_reply_to,
            false,
        );
    }
    for ((kind, _, library, plain), inputs) in written.into_iter().zip(&places) {
        for (n, input) in inputs {
            row(&format!("write_packet_{kind}, {n} B"), input, library, plain, true);
        }
    }

    measure(&mut rows);
    if let Ok(path) = std::env::var("BENCH_KEPT") {
        add_kept(&mut rows, &path);
    }
    println!("\nOne call that changes a packet in place, and plain Rust for the same. Above 1 the call is faster.\n");
    println!("| call | ns | by hand, ns | ratio |");
    println!("|---|---|---|---|");
    for r in &rows {
        let (o, om) = r.of("library").unwrap();
        let (h, hm) = r.of("plain").unwrap();
        println!("| {} | {o:.2} ({om:.2}) | {h:.2} ({hm:.2}) | {:.2} |", r.name, h / o);
    }
}
