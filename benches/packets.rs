//! Packets of TCP, ICMPv4 and ICMPv6 for the walks, and a mix. All of it is the same in each run.

use super::Input;

/// xorshift64*: the contents and lengths.
struct Numbers(u64);

impl Numbers {
    fn next(&mut self) -> u64 {
        self.0 ^= self.0 >> 12;
        self.0 ^= self.0 << 25;
        self.0 ^= self.0 >> 27;
        self.0.wrapping_mul(0x2545_F491_4F6C_DD1D) >> 16
    }
    fn below(&mut self, end: u64) -> usize {
        (self.next() % end) as usize
    }
    fn bytes(&mut self, count: usize) -> Vec<u8> {
        (0..count).map(|_| self.next() as u8).collect()
    }
}

fn joined(packets: Vec<Vec<u8>>) -> Input {
    Input {
        lens: packets.iter().map(|p| p.len() as u32).collect(),
        packets: packets.concat(),
    }
}

/// RFC 1071, word by word.
fn checksum(parts: &[&[u8]]) -> u16 {
    let mut sum = 0u64;
    for part in parts {
        for words in part.chunks(2) {
            sum += u64::from(words[0]) << 8 | u64::from(*words.get(1).unwrap_or(&0));
        }
    }
    while sum > 0xffff {
        sum = (sum >> 16) + (sum & 0xffff);
    }
    !(sum as u16)
}

/// The checksum of a packet whose own checksum is at `place`, over the addresses.
fn set_checksum(packet: &mut [u8], place: usize, addresses: &[u8], protocol: u8) {
    packet[place..place + 2].fill(0);
    let len = (packet.len() as u32).to_be_bytes();
    let sum = checksum(&[addresses, &len, &[0, protocol], packet]);
    let sum = if protocol == 17 && sum == 0 { 0xffff } else { sum };
    packet[place..place + 2].copy_from_slice(&sum.to_be_bytes());
}

fn timestamps(numbers: &mut Numbers) -> Vec<u8> {
    [vec![1, 1, 8, 10], numbers.bytes(8)].concat()
}

/// Maximum segment size, SACK permitted, timestamps, NOP, window scale: 20 bytes.
fn syn(numbers: &mut Numbers) -> Vec<u8> {
    let mut bytes = vec![2, 4, 5, 0xb4, 4, 2, 8, 10];
    bytes.extend(numbers.bytes(8));
    bytes.extend([1, 3, 3, numbers.below(15) as u8]);
    bytes
}

/// NOP, NOP, SACK with three blocks: 28 bytes.
fn sack(numbers: &mut Numbers) -> Vec<u8> {
    [vec![1, 1, 5, 26], numbers.bytes(24)].concat()
}

/// A header of 20, 32 (timestamps) or 60 bytes (those of a SYN, then NOPs), its flags as they come.
fn tcp_header(numbers: &mut Numbers, len: usize) -> Vec<u8> {
    let mut header = numbers.bytes(20);
    header[12] = (len / 4 * 16) as u8 | (header[12] & 1);
    let options = match len {
        20 => vec![],
        32 => timestamps(numbers),
        _ => [syn(numbers), vec![1; 20]].concat(),
    };
    header.extend(options);
    assert_eq!(header.len(), len);
    header
}

/// 64 packets with headers of that length and up to 96 bytes behind them.
pub fn tcp(header_len: usize) -> Input {
    let mut numbers = Numbers(header_len as u64);
    joined(
        (0..64)
            .map(|i| [tcp_header(&mut numbers, header_len), numbers.bytes(i * 37 % 97)].concat())
            .collect(),
    )
}

/// As many as fit 16 KiB, at most 64, one at least: addresses, header, payload.
pub fn tcp_with_addresses(addresses: usize, header_len: usize, payload: usize) -> Input {
    let mut numbers = Numbers((header_len + payload) as u64);
    let count = (16384 / (addresses + header_len + payload)).clamp(1, 64);
    joined(
        (0..count)
            .map(|_| {
                [
                    numbers.bytes(addresses),
                    tcp_header(&mut numbers, header_len),
                    numbers.bytes(payload),
                ]
                .concat()
            })
            .collect(),
    )
}

/// Lists of options, 64 of each.
pub fn options() -> Vec<(&'static str, Input)> {
    let mut numbers = Numbers(7);
    let mut all = |list: &dyn Fn(&mut Numbers, usize) -> Vec<u8>| joined((0..64).map(|i| list(&mut numbers, i)).collect());
    vec![
        ("SYN: MSS, SACK permitted, timestamps, NOP, window scale", all(&|n, _| syn(n))),
        ("NOP, NOP, timestamps", all(&|n, _| timestamps(n))),
        ("NOP, NOP, SACK with 3 blocks", all(&|n, _| sack(n))),
        ("40 NOPs", all(&|_, _| vec![1; 40])),
        // faults of all three kinds behind a good option
        (
            "MSS, NOP, then a fault",
            all(&|n, i| match i % 3 {
                0 => [vec![2, 4, 5, 0xb4, 1, 8, 9], n.bytes(9)].concat(),
                1 => vec![2, 4, 5, 0xb4, 1, 30, 4, 0],
                _ => vec![2, 4, 5, 0xb4, 1, 1, 8, 10],
            }),
        ),
        (
            "all of these in turn",
            all(&|n, i| match i * 7 % 5 {
                0 => syn(n),
                1 | 2 => timestamps(n),
                3 => sack(n),
                _ => [vec![2, 4, 5, 0xb4, 0, 0, 0, 0]].concat(),
            }),
        ),
    ]
}

fn icmp(seed: u64, first: &dyn Fn(usize) -> [u8; 2], fixed: Option<usize>) -> Input {
    let mut numbers = Numbers(seed);
    joined(
        (0..64)
            .map(|i| {
                let mut packet = numbers.bytes(fixed.unwrap_or(8 + i * 37 % 97));
                packet[..2].copy_from_slice(&first(i));
                packet
            })
            .collect(),
    )
}

pub fn icmpv4() -> Vec<(&'static str, Input)> {
    vec![
        ("echo", icmp(1, &|_| [8, 0], None)),
        (
            "destination unreachable, 16 codes in turn",
            icmp(2, &|i| [3, (i * 7 % 16) as u8], None),
        ),
        ("timestamp, 20 B", icmp(3, &|_| [13, 0], Some(20))),
        ("unknown", icmp(4, &|_| [40, 1], None)),
        (
            "all kinds in turn",
            icmp(
                5,
                &|i| {
                    [
                        [8, 0],
                        [0, 0],
                        [3, 3],
                        [11, 0],
                        [5, 1],
                        [12, 0],
                        [13, 0],
                        [40, 2],
                        [3, 4],
                        [8, 0],
                        [3, 1],
                    ][i * 7 % 11]
                },
                Some(20),
            ),
        ),
    ]
}

pub fn icmpv6() -> Vec<(&'static str, Input)> {
    vec![
        ("echo", icmp(1, &|_| [128, 0], None)),
        ("neighbour advertisement", icmp(2, &|_| [136, 0], None)),
        ("packet too big", icmp(3, &|_| [2, 0], None)),
        ("unknown", icmp(4, &|_| [200, 1], None)),
        // but for 133, 134 and 137, which `etherparse` reads as unknown and the library does not
        (
            "most kinds in turn",
            icmp(
                5,
                &|i| {
                    [
                        [128, 0],
                        [129, 0],
                        [1, 3],
                        [2, 0],
                        [3, 0],
                        [4, 1],
                        [135, 0],
                        [136, 0],
                        [200, 2],
                        [1, 4],
                    ][i * 7 % 10]
                },
                None,
            ),
        ),
    ]
}

/// Addresses and messages of that length, one of four with a wrong checksum.
pub fn icmpv6_with_addresses(len: usize) -> Input {
    let mut numbers = Numbers(len as u64);
    let count = (16384 / (32 + len)).clamp(1, 64);
    joined(
        (0..count)
            .map(|i| {
                let (addresses, mut message) = (numbers.bytes(32), numbers.bytes(len));
                set_checksum(&mut message, 2, &addresses, 58);
                message[7] ^= (i % 4 == 3) as u8;
                [addresses, message].concat()
            })
            .collect(),
    )
}

/// 256 packets in an order that isn't regular: the protocol's number, the addresses, and the packet. Its checksum is right, but for
/// one packet of sixteen. Of TCP about half are acknowledgements with no payload, and a third have the longest payload.
pub fn mix(longest: usize) -> Input {
    let mut numbers = Numbers(99);
    joined(
        (0..256)
            .map(|_| {
                let kind = numbers.below(100);
                let size = numbers.below(100);
                let some =
                    |numbers: &mut Numbers, least: usize, most: usize| (least + numbers.below((most - least) as u64)).min(longest);
                let addresses = numbers.bytes(if kind >= 95 { 32 } else { 8 });
                let (protocol, place, mut packet) = match kind {
                    0..60 => {
                        let payload = match size {
                            0..47 => 0,
                            47..67 => some(&mut numbers, 1, 700),
                            _ => longest,
                        };
                        let mut packet = [tcp_header(&mut numbers, 32), numbers.bytes(payload)].concat();
                        packet[13] = 0x10 | (numbers.below(2) * 8) as u8;
                        (6, 16, packet)
                    }
                    60..90 => {
                        let payload = match size {
                            0..50 => some(&mut numbers, 20, 100),
                            50..80 => some(&mut numbers, 100, 500),
                            _ => some(&mut numbers, 1100, 1300),
                        };
                        let mut packet = numbers.bytes(8 + payload);
                        packet[4..6].copy_from_slice(&(8 + payload as u16).to_be_bytes());
                        (17, 6, packet)
                    }
                    90..95 => {
                        let mut packet = numbers.bytes(8 + 56);
                        packet[..2].copy_from_slice(&[[8, 0], [0, 0], [3, 3], [11, 0]][size % 4]);
                        if packet[0] == 3 || packet[0] == 11 {
                            packet[4..8].fill(0);
                        }
                        (1, 2, packet)
                    }
                    _ => {
                        let mut packet = numbers.bytes(if size < 50 { 8 + 56 } else { 24 });
                        packet[..2].copy_from_slice(if size < 50 { &[128, 0] } else { &[136, 0] });
                        (58, 2, packet)
                    }
                };
                let pseudo: &[u8] = if protocol == 1 { &[] } else { &addresses };
                set_checksum(&mut packet, place, pseudo, protocol);
                if protocol == 1 {
                    packet[2..4].fill(0);
                    let sum = checksum(&[&packet]);
                    packet[2..4].copy_from_slice(&sum.to_be_bytes());
                }
                if numbers.below(16) == 0 {
                    packet[0] ^= 1;
                }
                [vec![protocol], addresses, packet].concat()
            })
            .collect(),
    )
}

/// As many as fit 16 KiB, at most 64: the addresses over IPv4, and a TCP segment or UDP packet with this payload and a right checksum.
pub fn with_addresses(protocol: u8, payload: usize) -> Input {
    let mut numbers = Numbers(u64::from(protocol) + payload as u64);
    let count = (16384 / (28 + payload)).clamp(1, 64);
    joined(
        (0..count)
            .map(|_| {
                let addresses = numbers.bytes(8);
                let packet = transport(&mut numbers, protocol, payload, &addresses);
                [addresses, packet].concat()
            })
            .collect(),
    )
}

/// A packet of TCP, UDP, ICMPv4 or ICMPv6 (an echo) with a right checksum.
fn transport(numbers: &mut Numbers, protocol: u8, payload: usize, addresses: &[u8]) -> Vec<u8> {
    let (place, mut packet) = match protocol {
        6 => (16, [tcp_header(numbers, 20), numbers.bytes(payload)].concat()),
        17 => {
            let mut packet = numbers.bytes(8 + payload);
            packet[4..6].copy_from_slice(&(8 + payload as u16).to_be_bytes());
            (6, packet)
        }
        _ => {
            let mut packet = numbers.bytes(8 + payload);
            packet[..2].copy_from_slice(if protocol == 1 { &[8, 0] } else { &[128, 0] });
            (2, packet)
        }
    };
    if protocol == 1 {
        packet[2..4].fill(0);
        let sum = checksum(&[&packet]);
        packet[2..4].copy_from_slice(&sum.to_be_bytes());
    } else {
        set_checksum(&mut packet, place, addresses, protocol);
    }
    packet
}

/// The protocol's number, the addresses, and a packet with this payload, as many as fit 16 KiB, at most 64; their checksums are right, or
/// all of them wrong.
pub fn found_in_ip(protocol: u8, payload: usize, right: bool) -> Input {
    let mut numbers = Numbers(u64::from(protocol) * 3 + payload as u64);
    let count = (16384 / (60 + payload)).clamp(1, 64);
    joined(
        (0..count)
            .map(|_| {
                let addresses = numbers.bytes(if protocol == 58 { 32 } else { 8 });
                let mut packet = transport(&mut numbers, protocol, payload, &addresses);
                if !right {
                    *packet.last_mut().unwrap() ^= 0x40;
                }
                [vec![protocol], addresses, packet].concat()
            })
            .collect(),
    )
}

/// 64 IP packets of each kind with 64 bytes of payload: IPv4, IPv4 with options, IPv6, IPv6 with one extension header, with two, and a mix.
pub fn ip() -> Vec<(&'static str, Input)> {
    let four = |i: usize, options: usize| -> Vec<u8> {
        let mut p: Vec<u8> = (0..20 + options + 64).map(|k| (k * 31 + i * 7 + 1) as u8).collect();
        p[0] = 0x40 | (5 + options / 4) as u8;
        let len = p.len() as u16;
        p[2..4].copy_from_slice(&len.to_be_bytes());
        p[6] = 0x40;
        p[7] = 0;
        p[9] = if i % 3 == 0 { 17 } else { 6 };
        p
    };
    let six = |i: usize, extensions: &[u8]| -> Vec<u8> {
        let mut p: Vec<u8> = (0..40 + 64).map(|k| (k * 31 + i * 7 + 1) as u8).collect();
        p[0] = 0x60;
        let last = if i % 3 == 0 { 17 } else { 6 };
        p[6] = *extensions.first().unwrap_or(&last);
        let mut added = Vec::new();
        for (k, _) in extensions.iter().enumerate() {
            let next = *extensions.get(k + 1).unwrap_or(&last);
            added.extend([next, 0, 0, 0, 0, 0, i as u8, k as u8]);
        }
        p.splice(40..40, added);
        let len = (p.len() - 40) as u16;
        p[4..6].copy_from_slice(&len.to_be_bytes());
        p
    };
    let all = |make: &dyn Fn(usize) -> Vec<u8>| -> Input {
        let (mut packets, mut lens) = (Vec::new(), Vec::new());
        for i in 0..64 {
            let p = make(i);
            lens.push(p.len() as u32);
            packets.extend(p);
        }
        Input { packets, lens }
    };
    vec![
        ("IPv4", all(&|i| four(i, 0))),
        ("IPv4 with 8 bytes of options", all(&|i| four(i, 8))),
        ("IPv6", all(&|i| six(i, &[]))),
        ("IPv6, hop-by-hop options", all(&|i| six(i, &[0]))),
        ("IPv6, hop-by-hop and destination options", all(&|i| six(i, &[0, 60]))),
        (
            "IPv4 and IPv6 in turn",
            all(&|i| if i * 7 % 5 < 3 { four(i, 0) } else { six(i, &[]) }),
        ),
    ]
}

/// As many as fit 16 KiB, at most 64.
fn many(len: usize, make: impl FnMut(usize) -> Vec<u8>) -> Input {
    joined((0..(16384 / len).clamp(1, 64)).map(make).collect())
}

/// An IPv4 packet with right checksums, whose transport is made from the addresses.
fn over_ipv4(numbers: &mut Numbers, protocol: u8, addresses: [u8; 8], transport: &[u8]) -> Vec<u8> {
    let mut packet = [
        &[0x45, 0, 0, 0][..],
        &numbers.bytes(2),
        &[0x40, 0, 64, protocol, 0, 0],
        &addresses,
    ]
    .concat();
    packet[2..4].copy_from_slice(&(20 + transport.len() as u16).to_be_bytes());
    let sum = checksum(&[&packet]);
    packet[10..12].copy_from_slice(&sum.to_be_bytes());
    [&packet, transport].concat()
}

/// A host inside, and a host outside.
fn hosts_ipv4(numbers: &mut Numbers) -> [u8; 8] {
    let [a, b, c] = [(); 3].map(|_| numbers.next() as u8);
    [192, 168, a, b, 198, 51, 100, c]
}

/// IPv4 packets of TCP, UDP or ICMPv4 (echo requests) with this payload.
pub fn ipv4(protocol: u8, payload: usize) -> Input {
    let mut numbers = Numbers(u64::from(protocol) * 5 + payload as u64);
    many(40 + payload, |_| {
        let addresses = hosts_ipv4(&mut numbers);
        let packet = transport(&mut numbers, protocol, payload, &addresses);
        over_ipv4(&mut numbers, protocol, addresses, &packet)
    })
}

/// ICMPv4 errors about UDP packets from the host inside, which are quoted whole and have this length.
pub fn errors_ipv4(quoted_len: usize) -> Input {
    let mut numbers = Numbers(quoted_len as u64);
    many(28 + quoted_len, |i| {
        let addresses = hosts_ipv4(&mut numbers);
        let packet = transport(&mut numbers, 17, quoted_len - 28, &addresses);
        let quoted = over_ipv4(&mut numbers, 17, addresses, &packet);
        let mut message = [&[[3, 11][i % 2], [1, 0][i % 2], 0, 0, 0, 0, 0, 0][..], &quoted].concat();
        let sum = checksum(&[&message]);
        message[2..4].copy_from_slice(&sum.to_be_bytes());
        let router = [198, 51, 100, 1, 192, 168, addresses[2], addresses[3]];
        over_ipv4(&mut numbers, 1, router, &message)
    })
}

/// IPv6 packets of TCP, UDP or ICMPv6 (echo requests) with this payload.
pub fn ipv6(protocol: u8, payload: usize) -> Input {
    let mut numbers = Numbers(u64::from(protocol) * 7 + payload as u64);
    many(60 + payload, |_| {
        let mut addresses = numbers.bytes(32);
        addresses[..4].copy_from_slice(&[0xfd, 0, 0, 1]);
        addresses[16..20].copy_from_slice(&[0x20, 1, 0xd, 0xb8]);
        let packet = transport(&mut numbers, protocol, payload, &addresses);
        let len = (packet.len() as u16).to_be_bytes();
        [&[0x60, 0, 0, 0], &len[..], &[protocol, 64], &addresses, &packet].concat()
    })
}

/// Places of packets with headers of this length, with the payload in them, and the payload once more after each.
pub fn places(headers_len: usize, payload: usize) -> Input {
    let mut numbers = Numbers(headers_len as u64 * 11 + payload as u64);
    many(headers_len + 2 * payload, |_| {
        let payload = numbers.bytes(payload);
        [&vec![0; headers_len][..], &payload, &payload].concat()
    })
}

/// Echo requests, and the reply that is made of each after it.
pub fn requests_and_replies(requests: &Input, reply_of: impl Fn(&mut [u8])) -> Input {
    let mut start = 0;
    let pairs = requests.lens.iter().map(|len| {
        let request = &requests.packets[start..start + *len as usize];
        start += *len as usize;
        let mut reply = request.to_vec();
        reply_of(&mut reply);
        [request, &reply].concat()
    });
    joined(pairs.collect())
}
