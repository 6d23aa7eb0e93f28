//! Replaces parts of packets of up to 60 bytes several times, and updates the checksums. Each updated checksum is compared with the
//! checksum of the changed packet.

use crate::expect::{bytes_to, expect_at, expect_equal, expect_ok, expect_some};
use etherparse_transport::checksum::Sum16BitWords;
use etherparse_transport::checksum_change::{
    ChecksumChange, updated_checksum, updated_udp_checksum,
};
use std::process::Abort;

/// Numbers that look random, and are the same in each run (a linear congruential generator).
#[derive(Drop)]
struct Numbers {
    state: u32,
}

impl Numbers {
    fn next(&mut self) -> usize {
        self.state = self
            .state
            .wrapping_mul(1_664_525)
            .wrapping_add(1_013_904_223);
        (self.state >> 16) as usize
    }

    /// Returns sixty bytes. The bytes are zeros for kind 0, zeros and FF for kinds 1 and 2, and any values for all other kinds.
    fn bytes(&mut self, kind: usize) -> [u8; 60] {
        let mut bytes = [0; 60];
        for byte in bytes.iter_mut() {
            let number = self.next();
            *byte = match kind {
                0 => 0,
                1 | 2 => (number % 2 * 255) as u8,
                _ => (number % 256) as u8,
            };
        }
        bytes
    }
}

/// A packet after some replacements, the change that describes these replacements, and the UDP checksum that each replacement updated.
#[derive(Drop)]
struct Chain {
    packet: Vec<u8>,
    change: ChecksumChange,
    udp_checksum: u16,
    replacements: usize,
    other_lengths: usize,
}

impl Chain {
    /// Replaces a part at an even place. The length of the new part is odd exactly if the length of the old part is odd.
    fn replace(&mut self, rt: &(impl Abort + AllocGlobal), numbers: &mut Numbers, kind: usize) {
        let place = numbers.next() % (self.packet.len() / 2 + 1) * 2;
        let (before, rest) = expect_some(rt, self.packet.split_at_checked(place));
        let old_len = numbers.next() % (rest.len() + 1);
        let (old, after) = expect_some(rt, rest.split_at_checked(old_len));
        let bytes = numbers.bytes(kind);
        let new_len = match numbers.next() % 3 {
            0 => old.len() % 2 + numbers.next() % 8 * 2,
            _ => old.len(),
        };
        let new = bytes.get(..new_len).unwrap_or(old);
        self.change = extended(self.change, old, new);
        self.udp_checksum = updated_udp_checksum(self.udp_checksum, old, new);
        self.replacements = self.replacements.saturating_add(1);
        if new.len() != old.len() {
            self.other_lengths = self.other_lengths.saturating_add(1);
        }
        self.packet = joined(rt, before, new, after);
    }
}

/// Returns the three parts of a packet, one after the other.
fn joined(rt: &(impl Abort + AllocGlobal), before: &[u8], part: &[u8], after: &[u8]) -> Vec<u8> {
    let mut whole = expect_ok(rt, before.to_vec(rt.alloc()));
    expect_ok(rt, whole.extend_from_slice(part));
    expect_ok(rt, whole.extend_from_slice(after));
    whole
}

/// Returns the change with one more replacement. The lengths of the parts determine which call adds the replacement.
fn extended(change: ChecksumChange, old: &[u8], new: &[u8]) -> ChecksumChange {
    match (old, new) {
        ([a, b], [c, d]) => change.replace_2bytes([*a, *b], [*c, *d]),
        ([a, b, c, d], [e, f, g, h]) => change.replace_4bytes([*a, *b, *c, *d], [*e, *f, *g, *h]),
        _ => change.replace_slice(old, new),
    }
}

/// Runs a chain of 1 to 5 replacements in a packet of 0 to 60 bytes.
fn run_chain(
    rt: &(impl Abort + AllocGlobal),
    numbers: &mut Numbers,
    packet: &[u8],
    kind: usize,
) -> Chain {
    let sum = Sum16BitWords::new().add_slice(packet);
    let mut chain = Chain {
        packet: expect_ok(rt, packet.to_vec(rt.alloc())),
        change: ChecksumChange::new(),
        udp_checksum: sum.to_ones_complement_with_no_zero(),
        replacements: 0,
        other_lengths: 0,
    };
    for _ in 0..numbers.next() % 5 + 1 {
        chain.replace(rt, numbers, kind);
    }
    chain
}

/// Tests the updated checksum of the chain. If the packet has become all zeros, the updated checksum is 0 instead of 65535. The function
/// returns whether this is the case.
fn expect_updated(rt: &impl Abort, number: usize, chain: &Chain, sum: Sum16BitWords) -> bool {
    let new = Sum16BitWords::new()
        .add_slice(&chain.packet)
        .ones_complement();
    let updated = chain.change.apply(sum.ones_complement());
    let is_zeros = chain.packet.iter().all(|byte| *byte == 0);
    if is_zeros {
        expect_equal(rt, &(updated, new), &(0, 0xFFFF));
    } else {
        expect_at(rt, &number, &updated, &new);
    }
    is_zeros
}

/// Tests the updated checksum of UDP, which is also right for packets of zeros. Then it tests the reversed change.
fn expect_updated_udp(rt: &impl Abort, number: usize, chain: &Chain, sum: Sum16BitWords) {
    let udp = sum.to_ones_complement_with_no_zero();
    let new = Sum16BitWords::new().add_slice(&chain.packet);
    let new = new.to_ones_complement_with_no_zero();
    expect_at(rt, &number, &chain.change.apply_udp(udp), &new);
    expect_at(rt, &number, &chain.udp_checksum, &new);
    expect_equal(rt, &chain.change.reversed().apply_udp(new), &udp);
}

/// The numbers of replaced parts, of parts with a new length, and of packets that have become all zeros.
type Counts = (usize, usize, usize);

/// Runs the chain with this number, and returns the counts after it.
fn expect_chain(
    rt: &(impl Abort + AllocGlobal),
    numbers: &mut Numbers,
    number: usize,
    counts: Counts,
) -> Counts {
    let (replacements, other_lengths, zeros) = counts;
    let kind = number % 5;
    let bytes = numbers.bytes(kind);
    let packet = bytes_to(rt, &bytes, numbers.next() % 61);
    let sum = Sum16BitWords::new().add_slice(packet);
    let chain = run_chain(rt, numbers, packet, kind / 2);
    let is_zeros = expect_updated(rt, number, &chain, sum);
    expect_updated_udp(rt, number, &chain, sum);
    (
        replacements.saturating_add(chain.replacements),
        other_lengths.saturating_add(chain.other_lengths),
        zeros.saturating_add(usize::from(is_zeros)),
    )
}

#[test]
fn chains_of_replacements_are_updated(rt: HostRuntime) {
    let mut numbers = Numbers { state: 1624 };
    let mut counts = (0, 0, 0);
    for number in 0..2000usize {
        counts = expect_chain(&rt, &mut numbers, number, counts);
    }
    expect_equal(&rt, &counts, &(6044, 1786, 473));
}

/// Replaces each part that begins at an even place of a packet, including parts of an odd length.
#[test]
fn parts_of_every_length_are_replaced(rt: HostRuntime) {
    let mut packet = [0; 40];
    for (place, byte) in packet.iter_mut().enumerate() {
        *byte = (place * 37 % 256) as u8;
    }
    let checksum = Sum16BitWords::new().add_slice(&packet).ones_complement();
    let mut replaced = 0usize;
    for begin in 0..=20 {
        for end in begin * 2..=40 {
            let mut changed = packet;
            changed[begin * 2..end].fill(0xA7);
            let sum = Sum16BitWords::new().add_slice(&changed);
            let (old, new) = (&packet[begin * 2..end], &changed[begin * 2..end]);
            expect_equal(
                &rt,
                &updated_checksum(checksum, old, new),
                &sum.ones_complement(),
            );
            expect_equal(
                &rt,
                &updated_udp_checksum(checksum, old, new),
                &sum.to_ones_complement_with_no_zero(),
            );
            replaced = replaced.saturating_add(1);
        }
    }
    expect_equal(&rt, &replaced, &441);
}
