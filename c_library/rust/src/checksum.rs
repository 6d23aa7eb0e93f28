// SPDX-FileCopyrightText: 2026 The etherparse_transport developers
// SPDX-License-Identifier: MIT OR Apache-2.0
//! The Internet checksum (RFC 1071), and its update where bytes change (RFC 1624).
use crate::sys;

/// A running one's complement sum of 16 bit words.
///
/// ```
/// use etherparse_transport_c::checksum::Sum;
/// let header = [0x45, 0, 0, 0x1F];
/// assert_eq!(Sum::new().add_bytes(&header).add_bytes(&[1]).checksum(), 0xB9E0);
/// ```
#[derive(Clone, Copy, Debug, PartialEq, Eq, Hash)]
pub struct Sum(sys::Sum);

impl Sum {
    /// The sum of nothing.
    pub fn new() -> Sum {
        // SAFETY: the call takes nothing.
        Sum(unsafe { sys::etherparse_sum_new() })
    }

    /// The sum with the words of these bytes. An odd last byte is the high half of a word, so of several parts only the last may be
    /// odd. [`Sum::add_bytes_at`] adds parts of any lengths.
    #[must_use]
    pub fn add_bytes(self, bytes: &[u8]) -> Sum {
        // SAFETY: the pointer is that of a live reference.
        Sum(unsafe { sys::etherparse_sum_add(self.0, bytes.as_ptr(), bytes.len()) })
    }

    /// The sum with the words of these bytes, which come after `offset` bytes that it has already. So parts may have any lengths.
    ///
    /// ```
    /// use etherparse_transport_c::checksum::Sum;
    /// let parts = [[0x45, 0, 0].as_slice(), &[], &[0x1F, 1]];
    /// let (mut sum, mut offset) = (Sum::new(), 0);
    /// for part in parts {
    ///     sum = sum.add_bytes_at(offset, part);
    ///     offset += part.len();
    /// }
    /// assert_eq!(sum, Sum::new().add_bytes(&[0x45, 0, 0, 0x1F, 1]));
    /// ```
    #[must_use]
    pub fn add_bytes_at(self, offset: usize, bytes: &[u8]) -> Sum {
        // SAFETY: the pointer is that of a live reference.
        Sum(unsafe { sys::etherparse_sum_add_at(self.0, offset, bytes.as_ptr(), bytes.len()) })
    }

    /// The checksum of what was added, as TCP, ICMP and the IPv4 header store it.
    pub fn checksum(self) -> u16 {
        // SAFETY: the call takes numbers.
        unsafe { sys::etherparse_sum_checksum(self.0) }
    }

    /// The checksum of what was added, as UDP stores it: 65535 in place of 0.
    pub fn udp_checksum(self) -> u16 {
        // SAFETY: the call takes numbers.
        unsafe { sys::etherparse_sum_udp_checksum(self.0) }
    }
}

impl Default for Sum {
    fn default() -> Sum {
        Sum::new()
    }
}

/// A change of what a checksum covers: some bytes are replaced by others.
///
/// ```
/// use etherparse_transport_c::checksum::ChecksumChange;
/// // The source address and the source port of a UDP packet.
/// let change = ChecksumChange::new()
///     .replace(&[192, 168, 1, 1], &[203, 0, 113, 7])
///     .replace(&[0, 21], &[0x9C, 0x41]);
/// assert_eq!(change.apply_udp(0xB33A), 0x9CAF);
/// assert_eq!(change.reversed().apply_udp(0x9CAF), 0xB33A);
/// ```
#[derive(Clone, Copy, Debug, PartialEq, Eq, Hash)]
pub struct ChecksumChange(sys::ChecksumChange);

impl ChecksumChange {
    /// The change that replaces nothing.
    pub fn new() -> ChecksumChange {
        // SAFETY: the call takes nothing.
        ChecksumChange(unsafe { sys::etherparse_checksum_change_new() })
    }

    /// The change that replaces the old bytes by the new ones too. They begin at an even place of what the checksum covers, and both
    /// lengths are even or both are odd; the library can not see that.
    #[must_use]
    pub fn replace(self, old: &[u8], new: &[u8]) -> ChecksumChange {
        // SAFETY: each pointer is that of a live reference.
        ChecksumChange(unsafe { sys::etherparse_checksum_change_replace(self.0, old.as_ptr(), old.len(), new.as_ptr(), new.len()) })
    }

    /// The change that puts the old bytes back.
    #[must_use]
    pub fn reversed(self) -> ChecksumChange {
        // SAFETY: the call takes numbers.
        ChecksumChange(unsafe { sys::etherparse_checksum_change_reversed(self.0) })
    }

    /// The checksum of the changed packet, from the checksum that the packet had, as TCP, ICMP and the IPv4 header store it. A right
    /// checksum becomes the right checksum, except that it is 0 and should be 65535 if every byte that it covers becomes zero. A wrong
    /// checksum stays wrong, except that 0 becomes right if every such byte was zero. With a pseudo header neither can happen.
    pub fn apply(self, checksum: u16) -> u16 {
        // SAFETY: the call takes numbers.
        unsafe { sys::etherparse_checksum_change_apply(self.0, checksum) }
    }

    /// The same as UDP stores it: 0, which says that there is none, stays 0, and no other checksum becomes 0.
    pub fn apply_udp(self, checksum: u16) -> u16 {
        // SAFETY: the call takes numbers.
        unsafe { sys::etherparse_checksum_change_apply_udp(self.0, checksum) }
    }
}

impl Default for ChecksumChange {
    fn default() -> ChecksumChange {
        ChecksumChange::new()
    }
}
