//! Stands in for the sum of `etherparse`, written after its documentation: a word of 64 bits, eight bytes at a time in the order of the
//! machine, with the carry added back.

#[derive(Clone, Copy, Debug, Default, Eq, PartialEq)]
pub struct Sum16BitWords {
    sum: u64,
}

#[inline]
fn add(sum: u64, value: u64) -> u64 {
    let (result, carry) = sum.overflowing_add(value);
    result + (carry as u64)
}

impl Sum16BitWords {
    #[inline]
    pub fn new() -> Sum16BitWords {
        Sum16BitWords { sum: 0 }
    }

    #[inline]
    pub fn add_2bytes(&self, value: [u8; 2]) -> Sum16BitWords {
        Sum16BitWords {
            sum: add(self.sum, u64::from(u16::from_ne_bytes(value))),
        }
    }

    #[inline]
    pub fn add_4bytes(&self, value: [u8; 4]) -> Sum16BitWords {
        Sum16BitWords {
            sum: add(self.sum, u64::from(u32::from_ne_bytes(value))),
        }
    }

    #[inline]
    pub fn add_8bytes(&self, value: [u8; 8]) -> Sum16BitWords {
        Sum16BitWords {
            sum: add(self.sum, u64::from_ne_bytes(value)),
        }
    }

    #[inline]
    pub fn add_16bytes(&self, value: [u8; 16]) -> Sum16BitWords {
        let mut a = [0u8; 8];
        let mut b = [0u8; 8];
        a.copy_from_slice(&value[..8]);
        b.copy_from_slice(&value[8..]);
        self.add_8bytes(a).add_8bytes(b)
    }

    #[inline]
    pub fn add_slice(&self, slice: &[u8]) -> Sum16BitWords {
        let mut sum = self.sum;
        let mut chunks = slice.chunks_exact(8);
        for c in &mut chunks {
            sum = add(sum, u64::from_ne_bytes([c[0], c[1], c[2], c[3], c[4], c[5], c[6], c[7]]));
        }
        let mut rest = chunks.remainder();
        if rest.len() >= 4 {
            sum = add(sum, u64::from(u32::from_ne_bytes([rest[0], rest[1], rest[2], rest[3]])));
            rest = &rest[4..];
        }
        if rest.len() >= 2 {
            sum = add(sum, u64::from(u16::from_ne_bytes([rest[0], rest[1]])));
            rest = &rest[2..];
        }
        if !rest.is_empty() {
            sum = add(sum, u64::from(u16::from_ne_bytes([rest[0], 0])));
        }
        Sum16BitWords { sum }
    }

    #[inline]
    pub fn ones_complement(&self) -> u16 {
        let s = self.sum;
        let a = (s >> 48) + ((s >> 32) & 0xffff) + ((s >> 16) & 0xffff) + (s & 0xffff);
        let b = (a >> 16) + (a & 0xffff);
        let c = (b >> 16) + (b & 0xffff);
        !(c as u16)
    }

    #[inline]
    pub fn to_ones_complement_with_no_zero(&self) -> u16 {
        let answer = self.ones_complement();
        if answer == 0 {
            0xffff
        } else {
            answer
        }
    }
}
