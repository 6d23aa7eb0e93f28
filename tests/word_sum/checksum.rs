use crate::expect::expect_equal;
use etherparse_transport::checksum::Sum16BitWords;

/// The one's complement sum of the words of the bytes, one word after the other (RFC 1071, section 1).
fn summed_word_by_word(bytes: &[u8]) -> u16 {
    let mut sum = 0u16;
    for pair in bytes.chunks(2) {
        let word = match pair {
            [high, low] => u16::from_be_bytes([*high, *low]),
            [high] => u16::from_be_bytes([*high, 0]),
            _ => 0,
        };
        let (low, carry) = sum.carrying_add(word, false);
        sum = low.wrapping_add(u16::from(carry));
    }
    sum
}

#[test]
fn words_are_summed(rt: HostRuntime) {
    let nothing = Sum16BitWords::new();
    let zeros = nothing.add_slice(&[0; 8]);
    let ones = nothing.add_slice(&[0xFF; 8]);
    let address = [
        0x20, 0x01, 0x0D, 0xB8, 0, 0, 0, 0, 0, 0, 0, 0, 0xFF, 0xFF, 0xFF, 0xFF,
    ];
    let rows = [
        (nothing, 0xFFFF),
        (nothing.add_slice(&[1]).add_slice(&[2]), 0xFCFF),
        (nothing.add_slice(&[1, 2]), 0xFEFD),
        (nothing.add_2bytes([0xFF, 0xFF]), 0x0000),
        (
            nothing.add_2bytes([0x80, 0x01]).add_2bytes([0x80, 0x02]),
            0xFFFB,
        ),
        (nothing.add_4bytes([0xFF, 0xFF, 0x12, 0x34]), 0xEDCB),
        (nothing.add_16bytes(address), 0xD246),
        // RFC 1071, section 3.
        (
            nothing.add_slice(&[0x00, 0x01, 0xF2, 0x03, 0xF4, 0xF5, 0xF6, 0xF7]),
            0x220D,
        ),
        (nothing.add_slice(&[1, 2, 3]), 0xFBFD),
        // A sum of 65,536.
        (nothing.add_2bytes([0xFF, 0xFF]).add_2bytes([0, 1]), 0xFFFE),
        // A carry out of the lower half as it is folded, to 32 bits and to 16.
        (
            nothing.add_slice(&[0xFF, 0xFF, 0xFF, 0xFF, 0, 0, 0, 2]),
            0xFFFD,
        ),
        (nothing.add_4bytes([0xFF, 0xFF, 0, 2]), 0xFFFD),
        (nothing.add_slice(&[1, 2]).add_slice(&[3, 4]), 0xFBF9),
        (nothing.add_slice(&[1, 2, 3, 4]), 0xFBF9),
        // The inner piece is odd.
        (nothing.add_slice(&[1]).add_slice(&[2, 3, 4]), 0xF8FC),
        (zeros, 0xFFFF),
        (ones, 0x0000),
        (nothing.add_slice(&[0xFF; 16]), 0x0000),
        // A carry out of 64 bits.
        (ones.add_slice(&[0, 1]), 0xFFFE),
        (zeros.add_slice(&[1]), 0xFEFF),
        (nothing.add_slice(&[1, 2, 3, 4, 5, 6, 7, 8, 9]), 0xE6EB),
    ];
    for (sum, complement) in rows {
        expect_equal(&rt, &sum.ones_complement(), &complement);
        let with_no_zero = if complement == 0 { 0xFFFF } else { complement };
        expect_equal(&rt, &sum.to_ones_complement_with_no_zero(), &with_no_zero);
    }
}

/// Slices of every length up to 400 bytes. They have up to three blocks of 128 bytes, and every possible number of bytes after the blocks.
#[test]
fn slices_of_every_length_are_summed(rt: HostRuntime) {
    let zeros = [0; 400];
    let ones = [0xFF; 400];
    let mut rising = [0; 400];
    for (place, byte) in rising.iter_mut().enumerate() {
        *byte = (place % 256) as u8;
    }
    for len in 0..=400 {
        for bytes in [&zeros[..len], &ones[..len], &rising[..len]] {
            let sum = Sum16BitWords::new().add_slice(bytes);
            expect_equal(&rt, &sum.ones_complement(), &!summed_word_by_word(bytes));
        }
    }
}

/// Long slices, one of them with an odd last byte after its blocks.
#[test]
fn slices_of_several_parts_are_summed(rt: HostRuntime) {
    let ones = [0xFF; 131_073];
    let mut rising = [0; 131_073];
    for (place, byte) in rising.iter_mut().enumerate() {
        *byte = (place % 256) as u8;
    }
    let slices = [
        &ones[..65_535],
        &ones[..65_536],
        &ones[..65_537],
        &ones,
        &rising[..65_535],
        &rising[..65_536],
        &rising[..65_537],
        &rising,
    ];
    for bytes in slices {
        let sum = Sum16BitWords::new().add_slice(bytes);
        expect_equal(&rt, &sum.ones_complement(), &!summed_word_by_word(bytes));
    }
}
