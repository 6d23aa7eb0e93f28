// The half of `etherparse`, the twin of ../library. This file is read twice: once over `etherparse` as a
// crate of its own (as cargo builds it, with no LTO), and once inside that crate in one unit (as with LTO).
// `ep` is the crate of `etherparse`.

pub type Walk = unsafe extern "C" fn(*const u8, usize, *const u32, usize) -> u64;

/// One call that is timed. `turn` differs from call to call.
pub trait Timed {
    fn call(packet: &[u8], turn: u16) -> u64;
}

#[inline(always)]
unsafe fn walk<T: Timed>(packets: *const u8, size: usize, lens: *const u32, count: usize) -> u64 {
    let mut rest = std::slice::from_raw_parts(packets, size);
    let mut all = 0u64;
    let mut turn = 0u16;
    for len in std::slice::from_raw_parts(lens, count) {
        let Some((packet, others)) = rest.split_at_checked(*len as usize) else {
            return all;
        };
        all = all.rotate_left(1).wrapping_add(T::call(packet, turn));
        turn = turn.wrapping_add(1);
        rest = others;
    }
    all
}

macro_rules! walks {
    ($($name:ident = $timed:ty;)*) => {
        $(
            #[inline(never)]
            pub unsafe extern "C" fn $name(packets: *const u8, size: usize, lens: *const u32, count: usize) -> u64 {
                unsafe { walk::<$timed>(packets, size, lens, count) }
            }
        )*
    };
}

/// A call on a value that was built from the packet before the time counts, as a header that was read.
pub trait TimedOnBuilt {
    type Value;
    fn build(packet: &[u8]) -> Option<Self::Value>;
    fn call(value: &Self::Value, packet: &[u8], turn: u16) -> u64;
}

/// Builds the values of at most 64 packets, and then walks over all of them 64 times.
#[inline(always)]
unsafe fn walk_built<T: TimedOnBuilt>(packets: *const u8, size: usize, lens: *const u32, count: usize) -> u64 {
    let packets = std::slice::from_raw_parts(packets, size);
    let lens = std::slice::from_raw_parts(lens, count);
    let mut values: arrayvec::ArrayVec<Option<T::Value>, 64> = arrayvec::ArrayVec::new();
    let mut rest = packets;
    for len in lens {
        let Some((packet, others)) = rest.split_at_checked(*len as usize) else {
            return 0;
        };
        let Some(value) = T::build(packet) else {
            return 1;
        };
        if values.try_push(Some(value)).is_err() {
            return 2;
        }
        rest = others;
    }
    let mut all = 0u64;
    for _ in 0..64 {
        let mut turn = 0u16;
        let mut rest = packets;
        let mut others = lens;
        for built in values.as_slice() {
            let Some(value) = built else {
                return all;
            };
            let Some((len, more)) = others.split_first() else {
                return all;
            };
            let Some((packet, behind)) = rest.split_at_checked(*len as usize) else {
                return all;
            };
            all = all.rotate_left(1).wrapping_add(T::call(value, packet, turn));
            turn = turn.wrapping_add(1);
            rest = behind;
            others = more;
        }
    }
    all
}

macro_rules! walks_built {
    ($($name:ident = $timed:ty;)*) => {
        $(
            #[inline(never)]
            pub unsafe extern "C" fn $name(packets: *const u8, size: usize, lens: *const u32, count: usize) -> u64 {
                unsafe { walk_built::<$timed>(packets, size, lens, count) }
            }
        )*
    };
}

/// Takes bytes out of the function that is timed, the twin of `sink` in ../library/walk.rt.txt.
#[inline(never)]
pub fn sink(bytes: &[u8], turn: u16) -> u64 {
    let place = usize::from(turn & 63);
    byte_at(bytes, place) ^ (byte_at(bytes, place ^ 32) << 8) ^ (byte_at(bytes, place & 7) << 16) ^ ((bytes.len() as u64) << 24)
}

#[inline(always)]
fn byte_at(bytes: &[u8], place: usize) -> u64 {
    match bytes.get(place) {
        Some(byte) => u64::from(*byte),
        None => 0x55,
    }
}

pub struct Sunk;
impl Timed for Sunk {
    #[inline(always)]
    fn call(packet: &[u8], turn: u16) -> u64 {
        sink(packet, turn)
    }
}

walks! { sunk = Sunk; }

pub struct Nothing;
impl Timed for Nothing {
    #[inline(always)]
    fn call(packet: &[u8], turn: u16) -> u64 {
        packet.len() as u64 ^ u64::from(turn)
    }
}

walks! { nothing = Nothing; }

#[inline(never)]
pub unsafe extern "C" fn boundary(_packets: *const u8, size: usize, _lens: *const u32, count: usize) -> u64 {
    size as u64 ^ count as u64
}

/// What one call through the boundary hands out.
#[repr(C)]
pub struct Answer {
    pub source_port: u16,
    pub destination_port: u16,
    pub length: u16,
    pub checksum: u16,
    pub rest_len: u64,
}

pub const EMPTY: Answer = Answer {
    source_port: 0,
    destination_port: 0,
    length: 0,
    checksum: 0,
    rest_len: 0,
};
