/// All four go in, by operations that differ, so that they are not joined to one vector.
#[inline(always)]
fn fields(header: &ep::UdpHeader) -> u64 {
    u64::from(header.source_port ^ header.destination_port) + u64::from(header.length | header.checksum)
}

pub struct HeaderFromSlice;
impl Timed for HeaderFromSlice {
    #[inline(always)]
    fn call(packet: &[u8], turn: u16) -> u64 {
        match ep::UdpHeader::from_slice(packet) {
            Ok((header, rest)) => fields(&header) ^ rest.len() as u64,
            Err(error) => (error.required_len ^ error.len) as u64 ^ u64::from(turn),
        }
    }
}

pub struct HeaderSlice;
impl Timed for HeaderSlice {
    #[inline(always)]
    fn call(packet: &[u8], turn: u16) -> u64 {
        match ep::UdpHeaderSlice::from_slice(packet) {
            Ok(header) => {
                fields(&header.to_header())
                    ^ (u64::from(header.source_port() & header.destination_port()) + u64::from(header.length() ^ header.checksum()))
                    ^ header.slice().len() as u64
            }
            Err(error) => (error.required_len ^ error.len) as u64 ^ u64::from(turn),
        }
    }
}

#[inline(always)]
fn all_getters(slice: &ep::UdpSlice<'_>) -> u64 {
    let source = match slice.payload_len_source() {
        ep::LenSource::Slice => 1u64,
        ep::LenSource::UdpHeaderLen => 2u64,
    };
    fields(&slice.to_header())
        ^ (u64::from(slice.source_port() & slice.destination_port()) + u64::from(slice.length() ^ slice.checksum()))
        ^ (slice.slice().len() as u64)
        ^ ((slice.header_slice().len() as u64) << 20)
        ^ ((slice.payload().len() as u64) << 40)
        ^ ((slice.header_len() as u64) << 50)
        ^ (u64::from(slice.header_len_u16()) << 55)
        ^ (source << 60)
}

pub struct Strict;
impl Timed for Strict {
    #[inline(always)]
    fn call(packet: &[u8], turn: u16) -> u64 {
        match ep::UdpSlice::from_slice(packet) {
            Ok(slice) => all_getters(&slice),
            Err(error) => (error.required_len ^ error.len) as u64 ^ u64::from(turn),
        }
    }
}

pub struct Lax;
impl Timed for Lax {
    #[inline(always)]
    fn call(packet: &[u8], turn: u16) -> u64 {
        match ep::UdpSlice::from_slice_lax(packet) {
            Ok(slice) => all_getters(&slice),
            Err(error) => (error.required_len ^ error.len) as u64 ^ u64::from(turn),
        }
    }
}

#[inline(always)]
fn header(packet: &[u8], turn: u16) -> ep::UdpHeader {
    ep::UdpHeader {
        source_port: turn,
        destination_port: turn ^ 0x1234,
        length: (packet.len() & 0xffff) as u16,
        checksum: turn ^ 0xabcd,
    }
}

pub struct ToBytes;
impl Timed for ToBytes {
    #[inline(always)]
    fn call(packet: &[u8], turn: u16) -> u64 {
        u64::from_le_bytes(header(packet, turn).to_bytes())
    }
}

pub struct Checksum4;
impl Timed for Checksum4 {
    #[inline(always)]
    fn call(packet: &[u8], turn: u16) -> u64 {
        let Some((source, rest)) = packet.split_first_chunk::<4>() else {
            return 0;
        };
        let Some((destination, payload)) = rest.split_first_chunk::<4>() else {
            return 0;
        };
        match header(payload, turn).calc_checksum_ipv4_raw(*source, *destination, payload) {
            Ok(checksum) => u64::from(checksum),
            Err(error) => error.actual as u64,
        }
    }
}

pub struct Checksum6;
impl Timed for Checksum6 {
    #[inline(always)]
    fn call(packet: &[u8], turn: u16) -> u64 {
        let Some((source, rest)) = packet.split_first_chunk::<16>() else {
            return 0;
        };
        let Some((destination, payload)) = rest.split_first_chunk::<16>() else {
            return 0;
        };
        match header(payload, turn).calc_checksum_ipv6_raw(*source, *destination, payload) {
            Ok(checksum) => u64::from(checksum),
            Err(error) => error.actual as u64,
        }
    }
}

walks! {
    udp_header_from_slice = HeaderFromSlice;
    udp_header_slice = HeaderSlice;
    udp_slice = Strict;
    udp_slice_lax = Lax;
    udp_to_bytes = ToBytes;
    udp_checksum_ipv4 = Checksum4;
    udp_checksum_ipv6 = Checksum6;
}

/// An empty call of the shape of the next one.
#[inline(never)]
pub unsafe extern "C" fn call_nothing(_bytes: *const u8, len: usize, out: &mut Answer) -> bool {
    *out = Answer {
        rest_len: len as u64,
        ..EMPTY
    };
    true
}

#[inline(never)]
pub unsafe extern "C" fn call_udp_header(bytes: *const u8, len: usize, out: &mut Answer) -> bool {
    match ep::UdpHeader::from_slice(unsafe { std::slice::from_raw_parts(bytes, len) }) {
        Ok((header, rest)) => {
            *out = Answer {
                source_port: header.source_port,
                destination_port: header.destination_port,
                length: header.length,
                checksum: header.checksum,
                rest_len: rest.len() as u64,
            };
            true
        }
        Err(_) => false,
    }
}
