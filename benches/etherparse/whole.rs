pub mod whole {
    use super::icmp::{refused_length, type4, type6};
    use super::tcp::{fields, read_all, refused};
    use super::{ep, sink, walk, Timed};
    use arrayvec::ArrayVec;
    use ep::err::tcp::HeaderSliceError;
    use ep::{Icmpv4Header, Icmpv4Slice, Icmpv6Header, Icmpv6Slice, TcpHeader, TcpHeaderSlice, UdpHeader, UdpSlice};

    // The facade, and what a receiver does with a mix of packets.

    /// What the facade's `canonical_header` does, by the calls of `etherparse`.
    #[derive(Clone, Copy)]
    pub enum Proto {
        Udp,
        Tcp,
        Icmpv4,
        Icmpv6,
    }

    #[inline(always)]
    fn header_bytes(bytes: &[u8]) -> ArrayVec<u8, 60> {
        let mut header = ArrayVec::new();
        header.try_extend_from_slice(bytes).unwrap();
        header
    }

    #[inline(always)]
    fn canonical_header(protocol: Proto, slice: &[u8]) -> Result<(ArrayVec<u8, 60>, &[u8]), HeaderSliceError> {
        match protocol {
            Proto::Udp => {
                let (header, rest) = UdpHeader::from_slice(slice).map_err(HeaderSliceError::Len)?;
                Ok((header_bytes(&header.to_bytes()), rest))
            }
            Proto::Tcp => {
                let (header, rest) = TcpHeader::from_slice(slice)?;
                Ok((header.to_bytes(), rest))
            }
            Proto::Icmpv4 => {
                let (header, rest) = Icmpv4Header::from_slice(slice).map_err(HeaderSliceError::Len)?;
                Ok((header_bytes(&header.to_bytes()), rest))
            }
            Proto::Icmpv6 => {
                let (header, rest) = Icmpv6Header::from_slice(slice).map_err(HeaderSliceError::Len)?;
                Ok((header_bytes(&header.to_bytes()), rest))
            }
        }
    }

    #[inline(always)]
    fn canonical(protocol: Proto, packet: &[u8], turn: u16) -> u64 {
        match canonical_header(protocol, packet) {
            Ok((header, rest)) => sink(header.as_slice(), turn) ^ ((rest.len() as u64) << 40),
            Err(error) => refused(&error, turn),
        }
    }

    pub struct CanonicalUdp;

    impl Timed for CanonicalUdp {
        #[inline(always)]
        fn call(packet: &[u8], turn: u16) -> u64 {
            canonical(Proto::Udp, packet, turn)
        }
    }

    pub struct CanonicalTcp;

    impl Timed for CanonicalTcp {
        #[inline(always)]
        fn call(packet: &[u8], turn: u16) -> u64 {
            canonical(Proto::Tcp, packet, turn)
        }
    }

    pub struct CanonicalIcmpv4;

    impl Timed for CanonicalIcmpv4 {
        #[inline(always)]
        fn call(packet: &[u8], turn: u16) -> u64 {
            canonical(Proto::Icmpv4, packet, turn)
        }
    }

    pub struct CanonicalIcmpv6;

    impl Timed for CanonicalIcmpv6 {
        #[inline(always)]
        fn call(packet: &[u8], turn: u16) -> u64 {
            canonical(Proto::Icmpv6, packet, turn)
        }
    }

    /// A TCP header with its options, and whether its checksum is right.
    #[inline(always)]
    fn receive_tcp(source: [u8; 4], destination: [u8; 4], packet: &[u8], turn: u16) -> u64 {
        let slice = match TcpHeaderSlice::from_slice(packet) {
            Ok(slice) => slice,
            Err(error) => return refused(&error, turn),
        };
        let Some((_, payload)) = packet.split_at_checked(slice.slice().len()) else {
            return 0;
        };
        let right = match slice.calc_checksum_ipv4_raw(source, destination, payload) {
            Ok(checksum) => checksum == slice.checksum(),
            Err(_) => false,
        };
        let header = slice.to_header();
        fields(&header, turn) ^ read_all(header.options()) ^ (u64::from(right) << 60)
    }

    #[inline(always)]
    fn receive_udp(source: [u8; 4], destination: [u8; 4], packet: &[u8], turn: u16) -> u64 {
        let slice = match UdpSlice::from_slice(packet) {
            Ok(slice) => slice,
            Err(error) => return refused_length(&error, turn),
        };
        let header = slice.to_header();
        let right = match header.calc_checksum_ipv4_raw(source, destination, slice.payload()) {
            Ok(checksum) => header.checksum == 0 || checksum == header.checksum,
            Err(_) => false,
        };
        u64::from(header.source_port ^ header.destination_port) ^ (u64::from(header.length) << 20) ^ (u64::from(right) << 60)
    }

    #[inline(always)]
    fn receive_icmpv4(packet: &[u8], turn: u16) -> u64 {
        match Icmpv4Slice::from_slice(packet) {
            Ok(slice) => {
                let header = slice.header();
                let right = header.icmp_type.calc_checksum(slice.payload()) == header.checksum;
                type4(&header.icmp_type) ^ (u64::from(right) << 60)
            }
            Err(error) => refused_length(&error, turn),
        }
    }

    #[inline(always)]
    fn receive_icmpv6(source: [u8; 16], destination: [u8; 16], packet: &[u8], turn: u16) -> u64 {
        match Icmpv6Slice::from_slice(packet) {
            Ok(slice) => {
                let right = slice.is_checksum_valid(source, destination);
                type6(&slice.icmp_type()) ^ (u64::from(right) << 60)
            }
            Err(error) => refused_length(&error, turn),
        }
    }

    /// The protocol's number and the addresses stand before the packet.
    pub struct Receive;

    impl Timed for Receive {
        #[inline(always)]
        fn call(packet: &[u8], turn: u16) -> u64 {
            let Some((protocol, rest)) = packet.split_first() else {
                return 0;
            };
            if *protocol == 58 {
                let Some((source, rest)) = rest.split_first_chunk::<16>() else {
                    return 0;
                };
                let Some((destination, message)) = rest.split_first_chunk::<16>() else {
                    return 0;
                };
                return receive_icmpv6(*source, *destination, message, turn);
            }
            let Some((source, rest)) = rest.split_first_chunk::<4>() else {
                return 0;
            };
            let Some((destination, transport)) = rest.split_first_chunk::<4>() else {
                return 0;
            };
            match *protocol {
                6 => receive_tcp(*source, *destination, transport, turn),
                17 => receive_udp(*source, *destination, transport, turn),
                _ => receive_icmpv4(transport, turn),
            }
        }
    }

    walks! {
        canonical_udp = CanonicalUdp;
        canonical_tcp = CanonicalTcp;
        canonical_icmpv4 = CanonicalIcmpv4;
        canonical_icmpv6 = CanonicalIcmpv6;
        receive = Receive;
    }
}
pub use whole::{canonical_icmpv4, canonical_icmpv6, canonical_tcp, canonical_udp, receive};
