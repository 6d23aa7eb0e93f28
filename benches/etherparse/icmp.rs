pub mod icmp {
    use super::{ep, sink, walk, walk_built, Timed, TimedOnBuilt};
    use ep::err::LenError;
    use ep::icmpv4::{DestUnreachableHeader, ParameterProblemHeader, TimestampMessage};
    use ep::{IcmpEchoHeader, Icmpv4Header, Icmpv4Slice, Icmpv4Type, Icmpv6Header, Icmpv6Slice, Icmpv6Type};

    #[inline(always)]
    pub fn refused_length(error: &LenError, turn: u16) -> u64 {
        (error.required_len ^ error.len) as u64 ^ u64::from(turn)
    }

    #[inline(always)]
    fn echo(header: &IcmpEchoHeader) -> u64 {
        u64::from(header.id) ^ (u64::from(header.seq) << 20)
    }

    #[inline(always)]
    fn timestamp(message: &TimestampMessage) -> u64 {
        u64::from(message.id ^ message.seq)
            ^ (u64::from(message.originate_timestamp) << 8)
            ^ (u64::from(message.receive_timestamp) << 16)
            ^ (u64::from(message.transmit_timestamp) << 32)
    }

    #[inline(always)]
    pub fn type4(icmp_type: &Icmpv4Type) -> u64 {
        match icmp_type {
            Icmpv4Type::Unknown {
                type_u8,
                code_u8,
                bytes5to8,
            } => u64::from(u32::from_le_bytes(*bytes5to8)) ^ (u64::from(*type_u8) << 32) ^ (u64::from(*code_u8) << 40),
            Icmpv4Type::EchoReply(header) => echo(header) ^ 0x100_0000_0000,
            Icmpv4Type::DestinationUnreachable(header) => match header {
                DestUnreachableHeader::FragmentationNeeded { next_hop_mtu } => u64::from(*next_hop_mtu) ^ 0x200_0000_0000,
                other => u64::from(other.code_u8()) ^ 0x300_0000_0000,
            },
            Icmpv4Type::Redirect(header) => {
                u64::from(u32::from_le_bytes(header.gateway_internet_address))
                    ^ (u64::from(header.code.code_u8()) << 33)
                    ^ 0x400_0000_0000
            }
            Icmpv4Type::EchoRequest(header) => echo(header) ^ 0x500_0000_0000,
            Icmpv4Type::TimeExceeded(code) => u64::from(code.code_u8()) ^ 0x600_0000_0000,
            Icmpv4Type::ParameterProblem(header) => match header {
                ParameterProblemHeader::PointerIndicatesError(pointer) => u64::from(*pointer) ^ 0x700_0000_0000,
                ParameterProblemHeader::MissingRequiredOption => 0x800_0000_0000,
                ParameterProblemHeader::BadLength => 0x900_0000_0000,
            },
            Icmpv4Type::TimestampRequest(message) => timestamp(message) ^ 0xa00_0000_0000,
            Icmpv4Type::TimestampReply(message) => timestamp(message) ^ 0xb00_0000_0000,
        }
    }

    #[inline(always)]
    pub fn type6(icmp_type: &Icmpv6Type) -> u64 {
        match icmp_type {
            Icmpv6Type::Unknown {
                type_u8,
                code_u8,
                bytes5to8,
            } => u64::from(u32::from_le_bytes(*bytes5to8)) ^ (u64::from(*type_u8) << 32) ^ (u64::from(*code_u8) << 40),
            Icmpv6Type::DestinationUnreachable(code) => u64::from(code.code_u8()) ^ 0x100_0000_0000,
            Icmpv6Type::PacketTooBig { mtu } => u64::from(*mtu) ^ 0x200_0000_0000,
            Icmpv6Type::TimeExceeded(code) => u64::from(code.code_u8()) ^ 0x300_0000_0000,
            Icmpv6Type::ParameterProblem(header) => {
                u64::from(header.pointer) ^ (u64::from(header.code.code_u8()) << 33) ^ 0x400_0000_0000
            }
            Icmpv6Type::EchoRequest(header) => echo(header) ^ 0x500_0000_0000,
            Icmpv6Type::EchoReply(header) => echo(header) ^ 0x600_0000_0000,
            Icmpv6Type::RouterSolicitation => 0x700_0000_0000,
            Icmpv6Type::RouterAdvertisement(header) => {
                u64::from(header.cur_hop_limit)
                    ^ (u64::from(header.managed_address_config) << 9)
                    ^ (u64::from(header.other_config) << 10)
                    ^ (u64::from(header.router_lifetime) << 12)
                    ^ 0x800_0000_0000
            }
            Icmpv6Type::NeighborSolicitation => 0x900_0000_0000,
            Icmpv6Type::NeighborAdvertisement(header) => {
                u64::from(header.router)
                    ^ (u64::from(header.solicited) << 1)
                    ^ (u64::from(header.r#override) << 2)
                    ^ 0xa00_0000_0000
            }
            Icmpv6Type::Redirect => 0xb00_0000_0000,
        }
    }

    pub struct Header4;

    impl Timed for Header4 {
        #[inline(always)]
        fn call(packet: &[u8], turn: u16) -> u64 {
            match Icmpv4Header::from_slice(packet) {
                Ok((header, rest)) => type4(&header.icmp_type) ^ (u64::from(header.checksum) << 48) ^ rest.len() as u64,
                Err(error) => refused_length(&error, turn),
            }
        }
    }

    pub struct Bytes4;

    impl TimedOnBuilt for Bytes4 {
        type Value = Icmpv4Header;

        #[inline(always)]
        fn build(packet: &[u8]) -> Option<Icmpv4Header> {
            match Icmpv4Header::from_slice(packet) {
                Ok((header, _)) => Some(header),
                Err(_) => None,
            }
        }

        #[inline(always)]
        fn call(value: &Icmpv4Header, packet: &[u8], turn: u16) -> u64 {
            sink(value.to_bytes().as_slice(), turn)
        }
    }

    pub struct Slice4;

    impl Timed for Slice4 {
        #[inline(always)]
        fn call(packet: &[u8], turn: u16) -> u64 {
            match Icmpv4Slice::from_slice(packet) {
                Ok(slice) => type4(&slice.icmp_type()) ^ (u64::from(slice.checksum()) << 48) ^ slice.payload().len() as u64,
                Err(error) => refused_length(&error, turn),
            }
        }
    }

    /// The packet is the payload.
    pub struct Checksum4;

    impl Timed for Checksum4 {
        #[inline(always)]
        fn call(packet: &[u8], turn: u16) -> u64 {
            let echo = IcmpEchoHeader {
                id: turn,
                seq: turn ^ 0x1234,
            };
            u64::from(Icmpv4Header::with_checksum(Icmpv4Type::EchoRequest(echo), packet).checksum)
        }
    }

    pub struct Header6;

    impl Timed for Header6 {
        #[inline(always)]
        fn call(packet: &[u8], turn: u16) -> u64 {
            match Icmpv6Header::from_slice(packet) {
                Ok((header, rest)) => type6(&header.icmp_type) ^ (u64::from(header.checksum) << 48) ^ rest.len() as u64,
                Err(error) => refused_length(&error, turn),
            }
        }
    }

    pub struct Bytes6;

    impl TimedOnBuilt for Bytes6 {
        type Value = Icmpv6Header;

        #[inline(always)]
        fn build(packet: &[u8]) -> Option<Icmpv6Header> {
            match Icmpv6Header::from_slice(packet) {
                Ok((header, _)) => Some(header),
                Err(_) => None,
            }
        }

        #[inline(always)]
        fn call(value: &Icmpv6Header, packet: &[u8], turn: u16) -> u64 {
            sink(value.to_bytes().as_slice(), turn)
        }
    }

    pub struct Slice6;

    impl Timed for Slice6 {
        #[inline(always)]
        fn call(packet: &[u8], turn: u16) -> u64 {
            match Icmpv6Slice::from_slice(packet) {
                Ok(slice) => type6(&slice.icmp_type()) ^ (u64::from(slice.checksum()) << 48) ^ slice.payload().len() as u64,
                Err(error) => refused_length(&error, turn),
            }
        }
    }

    /// The addresses stand before the payload.
    pub struct ToHeader6;

    impl Timed for ToHeader6 {
        #[inline(always)]
        fn call(packet: &[u8], turn: u16) -> u64 {
            let Some((source, rest)) = packet.split_first_chunk::<16>() else {
                return 0;
            };
            let Some((destination, payload)) = rest.split_first_chunk::<16>() else {
                return 0;
            };
            let echo = IcmpEchoHeader {
                id: turn,
                seq: turn ^ 0x1234,
            };
            match Icmpv6Type::EchoRequest(echo).to_header(*source, *destination, payload) {
                Ok(header) => u64::from(header.checksum),
                Err(error) => error.actual as u64,
            }
        }
    }

    /// The addresses stand before the message.
    pub struct Valid6;

    impl Timed for Valid6 {
        #[inline(always)]
        fn call(packet: &[u8], turn: u16) -> u64 {
            let Some((source, rest)) = packet.split_first_chunk::<16>() else {
                return 0;
            };
            let Some((destination, message)) = rest.split_first_chunk::<16>() else {
                return 0;
            };
            match Icmpv6Slice::from_slice(message) {
                Ok(slice) => u64::from(slice.is_checksum_valid(*source, *destination)) ^ u64::from(turn),
                Err(error) => refused_length(&error, turn),
            }
        }
    }

    walks! {
        icmpv4_header_from_slice = Header4;
        icmpv4_slice = Slice4;
        icmpv4_with_checksum = Checksum4;
        icmpv6_header_from_slice = Header6;
        icmpv6_slice = Slice6;
        icmpv6_to_header = ToHeader6;
        icmpv6_is_checksum_valid = Valid6;
    }
    walks_built! {
        icmpv4_to_bytes = Bytes4;
        icmpv6_to_bytes = Bytes6;
    }
}
pub use icmp::{
    icmpv4_header_from_slice, icmpv4_slice, icmpv4_to_bytes, icmpv4_with_checksum, icmpv6_header_from_slice,
    icmpv6_is_checksum_valid, icmpv6_slice, icmpv6_to_bytes, icmpv6_to_header,
};
