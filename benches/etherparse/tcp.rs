pub mod tcp {
    use super::{ep, sink, walk, walk_built, Timed, TimedOnBuilt};
    use ep::err::tcp::{HeaderError, HeaderSliceError};
    use ep::err::LenError;
    use ep::{TcpHeader, TcpHeaderSlice, TcpOptionElement, TcpOptionReadError, TcpOptions, TcpOptionsIterator};

    #[inline(always)]
    pub fn refused(error: &HeaderSliceError, turn: u16) -> u64 {
        match error {
            HeaderSliceError::Len(LenError { required_len, len, .. }) => (*required_len ^ *len) as u64 ^ u64::from(turn),
            HeaderSliceError::Content(HeaderError::DataOffsetTooSmall { data_offset }) => {
                u64::from(*data_offset) ^ 0x100 ^ u64::from(turn)
            }
        }
    }

    /// Every field goes in, and the options through the sink.
    #[inline(always)]
    pub fn fields(header: &TcpHeader, turn: u16) -> u64 {
        let flags = u64::from(header.ns)
            ^ (u64::from(header.fin) << 1)
            ^ (u64::from(header.syn) << 2)
            ^ (u64::from(header.rst) << 3)
            ^ (u64::from(header.psh) << 4)
            ^ (u64::from(header.ack) << 5)
            ^ (u64::from(header.urg) << 6)
            ^ (u64::from(header.ece) << 7)
            ^ (u64::from(header.cwr) << 8);
        u64::from(header.source_port ^ header.destination_port)
            ^ (u64::from(header.sequence_number & header.acknowledgment_number) << 16)
            ^ (u64::from(header.sequence_number | header.acknowledgment_number) << 5)
            ^ (flags << 20)
            ^ u64::from((header.window_size | header.checksum) & header.urgent_pointer)
            ^ (u64::from(header.window_size ^ header.checksum) << 30)
            ^ (sink(header.options(), turn) << 4)
    }

    pub struct HeaderFromSlice;

    impl Timed for HeaderFromSlice {
        #[inline(always)]
        fn call(packet: &[u8], turn: u16) -> u64 {
            match TcpHeader::from_slice(packet) {
                Ok((header, rest)) => fields(&header, turn) ^ rest.len() as u64,
                Err(error) => refused(&error, turn),
            }
        }
    }

    pub struct ToBytes;

    impl TimedOnBuilt for ToBytes {
        type Value = TcpHeader;

        #[inline(always)]
        fn build(packet: &[u8]) -> Option<TcpHeader> {
            match TcpHeader::from_slice(packet) {
                Ok((header, _)) => Some(header),
                Err(_) => None,
            }
        }

        #[inline(always)]
        fn call(value: &TcpHeader, packet: &[u8], turn: u16) -> u64 {
            sink(value.to_bytes().as_slice(), turn)
        }
    }

    pub struct HeaderSlice;

    impl Timed for HeaderSlice {
        #[inline(always)]
        fn call(packet: &[u8], turn: u16) -> u64 {
            match TcpHeaderSlice::from_slice(packet) {
                Ok(header) => {
                    let flags = u64::from(header.ns())
                        ^ (u64::from(header.fin()) << 1)
                        ^ (u64::from(header.syn()) << 2)
                        ^ (u64::from(header.rst()) << 3)
                        ^ (u64::from(header.psh()) << 4)
                        ^ (u64::from(header.ack()) << 5)
                        ^ (u64::from(header.urg()) << 6)
                        ^ (u64::from(header.ece()) << 7)
                        ^ (u64::from(header.cwr()) << 8);
                    u64::from(header.source_port() ^ header.destination_port())
                        ^ (u64::from(header.sequence_number() & header.acknowledgment_number()) << 16)
                        ^ (u64::from(header.sequence_number() | header.acknowledgment_number()) << 5)
                        ^ (flags << 20)
                        ^ u64::from((header.window_size() | header.checksum()) & header.urgent_pointer())
                        ^ (u64::from(header.window_size() ^ header.checksum()) << 30)
                        ^ (u64::from(header.data_offset()) << 40)
                        ^ ((header.options().len() as u64) << 50)
                        ^ ((header.slice().len() as u64) << 56)
                }
                Err(error) => refused(&error, turn),
            }
        }
    }

    pub struct ToHeader;

    impl Timed for ToHeader {
        #[inline(always)]
        fn call(packet: &[u8], turn: u16) -> u64 {
            match TcpHeaderSlice::from_slice(packet) {
                Ok(header) => fields(&header.to_header(), turn),
                Err(error) => refused(&error, turn),
            }
        }
    }

    #[inline(always)]
    fn block(block: &Option<(u32, u32)>) -> u64 {
        match block {
            Some((left, right)) => u64::from(*left ^ (*right).rotate_left(7)),
            None => 3,
        }
    }

    #[inline(always)]
    fn element(element: &TcpOptionElement) -> u64 {
        match element {
            TcpOptionElement::Noop => 1,
            TcpOptionElement::MaximumSegmentSize(size) => u64::from(*size) ^ 0x20000,
            TcpOptionElement::WindowScale(shift) => u64::from(*shift) ^ 0x30000,
            TcpOptionElement::SelectiveAcknowledgementPermitted => 0x40000,
            TcpOptionElement::SelectiveAcknowledgement((left, right), more) => {
                u64::from(*left ^ (*right).rotate_left(7))
                    ^ (block(&more[0]) << 8)
                    ^ (block(&more[1]) << 16)
                    ^ (block(&more[2]) << 24)
            }
            TcpOptionElement::Timestamp(value, echo) => u64::from(*value) ^ (u64::from(*echo) << 32),
        }
    }

    #[inline(always)]
    fn fault(error: &TcpOptionReadError) -> u64 {
        match error {
            TcpOptionReadError::UnexpectedEndOfSlice {
                option_id,
                expected_len,
                actual_len,
            } => u64::from(*option_id ^ *expected_len) ^ ((*actual_len as u64) << 16),
            TcpOptionReadError::UnexpectedSize { option_id, size } => u64::from(*option_id ^ *size) ^ 0x500_0000,
            TcpOptionReadError::UnknownId(id) => u64::from(*id) ^ 0x600_0000,
        }
    }

    /// All items of option bytes.
    #[inline(always)]
    pub fn read_all(options: &[u8]) -> u64 {
        let mut all = 0u64;
        for item in TcpOptionsIterator::from_slice(options) {
            let number = match item {
                Ok(read) => element(&read),
                Err(error) => fault(&error),
            };
            all = all.rotate_left(3).wrapping_add(number);
        }
        all
    }

    pub struct OptionItems;

    impl Timed for OptionItems {
        #[inline(always)]
        fn call(packet: &[u8], turn: u16) -> u64 {
            read_all(packet) ^ u64::from(turn)
        }
    }

    pub struct FromElements;

    impl Timed for FromElements {
        #[inline(always)]
        fn call(packet: &[u8], turn: u16) -> u64 {
            let elements = [
                TcpOptionElement::MaximumSegmentSize(turn ^ 1460),
                TcpOptionElement::SelectiveAcknowledgementPermitted,
                TcpOptionElement::Timestamp((packet.len() & 0xffff) as u32 ^ u32::from(turn), 0x1234_5678),
                TcpOptionElement::Noop,
                TcpOptionElement::WindowScale((turn & 15) as u8),
            ];
            match TcpOptions::try_from_elements(&elements) {
                Ok(options) => sink(options.as_slice(), turn),
                Err(_) => 0,
            }
        }
    }

    pub struct SetRaw;

    impl Timed for SetRaw {
        #[inline(always)]
        fn call(packet: &[u8], turn: u16) -> u64 {
            let mut header = TcpHeader::new(turn, 80, 1, 2);
            match header.set_options_raw(packet) {
                Ok(()) => sink(header.options(), turn),
                Err(_) => 0,
            }
        }
    }

    /// The addresses stand before the header, and after it the payload.
    pub struct Checksum4;

    impl TimedOnBuilt for Checksum4 {
        type Value = TcpHeader;

        #[inline(always)]
        fn build(packet: &[u8]) -> Option<TcpHeader> {
            let (_, rest) = packet.split_at_checked(8)?;
            match TcpHeader::from_slice(rest) {
                Ok((header, _)) => Some(header),
                Err(_) => None,
            }
        }

        #[inline(always)]
        fn call(value: &TcpHeader, packet: &[u8], turn: u16) -> u64 {
            let Some((source, rest)) = packet.split_first_chunk::<4>() else {
                return 0;
            };
            let Some((destination, rest)) = rest.split_first_chunk::<4>() else {
                return 0;
            };
            let Some((_, payload)) = rest.split_at_checked(value.header_len()) else {
                return 0;
            };
            match value.calc_checksum_ipv4_raw(*source, *destination, payload) {
                Ok(checksum) => u64::from(checksum) ^ u64::from(turn),
                Err(error) => error.actual as u64,
            }
        }
    }

    /// The addresses stand before the header, and after it the payload.
    pub struct Checksum6;

    impl TimedOnBuilt for Checksum6 {
        type Value = TcpHeader;

        #[inline(always)]
        fn build(packet: &[u8]) -> Option<TcpHeader> {
            let (_, rest) = packet.split_at_checked(32)?;
            match TcpHeader::from_slice(rest) {
                Ok((header, _)) => Some(header),
                Err(_) => None,
            }
        }

        #[inline(always)]
        fn call(value: &TcpHeader, packet: &[u8], turn: u16) -> u64 {
            let Some((source, rest)) = packet.split_first_chunk::<16>() else {
                return 0;
            };
            let Some((destination, rest)) = rest.split_first_chunk::<16>() else {
                return 0;
            };
            let Some((_, payload)) = rest.split_at_checked(value.header_len()) else {
                return 0;
            };
            match value.calc_checksum_ipv6_raw(*source, *destination, payload) {
                Ok(checksum) => u64::from(checksum) ^ u64::from(turn),
                Err(error) => error.actual as u64,
            }
        }
    }

    /// The same by the slice of the header, which is made in the call.
    pub struct SliceChecksum4;

    impl Timed for SliceChecksum4 {
        #[inline(always)]
        fn call(packet: &[u8], turn: u16) -> u64 {
            let Some((source, rest)) = packet.split_first_chunk::<4>() else {
                return 0;
            };
            let Some((destination, rest)) = rest.split_first_chunk::<4>() else {
                return 0;
            };
            let header = match TcpHeaderSlice::from_slice(rest) {
                Ok(header) => header,
                Err(error) => return refused(&error, turn),
            };
            let Some((_, payload)) = rest.split_at_checked(header.slice().len()) else {
                return 0;
            };
            match header.calc_checksum_ipv4_raw(*source, *destination, payload) {
                Ok(checksum) => u64::from(checksum) ^ u64::from(turn),
                Err(error) => error.actual as u64,
            }
        }
    }

    /// The same by the slice of the header, which is made in the call.
    pub struct SliceChecksum6;

    impl Timed for SliceChecksum6 {
        #[inline(always)]
        fn call(packet: &[u8], turn: u16) -> u64 {
            let Some((source, rest)) = packet.split_first_chunk::<16>() else {
                return 0;
            };
            let Some((destination, rest)) = rest.split_first_chunk::<16>() else {
                return 0;
            };
            let header = match TcpHeaderSlice::from_slice(rest) {
                Ok(header) => header,
                Err(error) => return refused(&error, turn),
            };
            let Some((_, payload)) = rest.split_at_checked(header.slice().len()) else {
                return 0;
            };
            match header.calc_checksum_ipv6_raw(*source, *destination, payload) {
                Ok(checksum) => u64::from(checksum) ^ u64::from(turn),
                Err(error) => error.actual as u64,
            }
        }
    }

    walks! {
        tcp_header_from_slice = HeaderFromSlice;
        tcp_header_slice = HeaderSlice;
        tcp_to_header = ToHeader;
        tcp_options_iterator = OptionItems;
        tcp_options_from_elements = FromElements;
        tcp_set_options_raw = SetRaw;
        tcp_slice_checksum_ipv4 = SliceChecksum4;
        tcp_slice_checksum_ipv6 = SliceChecksum6;
    }
    walks_built! {
        tcp_to_bytes = ToBytes;
        tcp_checksum_ipv4 = Checksum4;
        tcp_checksum_ipv6 = Checksum6;
    }
}
pub use tcp::{
    tcp_checksum_ipv4, tcp_checksum_ipv6, tcp_header_from_slice, tcp_header_slice, tcp_options_from_elements, tcp_options_iterator,
    tcp_set_options_raw, tcp_slice_checksum_ipv4, tcp_slice_checksum_ipv6, tcp_to_bytes, tcp_to_header,
};
