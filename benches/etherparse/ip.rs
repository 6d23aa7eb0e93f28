/// A plain reader in Rust with the types of `ip_part`: the compared files of `etherparse` have no such call.
pub mod ip {
    use super::{walk, Timed};

    #[derive(Clone, Copy)]
    pub enum IpAddresses {
        Ipv4 {
            source: [u8; 4],
            destination: [u8; 4],
        },
        Ipv6 {
            source: [u8; 16],
            destination: Option<[u8; 16]>,
        },
    }
    #[derive(Clone, Copy)]
    pub struct TransportInIp<'a> {
        pub addresses: IpAddresses,
        pub protocol: u8,
        pub payload: &'a [u8],
        pub is_fragment: bool,
    }
    pub enum IpError {
        HeaderCutOff {
            required_len: usize,
            len: usize,
        },
        Version {
            version: u8,
        },
        HeaderLength {
            header_len: usize,
        },
        TotalLength {
            total_len: usize,
            header_len: usize,
        },
        PacketCutOff {
            required_len: usize,
            len: usize,
        },
        ExtensionHeaderCutOff {
            protocol: u8,
            offset: usize,
            required_len: usize,
            len: usize,
        },
    }

    /// The last address of the first source route if it has an address left, otherwise the address in the header.
    fn final_destination(header: &[u8]) -> [u8; 4] {
        let mut rest = &header[20..];
        while let [kind, others @ ..] = rest {
            match (*kind, others.first()) {
                (0, _) => break,
                (1, _) => rest = others,
                (kind, Some(&len)) if len >= 2 && usize::from(len) <= rest.len() => {
                    let (option, behind) = rest.split_at(usize::from(len));
                    if kind == 131 || kind == 137 {
                        let len = option.len();
                        if len < 7 || len % 4 != 3 {
                            break;
                        }
                        let pointer = usize::from(option[2]);
                        if pointer < 4 || pointer % 4 != 0 || pointer > len {
                            break;
                        }
                        return option[len - 4..].try_into().unwrap();
                    }
                    rest = behind;
                }
                _ => break,
            }
        }
        header[16..20].try_into().unwrap()
    }

    /// As one writes it by hand: one function, the addresses last. It looks for source routes if `ROUTES` is true.
    #[inline]
    pub fn transport_in_ip<const ROUTES: bool>(p: &[u8]) -> Result<TransportInIp<'_>, IpError> {
        let len = p.len();
        if len == 0 {
            return Err(IpError::HeaderCutOff { required_len: 1, len });
        }
        match p[0] >> 4 {
            4 => {
                if len < 20 {
                    return Err(IpError::HeaderCutOff { required_len: 20, len });
                }
                let header_len = usize::from(p[0] & 15) * 4;
                if header_len < 20 {
                    return Err(IpError::HeaderLength { header_len });
                }
                if len < header_len {
                    return Err(IpError::HeaderCutOff {
                        required_len: header_len,
                        len,
                    });
                }
                let total_len = usize::from(u16::from_be_bytes([p[2], p[3]]));
                if total_len < header_len {
                    return Err(IpError::TotalLength { total_len, header_len });
                }
                if len < total_len {
                    return Err(IpError::PacketCutOff {
                        required_len: total_len,
                        len,
                    });
                }
                Ok(TransportInIp {
                    addresses: IpAddresses::Ipv4 {
                        source: p[12..16].try_into().unwrap(),
                        destination: if ROUTES {
                            final_destination(&p[..header_len])
                        } else {
                            p[16..20].try_into().unwrap()
                        },
                    },
                    protocol: p[9],
                    payload: &p[header_len..total_len],
                    is_fragment: u16::from_be_bytes([p[6], p[7]]) & 0x3fff != 0,
                })
            }
            6 => {
                if len < 40 {
                    return Err(IpError::HeaderCutOff { required_len: 40, len });
                }
                let counted = 40 + usize::from(u16::from_be_bytes([p[4], p[5]]));
                if len < counted {
                    return Err(IpError::PacketCutOff {
                        required_len: counted,
                        len,
                    });
                }
                let p = &p[..counted];
                let (mut protocol, mut at, mut is_fragment) = (p[6], 40, false);
                let mut destination: Option<[u8; 16]> = Some(p[24..40].try_into().unwrap());
                while matches!(protocol, 0 | 43 | 44 | 51 | 60 | 135 | 139 | 140) {
                    let left = &p[at..];
                    let required_len = if left.len() < 8 {
                        8
                    } else {
                        match protocol {
                            44 => 8,
                            51 => (usize::from(left[1]) + 2) * 4,
                            _ => (usize::from(left[1]) + 1) * 8,
                        }
                    };
                    if left.len() < required_len {
                        return Err(IpError::ExtensionHeaderCutOff {
                            protocol,
                            offset: at,
                            required_len,
                            len: left.len(),
                        });
                    }
                    at += required_len;
                    if protocol == 43 && left[3] != 0 {
                        let words = usize::from(left[1]);
                        destination = match left[2] {
                            0 if words >= 2 => {
                                let k = words / 2 * 16 - 8;
                                Some(left[k..k + 16].try_into().unwrap())
                            }
                            2 | 4 if words >= 2 => Some(left[8..24].try_into().unwrap()),
                            _ => None,
                        };
                    }
                    let was_fragment = protocol == 44;
                    protocol = left[0];
                    if was_fragment {
                        let word = u16::from_be_bytes([left[2], left[3]]);
                        is_fragment |= word & 0xfff9 != 0;
                        if word >> 3 != 0 {
                            break;
                        }
                    }
                }
                Ok(TransportInIp {
                    addresses: IpAddresses::Ipv6 {
                        source: p[8..24].try_into().unwrap(),
                        destination,
                    },
                    protocol,
                    payload: &p[at..],
                    is_fragment,
                })
            }
            version => Err(IpError::Version { version }),
        }
    }

    #[inline(always)]
    fn four(a: &[u8; 4]) -> u64 {
        u64::from(u32::from_be_bytes(*a))
    }
    #[inline(always)]
    fn sixteen(a: &[u8; 16]) -> u64 {
        u64::from_be_bytes([a[0], a[1], a[2], a[3], a[4], a[5], a[6], a[7]])
            ^ u64::from_be_bytes([a[8], a[9], a[10], a[11], a[12], a[13], a[14], a[15]]).rotate_left(9)
    }
    #[inline(always)]
    fn found(t: &TransportInIp<'_>, turn: u16) -> u64 {
        let addresses = match &t.addresses {
            IpAddresses::Ipv4 { source, destination } => four(source) ^ (four(destination) << 32),
            IpAddresses::Ipv6 {
                source,
                destination: Some(destination),
            } => sixteen(source) ^ sixteen(destination).rotate_left(17),
            IpAddresses::Ipv6 {
                source,
                destination: None,
            } => sixteen(source),
        };
        addresses
            ^ u64::from(t.protocol)
            ^ ((t.payload.len() as u64) << 8)
            ^ (u64::from(t.is_fragment) << 40)
            ^ (u64::from(turn) << 41)
    }
    #[inline(always)]
    fn not_found(error: &IpError) -> u64 {
        match error {
            IpError::HeaderCutOff { required_len, len } => (*required_len ^ *len) as u64,
            IpError::Version { version } => u64::from(*version) ^ 0x100,
            IpError::HeaderLength { header_len } => *header_len as u64 ^ 0x200,
            IpError::TotalLength { total_len, header_len } => (*total_len ^ *header_len) as u64 ^ 0x300,
            IpError::PacketCutOff { required_len, len } => (*required_len ^ *len) as u64 ^ 0x400,
            IpError::ExtensionHeaderCutOff {
                protocol,
                offset,
                required_len,
                len,
            } => u64::from(*protocol) ^ (*offset ^ *required_len ^ *len) as u64 ^ 0x500,
        }
    }

    pub struct InIp<const ROUTES: bool>;
    impl<const ROUTES: bool> Timed for InIp<ROUTES> {
        #[inline(always)]
        fn call(packet: &[u8], turn: u16) -> u64 {
            match transport_in_ip::<ROUTES>(packet) {
                Ok(transport) => found(&transport, turn),
                Err(error) => not_found(&error),
            }
        }
    }
    walks! {
        transport_in_ip_plain = InIp<false>;
        transport_in_ip_routes_plain = InIp<true>;
    }
}

pub use ip::{transport_in_ip_plain, transport_in_ip_routes_plain};
