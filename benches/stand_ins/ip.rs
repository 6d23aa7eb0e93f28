//! Stands in for the IP headers: two addresses, and three protocol numbers.

#[derive(Clone, Copy, Debug, Eq, PartialEq, Hash)]
pub struct IpNumber(pub u8);

pub mod ip_number {
    use super::IpNumber;
    pub const TCP: IpNumber = IpNumber(6);
    pub const UDP: IpNumber = IpNumber(17);
    pub const IPV6_ICMP: IpNumber = IpNumber(58);
}

#[derive(Clone, Debug, Default, Eq, PartialEq)]
pub struct Ipv4Header {
    pub source: [u8; 4],
    pub destination: [u8; 4],
}

#[derive(Clone, Debug, Default, Eq, PartialEq)]
pub struct Ipv6Header {
    pub source: [u8; 16],
    pub destination: [u8; 16],
}

#[derive(Clone, Debug, Eq, PartialEq)]
pub struct Ipv4HeaderSlice<'a> {
    slice: &'a [u8],
}

impl<'a> Ipv4HeaderSlice<'a> {
    /// An `Option` in place of a `Result`, since the errors of IP headers are left out.
    pub fn from_slice(slice: &'a [u8]) -> Option<Self> {
        if slice.len() < 20 || slice[0] >> 4 != 4 {
            return None;
        }
        let words = usize::from(slice[0] & 0x0f);
        if words < 5 || slice.len() < words * 4 {
            return None;
        }
        Some(Ipv4HeaderSlice {
            slice: &slice[..words * 4],
        })
    }
    pub fn source(&self) -> [u8; 4] {
        self.slice[12..16].try_into().unwrap()
    }
    pub fn destination(&self) -> [u8; 4] {
        self.slice[16..20].try_into().unwrap()
    }
}

#[derive(Clone, Debug, Eq, PartialEq)]
pub struct Ipv6HeaderSlice<'a> {
    slice: &'a [u8],
}

impl<'a> Ipv6HeaderSlice<'a> {
    /// An `Option` in place of a `Result`, since the errors of IP headers are left out.
    pub fn from_slice(slice: &'a [u8]) -> Option<Self> {
        if slice.len() < 40 || slice[0] >> 4 != 6 {
            return None;
        }
        Some(Ipv6HeaderSlice { slice: &slice[..40] })
    }
    pub fn source(&self) -> [u8; 16] {
        self.slice[8..24].try_into().unwrap()
    }
    pub fn destination(&self) -> [u8; 16] {
        self.slice[24..40].try_into().unwrap()
    }
}
