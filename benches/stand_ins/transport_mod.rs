//! The modules of `src/transport` that are compared.

mod icmp_echo_header;
pub use icmp_echo_header::*;

pub mod icmpv4;
mod icmpv4_header;
pub use icmpv4_header::*;
mod icmpv4_slice;
pub use icmpv4_slice::*;
mod icmpv4_type;
pub use icmpv4_type::*;

pub mod icmpv6;
mod icmpv6_header;
pub use icmpv6_header::*;
mod icmpv6_slice;
pub use icmpv6_slice::*;
mod icmpv6_type;
pub use icmpv6_type::*;

mod tcp_header;
pub use tcp_header::*;
mod tcp_header_slice;
pub use tcp_header_slice::*;
mod tcp_option_element;
pub use tcp_option_element::*;
mod tcp_option_impl;
pub use tcp_option_impl::*;
mod tcp_option_read_error;
pub use tcp_option_read_error::*;
mod tcp_option_write_error;
pub use tcp_option_write_error::*;
mod tcp_options;
pub use tcp_options::*;
mod tcp_options_iterator;
pub use tcp_options_iterator::*;

mod udp_header;
pub use udp_header::*;
mod udp_header_slice;
pub use udp_header_slice::*;
mod udp_slice;
pub use udp_slice::*;
