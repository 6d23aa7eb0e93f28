//! Tests of the crate `icmp_part`.

mod icmp_translation;
mod icmpv4;
mod icmpv6;
mod quoted_packet;
