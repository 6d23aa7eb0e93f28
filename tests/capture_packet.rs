//! Tests of the crate `capture_packet`.

mod arp;
mod fragments;
mod link;
mod packet;
mod pppoe;
mod quoted_packet;
mod tunnels;
mod udp_tunnels;
