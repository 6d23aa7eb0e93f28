// Is added to the end of the crate's lib.rs: its walks in the same crate and the same code generation unit.
pub mod walks {
    use crate as ep;
    include!(concat!(env!("BENCH_FOLDER"), "/etherparse/walk.rs"));
    include!(concat!(env!("BENCH_FOLDER"), "/etherparse/sums.rs"));
    include!(concat!(env!("BENCH_FOLDER"), "/etherparse/udp.rs"));
    include!(concat!(env!("BENCH_FOLDER"), "/etherparse/tcp.rs"));
    include!(concat!(env!("BENCH_FOLDER"), "/etherparse/icmp.rs"));
    include!(concat!(env!("BENCH_FOLDER"), "/etherparse/ip.rs"));
    include!(concat!(env!("BENCH_FOLDER"), "/etherparse/whole.rs"));
}
