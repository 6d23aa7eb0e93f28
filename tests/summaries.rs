//! Summaries that tests of several crates fill.

use crate::expect::expect_ok;
use capture_file::PacketTime;
use capture_file::reader::PacketTexts;
use capture_summary::{
    CaptureInfo, Flow, FlowProtocol, FrameLen, PacketInfo, Protocol, RefusalKind, Summary,
    VerdictKind,
};
use std::hash::RandomState;
use std::net::{IpAddr, SocketAddr};
use std::num::NonZeroU128;
use std::process::Abort;
use std::random::RandomSource;

/// A summary of no packet.
pub fn new_summary(rt: &(impl Abort + AllocGlobal + RandomSource)) -> Summary {
    summary_with(rt, None)
}

/// A summary of no packet. The intervals of its timeline have this width in nanoseconds, if there is one.
pub fn summary_with(
    rt: &(impl Abort + AllocGlobal + RandomSource),
    interval: Option<NonZeroU128>,
) -> Summary {
    let state = expect_ok(rt, RandomState::new(rt));
    expect_ok(rt, Summary::new(rt.alloc(), state, interval))
}

/// Counts a packet that is refused. Stops the test if there is no room for it.
pub fn refuse(
    rt: &impl Abort,
    summary: &mut Summary,
    protocol: Protocol,
    refusal: RefusalKind,
    info: CaptureInfo,
) {
    expect_ok(rt, try_refuse(summary, protocol, refusal, info));
}

/// Counts a packet that is refused.
fn try_refuse(
    summary: &mut Summary,
    protocol: Protocol,
    refusal: RefusalKind,
    info: CaptureInfo,
) -> Result<(), &'static str> {
    if summary.packets() == u64::MAX {
        return Err("too many packets");
    }
    let added = summary.add(protocol, VerdictKind::Refused, Some(refusal), None, &info);
    added.ok().ok_or("no memory is left")
}

/// Counts a packet that is not refused. Stops the test if there is no room for it.
pub fn judge(
    rt: &impl Abort,
    summary: &mut Summary,
    protocol: Protocol,
    verdict: VerdictKind,
    flow: Option<Flow>,
    info: CaptureInfo,
) {
    expect_ok(rt, try_judge(summary, protocol, verdict, flow, info));
}

/// Counts a packet that is not refused.
fn try_judge(
    summary: &mut Summary,
    protocol: Protocol,
    verdict: VerdictKind,
    flow: Option<Flow>,
    info: CaptureInfo,
) -> Result<(), &'static str> {
    if summary.packets() == u64::MAX {
        return Err("too many packets");
    }
    if let VerdictKind::Refused = verdict {
        return Err("a refused packet");
    }
    let added = summary.add(protocol, verdict, None, flow, &info);
    added.ok().ok_or("no memory is left")
}

/// The data about the first packet of a capture.
pub fn first_info(time: Option<PacketTime>, len: Option<FrameLen>) -> PacketInfo {
    let capture = CaptureInfo {
        link_type: None,
        time,
        len,
    };
    PacketInfo {
        number: 1,
        texts: PacketTexts::new(),
        first: time,
        capture,
    }
}

/// The flow of UDP from 192.0.2.1, port 49152, to 192.0.2.2, port 53.
pub fn flow_of_ipv4() -> Flow {
    Flow {
        protocol: FlowProtocol::Udp,
        source: SocketAddr::new(IpAddr::from([192, 0, 2, 1]), 49152),
        destination: SocketAddr::new(IpAddr::from([192, 0, 2, 2]), 53),
    }
}
