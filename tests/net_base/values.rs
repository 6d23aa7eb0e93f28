//! Errors of lengths and values, their texts, and the values in them.

use crate::expect::{expect_debug_text, expect_equal, expect_ok, expect_text};
use etherparse_transport::err::{
    ErrorText, Layer, LenError, TextPart, ValueTooBigError, ValueType,
};
use etherparse_transport::{IpNumber, Ipv4Header, Ipv6Header, LenSource, ip_number};
use std::fmt::Debug;
use std::hash::{DefaultHasher, Hash, Hasher};
use std::process::Abort;

/// An error in which every field is different from zero.
#[rattlefmt::skip]
static CUT_OFF_PAYLOAD: LenError =
    LenError { required_len: 8, len: 3, len_source: LenSource::UdpHeaderLen, layer: Layer::UdpPayload, layer_start_offset: 34 };

#[rattlefmt::skip]
static TOO_BIG_PAYLOAD: ValueTooBigError<usize> =
    ValueTooBigError { actual: 65_528, max_allowed: 65_527, value_type: ValueType::UdpPayloadLengthIpv6 };

fn hash_of<T: Hash>(value: &T) -> u64 {
    let mut hasher = DefaultHasher::new();
    value.hash(&mut hasher);
    hasher.finish()
}

/// The two values differ, and so do their hashes.
fn expect_difference<T: Hash + Debug>(rt: &impl Abort, value: &T, other: &T) {
    let equal = (value == other, hash_of(value) == hash_of(other));
    expect_equal(rt, &equal, &(false, false));
}

/// A clone of the value is the same value as `same`, and has the same hash. The other value differs.
fn expect_value<T: Clone + Hash + Debug + Drop>(rt: &impl Abort, value: &T, same: &T, other: &T) {
    let copy = expect_ok(rt, value.clone());
    expect_equal(rt, &copy, same);
    expect_equal(rt, &copy, value);
    expect_equal(rt, &hash_of(&copy), &hash_of(same));
    expect_equal(rt, &hash_of(value), &hash_of(same));
    expect_difference(rt, &copy, other);
}

#[rattlefmt::skip]
#[test]
fn errors_have_their_texts(rt: HostRuntime) {
    let error = LenError { required_len: 8, len: 7, len_source: LenSource::Slice, layer: Layer::UdpHeader, layer_start_offset: 0 };
    expect_text(
        &rt,
        &error,
        "Length Error: layer UdpHeader at offset 0 requires length 8, the length is 7 (from Slice).",
    );
    let stated = LenError { len_source: LenSource::UdpHeaderLen, layer: Layer::UdpPayload, layer_start_offset: 34, ..error };
    expect_text(
        &rt,
        &stated.add_offset(6),
        "Length Error: layer UdpPayload at offset 40 requires length 8, the length is 7 (from UdpHeaderLen).",
    );
    let text = "Length Error: layer UdpPayload at offset 34 requires length 8, the length is 3 (from UdpHeaderLen).";
    expect_text(&rt, &CUT_OFF_PAYLOAD.text(), text);
    let text = "Value Error: UdpPayloadLengthIpv6 65528 is above 65527.";
    expect_text(&rt, &TOO_BIG_PAYLOAD, text);
    expect_text(&rt, &TOO_BIG_PAYLOAD.text(), text);
    let error = ValueTooBigError { actual: 300u16, max_allowed: 255u16, value_type: ValueType::TcpPayloadLengthIpv4 };
    expect_text(&rt, &error, "Value Error: TcpPayloadLengthIpv4 300 is above 255.");
}

#[rattlefmt::skip]
#[test]
fn texts_consist_of_parts(rt: HostRuntime) {
    let parts = [TextPart::Words("port "), TextPart::Number(80), TextPart::default()];
    let text = ErrorText::from_parts(&parts);
    expect_text(&rt, &text, "port 80");
    expect_equal(&rt, &text.parts().len(), &3);
    expect_debug_text(&rt, &text, "ErrorText { parts: [Words(\"port \"), Number(80), Words(\"\")] }");
    expect_text(&rt, &ErrorText::from_words("no port"), "no port");
    expect_equal(&rt, &text, &ErrorText::from_parts(&parts));
    // Texts that read the same, and differ in their parts.
    let equal = (text == ErrorText::from_words("port 80"), text == ErrorText::from_parts(&parts[..2]));
    expect_equal(&rt, &equal, &(false, false));
    expect_equal(&rt, &(TextPart::Words("80") == TextPart::Number(80)), &false);
}

#[rattlefmt::skip]
static VALUE_TYPES: [(ValueType, &str); 5] = [
    (ValueType::UdpPayloadLengthIpv4, "UdpPayloadLengthIpv4"),
    (ValueType::UdpPayloadLengthIpv6, "UdpPayloadLengthIpv6"),
    (ValueType::TcpPayloadLengthIpv4, "TcpPayloadLengthIpv4"),
    (ValueType::TcpPayloadLengthIpv6, "TcpPayloadLengthIpv6"),
    (ValueType::Icmpv6PayloadLength, "Icmpv6PayloadLength"),
];

#[test]
fn values_have_debug_texts(rt: HostRuntime) {
    let rt = &rt;
    expect_debug_text(
        rt,
        &CUT_OFF_PAYLOAD,
        "LenError { required_len: 8, len: 3, len_source: UdpHeaderLen, layer: UdpPayload, layer_start_offset: 34 }",
    );
    expect_debug_text(
        rt,
        &TOO_BIG_PAYLOAD,
        "ValueTooBigError { actual: 65528, max_allowed: 65527, value_type: UdpPayloadLengthIpv6 }",
    );
    expect_debug_text(rt, &LenSource::Slice, "Slice");
    expect_debug_text(rt, &LenSource::UdpHeaderLen, "UdpHeaderLen");
    expect_debug_text(rt, &ip_number::UDP, "IpNumber(17)");
    let ipv4 = Ipv4Header {
        source: [1, 2, 3, 4],
        destination: [5, 6, 7, 8],
    };
    expect_debug_text(
        rt,
        &ipv4,
        "Ipv4Header { source: [1, 2, 3, 4], destination: [5, 6, 7, 8] }",
    );
    expect_debug_text(
        rt,
        &Ipv6Header::default(),
        "Ipv6Header { source: [0, 0, 0, 0, 0, 0, 0, 0, 0, 0, 0, 0, 0, 0, 0, 0], destination: [0, 0, 0, 0, 0, 0, 0, 0, 0, 0, 0, 0, 0, 0, 0, 0] }",
    );
    for source in [LenSource::Slice, LenSource::UdpHeaderLen] {
        expect_debug_text(rt, &source, source.word());
    }
    for (value_type, expected) in &VALUE_TYPES {
        expect_equal(rt, &value_type.word(), expected);
        expect_debug_text(rt, value_type, expected);
    }
}

static LAYERS: [(Layer, &str); 7] = [
    (Layer::UdpHeader, "UdpHeader"),
    (Layer::UdpPayload, "UdpPayload"),
    (Layer::TcpHeader, "TcpHeader"),
    (Layer::Icmpv4, "Icmpv4"),
    (Layer::Icmpv4Timestamp, "Icmpv4Timestamp"),
    (Layer::Icmpv4TimestampReply, "Icmpv4TimestampReply"),
    (Layer::Icmpv6, "Icmpv6"),
];

#[test]
fn layers_have_words(rt: HostRuntime) {
    for (layer, word) in &LAYERS {
        expect_equal(&rt, &layer.word(), word);
        expect_debug_text(&rt, layer, word);
    }
}

#[rattlefmt::skip]
#[test]
fn values_are_cloned_compared_and_hashed(rt: HostRuntime) {
    let rt = &rt;
    expect_value(rt, &CUT_OFF_PAYLOAD, &CUT_OFF_PAYLOAD, &OTHER_LEN_ERRORS[4]);
    expect_value(rt, &TOO_BIG_PAYLOAD, &TOO_BIG_PAYLOAD, &OTHER_TOO_BIG_ERRORS[0]);
    expect_value(rt, &LenSource::UdpHeaderLen, &LenSource::UdpHeaderLen, &LenSource::Slice);
    expect_value(rt, &Layer::Icmpv6, &Layer::Icmpv6, &Layer::Icmpv4);
    let value_type = ValueType::Icmpv6PayloadLength;
    expect_value(rt, &value_type, &ValueType::Icmpv6PayloadLength, &ValueType::UdpPayloadLengthIpv4);
    expect_value(rt, &ip_number::UDP, &IpNumber(17), &ip_number::TCP);
}

/// In each error another field differs from `CUT_OFF_PAYLOAD`.
#[rattlefmt::skip]
static OTHER_LEN_ERRORS: [LenError; 5] = [
    LenError { required_len: 9, len: 3, len_source: LenSource::UdpHeaderLen, layer: Layer::UdpPayload, layer_start_offset: 34 },
    LenError { required_len: 8, len: 4, len_source: LenSource::UdpHeaderLen, layer: Layer::UdpPayload, layer_start_offset: 34 },
    LenError { required_len: 8, len: 3, len_source: LenSource::Slice, layer: Layer::UdpPayload, layer_start_offset: 34 },
    LenError { required_len: 8, len: 3, len_source: LenSource::UdpHeaderLen, layer: Layer::UdpHeader, layer_start_offset: 34 },
    LenError { required_len: 8, len: 3, len_source: LenSource::UdpHeaderLen, layer: Layer::UdpPayload, layer_start_offset: 35 },
];

/// In each error another field differs from `TOO_BIG_PAYLOAD`.
#[rattlefmt::skip]
static OTHER_TOO_BIG_ERRORS: [ValueTooBigError<usize>; 3] = [
    ValueTooBigError { actual: 65_529, max_allowed: 65_527, value_type: ValueType::UdpPayloadLengthIpv6 },
    ValueTooBigError { actual: 65_528, max_allowed: 65_526, value_type: ValueType::UdpPayloadLengthIpv6 },
    ValueTooBigError { actual: 65_528, max_allowed: 65_527, value_type: ValueType::UdpPayloadLengthIpv4 },
];

#[test]
fn every_field_of_an_error_is_compared_and_hashed(rt: HostRuntime) {
    for other in &OTHER_LEN_ERRORS {
        expect_difference(&rt, &CUT_OFF_PAYLOAD, other);
    }
    for other in &OTHER_TOO_BIG_ERRORS {
        expect_difference(&rt, &TOO_BIG_PAYLOAD, other);
    }
}
