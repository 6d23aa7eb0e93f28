//! Stands in for `icmpv6::ParameterProblemHeader`, as plain data.

use super::ParameterProblemCode;

#[derive(Clone, Copy, Debug, PartialEq, Eq, Ord, PartialOrd, Hash)]
pub struct ParameterProblemHeader {
    pub code: ParameterProblemCode,
    pub pointer: u32,
}
