// SPDX-FileCopyrightText: 2026 The etherparse_transport developers
// SPDX-License-Identifier: MIT OR Apache-2.0
//! Names and texts of numbers.
use crate::sys;
use core::fmt;
use core::ops::Deref;

/// The length of the longest text, in bytes.
const MAX_LEN: usize = 127;

/// A name or a short text of the library, in ASCII. It dereferences to a `str`.
#[derive(Clone, Copy, PartialEq, Eq, Hash)]
pub struct Text {
    bytes: [u8; MAX_LEN + 1],
    len: usize,
}

impl Text {
    /// The text that a call writes to a buffer of a length.
    fn written(call: impl FnOnce(*mut u8, usize) -> usize) -> Text {
        let mut bytes = [0; MAX_LEN + 1];
        let len = call(bytes.as_mut_ptr(), bytes.len());
        Text { bytes, len: len.min(MAX_LEN) }
    }

    pub(crate) fn status_name(status: u32) -> Text {
        // SAFETY: the buffer is that of a live array, and has this length.
        Text::written(|buffer, len| unsafe { sys::etherparse_status_name(status, buffer, len) })
    }

    pub(crate) fn status_text(status: u32) -> Text {
        // SAFETY: as above.
        Text::written(|buffer, len| unsafe { sys::etherparse_status_text(status, buffer, len) })
    }

    pub(crate) fn verdict_name(verdict: u32) -> Text {
        // SAFETY: as above.
        Text::written(|buffer, len| unsafe { sys::etherparse_verdict_name(verdict, buffer, len) })
    }
}

impl Deref for Text {
    type Target = str;

    fn deref(&self) -> &str {
        core::str::from_utf8(&self.bytes[..self.len]).unwrap_or_default()
    }
}

impl fmt::Display for Text {
    fn fmt(&self, formatter: &mut fmt::Formatter<'_>) -> fmt::Result {
        fmt::Display::fmt(&**self, formatter)
    }
}

impl fmt::Debug for Text {
    fn fmt(&self, formatter: &mut fmt::Formatter<'_>) -> fmt::Result {
        fmt::Debug::fmt(&**self, formatter)
    }
}
