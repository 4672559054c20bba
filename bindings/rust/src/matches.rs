//! Matches in text and in bytes.
use std::ops::Range;

/// Writes where a match stands: its two ends, for a struct with the fields `start` and `end`.
macro_rules! with_ends {
    ($name:ident) => {
        impl $name<'_> {
            /// Where it starts, as a byte offset.
            #[inline]
            pub fn start(&self) -> usize {
                self.start
            }

            /// The offset after its last byte.
            #[inline]
            pub fn end(&self) -> usize {
                self.end
            }

            /// Both ends.
            #[inline]
            pub fn range(&self) -> Range<usize> {
                self.start..self.end
            }
        }

        impl<'t> From<$name<'t>> for Range<usize> {
            fn from(m: $name<'t>) -> Range<usize> {
                m.range()
            }
        }
    };
}

/// A match in text.
#[derive(Copy, Clone, Debug, Eq, PartialEq)]
pub struct Match<'t> {
    text: &'t str,
    start: usize,
    end: usize,
}

with_ends!(Match);

impl<'t> Match<'t> {
    pub(crate) fn new(text: &'t str, start: usize, end: usize) -> Match<'t> {
        Match { text, start, end }
    }

    /// The text that was matched.
    #[inline]
    pub fn as_str(&self) -> &'t str {
        &self.text[self.start..self.end]
    }
}

impl<'t> From<Match<'t>> for &'t str {
    fn from(m: Match<'t>) -> &'t str {
        m.as_str()
    }
}

/// A match in bytes.
#[derive(Copy, Clone, Debug, Eq, PartialEq)]
pub struct MatchBytes<'t> {
    bytes: &'t [u8],
    start: usize,
    end: usize,
}

with_ends!(MatchBytes);

impl<'t> MatchBytes<'t> {
    pub(crate) fn new(bytes: &'t [u8], start: usize, end: usize) -> MatchBytes<'t> {
        MatchBytes { bytes, start, end }
    }

    /// The bytes that were matched.
    #[inline]
    pub fn as_bytes(&self) -> &'t [u8] {
        &self.bytes[self.start..self.end]
    }
}

impl<'t> From<MatchBytes<'t>> for &'t [u8] {
    fn from(m: MatchBytes<'t>) -> &'t [u8] {
        m.as_bytes()
    }
}
