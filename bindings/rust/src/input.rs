//! What can be searched, and where.
use crate::ffi::{self, Request};
use crate::matches::{Match, MatchBytes};
use std::ops::Range;

mod sealed {
    pub trait Sealed {}

    impl Sealed for str {}
    impl Sealed for String {}
    impl Sealed for [u8] {}
    impl<const N: usize> Sealed for [u8; N] {}
    impl<S: Sealed + ?Sized> Sealed for &S {}
}

/// A haystack: text or bytes. Only this crate implements it.
pub trait Input: sealed::Sealed {
    /// What a match in a haystack of this form is.
    type Match<'t>
    where
        Self: 't;

    /// The length in bytes.
    fn len(&self) -> usize {
        self.as_bytes().len()
    }

    /// The bytes.
    fn as_bytes(&self) -> &[u8];

    /// Whether it is text.
    #[doc(hidden)]
    fn is_text(&self) -> bool;

    /// Whether a character may begin or end at the offset.
    fn is_char_boundary(&self, ix: usize) -> bool;

    /// Whether each byte is below 0x80.
    fn is_ascii(&self) -> bool {
        self.as_bytes().is_ascii()
    }

    /// Whether there is no byte.
    fn is_empty(&self) -> bool {
        self.len() == 0
    }

    /// The place before `i`, which is above 0.
    fn prev_codepoint_ix(&self, i: usize) -> usize {
        let bytes = self.as_bytes();
        let mut i = i - 1;
        while i > 0 && bytes[i] & 0xC0 == 0x80 {
            i -= 1;
        }
        i
    }

    /// The match from `start` to `end`.
    fn make_match<'t>(&'t self, start: usize, end: usize) -> Self::Match<'t>;

    /// The place after `i`.
    fn advance_position(&self, i: usize) -> usize;
}

fn after_character(bytes: &[u8], i: usize) -> usize {
    let mut next = i + 1;
    while next < bytes.len() && bytes[next] & 0xC0 == 0x80 {
        next += 1;
    }
    next
}

macro_rules! text_input {
    ($form:ty) => {
        impl Input for $form {
            type Match<'t> = Match<'t>;

            fn as_bytes(&self) -> &[u8] {
                str::as_bytes(self)
            }

            fn is_text(&self) -> bool {
                true
            }

            fn is_char_boundary(&self, ix: usize) -> bool {
                str::is_char_boundary(self, ix)
            }

            fn make_match<'t>(&'t self, start: usize, end: usize) -> Match<'t> {
                Match::new(self, start, end)
            }

            fn advance_position(&self, i: usize) -> usize {
                after_character(str::as_bytes(self), i)
            }
        }
    };
}

text_input!(str);
text_input!(String);

macro_rules! bytes_input {
    ($form:ty $(, $size:ident)?) => {
        impl$(<const $size: usize>)? Input for $form {
            type Match<'t> = MatchBytes<'t>;

            fn as_bytes(&self) -> &[u8] {
                self
            }

            fn is_text(&self) -> bool {
                false
            }

            fn is_char_boundary(&self, ix: usize) -> bool {
                ix == 0 || ix >= <[u8]>::len(self) || self[ix] & 0xC0 != 0x80
            }

            fn make_match<'t>(&'t self, start: usize, end: usize) -> MatchBytes<'t> {
                MatchBytes::new(self, start, end)
            }

            fn advance_position(&self, i: usize) -> usize {
                i + 1
            }
        }
    };
}

bytes_input!([u8]);
bytes_input!([u8; N], N);

impl<S: Input + ?Sized> Input for &S {
    type Match<'t>
        = S::Match<'t>
    where
        Self: 't;

    fn as_bytes(&self) -> &[u8] {
        (**self).as_bytes()
    }

    fn is_text(&self) -> bool {
        (**self).is_text()
    }

    fn is_char_boundary(&self, ix: usize) -> bool {
        (**self).is_char_boundary(ix)
    }

    fn make_match<'t>(&'t self, start: usize, end: usize) -> Self::Match<'t> {
        (**self).make_match(start, end)
    }

    fn advance_position(&self, i: usize) -> usize {
        (**self).advance_position(i)
    }
}

/// A haystack, and where and how it is searched.
#[derive(Debug)]
pub struct RegexInput<'h, S: Input + ?Sized> {
    haystack: &'h S,
    start: usize,
    range: Range<usize>,
    anchored: bool,
    start_text: bool,
    end_text: bool,
    continues: bool,
}

impl<S: Input + ?Sized> Clone for RegexInput<'_, S> {
    fn clone(&self) -> Self {
        RegexInput {
            range: self.range.clone(),
            ..*self
        }
    }
}

impl<'h, S: Input + ?Sized> RegexInput<'h, S> {
    /// The whole haystack from its start.
    pub fn new(haystack: &'h S) -> Self {
        RegexInput {
            haystack,
            start: 0,
            range: 0..haystack.len(),
            anchored: false,
            start_text: true,
            end_text: true,
            continues: true,
        }
    }

    /// The haystack.
    pub fn haystack(&self) -> &'h S {
        self.haystack
    }

    /// The position that was asked for.
    pub fn start(&self) -> usize {
        self.start
    }

    /// Where matches begin and end.
    pub fn get_range(&self) -> Range<usize> {
        self.range.clone()
    }

    /// Has the search start there.
    pub fn from_pos(mut self, start: usize) -> Self {
        self.start = start;
        self
    }

    /// Has matches begin and end in the range.
    ///
    /// # Panics
    ///
    /// Where the range is not within the haystack.
    pub fn range(mut self, range: Range<usize>) -> Self {
        assert!(range.start <= range.end, "range start must be <= range end");
        assert!(range.end <= self.haystack.len(), "range end must be within haystack bounds");
        self.range = range;
        self
    }

    /// With `false` the start of the text does not count as one.
    pub fn start_text(mut self, yes: bool) -> Self {
        self.start_text = yes;
        self
    }

    /// With `false` the end of the text does not count as one.
    pub fn end_text(mut self, yes: bool) -> Self {
        self.end_text = yes;
        self
    }

    /// With `false` there was no match before.
    pub fn continue_from_previous_match_end(mut self, yes: bool) -> Self {
        self.continues = yes;
        self
    }

    /// With `true` one position alone is tried.
    pub fn anchored(mut self, yes: bool) -> Self {
        self.anchored = yes;
        self
    }

    pub(crate) fn set_start(&mut self, start: usize) {
        self.start = start;
    }

    /// What the library is asked; the switches count where the regex allows them.
    pub(crate) fn request(&self, overrides: bool) -> Request {
        let mut flags = if self.haystack.is_text() { ffi::TEXT } else { 0 };
        if self.anchored {
            flags |= ffi::ANCHORED;
        }
        if overrides && !self.start_text {
            flags |= ffi::NO_START;
        }
        if overrides && !self.end_text {
            flags |= ffi::NO_END;
        }
        if overrides && !self.continues {
            flags |= ffi::NOT_CONTINUED;
        }
        Request {
            start: self.start.max(self.range.start),
            end: self.range.end,
            flags,
            standing: 0,
        }
    }
}

impl<'h, S: Input + ?Sized> From<&'h S> for RegexInput<'h, S> {
    fn from(haystack: &'h S) -> Self {
        RegexInput::new(haystack)
    }
}
