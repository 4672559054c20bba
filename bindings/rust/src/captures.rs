//! The groups of a match.
use crate::expand::Expander;
use crate::ffi::{self, Span};
use crate::input::Input;
use crate::regex::Inner;
use std::fmt;
use std::ops::Index;
use std::sync::Arc;

/// The groups of a match, by their numbers and names. Group 0 is the whole match.
pub struct Captures<'t, S: Input + ?Sized = str> {
    regex: Arc<Inner>,
    haystack: &'t S,
    groups: Vec<Span>,
}

impl<S: Input + ?Sized> fmt::Debug for Captures<'_, S> {
    fn fmt(&self, f: &mut fmt::Formatter<'_>) -> fmt::Result {
        f.debug_struct("Captures").field("groups", &self.groups).finish_non_exhaustive()
    }
}

impl<'t, S: Input + ?Sized> Captures<'t, S> {
    pub(crate) fn new(regex: Arc<Inner>, haystack: &'t S, groups: Vec<Span>) -> Self {
        Captures {
            regex,
            haystack,
            groups,
        }
    }

    /// What the group with this number matched, if it took part.
    pub fn get(&self, i: usize) -> Option<S::Match<'t>> {
        let span = *self.groups.get(i)?;
        (span != ffi::ABSENT).then(|| self.haystack.make_match(span.start, span.end))
    }

    /// What the last group with this name matched, if it took part.
    pub fn name(&self, name: &str) -> Option<S::Match<'t>> {
        self.get(self.regex.number_of(name)?)
    }

    /// What each group matched.
    pub fn iter<'c>(&'c self) -> SubCaptureMatches<'c, 't, S> {
        SubCaptureMatches {
            captures: self,
            next: 0,
        }
    }

    /// How many groups there are.
    #[allow(clippy::len_without_is_empty)]
    pub fn len(&self) -> usize {
        self.groups.len()
    }

    /// The bytes of the haystack.
    pub fn input_as_bytes(&self) -> &'t [u8] {
        self.haystack.as_bytes()
    }
}

impl Captures<'_, str> {
    /// Appends what the template expands to.
    pub fn expand(&self, replacement: &str, dst: &mut String) {
        Expander::default().append_expansion(dst, replacement, self);
    }
}

impl Index<usize> for Captures<'_, str> {
    type Output = str;

    fn index(&self, i: usize) -> &str {
        self.get(i)
            .map(|m| m.as_str())
            .unwrap_or_else(|| panic!("no group at index '{i}'"))
    }
}

impl<'i> Index<&'i str> for Captures<'_, str> {
    type Output = str;

    fn index<'a>(&'a self, name: &'i str) -> &'a str {
        self.name(name)
            .map(|m| m.as_str())
            .unwrap_or_else(|| panic!("no group named '{name}'"))
    }
}

/// What each group of a match matched.
#[derive(Debug)]
pub struct SubCaptureMatches<'c, 't, S: Input + ?Sized = str> {
    captures: &'c Captures<'t, S>,
    next: usize,
}

impl<'t, S: Input + ?Sized> Iterator for SubCaptureMatches<'_, 't, S> {
    type Item = Option<S::Match<'t>>;

    fn next(&mut self) -> Option<Option<S::Match<'t>>> {
        if self.next >= self.captures.len() {
            return None;
        }
        self.next += 1;
        Some(self.captures.get(self.next - 1))
    }
}
