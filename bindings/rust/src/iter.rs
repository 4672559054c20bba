//! Lists of matches, of their groups, and of the pieces between them.
//!
//! The library is asked for [`FIRST`] matches, and then for [`MORE`]. A list that goes on is a list of the library's own from there on,
//! which has a copy of the haystack: else each call would read the text as UTF-8 once more.
use crate::captures::Captures;
use crate::error::{found, Result};
use crate::ffi::{self, Request, Span};
use crate::handle::Handle;
use crate::input::{Input, RegexInput};
use crate::regex::Regex;
use std::iter::FusedIterator;

const FIRST: usize = 8;

const MORE: usize = 32;

/// A list under way: the matches that the library gave, and where the next call goes on.
#[derive(Debug)]
struct List<'r, 't, S: Input + ?Sized> {
    regex: &'r Regex,
    // the input of the next search, by what was handed out
    input: RegexInput<'t, S>,
    request: Request,
    // for each match as many spans as are told of it
    spans: Vec<Span>,
    width: usize,
    // how many matches are in `spans`, how many of them were handed out, and how many fit
    count: usize,
    given: usize,
    room: usize,
    // the library's own list, once there is one
    under_way: Option<Handle>,
    // the answer after the matches in `spans`, once there is one
    last: Option<u32>,
}

impl<'r, 't, S: Input + ?Sized> List<'r, 't, S> {
    fn new(regex: &'r Regex, input: RegexInput<'t, S>, width: usize) -> Self {
        let request = input.request(regex.overrides());
        List {
            regex,
            input,
            request,
            spans: Vec::new(),
            width,
            count: 0,
            given: 0,
            room: FIRST,
            under_way: None,
            last: None,
        }
    }

    /// Finds more matches.
    fn fill(&mut self, has_groups: bool) {
        self.given = 0;
        if self.room > MORE {
            self.go_on(has_groups);
            return;
        }
        let haystack = self.input.haystack();
        self.spans.resize(self.room * self.width, ffi::ABSENT);
        let (request, spans) = (&mut self.request, &mut self.spans[..]);
        let (answer, count) = self
            .regex
            .with(|handle| handle.list(haystack.as_bytes(), request, spans, has_groups));
        self.count = count;
        self.room = if self.room == FIRST { MORE } else { MORE + 1 };
        if answer != ffi::DONE {
            self.last = Some(answer);
        }
    }

    /// Asks the library's own list for the next match.
    fn go_on(&mut self, has_groups: bool) {
        let bytes = self.input.haystack().as_bytes();
        if self.under_way.is_none() {
            let request = &self.request;
            match self.regex.with(|handle| handle.list_under_way(bytes, request, has_groups)) {
                Ok(list) => self.under_way = Some(list),
                Err(answer) => {
                    self.count = 0;
                    self.last = Some(answer);
                    return;
                }
            }
        }
        let Some(list) = &mut self.under_way else {
            return;
        };
        let answer = list.next(&mut self.spans[..self.width]);
        self.count = usize::from(answer == ffi::DONE);
        if answer != ffi::DONE {
            self.last = Some(answer);
        }
    }

    /// The spans of the next match.
    fn next(&mut self, has_groups: bool) -> Option<Result<&[Span]>> {
        if self.given == self.count && self.last.is_none() {
            self.fill(has_groups);
        }
        if self.given < self.count {
            let first = self.given * self.width;
            let spans = &self.spans[first..first + self.width];
            self.given += 1;
            let end = spans[0].end;
            self.input.set_start(if spans[0].start == end {
                self.input.haystack().advance_position(end)
            } else {
                end
            });
            return Some(Ok(spans));
        }
        match found(self.last.replace(ffi::NONE).unwrap_or(ffi::NONE)) {
            Ok(_) => None,
            Err(error) => {
                let end = self.input.get_range().end;
                self.input.set_start(end.saturating_add(1));
                Some(Err(error))
            }
        }
    }
}

/// All matches of a haystack.
#[derive(Debug)]
pub struct Matches<'r, 't, S: Input + ?Sized = str>(List<'r, 't, S>);

impl<'r, 't, S: Input + ?Sized> Matches<'r, 't, S> {
    pub(crate) fn new(regex: &'r Regex, input: RegexInput<'t, S>) -> Self {
        Matches(List::new(regex, input, 1))
    }

    /// The regex.
    pub fn regex(&self) -> &'r Regex {
        self.0.regex
    }

    /// The haystack.
    pub fn text(&self) -> &'t S {
        self.0.input.haystack()
    }

    /// The input of the next search.
    pub fn input(&self) -> &RegexInput<'t, S> {
        &self.0.input
    }
}

impl<'t, S: Input + ?Sized> Iterator for Matches<'_, 't, S> {
    type Item = Result<S::Match<'t>>;

    fn next(&mut self) -> Option<Self::Item> {
        let text = self.text();
        Some(match self.0.next(false)? {
            Ok(spans) => Ok(text.make_match(spans[0].start, spans[0].end)),
            Err(error) => Err(error),
        })
    }
}

/// All matches of a haystack with their groups.
#[derive(Debug)]
pub struct CaptureMatches<'r, 't, S: Input + ?Sized = str>(List<'r, 't, S>);

impl<'r, 't, S: Input + ?Sized> CaptureMatches<'r, 't, S> {
    pub(crate) fn new(regex: &'r Regex, input: RegexInput<'t, S>) -> Self {
        CaptureMatches(List::new(regex, input, regex.captures_len()))
    }

    /// The haystack.
    pub fn text(&self) -> &'t S {
        self.0.input.haystack()
    }

    /// The regex.
    pub fn regex(&self) -> &'r Regex {
        self.0.regex
    }
}

impl<'t, S: Input + ?Sized> Iterator for CaptureMatches<'_, 't, S> {
    type Item = Result<Captures<'t, S>>;

    fn next(&mut self) -> Option<Self::Item> {
        let (text, regex) = (self.text(), self.regex());
        Some(match self.0.next(true)? {
            Ok(spans) => Ok(regex.captures_of(text, spans.to_vec())),
            Err(error) => Err(error),
        })
    }
}

/// The pieces of a text between its matches.
#[derive(Debug)]
pub struct Split<'r, 'h> {
    matches: Matches<'r, 'h, str>,
    next_start: usize,
    target: &'h str,
}

impl<'r, 'h> Split<'r, 'h> {
    pub(crate) fn new(regex: &'r Regex, target: &'h str) -> Self {
        Split {
            matches: regex.find_iter(target),
            next_start: 0,
            target,
        }
    }

    /// What is left after the last match, once.
    fn rest(&mut self) -> Option<&'h str> {
        let rest = self.target.get(self.next_start..)?;
        self.next_start = self.target.len() + 1;
        Some(rest)
    }
}

impl<'h> Iterator for Split<'_, 'h> {
    type Item = Result<&'h str>;

    fn next(&mut self) -> Option<Result<&'h str>> {
        match self.matches.next() {
            None => self.rest().map(Ok),
            Some(Ok(found)) => {
                let piece = &self.target[self.next_start..found.start()];
                self.next_start = found.end();
                Some(Ok(piece))
            }
            Some(Err(error)) => Some(Err(error)),
        }
    }
}

impl FusedIterator for Split<'_, '_> {}

/// At most so many pieces of a text, of which the last is the rest.
#[derive(Debug)]
pub struct SplitN<'r, 'h> {
    splits: Split<'r, 'h>,
    limit: usize,
}

impl<'r, 'h> SplitN<'r, 'h> {
    pub(crate) fn new(regex: &'r Regex, target: &'h str, limit: usize) -> Self {
        SplitN {
            splits: Split::new(regex, target),
            limit,
        }
    }
}

impl<'h> Iterator for SplitN<'_, 'h> {
    type Item = Result<&'h str>;

    fn next(&mut self) -> Option<Result<&'h str>> {
        self.limit = self.limit.checked_sub(1)?;
        if self.limit > 0 {
            return self.splits.next();
        }
        self.splits.rest().map(Ok)
    }

    fn size_hint(&self) -> (usize, Option<usize>) {
        (0, Some(self.limit))
    }
}

impl FusedIterator for SplitN<'_, '_> {}
