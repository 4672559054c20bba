//! A regex, and its searches.
use crate::captures::Captures;
use crate::error::{error_of, found, Result};
use crate::ffi::{self, Options, Span};
use crate::handle::{out_of_memory, Handle, Pool};
use crate::input::{Input, RegexInput};
use crate::iter::{CaptureMatches, Matches, Split, SplitN};
use crate::options::RegexOptionsBuilder;
use crate::replacer::{Replacer, Whole};
use crate::Error;
use std::borrow::Cow;
use std::fmt;
use std::str::FromStr;
use std::sync::{Arc, OnceLock};

/// What the copies of a regex share.
pub(crate) struct Inner {
    pattern: String,
    pool: Pool,
    captures_len: usize,
    overrides: bool,
    names: OnceLock<Vec<Option<String>>>,
}

impl Inner {
    /// The name of each group.
    pub(crate) fn names(&self) -> &[Option<String>] {
        self.names.get_or_init(|| {
            self.pool
                .with(|handle| (0..self.captures_len).map(|number| handle.group_name(number)).collect())
        })
    }

    /// The number of the last group with this name.
    pub(crate) fn number_of(&self, name: &str) -> Option<usize> {
        self.names().iter().rposition(|it| it.as_deref() == Some(name))
    }
}

/// A compiled pattern. Copies share it, and threads may use one at a time.
#[derive(Clone)]
pub struct Regex {
    pub(crate) inner: Arc<Inner>,
}

impl fmt::Debug for Regex {
    fn fmt(&self, f: &mut fmt::Formatter<'_>) -> fmt::Result {
        f.write_str(self.as_str())
    }
}

impl fmt::Display for Regex {
    fn fmt(&self, f: &mut fmt::Formatter<'_>) -> fmt::Result {
        f.write_str(self.as_str())
    }
}

impl FromStr for Regex {
    type Err = Error;

    fn from_str(s: &str) -> Result<Regex> {
        Regex::new(s)
    }
}

impl TryFrom<&str> for Regex {
    type Error = Error;

    fn try_from(s: &str) -> Result<Regex> {
        Regex::new(s)
    }
}

impl TryFrom<String> for Regex {
    type Error = Error;

    fn try_from(s: String) -> Result<Regex> {
        RegexOptionsBuilder::new().build(s)
    }
}

impl Regex {
    /// Reads a pattern, with the default options.
    ///
    /// # Errors
    ///
    /// Where the text is no pattern, or one that is not accepted.
    pub fn new(re: &str) -> Result<Regex> {
        RegexOptionsBuilder::new().build(re.to_string())
    }

    pub(crate) fn with_options(pattern: String, options: &Options, overrides: bool) -> Result<Regex> {
        let mut handle = Handle::regex(&pattern, options)
            .map_err(|fault| error_of(fault, &pattern, options))?;
        let captures_len = handle.captures_len();
        Ok(Regex {
            inner: Arc::new(Inner {
                pattern,
                pool: Pool::new(handle),
                captures_len,
                overrides,
                names: OnceLock::new(),
            }),
        })
    }

    #[inline]
    pub(crate) fn with<T>(&self, call: impl FnOnce(&mut Handle) -> T) -> T {
        self.inner.pool.with(call)
    }

    pub(crate) fn overrides(&self) -> bool {
        self.inner.overrides
    }

    /// The text of the pattern.
    pub fn as_str(&self) -> &str {
        &self.inner.pattern
    }

    /// How many groups there are, with group 0.
    pub fn captures_len(&self) -> usize {
        self.inner.captures_len
    }

    /// The name of each group, if it has one.
    pub fn capture_names(&self) -> CaptureNames<'_> {
        CaptureNames(self.inner.names().iter())
    }

    /// Whether the pattern matches anywhere.
    ///
    /// # Errors
    ///
    /// Past a limit, as each search.
    pub fn is_match<S: Input + ?Sized>(&self, input: &S) -> Result<bool> {
        self.is_match_input(RegexInput::new(input))
    }

    /// Whether the pattern matches where the input says.
    ///
    /// # Errors
    ///
    /// Past a limit.
    pub fn is_match_input<S: Input + ?Sized>(&self, input: RegexInput<'_, S>) -> Result<bool> {
        let request = input.request(self.overrides());
        found(self.with(|handle| handle.is_match(input.haystack().as_bytes(), &request)))
    }

    /// The first match.
    ///
    /// # Errors
    ///
    /// Past a limit.
    pub fn find<'t, S: Input + ?Sized>(&self, input: &'t S) -> Result<Option<S::Match<'t>>> {
        self.find_input(RegexInput::new(input))
    }

    /// The first match that starts at this byte offset or after it.
    ///
    /// # Errors
    ///
    /// Past a limit.
    pub fn find_from_pos<'t, S: Input + ?Sized>(
        &self,
        input: &'t S,
        pos: usize,
    ) -> Result<Option<S::Match<'t>>> {
        self.find_input(RegexInput::new(input).from_pos(pos))
    }

    /// The first match where the input says.
    ///
    /// # Errors
    ///
    /// Past a limit.
    pub fn find_input<'t, S: Input + ?Sized>(
        &self,
        input: RegexInput<'t, S>,
    ) -> Result<Option<S::Match<'t>>> {
        let request = input.request(self.overrides());
        let mut span = ffi::ABSENT;
        let answer =
            self.with(|handle| handle.find(input.haystack().as_bytes(), &request, &mut span));
        Ok(found(answer)?.then(|| input.haystack().make_match(span.start, span.end)))
    }

    /// All matches.
    pub fn find_iter<'r, 't, S: Input + ?Sized>(&'r self, input: &'t S) -> Matches<'r, 't, S> {
        self.find_iter_input(RegexInput::new(input))
    }

    /// All matches where the input says.
    pub fn find_iter_input<'r, 't, S: Input + ?Sized>(
        &'r self,
        input: RegexInput<'t, S>,
    ) -> Matches<'r, 't, S> {
        Matches::new(self, input)
    }

    /// The groups of the first match.
    ///
    /// # Errors
    ///
    /// Past a limit.
    pub fn captures<'t, S: Input + ?Sized>(&self, input: &'t S) -> Result<Option<Captures<'t, S>>> {
        self.captures_input(RegexInput::new(input))
    }

    /// The groups of the first match that starts at this byte offset or after it.
    ///
    /// # Errors
    ///
    /// Past a limit.
    pub fn captures_from_pos<'t, S: Input + ?Sized>(
        &self,
        input: &'t S,
        pos: usize,
    ) -> Result<Option<Captures<'t, S>>> {
        self.captures_input(RegexInput::new(input).from_pos(pos))
    }

    /// The groups of the first match where the input says.
    ///
    /// # Errors
    ///
    /// Past a limit.
    pub fn captures_input<'t, S: Input + ?Sized>(
        &self,
        input: RegexInput<'t, S>,
    ) -> Result<Option<Captures<'t, S>>> {
        let request = input.request(self.overrides());
        let haystack = input.haystack();
        let mut groups = vec![ffi::ABSENT; self.captures_len()];
        let answer =
            self.with(|handle| handle.captures(haystack.as_bytes(), &request, &mut groups));
        Ok(found(answer)?.then(|| self.captures_of(haystack, groups)))
    }

    pub(crate) fn captures_of<'t, S: Input + ?Sized>(
        &self,
        haystack: &'t S,
        groups: Vec<Span>,
    ) -> Captures<'t, S> {
        Captures::new(Arc::clone(&self.inner), haystack, groups)
    }

    /// All matches with their groups.
    pub fn captures_iter<'r, 't, S: Input + ?Sized>(
        &'r self,
        input: &'t S,
    ) -> CaptureMatches<'r, 't, S> {
        self.captures_iter_input(RegexInput::new(input))
    }

    /// All matches with their groups, where the input says.
    pub fn captures_iter_input<'r, 't, S: Input + ?Sized>(
        &'r self,
        input: RegexInput<'t, S>,
    ) -> CaptureMatches<'r, 't, S> {
        CaptureMatches::new(self, input)
    }

    /// The text with the first match replaced.
    ///
    /// # Panics
    ///
    /// Where [`Regex::try_replacen`] has an error.
    pub fn replace<'t, R: Replacer>(&self, text: &'t str, rep: R) -> Cow<'t, str> {
        self.replacen(text, 1, rep)
    }

    /// The text with all matches replaced.
    ///
    /// # Panics
    ///
    /// Where [`Regex::try_replacen`] has an error.
    pub fn replace_all<'t, R: Replacer>(&self, text: &'t str, rep: R) -> Cow<'t, str> {
        self.replacen(text, 0, rep)
    }

    /// The text with the first `limit` matches replaced; all for 0.
    ///
    /// # Panics
    ///
    /// Where [`Regex::try_replacen`] has an error.
    pub fn replacen<'t, R: Replacer>(&self, text: &'t str, limit: usize, rep: R) -> Cow<'t, str> {
        self.try_replacen(text, limit, rep).unwrap()
    }

    /// The text with the first `limit` matches replaced; all for 0. It is borrowed where nothing matches.
    ///
    /// # Errors
    ///
    /// That of the first search that is refused.
    pub fn try_replacen<'t, R: Replacer>(
        &self,
        text: &'t str,
        limit: usize,
        mut rep: R,
    ) -> Result<Cow<'t, str>> {
        match rep.whole() {
            Whole::Template(template) => return self.replace_by(text, template, limit, false),
            Whole::Literal(literal) => return self.replace_by(text, literal, limit, true),
            Whole::Called => {}
        }
        if let Some(literal) = rep.no_expansion() {
            return self.replace_by(text, &literal, limit, true);
        }
        self.replace_called(text, limit, rep)
    }

    /// The same by a text that the library puts in.
    fn replace_by<'t>(
        &self,
        text: &'t str,
        replacement: &str,
        limit: usize,
        literal: bool,
    ) -> Result<Cow<'t, str>> {
        let how = ffi::Replacing::new(replacement, limit, literal);
        let mut buffer = vec![0; text.len() + text.len() / 4 + 64];
        loop {
            let mut wanted = 0;
            let answer =
                self.with(|handle| handle.replace(text, &how, &mut buffer, &mut wanted));
            match answer {
                ffi::TOO_SHORT => buffer.resize(wanted, 0),
                ffi::NO_MEMORY => out_of_memory(),
                _ => {
                    if !found(answer)? {
                        return Ok(Cow::Borrowed(text));
                    }
                    buffer.truncate(wanted);
                    return Ok(Cow::Owned(
                        String::from_utf8(buffer).expect("the library writes UTF-8"),
                    ));
                }
            }
        }
    }

    /// The same by a replacer that is called for each match.
    fn replace_called<'t, R: Replacer>(
        &self,
        text: &'t str,
        limit: usize,
        mut rep: R,
    ) -> Result<Cow<'t, str>> {
        let mut new = String::new();
        let mut last = 0;
        let mut count = 0;
        for captures in self.captures_iter(text) {
            if limit > 0 && count >= limit {
                break;
            }
            let captures = captures?;
            let whole = captures.get(0).expect("a match has group 0");
            if count == 0 {
                new.reserve(text.len());
            }
            new.push_str(&text[last..whole.start()]);
            rep.replace_append(&captures, &mut new);
            last = whole.end();
            count += 1;
        }
        if count == 0 {
            return Ok(Cow::Borrowed(text));
        }
        new.push_str(&text[last..]);
        Ok(Cow::Owned(new))
    }

    /// The pieces of the text between its matches.
    pub fn split<'r, 'h>(&'r self, target: &'h str) -> Split<'r, 'h> {
        Split::new(self, target)
    }

    /// At most `limit` pieces, of which the last is the rest.
    pub fn splitn<'r, 'h>(&'r self, target: &'h str, limit: usize) -> SplitN<'r, 'h> {
        SplitN::new(self, target, limit)
    }
}

/// The name of each group.
#[derive(Debug)]
pub struct CaptureNames<'r>(std::slice::Iter<'r, Option<String>>);

impl<'r> Iterator for CaptureNames<'r> {
    type Item = Option<&'r str>;

    fn next(&mut self) -> Option<Option<&'r str>> {
        self.0.next().map(Option::as_deref)
    }
}
