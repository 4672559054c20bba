//! The binding by the names of fancy-regex 0.7, whose published tests are run over it.
//!
//! Debian has fancy-regex 0.7. Its errors have other names than those of 0.20, and its tests name four of them.
use ::binding::{self as real, Input};

pub use real::{
    escape, CaptureNames, Captures, Match, NoExpand, Replacer, ReplacerRef, SubCaptureMatches,
};

/// An error, by the names of 0.7 that its tests ask for.
#[derive(Debug)]
pub enum Error {
    ParseError,
    NamedBackrefOnly,
    InvalidBackref,
    BacktrackLimitExceeded,
    Other(real::Error),
}

pub type Result<T> = std::result::Result<T, Error>;

impl From<real::Error> for Error {
    fn from(error: real::Error) -> Error {
        use real::{CompileError, RuntimeError};
        match &error {
            real::Error::ParseError(..) => Error::ParseError,
            real::Error::CompileError(kind) => match **kind {
                CompileError::NamedBackrefOnly => Error::NamedBackrefOnly,
                CompileError::InvalidBackref(_) | CompileError::InvalidGroupNameBackref(_) => {
                    Error::InvalidBackref
                }
                _ => Error::Other(error),
            },
            real::Error::RuntimeError(RuntimeError::BacktrackLimitExceeded) => {
                Error::BacktrackLimitExceeded
            }
            _ => Error::Other(error),
        }
    }
}

#[derive(Clone, Debug)]
pub struct Regex(real::Regex);

impl std::ops::Deref for Regex {
    type Target = real::Regex;

    fn deref(&self) -> &real::Regex {
        &self.0
    }
}

impl Regex {
    pub fn new(pattern: &str) -> Result<Regex> {
        Ok(Regex(real::Regex::new(pattern)?))
    }

    pub fn is_match(&self, text: &str) -> Result<bool> {
        Ok(self.0.is_match(text)?)
    }

    pub fn find<'t>(&self, text: &'t str) -> Result<Option<Match<'t>>> {
        Ok(self.0.find(text)?)
    }

    pub fn find_from_pos<'t>(&self, text: &'t str, pos: usize) -> Result<Option<Match<'t>>> {
        Ok(self.0.find_from_pos(text, pos)?)
    }

    pub fn captures<'t>(&self, text: &'t str) -> Result<Option<Captures<'t>>> {
        Ok(self.0.captures(text)?)
    }

    pub fn captures_from_pos<'t>(&self, text: &'t str, pos: usize) -> Result<Option<Captures<'t>>> {
        Ok(self.0.captures_from_pos(text, pos)?)
    }

    pub fn find_iter<'r, 't>(&'r self, text: &'t str) -> Listed<real::Matches<'r, 't>> {
        Listed(self.0.find_iter(text))
    }

    pub fn captures_iter<'r, 't>(&'r self, text: &'t str) -> Listed<real::CaptureMatches<'r, 't>> {
        Listed(self.0.captures_iter(text))
    }
}

/// A list with the errors of this crate.
pub struct Listed<L>(L);

impl<T, L: Iterator<Item = real::Result<T>>> Iterator for Listed<L> {
    type Item = Result<T>;

    fn next(&mut self) -> Option<Result<T>> {
        Some(self.0.next()?.map_err(Error::from))
    }
}

impl<S: Input + ?Sized> Listed<real::Matches<'_, '_, S>> {
    pub fn text(&self) -> &S {
        self.0.text()
    }

    pub fn regex(&self) -> &real::Regex {
        self.0.regex()
    }
}

impl<S: Input + ?Sized> Listed<real::CaptureMatches<'_, '_, S>> {
    pub fn text(&self) -> &S {
        self.0.text()
    }

    pub fn regex(&self) -> &real::Regex {
        self.0.regex()
    }
}

#[derive(Clone, Debug)]
pub struct RegexBuilder(real::RegexBuilder);

impl RegexBuilder {
    pub fn new(pattern: &str) -> RegexBuilder {
        RegexBuilder(real::RegexBuilder::new(pattern))
    }

    pub fn backtrack_limit(&mut self, limit: usize) -> &mut RegexBuilder {
        self.0.backtrack_limit(limit);
        self
    }

    pub fn build(&self) -> Result<Regex> {
        Ok(Regex(self.0.build()?))
    }
}

#[derive(Debug, Default)]
pub struct Expander(real::Expander);

impl Expander {
    pub fn python() -> Expander {
        Expander(real::Expander::python())
    }

    pub fn check(&self, template: &str, regex: &Regex) -> Result<()> {
        Ok(self.0.check(template, &regex.0)?)
    }
}

impl std::ops::Deref for Expander {
    type Target = real::Expander;

    fn deref(&self) -> &real::Expander {
        &self.0
    }
}
