//! Options of a pattern.
use crate::error::Result;
use crate::ffi::{self, Options};
use crate::handle::default_options;
use crate::regex::Regex;

/// How bytes are read.
#[derive(Clone, Copy, Debug, Default, Eq, PartialEq)]
pub enum BytesMode {
    /// The haystack is text, and matches stand on character boundaries.
    #[default]
    Unicode,
    /// The haystack is bytes, and classes are of ASCII.
    Ascii,
    /// The haystack is bytes, and items are characters.
    UnicodeBytes,
}

/// Builds regexes with options.
#[derive(Clone, Debug)]
pub struct RegexOptionsBuilder {
    options: Options,
    overrides: bool,
}

/// Builds a regex of one pattern with options.
#[derive(Clone, Debug)]
pub struct RegexBuilder {
    pattern: String,
    options: RegexOptionsBuilder,
}

impl Default for RegexOptionsBuilder {
    fn default() -> Self {
        RegexOptionsBuilder::new()
    }
}

macro_rules! switches {
    ($($(#[$doc:meta])* $name:ident = $switch:expr, when $value:literal;)*) => {
        impl RegexOptionsBuilder {
            $($(#[$doc])*
            pub fn $name(&mut self, yes: bool) -> &mut Self {
                if yes == $value {
                    self.options.switches |= $switch;
                } else {
                    self.options.switches &= !$switch;
                }
                self
            })*
        }

        impl RegexBuilder {
            $($(#[$doc])*
            pub fn $name(&mut self, yes: bool) -> &mut Self {
                self.options.$name(yes);
                self
            })*
        }
    };
}

switches! {
    /// Whether case is ignored at the pattern's start.
    case_insensitive = ffi::CASE_INSENSITIVE, when true;
    /// Whether `^` and `$` hold at lines.
    multi_line = ffi::MULTI_LINE, when true;
    /// Whether `.` takes line feeds too.
    dot_matches_new_line = ffi::DOT_MATCHES_NEW_LINE, when true;
    /// Whether blanks and comments are skipped.
    ignore_whitespace = ffi::IGNORE_WHITESPACE, when true;
    /// Whether blanks and comments are skipped.
    verbose_mode = ffi::IGNORE_WHITESPACE, when true;
    /// Whether a carriage return ends a line too.
    crlf = ffi::CRLF, when true;
    /// Whether items are of all of Unicode.
    unicode_mode = ffi::NO_UNICODE, when false;
    /// Whether groups without a name capture nothing where a group has a name.
    ignore_numbered_groups_when_named_groups_exist = ffi::ONLY_NAMED_GROUPS, when true;
    /// Whether empty matches are refused.
    find_not_empty = ffi::FIND_NOT_EMPTY, when true;
    /// Whether the longest match is wanted.
    leftmost_longest = ffi::LEFTMOST_LONGEST, when true;
    /// Whether positions where no match begins are passed over by a scan.
    seek = ffi::SEEK, when true;
}

macro_rules! values {
    ($($(#[$doc:meta])* $name:ident: $type:ty, |$builder:ident, $value:ident| $set:expr;)*) => {
        impl RegexOptionsBuilder {
            $($(#[$doc])*
            pub fn $name(&mut self, $value: $type) -> &mut Self {
                let $builder = &mut *self;
                $set;
                self
            })*
        }

        impl RegexBuilder {
            $($(#[$doc])*
            pub fn $name(&mut self, value: $type) -> &mut Self {
                self.options.$name(value);
                self
            })*
        }
    };
}

values! {
    /// How many returns a hard search may take.
    backtrack_limit: usize, |it, limit| it.options.backtrack_limit = limit;
    /// How many instructions a hard pattern may have.
    max_prog_size: usize, |it, limit| it.options.program_limit = limit;
    /// How many branches a hard search may have saved. The original has no such option.
    stack_limit: usize, |it, limit| it.options.stack_limit = limit;
    /// How much work a search may do. The original has no such option.
    step_limit: usize, |it, limit| it.options.step_limit = limit;
    /// How bytes are read.
    bytes_mode: BytesMode, |it, mode| it.options.bytes_mode = mode as u32;
    /// Whether an input may say that the text's start or end does not count as one, and that there was no match before.
    allow_input_assertion_overrides: bool, |it, yes| it.overrides = yes;
}

impl RegexOptionsBuilder {
    /// The default options.
    pub fn new() -> Self {
        RegexOptionsBuilder {
            options: default_options(),
            overrides: false,
        }
    }

    /// Reads a pattern with these options.
    ///
    /// # Errors
    ///
    /// Where the text is no pattern, or one that is not accepted.
    pub fn build(&self, pattern: String) -> Result<Regex> {
        Regex::with_options(pattern, &self.options, self.overrides)
    }
}

impl RegexBuilder {
    /// A builder for this pattern, with the default options.
    pub fn new(pattern: &str) -> Self {
        RegexBuilder {
            pattern: pattern.to_string(),
            options: RegexOptionsBuilder::new(),
        }
    }

    /// Reads the pattern.
    ///
    /// # Errors
    ///
    /// Where the text is no pattern, or one that is not accepted.
    pub fn build(&self) -> Result<Regex> {
        self.options.build(self.pattern.clone())
    }

    /// Puts this pattern in the place of the one before.
    pub fn pattern(&mut self, pattern: String) -> &mut Self {
        self.pattern = pattern;
        self
    }
}
