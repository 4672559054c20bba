//! Why a call is refused.
use crate::ffi::{self, Fault, Options};
use crate::handle::{out_of_memory, written};
use std::fmt;

/// What the calls return.
pub type Result<T> = std::result::Result<T, Error>;

/// A byte offset into the pattern.
pub type ParseErrorPosition = usize;

/// Every refusal. Where memory is refused the program ends, as at any allocation.
#[derive(Clone, Debug)]
#[non_exhaustive]
pub enum Error {
    /// The pattern cannot be read.
    ParseError(ParseErrorPosition, ParseError),
    /// The pattern can be read, and is not accepted.
    CompileError(Box<CompileError>),
    /// The search was given up.
    RuntimeError(RuntimeError),
}

/// What is wrong with the text of a pattern. A text in a kind is the pattern from that place on.
#[derive(Clone, Debug, PartialEq, Eq)]
#[non_exhaustive]
pub enum ParseError {
    /// A parenthesis that closes nothing, or a template that cannot be read.
    GeneralParseError(String),
    /// A parenthesis that is not closed.
    UnclosedOpenParen,
    /// Bounds that are reversed or too large.
    InvalidRepeat,
    /// Nesting that is too deep.
    RecursionExceeded,
    /// A backslash at the end.
    TrailingBackslash,
    /// An escape that means nothing.
    InvalidEscape(String),
    /// Missing or wrong hexadecimal digits.
    InvalidHex,
    /// The number of no character.
    InvalidCodepointValue,
    /// A class that is not allowed.
    InvalidClass,
    /// A letter that is no flag.
    UnknownFlag(String),
    /// A name that is none.
    InvalidGroupName,
    /// A quantifier on nothing that can be repeated.
    TargetNotRepeatable,
    /// A flag `u` that states what does not hold.
    NonUnicodeUnsupported,
    /// A form that this library leaves out.
    NotInProfile(String),
}

/// Why a pattern that can be read is not accepted.
#[derive(Clone, Debug, PartialEq, Eq)]
#[non_exhaustive]
pub enum CompileError {
    /// No group has this number.
    InvalidBackref(usize),
    /// No group has this name.
    InvalidGroupNameBackref(String),
    /// Groups are referred to by name alone here.
    NamedBackrefOnly,
    /// A look-behind of no one size.
    LookBehindNotConst,
    /// A pattern that can never match.
    PatternCanNeverMatch,
    /// A pattern that is too large.
    PatternTooComplex,
    /// What none of the others says.
    UnexpectedGeneralError(String),
}

/// Why a search was given up.
#[derive(Clone, Copy, Debug, PartialEq, Eq)]
#[non_exhaustive]
pub enum RuntimeError {
    /// It saved more branches than the limit allows.
    StackOverflow,
    /// It took more returns than the limit allows.
    BacktrackLimitExceeded,
    /// It did more work than the limit allows.
    StepLimitExceeded,
}

impl std::error::Error for Error {}

impl std::error::Error for ParseError {}

impl std::error::Error for CompileError {}

impl std::error::Error for RuntimeError {}

impl fmt::Display for ParseError {
    fn fmt(&self, f: &mut fmt::Formatter<'_>) -> fmt::Result {
        match self {
            ParseError::GeneralParseError(text) => write!(f, "General parsing error: {text}"),
            ParseError::UnclosedOpenParen => {
                f.write_str("Opening parenthesis without closing parenthesis")
            }
            ParseError::InvalidRepeat => f.write_str("Invalid repeat syntax"),
            ParseError::RecursionExceeded => f.write_str("Pattern too deeply nested"),
            ParseError::TrailingBackslash => f.write_str("Backslash without following character"),
            ParseError::InvalidEscape(text) => write!(f, "Invalid escape: {text}"),
            ParseError::InvalidHex => f.write_str("Invalid hex escape"),
            ParseError::InvalidCodepointValue => {
                f.write_str("Invalid codepoint for hex or unicode escape")
            }
            ParseError::InvalidClass => f.write_str("Invalid character class"),
            ParseError::UnknownFlag(text) => write!(f, "Unknown group flag: {text}"),
            ParseError::InvalidGroupName => f.write_str("Could not parse group name"),
            ParseError::TargetNotRepeatable => f.write_str("Target of repeat operator is invalid"),
            ParseError::NonUnicodeUnsupported => f.write_str("Disabling Unicode not supported"),
            ParseError::NotInProfile(text) => write!(f, "Form that is left out: {text}"),
        }
    }
}

impl fmt::Display for CompileError {
    fn fmt(&self, f: &mut fmt::Formatter<'_>) -> fmt::Result {
        match self {
            CompileError::InvalidBackref(number) => {
                write!(f, "Invalid back reference to group {number}")
            }
            CompileError::InvalidGroupNameBackref(name) => {
                write!(f, "Invalid group name in back reference: {name}")
            }
            CompileError::NamedBackrefOnly => f.write_str(
                "Numbered backref/call not allowed because named group was used, use a named backref instead",
            ),
            CompileError::LookBehindNotConst => {
                f.write_str("Look-behind assertion without constant size")
            }
            CompileError::PatternCanNeverMatch => f.write_str("Pattern can never match"),
            CompileError::PatternTooComplex => f.write_str("Pattern too complex"),
            CompileError::UnexpectedGeneralError(text) => f.write_str(text),
        }
    }
}

impl fmt::Display for RuntimeError {
    fn fmt(&self, f: &mut fmt::Formatter<'_>) -> fmt::Result {
        f.write_str(match self {
            RuntimeError::StackOverflow => "Max stack size exceeded for backtracking",
            RuntimeError::BacktrackLimitExceeded => "Max limit for backtracking count exceeded",
            RuntimeError::StepLimitExceeded => "Max limit for steps exceeded",
        })
    }
}

impl fmt::Display for Error {
    fn fmt(&self, f: &mut fmt::Formatter<'_>) -> fmt::Result {
        match self {
            Error::ParseError(place, kind) => write!(f, "Parsing error at position {place}: {kind}"),
            Error::CompileError(kind) => write!(f, "Error compiling regex: {kind}"),
            Error::RuntimeError(kind) => write!(f, "Error executing regex: {kind}"),
        }
    }
}

impl From<CompileError> for Error {
    fn from(kind: CompileError) -> Error {
        Error::CompileError(Box::new(kind))
    }
}

impl From<RuntimeError> for Error {
    fn from(kind: RuntimeError) -> Error {
        Error::RuntimeError(kind)
    }
}

/// The kind of a parse error with this number.
fn parse_error(number: u32, rest: &str) -> Option<ParseError> {
    let text = || rest.chars().take(2).collect();
    Some(match number {
        101 => ParseError::GeneralParseError(rest.to_string()),
        102 => ParseError::UnclosedOpenParen,
        103 => ParseError::InvalidRepeat,
        104 => ParseError::TargetNotRepeatable,
        105 => ParseError::RecursionExceeded,
        106 => ParseError::TrailingBackslash,
        107 => ParseError::InvalidEscape(text()),
        108 => ParseError::InvalidHex,
        109 => ParseError::InvalidCodepointValue,
        110 => ParseError::InvalidClass,
        111 => ParseError::UnknownFlag(text()),
        112 => ParseError::InvalidGroupName,
        113 => ParseError::NonUnicodeUnsupported,
        114 => ParseError::NotInProfile(text()),
        _ => return None,
    })
}

fn missing_name(pattern: &str, options: &Options) -> String {
    let name = written(|buffer, wanted| {
        // SAFETY: the pointers are of slices and references that are borrowed for the call.
        unsafe {
            ffi::fancy_regex_missing_name(
                pattern.as_ptr(),
                pattern.len(),
                options,
                buffer.as_mut_ptr(),
                buffer.len(),
                wanted,
            )
        }
    });
    name.unwrap_or_default()
}

/// The error that a fault of a pattern tells.
pub(crate) fn error_of(fault: Fault, pattern: &str, options: &Options) -> Error {
    let rest = pattern.get(fault.place..).unwrap_or_default();
    if let Some(kind) = parse_error(fault.kind, rest) {
        return Error::ParseError(fault.place, kind);
    }
    Error::from(match fault.kind {
        201 => CompileError::InvalidBackref(fault.number),
        202 => CompileError::InvalidGroupNameBackref(missing_name(pattern, options)),
        203 => CompileError::NamedBackrefOnly,
        204 => CompileError::LookBehindNotConst,
        205 => CompileError::PatternCanNeverMatch,
        206 => CompileError::PatternTooComplex,
        _ => {
            let text = written(|buffer, wanted| {
                // SAFETY: as above.
                unsafe {
                    ffi::fancy_regex_explain(&fault, buffer.as_mut_ptr(), buffer.len(), wanted)
                }
            });
            CompileError::UnexpectedGeneralError(text.unwrap_or_default())
        }
    })
}

/// Whether a search found something, by its answer.
///
/// # Panics
///
/// Where the search may not be made: its start or an end of its range is inside a character of a text, or the pattern is for bytes
/// (`BytesMode::Ascii` or `UnicodeBytes`) and the text is not ASCII. Such a text is to be handed in as bytes.
pub(crate) fn found(answer: u32) -> Result<bool> {
    match answer {
        ffi::DONE => Ok(true),
        ffi::NONE => Ok(false),
        ffi::BACKTRACK_LIMIT => Err(RuntimeError::BacktrackLimitExceeded.into()),
        ffi::STACK_LIMIT => Err(RuntimeError::StackOverflow.into()),
        ffi::STEP_LIMIT => Err(RuntimeError::StepLimitExceeded.into()),
        ffi::NO_MEMORY => out_of_memory(),
        ffi::NO_PLACE => panic!(
            "a search of text starts and ends on character boundaries, and a pattern for bytes takes text that is not ASCII as bytes"
        ),
        other => unreachable!("the library answered {other}"),
    }
}
