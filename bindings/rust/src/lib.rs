//! The public names of the crate `fancy-regex` 0.20, over a static library whose answers are proved.
//!
//! ```
//! use fancy_regex::Regex;
//!
//! let doubled = Regex::new(r"\b(\w+) \1\b").unwrap();
//! let found = doubled.find("it is is so").unwrap().unwrap();
//! assert_eq!(found.as_str(), "is is");
//! ```
//!
//! What the library does not have is not here, so that a program that uses it does not compile: `RegexSet`, the options of the
//! regex crate that the original delegates to (`delegate_size_limit` and the like), `oniguruma_mode`, and what shows how a pattern
//! was compiled (`Expr`, `internal`). A regex may be used by several threads at once.
#![deny(missing_debug_implementations)]

mod captures;
mod error;
mod expand;
mod ffi;
mod handle;
mod input;
mod iter;
mod matches;
mod options;
mod regex;
mod replacer;

pub use crate::captures::{Captures, SubCaptureMatches};
pub use crate::error::{
    CompileError, Error, ParseError, ParseErrorPosition, Result, RuntimeError,
};
pub use crate::expand::Expander;
pub use crate::input::{Input, RegexInput};
pub use crate::iter::{CaptureMatches, Matches, Split, SplitN};
pub use crate::matches::{Match, MatchBytes};
pub use crate::options::{BytesMode, RegexBuilder, RegexOptionsBuilder};
pub use crate::regex::{CaptureNames, Regex};
pub use crate::replacer::{NoExpand, Replacer, ReplacerRef};

use std::borrow::Cow;

/// The text with an escape for each character that means something in a pattern.
pub fn escape(text: &str) -> Cow<'_, str> {
    let escaped = handle::written(|buffer, wanted| {
        // SAFETY: the pointers are of slices and references that are borrowed for the call.
        unsafe {
            ffi::fancy_regex_escape(
                text.as_ptr(),
                text.len(),
                buffer.as_mut_ptr(),
                buffer.len(),
                wanted,
            )
        }
    });
    match escaped {
        Some(escaped) if escaped != text => Cow::Owned(escaped),
        _ => Cow::Borrowed(text),
    }
}
