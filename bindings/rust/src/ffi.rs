//! `fancy_regex.h` as Rust reads it. Each function is unsafe to call as the header says.
use std::ffi::c_void;
use std::marker::PhantomData;

/// Owns a regex or a set, or nothing.
#[repr(C)]
pub struct RawHandle {
    pub at: *mut c_void,
    pub full: bool,
}

/// From `start` up to `end`.
#[repr(C)]
#[derive(Clone, Copy, PartialEq, Eq, Debug)]
pub struct Span {
    pub start: usize,
    pub end: usize,
}

/// Both ends of a group that took no part.
pub const ABSENT: Span = Span { start: usize::MAX, end: usize::MAX };

/// How matches are replaced.
#[repr(C)]
pub struct Replacing<'r> {
    replacement: *const u8,
    replacement_len: usize,
    limit: usize,
    literal: u32,
    lent: PhantomData<&'r str>,
}

impl<'r> Replacing<'r> {
    /// By this text, `limit` matches at most, or all for 0. A text that is not `literal` is a template.
    pub fn new(replacement: &'r str, limit: usize, literal: bool) -> Self {
        Replacing {
            replacement: replacement.as_ptr(),
            replacement_len: replacement.len(),
            limit,
            literal: u32::from(literal),
            lent: PhantomData,
        }
    }
}

/// Where and how a haystack is searched.
#[repr(C)]
#[derive(Clone, Copy, Debug)]
pub struct Request {
    pub start: usize,
    pub end: usize,
    pub flags: u32,
    pub standing: u32,
}

/// The options of a pattern.
#[repr(C)]
#[derive(Clone, Copy, Debug)]
pub struct Options {
    pub size: usize,
    pub backtrack_limit: usize,
    pub stack_limit: usize,
    pub step_limit: usize,
    pub program_limit: usize,
    pub switches: u32,
    pub bytes_mode: u32,
}

/// Why a pattern is refused.
#[repr(C)]
#[derive(Clone, Copy, Debug)]
pub struct Fault {
    pub kind: u32,
    pub pattern: usize,
    pub place: usize,
    pub number: usize,
}

pub const DONE: u32 = 0;
pub const NONE: u32 = 1;
pub const NO_PLACE: u32 = 3;
pub const NO_MEMORY: u32 = 4;
pub const TOO_SHORT: u32 = 8;
pub const BACKTRACK_LIMIT: u32 = 9;
pub const STACK_LIMIT: u32 = 10;
pub const STEP_LIMIT: u32 = 11;

pub const TEXT: u32 = 1;
pub const ANCHORED: u32 = 2;
pub const NO_START: u32 = 4;
pub const NO_END: u32 = 8;
pub const NOT_CONTINUED: u32 = 16;

pub const CASE_INSENSITIVE: u32 = 1;
pub const MULTI_LINE: u32 = 2;
pub const DOT_MATCHES_NEW_LINE: u32 = 4;
pub const IGNORE_WHITESPACE: u32 = 8;
pub const CRLF: u32 = 16;
pub const NO_UNICODE: u32 = 32;
pub const ONLY_NAMED_GROUPS: u32 = 64;
pub const FIND_NOT_EMPTY: u32 = 128;
pub const LEFTMOST_LONGEST: u32 = 256;
pub const SEEK: u32 = 512;

extern "C" {
    pub fn fancy_regex_default_options(options: *mut Options);
    pub fn fancy_regex_new(
        pattern: *const u8,
        pattern_len: usize,
        options: *const Options,
        regex: *mut RawHandle,
        fault: *mut Fault,
    ) -> u32;
    pub fn fancy_regex_again(handle: *mut RawHandle, out: *mut RawHandle) -> u32;
    pub fn fancy_regex_free(handle: *mut RawHandle);
    pub fn fancy_regex_explain(
        fault: *const Fault,
        buffer: *mut u8,
        buffer_len: usize,
        wanted: *mut usize,
    ) -> u32;
    pub fn fancy_regex_missing_name(
        pattern: *const u8,
        pattern_len: usize,
        options: *const Options,
        buffer: *mut u8,
        buffer_len: usize,
        wanted: *mut usize,
    ) -> u32;
    pub fn fancy_regex_captures_len(regex: *mut RawHandle) -> usize;
    pub fn fancy_regex_group_name(
        regex: *mut RawHandle,
        number: usize,
        buffer: *mut u8,
        buffer_len: usize,
        wanted: *mut usize,
    ) -> u32;
    pub fn fancy_regex_is_match(
        regex: *mut RawHandle,
        haystack: *const u8,
        haystack_len: usize,
        request: *const Request,
    ) -> u32;
    pub fn fancy_regex_find(
        regex: *mut RawHandle,
        haystack: *const u8,
        haystack_len: usize,
        request: *const Request,
        found: *mut Span,
    ) -> u32;
    pub fn fancy_regex_captures(
        regex: *mut RawHandle,
        haystack: *const u8,
        haystack_len: usize,
        request: *const Request,
        groups: *mut Span,
        count: usize,
    ) -> u32;
    pub fn fancy_regex_find_all(
        regex: *mut RawHandle,
        haystack: *const u8,
        haystack_len: usize,
        request: *mut Request,
        spans: *mut Span,
        count: usize,
        written: *mut usize,
    ) -> u32;
    pub fn fancy_regex_captures_all(
        regex: *mut RawHandle,
        haystack: *const u8,
        haystack_len: usize,
        request: *mut Request,
        groups: *mut Span,
        count: usize,
        written: *mut usize,
    ) -> u32;
    pub fn fancy_regex_matches_new(
        regex: *mut RawHandle,
        haystack: *const u8,
        haystack_len: usize,
        request: *const Request,
        has_groups: u32,
        list: *mut RawHandle,
    ) -> u32;
    pub fn fancy_regex_next(list: *mut RawHandle, groups: *mut Span, count: usize) -> u32;
    pub fn fancy_regex_escape(
        text: *const u8,
        text_len: usize,
        buffer: *mut u8,
        buffer_len: usize,
        wanted: *mut usize,
    ) -> u32;
    pub fn fancy_regex_replace(
        regex: *mut RawHandle,
        text: *const u8,
        text_len: usize,
        how: *const Replacing<'_>,
        buffer: *mut u8,
        buffer_len: usize,
        wanted: *mut usize,
    ) -> u32;
}
