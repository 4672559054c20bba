//! Engines behind the C functions of `shims/`.
use crate::work::{pieces, Piece};
use crate::Engine;
use std::ffi::c_void;

/// The functions of one shim. `search` answers 1 for a match, 0 for none, else an error of the engine.
pub trait Shim {
    fn compile(pattern: &[u8], error: &mut [u8]) -> *mut c_void;
    fn search(re: *mut c_void, haystack: &[u8], start: usize) -> i32;
    fn spans(re: *mut c_void) -> (*const usize, usize);
    fn free(re: *mut c_void);
}

pub struct Shimmed<S: Shim> {
    re: *mut c_void,
    marker: std::marker::PhantomData<S>,
}

impl<S: Shim> Drop for Shimmed<S> {
    fn drop(&mut self) {
        S::free(self.re);
    }
}

impl<S: Shim> Shimmed<S> {
    #[inline]
    fn at(&mut self, haystack: &str, start: usize) -> Result<Option<(usize, usize)>, String> {
        match S::search(self.re, haystack.as_bytes(), start) {
            1 => {
                let spans = self.groups();
                Ok(Some((spans[0], spans[1])))
            }
            0 => Ok(None),
            e => Err(format!("code {e}")),
        }
    }
    #[inline]
    fn groups(&self) -> &[usize] {
        let (p, n) = S::spans(self.re);
        // SAFETY: the shim keeps `n` pairs at `p` until its next search.
        unsafe { std::slice::from_raw_parts(p, 2 * n) }
    }
    /// The rule of the regex crate for empty matches.
    #[inline]
    fn walk(
        &mut self,
        haystack: &str,
        mut f: impl FnMut(&Self, usize, usize),
    ) -> Result<(), String> {
        let mut at = 0;
        let mut last = None;
        while at <= haystack.len() {
            let Some((s, e)) = self.at(haystack, at)? else {
                break;
            };
            if s == e {
                at = e + 1;
                while !haystack.is_char_boundary(at) && at < haystack.len() {
                    at += 1;
                }
                if last == Some(e) {
                    continue;
                }
            } else {
                at = e;
            }
            last = Some(e);
            f(self, s, e);
        }
        Ok(())
    }
}

impl<S: Shim> Engine for Shimmed<S> {
    fn compile(pattern: &str) -> Result<Self, String> {
        let mut error = [0u8; 200];
        let re = S::compile(pattern.as_bytes(), &mut error);
        if re.is_null() {
            let end = error.iter().position(|b| *b == 0).unwrap_or(error.len());
            return Err(String::from_utf8_lossy(&error[..end]).into_owned());
        }
        Ok(Shimmed {
            re,
            marker: std::marker::PhantomData,
        })
    }
    fn find(&mut self, haystack: &str) -> Result<Option<(usize, usize)>, String> {
        self.at(haystack, 0)
    }
    fn first_captures(
        &mut self,
        haystack: &str,
        mut f: impl FnMut(usize, usize, usize),
    ) -> Result<(), String> {
        if self.at(haystack, 0)?.is_some() {
            for (g, span) in self.groups().chunks_exact(2).enumerate() {
                if span[0] != usize::MAX {
                    f(g, span[0], span[1]);
                }
            }
        }
        Ok(())
    }
    fn each_match(
        &mut self,
        haystack: &str,
        mut f: impl FnMut(usize, usize),
    ) -> Result<(), String> {
        self.walk(haystack, |_, s, e| f(s, e))
    }
    fn each_captures(
        &mut self,
        haystack: &str,
        mut f: impl FnMut(usize, usize, usize),
    ) -> Result<(), String> {
        self.walk(haystack, |me, _, _| {
            for (g, span) in me.groups().chunks_exact(2).enumerate() {
                if span[0] != usize::MAX {
                    f(g, span[0], span[1]);
                }
            }
        })
    }
    fn replace_all(&mut self, haystack: &str, replacement: &str) -> Result<usize, String> {
        let pieces = pieces(replacement);
        let mut out = String::with_capacity(haystack.len());
        let mut last = 0;
        self.walk(haystack, |me, s, e| {
            out.push_str(&haystack[last..s]);
            last = e;
            for piece in &pieces {
                match piece {
                    Piece::Text(text) => out.push_str(text),
                    Piece::Group(g) => {
                        let groups = me.groups();
                        if 2 * g + 1 < groups.len() && groups[2 * g] != usize::MAX {
                            out.push_str(&haystack[groups[2 * g]..groups[2 * g + 1]]);
                        }
                    }
                }
            }
        })?;
        out.push_str(&haystack[last..]);
        Ok(out.len())
    }
}

/// Declares the four C functions of one shim and its type.
#[macro_export]
macro_rules! shim {
    ($name:ident, $compile:ident, $search:ident, $spans:ident, $free:ident) => {
        unsafe extern "C" {
            fn $compile(p: *const u8, n: usize, e: *mut u8, en: usize) -> *mut std::ffi::c_void;
            fn $search(re: *mut std::ffi::c_void, h: *const u8, n: usize, start: usize) -> i32;
            fn $spans(re: *mut std::ffi::c_void, n: *mut usize) -> *const usize;
            fn $free(re: *mut std::ffi::c_void);
        }
        struct $name;
        impl $crate::shim::Shim for $name {
            fn compile(p: &[u8], e: &mut [u8]) -> *mut std::ffi::c_void {
                unsafe { $compile(p.as_ptr(), p.len(), e.as_mut_ptr(), e.len()) }
            }
            #[inline]
            fn search(re: *mut std::ffi::c_void, h: &[u8], start: usize) -> i32 {
                unsafe { $search(re, h.as_ptr(), h.len(), start) }
            }
            #[inline]
            fn spans(re: *mut std::ffi::c_void) -> (*const usize, usize) {
                let mut n = 0;
                let p = unsafe { $spans(re, &mut n) };
                (p, n)
            }
            fn free(re: *mut std::ffi::c_void) {
                unsafe { $free(re) }
            }
        }
    };
}
