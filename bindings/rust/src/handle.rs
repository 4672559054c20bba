//! A handle that is safe to use, and a pool of them.
use crate::ffi::{self, Fault, Options, RawHandle, Request, Span};
use std::alloc::{handle_alloc_error, Layout};
use std::cell::{Cell, UnsafeCell};
use std::fmt;
use std::ptr::null_mut;
use std::sync::atomic::{AtomicU64, Ordering};
use std::sync::{Mutex, MutexGuard, PoisonError};

/// A handle of the library's: a regex, or a list under way. One call at a time uses it, since each takes it by `&mut`.
pub struct Handle {
    raw: RawHandle,
}

impl fmt::Debug for Handle {
    fn fmt(&self, f: &mut fmt::Formatter<'_>) -> fmt::Result {
        f.write_str("Handle")
    }
}

// SAFETY: what a handle owns is reached by it alone, or by the handles that share it through an atomic count, and searches change
// of it what one thread at a time takes out of a slot, and atomic numbers. Memory is from malloc, which any thread may give back.
unsafe impl Send for Handle {}

// SAFETY: nothing is done with a handle that is lent by `&`.
unsafe impl Sync for Handle {}

impl Drop for Handle {
    fn drop(&mut self) {
        // SAFETY: the handle is whole, and used by nothing else.
        unsafe { ffi::fancy_regex_free(&mut self.raw) }
    }
}

/// A call was refused for want of memory: the program ends, as at any allocation of Rust's.
pub fn out_of_memory() -> ! {
    handle_alloc_error(Layout::new::<Handle>())
}

/// The pattern's options by default.
pub fn default_options() -> Options {
    let mut options = Options {
        size: 0,
        backtrack_limit: 0,
        stack_limit: 0,
        step_limit: 0,
        program_limit: 0,
        switches: 0,
        bytes_mode: 0,
    };
    // SAFETY: the pointer is to options.
    unsafe { ffi::fancy_regex_default_options(&mut options) }
    options
}

/// Has the library write into a buffer, which is made longer where it is too short. `None` where it has nothing to write.
pub fn written(mut ask: impl FnMut(&mut [u8], &mut usize) -> u32) -> Option<String> {
    let mut buffer = vec![0; 64];
    loop {
        let mut wanted = 0;
        match ask(&mut buffer, &mut wanted) {
            ffi::DONE => {
                buffer.truncate(wanted);
                return Some(String::from_utf8(buffer).expect("the library writes UTF-8"));
            }
            ffi::TOO_SHORT => buffer.resize(wanted, 0),
            ffi::NO_MEMORY => out_of_memory(),
            _ => return None,
        }
    }
}

impl Handle {
    fn empty() -> Handle {
        Handle {
            raw: RawHandle {
                at: null_mut(),
                full: false,
            },
        }
    }

    /// Reads a pattern.
    pub fn regex(pattern: &str, options: &Options) -> Result<Handle, Fault> {
        let mut handle = Handle::empty();
        let mut fault = Fault {
            kind: 0,
            pattern: 0,
            place: 0,
            number: 0,
        };
        // SAFETY: the pointers are of slices and references that are borrowed for the call, here and below.
        let answer = unsafe {
            ffi::fancy_regex_new(pattern.as_ptr(), pattern.len(), options, &mut handle.raw, &mut fault)
        };
        match answer {
            ffi::DONE => Ok(handle),
            ffi::NO_MEMORY => out_of_memory(),
            _ => Err(fault),
        }
    }

    /// A second handle of the same thing.
    fn again(&mut self) -> Handle {
        let mut other = Handle::empty();
        // SAFETY: as above, and the two handles are two.
        if unsafe { ffi::fancy_regex_again(&mut self.raw, &mut other.raw) } != ffi::DONE {
            out_of_memory();
        }
        other
    }

    /// How many groups there are.
    pub fn captures_len(&mut self) -> usize {
        // SAFETY: as above.
        unsafe { ffi::fancy_regex_captures_len(&mut self.raw) }
    }

    /// The name of a group.
    pub fn group_name(&mut self, number: usize) -> Option<String> {
        written(|buffer, wanted| {
            // SAFETY: as above.
            unsafe {
                ffi::fancy_regex_group_name(
                    &mut self.raw,
                    number,
                    buffer.as_mut_ptr(),
                    buffer.len(),
                    wanted,
                )
            }
        })
    }

    /// Whether there is a match: an answer.
    pub fn is_match(&mut self, haystack: &[u8], request: &Request) -> u32 {
        // SAFETY: as above.
        unsafe {
            ffi::fancy_regex_is_match(&mut self.raw, haystack.as_ptr(), haystack.len(), request)
        }
    }

    /// The first match: an answer.
    pub fn find(&mut self, haystack: &[u8], request: &Request, found: &mut Span) -> u32 {
        // SAFETY: as above.
        unsafe {
            ffi::fancy_regex_find(
                &mut self.raw,
                haystack.as_ptr(),
                haystack.len(),
                request,
                found,
            )
        }
    }

    /// The groups of the first match: an answer.
    pub fn captures(&mut self, haystack: &[u8], request: &Request, groups: &mut [Span]) -> u32 {
        // SAFETY: as above.
        unsafe {
            ffi::fancy_regex_captures(
                &mut self.raw,
                haystack.as_ptr(),
                haystack.len(),
                request,
                groups.as_mut_ptr(),
                groups.len(),
            )
        }
    }

    /// The next matches of a list, with as many spans for each as it has groups to be told: an answer, and how many there are.
    pub fn list(
        &mut self,
        haystack: &[u8],
        request: &mut Request,
        spans: &mut [Span],
        has_groups: bool,
    ) -> (u32, usize) {
        let mut count = 0;
        let call = if has_groups {
            ffi::fancy_regex_captures_all
        } else {
            ffi::fancy_regex_find_all
        };
        // SAFETY: as above.
        let answer = unsafe {
            call(
                &mut self.raw,
                haystack.as_ptr(),
                haystack.len(),
                request,
                spans.as_mut_ptr(),
                spans.len(),
                &mut count,
            )
        };
        (answer, count)
    }

    /// A list that goes on from where the request says, or the answer that refuses it.
    pub fn list_under_way(
        &mut self,
        haystack: &[u8],
        request: &Request,
        has_groups: bool,
    ) -> Result<Handle, u32> {
        let mut list = Handle::empty();
        // SAFETY: as above, and the two handles are two.
        let answer = unsafe {
            ffi::fancy_regex_matches_new(
                &mut self.raw,
                haystack.as_ptr(),
                haystack.len(),
                request,
                u32::from(has_groups),
                &mut list.raw,
            )
        };
        if answer == ffi::DONE {
            Ok(list)
        } else {
            Err(answer)
        }
    }

    /// The spans of the next match of a list: an answer.
    pub fn next(&mut self, spans: &mut [Span]) -> u32 {
        // SAFETY: as above.
        unsafe { ffi::fancy_regex_next(&mut self.raw, spans.as_mut_ptr(), spans.len()) }
    }

    /// The text with its matches replaced, or `NONE` where none is: an answer.
    pub fn replace(
        &mut self,
        text: &str,
        how: &ffi::Replacing<'_>,
        buffer: &mut [u8],
        wanted: &mut usize,
    ) -> u32 {
        // SAFETY: as above.
        unsafe {
            ffi::fancy_regex_replace(
                &mut self.raw,
                text.as_ptr(),
                text.len(),
                how,
                buffer.as_mut_ptr(),
                buffer.len(),
                wanted,
            )
        }
    }
}

/// A number for each thread, never used twice.
fn thread_number() -> u64 {
    static NEXT: AtomicU64 = AtomicU64::new(1);
    thread_local! {
        static NUMBER: Cell<u64> = const { Cell::new(0) };
    }
    NUMBER.with(|number| {
        if number.get() == 0 {
            number.set(NEXT.fetch_add(1, Ordering::Relaxed));
        }
        number.get()
    })
}

/// Handles of one thing. The thread that made it has one without a lock; the others take theirs from a list.
pub struct Pool {
    // the number of the thread that made it
    owner: u64,
    // used by that thread alone
    kept: UnsafeCell<Handle>,
    // the handle of which others are made, and those that wait
    others: Mutex<(Handle, Vec<Handle>)>,
}

// SAFETY: `kept` is reached by the thread with the number `owner` alone, and by `drop`, which has the whole pool. That thread
// does not come to it again while it uses it: the library calls nothing back.
unsafe impl Sync for Pool {}

impl std::panic::RefUnwindSafe for Pool {}
impl std::panic::UnwindSafe for Pool {}

impl Pool {
    pub fn new(mut handle: Handle) -> Pool {
        let other = handle.again();
        Pool {
            owner: thread_number(),
            kept: UnsafeCell::new(handle),
            others: Mutex::new((other, Vec::new())),
        }
    }

    fn locked(&self) -> MutexGuard<'_, (Handle, Vec<Handle>)> {
        self.others.lock().unwrap_or_else(PoisonError::into_inner)
    }

    /// Makes calls with a handle.
    #[inline]
    pub fn with<T>(&self, call: impl FnOnce(&mut Handle) -> T) -> T {
        if thread_number() == self.owner {
            // SAFETY: this is the one thread that uses it, and it does not use it now: `call` makes calls of the library alone.
            return call(unsafe { &mut *self.kept.get() });
        }
        self.with_other(call)
    }

    #[cold]
    fn with_other<T>(&self, call: impl FnOnce(&mut Handle) -> T) -> T {
        let mut handle = {
            let mut others = self.locked();
            match others.1.pop() {
                Some(handle) => handle,
                None => others.0.again(),
            }
        };
        let answer = call(&mut handle);
        self.locked().1.push(handle);
        answer
    }
}
