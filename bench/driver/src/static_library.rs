//! A static library that Rattle built, behind one C function. A call compiles the pattern and then does the operation so many
//! times. So the time of one is that of `1 + times` less that of 1, each of the two the least that was seen: a difference of
//! two single times would be too small in the best case.
use crate::clock::Clock;
use crate::work::{Counts, Workload};
use crate::Timed;

pub type Run = unsafe extern "C" fn(
    operation: u32,
    pattern: *const u8,
    pattern_len: usize,
    haystack: *const u8,
    haystack_len: usize,
    replacement: *const u8,
    replacement_len: usize,
    times: u64,
    out: *mut Counts,
) -> u32;

/// The number of each operation is its place.
const OPERATIONS: [&str; 12] = [
    "compile",
    "find_all",
    "captures_all",
    "replace_all",
    "split",
    "is_match",
    "find_lines",
    "tokens",
    "set_all",
    "captures_lines",
    "fresh_lines",
    "find_lines_held",
];

/// Added to the number, this asks for the option `seek`.
const SEEK: u32 = 100;

pub trait Library {
    const RUN: Run;
    /// Whether it has sets of patterns. They come with a line feed between them.
    const HAS_SETS: bool;
}

/// A program over a static library: the type that stands for it, the name of its file, whether it has sets, and its function.
#[macro_export]
macro_rules! linked_library {
    ($library:ident, $file:literal, $has_sets:literal, $function:ident) => {
        #[link(name = $file, kind = "static")]
        #[link(name = "libc_c", kind = "static")]
        unsafe extern "C" {
            fn $function(
                operation: u32,
                pattern: *const u8,
                pattern_len: usize,
                haystack: *const u8,
                haystack_len: usize,
                replacement: *const u8,
                replacement_len: usize,
                times: u64,
                out: *mut $crate::work::Counts,
            ) -> u32;
        }

        struct $library;

        impl $crate::static_library::Library for $library {
            const RUN: $crate::static_library::Run = $function;
            const HAS_SETS: bool = $has_sets;
        }

        fn main() {
            $crate::drive::<$crate::static_library::Linked<$library>>();
        }
    };
}

pub struct Linked<L> {
    /// The least times so far of one repetition and of `1 + times`, both with the compilation.
    one: f64,
    all: f64,
    marker: std::marker::PhantomData<L>,
}

fn operation_of<L: Library>(work: &Workload) -> Result<u32, String> {
    let name = match work.operation.as_str() {
        "tokens" if !L::HAS_SETS => "captures_all",
        "set_all" if !L::HAS_SETS => "find_all",
        other => other,
    };
    let place = OPERATIONS.iter().position(|it| *it == name);
    let number = place.ok_or_else(|| format!("no {name}"))? as u32;
    if std::env::var_os("BENCH_SEEK").is_some() {
        return Ok(SEEK + number);
    }
    Ok(number)
}

fn call<L: Library>(work: &Workload, haystack: &str, times: u64) -> Result<(Counts, f64), String> {
    let operation = operation_of::<L>(work)?;
    let pattern = if L::HAS_SETS {
        work.patterns.join("\n")
    } else {
        work.pattern()
    };
    let mut counts = Counts::default();
    let start = Clock::now();
    // SAFETY: each pair is the pointer and the length of a slice that is borrowed for the call.
    let code = unsafe {
        (L::RUN)(
            operation,
            pattern.as_ptr(),
            pattern.len(),
            haystack.as_ptr(),
            haystack.len(),
            work.replacement.as_ptr(),
            work.replacement.len(),
            times,
            &mut counts,
        )
    };
    let time = start.elapsed().as_nanos() as f64;
    match code {
        0 => Ok((counts, time)),
        1 => Err("no UTF-8".into()),
        2 => Err("pattern".into()),
        3 => Err("memory".into()),
        4 => Err("limit".into()),
        5 => Err("no such operation".into()),
        other => Err(format!("code {other}")),
    }
}

impl<L: Library> Timed for Linked<L> {
    const KEEPS_LEAST: bool = true;

    fn prepare(work: &Workload) -> Result<(Self, f64), String> {
        let begun = Clock::now();
        let mut least = f64::MAX;
        for _ in 0..50 {
            let (_, time) = call::<L>(work, "", 0)?;
            least = least.min(time / 1000.0);
            if begun.elapsed().as_millis() > 30 {
                break;
            }
        }
        Ok((
            Linked {
                one: f64::MAX,
                all: f64::MAX,
                marker: std::marker::PhantomData,
            },
            least,
        ))
    }

    fn time(&mut self, work: &Workload, times: u64) -> Result<(Counts, f64), String> {
        let (_, one) = call::<L>(work, &work.haystack, 1)?;
        let (counts, all) = call::<L>(work, &work.haystack, 1 + times)?;
        if times == 1 {
            // It only tells how many times a batch takes, and noise must not make that many.
            return Ok((counts, (all - one).max(one / 50.0)));
        }
        self.one = self.one.min(one);
        self.all = self.all.min(all);
        Ok((counts, (self.all - self.one).max(1.0) / times as f64))
    }

    fn repeat(work: &Workload, times: u64) -> Result<(), String> {
        call::<L>(work, &work.haystack, times).map(|_| ())
    }
}
