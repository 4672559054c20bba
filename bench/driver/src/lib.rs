//! What all drivers share. A driver is a program for one engine:
//!
//! ```text
//! driver            measures a workload and prints a line of JSON
//! driver --times N  does the workload N times and prints nothing: what `bench/instructions` counts
//! ```
//!
//! The workload comes by standard input, as texts with a NUL after each: the operation, the path of the haystack, the
//! replacement, and one pattern or more.
pub mod clock;
pub mod shim;
pub mod static_library;
pub mod work;

use clock::Clock;
use std::time::Duration;
use work::{Counts, Workload};

/// One engine with one compiled pattern.
pub trait Engine: Sized {
    fn compile(pattern: &str) -> Result<Self, String>;
    fn find(&mut self, haystack: &str) -> Result<Option<(usize, usize)>, String>;
    /// Gives the start and the end of each match.
    fn each_match(&mut self, haystack: &str, f: impl FnMut(usize, usize)) -> Result<(), String>;
    /// Gives for each match its groups that took part, from 0 on: the group, its start and its end.
    fn each_captures(
        &mut self,
        haystack: &str,
        f: impl FnMut(usize, usize, usize),
    ) -> Result<(), String>;
    /// The same for the first match alone.
    fn first_captures(
        &mut self,
        haystack: &str,
        f: impl FnMut(usize, usize, usize),
    ) -> Result<(), String>;
    /// The length of the new text.
    fn replace_all(&mut self, haystack: &str, replacement: &str) -> Result<usize, String>;
    fn is_match(&mut self, haystack: &str) -> Result<bool, String> {
        Ok(self.find(haystack)?.is_some())
    }

    /// Does a workload once.
    fn run(&mut self, work: &Workload) -> Result<Counts, String> {
        let haystack = std::hint::black_box(work.haystack.as_str());
        let mut counts = Counts::default();
        match work.operation.as_str() {
            "find_all" | "set_all" => self.each_match(haystack, |s, e| counts.add(0, s, e))?,
            "captures_all" | "tokens" => {
                self.each_captures(haystack, |g, s, e| counts.add(g, s, e))?
            }
            "replace_all" => {
                let length = self.replace_all(haystack, &work.replacement)?;
                counts.add(0, 0, length);
            }
            "split" => {
                let mut last = 0;
                self.each_match(haystack, |s, e| {
                    counts.add(0, 0, s - last);
                    last = e;
                })?;
                counts.add(0, 0, haystack.len() - last);
            }
            "is_match" => counts.matches = u64::from(self.is_match(haystack)?),
            "find_lines" | "find_lines_held" => {
                for line in haystack.split('\n') {
                    if let Some((s, e)) = self.find(line)? {
                        counts.add(0, s, e);
                    }
                }
            }
            "captures_lines" => {
                for line in haystack.split('\n') {
                    self.first_captures(line, |g, s, e| counts.add(g, s, e))?;
                }
            }
            "fresh_lines" => {
                let pattern = work.pattern();
                for line in haystack.split('\n') {
                    if let Some((s, e)) = Self::compile(&pattern)?.find(line)? {
                        counts.add(0, s, e);
                    }
                }
            }
            other => return Err(format!("no {other}")),
        }
        Ok(counts)
    }
}

/// What a driver times.
pub trait Timed: Sized {
    /// Whether `time` gives the least of all batches so far, so that the last is the one to take.
    const KEEPS_LEAST: bool = false;
    /// Compiles, and gives the microseconds that it took, the least of a few.
    fn prepare(work: &Workload) -> Result<(Self, f64), String>;
    /// Does the workload so many times, and gives the nanoseconds of one.
    fn time(&mut self, work: &Workload, times: u64) -> Result<(Counts, f64), String>;
    /// Compiles once and does the workload so many times.
    fn repeat(work: &Workload, times: u64) -> Result<(), String>;
}

/// An engine that is called from Rust.
pub struct Direct<E>(E);

impl<E: Engine> Timed for Direct<E> {
    fn prepare(work: &Workload) -> Result<(Self, f64), String> {
        let pattern = work.pattern();
        let begun = Clock::now();
        let mut least = f64::MAX;
        for _ in 0..50 {
            let start = Clock::now();
            let engine = E::compile(&pattern)?;
            least = least.min(start.elapsed().as_nanos() as f64 / 1000.0);
            if begun.elapsed() > Duration::from_millis(30) {
                return Ok((Direct(engine), least));
            }
        }
        Ok((Direct(E::compile(&pattern)?), least))
    }

    fn time(&mut self, work: &Workload, times: u64) -> Result<(Counts, f64), String> {
        let start = Clock::now();
        let mut counts = Counts::default();
        for _ in 0..times {
            counts = self.0.run(work)?;
        }
        Ok((counts, start.elapsed().as_nanos() as f64 / times as f64))
    }

    fn repeat(work: &Workload, times: u64) -> Result<(), String> {
        Direct(E::compile(&work.pattern())?)
            .time(work, times)
            .map(|_| ())
    }
}

/// What was measured: of one run, the counts and the least nanoseconds; of a build, the least microseconds.
struct Measured {
    counts: Counts,
    ns: f64,
    compile_us: f64,
}

/// The least of up to 60 batches of 5 ms or more, after one run that fills caches.
fn measure<T: Timed>(work: &Workload) -> Result<Measured, String> {
    let (mut timed, compile_us) = T::prepare(work).map_err(|e| format!("refused: {e}"))?;
    let failed = |e| format!("failed: {e}");
    let (counts, first) = timed.time(work, 1).map_err(failed)?;
    let times = ((5e6 / first.max(1.0)) as u64).clamp(1 + u64::from(T::KEEPS_LEAST), 100_000);
    let mut ns = f64::MAX;
    let begun = Clock::now();
    for batch in 0..60 {
        let spent = begun.elapsed();
        if spent > Duration::from_secs(1) || batch >= 3 && spent > Duration::from_millis(100) {
            break;
        }
        let (again, time) = timed.time(work, times).map_err(failed)?;
        if again != counts {
            return Err(format!("failed: {again:?} after {counts:?}"));
        }
        ns = if T::KEEPS_LEAST { time } else { ns.min(time) };
    }
    Ok(Measured {
        counts,
        ns,
        compile_us,
    })
}

fn status_kib(field: &str) -> u64 {
    let text = std::fs::read_to_string("/proc/self/status").unwrap_or_default();
    text.lines()
        .find(|line| line.starts_with(field))
        .and_then(|line| line.split_whitespace().nth(1)?.parse().ok())
        .unwrap_or(0)
}

/// A text as JSON has it.
fn quoted(text: &str) -> String {
    let mut out = String::from("\"");
    for c in text.chars() {
        match c {
            '"' | '\\' => out.extend(['\\', c]),
            ' '.. => out.push(c),
            _ => out.push_str(&format!("\\u{:04x}", c as u32)),
        }
    }
    out.push('"');
    out
}

/// The line of a workload. Its memory is the peak of the resident set less what it was before.
fn report<T: Timed>(work: &Workload) -> String {
    // This sets the peak back; where it may not be written, the memory is that of the whole process.
    let _ = std::fs::write("/proc/self/clear_refs", "5");
    let before = status_kib("VmRSS");
    let measured = measure::<T>(work);
    let kib = status_kib("VmHWM").saturating_sub(before);
    match measured {
        Ok(it) => format!(
            "{{\"status\":\"ok\",\"matches\":{},\"checksum\":{},\"ns\":{:.1},\"compile_us\":{:.2},\"kib\":{kib}}}",
            it.counts.matches, it.counts.checksum, it.ns, it.compile_us
        ),
        Err(e) => format!("{{\"status\":{}}}", quoted(&e)),
    }
}

/// `main` of each driver.
pub fn drive<T: Timed>() {
    let work = Workload::read();
    let words: Vec<String> = std::env::args().skip(1).collect();
    match words.as_slice() {
        [] => println!("{}", report::<T>(&work)),
        [flag, times] if flag == "--times" => {
            T::repeat(&work, times.parse().expect("a number of times")).expect("the workload");
        }
        _ => panic!("driver, or driver --times N"),
    }
}
