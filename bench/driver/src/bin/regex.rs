//! The crate `regex`.
use drivers::{drive, Direct, Engine};
use regex::Regex;

struct Plain(Regex);

impl Engine for Plain {
    fn compile(pattern: &str) -> Result<Self, String> {
        Regex::new(pattern)
            .map(Plain)
            .map_err(|e| last_line(&e.to_string()))
    }
    fn find(&mut self, haystack: &str) -> Result<Option<(usize, usize)>, String> {
        Ok(self.0.find(haystack).map(|m| (m.start(), m.end())))
    }
    fn first_captures(
        &mut self,
        haystack: &str,
        mut f: impl FnMut(usize, usize, usize),
    ) -> Result<(), String> {
        if let Some(c) = self.0.captures(haystack) {
            for g in 0..c.len() {
                if let Some(m) = c.get(g) {
                    f(g, m.start(), m.end());
                }
            }
        }
        Ok(())
    }
    fn is_match(&mut self, haystack: &str) -> Result<bool, String> {
        Ok(self.0.is_match(haystack))
    }
    fn each_match(
        &mut self,
        haystack: &str,
        mut f: impl FnMut(usize, usize),
    ) -> Result<(), String> {
        for m in self.0.find_iter(haystack) {
            f(m.start(), m.end());
        }
        Ok(())
    }
    fn each_captures(
        &mut self,
        haystack: &str,
        mut f: impl FnMut(usize, usize, usize),
    ) -> Result<(), String> {
        for c in self.0.captures_iter(haystack) {
            for g in 0..c.len() {
                if let Some(m) = c.get(g) {
                    f(g, m.start(), m.end());
                }
            }
        }
        Ok(())
    }
    fn replace_all(&mut self, haystack: &str, replacement: &str) -> Result<usize, String> {
        Ok(self.0.replace_all(haystack, replacement).len())
    }
}

/// What the error says below its drawing of the pattern.
fn last_line(error: &str) -> String {
    error.lines().last().unwrap_or("").to_string()
}

fn main() {
    drive::<Direct<Plain>>();
}
