//! The crate `fancy-regex`.
use drivers::{drive, Direct, Engine};
use fancy_regex::Regex;

struct Fancy(Regex);

impl Engine for Fancy {
    fn compile(pattern: &str) -> Result<Self, String> {
        Regex::new(pattern).map(Fancy).map_err(|e| e.to_string())
    }
    fn find(&mut self, haystack: &str) -> Result<Option<(usize, usize)>, String> {
        match self.0.find(haystack) {
            Ok(m) => Ok(m.map(|m| (m.start(), m.end()))),
            Err(e) => Err(e.to_string()),
        }
    }
    fn first_captures(
        &mut self,
        haystack: &str,
        mut f: impl FnMut(usize, usize, usize),
    ) -> Result<(), String> {
        if let Some(c) = self.0.captures(haystack).map_err(|e| e.to_string())? {
            for g in 0..c.len() {
                if let Some(m) = c.get(g) {
                    f(g, m.start(), m.end());
                }
            }
        }
        Ok(())
    }
    fn is_match(&mut self, haystack: &str) -> Result<bool, String> {
        self.0.is_match(haystack).map_err(|e| e.to_string())
    }
    fn each_match(
        &mut self,
        haystack: &str,
        mut f: impl FnMut(usize, usize),
    ) -> Result<(), String> {
        for m in self.0.find_iter(haystack) {
            let m = m.map_err(|e| e.to_string())?;
            f(m.start(), m.end());
        }
        Ok(())
    }
    fn each_captures(
        &mut self,
        haystack: &str,
        mut f: impl FnMut(usize, usize, usize),
    ) -> Result<(), String> {
        for c in self.0.captures_iter(haystack) {
            let c = c.map_err(|e| e.to_string())?;
            for g in 0..c.len() {
                if let Some(m) = c.get(g) {
                    f(g, m.start(), m.end());
                }
            }
        }
        Ok(())
    }
    fn replace_all(&mut self, haystack: &str, replacement: &str) -> Result<usize, String> {
        Ok(self.0.replace_all(haystack, replacement).len())
    }
}

fn main() {
    drive::<Direct<Fancy>>();
}
