//! Workloads, and what one run of a workload counts.
use std::io::Read;

/// What is asked of an engine.
pub struct Workload {
    pub operation: String,
    pub haystack: String,
    pub replacement: String,
    pub patterns: Vec<String>,
}

impl Workload {
    /// Reads the workload from standard input, and its haystack from the file.
    pub fn read() -> Workload {
        let mut text = String::new();
        std::io::stdin()
            .read_to_string(&mut text)
            .expect("a workload of UTF-8");
        let mut fields = text.split_terminator('\0').map(str::to_string);
        let mut next = || {
            fields
                .next()
                .expect("an operation, a path, a replacement and patterns")
        };
        let (operation, path, replacement) = (next(), next(), next());
        let haystack = std::fs::read_to_string(&path).expect("a haystack of UTF-8");
        Workload {
            operation,
            haystack,
            replacement,
            patterns: fields.collect(),
        }
    }

    /// The pattern. Several are one, with a group for each.
    pub fn pattern(&self) -> String {
        match self.patterns.as_slice() {
            [one] => one.clone(),
            several => several
                .iter()
                .map(|it| format!("({it})"))
                .collect::<Vec<_>>()
                .join("|"),
        }
    }
}

/// How many matches a run found, and a sum of their groups, by which answers are compared.
#[repr(C)]
#[derive(Clone, Copy, Default, PartialEq, Eq, Debug)]
pub struct Counts {
    pub matches: u64,
    pub checksum: u64,
}

impl Counts {
    /// Counts a group that took part; group 0 is a match.
    #[inline]
    pub fn add(&mut self, group: usize, start: usize, end: usize) {
        let span = (start as u64)
            .wrapping_mul(31)
            .wrapping_add(end as u64)
            .wrapping_add((group as u64).wrapping_mul(1009));
        self.checksum = self.checksum.wrapping_add(span);
        self.matches += u64::from(group == 0);
    }
}

/// The pieces of a replacement, in which a group stands as `${1}`.
pub enum Piece {
    Text(String),
    Group(usize),
}

/// Reads a replacement.
pub fn pieces(replacement: &str) -> Vec<Piece> {
    let mut out = vec![];
    for (k, part) in replacement.split("${").enumerate() {
        let mut text = part;
        if k > 0 {
            let (group, rest) = part.split_once('}').expect("a } after ${");
            out.push(Piece::Group(group.parse().expect("a group's number")));
            text = rest;
        }
        out.push(Piece::Text(text.to_string()));
    }
    out
}
