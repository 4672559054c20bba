//! Highlights a file by syntect, as escapes of a terminal, and tells the time on standard error.
use std::env;
use std::fs;
use std::io::{self, Write};
use std::time::Instant;
use syntect::easy::HighlightLines;
use syntect::highlighting::ThemeSet;
use syntect::parsing::SyntaxSet;
use syntect::util::{as_24_bit_terminal_escaped, LinesWithEndings};

fn main() {
    let path = env::args().nth(1).expect("a file to highlight");
    let text = fs::read_to_string(&path).expect("the file is text");
    let syntaxes = SyntaxSet::load_defaults_newlines();
    let themes = ThemeSet::load_defaults();
    let syntax = syntaxes
        .find_syntax_for_file(&path)
        .expect("the file can be read")
        .expect("its ending is that of a language");
    let begun = Instant::now();
    let mut lines = HighlightLines::new(syntax, &themes.themes["base16-ocean.dark"]);
    let mut shown = String::new();
    for line in LinesWithEndings::from(&text) {
        let parts = lines.highlight_line(line, &syntaxes).expect("the syntax is whole");
        shown.push_str(&as_24_bit_terminal_escaped(&parts, true));
    }
    eprintln!("{:.0}", begun.elapsed().as_secs_f64() * 1000.0);
    io::stdout().write_all(shown.as_bytes()).expect("standard output takes it");
}
