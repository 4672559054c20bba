//! The binding's calls. What is expected is worked out from the rules of patterns and of lists.
use fancy_regex::{
    escape, BytesMode, Captures, CompileError, Error, Expander, NoExpand, ParseError, Regex,
    RegexBuilder, RegexInput, RegexOptionsBuilder, Replacer, RuntimeError,
};
use std::borrow::Cow;
use std::sync::Arc;
use std::thread;

fn regex(pattern: &str) -> Regex {
    Regex::new(pattern).unwrap()
}

fn spans(pattern: &str, text: &str) -> Vec<(usize, usize)> {
    regex(pattern)
        .find_iter(text)
        .map(|found| found.map(|it| (it.start(), it.end())).unwrap())
        .collect()
}

#[test]
fn searches() {
    let date = regex(r"(?<year>\d{4})-(\d\d)");
    let text = "xx abé 2026-11";
    assert!(date.is_match(text).unwrap());
    assert!(!date.is_match("2026").unwrap());
    let found = date.find(text).unwrap().unwrap();
    assert_eq!((found.start(), found.end(), found.as_str()), (8, 15, "2026-11"));
    assert!(date.find_from_pos(text, 9).unwrap().is_none());
    assert!(date.find_from_pos(text, 99).unwrap().is_none());
    let within = RegexInput::new(text).range(0..12);
    assert!(date.find_input(within).unwrap().is_none());
    let anchored = RegexInput::new(text).from_pos(8).anchored(true);
    assert!(date.is_match_input(anchored).unwrap());
    assert_eq!(date.as_str(), r"(?<year>\d{4})-(\d\d)");
    assert_eq!(date.to_string(), date.as_str());
}

#[test]
#[should_panic(expected = "character boundaries")]
fn a_start_inside_a_character() {
    let _ = regex("a").find_from_pos("é", 1);
}

#[test]
fn groups() {
    let pair = regex("(?<a>x)(y)?");
    let captures = pair.captures("wx").unwrap().unwrap();
    assert_eq!(captures.len(), 3);
    assert_eq!(captures.get(1).unwrap().range(), 1..2);
    assert!(captures.get(2).is_none() && captures.get(9).is_none());
    assert_eq!(captures.name("a").unwrap().as_str(), "x");
    assert!(captures.name("b").is_none());
    assert_eq!((&captures[0], &captures["a"]), ("x", "x"));
    assert_eq!(captures.iter().flatten().count(), 2);
    assert_eq!(pair.capture_names().collect::<Vec<_>>(), [None, Some("a"), None]);
    assert_eq!(regex("(?<a>x)(?<a>y)").captures("xy").unwrap().unwrap().name("a").unwrap().range(), 1..2);
}

#[test]
fn lists() {
    assert_eq!(spans("a*", "baab"), [(0, 0), (1, 3), (4, 4)]);
    assert_eq!(spans("", "aé"), [(0, 0), (1, 1), (3, 3)]);
    assert_eq!(spans(r"\Ga", "aab"), [(0, 1), (1, 2)]);
    assert_eq!(spans(r"\G(?:a\K|b)", "aab"), [(1, 1), (2, 3)]);
    let long = "ab ".repeat(5000);
    assert_eq!(spans(r"\w+", &long).len(), 5000);
    let pairs = regex("a(b)?");
    let all: Vec<_> = pairs
        .captures_iter("aab")
        .map(|it| it.unwrap().get(1).map(|group| group.range()))
        .collect();
    assert_eq!(all, [None, Some(2..3)]);
    let letters = regex("a|ab");
    let mut matches = letters.find_iter("xabab");
    assert_eq!(matches.input().start(), 0);
    assert_eq!(matches.next().unwrap().unwrap().range(), 1..2);
    assert_eq!(matches.input().start(), 2);
    assert_eq!(matches.text(), "xabab");
}

/// A list of more matches than one call gives has each of them, with the right ones passed over, wherever a call ends.
#[test]
fn long_lists_of_empty_matches() {
    let text = "aab".repeat(3000);
    let mut wanted = Vec::new();
    for at in (0..9000).step_by(3) {
        // the empty match after "aa", before the b, is passed over
        wanted.push((at, at + 2));
    }
    wanted.push((9000, 9000));
    assert_eq!(spans("a*", &text), wanted);
}

#[test]
fn pieces() {
    let comma = regex(",");
    let all: Result<Vec<_>, _> = comma.split("1,,2").collect();
    assert_eq!(all.unwrap(), ["1", "", "2"]);
    let two: Result<Vec<_>, _> = comma.splitn("1,,2", 2).collect();
    assert_eq!(two.unwrap(), ["1", ",2"]);
    assert_eq!(comma.splitn("1,2", 0).count(), 0);
    let empty: Result<Vec<_>, _> = regex("").split("12").collect();
    assert_eq!(empty.unwrap(), ["", "1", "2", ""]);
}

#[test]
fn replaced() {
    let pair = regex(r"(?P<first>\w+)\s+(?P<second>\w+)");
    assert_eq!(pair.replace("deep fried", "${first}_$second"), "deep_fried");
    assert_eq!(pair.replace("deep fried", "$1a"), "");
    let two = regex("aa");
    assert_eq!(two.replace_all("aaaa aaa aa a", "xx"), "xxxx xxa xx a");
    assert_eq!(regex("bla").replacen("blablabla", 2, "foo"), "foofoobla");
    assert!(matches!(two.replace_all("bb", "x"), Cow::Borrowed("bb")));
    assert_eq!(two.replace("aa", NoExpand("$0")), "$0");
    assert_eq!(two.replace_all("aa-aa", |found: &Captures| found[0].to_uppercase()), "AA-AA");
    let mut count = 0;
    let mut counting = |_: &Captures| {
        count += 1;
        count.to_string()
    };
    assert_eq!(two.replace_all("aaaa", counting.by_ref()), "12");
    assert_eq!(two.replace_all("aa", "$0".repeat(100)), "aa".repeat(100));
}

#[test]
fn templates() {
    let names = regex("(?<x>b)");
    let captures = names.captures("abc").unwrap().unwrap();
    let dollar = Expander::default();
    assert_eq!(dollar.expansion("<${1}a>$$ $x ${1", &captures), "<ba>$ b ${1");
    assert_eq!(Expander::python().expansion(r"\1\g<x>\\y", &captures), r"bb\y");
    assert_eq!(dollar.escape("a $"), "a $$");
    assert!(dollar.check("$x $0 $$", &names).is_ok());
    assert!(matches!(dollar.check("$1", &names), Err(Error::CompileError(kind)) if *kind == CompileError::NamedBackrefOnly));
    assert!(matches!(dollar.check("$", &names), Err(Error::ParseError(0, ParseError::GeneralParseError(_)))));
    assert!(matches!(dollar.check("$2", &regex("(a)")), Err(Error::CompileError(kind)) if *kind == CompileError::InvalidBackref(2)));
}

#[test]
fn refused() {
    assert!(matches!(Regex::new("(?:a"), Err(Error::ParseError(4, ParseError::UnclosedOpenParen))));
    assert!(matches!(Regex::new(r"a\q"), Err(Error::ParseError(_, ParseError::InvalidEscape(_)))));
    assert!(matches!(Regex::new(r"(a)\2"), Err(Error::CompileError(kind)) if *kind == CompileError::InvalidBackref(2)));
    assert!(matches!(Regex::new(r"\k<day>"), Err(Error::CompileError(kind)) if *kind == CompileError::InvalidGroupNameBackref("day".into())));
    let limited = RegexBuilder::new(r"(?:(a|aa)+)\1$b").backtrack_limit(2).build().unwrap();
    assert!(matches!(limited.is_match("aaaaaaaa"), Err(Error::RuntimeError(RuntimeError::BacktrackLimitExceeded))));
    let mut all = limited.find_iter("aaaaaaaa");
    assert!(all.next().unwrap().is_err());
    assert!(all.next().is_none());
}

#[test]
fn options() {
    assert!(RegexBuilder::new("STOP").case_insensitive(true).build().unwrap().is_match("stop").unwrap());
    let bytes = RegexOptionsBuilder::new().bytes_mode(BytesMode::Ascii).build(r"\xFF.".into()).unwrap();
    let found = bytes.find(&b"a\xFF\x80"[..]).unwrap().unwrap();
    assert_eq!(found.as_bytes(), b"\xFF\x80");
    let whole = RegexBuilder::new("^a$").allow_input_assertion_overrides(true).build().unwrap();
    assert!(!whole.is_match_input(RegexInput::new("a").start_text(false)).unwrap());
    assert!(regex("^a$").is_match_input(RegexInput::new("a").start_text(false)).unwrap());
}

#[test]
fn escaped() {
    assert_eq!(escape("1.5$"), r"1\.5\$");
    assert!(matches!(escape("@foo"), Cow::Borrowed("@foo")));
}

/// One regex, asked by many threads at once, answers each of them.
#[test]
fn threads() {
    let shared = Arc::new(regex(r"(\w)\1"));
    let threads: Vec<_> = (0..8)
        .map(|number| {
            let shared = Arc::clone(&shared);
            thread::spawn(move || {
                for round in 0..500 {
                    let text = format!("{}aa", "xy".repeat((number + round) % 20));
                    let found = shared.find(&text).unwrap().unwrap();
                    assert_eq!(found.range(), text.len() - 2..text.len());
                }
            })
        })
        .collect();
    for _ in 0..500 {
        assert!(shared.is_match("aa").unwrap());
    }
    for thread in threads {
        thread.join().unwrap();
    }
}
