//! Templates.
use crate::captures::Captures;
use crate::error::{CompileError, ParseError};
use crate::regex::Regex;
use crate::{Error, Result};
use std::borrow::Cow;
use std::io;

/// Expands templates: texts in which a substitution character is before the name or the number of a group.
#[derive(Debug)]
pub struct Expander {
    mark: char,
    opening: &'static str,
    closing: &'static str,
    undelimited: bool,
}

impl Default for Expander {
    fn default() -> Self {
        Expander {
            mark: '$',
            opening: "{",
            closing: "}",
            undelimited: true,
        }
    }
}

/// What a template says at one place.
enum Step<'a> {
    Char(char),
    Name(&'a str),
    Number(usize),
    /// A mark that begins nothing.
    Mark,
}

/// The part of the text up to the first character that no name has.
fn name_at(text: &str) -> &str {
    let end = text
        .find(|c: char| !(c.is_alphanumeric() || c == '_'))
        .unwrap_or(text.len());
    &text[..end]
}

impl Expander {
    /// The expander for templates as Python writes them.
    pub fn python() -> Expander {
        Expander {
            mark: '\\',
            opening: "g<",
            closing: ">",
            undelimited: false,
        }
    }

    /// A name between its delimiters at the start of the text, and how long it is with them.
    fn delimited<'a>(&self, text: &'a str) -> Option<(&'a str, usize)> {
        let inner = text.strip_prefix(self.opening)?;
        let name = name_at(inner);
        if name.is_empty() || !inner[name.len()..].starts_with(self.closing) {
            return None;
        }
        Some((name, self.opening.len() + name.len() + self.closing.len()))
    }

    /// The step that is after a mark, and how long it is.
    fn after_mark<'a>(&self, text: &'a str) -> (Step<'a>, usize) {
        if text.starts_with(self.mark) {
            return (Step::Char(self.mark), self.mark.len_utf8());
        }
        if let Some((name, length)) = self.delimited(text) {
            return (Step::Name(name), length);
        }
        let name = name_at(text);
        if self.undelimited && !name.is_empty() {
            return (Step::Name(name), name.len());
        }
        let digits = text.find(|c: char| !c.is_ascii_digit()).unwrap_or(text.len());
        match text[..digits].parse() {
            Ok(number) => (Step::Number(number), digits),
            Err(_) => (Step::Mark, 0),
        }
    }

    fn steps<'a, E>(
        &self,
        template: &'a str,
        mut take: impl FnMut(Step<'a>) -> std::result::Result<(), E>,
    ) -> std::result::Result<(), E> {
        let mut rest = template;
        while let Some(c) = rest.chars().next() {
            rest = &rest[c.len_utf8()..];
            if c != self.mark {
                take(Step::Char(c))?;
                continue;
            }
            let (step, length) = self.after_mark(rest);
            take(step)?;
            rest = &rest[length..];
        }
        Ok(())
    }

    /// Whether each group that the template names is there.
    ///
    /// # Errors
    ///
    /// The first thing that is wrong.
    pub fn check(&self, template: &str, regex: &Regex) -> Result<()> {
        let has_names = regex.capture_names().any(|name| name.is_some());
        let number_is_there = |number: usize| {
            if number == 0 {
                Ok(())
            } else if has_names {
                Err(Error::from(CompileError::NamedBackrefOnly))
            } else if number < regex.captures_len() {
                Ok(())
            } else {
                Err(Error::from(CompileError::InvalidBackref(number)))
            }
        };
        self.steps(template, |step| match step {
            Step::Char(_) => Ok(()),
            Step::Number(number) => number_is_there(number),
            Step::Name(name) if regex.inner.number_of(name).is_some() => Ok(()),
            Step::Name(name) => match name.parse() {
                Ok(number) => number_is_there(number),
                Err(_) => {
                    Err(CompileError::InvalidGroupNameBackref(name.to_string()).into())
                }
            },
            Step::Mark => Err(Error::ParseError(
                0,
                ParseError::GeneralParseError("parse error in template while expanding".to_string()),
            )),
        })
    }

    /// The text as a template that expands to it.
    pub fn escape<'a>(&self, text: &'a str) -> Cow<'a, str> {
        if !text.contains(self.mark) {
            return Cow::Borrowed(text);
        }
        let twice: String = [self.mark, self.mark].iter().collect();
        Cow::Owned(text.replace(self.mark, &twice))
    }

    /// The same as [`Expander::escape`].
    #[doc(hidden)]
    #[deprecated(since = "0.4.0", note = "Use `escape` instead.")]
    pub fn quote<'a>(&self, text: &'a str) -> Cow<'a, str> {
        self.escape(text)
    }

    /// What the template expands to.
    pub fn expansion(&self, template: &str, captures: &Captures<'_, str>) -> String {
        let mut text = String::with_capacity(template.len());
        self.append_expansion(&mut text, template, captures);
        text
    }

    /// Appends what the template expands to.
    pub fn append_expansion(&self, dst: &mut String, template: &str, captures: &Captures<'_, str>) {
        let done: std::result::Result<(), std::convert::Infallible> =
            self.steps(template, |step| {
                match self.text_of(&step, captures) {
                    Ok(text) => dst.push_str(text),
                    Err(c) => dst.push(c),
                }
                Ok(())
            });
        match done {
            Ok(()) => {}
            Err(never) => match never {},
        }
    }

    /// Writes what the template expands to.
    ///
    /// # Errors
    ///
    /// The writer's.
    pub fn write_expansion(
        &self,
        mut dst: impl io::Write,
        template: &str,
        captures: &Captures<'_, str>,
    ) -> io::Result<()> {
        self.steps(template, |step| match self.text_of(&step, captures) {
            Ok(text) => dst.write_all(text.as_bytes()),
            Err(c) => write!(dst, "{c}"),
        })
    }

    /// Appends the bytes of what the template expands to.
    ///
    /// # Errors
    ///
    /// Never.
    pub fn write_expansion_vec(
        &self,
        dst: &mut Vec<u8>,
        template: &str,
        captures: &Captures<'_, str>,
    ) -> std::fmt::Result {
        dst.extend(self.expansion(template, captures).as_bytes());
        Ok(())
    }

    /// What a step expands to: a text of the match, or a character.
    fn text_of<'t>(
        &self,
        step: &Step<'_>,
        captures: &Captures<'t, str>,
    ) -> std::result::Result<&'t str, char> {
        let group = match step {
            Step::Char(c) => return Err(*c),
            Step::Mark => return Err(self.mark),
            Step::Number(number) => captures.get(*number),
            Step::Name(name) => captures
                .name(name)
                .or_else(|| captures.get(name.parse().ok()?)),
        };
        Ok(group.map_or("", |found| found.as_str()))
    }
}
