//! What matches are replaced by.
use crate::captures::Captures;
use std::borrow::Cow;

/// What the library can replace by without a call for each match.
#[doc(hidden)]
#[derive(Debug)]
pub enum Whole<'r> {
    /// A template.
    Template(&'r str),
    /// A text as it is.
    Literal(&'r str),
    /// Nothing: the replacer is called.
    Called,
}

/// Gives the text that a match is replaced by.
pub trait Replacer {
    /// Appends that text.
    fn replace_append(&mut self, caps: &Captures<'_, str>, dst: &mut String);

    /// The one text for all matches, if there is one.
    fn no_expansion(&mut self) -> Option<Cow<'_, str>> {
        None
    }

    /// What the library can replace by.
    #[doc(hidden)]
    fn whole(&self) -> Whole<'_> {
        Whole::Called
    }

    /// A replacer that lends this one.
    fn by_ref(&mut self) -> ReplacerRef<'_, Self> {
        ReplacerRef(self)
    }
}

/// A replacer that is lent; made by [`Replacer::by_ref`].
#[derive(Debug)]
pub struct ReplacerRef<'a, R: ?Sized>(&'a mut R);

impl<'a, R: Replacer + ?Sized + 'a> Replacer for ReplacerRef<'a, R> {
    fn replace_append(&mut self, caps: &Captures<'_, str>, dst: &mut String) {
        self.0.replace_append(caps, dst)
    }

    fn no_expansion(&mut self) -> Option<Cow<'_, str>> {
        self.0.no_expansion()
    }

    fn whole(&self) -> Whole<'_> {
        self.0.whole()
    }
}

macro_rules! template_replacer {
    ($($form:ty),*) => {$(
        impl Replacer for $form {
            fn replace_append(&mut self, caps: &Captures<'_, str>, dst: &mut String) {
                caps.expand(self, dst);
            }

            fn no_expansion(&mut self) -> Option<Cow<'_, str>> {
                let template: &str = self;
                (!template.contains('$')).then(|| Cow::Borrowed(template))
            }

            fn whole(&self) -> Whole<'_> {
                Whole::Template(self)
            }
        }
    )*};
}

template_replacer!(&str, &String, String, Cow<'_, str>, &Cow<'_, str>);

impl<F, T> Replacer for F
where
    F: FnMut(&Captures<'_, str>) -> T,
    T: AsRef<str>,
{
    fn replace_append(&mut self, caps: &Captures<'_, str>, dst: &mut String) {
        dst.push_str((*self)(caps).as_ref());
    }
}

/// A text that is taken as it is.
#[derive(Clone, Debug)]
pub struct NoExpand<'t>(pub &'t str);

impl Replacer for NoExpand<'_> {
    fn replace_append(&mut self, _: &Captures<'_, str>, dst: &mut String) {
        dst.push_str(self.0);
    }

    fn no_expansion(&mut self) -> Option<Cow<'_, str>> {
        Some(Cow::Borrowed(self.0))
    }

    fn whole(&self) -> Whole<'_> {
        Whole::Literal(self.0)
    }
}
