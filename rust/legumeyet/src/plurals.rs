//! Plural rules.

use crate::facts::Fact;
use crate::formatters::{opened_by, writes};
use crate::number::Of;
use crate::options::{words_of, Words, OWN};
use crate::owned::{Owned, Shared};
use crate::{sys, Book, Error, Format, Number, Options, PluralRuleType, UnknownWord};
use std::fmt;
use std::str::FromStr;

/// A plural category: languages have other words for numbers of another one. `Display` writes its word, and `FromStr` reads it.
#[derive(Clone, Copy, Debug, PartialEq, Eq, PartialOrd, Ord, Hash)]
pub enum PluralCategory {
    /// `zero`.
    Zero,
    /// `one`.
    One,
    /// `two`.
    Two,
    /// `few`.
    Few,
    /// `many`.
    Many,
    /// `other`, which each language has.
    Other,
}

impl PluralCategory {
    /// All, in their order.
    pub const ALL: [PluralCategory; 6] = [Self::Zero, Self::One, Self::Two, Self::Few, Self::Many, Self::Other];

    /// Its word, as message formats have it.
    ///
    /// # Examples
    ///
    /// ```
    /// assert_eq!(legumeyet::PluralCategory::Few.as_str(), "few");
    /// assert_eq!("few".parse(), Ok(legumeyet::PluralCategory::Few));
    /// ```
    #[must_use]
    pub const fn as_str(self) -> &'static str {
        match self {
            PluralCategory::Zero => "zero",
            PluralCategory::One => "one",
            PluralCategory::Two => "two",
            PluralCategory::Few => "few",
            PluralCategory::Many => "many",
            PluralCategory::Other => "other",
        }
    }

    /// The category whose word a call writes.
    fn written(call: impl FnOnce(*mut u8, usize, *mut usize) -> i32) -> Result<PluralCategory, Error> {
        let (mut word, mut length) = ([0; 8], 0);
        Error::check(call(word.as_mut_ptr(), word.len(), &mut length))?;
        let known = PluralCategory::ALL.into_iter().find(|it| it.as_str().as_bytes() == &word[..length]);
        Ok(known.expect("the library writes the word of a category"))
    }
}

impl fmt::Display for PluralCategory {
    fn fmt(&self, out: &mut fmt::Formatter<'_>) -> fmt::Result {
        out.pad(self.as_str())
    }
}

impl FromStr for PluralCategory {
    type Err = UnknownWord;

    fn from_str(word: &str) -> Result<PluralCategory, UnknownWord> {
        PluralCategory::ALL.into_iter().find(|it| it.as_str() == word).ok_or(UnknownWord)
    }
}

/// The plural rules of a locale tag: they tell which category a number has as it is shown. They may outlive their book.
///
/// How a number is shown the options say, and the format: `1` is `one` in English, and `1.0` is `other`.
///
/// # Examples
///
/// ```
/// use legumeyet::{Format, Options, PluralCategory, PluralRuleType, PluralRules, Width};
///
/// let polish = PluralRules::new(None, "pl", PluralRuleType::Cardinal, None)?;
/// assert_eq!(polish.category_for(1)?, PluralCategory::One);
/// assert_eq!(polish.category_for(22)?, PluralCategory::Few);
/// assert_eq!(polish.category_for("1.0")?, PluralCategory::Other);
/// assert_eq!(polish.category_for_range(1, 5)?.as_str(), "many");
/// assert!(polish.categories().map(PluralCategory::as_str).eq(["one", "few", "many", "other"]));
/// let english = PluralRules::new(None, "en", PluralRuleType::Ordinal, None)?;
/// assert_eq!(english.category_for(22)?, PluralCategory::Two);
/// let tenths = Options::default().minimum_fraction_digits(1);
/// assert_eq!(PluralRules::new(None, "en", PluralRuleType::Cardinal, &tenths)?.category_for(1)?, PluralCategory::Other);
/// let short = PluralRules::with_format(None, "fr", PluralRuleType::Cardinal, &Format::compact(Width::Short), None)?;
/// assert_eq!(short.category_for(1_200_000)?, PluralCategory::Many);
/// # Ok::<(), legumeyet::Error>(())
/// ```
///
/// They may move to another thread, and are used by one thread at a time:
///
/// ```compile_fail
/// fn is_shared<T: Sync>() {}
/// is_shared::<legumeyet::PluralRules>();
/// ```
#[derive(Debug)]
pub struct PluralRules(Owned, Known);

/// Plural rules that any number of threads use at once: what [`PluralRules::share`] makes, with its calls.
#[derive(Clone, Copy, Debug)]
pub struct SharedPluralRules(Shared, Known);

/// The options of rules, and a bit for each of their categories.
#[derive(Clone, Copy, Debug)]
struct Known {
    options: Words,
    categories: u8,
}

/// What rules tell by the functions of a module of `sys`.
macro_rules! selects {
    ($type:ident: $of:ident) => {
        writes!($type: $of);

        impl $type {
            /// The category of a number.
            ///
            /// # Errors
            ///
            /// [`Error::NUMBER`], [`Error::LIMIT`], [`Error::RANGE`] of a compact or scientific number, [`Error::OPTION`] or [`Error::MEMORY`].
            pub fn category_for<'a>(&self, number: impl Into<Number<'a>>) -> Result<PluralCategory, Error> {
                let number = number.into();
                PluralCategory::written(|out, room, length| self.call(&number, &self.1.options, out, room, length))
            }

            /// The category of the range from one number to another, as `1–2`, by those of both.
            ///
            /// # Errors
            ///
            /// As of [`Self::category_for`].
            pub fn category_for_range<'a>(
                &self,
                start: impl Into<Number<'a>>,
                end: impl Into<Number<'a>>,
            ) -> Result<PluralCategory, Error> {
                let (start, end, (words, count)) = (start.into(), end.into(), &self.1.options);
                let (start, end) = (start.digits(), end.digits());
                let (first, second, words) = (start.as_ptr(), end.as_ptr(), words.as_ptr());
                // SAFETY: as for `call`.
                PluralCategory::written(|out, room, length| unsafe {
                    sys::$of::format_range(self.0.at(), first, start.len(), second, end.len(), words, *count, out, room, length)
                })
            }

            /// The categories that numbers may have, in their order: `one` and `other` in English.
            pub fn categories(&self) -> impl Iterator<Item = PluralCategory> {
                let all = self.1.categories;
                PluralCategory::ALL.into_iter().filter(move |it| all >> *it as u8 & 1 == 1)
            }
        }
    };
}

selects!(PluralRules: owned);
selects!(SharedPluralRules: shared);

impl PluralRules {
    /// The rules of a tag. `None` in place of a book is the world's, as of [`NumberFormatter::new`](crate::NumberFormatter::new), and in place of
    /// options those by which a number stays as it is.
    ///
    /// # Errors
    ///
    /// [`Error::TAG`], [`Error::TABLE`] or [`Error::MEMORY`].
    pub fn new<'a>(
        book: impl Into<Option<&'a Book>>,
        tag: &str,
        rule_type: PluralRuleType,
        options: impl Into<Option<&'a Options>>,
    ) -> Result<PluralRules, Error> {
        PluralRules::with_format(book, tag, rule_type, &Format::default(), options)
    }

    /// The same of numbers in a format: of compact or scientific ones, or of amounts, which have the digits of their currency.
    ///
    /// # Errors
    ///
    /// As of [`Self::new`], and [`Error::CODE`].
    pub fn with_format<'a>(
        book: impl Into<Option<&'a Book>>,
        tag: &str,
        rule_type: PluralRuleType,
        format: &Format<'_>,
        options: impl Into<Option<&'a Options>>,
    ) -> Result<PluralRules, Error> {
        let (mut words, code) = format.words();
        words[6] = rule_type as i32;
        let rules = opened_by(book.into(), tag, (words, code))?;
        // SAFETY: no other call has the handle, and the memory is as long as it says.
        let said = Fact::Categories
            .told(|fact, out, room, length| unsafe { sys::legumeyet_formatter_tell(rules.at(), fact, out, room, length) })?;
        let categories = said.split(' ').flat_map(PluralCategory::from_str).fold(0, |all, it| all | 1 << it as u8);
        Ok(PluralRules(rules, Known { options: options.into().map_or(OWN, words_of), categories }))
    }

    /// Shares the rules: any number of threads use them at once, and they stay for the rest of the program.
    #[must_use = "they stay for the rest of the program"]
    pub fn share(self) -> SharedPluralRules {
        SharedPluralRules(Shared::of(&self.0), self.1)
    }
}
