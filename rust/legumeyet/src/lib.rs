#![doc = include_str!("../README.md")]
#![warn(missing_docs, missing_debug_implementations, clippy::missing_errors_doc, clippy::missing_panics_doc)]

mod answers;
mod column;
mod error;
mod facts;
mod formatters;
mod number;
mod options;
mod owned;
mod plurals;
mod sys;
mod world;

pub use answers::Answers;
pub use column::{Column, ColumnError, Texts};
pub use error::{Error, OpenError, SkeletonError, UnknownWord, WriteError};
pub use facts::{CurrencyDigits, Symbols};
pub use formatters::{
    normal_skeleton, CompactDecimalFormatter, CurrencyFormatter, DecimalFormatter, NumberFormatter, PercentFormatter,
    SharedCompactDecimalFormatter, SharedCurrencyFormatter, SharedDecimalFormatter, SharedNumberFormatter, SharedPercentFormatter,
};
pub use number::Number;
pub use options::{
    CurrencyOptions, CurrencyStyle, CurrencyWidth, Format, Grouping, Increment, Kind, Notation, Options, PluralRuleType, Rounding,
    RoundingPriority, Sign, TrailingZeros, Unit, Width,
};
pub use plurals::{PluralCategory, PluralRules, SharedPluralRules};
pub use world::{tag_of_locale_name, world_locales};

use std::fs;
use std::ops::Range;
use std::path::Path;
use std::str::FromStr;

use owned::{written, Owned};

/// The parts of a text, by bytes, in order of their beginning.
pub type Parts = Vec<(Kind, Range<usize>)>;

/// A book of tables.
///
/// # Examples
///
/// ```
/// use legumeyet::{Book, DecimalFormatter, Error, Grouping};
///
/// let world = Book::world()?;
/// let german = DecimalFormatter::from_book(&world, "de", Grouping::Never)?;
/// assert_eq!(german.format(1234.5)?, "1234,5");
/// assert_eq!(world.answer(b"de\tplain\tauto\tkeep\t-\t1234.5")?, "ok\t1.234,5");
/// let own = Book::from_json(br#"[[["en","","latn","-","","+","",".",",",3,3,1]],[["latn","0123456789"]],[],[],[]]"#)?;
/// assert_eq!(own.locales()?, ["en"]);
/// assert_eq!(DecimalFormatter::from_book(&own, "de", Grouping::Auto).unwrap_err(), Error::TABLE);
/// # Ok::<(), Error>(())
/// ```
#[derive(Debug)]
pub struct Book(Owned);

impl Book {
    /// The world's book, which is in the library: `world_locales` lists its locales.
    ///
    /// # Errors
    ///
    /// [`Error::MEMORY`].
    pub fn world() -> Result<Book, Error> {
        // SAFETY: `open` passes a closed handle.
        Owned::open(sys::legumeyet_book_close, |book| unsafe { sys::legumeyet_book_open_world(book) }).map(Book)
    }

    /// The book that a file is.
    ///
    /// # Errors
    ///
    /// [`OpenError::File`] where the file cannot be read, else [`OpenError::Book`] as of [`Book::from_json`].
    pub fn open(path: impl AsRef<Path>) -> Result<Book, OpenError> {
        Ok(Book::from_json(&fs::read(path)?)?)
    }

    /// The book that a JSON text is.
    ///
    /// # Errors
    ///
    /// One of the errors of a book, 101 to 114, or [`Error::MEMORY`].
    pub fn from_json(json: &[u8]) -> Result<Book, Error> {
        // SAFETY: a slice is memory of its length, and `open` passes a closed handle.
        Owned::open(sys::legumeyet_book_close, |book| unsafe { sys::legumeyet_book_open(json.as_ptr(), json.len(), book) }).map(Book)
    }

    /// Keeps the book for the rest of the program: its memory is never given back, not even where the book is dropped. Formatters that are
    /// opened from it afterwards borrow its tables: they are opened sooner and hold less memory.
    ///
    /// # Errors
    ///
    /// [`Error::MEMORY`].
    pub fn keep(&self) -> Result<(), Error> {
        // SAFETY: no other call has the handle.
        Error::check(unsafe { sys::legumeyet_book_keep(self.0.at()) })
    }

    /// The answer to a request line, without its line feed: `ok`, a tab and a text, or `err`, a tab and a word.
    ///
    /// # Errors
    ///
    /// [`Error::MEMORY`].
    pub fn answer(&self, line: &[u8]) -> Result<String, Error> {
        // SAFETY: a slice is memory of its length, and no other call has the handle.
        written(|out, room, length| unsafe { sys::legumeyet_book_answer(self.0.at(), line.as_ptr(), line.len(), out, room, length) })
    }

    /// The tag of the locale whose symbols the book has for a tag: of the world's book `de` for `de-XX`, which falls back to it, and `de-AT` for
    /// `de-AT`.
    ///
    /// # Errors
    ///
    /// [`Error::TAG`], [`Error::TABLE`], [`Error::MEMORY`].
    pub fn found_locale(&self, tag: &str) -> Result<String, Error> {
        // SAFETY: a text is memory of its length, and no other call has the handle.
        written(|out, room, length| unsafe { sys::legumeyet_book_found_locale(self.0.at(), tag.as_ptr(), tag.len(), out, room, length) })
    }

    /// The tags of the locales that the book has symbols of, in its order. Others have the tables of their parents: of the world's book
    /// `world_locales` lists all.
    ///
    /// # Errors
    ///
    /// [`Error::MEMORY`].
    pub fn locales(&self) -> Result<Vec<String>, Error> {
        let mut count = 0;
        // SAFETY: no other call has the handle.
        Error::check(unsafe { sys::legumeyet_book_locale_count(self.0.at(), &mut count) })?;
        // SAFETY: the same, and `written` passes memory that is as long as it says.
        let tag_at = |at| written(|out, room, length| unsafe { sys::legumeyet_book_locale(self.0.at(), at, out, room, length) });
        (0..count).map(tag_at).collect()
    }
}

/// The book that a JSON text is, as of `from_json`.
impl FromStr for Book {
    type Err = Error;

    fn from_str(json: &str) -> Result<Book, Error> {
        Book::from_json(json.as_bytes())
    }
}

/// The version of the library.
#[must_use]
pub fn version() -> u32 {
    // SAFETY: it reads nothing.
    unsafe { sys::legumeyet_version() }
}

/// The minor version of the library, which rises when something is added.
#[must_use]
pub fn minor() -> u32 {
    // SAFETY: it reads nothing.
    unsafe { sys::legumeyet_minor() }
}
