use crate::{owned::written, sys};
use std::{fmt, io};

/// Why a call was refused: its number, as legumeyet.h has it. `Display` says it in English.
///
/// # Examples
///
/// ```
/// let error = legumeyet::Book::from_json(b"[]").unwrap_err();
/// assert_eq!(error, legumeyet::Error::BOOK_SHAPE);
/// assert_eq!(error.number(), 102);
/// ```
#[derive(Clone, Copy, PartialEq, Eq, Hash)]
pub struct Error(i32);

impl Error {
    /// Memory was refused.
    pub const MEMORY: Error = Error(1);
    /// A least count of digits is above 32767, or the capacity of answers is 0.
    pub const OPTION: Error = Error(4);
    /// The text is no locale tag, as `e`, or as `de_DE`, which is written `de-DE`: `tag_of_locale_name`.
    pub const TAG: Error = Error(5);
    /// The book lacks a table for the tag, or compact or scientific numbers with a unit are asked for.
    pub const TABLE: Error = Error(6);
    /// The text is no decimal number.
    pub const NUMBER: Error = Error(7);
    /// A digit of the number is beyond the magnitudes -32768 to 32767.
    pub const LIMIT: Error = Error(8);
    /// A digit of what is shown, compact or scientific, or of an exact form, is beyond the magnitudes -32768 to 32767.
    pub const RANGE: Error = Error(9);
    /// Two numbers may have one text: under the symbols, or since they are compact. People type no scientific number.
    pub const UNREADABLE: Error = Error(11);
    /// No number is written so.
    pub const NOT_WRITTEN: Error = Error(12);
    /// Numbers of the magnitude of an exact form have another exponent, as scientific ones always have.
    pub const EXPONENT: Error = Error(13);
    /// The text is no code of a currency, which is three capitals, as `eur`.
    pub const CODE: Error = Error(14);
    /// The book is not kept: `Book::keep`.
    pub const UNKEPT: Error = Error(15);
    /// The bytes are no JSON.
    pub const BOOK_JSON: Error = Error(101);
    /// The value is no book of arrays, nor a pair of one and of units, or an entry has not its form.
    pub const BOOK_SHAPE: Error = Error(102);
    /// A locale, or the parent of one, is refused.
    pub const BOOK_TAG: Error = Error(103);
    /// A name of a numbering system is not 3 to 8 lower-case letters and digits.
    pub const BOOK_SYSTEM: Error = Error(104);
    /// A tab or a line feed is in the text of a symbol or a pattern.
    pub const BOOK_TEXT: Error = Error(105);
    /// The digits of a system are not ten characters, or a tab or a line feed is among them.
    pub const BOOK_DIGITS: Error = Error(106);
    /// The condition of a plural category is not one.
    pub const BOOK_CONDITION: Error = Error(107);
    /// The types of patterns do not rise.
    pub const BOOK_TYPES: Error = Error(108);
    /// An exponent of patterns falls, is above its type, or is too far below it.
    pub const BOOK_EXPONENTS: Error = Error(109);
    /// An earlier entry of the array has the same key.
    pub const BOOK_DUPLICATE: Error = Error(110);
    /// The parents of a locale lead back to it.
    pub const BOOK_CYCLE: Error = Error(111);
    /// The place of the unit is not once in a pattern.
    pub const BOOK_UNIT: Error = Error(113);
    /// The code of a currency is not three capitals.
    pub const BOOK_CODE: Error = Error(114);
    /// A word is none of a skeleton, as `foo`.
    pub const SKELETON_UNKNOWN: Error = Error(201);
    /// A word sets what another one has set, as the second of `percent currency/EUR`.
    pub const SKELETON_TWICE: Error = Error(202);
    /// What follows `currency/` is no code of a currency, as in `currency/EURO`.
    pub const SKELETON_CODE: Error = Error(203);
    /// A word is for amounts of money, and there is no currency, as `sign-accounting` alone.
    pub const SKELETON_PAIR: Error = Error(204);
    /// A word names a numbering system, which the tag has, as `latin`.
    pub const SKELETON_SYSTEM: Error = Error(205);
    /// A word, or what it says beside another one, is not written yet: `scale/100`.
    pub const SKELETON_LATER: Error = Error(206);
    /// A word asks for what is not written here, as `decimal-always`.
    pub const SKELETON_UNSUPPORTED: Error = Error(207);

    /// The number, 1 to 99 of a call, 100 and more of a book, 200 and more of a skeleton.
    #[must_use]
    pub fn number(self) -> i32 {
        self.0
    }

    /// Nothing where a call answered 0, else its error.
    pub(crate) fn check(number: i32) -> Result<(), Error> {
        if number == sys::OK {
            Ok(())
        } else {
            Err(Error(number))
        }
    }
}

impl fmt::Display for Error {
    fn fmt(&self, out: &mut fmt::Formatter<'_>) -> fmt::Result {
        // SAFETY: `written` passes memory that is as long as it says.
        let text = written(|at, room, length| unsafe { sys::legumeyet_error_text(self.0, at, room, length) });
        let text = text.as_deref().unwrap_or("an error of another version");
        if *self == Error::TAG {
            return out.pad(&format!("{text} (`de_DE` is written `de-DE`)"));
        }
        out.pad(text)
    }
}

impl fmt::Debug for Error {
    fn fmt(&self, out: &mut fmt::Formatter<'_>) -> fmt::Result {
        write!(out, "Error({}: {self})", self.0)
    }
}

impl std::error::Error for Error {}

/// What an error of two kinds says, and how it is made of either.
macro_rules! either {
    ($type:ident: $($kind:ident($error:ty)),*) => {
        impl fmt::Display for $type {
            fn fmt(&self, out: &mut fmt::Formatter<'_>) -> fmt::Result {
                match self {
                    $($type::$kind(error) => error.fmt(out),)*
                }
            }
        }

        impl std::error::Error for $type {}

        $(impl From<$error> for $type {
            fn from(error: $error) -> $type {
                $type::$kind(error)
            }
        })*
    };
}

/// Why nothing was written.
#[derive(Clone, Copy, Debug, PartialEq, Eq)]
#[non_exhaustive]
pub enum WriteError {
    /// The number is refused.
    Number(Error),
    /// What takes the text failed.
    Write(fmt::Error),
}

either!(WriteError: Number(Error), Write(fmt::Error));

/// So that `?` ends a `Display`, which cannot say why.
impl From<WriteError> for fmt::Error {
    fn from(_: WriteError) -> fmt::Error {
        fmt::Error
    }
}

/// As of a `WriteError`.
impl From<Error> for fmt::Error {
    fn from(_: Error) -> fmt::Error {
        fmt::Error
    }
}

/// Why a skeleton was refused, and where.
///
/// # Examples
///
/// ```
/// use legumeyet::{Error, NumberFormatter};
///
/// let refused = NumberFormatter::skeleton(None, "en", "percent foo").unwrap_err();
/// assert_eq!((refused.error, refused.place), (Error::SKELETON_UNKNOWN, Some(8)));
/// ```
#[derive(Clone, Copy, Debug, PartialEq, Eq)]
#[non_exhaustive]
pub struct SkeletonError {
    /// Why: the fault of the skeleton, or why no formatter was opened.
    pub error: Error,
    /// Where the faulty word of the skeleton begins, in bytes.
    pub place: Option<usize>,
}

impl SkeletonError {
    /// An error with the place that a call wrote, where it is of a skeleton.
    pub(crate) fn at(error: Error, place: usize) -> SkeletonError {
        SkeletonError { error, place: Some(place).filter(|_| error.0 > 200) }
    }
}

impl fmt::Display for SkeletonError {
    fn fmt(&self, out: &mut fmt::Formatter<'_>) -> fmt::Result {
        match self.place {
            Some(place) => out.pad(&format!("{}: the word at {place}", self.error)),
            None => self.error.fmt(out),
        }
    }
}

impl std::error::Error for SkeletonError {}

impl From<Error> for SkeletonError {
    fn from(error: Error) -> SkeletonError {
        SkeletonError { error, place: None }
    }
}

impl From<SkeletonError> for Error {
    fn from(refused: SkeletonError) -> Error {
        refused.error
    }
}

/// A text is the word of no option.
#[derive(Clone, Copy, Debug, PartialEq, Eq)]
pub struct UnknownWord;

impl fmt::Display for UnknownWord {
    fn fmt(&self, out: &mut fmt::Formatter<'_>) -> fmt::Result {
        out.write_str("the word of no option")
    }
}

impl std::error::Error for UnknownWord {}

/// Why no book was opened of a file.
#[derive(Debug)]
#[non_exhaustive]
pub enum OpenError {
    /// The file cannot be read.
    File(io::Error),
    /// Its bytes are no book, or memory was refused.
    Book(Error),
}

either!(OpenError: File(io::Error), Book(Error));
