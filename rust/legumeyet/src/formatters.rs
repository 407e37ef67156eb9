//! The formatters: one handle in C, and a type of each kind over it.

use crate::column::lines_of;
use crate::number::Of;
use crate::options::{words_of, Words, OWN};
use crate::owned::{annotated, written, written_to, Owned, Shared};
use crate::world::opening;
use crate::{
    sys, Book, Column, ColumnError, CurrencyDigits, CurrencyOptions, Error, Format, Grouping, Number, Options, Parts, SkeletonError,
    Symbols, Width, WriteError,
};
use std::fmt;
use std::str::FromStr;

/// The call that writes a number by the functions of a module of `sys`.
macro_rules! writes {
    ($type:ident: $of:ident) => {
        impl $type {
            fn call(&self, number: &Number<'_>, (words, count): &Words, out: *mut u8, room: usize, length: *mut usize) -> i32 {
                let words = words.as_ptr();
                // SAFETY: a text is memory of its length, `out` is memory of `room`, and no other call has a handle that is not shared.
                unsafe {
                    match &number.0 {
                        Of::Integer(it) => sys::$of::format_i64(self.0.at(), *it, 0, words, *count, out, room, length),
                        Of::Digits(it) => sys::$of::format(self.0.at(), it.as_ptr(), it.len(), words, *count, out, room, length),
                    }
                }
            }
        }
    };
}
pub(crate) use writes;

/// What a formatter does by the functions of a module of `sys`. Each call takes options, and without them those of the formatter.
macro_rules! calls {
    ($type:ident: $of:ident) => {
        writes!($type: $of);

        impl $type {
            /// The words of options, or without them those of the formatter.
            fn words(&self, options: Option<&Options>) -> Words {
                options.map_or(self.1, words_of)
            }

            /// The text of a number, by the formatter's own options.
            ///
            /// # Errors
            ///
            /// [`Error::OPTION`], [`Error::NUMBER`], [`Error::LIMIT`], [`Error::RANGE`] of a compact or scientific number, or [`Error::MEMORY`].
            pub fn format<'a>(&self, number: impl Into<Number<'a>>) -> Result<String, Error> {
                self.format_with(number, None)
            }

            /// The text of a number by options, which replace the formatter's own wholly; `None` are these.
            ///
            /// # Errors
            ///
            /// As of [`Self::format`].
            pub fn format_with<'a>(&self, number: impl Into<Number<'a>>, options: impl Into<Option<&'a Options>>) -> Result<String, Error> {
                let (number, options) = (number.into(), self.words(options.into()));
                written(|out, room, length| self.call(&number, &options, out, room, length))
            }

            /// Writes the text of a number into what takes texts, without a text of its own where it has up to 128 bytes.
            ///
            /// # Errors
            ///
            /// [`WriteError::Number`] as of [`Self::format`], or [`WriteError::Write`] where what takes the text fails.
            pub fn write_to<'a>(
                &self,
                into: &mut impl fmt::Write,
                number: impl Into<Number<'a>>,
                options: impl Into<Option<&'a Options>>,
            ) -> Result<(), WriteError> {
                let (number, options) = (number.into(), self.words(options.into()));
                written_to(into, |out, room, length| self.call(&number, &options, out, room, length))
            }

            /// The text of the number `mantissa` times ten to the power `exponent`: 500 and -2 are `5.00`.
            ///
            /// # Errors
            ///
            /// [`Error::OPTION`], [`Error::LIMIT`], [`Error::RANGE`] of a compact or scientific number, or [`Error::MEMORY`].
            pub fn format_i64<'a>(&self, mantissa: i64, exponent: i16, options: impl Into<Option<&'a Options>>) -> Result<String, Error> {
                let (words, count) = self.words(options.into());
                // SAFETY: as for `call`.
                written(|out, room, length| unsafe {
                    sys::$of::format_i64(self.0.at(), mantissa, exponent, words.as_ptr(), count, out, room, length)
                })
            }

            /// The text of a number with its parts, by bytes, in order of their beginning. Those of a compact number are those of its sign.
            ///
            /// # Errors
            ///
            /// As of [`Self::format`].
            pub fn format_parts<'a>(
                &self,
                number: impl Into<Number<'a>>,
                options: impl Into<Option<&'a Options>>,
            ) -> Result<(String, Parts), Error> {
                let (number, (words, count)) = (number.into(), self.words(options.into()));
                let digits = number.digits();
                let (at, len, words) = (digits.as_ptr(), digits.len(), words.as_ptr());
                // SAFETY: as for `call`; the memory for parts has the room that is passed.
                annotated(|out, room, length, parts, places, found| unsafe {
                    sys::$of::format_parts(self.0.at(), at, len, words, count, out, room, length, parts, places, found)
                })
            }

            /// The value that the text of a number shows: of a compact number a significand and, after `c`, an exponent where it is not 0,
            /// `-1.2c6`, of a scientific one `-1.2e6`, and of any other one the number as the options leave it, `5.00` of 5 dollars.
            ///
            /// # Errors
            ///
            /// As of [`Self::format`].
            pub fn shown<'a>(&self, number: impl Into<Number<'a>>, options: impl Into<Option<&'a Options>>) -> Result<String, Error> {
                let (number, (words, count)) = (number.into(), self.words(options.into()));
                let digits = number.digits();
                let (at, len, words) = (digits.as_ptr(), digits.len(), words.as_ptr());
                // SAFETY: as for `call`.
                written(|out, room, length| unsafe { sys::$of::shown(self.0.at(), at, len, words, count, out, room, length) })
            }

            /// The text of a significand with an exponent, its digits as they are: `-1.20c6` is `-1.20M` in short English. But of compact
            /// numbers the exponent is 0: `1.20`; no scientific number is written so. The options change the significand.
            ///
            /// # Errors
            ///
            /// [`Error::OPTION`], [`Error::NUMBER`], [`Error::LIMIT`], [`Error::RANGE`], [`Error::EXPONENT`] or [`Error::MEMORY`].
            pub fn format_exact<'a>(&self, number: &str, options: impl Into<Option<&'a Options>>) -> Result<String, Error> {
                let (words, count) = self.words(options.into());
                let (at, len, words) = (number.as_ptr(), number.len(), words.as_ptr());
                // SAFETY: as for `call`.
                written(|out, room, length| unsafe { sys::$of::format_exact(self.0.at(), at, len, words, count, out, room, length) })
            }

            /// The separators, signs and digits that numbers are written with.
            ///
            /// # Errors
            ///
            /// [`Error::MEMORY`].
            pub fn symbols(&self) -> Result<Symbols, Error> {
                // SAFETY: as for `call`.
                Symbols::told(|fact, out, room, length| unsafe { sys::$of::tell(self.0.at(), fact, out, room, length) })
            }

            /// The texts of many doubles, sooner than one by one.
            ///
            /// # Errors
            ///
            /// A [`ColumnError`] of the first number that is refused, as of [`Self::format`].
            pub fn format_doubles<'a>(&self, numbers: &[f64], options: impl Into<Option<&'a Options>>) -> Result<Column, ColumnError> {
                let (words, count) = self.words(options.into());
                Column::written(numbers.len(), |done, out, room, ends, ends_room, wrote| {
                    let (at, len, words) = (numbers[done..].as_ptr(), numbers.len() - done, words.as_ptr());
                    // SAFETY: as for `call`; `ends` is memory of its room.
                    unsafe { sys::$of::format_doubles(self.0.at(), at, len, words, count, out, room, ends, ends_room, wrote) }
                })
            }

            /// The texts of many integers, each times ten to the power `exponent`: with -2 those of cents in whole units.
            ///
            /// # Errors
            ///
            /// A [`ColumnError`] of the first number that is refused, as of [`Self::format_i64`].
            pub fn format_integers<'a>(
                &self,
                mantissas: &[i64],
                exponent: i16,
                options: impl Into<Option<&'a Options>>,
            ) -> Result<Column, ColumnError> {
                let (words, count) = self.words(options.into());
                Column::written(mantissas.len(), |done, out, room, ends, ends_room, wrote| {
                    let (at, len, words) = (mantissas[done..].as_ptr(), mantissas.len() - done, words.as_ptr());
                    // SAFETY: as for `format_doubles`.
                    unsafe { sys::$of::format_integers(self.0.at(), at, len, exponent, words, count, out, room, ends, ends_room, wrote) }
                })
            }

            /// The texts of what can be iterated over: texts, integers or floats.
            ///
            /// # Errors
            ///
            /// A [`ColumnError`] of the first number that is refused, as of [`Self::format`].
            pub fn format_all<'a, N: Into<Number<'a>>>(
                &self,
                numbers: impl IntoIterator<Item = N>,
                options: impl Into<Option<&'a Options>>,
            ) -> Result<Column, ColumnError> {
                let ((lines, begins), (words, count)) = (lines_of(numbers), self.words(options.into()));
                Column::written(begins.len(), |done, out, room, ends, ends_room, wrote| {
                    let (from, words) = (&lines[begins.get(done).map_or(lines.len(), |at| *at)..], words.as_ptr());
                    // SAFETY: as for `format_doubles`.
                    unsafe {
                        sys::$of::format_texts(self.0.at(), from.as_ptr(), from.len(), words, count, out, room, ends, ends_room, wrote)
                    }
                })
            }
        }
    };
}

/// What a formatter reads.
macro_rules! reads {
    ($type:ident: $of:ident) => {
        impl $type {
            /// The number that is written so, as digits: in English `-1,234.50` is `-1234.50`, and `-€1,234.50` with euros. How many digits
            /// the currency has, or a scientific number is shown with, is not looked at: `1.20E6` is `1200000`.
            ///
            /// # Errors
            ///
            /// [`Error::UNREADABLE`], [`Error::NOT_WRITTEN`] or [`Error::MEMORY`].
            pub fn read(&self, text: &str) -> Result<String, Error> {
                // SAFETY: as for `call`.
                written(|out, room, length| unsafe { sys::$of::read(self.0.at(), text.as_ptr(), text.len(), out, room, length) })
            }

            /// The number of a text that somebody typed, as digits: what `read` reads, and other texts by folding, without separators, with
            /// blanks around it, in other digits, with the unit or its code on either side or without it. Where the digits of the locale
            /// are not those of ASCII, a text in ASCII is read too: `1,234.5` in `ar-EG`. Nothing is dropped or guessed: another unit is
            /// refused, and digits are grouped wholly, or not at all.
            ///
            /// # Errors
            ///
            /// As of [`Self::read`].
            pub fn read_lenient(&self, text: &str) -> Result<String, Error> {
                // SAFETY: as for `call`.
                written(|out, room, length| unsafe { sys::$of::read_lenient(self.0.at(), text.as_ptr(), text.len(), out, room, length) })
            }
        }
    };
}

/// What a formatter of amounts tells.
macro_rules! tells {
    ($type:ident: $of:ident) => {
        impl $type {
            /// The digits of the currency.
            ///
            /// # Errors
            ///
            /// [`Error::OPTION`] where there is no currency, or [`Error::MEMORY`].
            pub fn currency_digits(&self) -> Result<CurrencyDigits, Error> {
                // SAFETY: as for `call`.
                CurrencyDigits::told(|fact, out, room, length| unsafe { sys::$of::tell(self.0.at(), fact, out, room, length) })
            }
        }
    };
}

/// What `Debug` shows: what kind of formatter it is.
macro_rules! shows {
    ($($type:ident)*) => {
        $(
            impl fmt::Debug for $type {
                fn fmt(&self, out: &mut fmt::Formatter<'_>) -> fmt::Result {
                    out.debug_tuple(stringify!($type)).field(&self.0).finish()
                }
            }
        )*
    };
}

/// A formatter, and the shared one that is made of it, with the calls that they have beside those of all.
macro_rules! formatters {
    ($(#[$about:meta])* $type:ident $(: $($more:ident),*)?; $(#[$about_shared:meta])* $shared:ident) => {
        $(#[$about])*
        ///
        /// It may move to another thread, and is used by one thread at a time:
        ///
        /// ```compile_fail
        /// fn is_shared<T: Sync>() {}
        #[doc = concat!("is_shared::<legumeyet::", stringify!($type), ">();")]
        /// ```
        pub struct $type(Owned, Words);

        $(#[$about_shared])*
        #[derive(Clone, Copy)]
        pub struct $shared(Shared, Words);

        calls!($type: owned);
        calls!($shared: shared);
        shows!($type $shared);
        $($(
            $more!($type: owned);
            $more!($shared: shared);
        )*)?

        impl $type {
            /// The formatter with these options as its own, which are those of each call that is given none.
            #[must_use]
            pub fn options(self, options: &Options) -> $type {
                $type(self.0, words_of(options))
            }

            /// Shares the formatter: any number of threads use it at once, and it stays for the rest of the program: its memory is never
            /// given back. So share those that a program uses until it ends, and not one for each request.
            #[must_use = "it stays for the rest of the program"]
            pub fn share(self) -> $shared {
                $shared(Shared::of(&self.0), self.1)
            }
        }
    };
}

formatters! {
    /// The formatter of a [`Format`], or of a *number skeleton*, the text by which ICU asks for a format. It may outlive the book.
    ///
    /// `format` writes by the formatter's own options: those that the skeleton says, or without one those of [`NumberFormatter::options`], or
    /// else a number stays as it is, and an amount of money has the digits of its currency. Each other call takes options, which replace those
    /// wholly, or `None`.
    ///
    /// # Examples
    ///
    /// ```
    /// use legumeyet::{Book, Format, NumberFormatter, Options};
    /// use std::thread;
    ///
    /// let world = Book::world()?;
    /// let percents = NumberFormatter::skeleton(&world, "en", "percent .00")?;
    /// assert_eq!(percents.format(12.345)?, "12.34%");
    /// assert_eq!(percents.format_with(12.345, &Options::default())?, "12.345%");
    /// assert_eq!(percents.format_doubles(&[1.0, 2.5], None)?.as_str(), "1.00%2.50%");
    /// let francs = NumberFormatter::new(&world, "de-CH", &Format::currency("CHF"))?;
    /// assert_eq!(francs.format(-5)?, "CHF-5.00");
    /// let shared = francs.share();
    /// assert_eq!(thread::spawn(move || shared.format(5)).join().unwrap()?, "CHF\u{a0}5.00");
    /// # Ok::<(), Box<dyn std::error::Error>>(())
    /// ```
    NumberFormatter: reads, tells;
    /// A formatter that any number of threads use at once: what [`NumberFormatter::share`] makes, with its calls.
    SharedNumberFormatter
}

formatters! {
    /// The formatter of plain numbers for a locale tag. It may outlive the book.
    ///
    /// # Examples
    ///
    /// ```
    /// use legumeyet::{DecimalFormatter, Error, Kind, Options, Rounding, Sign};
    ///
    /// let german = DecimalFormatter::new("de")?;
    /// assert_eq!(german.format("-1234.50")?, "-1.234,50");
    /// assert_eq!(german.format_i64(-123_450, -2, None)?, "-1.234,50");
    /// assert_eq!(german.format_parts(-5, None)?, ("-5".into(), vec![(Kind::MinusSign, 0..1), (Kind::Integer, 1..2)]));
    /// assert_eq!(german.symbols()?.decimal_separator, ",");
    /// assert_eq!(german.read("-1.234,50")?, "-1234.50");
    /// assert_eq!(german.read_lenient(" 1234,50 ")?, "1234.50");
    /// assert_eq!(german.read_lenient("1.23"), Err(Error::NOT_WRITTEN));
    /// assert_eq!(german.format("1,5"), Err(Error::NUMBER));
    /// let tenths = Options::default().rounded(Rounding::HalfEven, -1);
    /// assert_eq!(german.format_with(1234.56, &tenths)?, "1.234,6");
    /// let german = german.options(&tenths);
    /// assert_eq!(german.format(1234.56)?, "1.234,6");
    /// assert_eq!(german.format_with(1234.56, &Options::default().sign(Sign::Always))?, "+1.234,56");
    /// # Ok::<(), Error>(())
    /// ```
    DecimalFormatter: reads;
    /// A formatter of plain numbers that any number of threads use at once: what [`DecimalFormatter::share`] makes, with its calls.
    SharedDecimalFormatter
}

formatters! {
    /// The formatter of compact numbers for a locale tag, short or long. It may outlive the book.
    ///
    /// # Examples
    ///
    /// ```
    /// use legumeyet::{CompactDecimalFormatter, Width};
    ///
    /// let english = CompactDecimalFormatter::new("en", Width::Short)?;
    /// assert_eq!(english.format("-1172700")?, "-1.2M");
    /// assert_eq!(english.shown("-1172700", None)?, "-1.2c6");
    /// assert_eq!(english.format_exact("-1.20c6", None)?, "-1.20M");
    /// assert_eq!(CompactDecimalFormatter::new("hi", Width::Long)?.format("1234567")?, "12 लाख");
    /// # Ok::<(), legumeyet::Error>(())
    /// ```
    CompactDecimalFormatter;
    /// A formatter of compact numbers that any number of threads use at once: what [`CompactDecimalFormatter::share`] makes, with its calls.
    SharedCompactDecimalFormatter
}

formatters! {
    /// The formatter of percents for a locale tag. It may outlive the book.
    ///
    /// A percent is written as it is given, so a ratio is multiplied by 100 first.
    ///
    /// # Examples
    ///
    /// ```
    /// use legumeyet::PercentFormatter;
    ///
    /// let turkish: PercentFormatter = "tr".parse()?;
    /// assert_eq!(turkish.format(-12.5)?, "-%12,5");
    /// assert_eq!(turkish.read("%1.234,50")?, "1234.50");
    /// assert_eq!(turkish.read_lenient("1234,5 %")?, "1234.5");
    /// # Ok::<(), legumeyet::Error>(())
    /// ```
    PercentFormatter: reads;
    /// A formatter of percents that any number of threads use at once: what [`PercentFormatter::share`] makes, with its calls.
    SharedPercentFormatter
}

formatters! {
    /// The formatter of amounts of money for a locale tag and the code of a currency, three capitals. It may outlive the book.
    ///
    /// An amount is rounded to the digits of its currency, a tie to the even one, and shown down to them. With `Rounding::Cash` they are
    /// those of the currency in cash, with `Rounding::None` it is written as it is given, and with another rounding it is rounded as any
    /// number is.
    ///
    /// # Examples
    ///
    /// ```
    /// use legumeyet::{CurrencyFormatter, CurrencyOptions, CurrencyStyle, Error, Options, Rounding};
    ///
    /// let yen = CurrencyFormatter::new("en", "JPY")?;
    /// assert_eq!((yen.format(2.5)?.as_str(), yen.currency_digits()?.fraction), ("¥2", 0));
    /// assert_eq!(CurrencyFormatter::new("en", "CHF")?.format_with(2.345, &Options::default().rounding(Rounding::Cash))?, "CHF\u{a0}2.35");
    /// let in_accounts = CurrencyOptions::default().style(CurrencyStyle::Accounting);
    /// let dollars = CurrencyFormatter::with_options("en", "USD", &in_accounts)?;
    /// assert_eq!(dollars.format(-5)?, "($5.00)");
    /// assert_eq!(dollars.read("($1,234.50)")?, "-1234.50");
    /// assert_eq!(dollars.read_lenient("-1234.5 USD")?, "-1234.5");
    /// assert_eq!(CurrencyFormatter::new("en", "usd").unwrap_err(), Error::CODE);
    /// # Ok::<(), Error>(())
    /// ```
    CurrencyFormatter: reads, tells;
    /// A formatter of amounts of money that any number of threads use at once: what [`CurrencyFormatter::share`] makes, with its calls.
    SharedCurrencyFormatter
}

/// The handle of a formatter of a book, or of the world's.
fn opened(book: Option<&Book>, tag: &str, format: &Format<'_>) -> Result<Owned, Error> {
    opened_by(book, tag, format.words())
}

/// The same by the words of the format and the code of its currency.
pub(crate) fn opened_by(book: Option<&Book>, tag: &str, (words, code): ([i32; 7], &str)) -> Result<Owned, Error> {
    opening(book, |book| {
        let (tag_at, code_at, (at, count)) = (tag.as_ptr(), code.as_ptr(), (words.as_ptr(), words.len()));
        // SAFETY: a text is memory of its length, no other call has the book's handle, and `open` passes a closed one.
        let call = |formatter| unsafe {
            match book {
                Some(book) => sys::legumeyet_formatter_open(book.0.at(), tag_at, tag.len(), at, count, code_at, code.len(), formatter),
                None => sys::legumeyet_formatter_open_world(tag_at, tag.len(), at, count, code_at, code.len(), formatter),
            }
        };
        Owned::open(sys::legumeyet_formatter_close, call)
    })
}

impl NumberFormatter {
    /// The formatter of a tag and a format. `None` in place of a book is the world's. Of the first formatters of a process without a book only
    /// what their tags ask for is read, and then the process opens the book once and keeps it.
    ///
    /// # Errors
    ///
    /// [`Error::CODE`], [`Error::TAG`], [`Error::TABLE`], also of compact or scientific numbers with a unit, or [`Error::MEMORY`].
    pub fn new<'b>(book: impl Into<Option<&'b Book>>, tag: &str, format: &Format<'_>) -> Result<NumberFormatter, Error> {
        opened(book.into(), tag, format).map(|it| NumberFormatter(it, OWN))
    }

    /// The formatter of a tag and a skeleton, as `currency/EUR .00`, with the options that this says. Without words it is plain numbers with
    /// up to six digits of a fraction. `None` in place of a book is the world's.
    ///
    /// # Errors
    ///
    /// A [`SkeletonError`]: one of the errors of a skeleton, 201 to 207, with the place, or [`Error::TAG`], [`Error::TABLE`] or
    /// [`Error::MEMORY`].
    pub fn skeleton<'b>(book: impl Into<Option<&'b Book>>, tag: &str, skeleton: &str) -> Result<NumberFormatter, SkeletonError> {
        opening(book.into(), |book| {
            let (tag_at, at, mut place) = (tag.as_ptr(), skeleton.as_ptr(), 0);
            // SAFETY: as for `opened_by`.
            let call = |formatter| unsafe {
                let (tags, texts) = (tag.len(), skeleton.len());
                match book {
                    Some(book) => sys::legumeyet_formatter_open_skeleton(book.0.at(), tag_at, tags, at, texts, &mut place, formatter),
                    None => sys::legumeyet_formatter_open_world_skeleton(tag_at, tags, at, texts, &mut place, formatter),
                }
            };
            let opened = Owned::open(sys::legumeyet_formatter_close, call);
            opened.map(|it| NumberFormatter(it, OWN)).map_err(|error| SkeletonError::at(error, place))
        })
    }
}

/// How a formatter is opened by a tag and a grouping, with the usual one.
macro_rules! opens {
    ($type:ident($($more:ident: $what:ty)?), $usual:ident, $format:expr) => {
        impl $type {
            /// The formatter of a tag, of the world's book, as [`NumberFormatter::new`] without a book, with
            #[doc = concat!("`Grouping::", stringify!($usual), "`.")]
            ///
            /// # Errors
            ///
            /// [`Error::TAG`], [`Error::TABLE`] or [`Error::MEMORY`].
            pub fn new(tag: &str $(, $more: $what)?) -> Result<$type, Error> {
                $type::with_grouping(tag $(, $more)?, Grouping::$usual)
            }

            /// The same with a grouping.
            ///
            /// # Errors
            ///
            /// As of [`Self::new`].
            pub fn with_grouping(tag: &str $(, $more: $what)?, grouping: Grouping) -> Result<$type, Error> {
                opened(None, tag, &$format.grouping(grouping)).map(|it| $type(it, OWN))
            }

            /// The formatter of a book's tag.
            ///
            /// # Errors
            ///
            /// As of [`Self::new`].
            pub fn from_book(book: &Book, tag: &str $(, $more: $what)?, grouping: Grouping) -> Result<$type, Error> {
                opened(Some(book), tag, &$format.grouping(grouping)).map(|it| $type(it, OWN))
            }
        }
    };
}

opens!(DecimalFormatter(), Auto, Format::default());
opens!(PercentFormatter(), Auto, Format::percent());
opens!(CompactDecimalFormatter(width: Width), Min2, Format::compact(width));

/// The formatter of a tag, as of `new`.
impl FromStr for DecimalFormatter {
    type Err = Error;

    fn from_str(tag: &str) -> Result<DecimalFormatter, Error> {
        DecimalFormatter::new(tag)
    }
}

/// The formatter of a tag, as of `new`.
impl FromStr for PercentFormatter {
    type Err = Error;

    fn from_str(tag: &str) -> Result<PercentFormatter, Error> {
        PercentFormatter::new(tag)
    }
}

impl CurrencyFormatter {
    /// The formatter of a tag and a code, of the world's book, as [`NumberFormatter::new`] without a book.
    ///
    /// # Errors
    ///
    /// [`Error::CODE`], [`Error::TAG`], [`Error::TABLE`] or [`Error::MEMORY`].
    pub fn new(tag: &str, code: &str) -> Result<CurrencyFormatter, Error> {
        CurrencyFormatter::with_options(tag, code, &CurrencyOptions::default())
    }

    /// The same with options.
    ///
    /// # Errors
    ///
    /// As of [`Self::new`].
    pub fn with_options(tag: &str, code: &str, options: &CurrencyOptions) -> Result<CurrencyFormatter, Error> {
        opened(None, tag, &options.of(code)).map(|it| CurrencyFormatter(it, OWN))
    }

    /// The formatter of a book's tag and a code.
    ///
    /// # Errors
    ///
    /// As of [`Self::new`].
    pub fn from_book(book: &Book, tag: &str, code: &str, options: &CurrencyOptions) -> Result<CurrencyFormatter, Error> {
        opened(Some(book), tag, &options.of(code)).map(|it| CurrencyFormatter(it, OWN))
    }
}

/// The normal text of a skeleton, one for all that ask for the same format.
///
/// # Errors
///
/// A [`SkeletonError`] of a skeleton that is refused.
///
/// # Examples
///
/// ```
/// use legumeyet::{normal_skeleton, Error};
///
/// assert_eq!(normal_skeleton("percent")?, "percent");
/// let refused = normal_skeleton("percent foo").unwrap_err();
/// assert_eq!((refused.error, refused.place), (Error::SKELETON_UNKNOWN, Some(8)));
/// # Ok::<(), legumeyet::SkeletonError>(())
/// ```
pub fn normal_skeleton(skeleton: &str) -> Result<String, SkeletonError> {
    let (at, len, mut place) = (skeleton.as_ptr(), skeleton.len(), 0);
    // SAFETY: a text is memory of its length, and `written` passes memory that is as long as it says.
    let normal = written(|out, room, length| unsafe { sys::legumeyet_skeleton_normal(at, len, &mut place, out, room, length) });
    normal.map_err(|error| SkeletonError::at(error, place))
}
