use crate::UnknownWord;
use std::fmt;
use std::str::FromStr;

/// The words of options, as a request line has them: `Display` writes one, and `FromStr` reads it.
macro_rules! words {
    ($type:ident: $($word:literal $case:ident),*) => {
        impl fmt::Display for $type {
            fn fmt(&self, out: &mut fmt::Formatter<'_>) -> fmt::Result {
                out.pad(match self {
                    $($type::$case => $word,)*
                })
            }
        }

        impl FromStr for $type {
            type Err = UnknownWord;

            fn from_str(word: &str) -> Result<$type, UnknownWord> {
                match word {
                    $($word => Ok($type::$case),)*
                    _ => Err(UnknownWord),
                }
            }
        }
    };
}

words!(Grouping: "auto" Auto, "never" Never, "always" Always, "min2" Min2, "on-aligned" OnAligned);
words!(Width: "short" Short, "long" Long);
words!(Sign: "keep" Keep, "auto" Auto, "never" Never, "always" Always, "except-zero" ExceptZero, "negative" Negative);
words!(Increment: "1" One, "2" Two, "5" Five, "10" Ten, "20" Twenty, "25" TwentyFive, "50" Fifty, "100" OneHundred, "200" TwoHundred,
    "250" TwoHundredFifty, "500" FiveHundred, "1000" OneThousand, "2000" TwoThousand, "2500" TwoThousandFiveHundred, "5000" FiveThousand);
words!(TrailingZeros: "keep" Keep, "trim" Trim, "trim-whole" TrimWhole, "trim-all" TrimAll);
words!(RoundingPriority: "auto" Auto, "more" MorePrecision, "less" LessPrecision);
words!(Rounding: "keep" Keep, "expand" Expand, "trunc" Trunc, "ceil" Ceil, "floor" Floor, "half-expand" HalfExpand,
    "half-trunc" HalfTrunc, "half-ceil" HalfCeil, "half-floor" HalfFloor, "half-even" HalfEven, "cash" Cash, "none" None);
words!(CurrencyStyle: "standard" Standard, "accounting" Accounting);
words!(CurrencyWidth: "symbol" Symbol, "code" Code);
words!(PluralRuleType: "cardinal" Cardinal, "ordinal" Ordinal);

/// Calls that change one field.
macro_rules! changes {
    ($type:ty: $($field:ident $kind:ty),*) => {
        impl $type {
            $(
                #[doc = concat!("The same with this `", stringify!($field), "`.")]
                #[must_use]
                pub const fn $field(self, $field: $kind) -> Self {
                    Self { $field, ..self }
                }
            )*
        }
    };
}

changes!(CurrencyOptions: style CurrencyStyle, width CurrencyWidth, grouping Grouping);
changes!(Format<'_>: notation Notation, currency_style CurrencyStyle, currency_width CurrencyWidth, grouping Grouping);
changes!(Options: sign Sign, rounding Rounding, increment Increment, trailing_zeros TrailingZeros, minimum_integer_digits u16,
    minimum_fraction_digits u16, minimum_significant_digits u16, maximum_significant_digits u16, rounding_priority RoundingPriority);

/// When grouping separators are written.
#[derive(Clone, Copy, Debug, Default, PartialEq, Eq, Hash)]
#[non_exhaustive]
pub enum Grouping {
    /// Where the sizes of the locale place them: `1,234,567`.
    #[default]
    Auto = 0,
    /// Nowhere: `1234567`.
    Never = 1,
    /// As `Auto`.
    Always = 2,
    /// As `Auto`, but only with two digits before the last separator: `1000`, `10,000`. The usual one of compact numbers.
    Min2 = 3,
    /// As `Auto`, but already with one digit before the last separator also where `Auto` has two: `1.234` in Spanish, and not `1234`.
    OnAligned = 4,
}

/// Which patterns compact numbers are written in.
#[derive(Clone, Copy, Debug, Default, PartialEq, Eq, Hash)]
#[non_exhaustive]
pub enum Width {
    /// `1.6K`.
    #[default]
    Short = 0,
    /// `1.6 thousand`.
    Long = 1,
}

/// How a negative amount of money is written.
#[derive(Clone, Copy, Debug, Default, PartialEq, Eq, Hash)]
#[non_exhaustive]
pub enum CurrencyStyle {
    /// `-$5.00`.
    #[default]
    Standard = 0,
    /// As in accounts: `($5.00)`.
    Accounting = 1,
}

/// What a currency is written as.
#[derive(Clone, Copy, Debug, Default, PartialEq, Eq, Hash)]
#[non_exhaustive]
pub enum CurrencyWidth {
    /// Its symbol, or its code where it has none: `$5.00`.
    #[default]
    Symbol = 0,
    /// Its code: `USD 5.00`.
    Code = 1,
}

/// What amounts of money are written with. By default they are of the standard style, with the symbol and with separators.
#[derive(Clone, Copy, Debug, Default, PartialEq, Eq, Hash)]
#[non_exhaustive]
pub struct CurrencyOptions {
    /// How a negative amount is written.
    pub style: CurrencyStyle,
    /// What the currency is written as.
    pub width: CurrencyWidth,
    /// When grouping separators are written.
    pub grouping: Grouping,
}

impl CurrencyOptions {
    /// The format of amounts in a currency.
    pub(crate) fn of(self, code: &str) -> Format<'_> {
        Format::currency(code).currency_style(self.style).currency_width(self.width).grouping(self.grouping)
    }
}

/// Which plural categories numbers have: those of how many there are, or of which one it is.
#[derive(Clone, Copy, Debug, Default, PartialEq, Eq, Hash)]
#[non_exhaustive]
pub enum PluralRuleType {
    /// Of how many there are: `1 day`, `2 days`.
    #[default]
    Cardinal = 1,
    /// Of which one it is: `1st`, `2nd`, `3rd`, `4th`.
    Ordinal = 2,
}

/// How the digits are written.
#[derive(Clone, Copy, Debug, Default, PartialEq, Eq, Hash)]
#[non_exhaustive]
pub enum Notation {
    /// All of them: `1,650`.
    #[default]
    Standard,
    /// The first ones, by the patterns of a width: `1.6K`.
    Compact(Width),
    /// Those from the first to the last one that is not zero, with a power of ten: `1.65E3`.
    Scientific,
    /// The same with exponents that are multiples of three: 0.00012 as `120E-6`.
    Engineering,
}

/// What is written beside the digits.
#[derive(Clone, Copy, Debug, Default, PartialEq, Eq, Hash)]
#[non_exhaustive]
pub enum Unit<'a> {
    /// Nothing.
    #[default]
    None,
    /// The percent sign: 12.5 as `12.5%`.
    Percent,
    /// The permille sign: 12.5 as `12.5‰`.
    Permille,
    /// The currency of a code, three capitals: 5 as `$5.00`.
    Currency(&'a str),
}

/// How numbers are written. By default they are plain.
///
/// # Examples
///
/// ```
/// use legumeyet::{CurrencyStyle, Format, Grouping, NumberFormatter, Width};
///
/// let in_accounts = Format::currency("USD").currency_style(CurrencyStyle::Accounting);
/// assert_eq!(NumberFormatter::new(None, "en", &in_accounts)?.format(-1234.5)?, "($1,234.50)");
/// let ungrouped = Format::default().grouping(Grouping::Never);
/// assert_eq!(NumberFormatter::new(None, "de", &ungrouped)?.format(1234.5)?, "1234,5");
/// assert_eq!(NumberFormatter::new(None, "en", &Format::compact(Width::Short))?.format(1650)?, "1.6K");
/// assert_eq!(NumberFormatter::new(None, "sv", &Format::scientific())?.format(1650)?, "1,65×10^3");
/// # Ok::<(), legumeyet::Error>(())
/// ```
#[derive(Clone, Copy, Debug, Default, PartialEq, Eq, Hash)]
#[non_exhaustive]
pub struct Format<'a> {
    /// How the digits are written.
    pub notation: Notation,
    /// What is written beside them. Compact and scientific numbers have no unit yet: `Error::TABLE`.
    pub unit: Unit<'a>,
    /// How a negative amount of money is written.
    pub currency_style: CurrencyStyle,
    /// What a currency is written as.
    pub currency_width: CurrencyWidth,
    /// When grouping separators are written.
    pub grouping: Grouping,
}

impl<'a> Format<'a> {
    /// That of compact numbers, with `Grouping::Min2`, which is usual of them.
    #[must_use]
    pub fn compact(width: Width) -> Format<'a> {
        Format { notation: Notation::Compact(width), grouping: Grouping::Min2, ..Format::default() }
    }

    /// That of scientific notation. Options change the significand, as 1.65 of `1.65E3`.
    #[must_use]
    pub fn scientific() -> Format<'a> {
        Format { notation: Notation::Scientific, ..Format::default() }
    }

    /// That of engineering notation.
    #[must_use]
    pub fn engineering() -> Format<'a> {
        Format { notation: Notation::Engineering, ..Format::default() }
    }

    /// That of percents.
    #[must_use]
    pub fn percent() -> Format<'a> {
        Format { unit: Unit::Percent, ..Format::default() }
    }

    /// That of permilles.
    #[must_use]
    pub fn permille() -> Format<'a> {
        Format { unit: Unit::Permille, ..Format::default() }
    }

    /// That of amounts of money in a currency.
    #[must_use]
    pub fn currency(code: &'a str) -> Format<'a> {
        Format { unit: Unit::Currency(code), ..Format::default() }
    }

    /// The words of the format, as legumeyet.h has them, and the code of its currency.
    pub(crate) fn words(&self) -> ([i32; 7], &'a str) {
        let (notation, width) = match self.notation {
            Notation::Standard => (0, 0),
            Notation::Compact(width) => (1, width as i32),
            Notation::Scientific => (2, 0),
            Notation::Engineering => (3, 0),
        };
        let (unit, code) = match self.unit {
            Unit::None => (0, ""),
            Unit::Percent => (1, ""),
            Unit::Permille => (3, ""),
            Unit::Currency(code) => (2, code),
        };
        ([notation, width, unit, self.currency_style as i32, self.currency_width as i32, self.grouping as i32, 0], code)
    }
}

/// Which sign is written; it is chosen by what the rounding left.
#[derive(Clone, Copy, Debug, Default, PartialEq, Eq, Hash)]
#[non_exhaustive]
pub enum Sign {
    /// The one of the number as it was given: `+5` stays `+5`.
    #[default]
    Keep = 0,
    /// A minus where the number has one; a plus is left out.
    Auto = 1,
    /// None.
    Never = 2,
    /// A plus where the number has none.
    Always = 3,
    /// None at zero, and else as `Always`.
    ExceptZero = 4,
    /// A minus on a number that is not zero, and else none.
    Negative = 5,
}

/// What a part of a text is.
#[derive(Clone, Copy, Debug, PartialEq, Eq, Hash)]
#[non_exhaustive]
pub enum Kind {
    /// The minus sign.
    MinusSign,
    /// The plus sign.
    PlusSign,
    /// The integer digits with their separators.
    Integer,
    /// A grouping separator, inside an `Integer`.
    Group,
    /// The decimal separator.
    Decimal,
    /// The fraction digits.
    Fraction,
    /// The symbol or the code of a currency, which may be inside a sign.
    Currency,
    /// The sign of percents, which may be inside a sign.
    PercentSign,
    /// The text before an exponent: `E` of `1.2E-6`.
    ExponentSeparator,
    /// The minus sign of an exponent.
    ExponentMinusSign,
    /// The plus sign of an exponent.
    ExponentPlusSign,
    /// The digits of an exponent.
    ExponentInteger,
    /// The number of a kind that a later library has.
    Other(u32),
}

impl Kind {
    pub(crate) fn of(number: u32) -> Kind {
        match number {
            1 => Kind::MinusSign,
            2 => Kind::PlusSign,
            3 => Kind::Integer,
            4 => Kind::Group,
            5 => Kind::Decimal,
            6 => Kind::Fraction,
            7 => Kind::Currency,
            8 => Kind::PercentSign,
            9 => Kind::ExponentSeparator,
            10 => Kind::ExponentMinusSign,
            11 => Kind::ExponentPlusSign,
            12 => Kind::ExponentInteger,
            other => Kind::Other(other),
        }
    }
}

/// Which neighbour a number is rounded to.
///
/// # Examples
///
/// ```
/// use legumeyet::Rounding;
///
/// assert_eq!("half-even".parse(), Ok(Rounding::HalfEven));
/// assert_eq!(Rounding::HalfEven.to_string(), "half-even");
/// ```
#[derive(Clone, Copy, Debug, Default, PartialEq, Eq, Hash)]
#[non_exhaustive]
pub enum Rounding {
    /// An amount of money to the digits of its currency, a tie to the even one; another number is not rounded.
    #[default]
    Keep = 0,
    /// Away from zero.
    Expand = 1,
    /// Towards zero.
    Trunc = 2,
    /// Upwards.
    Ceil = 3,
    /// Downwards.
    Floor = 4,
    /// To the nearest, a tie away from zero.
    HalfExpand = 5,
    /// To the nearest, a tie towards zero.
    HalfTrunc = 6,
    /// To the nearest, a tie upwards.
    HalfCeil = 7,
    /// To the nearest, a tie downwards.
    HalfFloor = 8,
    /// To the nearest, a tie to the even one.
    HalfEven = 9,
    /// An amount of money to the digits of its currency in cash, a tie to the even one; another number is not rounded.
    Cash = 10,
    /// It is not rounded.
    None = 11,
}

/// Of what a number is rounded to a multiple, in units of the digit at the position. Fraction digits down to the position are shown, where
/// zeros at the end stay: at -2 by `Fifty` 1.26 is `1.50`. One that ends in zeros has positions from -32767 up, and with its zeros up to 32767.
#[derive(Clone, Copy, Debug, Default, PartialEq, Eq, Hash)]
#[non_exhaustive]
pub enum Increment {
    /// Of one: each digit.
    #[default]
    One = 1,
    /// Of two.
    Two = 2,
    /// Of five.
    Five = 5,
    /// Of ten, of which the position is that of the 0.
    Ten = 10,
    /// Of 20.
    Twenty = 20,
    /// Of 25, of which the position is that of the 5.
    TwentyFive = 25,
    /// Of 50.
    Fifty = 50,
    /// Of 100, of which the position is that of the last 0.
    OneHundred = 100,
    /// Of 200.
    TwoHundred = 200,
    /// Of 250.
    TwoHundredFifty = 250,
    /// Of 500.
    FiveHundred = 500,
    /// Of 1000.
    OneThousand = 1000,
    /// Of 2000.
    TwoThousand = 2000,
    /// Of 2500.
    TwoThousandFiveHundred = 2500,
    /// Of 5000.
    FiveThousand = 5000,
}

/// What becomes of the zeros at the end of the fraction digits.
#[derive(Clone, Copy, Debug, Default, PartialEq, Eq, Hash)]
#[non_exhaustive]
pub enum TrailingZeros {
    /// They stay: `1.50`.
    #[default]
    Keep = 0,
    /// They are trimmed, and the decimal separator where no digit is left: `1.5`, and `2` of `2.00`.
    Trim = 1,
    /// They are trimmed where no other digit is among them: `2` of `2.00`, and `1.50`.
    TrimWhole = 2,
    /// As `Trim`, and again as `TrimWhole` what `minimum_fraction_digits` added: with 2 `1.50`, and `2` of `2.000`.
    TrimAll = 3,
}

/// Which rounding counts, where options have significant digits and a position.
///
/// # Examples
///
/// ```
/// use legumeyet::{DecimalFormatter, Options, Rounding, RoundingPriority};
///
/// let either = Options::default().maximum_significant_digits(2).rounded(Rounding::HalfEven, 0);
/// let english = DecimalFormatter::new("en")?;
/// for (priority, text) in [(RoundingPriority::MorePrecision, "123"), (RoundingPriority::LessPrecision, "120")] {
///     assert_eq!(english.format_with(123.4, &either.rounding_priority(priority))?, text);
/// }
/// # Ok::<(), legumeyet::Error>(())
/// ```
#[derive(Clone, Copy, Debug, Default, PartialEq, Eq, Hash)]
#[non_exhaustive]
pub enum RoundingPriority {
    /// That to significant digits, wherever the position is.
    #[default]
    Auto = 0,
    /// The one that shows more digits.
    MorePrecision = 1,
    /// The one that shows fewer.
    LessPrecision = 2,
}

/// What is made of a number before it is written: it is rounded, then trimmed, then padded, and then its sign is chosen. By default it stays
/// as it is.
///
/// # Examples
///
/// ```
/// use legumeyet::{DecimalFormatter, Increment, Options, Rounding, Sign, TrailingZeros};
///
/// let german = DecimalFormatter::new("de")?;
/// let tenths = Options::default().rounded(Rounding::HalfEven, -1);
/// assert_eq!(german.format_with("9.65", &tenths.sign(Sign::Always))?, "+9,6");
/// let at_most_two = Options::default().rounded(Rounding::HalfEven, -2).trailing_zeros(TrailingZeros::Trim);
/// assert_eq!(german.format_with(1.995, &at_most_two)?, "2");
/// assert_eq!(german.format_with(1.995, &at_most_two.minimum_fraction_digits(1))?, "2,0");
/// let twentieths = Options::default().rounded(Rounding::HalfEven, -2).increment(Increment::Five);
/// assert_eq!(german.format_with("1.23", &twentieths)?, "1,25");
/// assert_eq!(german.format_with(12345, &Options::default().maximum_significant_digits(3))?, "12.300");
/// # Ok::<(), legumeyet::Error>(())
/// ```
#[derive(Clone, Copy, Debug, Default, PartialEq, Eq, Hash)]
#[non_exhaustive]
pub struct Options {
    /// Which sign is written.
    pub sign: Sign,
    /// Which neighbour the number is rounded to.
    pub rounding: Rounding,
    /// The magnitude that is rounded at: 0 the ones, -2 the hundredths. Of `Rounding::Keep`, `Cash` and `None` it counts for nothing.
    pub position: i16,
    /// Of what it is rounded to a multiple. Of `Rounding::Keep`, `Cash` and `None` it counts for nothing.
    pub increment: Increment,
    /// What becomes of zeros at the end of the fraction digits.
    pub trailing_zeros: TrailingZeros,
    /// As many integer digits are shown at least, by zeros in front: with 3 7 is `007`. Up to 32767.
    pub minimum_integer_digits: u16,
    /// As many fraction digits are shown at least, by zeros at the end: with 2 7.5 is `7.50`. Up to 32767.
    pub minimum_fraction_digits: u16,
    /// As many significant digits are shown at least, from the first one on that is not zero: with 3 5 is `5.00`. 0 is none, or 1 beside
    /// `maximum_significant_digits`.
    pub minimum_significant_digits: u16,
    /// It is rounded to as many significant digits: with 3 12345 is `12,300`. 0 is no such rounding. They take no increment, and the rounding
    /// `Rounding::Keep` is then half to even; `Cash`, `None` and a least count above the greatest are [`Error::OPTION`](crate::Error::OPTION).
    pub maximum_significant_digits: u16,
    /// Which of them and of the position counts. Other than `Auto` it needs a rounding that has a position, and significant digits.
    pub rounding_priority: RoundingPriority,
}

impl Options {
    /// The same with this rounding, at this position. A rounding that has none is that of `rounding`: `Rounding::Cash`, `None` or `Keep`.
    #[must_use]
    pub const fn rounded(self, rounding: Rounding, position: i16) -> Options {
        Options { rounding, position, ..self }
    }
}

/// The words of options, as legumeyet.h has them, and how many there are.
pub(crate) type Words = ([i32; 10], usize);

/// No words: the options are those of the formatter in C.
pub(crate) const OWN: Words = ([0; 10], 0);

pub(crate) fn words_of(it: &Options) -> Words {
    let (sign, rounding, increment, zeros) = (it.sign as i32, it.rounding as i32, it.increment as i32, it.trailing_zeros as i32);
    let least = [it.minimum_integer_digits, it.minimum_fraction_digits, it.minimum_significant_digits].map(i32::from);
    let most = it.maximum_significant_digits.into();
    ([sign, rounding, it.position.into(), increment, zeros, least[0], least[1], least[2], most, it.rounding_priority as i32], 10)
}

#[cfg(test)]
mod tests {
    use super::Kind;

    #[test]
    fn kinds() {
        let kinds: Vec<Kind> = [6, 8, 9, 12, 13].into_iter().map(Kind::of).collect();
        assert_eq!(kinds, [Kind::Fraction, Kind::PercentSign, Kind::ExponentSeparator, Kind::ExponentInteger, Kind::Other(13)]);
    }
}
