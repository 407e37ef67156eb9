//! What a formatter tells of itself.

use crate::owned::written;
use crate::Error;

/// A fact, by its number in legumeyet.h.
#[derive(Clone, Copy)]
pub enum Fact {
    DecimalSeparator = 1,
    GroupingSeparator = 2,
    MinusBefore = 3,
    MinusAfter = 4,
    PlusBefore = 5,
    PlusAfter = 6,
    Digits = 7,
    FractionDigits = 8,
    CashDigits = 9,
    CashIncrement = 10,
    Categories = 11,
}

impl Fact {
    /// The text that a call tells it by.
    pub(crate) fn told(self, mut tell: impl FnMut(u32, *mut u8, usize, *mut usize) -> i32) -> Result<String, Error> {
        written(|out, room, length| tell(self as u32, out, room, length))
    }
}

/// What numbers are written with. Amounts of money have the symbols of their currency, where it has its own.
#[derive(Clone, Debug, PartialEq, Eq, Hash)]
#[non_exhaustive]
pub struct Symbols {
    /// What is between the integer and the fraction digits: `,` in German.
    pub decimal_separator: String,
    /// What is between groups of integer digits: `.` in German.
    pub grouping_separator: String,
    /// What is before and after the digits of a negative number: `-` and mostly nothing.
    pub minus: (String, String),
    /// The same of a number with a plus.
    pub plus: (String, String),
    /// The ten digits, zero first.
    pub digits: [char; 10],
}

impl Symbols {
    pub(crate) fn told(mut tell: impl FnMut(u32, *mut u8, usize, *mut usize) -> i32) -> Result<Symbols, Error> {
        let mut told = |fact: Fact| fact.told(&mut tell);
        let mut digits = ['0'; 10];
        digits.iter_mut().zip(told(Fact::Digits)?.chars()).for_each(|(digit, it)| *digit = it);
        Ok(Symbols {
            decimal_separator: told(Fact::DecimalSeparator)?,
            grouping_separator: told(Fact::GroupingSeparator)?,
            minus: (told(Fact::MinusBefore)?, told(Fact::MinusAfter)?),
            plus: (told(Fact::PlusBefore)?, told(Fact::PlusAfter)?),
            digits,
        })
    }
}

/// How many digits amounts of a currency have after the decimal separator.
#[derive(Clone, Copy, Debug, PartialEq, Eq, Hash)]
#[non_exhaustive]
pub struct CurrencyDigits {
    /// In general: 2 of euros, 0 of yen.
    pub fraction: u32,
    /// In cash.
    pub cash: u32,
    /// To which multiples of the last digit cash is rounded: 5 of Swiss francs, 1 of euros.
    pub cash_increment: u32,
}

impl CurrencyDigits {
    pub(crate) fn told(mut tell: impl FnMut(u32, *mut u8, usize, *mut usize) -> i32) -> Result<CurrencyDigits, Error> {
        let mut told = |fact: Fact| fact.told(&mut tell).map(|it| it.parse().expect("the library tells a number"));
        Ok(CurrencyDigits {
            fraction: told(Fact::FractionDigits)?,
            cash: told(Fact::CashDigits)?,
            cash_increment: told(Fact::CashIncrement)?,
        })
    }
}
