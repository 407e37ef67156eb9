use std::borrow::Cow;

/// A number that a formatter writes: a text, an integer, or a float by the shortest digits that give it back.
///
/// `From` makes it of each of them, so a call takes them as they are:
///
/// # Examples
///
/// ```
/// use legumeyet::{DecimalFormatter, Error};
///
/// let german = DecimalFormatter::new("de")?;
/// assert_eq!(german.format("1234.50")?, "1.234,50");
/// assert_eq!(german.format(-1234)?, "-1.234");
/// assert_eq!(german.format(u128::MAX)?, "340.282.366.920.938.463.463.374.607.431.768.211.455");
/// assert_eq!(german.format(0.1)?, "0,1");
/// assert_eq!(german.format(f64::NAN), Err(Error::NUMBER));
/// # Ok::<(), legumeyet::Error>(())
/// ```
#[derive(Clone, Debug)]
pub struct Number<'a>(pub(crate) Of<'a>);

/// What the library is given.
#[derive(Clone, Debug)]
pub(crate) enum Of<'a> {
    Integer(i64),
    Digits(Cow<'a, str>),
}

impl Number<'_> {
    /// Its digits.
    pub(crate) fn digits(&self) -> Cow<'_, str> {
        match &self.0 {
            Of::Integer(number) => Cow::Owned(number.to_string()),
            Of::Digits(digits) => Cow::Borrowed(digits),
        }
    }
}

impl<'a> From<&'a str> for Number<'a> {
    fn from(text: &'a str) -> Number<'a> {
        Number(Of::Digits(Cow::Borrowed(text)))
    }
}

impl<'a> From<&'a String> for Number<'a> {
    fn from(text: &'a String) -> Number<'a> {
        Number::from(text.as_str())
    }
}

impl From<String> for Number<'_> {
    fn from(text: String) -> Self {
        Number(Of::Digits(Cow::Owned(text)))
    }
}

impl<'a> From<Cow<'a, str>> for Number<'a> {
    fn from(text: Cow<'a, str>) -> Number<'a> {
        Number(Of::Digits(text))
    }
}

macro_rules! of_integers {
    ($($type:ty)*) => {$(
        impl From<$type> for Number<'_> {
            fn from(number: $type) -> Self {
                Number(i64::try_from(number).map_or_else(|_| Of::Digits(number.to_string().into()), Of::Integer))
            }
        }
    )*};
}

of_integers!(i8 i16 i32 i64 i128 isize u8 u16 u32 u64 u128 usize);

macro_rules! of_floats {
    ($($type:ty)*) => {$(
        impl From<$type> for Number<'_> {
            // `Display` writes the shortest digits that give the number back, with no exponent, and what is not finite by letters,
            // which are no number
            fn from(number: $type) -> Self {
                Number(Of::Digits(number.to_string().into()))
            }
        }
    )*};
}

of_floats!(f32 f64);
