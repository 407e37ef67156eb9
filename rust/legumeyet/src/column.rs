//! Many numbers in one call.

use crate::{sys, Error, Number};
use std::{fmt, iter, ops};

/// The texts of many numbers, one after the other in one string: what `format_all`, `format_doubles` and `format_integers` write.
///
/// # Examples
///
/// ```
/// use legumeyet::{DecimalFormatter, Options};
///
/// let column = DecimalFormatter::new("de")?.format_doubles(&[1234.5, -7.0, 0.25], &Options::default())?;
/// assert_eq!((column.len(), &column[0], column.get(3)), (3, "1.234,5", None));
/// assert_eq!(column.iter().collect::<Vec<_>>(), ["1.234,5", "-7", "0,25"]);
/// # Ok::<(), Box<dyn std::error::Error>>(())
/// ```
#[derive(Clone, Debug, Default, PartialEq, Eq)]
pub struct Column {
    texts: String,
    ends: Vec<usize>,
}

impl Column {
    /// How many texts there are.
    #[must_use]
    pub fn len(&self) -> usize {
        self.ends.len()
    }

    /// Whether there is none.
    #[must_use]
    pub fn is_empty(&self) -> bool {
        self.ends.is_empty()
    }

    /// The text at a place, where there is one.
    #[must_use]
    pub fn get(&self, at: usize) -> Option<&str> {
        let start = at.checked_sub(1).map_or(Some(0), |before| self.ends.get(before).copied())?;
        self.texts.get(start..*self.ends.get(at)?)
    }

    /// The texts, in order.
    #[must_use]
    pub fn iter(&self) -> Texts<'_> {
        Texts { column: self, places: 0..self.len() }
    }

    /// All texts, with nothing between.
    #[must_use]
    pub fn as_str(&self) -> &str {
        &self.texts
    }

    /// What a call writes of `total` numbers, with as much room as they need: the call is passed the number to begin with, memory for texts
    /// and its length, memory for ends and its length, and where the count goes.
    pub(crate) fn written(
        total: usize,
        mut call: impl FnMut(usize, *mut u8, usize, *mut usize, usize, *mut usize) -> i32,
    ) -> Result<Column, ColumnError> {
        let (mut out, mut ends) = (vec![0; total.saturating_mul(16).saturating_add(64)], vec![0; total]);
        let (mut used, mut done) = (0, 0);
        loop {
            let (rest, next, mut count) = (&mut out[used..], &mut ends[done..], 0);
            let number = call(done, rest.as_mut_ptr(), rest.len(), next.as_mut_ptr(), next.len(), &mut count);
            next[..count].iter_mut().for_each(|end| *end += used);
            done += count;
            used = ends[..done].last().copied().unwrap_or(0);
            if number != sys::TOO_SMALL {
                out.truncate(used);
                ends.truncate(done);
                let column = Column { texts: String::from_utf8(out).expect("the library writes UTF-8"), ends };
                return match Error::check(number) {
                    Ok(()) => Ok(column),
                    Err(error) => Err(ColumnError { error, column }),
                };
            }
            out.resize(2 * out.len(), 0);
        }
    }
}

/// The text at a place.
///
/// # Panics
///
/// Where there is no text at the place: [`Column::get`] tells.
impl ops::Index<usize> for Column {
    type Output = str;

    #[track_caller]
    fn index(&self, at: usize) -> &str {
        match self.get(at) {
            Some(text) => text,
            None => panic!("there is no text at {at}: there are {}", self.len()),
        }
    }
}

impl<'a> IntoIterator for &'a Column {
    type Item = &'a str;
    type IntoIter = Texts<'a>;

    fn into_iter(self) -> Texts<'a> {
        self.iter()
    }
}

/// The texts of a column, in order.
#[derive(Clone, Debug)]
pub struct Texts<'a> {
    column: &'a Column,
    places: ops::Range<usize>,
}

impl<'a> Iterator for Texts<'a> {
    type Item = &'a str;

    fn next(&mut self) -> Option<&'a str> {
        self.column.get(self.places.next()?)
    }

    fn size_hint(&self) -> (usize, Option<usize>) {
        self.places.size_hint()
    }
}

impl ExactSizeIterator for Texts<'_> {}
impl iter::FusedIterator for Texts<'_> {}

/// Why a number of many was refused, and the texts of those before it: `at` says which it is, from 0 on.
///
/// # Examples
///
/// ```
/// use legumeyet::{DecimalFormatter, Error, Options};
///
/// let refused = DecimalFormatter::new("de")?.format_doubles(&[0.5, f64::NAN, 1.0], &Options::default()).unwrap_err();
/// assert_eq!((refused.error, refused.at(), &refused.column[0]), (Error::NUMBER, 1, "0,5"));
/// # Ok::<(), Error>(())
/// ```
#[derive(Clone, Debug, PartialEq, Eq)]
#[non_exhaustive]
pub struct ColumnError {
    /// Why the number was refused.
    pub error: Error,
    /// The texts of those before it.
    pub column: Column,
}

impl ColumnError {
    /// The place of the number.
    #[must_use]
    pub fn at(&self) -> usize {
        self.column.len()
    }
}

impl fmt::Display for ColumnError {
    fn fmt(&self, out: &mut fmt::Formatter<'_>) -> fmt::Result {
        if self.error == Error::OPTION {
            return self.error.fmt(out);
        }
        out.pad(&format!("{}: the number at {}", self.error, self.at()))
    }
}

impl std::error::Error for ColumnError {}

impl From<ColumnError> for Error {
    fn from(refused: ColumnError) -> Error {
        refused.error
    }
}

/// Numbers as lines, and where each begins. A text with a line feed inside would be two numbers: it is an empty line, which is refused as well.
pub(crate) fn lines_of<'a, N: Into<Number<'a>>>(numbers: impl IntoIterator<Item = N>) -> (Vec<u8>, Vec<usize>) {
    let (mut lines, mut begins) = (Vec::new(), Vec::new());
    for number in numbers {
        begins.push(lines.len());
        let number = number.into();
        let digits = number.digits();
        lines.extend_from_slice(if digits.contains('\n') { b"" } else { digits.as_bytes() });
        lines.push(b'\n');
    }
    (lines, begins)
}
