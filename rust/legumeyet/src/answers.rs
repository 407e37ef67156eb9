//! Answers to many request lines.

use crate::owned::Owned;
use crate::world::with_book;
use crate::{sys, Book, Error};

/// The answers to many request lines, by the formatters that were used last, as many as the capacity is: who has many lines of few tags
/// does not open a formatter for each, as `Book::answer` does. They may outlive the book.
///
/// # Examples
///
/// ```
/// use legumeyet::Answers;
///
/// let mut answers = Answers::new(512)?;
/// assert_eq!(answers.answer(b"de\tplain\tauto\tkeep\t-\t1234.5\nhi\tplain\n")?, b"ok\t1.234,5\nerr\tshape\n");
/// # Ok::<(), legumeyet::Error>(())
/// ```
///
/// They may move to another thread, and are used by one thread at a time:
///
/// ```compile_fail
/// fn is_shared<T: Sync>() {}
/// is_shared::<legumeyet::Answers>();
/// ```
#[derive(Debug)]
pub struct Answers(Owned);

impl Answers {
    /// Answers by the world's book, which the process opens once and keeps.
    ///
    /// # Errors
    ///
    /// [`Error::OPTION`] of a capacity of 0, or [`Error::MEMORY`].
    pub fn new(capacity: usize) -> Result<Answers, Error> {
        with_book(None, |book| Answers::open(book, capacity))
    }

    /// Answers by a book that is kept.
    ///
    /// # Errors
    ///
    /// [`Error::UNKEPT`] where the book is not kept, else as of [`Self::new`].
    pub fn open(book: &Book, capacity: usize) -> Result<Answers, Error> {
        // SAFETY: no other call has the book's handle, and `open` passes a closed one.
        let open = |answers| unsafe { sys::legumeyet_answers_open(book.0.at(), capacity, answers) };
        Owned::open(sys::legumeyet_answers_close, open).map(Answers)
    }

    /// The answers to the lines, in order, as `Book::answer` has them, each with a line feed. A last line without one is answered too.
    ///
    /// # Errors
    ///
    /// [`Error::MEMORY`].
    pub fn answer(&mut self, lines: &[u8]) -> Result<Vec<u8>, Error> {
        let whole = lines.iter().rposition(|it| *it == b'\n').map_or(0, |at| at + 1);
        let mut out = Vec::new();
        self.add(&lines[..whole], &mut out)?;
        if whole < lines.len() {
            self.add(&[&lines[whole..], b"\n"].concat(), &mut out)?;
        }
        Ok(out)
    }

    /// Adds the answers to lines that all end.
    fn add(&mut self, lines: &[u8], out: &mut Vec<u8>) -> Result<(), Error> {
        let (mut done, mut used) = (0, out.len());
        out.resize(used + lines.len() + 64, 0);
        loop {
            let (mut read, mut written, mut needs) = (0, 0, 0);
            let (from, into) = (&lines[done..], &mut out[used..]);
            let (into, room) = (into.as_mut_ptr(), into.len());
            // SAFETY: a slice is memory of its length, and no other call has the handle.
            let number = unsafe {
                sys::legumeyet_answers_answer(self.0.at(), from.as_ptr(), from.len(), into, room, &mut read, &mut written, &mut needs)
            };
            done += read;
            used += written;
            if number != sys::TOO_SMALL {
                out.truncate(used);
                return Error::check(number);
            }
            out.resize(out.len() + needs.max(out.len()), 0);
        }
    }
}
