use crate::{owned::written_bytes, sys, Book, Error};
use std::ffi::{CStr, CString};
use std::process;
use std::ptr;
use std::sync::atomic::{AtomicPtr, AtomicU32, Ordering};
use std::sync::{Mutex, PoisonError};

/// The world's book of a process. It is never given back.
struct World {
    process: u32,
    book: Mutex<Book>,
}

static WORLD: AtomicPtr<World> = AtomicPtr::new(ptr::null_mut());

/// How many formatters are opened of their tags alone, each in some hundredth of the time that the book takes.
const FEW: u32 = 16;
static ALONE: AtomicU32 = AtomicU32::new(0);

/// What is stored, where it is of a process.
fn mine(at: *mut World, process: u32) -> Option<&'static World> {
    // SAFETY: what is stored is never given back.
    unsafe { at.as_ref() }.filter(|it| it.process == process)
}

/// The world's book of this process, which the first call opens. A forked child opens its own, since a thread that is not in it may have
/// had the book's lock.
fn of_process() -> Result<&'static World, Error> {
    let process = process::id();
    let mut found = WORLD.load(Ordering::Acquire);
    if let Some(world) = mine(found, process) {
        return Ok(world);
    }
    let made = Box::into_raw(Box::new(World { process, book: Mutex::new(Book::world()?) }));
    loop {
        match WORLD.compare_exchange(found, made, Ordering::AcqRel, Ordering::Acquire) {
            // SAFETY: nothing gives it back from now on.
            Ok(_) => return Ok(unsafe { &*made }),
            Err(other) => found = other,
        }
        if let Some(world) = mine(found, process) {
            // SAFETY: it was not stored, so nobody else has it.
            drop(unsafe { Box::from_raw(made) });
            return Ok(world);
        }
    }
}

/// Whether a formatter for which no book is given is opened of its tag alone: the first ones are, while the process has no book.
fn opens_alone() -> bool {
    mine(WORLD.load(Ordering::Acquire), process::id()).is_none() && ALONE.fetch_add(1, Ordering::Relaxed) < FEW
}

/// Calls with the book by which a formatter is opened, one call at a time, or with none where it is opened of its tag alone.
pub(crate) fn opening<T, E: From<Error>>(book: Option<&Book>, call: impl FnOnce(Option<&Book>) -> Result<T, E>) -> Result<T, E> {
    if book.is_none() && opens_alone() {
        return call(None);
    }
    with_book(book, |book| call(Some(book)))
}

/// Calls with a book, or with the world's of this process, which is kept, one call at a time.
pub(crate) fn with_book<T, E: From<Error>>(book: Option<&Book>, call: impl FnOnce(&Book) -> Result<T, E>) -> Result<T, E> {
    if let Some(book) = book {
        return call(book);
    }
    let book = of_process()?.book.lock().unwrap_or_else(PoisonError::into_inner);
    book.keep()?;
    call(&book)
}

/// The tags of the world's locales, in order.
///
/// # Examples
///
/// ```
/// assert!(legumeyet::world_locales().any(|tag| tag == "de-AT"));
/// ```
pub fn world_locales() -> impl Iterator<Item = &'static str> {
    (0..).map_while(|at| {
        // SAFETY: it takes any number, and the text that it returns is never given back.
        let tag = unsafe { sys::legumeyet_world_locale(at).as_ref() }?;
        // SAFETY: the text ends with a NUL.
        unsafe { CStr::from_ptr(tag) }.to_str().ok()
    })
}

/// The tag of a locale's name, as `LANG` and `setlocale` give it: codeset and modifier are cut, and each `_` becomes `-`. `C`, `POSIX` and an
/// empty name are `en`. Whether a formatter can be opened of the tag is not looked at.
///
/// # Examples
///
/// ```
/// use legumeyet::tag_of_locale_name;
///
/// assert_eq!(tag_of_locale_name("de_DE.UTF-8"), "de-DE");
/// assert_eq!(tag_of_locale_name("C"), "en");
/// ```
#[allow(clippy::missing_panics_doc)] // it does not panic: there is room, and the text is UTF-8
#[must_use]
pub fn tag_of_locale_name(name: &str) -> String {
    // no name that C gives has a NUL inside
    let name = CString::new(name.split('\0').next().unwrap_or_default()).unwrap_or_default();
    // SAFETY: the name ends with a NUL, and `written_bytes` passes memory that is as long as it says.
    let tag = written_bytes(|out, room, length| unsafe { sys::legumeyet_tag_of_locale_name(name.as_ptr(), out, room, length) });
    String::from_utf8(tag.expect("there is room")).expect("a name that is cut before an ASCII character is UTF-8")
}
