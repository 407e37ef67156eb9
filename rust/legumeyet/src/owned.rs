use crate::{sys, Error, Kind, Parts, WriteError};
use std::cell::UnsafeCell;
use std::fmt;

/// A handle that is closed when it is dropped. It is not `Sync`: one call at a time has it.
pub(crate) struct Owned {
    handle: UnsafeCell<sys::Handle>,
    close: unsafe extern "C" fn(*mut sys::Handle) -> i32,
}

// SAFETY: the library lets a handle be used in another thread than the one that opened it.
unsafe impl Send for Owned {}

impl Owned {
    /// What a call opens.
    pub(crate) fn open(
        close: unsafe extern "C" fn(*mut sys::Handle) -> i32,
        call: impl FnOnce(*mut sys::Handle) -> i32,
    ) -> Result<Owned, Error> {
        let owned = Owned { handle: UnsafeCell::new(sys::Handle::CLOSED), close };
        Error::check(call(owned.at()))?;
        Ok(owned)
    }

    /// The handle, for one call, which calls nothing back.
    pub(crate) fn at(&self) -> *mut sys::Handle {
        self.handle.get()
    }
}

impl fmt::Debug for Owned {
    fn fmt(&self, out: &mut fmt::Formatter<'_>) -> fmt::Result {
        out.write_str("..")
    }
}

impl Drop for Owned {
    fn drop(&mut self) {
        // SAFETY: the handle is open or closed, and nobody else has it.
        unsafe { (self.close)(self.at()) };
    }
}

/// A handle of a shared formatter, which is open. It is copied as its 16 bytes are, and what it shows is never given back.
#[derive(Clone, Copy)]
pub(crate) struct Shared(sys::SharedHandle);

impl Shared {
    /// What is shared of a formatter, which is open.
    pub(crate) fn of(formatter: &Owned) -> Shared {
        let mut handle = sys::SharedHandle::CLOSED;
        // SAFETY: no other call has either handle.
        let number = unsafe { sys::legumeyet_formatter_share(formatter.at(), &mut handle) };
        assert_eq!(number, sys::OK, "a formatter is open");
        Shared(handle)
    }

    /// The handle, for any number of calls.
    pub(crate) fn at(&self) -> *const sys::SharedHandle {
        &self.0
    }
}

impl fmt::Debug for Shared {
    fn fmt(&self, out: &mut fmt::Formatter<'_>) -> fmt::Result {
        out.write_str("..")
    }
}

/// The bytes that a call writes, with as much room as it needs: the call is passed memory, its length, and where the text's length goes.
pub(crate) fn written_bytes(mut call: impl FnMut(*mut u8, usize, *mut usize) -> i32) -> Result<Vec<u8>, Error> {
    let (mut out, mut length) = (vec![0; 64], 0);
    let mut number = call(out.as_mut_ptr(), out.len(), &mut length);
    if number == sys::TOO_SMALL {
        out.resize(length, 0);
        number = call(out.as_mut_ptr(), out.len(), &mut length);
    }
    Error::check(number)?;
    out.truncate(length);
    Ok(out)
}

/// The same of a text.
pub(crate) fn written(call: impl FnMut(*mut u8, usize, *mut usize) -> i32) -> Result<String, Error> {
    Ok(String::from_utf8(written_bytes(call)?).expect("the library writes UTF-8"))
}

/// Writes the text that a call writes into what takes texts: of memory on the stack, where it has room.
pub(crate) fn written_to(into: &mut impl fmt::Write, mut call: impl FnMut(*mut u8, usize, *mut usize) -> i32) -> Result<(), WriteError> {
    let (mut small, mut length) = ([0; 128], 0);
    let number = call(small.as_mut_ptr(), small.len(), &mut length);
    if number == sys::TOO_SMALL {
        return Ok(into.write_str(&written(call)?)?);
    }
    Error::check(number)?;
    Ok(into.write_str(std::str::from_utf8(&small[..length]).expect("the library writes UTF-8"))?)
}

/// The same with parts: the call is also passed memory for them, their room, and where their count goes.
pub(crate) fn annotated(
    mut call: impl FnMut(*mut u8, usize, *mut usize, *mut sys::Interval, usize, *mut usize) -> i32,
) -> Result<(String, Parts), Error> {
    let (mut found, mut count) = (vec![sys::Interval::default(); 16], 0);
    let text = written(|out, room, length| {
        found.resize(found.len().max(count), sys::Interval::default());
        call(out, room, length, found.as_mut_ptr(), found.len(), &mut count)
    })?;
    Ok((text, found[..count].iter().map(|it| (Kind::of(it.kind), it.start..it.end)).collect()))
}
