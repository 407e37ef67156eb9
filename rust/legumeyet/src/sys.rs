//! The functions of legumeyet.h.

use std::ffi::c_void;
use std::os::raw::c_char;

pub const OK: i32 = 0;
pub const TOO_SMALL: i32 = 3;

/// A book, a formatter or answers: in C each is a type of its own with these fields.
#[repr(C)]
pub struct Handle {
    content: *mut c_void,
    is_open: bool,
}

impl Handle {
    pub const CLOSED: Handle = Handle { content: std::ptr::null_mut(), is_open: false };
}

/// A shared formatter. The calls that read it leave it as it is.
#[repr(C)]
#[derive(Clone, Copy)]
pub struct SharedHandle {
    content: *const c_void,
    is_open: bool,
}

impl SharedHandle {
    pub const CLOSED: SharedHandle = SharedHandle { content: std::ptr::null(), is_open: false };
}

// SAFETY: what it shows stays for the rest of the program, and the library lets any number of threads read it at once.
unsafe impl Send for SharedHandle {}
// SAFETY: the same.
unsafe impl Sync for SharedHandle {}

#[repr(C)]
#[derive(Clone, Copy, Default)]
pub struct Interval {
    pub start: usize,
    pub end: usize,
    pub kind: u32,
}

#[rustfmt::skip]
extern "C" {
    pub fn legumeyet_book_open(json: *const u8, json_length: usize, book: *mut Handle) -> i32;
    pub fn legumeyet_book_open_world(book: *mut Handle) -> i32;
    pub fn legumeyet_world_locale(at: usize) -> *const c_char;
    pub fn legumeyet_book_close(book: *mut Handle) -> i32;
    pub fn legumeyet_book_keep(book: *mut Handle) -> i32;
    pub fn legumeyet_book_answer(book: *mut Handle, line: *const u8, line_length: usize, out: *mut u8, room: usize, length: *mut usize) -> i32;
    pub fn legumeyet_answers_open(book: *mut Handle, capacity: usize, answers: *mut Handle) -> i32;
    pub fn legumeyet_answers_close(answers: *mut Handle) -> i32;
    pub fn legumeyet_answers_answer(answers: *mut Handle, lines: *const u8, lines_length: usize, out: *mut u8, room: usize, read: *mut usize, written: *mut usize, needs: *mut usize) -> i32;
    pub fn legumeyet_book_locale_count(book: *mut Handle, count: *mut usize) -> i32;
    pub fn legumeyet_book_locale(book: *mut Handle, index: usize, out: *mut u8, room: usize, length: *mut usize) -> i32;
    pub fn legumeyet_book_found_locale(book: *mut Handle, tag: *const u8, tag_length: usize, out: *mut u8, room: usize, length: *mut usize) -> i32;
    pub fn legumeyet_formatter_open(book: *mut Handle, tag: *const u8, tag_length: usize, format: *const i32, format_words: usize, unit: *const u8, unit_length: usize, formatter: *mut Handle) -> i32;
    pub fn legumeyet_formatter_open_skeleton(book: *mut Handle, tag: *const u8, tag_length: usize, skeleton: *const u8, skeleton_length: usize, place: *mut usize, formatter: *mut Handle) -> i32;
    pub fn legumeyet_formatter_open_world(tag: *const u8, tag_length: usize, format: *const i32, format_words: usize, unit: *const u8, unit_length: usize, formatter: *mut Handle) -> i32;
    pub fn legumeyet_formatter_open_world_skeleton(tag: *const u8, tag_length: usize, skeleton: *const u8, skeleton_length: usize, place: *mut usize, formatter: *mut Handle) -> i32;
    pub fn legumeyet_skeleton_normal(skeleton: *const u8, skeleton_length: usize, place: *mut usize, out: *mut u8, room: usize, length: *mut usize) -> i32;
    pub fn legumeyet_formatter_close(formatter: *mut Handle) -> i32;
    pub fn legumeyet_formatter_share(formatter: *mut Handle, shared: *mut SharedHandle) -> i32;
    pub fn legumeyet_formatter_format(formatter: *mut Handle, number: *const u8, number_length: usize, options: *const i32, option_words: usize, out: *mut u8, room: usize, length: *mut usize) -> i32;
    pub fn legumeyet_formatter_format_i64(formatter: *mut Handle, mantissa: i64, exponent: i16, options: *const i32, option_words: usize, out: *mut u8, room: usize, length: *mut usize) -> i32;
    pub fn legumeyet_formatter_format_parts(formatter: *mut Handle, number: *const u8, number_length: usize, options: *const i32, option_words: usize, out: *mut u8, room: usize, length: *mut usize, intervals: *mut Interval, intervals_room: usize, count: *mut usize) -> i32;
    pub fn legumeyet_formatter_shown(formatter: *mut Handle, number: *const u8, number_length: usize, options: *const i32, option_words: usize, out: *mut u8, room: usize, length: *mut usize) -> i32;
    pub fn legumeyet_formatter_format_exact(formatter: *mut Handle, number: *const u8, number_length: usize, options: *const i32, option_words: usize, out: *mut u8, room: usize, length: *mut usize) -> i32;
    pub fn legumeyet_formatter_format_range(formatter: *mut Handle, first: *const u8, first_length: usize, second: *const u8, second_length: usize, options: *const i32, option_words: usize, out: *mut u8, room: usize, length: *mut usize) -> i32;
    pub fn legumeyet_formatter_tell(formatter: *mut Handle, fact: u32, out: *mut u8, room: usize, length: *mut usize) -> i32;
    pub fn legumeyet_formatter_read(formatter: *mut Handle, text: *const u8, text_length: usize, out: *mut u8, room: usize, length: *mut usize) -> i32;
    pub fn legumeyet_formatter_read_lenient(formatter: *mut Handle, text: *const u8, text_length: usize, out: *mut u8, room: usize, length: *mut usize) -> i32;
    pub fn legumeyet_formatter_format_doubles(formatter: *mut Handle, numbers: *const f64, number_count: usize, options: *const i32, option_words: usize, out: *mut u8, room: usize, ends: *mut usize, ends_room: usize, count: *mut usize) -> i32;
    pub fn legumeyet_formatter_format_integers(formatter: *mut Handle, mantissas: *const i64, mantissa_count: usize, exponent: i16, options: *const i32, option_words: usize, out: *mut u8, room: usize, ends: *mut usize, ends_room: usize, count: *mut usize) -> i32;
    pub fn legumeyet_formatter_format_texts(formatter: *mut Handle, numbers: *const u8, numbers_length: usize, options: *const i32, option_words: usize, out: *mut u8, room: usize, ends: *mut usize, ends_room: usize, count: *mut usize) -> i32;
    pub fn legumeyet_shared_formatter_format(formatter: *const SharedHandle, number: *const u8, number_length: usize, options: *const i32, option_words: usize, out: *mut u8, room: usize, length: *mut usize) -> i32;
    pub fn legumeyet_shared_formatter_format_i64(formatter: *const SharedHandle, mantissa: i64, exponent: i16, options: *const i32, option_words: usize, out: *mut u8, room: usize, length: *mut usize) -> i32;
    pub fn legumeyet_shared_formatter_format_parts(formatter: *const SharedHandle, number: *const u8, number_length: usize, options: *const i32, option_words: usize, out: *mut u8, room: usize, length: *mut usize, intervals: *mut Interval, intervals_room: usize, count: *mut usize) -> i32;
    pub fn legumeyet_shared_formatter_shown(formatter: *const SharedHandle, number: *const u8, number_length: usize, options: *const i32, option_words: usize, out: *mut u8, room: usize, length: *mut usize) -> i32;
    pub fn legumeyet_shared_formatter_format_exact(formatter: *const SharedHandle, number: *const u8, number_length: usize, options: *const i32, option_words: usize, out: *mut u8, room: usize, length: *mut usize) -> i32;
    pub fn legumeyet_shared_formatter_format_range(formatter: *const SharedHandle, first: *const u8, first_length: usize, second: *const u8, second_length: usize, options: *const i32, option_words: usize, out: *mut u8, room: usize, length: *mut usize) -> i32;
    pub fn legumeyet_shared_formatter_tell(formatter: *const SharedHandle, fact: u32, out: *mut u8, room: usize, length: *mut usize) -> i32;
    pub fn legumeyet_shared_formatter_read(formatter: *const SharedHandle, text: *const u8, text_length: usize, out: *mut u8, room: usize, length: *mut usize) -> i32;
    pub fn legumeyet_shared_formatter_read_lenient(formatter: *const SharedHandle, text: *const u8, text_length: usize, out: *mut u8, room: usize, length: *mut usize) -> i32;
    pub fn legumeyet_shared_formatter_format_doubles(formatter: *const SharedHandle, numbers: *const f64, number_count: usize, options: *const i32, option_words: usize, out: *mut u8, room: usize, ends: *mut usize, ends_room: usize, count: *mut usize) -> i32;
    pub fn legumeyet_shared_formatter_format_integers(formatter: *const SharedHandle, mantissas: *const i64, mantissa_count: usize, exponent: i16, options: *const i32, option_words: usize, out: *mut u8, room: usize, ends: *mut usize, ends_room: usize, count: *mut usize) -> i32;
    pub fn legumeyet_shared_formatter_format_texts(formatter: *const SharedHandle, numbers: *const u8, numbers_length: usize, options: *const i32, option_words: usize, out: *mut u8, room: usize, ends: *mut usize, ends_room: usize, count: *mut usize) -> i32;
    pub fn legumeyet_tag_of_locale_name(name: *const c_char, out: *mut u8, room: usize, length: *mut usize) -> i32;
    pub fn legumeyet_error_text(error: i32, out: *mut u8, room: usize, length: *mut usize) -> i32;
    pub fn legumeyet_version() -> u32;
    pub fn legumeyet_minor() -> u32;
}

/// The calls of a formatter that one call at a time has, by the ends of their names.
pub mod owned {
    pub use super::{
        legumeyet_formatter_format as format, legumeyet_formatter_format_doubles as format_doubles,
        legumeyet_formatter_format_exact as format_exact, legumeyet_formatter_format_i64 as format_i64,
        legumeyet_formatter_format_integers as format_integers, legumeyet_formatter_format_parts as format_parts,
        legumeyet_formatter_format_range as format_range, legumeyet_formatter_format_texts as format_texts,
        legumeyet_formatter_read as read, legumeyet_formatter_read_lenient as read_lenient, legumeyet_formatter_shown as shown,
        legumeyet_formatter_tell as tell,
    };
}

/// Those of a shared formatter.
pub mod shared {
    pub use super::{
        legumeyet_shared_formatter_format as format, legumeyet_shared_formatter_format_doubles as format_doubles,
        legumeyet_shared_formatter_format_exact as format_exact, legumeyet_shared_formatter_format_i64 as format_i64,
        legumeyet_shared_formatter_format_integers as format_integers, legumeyet_shared_formatter_format_parts as format_parts,
        legumeyet_shared_formatter_format_range as format_range, legumeyet_shared_formatter_format_texts as format_texts,
        legumeyet_shared_formatter_read as read, legumeyet_shared_formatter_read_lenient as read_lenient,
        legumeyet_shared_formatter_shown as shown, legumeyet_shared_formatter_tell as tell,
    };
}
