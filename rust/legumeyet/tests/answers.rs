//! Answers to many lines, well and badly.

use legumeyet::{Answers, Book, Error};
use std::thread;

/// A German number.
const GERMAN: &[u8] = b"de\tplain\tauto\tkeep\t-\t1234.5";

/// What the book says to a line, with a line feed.
fn said(book: &Book, line: &[u8]) -> Vec<u8> {
    format!("{}\n", book.answer(line).unwrap()).into_bytes()
}

#[test]
fn opened() {
    let book = Book::world().unwrap();
    assert_eq!(Answers::open(&book, 0).unwrap_err(), Error::UNKEPT);
    assert_eq!(Answers::new(0).unwrap_err(), Error::OPTION);
    book.keep().unwrap();
    assert_eq!(Answers::open(&book, 0).unwrap_err(), Error::OPTION);
    assert_eq!(Answers::open(&book, usize::MAX).unwrap_err(), Error::MEMORY);
    let (mut few, mut many) = (Answers::open(&book, 1).unwrap(), Answers::open(&book, 10_000).unwrap());
    drop(book);
    assert_eq!(few.answer(GERMAN).unwrap(), b"ok\t1.234,5\n");
    assert_eq!(many.answer(GERMAN).unwrap(), few.answer(GERMAN).unwrap());
    let empty = Book::from_json(b"[[],[],[],[],[]]").unwrap();
    empty.keep().unwrap();
    assert_eq!(Answers::open(&empty, 1).unwrap().answer(GERMAN).unwrap(), b"err\ttable\n");
}

#[test]
fn lines() {
    let (book, mut answers) = (Book::world().unwrap(), Answers::new(2).unwrap());
    assert_eq!(answers.answer(b"").unwrap(), b"");
    assert_eq!(answers.answer(b"\n").unwrap(), b"err\tshape\n");
    let long = [b"de\tplain\tauto\tkeep\t-\t".to_vec(), vec![b'1'; 30_000]].concat();
    let mut asked = vec![long, vec![b'x'; 100_000], b"\0".to_vec(), b"\xff".to_vec(), b"de\tplain\tauto\tkeep\t-\t1e30000".to_vec()];
    for tag in ["de", "fr", "hi", "en", "de", "xx", "e"] {
        for number in ["1234567.891", "5.", "1e300", "\u{ff}", "1\0", "1\r", ""] {
            asked.push(format!("{tag}\tplain\tauto\tkeep\t-\t{number}").into_bytes());
        }
    }
    let wanted: Vec<u8> = asked.iter().flat_map(|line| said(&book, line)).collect();
    let mut lines = asked.join(&b'\n');
    assert_eq!(answers.answer(&lines).unwrap(), wanted);
    lines.push(b'\n');
    assert_eq!(answers.answer(&lines).unwrap(), wanted);
    assert_eq!(answers.answer(&lines.repeat(20)).unwrap(), wanted.repeat(20));
    for line in &asked {
        assert_eq!(answers.answer(line).unwrap(), said(&book, line));
    }
}

#[test]
fn threads() {
    let mut answers = Answers::new(2).unwrap();
    let lines = [GERMAN, b"\n"].concat().repeat(2000);
    let found = thread::scope(|scope| {
        let moved = scope.spawn(|| answers.answer(&lines).unwrap());
        let other = Answers::new(1).unwrap().answer(&lines).unwrap();
        assert_eq!(moved.join().unwrap(), other);
        other
    });
    assert_eq!(found, b"ok\t1.234,5\n".repeat(2000));
    assert_eq!(format!("{answers:?}"), "Answers(..)");
}
