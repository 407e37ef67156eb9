//! Each call well and badly.
// (threads that are collected are all begun before the first is waited for)
#![allow(clippy::needless_collect)]

use legumeyet::{
    Book, CompactDecimalFormatter, CurrencyFormatter, CurrencyOptions, CurrencyStyle, CurrencyWidth, DecimalFormatter, Error, Grouping,
    Increment, Kind, NumberFormatter, OpenError, Options, PercentFormatter, Rounding, RoundingPriority, Sign, TrailingZeros, UnknownWord,
    Width, WriteError,
};
use std::{collections::HashMap, env, fmt, fs, io, process, thread};

const JSON: &str = r#"[[["en","","latn","-","","+","",".",",",3,3,1],["bad","","latn","","","+","",".",",",3,3,1]],
[["latn","0123456789"]],[["en",[]]],[["en","",[[3,3,[["other",["","K"]]]],[6,6,[["other",["","M"]]]]],null]],
[["en","",[[3,3,[["other",[""," thousand"]]]]],null]]]"#;

fn book() -> Book {
    Book::from_json(JSON.as_bytes()).unwrap()
}

fn english() -> DecimalFormatter {
    DecimalFormatter::from_book(&book(), "en", Grouping::Auto).unwrap()
}

fn compact(width: Width) -> CompactDecimalFormatter {
    CompactDecimalFormatter::from_book(&book(), "en", width, Grouping::Min2).unwrap()
}

#[test]
fn numbers() {
    let english = english();
    let long = "1".repeat(1000);
    for (number, want) in [("-987654.321", "-987,654.321"), ("+5.0", "+5.0"), ("-0", "-0")] {
        assert_eq!(english.format(number).unwrap(), want);
    }
    assert_eq!(english.format(&long).unwrap().len(), 1333);
    assert_eq!(english.format_i64(i64::MIN, 0, &Options::default()).unwrap(), "-9,223,372,036,854,775,808");
    assert_eq!(english.format_i64(500, -2, &Options::default()).unwrap(), "5.00");
    assert_eq!(english.format_i64(-123_456, 1, &Options::default()).unwrap(), "-1,234,560");
    let rounded = Options::default().sign(Sign::Always).rounded(Rounding::HalfEven, -1);
    assert_eq!(english.format_with("9.65", &rounded).unwrap(), "+9.6");
    for (number, error) in [("5.", Error::NUMBER), ("", Error::NUMBER), ("1\0", Error::NUMBER), ("1e40000", Error::LIMIT)] {
        assert_eq!(english.format(number), Err(error), "{number}");
    }
    assert_eq!(english.format("9".repeat(40000)), Err(Error::LIMIT));
    assert_eq!(english.format_i64(10, i16::MAX, &Options::default()), Err(Error::LIMIT));
}

#[test]
fn numbers_of_all_types() {
    let (english, short, as_given) = (english(), compact(Width::Short), Options::default());
    assert_eq!(english.format(i128::MIN).unwrap().len(), 52);
    for text in [english.format(-1i8), english.format(-1isize), english.format(-1.0f32)] {
        assert_eq!(text.unwrap(), "-1");
    }
    assert_eq!(english.format(u64::MAX).unwrap(), "18,446,744,073,709,551,615");
    assert_eq!(english.format(1234usize).unwrap(), "1,234");
    let text = String::from("1.50");
    assert_eq!(english.format(&text).unwrap(), "1.50");
    assert_eq!(english.format(text).unwrap(), "1.50");
    for (number, text) in [
        (0.1, "0.1"),
        (5.0, "5"),
        (-0.0, "-0"),
        (1e21, "1,000,000,000,000,000,000,000"),
        (1e-7, "0.0000001"),
        (0.1 + 0.2, "0.30000000000000004"),
    ] {
        assert_eq!(english.format(number).unwrap(), text);
    }
    assert_eq!(english.format(0.1f32).unwrap(), "0.1");
    assert_eq!(english.format(f64::MAX).unwrap().len(), 411);
    for number in [f64::NAN, f64::INFINITY, f64::NEG_INFINITY] {
        assert_eq!(english.format(number), Err(Error::NUMBER));
        assert_eq!(short.shown(number, &as_given), Err(Error::NUMBER));
    }
    assert_eq!(short.format(-1_172_700).unwrap(), "-1.2M");
    assert_eq!(short.format(1250.5).unwrap(), "1.3K");
    assert_eq!(short.shown(u64::MAX, &as_given).unwrap(), "18446744073710c6");
    assert_eq!(english.format_parts(-5, &as_given).unwrap().1, [(Kind::MinusSign, 0..1), (Kind::Integer, 1..2)]);
    assert_eq!(english.format_parts(u64::MAX, &as_given).unwrap().0, "18,446,744,073,709,551,615");
}

/// Takes texts up to a length.
struct Short(String, usize);

impl fmt::Write for Short {
    fn write_str(&mut self, text: &str) -> fmt::Result {
        if self.0.len() + text.len() > self.1 {
            return Err(fmt::Error);
        }
        self.0.push_str(text);
        Ok(())
    }
}

#[test]
fn writes() {
    let (english, short, as_given) = (english(), compact(Width::Short), Options::default());
    let mut text = String::from("it is ");
    english.write_to(&mut text, 1234, &as_given).unwrap();
    short.write_to(&mut text, "-1172700", &as_given).unwrap();
    assert_eq!(text, "it is 1,234-1.2M");
    english.write_to(&mut text, "1".repeat(1000), &as_given).unwrap();
    assert_eq!(text.len(), 16 + 1333);
    let mut short = Short(String::new(), 4);
    assert_eq!(english.write_to(&mut short, "5.", &as_given), Err(WriteError::Number(Error::NUMBER)));
    assert_eq!(english.write_to(&mut short, 1234, &as_given), Err(WriteError::Write(fmt::Error)));
    assert_eq!(english.write_to(&mut short, 123, &as_given), Ok(()));
    assert_eq!(short.0, "123");
    assert_eq!(WriteError::Number(Error::NUMBER).to_string(), Error::NUMBER.to_string());
}

#[test]
fn words() {
    for word in ["keep", "auto", "never", "always", "except-zero", "negative"] {
        assert_eq!(word.parse::<Sign>().unwrap().to_string(), word);
    }
    let modes = "keep expand trunc ceil floor half-expand half-trunc half-ceil half-floor half-even cash none";
    for word in modes.split(' ') {
        assert_eq!(word.parse::<Rounding>().unwrap().to_string(), word);
    }
    assert_eq!("min2".parse(), Ok(Grouping::Min2));
    assert_eq!("accounting".parse(), Ok(CurrencyStyle::Accounting));
    assert_eq!(CurrencyWidth::Symbol.to_string(), "symbol");
    assert_eq!(format!("{:>6}", Width::Long), "  long");
    assert_eq!("Auto".parse::<Grouping>(), Err(UnknownWord));
    assert_eq!("5".parse::<Width>(), Err(UnknownWord));
    assert_eq!(JSON.parse::<Book>().unwrap().answer(b"en\tplain\tauto\tkeep\t-\t1234").unwrap(), "ok\t1,234");
    assert_eq!("[]".parse::<Book>().err(), Some(Error::BOOK_SHAPE));
    assert_eq!("e".parse::<DecimalFormatter>().err(), Some(Error::TAG));
}

#[test]
fn reads() {
    let (english, long) = (english(), "1".repeat(1000));
    for (text, number) in [("-1,234.50", "-1234.50"), ("+5", "+5"), ("-0", "-0")] {
        assert_eq!(english.read(text).unwrap(), number);
    }
    assert_eq!(english.read(&english.format(&long).unwrap()).unwrap(), long);
    for text in ["98,7654", "1234", "", "1\0", "٣"] {
        assert_eq!(english.read(text), Err(Error::NOT_WRITTEN), "{text}");
    }
    let bad = DecimalFormatter::from_book(&book(), "bad", Grouping::Auto).unwrap();
    assert_eq!(bad.read("1"), Err(Error::UNREADABLE));
}

#[test]
fn reads_leniently() {
    let english = english();
    for (text, number) in [(" 1234.5 ", "1234.5"), ("1,234.5", "1234.5"), (".5", "0.5"), ("5.", "5"), ("\u{2212}5", "-5")] {
        assert_eq!(english.read_lenient(text).as_deref(), Ok(number), "{text}");
    }
    for text in ["1,23", "1,234,5", "1 234", ""] {
        assert_eq!(english.read_lenient(text), Err(Error::NOT_WRITTEN), "{text}");
    }
}

/// What is typed in ASCII is read by second tables where the digits of the locale are others, and never as another number.
#[test]
fn reads_ascii_where_digits_are_others() {
    let book = Book::world().unwrap();
    let line = |tag: &str, form: &str, text: &str| book.answer(format!("{tag}\t{form}\tauto\tkeep\t-\t{text}").as_bytes()).unwrap();
    let said = |read: Result<String, Error>| read.map_or("err\tnot-written".to_string(), |number| format!("ok\t{number}"));
    for tag in ["ar-EG", "fa", "mr", "de", "km-u-nu-khmr", "hi-u-nu-deva"] {
        let (plain, dollars) = (DecimalFormatter::new(tag).unwrap(), CurrencyFormatter::new(tag, "USD").unwrap());
        for text in ["1234", "1,234.5", "1.234,5", "1,234", "1.234", "1,23", "-5", "١٬٢٣٤٫٥", "۱٬۲۳۴٫۵", "5 USD", "x"] {
            assert_eq!(said(plain.read_lenient(text)), line(tag, "read-lenient", text), "{tag} {text}");
            assert_eq!(said(dollars.read_lenient(text)), line(tag, "read-lenient-currency-USD", text), "{tag} {text}");
        }
    }
    let arabic = DecimalFormatter::new("ar-EG").unwrap();
    assert_eq!(arabic.read_lenient("1,234.5").as_deref(), Ok("1234.5"));
    assert_eq!(arabic.share().read_lenient("1,234.5").as_deref(), Ok("1234.5"));
    assert_eq!(PercentFormatter::new("ar-EG").unwrap().read_lenient("1,234.5%").as_deref(), Ok("1234.5"));
}

#[test]
fn reads_units_leniently() {
    let (euros, percents) = (CurrencyFormatter::new("en", "EUR").unwrap(), PercentFormatter::new("tr").unwrap());
    for (text, number) in
        [("-€1,234.50", "-1234.50"), (" €1234.5 ", "1234.5"), ("1,234.5 €", "1234.5"), ("EUR 5", "5"), ("5 EUR", "5"), ("-5", "-5")]
    {
        assert_eq!(euros.read_lenient(text).as_deref(), Ok(number), "{text}");
    }
    for text in ["$5.00", "€1,23", "5 euros", ""] {
        assert_eq!(euros.read_lenient(text), Err(Error::NOT_WRITTEN), "{text}");
    }
    for (text, number) in [("%12,5", "12.5"), ("12,5 %", "12.5"), ("1.234,5", "1234.5")] {
        assert_eq!(percents.read_lenient(text).as_deref(), Ok(number), "{text}");
    }
}

#[test]
fn own_options() {
    let cents = Options::default().rounded(Rounding::HalfEven, -2).sign(Sign::Always);
    let own = english().options(&cents);
    assert_eq!(own.format(1234.567).unwrap(), "+1,234.57");
    assert_eq!(own.format_with(1234.567, None).unwrap(), "+1,234.57");
    assert_eq!(own.format_with(1234.567, &Options::default()).unwrap(), "1,234.567");
    assert_eq!(own.format_i64(5, 0, None).unwrap(), "+5.00");
    assert_eq!(own.format_parts(5, None).unwrap().0, "+5.00");
    assert_eq!(own.shown("5", None).unwrap(), "+5.00");
    let mut line = String::new();
    own.write_to(&mut line, 0.125, None).unwrap();
    assert_eq!(line, "+0.12");
    assert_eq!(own.format_doubles(&[0.5, 2.0], None).unwrap().as_str(), "+0.50+2.00");
    assert_eq!(own.format_integers(&[1, 2], -1, None).unwrap().as_str(), "+0.10+0.20");
    assert_eq!(own.format_all(["1", "2"], None).unwrap().as_str(), "+1.00+2.00");
    let shared = own.share();
    assert_eq!(shared.format(5).unwrap(), "+5.00");
    assert_eq!(shared.format_with(5, &Options::default()).unwrap(), "5");
    assert_eq!(shared.read("5.00").unwrap(), "5.00");
    let percents = NumberFormatter::skeleton(None, "en", "percent .0").unwrap();
    assert_eq!(percents.format(5).unwrap(), "5.0%");
    assert_eq!(percents.options(&cents).format(5).unwrap(), "+5.00%");
    let dollars = CurrencyFormatter::new("en", "USD").unwrap().options(&Options::default().rounding(Rounding::None));
    assert_eq!(dollars.format(5).unwrap(), "$5");
    assert_eq!(compact(Width::Short).options(&Options::default().sign(Sign::Always)).format(1650).unwrap(), "+1.6K");
}

#[test]
fn newer_options() {
    let english = english();
    let trimmed = Options::default().rounded(Rounding::HalfEven, -2).trailing_zeros(TrailingZeros::Trim);
    for (number, options, text) in [
        (1.995, trimmed, "2"),
        (1.5, trimmed, "1.5"),
        (1.995, trimmed.minimum_fraction_digits(1), "2.0"),
        (1.23, Options::default().rounded(Rounding::HalfEven, -2).increment(Increment::Five), "1.25"),
        (1.26, Options::default().rounded(Rounding::HalfEven, -2).increment(Increment::Fifty), "1.50"),
        (1.26, trimmed.increment(Increment::Fifty), "1.5"),
        (1234.0, Options::default().rounded(Rounding::HalfEven, 0).increment(Increment::TwoHundredFifty), "1,250"),
        (2499.0, Options::default().rounded(Rounding::HalfEven, 0).increment(Increment::FiveThousand), "0"),
        (7.0, Options::default().minimum_integer_digits(3), "007"),
    ] {
        assert_eq!(english.format_with(number, &options).unwrap(), text);
    }
    assert_eq!(english.format_with(1, &Options::default().minimum_integer_digits(32768)), Err(Error::OPTION));
    assert_eq!(
        english.format_with(1, &Options::default().rounded(Rounding::HalfEven, i16::MAX).increment(Increment::Ten)),
        Err(Error::OPTION)
    );
    assert_eq!(["25", "2500"].map(|it| it.parse::<Increment>().unwrap()), [Increment::TwentyFive, Increment::TwoThousandFiveHundred]);
    let increments = [1, 2, 5, 10, 20, 25, 50, 100, 200, 250, 500, 1000, 2000, 2500, 5000];
    assert_eq!(increments.map(|it: i32| it.to_string().parse::<Increment>().unwrap() as i32), increments);
    assert_eq!(TrailingZeros::Trim.to_string(), "trim");
    let by_options = HashMap::from([((Options::default(), CurrencyOptions::default()), 0), ((trimmed, CurrencyOptions::default()), 1)]);
    assert_eq!(by_options[&(trimmed, CurrencyOptions::default())], 1);
    assert!((legumeyet::version(), legumeyet::minor()) >= (2, 0));
}

#[test]
fn significant_digits() {
    let (english, none) = (english(), Options::default());
    let [least, most, two] = [none.minimum_significant_digits(3), none.maximum_significant_digits(3), none.maximum_significant_digits(2)];
    let (either, whole) = (two.rounded(Rounding::HalfEven, -1), TrailingZeros::TrimWhole);
    let [more, less] = [RoundingPriority::MorePrecision, RoundingPriority::LessPrecision].map(|it| either.rounding_priority(it));
    let all = none.rounded(Rounding::HalfEven, -3).trailing_zeros(TrailingZeros::TrimAll).minimum_fraction_digits(2);
    for (number, options, text) in [
        (12345.0, most, "12,300"),
        (-0.012_345, most, "-0.0123"),
        (5.0, least, "5.00"),
        (0.0, least, "0.00"),
        (12345.678, least, "12,345.678"),
        (1.999, most.minimum_significant_digits(2), "2.0"),
        (5.0, least.trailing_zeros(whole), "5"),
        (5.1, least.trailing_zeros(whole), "5.10"),
        (2.15, most.maximum_significant_digits(2).rounding(Rounding::Ceil), "2.2"),
        (1234.56, either, "1,200"),
        (1234.56, more, "1,234.6"),
        (1234.56, less, "1,200"),
        (1.04, more, "1"),
        (1.04, less, "1.0"),
        (1.9996, all, "2"),
        (1.5, all, "1.50"),
    ] {
        assert_eq!(english.format_with(number, &options).unwrap(), text, "{number} {options:?}");
    }
    for wrong in [
        most.minimum_significant_digits(4),
        most.rounding(Rounding::Cash),
        most.rounding(Rounding::None),
        most.increment(Increment::Two),
        most.rounding_priority(RoundingPriority::MorePrecision),
        none.rounded(Rounding::Floor, 0).rounding_priority(RoundingPriority::LessPrecision),
    ] {
        assert_eq!(english.format_with(1, &wrong), Err(Error::OPTION), "{wrong:?}");
    }
    assert_eq!(["more", "less", "auto"].map(|it| it.parse::<RoundingPriority>().unwrap().to_string()), ["more", "less", "auto"]);
    assert_eq!((TrailingZeros::TrimAll.to_string(), "on-aligned".parse()), ("trim-all".to_string(), Ok(Grouping::OnAligned)));
}

#[test]
fn compact_numbers() {
    let (short, nines) = (compact(Width::Short), "9".repeat(32768));
    for (number, text, value) in [("-1172700", "-1.2M", "-1.2c6"), ("950", "950", "950"), ("12345678901", "12,346M", "12346c6")] {
        assert_eq!(short.format(number).unwrap(), text);
        assert_eq!(short.shown(number, &Options::default()).unwrap(), value);
        assert_eq!(short.format_exact(value, &Options::default()).unwrap(), text);
    }
    assert_eq!(compact(Width::Long).format_i64(165, 1, &Options::default()).unwrap(), "1.6 thousand");
    let rounded = Options::default().sign(Sign::Always).rounded(Rounding::Trunc, 6);
    assert_eq!(short.format_with("1250000", &rounded).unwrap(), "+1M");
    assert_eq!(short.format_parts("-1650", &Options::default()).unwrap(), ("-1.6K".to_string(), vec![(Kind::MinusSign, 0..1)]));
    assert_eq!(short.format("5."), Err(Error::NUMBER));
    assert_eq!(short.format_i64(10, i16::MAX, &Options::default()), Err(Error::LIMIT));
    assert_eq!(short.format(&nines), Err(Error::RANGE));
    assert_eq!(short.shown(&nines, &Options::default()), Err(Error::RANGE));
    assert_eq!(short.format_parts(&nines, &Options::default()), Err(Error::RANGE));
    for (number, error) in [("1.2e6", Error::NUMBER), ("1c256", Error::LIMIT), ("1.2c5", Error::EXPONENT)] {
        assert_eq!(short.format_exact(number, &Options::default()), Err(error), "{number}");
    }
    for (tag, error) in [("e", Error::TAG), ("xx", Error::TABLE), ("bad", Error::TABLE)] {
        assert_eq!(CompactDecimalFormatter::from_book(&book(), tag, Width::Short, Grouping::Min2).err(), Some(error));
    }
}

#[test]
fn parts() {
    let english = english();
    let (text, parts) = english.format_parts("-1234.5", &Options::default()).unwrap();
    let texts: Vec<_> = parts.iter().map(|(kind, range)| (*kind, &text[range.clone()])).collect();
    let wanted = [(Kind::MinusSign, "-"), (Kind::Integer, "1,234"), (Kind::Group, ","), (Kind::Decimal, "."), (Kind::Fraction, "5")];
    assert_eq!(texts, wanted);
    let (text, parts) = english.format_parts("1".repeat(1000), &Options::default()).unwrap();
    assert_eq!((text.len(), parts.len()), (1333, 334));
    assert_eq!(english.format_parts("5.", &Options::default()), Err(Error::NUMBER));
}

#[test]
fn answers() {
    let (book, line) = (book(), "en\tplain\tauto\tkeep\t-\t");
    assert_eq!(book.answer(format!("{line}-987654.321").as_bytes()).unwrap(), "ok\t-987,654.321");
    assert_eq!(book.answer(format!("{line}{}", "1".repeat(1000)).as_bytes()).unwrap().len(), 1336);
    for (asked, word) in [(&b""[..], "shape"), (b"\xff", "shape"), (b"e\tplain\tauto\tkeep\t-\t1", "tag")] {
        assert_eq!(book.answer(asked).unwrap(), format!("err\t{word}"));
    }
}

#[test]
fn books_and_tags() {
    for (json, error) in [
        (&b"[1"[..], Error::BOOK_JSON),
        (b"", Error::BOOK_JSON),
        (b"\xff", Error::BOOK_JSON),
        (b"[]", Error::BOOK_SHAPE),
        (br#"[[],[],[],[],[],[["en","en"]]]"#, Error::BOOK_CYCLE),
    ] {
        assert_eq!(Book::from_json(json).err(), Some(error));
    }
    for (tag, error) in [("e", Error::TAG), ("", Error::TAG), (&"a".repeat(100_000), Error::TAG), ("xx", Error::TABLE)] {
        assert_eq!(DecimalFormatter::from_book(&book(), tag, Grouping::Auto).err(), Some(error));
    }
    assert_eq!(Error::TAG.number(), 5);
    assert_eq!(Error::TAG.to_string(), "no locale tag (`de_DE` is written `de-DE`)");
    assert_eq!(Error::TABLE.to_string(), "the book lacks a table for the tag");
}

#[test]
fn kept() {
    let book = book();
    book.keep().unwrap();
    book.keep().unwrap();
    let english = DecimalFormatter::from_book(&book, "en", Grouping::Auto).unwrap();
    let short = CompactDecimalFormatter::from_book(&book, "en", Width::Short, Grouping::Min2).unwrap();
    assert_eq!(book.answer(b"en\tplain\tauto\tkeep\t-\t1234").unwrap(), "ok\t1,234");
    drop(book);
    assert_eq!(english.format("-987654.321").unwrap(), "-987,654.321");
    assert_eq!(short.format("-1172700").unwrap(), "-1.2M");
}

#[test]
fn threads() {
    let book = book();
    let workers: Vec<_> = (0..4)
        .map(|_| {
            let formatter = DecimalFormatter::from_book(&book, "en", Grouping::Auto).unwrap();
            thread::spawn(move || (0..1000).all(|_| formatter.format("1234").unwrap() == "1,234"))
        })
        .collect();
    let short = CompactDecimalFormatter::from_book(&book, "en", Width::Short, Grouping::Min2).unwrap();
    thread::spawn(move || drop(book)).join().unwrap();
    assert!(thread::spawn(move || short.format("1650").unwrap() == "1.6K").join().unwrap());
    assert!(workers.into_iter().all(|it| it.join().unwrap()));
}

#[test]
fn world() {
    let workers: Vec<_> = (0..8).map(|_| thread::spawn(|| DecimalFormatter::new("de").unwrap().format("1234567.891").unwrap())).collect();
    assert!(workers.into_iter().all(|it| it.join().unwrap() == "1.234.567,891"));
    let book = Book::world().unwrap();
    for (tag, text) in [("hi", "12,34,567.891"), ("ar-EG", "١٬٢٣٤٬٥٦٧٫٨٩١"), ("de-AT", "1\u{a0}234\u{a0}567,891")] {
        assert_eq!(DecimalFormatter::new(tag).unwrap().format("1234567.891").unwrap(), text);
        let own = DecimalFormatter::from_book(&book, tag, Grouping::Auto).unwrap();
        assert_eq!(own.format_i64(1_234_567_891, -3, &Options::default()).unwrap(), text);
    }
    let never = DecimalFormatter::with_grouping("de", Grouping::Never).unwrap();
    assert_eq!(never.format("1234").unwrap(), "1234");
    let aligned = DecimalFormatter::with_grouping("es", Grouping::OnAligned).unwrap();
    assert_eq!(aligned.format("1234").unwrap(), "1.234");
    let long = CompactDecimalFormatter::new("hi", Width::Long).unwrap();
    assert_eq!(long.format("1234567").unwrap(), "12 लाख");
    let never = CompactDecimalFormatter::with_grouping("en", Width::Short, Grouping::Never).unwrap();
    assert_eq!(never.format("12345678901234567").unwrap(), "12346T");
    assert_eq!(DecimalFormatter::new("de_DE").err(), Some(Error::TAG));
    assert_eq!(CompactDecimalFormatter::new("xx", Width::Short).err(), Some(Error::TABLE));
    let locales: Vec<_> = legumeyet::world_locales().collect();
    assert!(locales.windows(2).all(|it| it[0] < it[1]));
    assert!(["de", "de-AT", "hi", "ar-EG", "zu-ZA"].iter().all(|it| locales.contains(it)));
}

extern "C" {
    fn fork() -> i32;
    fn waitpid(child: i32, status: *mut i32, options: i32) -> i32;
    fn _exit(status: i32) -> !;
}

/// A child of a process with threads opens a book of its own.
#[test]
fn forks() {
    let text = |tag| DecimalFormatter::new(tag).and_then(|it| it.format("1234567.891"));
    assert_eq!(text("de"), Ok("1.234.567,891".to_string()));
    // SAFETY: the child ends by `_exit`, and the pointer is to memory of this function.
    let status = unsafe {
        let child = fork();
        if child == 0 {
            _exit(i32::from(text("hi") != Ok("12,34,567.891".to_string())));
        }
        let mut status = -1;
        assert_eq!(waitpid(child, &mut status, 0), child);
        status
    };
    assert_eq!(status, 0);
}

#[test]
fn files() {
    let path = env::temp_dir().join(format!("legumeyet-{}.json", process::id()));
    fs::write(&path, JSON).unwrap();
    let book = Book::open(&path).unwrap();
    fs::remove_file(&path).unwrap();
    assert_eq!(book.answer(b"en\tplain\tauto\tkeep\t-\t1234").unwrap(), "ok\t1,234");
    assert!(matches!(Book::open(&path), Err(OpenError::File(error)) if error.kind() == io::ErrorKind::NotFound));
    assert!(matches!(Book::open("/dev/null"), Err(OpenError::Book(Error::BOOK_JSON))));
}

#[test]
fn names_of_locales() {
    for (name, tag) in [
        ("de_DE", "de-DE"),
        ("de_DE.UTF-8", "de-DE"),
        ("sr_RS@latin", "sr-RS"),
        ("C", "en"),
        ("POSIX", "en"),
        ("C.UTF-8", "en"),
        ("", "en"),
        ("zh_Hant_TW", "zh-Hant-TW"),
        ("de\0x", "de"),
        ("ä_ö", "ä-ö"),
    ] {
        assert_eq!(legumeyet::tag_of_locale_name(name), tag);
    }
}

#[test]
fn amounts() {
    let as_given = Options::default();
    for (tag, code, number, text) in [
        ("de", "EUR", "1234.5", "1.234,50\u{a0}€"),
        ("en", "USD", "1.005", "$1.00"),
        ("en", "JPY", "2.5", "¥2"),
        ("de-CH", "CHF", "-5", "CHF-5.00"),
        ("nl", "USD", "-5", "US$\u{a0}-5,00"),
        ("en", "QQQ", "0", "QQQ\u{a0}0.00"),
    ] {
        let formatter = CurrencyFormatter::new(tag, code).unwrap();
        let mut written = String::new();
        formatter.write_to(&mut written, number, &as_given).unwrap();
        assert_eq!(written, text);
        assert_eq!(formatter.format_parts(number, &as_given).unwrap().0, text);
        assert_eq!(formatter.format(formatter.read(text).unwrap()).unwrap(), text);
    }
    let dollars = CurrencyFormatter::with_options("en", "USD", &CurrencyOptions::default().style(CurrencyStyle::Accounting)).unwrap();
    assert_eq!(dollars.format(-5).unwrap(), "($5.00)");
    assert_eq!(dollars.format_with(u64::MAX, &as_given.sign(Sign::Always)).unwrap(), "+$18,446,744,073,709,551,615.00");
    assert_eq!(dollars.format_i64(-500, -2, &as_given).unwrap(), "($5.00)");
    assert_eq!(dollars.read("($1,234.5)").unwrap(), "-1234.5");
    assert_eq!(
        dollars.format_parts(-5, &as_given).unwrap().1,
        [
            (Kind::MinusSign, 0..2),
            (Kind::Currency, 1..2),
            (Kind::Integer, 2..3),
            (Kind::Decimal, 3..4),
            (Kind::Fraction, 4..6),
            (Kind::MinusSign, 6..7)
        ]
    );
    let codes = CurrencyOptions::default().width(CurrencyWidth::Code).grouping(Grouping::Never);
    assert_eq!(CurrencyFormatter::with_options("en", "USD", &codes).unwrap().format(1234).unwrap(), "USD\u{a0}1234.00");
}

#[test]
fn roundings_of_amounts() {
    let (francs, as_given) = (CurrencyFormatter::new("en", "CHF").unwrap(), Options::default());
    for (options, text) in [
        (as_given, "CHF\u{a0}2.34"),
        (as_given.rounding(Rounding::Cash), "CHF\u{a0}2.35"),
        (as_given.rounding(Rounding::None), "CHF\u{a0}2.345"),
        (as_given.rounded(Rounding::Floor, -1), "CHF\u{a0}2.3"),
    ] {
        assert_eq!(francs.format_with(2.345, &options).unwrap(), text);
    }
    let percents = PercentFormatter::new("en").unwrap();
    for rounding in [Rounding::Cash, Rounding::None] {
        let options = as_given.rounding(rounding);
        assert_eq!(percents.format_with("1.25", &options).unwrap(), "1.25%");
        assert_eq!(english().format_with("1.25", &options).unwrap(), "1.25");
        assert_eq!(compact(Width::Short).format_with(1250, &options).unwrap(), "1.2K");
    }
}

#[test]
fn percents() {
    let as_given = Options::default();
    for (tag, number, text) in [("de", "12.5", "12,5\u{a0}%"), ("tr", "-12.50", "-%12,50"), ("en", "1234", "1,234%")] {
        let formatter = PercentFormatter::new(tag).unwrap();
        assert_eq!(formatter.format(number).unwrap(), text);
        assert_eq!(formatter.read(text).unwrap(), number);
    }
    let turkish: PercentFormatter = "tr".parse().unwrap();
    assert_eq!(turkish.format_parts(5, &as_given).unwrap().1, [(Kind::PercentSign, 0..1), (Kind::Integer, 1..2)]);
    assert_eq!(PercentFormatter::with_grouping("en", Grouping::Never).unwrap().format(1234.5).unwrap(), "1234.5%");
    assert_eq!("e".parse::<PercentFormatter>().err(), Some(Error::TAG));
}

#[test]
fn units_that_are_refused() {
    let (own, kept, options) = (book(), book(), CurrencyOptions::default());
    kept.keep().unwrap();
    assert_eq!(PercentFormatter::from_book(&own, "e", Grouping::Auto).err(), Some(Error::TAG));
    assert_eq!(CurrencyFormatter::from_book(&own, "e", "eur", &options).err(), Some(Error::CODE));
    assert_eq!(CurrencyFormatter::from_book(&own, "en", "EUR", &options).err(), Some(Error::TABLE));
    let loose = Book::world().unwrap();
    let euros = CurrencyFormatter::from_book(&loose, "de", "EUR", &options).unwrap();
    let turkish = PercentFormatter::from_book(&loose, "tr", Grouping::Auto).unwrap();
    drop(loose);
    assert_eq!(euros.format(1234.5).unwrap(), "1.234,50\u{a0}€");
    assert_eq!(euros.read_lenient("EUR 1234,5").unwrap(), "1234.5");
    assert_eq!(thread::spawn(move || turkish.format(12.5)).join().unwrap().unwrap(), "%12,5");
    assert_eq!(PercentFormatter::from_book(&kept, "en", Grouping::Auto).err(), Some(Error::TABLE));
    assert_eq!(CurrencyFormatter::from_book(&kept, "en", "EUR", &options).err(), Some(Error::TABLE));
    for code in ["eur", "EURO", "EU", "", "EÜ", "A1B", "\0\0\0"] {
        assert_eq!(CurrencyFormatter::new("e", code).err(), Some(Error::CODE), "{code}");
    }
    assert_eq!(CurrencyFormatter::new("de_DE", "EUR").err(), Some(Error::TAG));
    let (euros, as_given) = (CurrencyFormatter::new("en", "EUR").unwrap(), Options::default());
    for text in ["5.00", "$5.00", "€5,00", ""] {
        assert_eq!(euros.read(text), Err(Error::NOT_WRITTEN), "{text}");
    }
    assert_eq!(euros.format(f64::NAN), Err(Error::NUMBER));
    assert_eq!(euros.format_parts("5.", &as_given).err(), Some(Error::NUMBER));
    assert_eq!(euros.format_i64(10, i16::MAX, &as_given), Err(Error::LIMIT));
    let mut short = Short(String::new(), 4);
    assert_eq!(euros.write_to(&mut short, 5, &as_given), Err(WriteError::Write(fmt::Error)));
    drop(kept);
    assert_eq!(thread::spawn(move || euros.format(5)).join().unwrap().unwrap(), "€5.00");
}

#[test]
fn locales_of_a_book() {
    assert_eq!(book().locales().unwrap(), ["en", "bad"]);
    assert!(Book::from_json(b"[[],[],[],[],[]]").unwrap().locales().unwrap().is_empty());
    let world = Book::world().unwrap();
    assert!(world.locales().unwrap().iter().any(|it| it == "de-AT"));
    let found = |tag| world.found_locale(tag);
    assert_eq!(["de-XX", "de-AT", "en-u-nu-thai"].map(|it| found(it).unwrap()), ["de", "de-AT", "und"]);
    assert_eq!(["de_AT", "xx"].map(found), [Err(Error::TAG), Err(Error::TABLE)]);
}
