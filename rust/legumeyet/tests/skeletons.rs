//! Formatters of formats and of skeletons, well and badly.

use legumeyet::{
    normal_skeleton, Book, CompactDecimalFormatter, CurrencyFormatter, CurrencyOptions, CurrencyStyle, CurrencyWidth, DecimalFormatter,
    Error, Format, Grouping, Increment, Kind, Notation, NumberFormatter, Options, PercentFormatter, Rounding, SharedNumberFormatter, Sign,
    SkeletonError, TrailingZeros, Unit, Width, WriteError,
};
use std::{fmt, thread};

/// The formatter of a skeleton for a tag, of the world's book.
fn of(tag: &str, skeleton: &str) -> NumberFormatter {
    NumberFormatter::skeleton(None, tag, skeleton).unwrap()
}

/// Why a skeleton is refused, and where.
fn fault(skeleton: &str) -> Option<(Error, Option<usize>)> {
    let refused = NumberFormatter::skeleton(None, "en", skeleton).err();
    assert_eq!(normal_skeleton(skeleton).err(), refused, "{skeleton}");
    refused.map(|it| (it.error, it.place))
}

#[test]
fn texts() {
    for (tag, skeleton, number, text) in [
        ("en", "", "1234.5", "1,234.5"),
        ("en", " ", "1.23456789", "1.234568"),
        ("en", "", "+007.50", "7.5"),
        ("de", "currency/EUR", "1234.5", "1.234,50\u{a0}€"),
        ("de-CH", "currency/chf", "-5", "CHF-5.00"),
        ("en", "currency/CHF precision-currency-cash", "2.345", "CHF\u{a0}2.35"),
        ("en", "currency/USD sign-accounting", "-5", "($5.00)"),
        ("en", "currency/USD unit-width-iso-code", "5", "USD\u{a0}5.00"),
        ("en", "currency/USD .00/w", "5", "$5"),
        ("en", "currency/USD .00/w", "5.5", "$5.50"),
        ("en", "percent .00", "12.345", "12.34%"),
        ("en", ".00 rounding-mode-half-up", "12.345", "12.35"),
        ("tr", "%", "12.5", "%12,5"),
        ("de", "permille", "5", "5\u{a0}‰"),
        ("en", ".00##", "1.5", "1.50"),
        ("en", ".00##", "1.23456", "1.2346"),
        ("en", "precision-integer", "1234.5", "1,234"),
        ("en", "@@@", "9.996", "10.0"),
        ("en", "@@#/w", "1234.5", "1,230"),
        ("en", "@@*", "0.1", "0.10"),
        ("en", ".0#/@@r", "0.00123", "0.0012"),
        ("en", ".0#/@@s", "0.00123", "0.0"),
        ("en", ".0#/w", "3", "3"),
        ("es", "", "1234.5", "1234,5"),
        ("es", "group-on-aligned", "1234.5", "1.234,5"),
        ("en", "group-off", "1234567", "1234567"),
        ("en", ",?", "1234", "1234"),
        ("en", "sign-always", "5", "+5"),
        ("en", "+?", "0", "0"),
        ("en", "integer-width/*000", "7", "007"),
        ("en", "compact-short", "1650", "1.6K"),
        ("en", "KK", "-1172700", "-1.2 million"),
        ("hi", "compact-long", "1234567", "12 लाख"),
        ("en", "compact-short .00", "-1234", "-1.23K"),
        ("de", "KK .0", "1234567", "1,2 Millionen"),
        ("en", "K rounding-mode-down", "1999", "1.9K"),
        ("en", "scientific", "1234567.891", "1.234568E6"),
        ("de", "EE+!00 .00", "1234", "1,23E+03"),
        ("sv", "engineering @@@", "-0.000999999", "−1,00×10^−3"),
    ] {
        assert_eq!(of(tag, skeleton).format(number).as_deref(), Ok(text), "{tag} {skeleton}");
        assert_eq!(of(tag, skeleton).share().format(number).as_deref(), Ok(text), "{tag} {skeleton}");
    }
}

#[test]
fn faults() {
    for (skeleton, error, place) in [
        ("foo", Error::SKELETON_UNKNOWN, 0),
        ("percent foo", Error::SKELETON_UNKNOWN, 8),
        ("  .0x percent", Error::SKELETON_UNKNOWN, 2),
        ("\0", Error::SKELETON_UNKNOWN, 0),
        ("percent\u{a0}.00", Error::SKELETON_UNKNOWN, 0),
        ("percent currency/EUR", Error::SKELETON_TWICE, 8),
        ("base-unit percent", Error::SKELETON_TWICE, 10),
        (".00 .00", Error::SKELETON_TWICE, 4),
        ("currency/EURO", Error::SKELETON_CODE, 0),
        ("K currency/", Error::SKELETON_CODE, 2),
        ("sign-accounting", Error::SKELETON_PAIR, 0),
        ("percent unit-width-iso-code", Error::SKELETON_PAIR, 8),
        ("precision-currency-cash", Error::SKELETON_PAIR, 0),
        ("latin", Error::SKELETON_SYSTEM, 0),
        ("percent numbering-system/thai", Error::SKELETON_SYSTEM, 8),
        ("scientific scale/100", Error::SKELETON_LATER, 11),
        ("scientific/sign-never", Error::SKELETON_UNSUPPORTED, 0),
        ("compact-short unit-width-narrow", Error::SKELETON_LATER, 14),
        ("currency/EUR rounding-mode-up", Error::SKELETON_LATER, 13),
        ("percent  scientific", Error::SKELETON_LATER, 9),
        ("K scale/100", Error::SKELETON_LATER, 2),
        ("decimal-always", Error::SKELETON_UNSUPPORTED, 0),
        (".00 integer-width-trunc", Error::SKELETON_UNSUPPORTED, 4),
        ("sign-accounting foo", Error::SKELETON_UNKNOWN, 16),
        ("foo decimal-always", Error::SKELETON_UNKNOWN, 0),
    ] {
        assert_eq!(fault(skeleton), Some((error, Some(place))), "{skeleton}");
    }
    let long = format!("{}foo", "percent ".repeat(100_000));
    assert_eq!(fault(&long), Some((Error::SKELETON_TWICE, Some(8))));
    assert_eq!(fault(&" ".repeat(100_000)), None);
    let numbers = [
        (Error::SKELETON_UNKNOWN, 201),
        (Error::SKELETON_TWICE, 202),
        (Error::SKELETON_CODE, 203),
        (Error::SKELETON_PAIR, 204),
        (Error::SKELETON_SYSTEM, 205),
        (Error::SKELETON_LATER, 206),
        (Error::SKELETON_UNSUPPORTED, 207),
    ];
    assert!(numbers.iter().all(|(error, number)| error.number() == *number && error.to_string() != "an error of another version"));
}

#[test]
fn errors() {
    let refused = NumberFormatter::skeleton(None, "e", "percent foo").unwrap_err();
    assert_eq!((refused.error, refused.place), (Error::SKELETON_UNKNOWN, Some(8)));
    assert_eq!(refused.to_string(), format!("{}: the word at 8", Error::SKELETON_UNKNOWN));
    assert_eq!(format!("{refused:>200}").chars().count(), 200);
    assert_eq!(Error::from(refused), Error::SKELETON_UNKNOWN);
    let boxed: Box<dyn std::error::Error + Send + Sync> = refused.into();
    assert_eq!(boxed.to_string(), refused.to_string());
    for (tag, skeleton, error) in [
        ("e", "percent", Error::TAG),
        ("de_DE", "", Error::TAG),
        ("xx", "percent", Error::TABLE),
        ("en", "K currency/EUR", Error::TABLE),
        ("en", "compact-long percent", Error::TABLE),
    ] {
        let refused = NumberFormatter::skeleton(None, tag, skeleton).unwrap_err();
        assert_eq!(refused, SkeletonError::from(error), "{tag} {skeleton}");
        assert_eq!((refused.place, refused.to_string()), (None, error.to_string()));
    }
}

#[test]
fn normal_texts() {
    for (skeleton, normal) in [
        ("", ""),
        ("  ", ""),
        ("sign-auto group-auto notation-simple base-unit unit-width-short", ""),
        ("K sign-auto", "compact-short"),
        ("K currency/eur", "compact-short currency/EUR"),
        ("currency/EUR  K sign-auto", "compact-short currency/EUR"),
        ("KK ,?", "compact-long"),
        ("K group-auto", "compact-short group-auto"),
        ("+! EE+!00", "engineering/*ee/sign-always sign-always"),
        ("scientific/sign-auto/+ee", "scientific/*ee"),
        ("  %   .00## ", "percent .00##"),
        (".00+", ".00*"),
        ("@@+ ,!", "@@* group-on-aligned"),
        (".##/@@@+", ".##/@@@*"),
        ("precision-integer/@@#s/w", "./@@#s/w"),
        (". +!", "precision-integer sign-always"),
        (".*", "precision-unlimited"),
        ("0", "integer-width/*0"),
        ("()? unit-width-iso-code currency/usd", "currency/USD unit-width-iso-code sign-accounting-except-zero"),
        (",_ 000 rounding-mode-floor .00/w %", "percent .00/w rounding-mode-floor group-off integer-width/*000"),
    ] {
        assert_eq!(normal_skeleton(skeleton).as_deref(), Ok(normal));
        assert_eq!(normal_skeleton(normal).as_deref(), Ok(normal));
    }
    let long = format!(".{}", "0".repeat(100));
    assert_eq!(normal_skeleton(&long).unwrap(), long);
}

#[test]
fn own_options_and_given_ones() {
    let (two, as_given) = (of("en", ".00"), Options::default());
    let shared = of("en", ".00").share();
    let rounded = as_given.rounded(Rounding::HalfEven, -1).sign(Sign::Always);
    for (options, want) in [(None, "1.24"), (Some(&as_given), "1.245"), (Some(&rounded), "+1.2")] {
        assert_eq!(two.format_with("1.245", options).unwrap(), want);
        assert_eq!(shared.format_with("1.245", options).unwrap(), want);
        assert_eq!(two.format_i64(1245, -3, options).unwrap(), want);
        assert_eq!(two.shown("1.245", options).unwrap(), want);
        assert_eq!(two.format_exact("1.245", options).unwrap(), want);
        assert_eq!(two.format_parts("1.245", options).unwrap().0, want);
        assert_eq!(two.format_doubles(&[1.245], options).unwrap().as_str(), want);
        assert_eq!(two.format_integers(&[1245], -3, options).unwrap().as_str(), want);
        assert_eq!(two.format_all(["1.245"], options).unwrap().as_str(), want);
        let mut written = String::new();
        shared.write_to(&mut written, "1.245", options).unwrap();
        assert_eq!(written, want);
    }
    assert_eq!(two.format("1.245").unwrap(), "1.24");
    assert_eq!(two.format("1.255").unwrap(), "1.26");
    assert_eq!(two.format_with("1.255", &as_given).unwrap(), "1.255");
    assert_eq!(two.format_with("1.255", &rounded).unwrap(), "+1.3");
    let signed = of("en", "currency/CHF precision-currency-cash sign-always");
    assert_eq!(signed.format(2.345).unwrap(), "+CHF\u{a0}2.35");
    assert_eq!(signed.format_with(2.345, &as_given).unwrap(), "CHF\u{a0}2.34");
    assert_eq!(signed.format_with(2.345, &as_given.rounding(Rounding::None)).unwrap(), "CHF\u{a0}2.345");
    assert_eq!(two.format_with(1, &as_given.minimum_fraction_digits(40000)), Err(Error::OPTION));
    assert_eq!(of("en", "K").format_with(1250, &as_given.sign(Sign::Always)).unwrap(), "+1.2K");
}

#[test]
fn formats() {
    let book = Book::world().unwrap();
    let new = |format: &Format<'_>| NumberFormatter::new(&book, "en", format).unwrap();
    let by_code = CurrencyOptions::default().style(CurrencyStyle::Accounting).width(CurrencyWidth::Code).grouping(Grouping::Never);
    let in_accounts = Format::currency("USD").currency_style(CurrencyStyle::Accounting).currency_width(CurrencyWidth::Code);
    let euros = CurrencyFormatter::new("en", "EUR").unwrap();
    for number in ["-1234.5", "0", "12345678901234567", "+5.00", "0.001"] {
        let plain = DecimalFormatter::new("en").unwrap();
        assert_eq!(new(&Format::default()).format(number), plain.format(number));
        let long = CompactDecimalFormatter::new("en", Width::Long).unwrap();
        assert_eq!(new(&Format::compact(Width::Long)).format(number), long.format(number));
        let auto = CompactDecimalFormatter::with_grouping("en", Width::Short, Grouping::Auto).unwrap();
        assert_eq!(new(&Format::compact(Width::Short).grouping(Grouping::Auto)).format(number), auto.format(number));
        let percents = PercentFormatter::with_grouping("en", Grouping::Min2).unwrap();
        assert_eq!(new(&Format::percent().grouping(Grouping::Min2)).format(number), percents.format(number));
        assert_eq!(new(&Format::currency("EUR")).format(number), euros.format(number));
        let coded = CurrencyFormatter::with_options("en", "USD", &by_code).unwrap();
        assert_eq!(new(&in_accounts.grouping(Grouping::Never)).format(number), coded.format(number));
    }
    assert_eq!(Format::compact(Width::Short).notation, Notation::Compact(Width::Short));
    assert_eq!(Format::currency("EUR").unit, Unit::Currency("EUR"));
    for code in ["eur", "EURO", "", "\0\0\0"] {
        assert_eq!(NumberFormatter::new(&book, "e", &Format::currency(code)).err(), Some(Error::CODE));
    }
    assert_eq!(NumberFormatter::new(&book, "e", &Format::percent()).err(), Some(Error::TAG));
    assert_eq!(NumberFormatter::new(None, "xx", &Format::percent()).err(), Some(Error::TABLE));
    for format in [Format::percent(), Format::currency("EUR")] {
        for notation in [Notation::Compact(Width::Short), Notation::Scientific, Notation::Engineering] {
            assert_eq!(NumberFormatter::new(None, "en", &format.notation(notation)).err(), Some(Error::TABLE));
        }
    }
    let outlives = new(&Format::percent());
    drop(book);
    assert_eq!(outlives.format(5).unwrap(), "5%");
}

#[test]
fn scientific_numbers() {
    let new = |format: &Format<'_>| NumberFormatter::new(None, "en", format).unwrap();
    let (powers, engineering) = (new(&Format::scientific()), new(&Format::default().notation(Notation::Engineering)));
    for (number, text, multiple) in [
        ("1234567.891", "1.234567891E6", "1.234567891E6"),
        ("-0.00012", "-1.2E-4", "-120E-6"),
        ("1000.0", "1E3", "1E3"),
        ("0.00", "0E0", "0E0"),
        ("999999", "9.99999E5", "999.999E3"),
    ] {
        assert_eq!((powers.format(number).as_deref(), engineering.format(number).as_deref()), (Ok(text), Ok(multiple)), "{number}");
        assert_eq!(powers.shown(number, None), Ok(text.to_lowercase()));
    }
    let as_given = Options::default();
    for (options, text) in [
        (as_given.rounded(Rounding::HalfEven, -2), "1.00E1"),
        (as_given.maximum_significant_digits(2), "1E1"),
        (as_given.minimum_significant_digits(6), "9.99500E0"),
        (as_given.minimum_integer_digits(3).sign(Sign::Always), "+009.995E0"),
        (as_given.rounded(Rounding::Floor, -1).increment(Increment::Five), "9.5E0"),
    ] {
        assert_eq!(powers.format_with(9.995, &options).as_deref(), Ok(text));
    }
    let (text, parts) = of("ar-EG", "scientific/sign-always").format_parts("-12000", None).unwrap();
    let ends: Vec<_> = parts.iter().rev().take(3).map(|(kind, at)| (*kind, &text[at.clone()])).collect();
    assert_eq!(ends, [(Kind::ExponentInteger, "٤"), (Kind::ExponentPlusSign, "\u{61c}+"), (Kind::ExponentSeparator, "أس")]);
    let (text, parts) = powers.format_parts("0.5", None).unwrap();
    assert_eq!((text.as_str(), parts[2].clone()), ("5E-1", (Kind::ExponentMinusSign, 2..3)));
    assert_eq!(powers.format_doubles(&[1.5e20, -0.25], None).unwrap().as_str(), "1.5E20-2.5E-1");
    assert_eq!(powers.format_exact("1.2c6", None), Err(Error::EXPONENT));
    assert_eq!(powers.format_exact("1.2e6", None), Err(Error::NUMBER));
    for (text, number) in [("1.2345E6", "1234500"), ("-1.20E-3", "-0.00120"), ("0E0", "0")] {
        assert_eq!(powers.read(text).as_deref(), Ok(number));
    }
    assert_eq!(of("en", "engineering/*ee").read("120E-06").as_deref(), Ok("0.000120"));
    for text in ["12.3E4", "1.2e6", " 1.2E6", "1E99999"] {
        assert_eq!(powers.read(text), Err(Error::NOT_WRITTEN));
    }
    assert_eq!(powers.read_lenient("1.2E6"), Err(Error::UNREADABLE));
    assert_eq!(powers.format(format!("1{0}.{0}1", "0".repeat(30000)).as_str()), Err(Error::RANGE));
    assert_eq!(powers.share().format(1200).as_deref(), Ok("1.2E3"));
}

#[test]
fn shown_and_exact() {
    let (plain, as_given) = (DecimalFormatter::new("en").unwrap(), Options::default());
    let tenths = as_given.rounded(Rounding::HalfEven, -1);
    assert_eq!(plain.shown("-1234.50", &as_given).unwrap(), "-1234.50");
    assert_eq!(plain.shown("1234.56", &tenths).unwrap(), "1234.6");
    assert_eq!(plain.shown(5e20, None).unwrap(), "500000000000000000000");
    assert_eq!(plain.format_exact("-1234.50", &as_given).unwrap(), "-1,234.50");
    assert_eq!(plain.format_exact("1.20", &tenths.sign(Sign::Always)).unwrap(), "+1.2");
    for (number, error) in [("1.2c3", Error::EXPONENT), ("1.2e3", Error::NUMBER), ("1c256", Error::LIMIT), ("", Error::NUMBER)] {
        assert_eq!(plain.format_exact(number, &as_given), Err(error), "{number}");
    }
    assert_eq!(plain.share().format_exact("1234", None).unwrap(), "1,234");
    let dollars = CurrencyFormatter::new("en", "USD").unwrap();
    assert_eq!(dollars.shown(5, &as_given).unwrap(), "5.00");
    assert_eq!(dollars.shown("1.005", None).unwrap(), "1.00");
    assert_eq!(dollars.format_exact("5", None).unwrap(), "$5.00");
    assert_eq!(dollars.format_exact("5.125", &as_given.rounding(Rounding::None)).unwrap(), "$5.125");
    assert_eq!(PercentFormatter::new("tr").unwrap().share().shown("12.50", None).unwrap(), "12.50");
    let short = of("en", "compact-short");
    assert_eq!(short.shown("-1172700", None).unwrap(), "-1.2c6");
    assert_eq!(short.format_exact("-1.20c6", &as_given).unwrap(), "-1.20M");
    assert_eq!(short.format("9".repeat(32768)), Err(Error::RANGE));
}

#[test]
fn reads() {
    let euros = of("en", "currency/EUR .00");
    assert_eq!(euros.read("-€1,234.5").as_deref(), Ok("-1234.5"));
    assert_eq!(euros.read_lenient("1234.5 EUR").as_deref(), Ok("1234.5"));
    assert_eq!(euros.read("$1.00"), Err(Error::NOT_WRITTEN));
    let shared = of("ar-EG", "").share();
    assert_eq!(shared.read("١٬٢٣٤٫٥").as_deref(), Ok("1234.5"));
    assert_eq!(shared.read_lenient("1,234.5").as_deref(), Ok("1234.5"));
    let short = of("en", "K");
    for text in ["1.6K", "950", "", "x"] {
        assert_eq!(short.read(text), Err(Error::UNREADABLE), "{text}");
        assert_eq!(short.read_lenient(text), Err(Error::UNREADABLE), "{text}");
    }
}

/// Takes no text.
struct Full;

impl fmt::Write for Full {
    fn write_str(&mut self, _: &str) -> fmt::Result {
        Err(fmt::Error)
    }
}

#[test]
fn calls() {
    let dollars = of("en", "currency/USD");
    assert_eq!(format!("{dollars:?}"), "NumberFormatter(..)");
    assert_eq!(dollars.write_to(&mut Full, 5, None), Err(WriteError::Write(fmt::Error)));
    assert_eq!(dollars.write_to(&mut Full, "5.", None), Err(WriteError::Number(Error::NUMBER)));
    assert_eq!(dollars.format(f64::NAN), Err(Error::NUMBER));
    assert_eq!(dollars.format_i64(10, i16::MAX, None), Err(Error::LIMIT));
    let (text, parts) = dollars.format_parts(-5, None).unwrap();
    assert_eq!((text.as_str(), parts[0].0, parts[1].0), ("-$5.00", Kind::MinusSign, Kind::Currency));
    let column = dollars.format_doubles(&[1.0, f64::NAN], None).unwrap_err();
    assert_eq!((column.error, column.at(), column.column.as_str()), (Error::NUMBER, 1, "$1.00"));
    let twentieths = Options::default().rounded(Rounding::HalfEven, -2).increment(Increment::Five).trailing_zeros(TrailingZeros::Trim);
    assert_eq!(dollars.format_with("1.43", &twentieths).unwrap(), "$1.45");
    assert_eq!(dollars.format_with("1.98", &twentieths).unwrap(), "$2");
}

#[test]
fn threads() {
    fn serves_all<T: Copy + Send + Sync + 'static>(it: T) -> T {
        it
    }
    let shared: SharedNumberFormatter = serves_all(of("de", "currency/EUR sign-always").share());
    assert_eq!(format!("{shared:?}"), "SharedNumberFormatter(..)");
    let moved = of("ar-EG", ".00");
    assert_eq!(thread::spawn(move || moved.format("1.5")).join().unwrap().unwrap(), "١٫٥٠");
    thread::scope(|scope| {
        for at in 0..8_i64 {
            scope.spawn(move || {
                for turn in 0..2_000_i64 {
                    let cents = at * 7919 + turn;
                    let want = format!("+{},{:02}\u{a0}€", cents / 100, cents % 100);
                    assert_eq!(shared.format_i64(cents, -2, None).unwrap(), want);
                    assert_eq!(shared.read(&want).unwrap(), format!("+{}.{:02}", cents / 100, cents % 100));
                    assert_eq!(shared.read_lenient(&want[1..]).unwrap(), format!("{}.{:02}", cents / 100, cents % 100));
                }
            });
        }
    });
}
