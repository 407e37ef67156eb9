//! Formatters for which no book is given: the first ones are opened of their tags alone, and are as those of the world's book.

use legumeyet::{
    world_locales, Book, CompactDecimalFormatter, CurrencyFormatter, CurrencyOptions, DecimalFormatter, Error, Format, Grouping,
    NumberFormatter, PercentFormatter, PluralCategory, PluralRuleType, PluralRules, Width,
};
use std::thread;

/// More than are opened of their tags alone.
const MANY: usize = 40;

#[test]
fn first_and_later_ones_are_the_same() {
    let world = Book::world().unwrap();
    for tag in world_locales().step_by(25).take(MANY) {
        let (own, twin) = (DecimalFormatter::new(tag).unwrap(), DecimalFormatter::from_book(&world, tag, Grouping::Auto).unwrap());
        let text = own.format("-1234567.5").unwrap();
        assert_eq!(text, twin.format("-1234567.5").unwrap(), "{tag}");
        assert_eq!(own.read(&text), twin.read(&text), "{tag}");
    }
}

#[test]
fn each_format() {
    let german = PercentFormatter::new("de").unwrap();
    assert_eq!(german.format(12.5).unwrap(), "12,5\u{a0}%");
    assert_eq!(CompactDecimalFormatter::new("de", Width::Long).unwrap().format(1_234_567).unwrap(), "1,2 Millionen");
    assert_eq!(CurrencyFormatter::new("de-AT", "EUR").unwrap().format(1234.5).unwrap(), "€\u{a0}1.234,50");
    assert_eq!(NumberFormatter::new(None, "sv", &Format::scientific()).unwrap().format("0.00012").unwrap(), "1,2×10^\u{2212}4");
    assert_eq!(NumberFormatter::skeleton(None, "en", "percent .00").unwrap().format(5).unwrap(), "5.00%");
    let rules = PluralRules::new(None, "pl", PluralRuleType::Cardinal, None).unwrap();
    assert_eq!(rules.category_for(5).unwrap(), PluralCategory::Many);
}

#[test]
fn refused() {
    let world = Book::world().unwrap();
    for tag in ["e", "de_DE", "", "de\0"] {
        assert_eq!(DecimalFormatter::new(tag).unwrap_err(), Error::TAG, "{tag}");
    }
    assert_eq!(CurrencyFormatter::new("de", "eur").unwrap_err(), Error::CODE);
    assert_eq!(CurrencyFormatter::from_book(&world, "de", "eur", &CurrencyOptions::default()).unwrap_err(), Error::CODE);
    for (tag, skeleton) in [("de", "percent foo"), ("e", "percent percent"), ("e", "percent"), ("de", "K percent")] {
        let own = NumberFormatter::skeleton(None, tag, skeleton).unwrap_err();
        assert_eq!(own, NumberFormatter::skeleton(&world, tag, skeleton).unwrap_err(), "{skeleton}");
    }
}

#[test]
fn in_threads() {
    let made: Vec<_> = (0..8)
        .map(|at| {
            thread::spawn(move || {
                let tags: Vec<_> = world_locales().skip(at).step_by(60).collect();
                tags.iter().map(|tag| DecimalFormatter::new(tag).unwrap().format(1234.5).unwrap().len()).sum::<usize>()
            })
        })
        .collect();
    for it in made {
        assert!(it.join().unwrap() > 0);
    }
}
