//! Plural rules, and what a formatter tells of itself, well and badly.

use legumeyet::{
    Book, CompactDecimalFormatter, CurrencyFormatter, DecimalFormatter, Error, Format, NumberFormatter, Options, PluralCategory,
    PluralRuleType, PluralRules, Rounding, SharedPluralRules, UnknownWord, Width,
};
use std::thread;

use PluralRuleType::{Cardinal, Ordinal};

/// The rules of a tag, of the world's book.
fn rules(tag: &str, rule_type: PluralRuleType) -> PluralRules {
    PluralRules::new(None, tag, rule_type, None).unwrap()
}

/// The words of the categories of numbers.
fn words(rules: &PluralRules, numbers: &[&str]) -> Vec<&'static str> {
    numbers.iter().map(|it| rules.category_for(*it).unwrap().as_str()).collect()
}

#[test]
fn categories_of_numbers() {
    let (one, two, few, many, other) = ("one", "two", "few", "many", "other");
    assert_eq!(
        words(&rules("en", Cardinal), &["1", "1.0", "0", "2", "-1", "+1", "1e0", "01"]),
        [one, other, other, other, one, one, one, one]
    );
    assert_eq!(words(&rules("pl", Cardinal), &["1", "2", "5", "12", "22", "1.5", "0"]), [one, few, many, many, few, other, many]);
    assert_eq!(words(&rules("ar", Cardinal), &["0", "1", "2", "3", "11", "100", "1.5"]), ["zero", one, two, few, many, other, other]);
    assert_eq!(words(&rules("fr", Cardinal), &["0", "1.5", "2", "1000000"]), [one, one, other, many]);
    assert_eq!(words(&rules("ja", Cardinal), &["1", "2"]), [other, other]);
    assert_eq!(
        words(&rules("en", Ordinal), &["1", "2", "3", "4", "11", "21", "22", "113"]),
        [one, two, few, other, other, one, two, other]
    );
    assert_eq!(words(&rules("de", Ordinal), &["1", "2"]), [other, other]);
}

#[test]
fn as_a_number_is_shown() {
    let of = |options: &Options| PluralRules::new(None, "en", Cardinal, options).unwrap();
    let tenths = Options::default().rounded(Rounding::HalfEven, -1);
    assert_eq!(of(&tenths).category_for(1), Ok(PluralCategory::Other));
    assert_eq!(of(&Options::default().rounded(Rounding::HalfEven, 0)).category_for(1.2), Ok(PluralCategory::One));
    assert_eq!(of(&Options::default().minimum_fraction_digits(2)).category_for(1), Ok(PluralCategory::Other));
    let short = Format::compact(Width::Short);
    let french = PluralRules::with_format(None, "fr", Cardinal, &short, None).unwrap();
    assert_eq!(words(&french, &["1200000", "1000000", "1500"]), ["many", "many", "other"]);
    let powers = PluralRules::with_format(None, "fr", Cardinal, &Format::scientific(), None).unwrap();
    assert_eq!(words(&powers, &["1200000", "1000", "1"]), ["many", "other", "one"]);
    let dollars = PluralRules::with_format(None, "en", Cardinal, &Format::currency("USD"), None).unwrap();
    assert_eq!(dollars.category_for(1), Ok(PluralCategory::Other));
    let yen = PluralRules::with_format(None, "en", Cardinal, &Format::currency("JPY"), None).unwrap();
    assert_eq!(yen.category_for(1), Ok(PluralCategory::One));
}

#[test]
fn ranges() {
    for (tag, start, end, category) in
        [("en", 0, 1, "other"), ("en", 1, 2, "other"), ("fr", 0, 1, "one"), ("pl", 1, 5, "many"), ("ja", 1, 2, "other")]
    {
        let found = rules(tag, Cardinal);
        assert_eq!(found.category_for_range(start, end).unwrap().as_str(), category, "{tag} {start} {end}");
        assert_eq!(found.share().category_for_range(start, end).unwrap().as_str(), category, "{tag} {start} {end}");
    }
    assert_eq!(rules("en", Cardinal).category_for_range("1", "x"), Err(Error::NUMBER));
    assert_eq!(rules("en", Cardinal).category_for_range("", 1), Err(Error::NUMBER));
}

#[test]
fn lists() {
    let of = |tag, rule_type| rules(tag, rule_type).categories().map(PluralCategory::as_str).collect::<Vec<_>>();
    assert_eq!(of("en", Cardinal), ["one", "other"]);
    assert_eq!(of("en", Ordinal), ["one", "two", "few", "other"]);
    assert_eq!(of("ar", Cardinal), ["zero", "one", "two", "few", "many", "other"]);
    assert_eq!(of("ja", Cardinal), ["other"]);
    for it in PluralCategory::ALL {
        assert_eq!(it.to_string().parse(), Ok(it));
    }
    assert_eq!("ones".parse::<PluralCategory>(), Err(UnknownWord));
    assert_eq!(format!("{:>6}|{}", PluralCategory::One, "ordinal".parse::<PluralRuleType>().unwrap()), "   one|ordinal");
}

#[test]
fn refusals() {
    assert_eq!(PluralRules::new(None, "e", Cardinal, None).unwrap_err(), Error::TAG);
    let refused = PluralRules::with_format(None, "en", Cardinal, &Format::currency("usd"), None);
    assert_eq!(refused.unwrap_err(), Error::CODE);
    assert_eq!(rules("en", Cardinal).category_for("5."), Err(Error::NUMBER));
    assert_eq!(rules("en", Cardinal).category_for(f64::NAN), Err(Error::NUMBER));
    assert_eq!(rules("en", Cardinal).category_for("1e40000"), Err(Error::LIMIT));
    let beyond = Options::default().minimum_integer_digits(40000);
    assert_eq!(PluralRules::new(None, "en", Cardinal, &beyond).unwrap().category_for(1), Err(Error::OPTION));
    // a book of five arrays has cardinal rules, and no ordinal ones
    let own =
        Book::from_json(br#"[[["en","","latn","-","","+","",".",",",3,3,1]],[["latn","0123456789"]],[["en",[["one","i = 1"]]]],[],[]]"#)
            .unwrap();
    assert_eq!(PluralRules::new(&own, "en", Cardinal, None).unwrap().category_for(1), Ok(PluralCategory::One));
    assert_eq!(PluralRules::new(&own, "en", Ordinal, None).unwrap_err(), Error::TABLE);
}

#[test]
fn shared_by_threads() {
    fn serves_all<T: Copy + Send + Sync + 'static>(it: T) -> T {
        it
    }
    let polish: SharedPluralRules = serves_all(rules("pl", Cardinal).share());
    let threads: Vec<_> = (0..4).map(|_| thread::spawn(move || polish.category_for(22))).collect();
    for it in threads {
        assert_eq!(it.join().unwrap(), Ok(PluralCategory::Few));
    }
    assert!(polish.categories().eq(rules("pl", Cardinal).categories()));
    let moved = rules("pl", Cardinal);
    assert_eq!(thread::spawn(move || moved.category_for(5)).join().unwrap(), Ok(PluralCategory::Many));
}

#[test]
fn facts() {
    let german = DecimalFormatter::new("de").unwrap();
    let symbols = german.symbols().unwrap();
    assert_eq!((symbols.decimal_separator.as_str(), symbols.grouping_separator.as_str()), (",", "."));
    assert_eq!((symbols.minus, symbols.plus), (("-".into(), String::new()), ("+".into(), String::new())));
    assert_eq!(symbols.digits, ['0', '1', '2', '3', '4', '5', '6', '7', '8', '9']);
    assert_eq!(german.share().symbols(), DecimalFormatter::new("de").unwrap().symbols());
    assert_eq!(DecimalFormatter::new("ar-EG").unwrap().symbols().unwrap().digits[..3], ['٠', '١', '٢']);
    assert_eq!(CompactDecimalFormatter::new("de", Width::Short).unwrap().symbols().unwrap().decimal_separator, ",");
    for (code, fraction, cash, cash_increment) in [("EUR", 2, 2, 1), ("JPY", 0, 0, 1), ("CHF", 2, 2, 5), ("KWD", 3, 3, 1)] {
        let digits = CurrencyFormatter::new("en", code).unwrap().currency_digits().unwrap();
        assert_eq!((digits.fraction, digits.cash, digits.cash_increment), (fraction, cash, cash_increment), "{code}");
        assert_eq!(NumberFormatter::skeleton(None, "en", &format!("currency/{code}")).unwrap().share().currency_digits(), Ok(digits));
    }
    assert_eq!(NumberFormatter::skeleton(None, "en", "percent").unwrap().currency_digits(), Err(Error::OPTION));
}
