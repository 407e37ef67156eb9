//! Shared formatters, in threads.

use legumeyet::{
    CompactDecimalFormatter, CurrencyFormatter, DecimalFormatter, Error, Kind, Options, PercentFormatter, SharedCompactDecimalFormatter,
    SharedCurrencyFormatter, SharedDecimalFormatter, SharedPercentFormatter, Width,
};
use std::sync::atomic::{AtomicBool, Ordering};
use std::thread;

fn serves_all<T: Copy + Send + Sync + 'static>() {}

#[test]
fn types() {
    serves_all::<SharedDecimalFormatter>();
    serves_all::<SharedCompactDecimalFormatter>();
    serves_all::<SharedPercentFormatter>();
    serves_all::<SharedCurrencyFormatter>();
}

#[test]
fn one_formatter_in_eight_threads() {
    let (german, as_given) = (DecimalFormatter::new("de").unwrap().share(), Options::default());
    let is_right = AtomicBool::new(true);
    thread::scope(|scope| {
        for at in 0..8_i64 {
            let (german, is_right) = (&german, &is_right);
            scope.spawn(move || {
                for turn in 0..10_000_i64 {
                    let (high, low) = (100 + (at * 7919 + turn * 31) % 900, turn % 1000);
                    let text = german.format_i64(-(high * 1000 + low), -1, &as_given).unwrap();
                    if text != format!("-{}.{:03},{}", high / 10, high % 10 * 100 + low / 10, low % 10) {
                        is_right.store(false, Ordering::SeqCst);
                    }
                }
            });
        }
    });
    assert!(is_right.load(Ordering::SeqCst));
}

#[test]
fn calls() {
    let as_given = Options::default();
    let english = DecimalFormatter::new("en").unwrap().share();
    let mut text = String::new();
    english.write_to(&mut text, 1234.5, &as_given).unwrap();
    assert_eq!(text, "1,234.5");
    assert_eq!(english.format("-987654.321").unwrap(), "-987,654.321");
    assert_eq!(english.format("5."), Err(Error::NUMBER));
    assert_eq!(english.format("1e100").unwrap().len(), 134);
    assert_eq!(english.format_parts(-5, &as_given).unwrap().1, [(Kind::MinusSign, 0..1), (Kind::Integer, 1..2)]);
    assert_eq!(english.read("-1,234.50").unwrap(), "-1234.50");
    assert_eq!(english.read("1234.50"), Err(Error::NOT_WRITTEN));
    assert_eq!(english.read_lenient(" 1234.50 ").unwrap(), "1234.50");
    let compact = CompactDecimalFormatter::new("en", Width::Short).unwrap().share();
    assert_eq!(compact.format("-1172700").unwrap(), "-1.2M");
    assert_eq!(compact.format_i64(-11727, 2, &as_given).unwrap(), "-1.2M");
    assert_eq!(compact.shown(-1_172_700, &as_given).unwrap(), "-1.2c6");
    assert_eq!(compact.format_exact("-1.20c6", &as_given).unwrap(), "-1.20M");
    let euros = CurrencyFormatter::new("en", "EUR").unwrap().share();
    let copied = euros;
    assert_eq!(thread::spawn(move || copied.format(5)).join().unwrap().unwrap(), "€5.00");
    assert_eq!(euros.read("€1,234.50").unwrap(), "1234.50");
    assert_eq!(euros.read_lenient("1234.5 EUR").unwrap(), "1234.5");
    let percents = PercentFormatter::new("tr").unwrap().share();
    assert_eq!(percents.format(12.5).unwrap(), "%12,5");
    assert_eq!(percents.read("%12,5").unwrap(), "12.5");
}
