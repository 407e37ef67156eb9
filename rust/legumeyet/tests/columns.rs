//! Columns, well and badly.
// (threads that are collected are all begun before the first is waited for)
#![allow(clippy::needless_collect)]

use legumeyet::{CompactDecimalFormatter, CurrencyFormatter, DecimalFormatter, Error, Options, PercentFormatter, Rounding, Sign, Width};
use std::thread;

const AS_GIVEN: fn() -> Options = Options::default;

#[test]
fn numbers() {
    let english = DecimalFormatter::new("en").unwrap();
    let column = english.format_doubles(&[1234.5, -7.0, -0.0, 0.1], &AS_GIVEN()).unwrap();
    assert_eq!(column.iter().collect::<Vec<_>>(), ["1,234.5", "-7", "-0", "0.1"]);
    assert_eq!((column.len(), &column[1], column.get(4), column.as_str()), (4, "-7", None, "1,234.5-7-00.1"));
    assert_eq!(column.iter().len(), 4);
    let of_cents = english.format_integers(&[123_456, 5, i64::MIN], -2, &AS_GIVEN()).unwrap();
    assert_eq!(of_cents.iter().collect::<Vec<_>>(), ["1,234.56", "0.05", "-92,233,720,368,547,758.08"]);
    let all = english.format_all(["1e3", "-0.50"], &AS_GIVEN()).unwrap();
    assert_eq!(all.into_iter().collect::<Vec<_>>(), ["1,000", "-0.50"]);
    assert_eq!(&english.format_all([u64::MAX], &AS_GIVEN()).unwrap()[0], "18,446,744,073,709,551,615");
    assert_eq!(&english.format_all(vec![0.25; 3], &AS_GIVEN()).unwrap()[2], "0.25");
    let texts = vec![String::from("1"), String::from("2")];
    assert_eq!(english.format_all(texts.clone(), &AS_GIVEN()).unwrap().as_str(), "12");
    assert_eq!(english.format_all(&texts, &AS_GIVEN().sign(Sign::Always)).unwrap().as_str(), "+1+2");
    let rounded = AS_GIVEN().rounded(Rounding::HalfEven, -1);
    assert_eq!(english.format_doubles(&[9.65, 1.0], &rounded).unwrap().as_str(), "9.61.0");
}

#[test]
fn empty_and_long() {
    let english = DecimalFormatter::new("en").unwrap();
    assert!(english.format_doubles(&[], &AS_GIVEN()).unwrap().is_empty());
    assert!(english.format_integers(&[], 0, &AS_GIVEN()).unwrap().is_empty());
    assert_eq!(english.format_all(Vec::<&str>::new(), &AS_GIVEN()).unwrap().iter().next(), None);
    assert_eq!(english.format_doubles(&[f64::MAX; 500], &AS_GIVEN()).unwrap().as_str().len(), 500 * 411);
    let long = "1".repeat(30_000);
    let column = english.format_all(vec![long.as_str(); 20], &AS_GIVEN()).unwrap();
    let one = english.format_with(&long, &AS_GIVEN()).unwrap();
    assert!(column.len() == 20 && column.iter().all(|text| text == one));
    let many: Vec<f64> = (0..10_000).map(|it| f64::from(it) * 1234.5 - 5e6).collect();
    let column = english.format_doubles(&many, &AS_GIVEN()).unwrap();
    assert!(column.iter().zip(&many).all(|(text, number)| text == english.format_with(*number, &AS_GIVEN()).unwrap()));
}

#[test]
fn refused() {
    let english = DecimalFormatter::new("en").unwrap();
    let refused = english.format_doubles(&[1.0, f64::NAN, 2.0], &AS_GIVEN()).unwrap_err();
    assert_eq!((refused.error, refused.at(), &refused.column[0]), (Error::NUMBER, 1, "1"));
    assert_eq!(refused.to_string(), format!("{}: the number at 1", Error::NUMBER));
    for wrong in ["", "\n", "1\n2", "1\n", "5.", "1\0", "x"] {
        let refused = english.format_all(["1", "2", wrong, "3"], &AS_GIVEN()).unwrap_err();
        assert_eq!((refused.error, refused.at(), refused.column.as_str()), (Error::NUMBER, 2, "12"), "{wrong:?}");
    }
    let first = english.format_all(["1", "x", "1\n2"], &AS_GIVEN()).unwrap_err();
    assert_eq!((Error::from(first.clone()), first.at()), (Error::NUMBER, 1));
    assert_eq!(english.format_integers(&[1, 10], i16::MAX, &AS_GIVEN()).unwrap_err().at(), 1);
    let wide = AS_GIVEN().minimum_integer_digits(32768);
    let of_all = english.format_doubles(&[], &wide).unwrap_err();
    assert_eq!((of_all.error, of_all.to_string()), (Error::OPTION, Error::OPTION.to_string()));
}

#[test]
fn other_formatters() {
    let compact = CompactDecimalFormatter::new("en", Width::Short).unwrap();
    assert_eq!(compact.format_doubles(&[-1_172_700.0, 950.0], &AS_GIVEN()).unwrap().as_str(), "-1.2M950");
    assert_eq!(compact.share().format_integers(&[11727], 2, &AS_GIVEN()).unwrap().as_str(), "1.2M");
    let percents = PercentFormatter::new("tr").unwrap();
    assert_eq!(percents.format_doubles(&[12.5], &AS_GIVEN()).unwrap().as_str(), "%12,5");
    assert_eq!(percents.share().format_all(["5"], &AS_GIVEN()).unwrap().as_str(), "%5");
    let euros = CurrencyFormatter::new("en", "EUR").unwrap();
    assert_eq!(euros.format_integers(&[-123_450], -2, &AS_GIVEN()).unwrap().as_str(), "-€1,234.50");
    let shared = euros.share();
    let texts = thread::scope(|scope| {
        let write = |at: i64| shared.format_integers(&vec![at; 5000], 0, &AS_GIVEN()).unwrap();
        let threads: Vec<_> = (0..8).map(|at| scope.spawn(move || write(at))).collect();
        threads.into_iter().map(|it| it.join().unwrap()).collect::<Vec<_>>()
    });
    assert!(texts.iter().enumerate().all(|(at, column)| column.iter().all(|text| text == format!("€{at}.00"))));
}
