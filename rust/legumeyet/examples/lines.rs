//! Writes the answers to the request lines of standard input, under the book of a file. Where a formatter does what a line asks for,
//! what it says has to be the answer too: another text follows it. After the first 5,000 lines the book is kept.
//!
//! usage: lines BOOK < LINES > ANSWERS

use legumeyet::{Book, DecimalFormatter, Error, Format, NumberFormatter, Options, PluralRuleType, PluralRules, Rounding, TrailingZeros};
use std::error;
use std::io::{self, BufRead, Write};

/// The counts of a word, as `f0-2`.
fn counts_of(word: &str, letter: char) -> Option<(u16, u16)> {
    let (least, most) = word.strip_prefix(letter)?.split_once('-')?;
    Some((least.parse().ok()?, most.parse().ok()?))
}

/// The options with a word of a rounding.
fn with_word(options: Options, word: &str) -> Option<Options> {
    if let Some((least, most)) = counts_of(word, 'f') {
        let zeros = if least == most { TrailingZeros::Keep } else { TrailingZeros::Trim };
        return Some(options.rounded(options.rounding, -i16::try_from(most).ok()?).trailing_zeros(zeros).minimum_fraction_digits(least));
    }
    if let Some((least, most)) = counts_of(word, 's') {
        return Some(options.minimum_significant_digits(least).maximum_significant_digits(most));
    }
    if word == "whole" {
        let is_trimmed = options.trailing_zeros == TrailingZeros::Trim;
        return Some(options.trailing_zeros(if is_trimmed { TrailingZeros::TrimAll } else { TrailingZeros::TrimWhole }));
    }
    if let Ok(priority) = word.parse() {
        return Some(options.rounding_priority(priority));
    }
    match word.parse() {
        Ok(mode) => Some(options.rounding(mode)),
        Err(_) if options.rounding == Rounding::Keep => Some(options.rounded(Rounding::Keep, word.parse().ok()?)),
        Err(_) => Some(options.increment(word.parse().ok()?)),
    }
}

/// The options of two fields, where a formatter has them; a rounding is `-`, or as `-2,half-even,1` or `f0-2,s1-3,more,half-even,whole`.
fn options_of(sign: &str, rounding: &str) -> Option<Options> {
    let options = Options::default().sign(sign.parse().ok()?);
    rounding.split(',').filter(|it| *it != "-").try_fold(options, with_word)
}

/// The text for a compact or scientific number; but for an exact form with the value shown after a tab.
fn shown_text(formatter: &NumberFormatter, form: &str, number: &str, options: &Options) -> Result<String, Error> {
    if form.starts_with("exact-") {
        return formatter.format_exact(number, options);
    }
    Ok(format!("{}\t{}", formatter.format_with(number, options)?, formatter.shown(number, options)?))
}

/// The format of a form that has a value shown.
fn format_of(form: &str) -> Option<Format<'_>> {
    match form {
        "scientific" => Some(Format::scientific()),
        "engineering" => Some(Format::engineering()),
        _ => Some(Format::compact(form.strip_prefix("exact-").unwrap_or(form).parse().ok()?)),
    }
}

/// The word of the plural category of a number, or of the range that it is.
fn category_for(book: &Book, tag: &str, form: &str, number: &str, options: &Options) -> Result<String, Error> {
    let rule_type = if form == "ordinal" { PluralRuleType::Ordinal } else { PluralRuleType::Cardinal };
    let rules = PluralRules::new(book, tag, rule_type, options)?;
    let category = if form == "range-plural" {
        let (start, end) = number.split_once("..").ok_or(Error::NUMBER)?;
        rules.category_for_range(start, end)?
    } else {
        rules.category_for(number)?
    };
    Ok(category.to_string())
}

/// The text for a request by the call of a formatter, where one does what is asked.
fn text_for(book: &Book, fields: &[&str]) -> Option<Result<String, Error>> {
    let [tag, form, grouping, sign, rounding, number] = <[&str; 6]>::try_from(fields).ok()?;
    let (grouping, options) = (grouping.parse().ok()?, options_of(sign, rounding)?);
    let plain = || DecimalFormatter::from_book(book, tag, grouping);
    match form {
        "plain" => Some(plain().and_then(|it| it.format_with(number, &options))),
        "read" => Some(plain().and_then(|it| it.read(number))),
        "plural" | "ordinal" | "range-plural" => Some(category_for(book, tag, form, number, &options)),
        _ => {
            let formatter = NumberFormatter::new(book, tag, &format_of(form)?.grouping(grouping));
            Some(formatter.and_then(|it| shown_text(&it, form, number, &options)))
        }
    }
}

/// The word of an answer that an error stands for.
fn word_of(error: Error) -> &'static str {
    match error {
        Error::TAG => "tag",
        Error::TABLE => "table",
        Error::NUMBER => "number",
        Error::LIMIT => "limit",
        Error::RANGE => "range",
        Error::EXPONENT => "exponent",
        Error::UNREADABLE => "unreadable",
        Error::NOT_WRITTEN => "not-written",
        _ => "no word",
    }
}

/// What a formatter says, as an answer.
fn answer_of(said: Result<String, Error>) -> String {
    match said {
        Ok(text) => format!("ok\t{text}"),
        Err(error) => format!("err\t{}", word_of(error)),
    }
}

fn main() -> Result<(), Box<dyn error::Error>> {
    let path = std::env::args_os().nth(1).ok_or("usage: lines BOOK < LINES > ANSWERS")?;
    let book = Book::open(path)?;
    let mut out = io::BufWriter::new(io::stdout().lock());
    for (count, line) in io::stdin().lock().split(b'\n').enumerate() {
        let line = line?;
        if count == 5000 {
            book.keep()?;
        }
        let fields: Vec<&str> = std::str::from_utf8(&line)?.split('\t').collect();
        let (answer, said) = (book.answer(&line)?, text_for(&book, &fields).map(answer_of));
        match said {
            Some(said) if said != answer => writeln!(out, "{answer} but {said}")?,
            _ => writeln!(out, "{answer}")?,
        }
    }
    Ok(out.flush()?)
}
