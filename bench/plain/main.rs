//! A small program of its own for the same request lines, to compare answers and times with:
//! plain lines under the tables of the sample book, written straightforwardly over std.
use std::io::{self, BufRead, BufWriter, Write};

struct Table {
    digits: [char; 10],
    decimal: &'static str,
    group: &'static str,
}

const LATN: [char; 10] = ['0', '1', '2', '3', '4', '5', '6', '7', '8', '9'];
const ARAB: [char; 10] = ['٠', '١', '٢', '٣', '٤', '٥', '٦', '٧', '٨', '٩'];
const THAI: [char; 10] = ['๐', '๑', '๒', '๓', '๔', '๕', '๖', '๗', '๘', '๙'];

/// The locale and the numbering system of a tag, or None where the tag is refused.
fn tag(text: &str) -> Option<(String, Option<String>)> {
    let lower = text.to_ascii_lowercase();
    let pieces: Vec<&str> = lower.split('-').collect();
    let letters = |s: &str| s.bytes().all(|b| b.is_ascii_alphabetic());
    let mut at = 0;
    let language = pieces[0];
    if !(2..=3).contains(&language.len()) || !letters(language) {
        return None;
    }
    at += 1;
    let mut locale = language.to_string();
    if let Some(p) = pieces.get(at).filter(|p| p.len() == 4 && letters(p)) {
        locale += "-";
        locale += p;
        at += 1;
    }
    let region = |p: &str| (p.len() == 2 && letters(p)) || (p.len() == 3 && p.bytes().all(|b| b.is_ascii_digit()));
    if let Some(p) = pieces.get(at).filter(|p| region(p)) {
        locale += "-";
        locale += p;
        at += 1;
    }
    match &pieces[at..] {
        [] => Some((locale, None)),
        ["u", "nu", v] if (3..=8).contains(&v.len()) && v.bytes().all(|b| b.is_ascii_alphanumeric()) => {
            Some((locale, if *v == "true" { None } else { Some(v.to_string()) }))
        }
        _ => None,
    }
}

fn table(locale: &str, system: Option<&str>) -> Option<Table> {
    let (own, decimal, group) = match locale {
        "en" => ("latn", ".", ","),
        "ar-eg" => ("arab", "٫", "٬"),
        _ => return None,
    };
    let digits = |name: &str| match name {
        "latn" => Some(LATN),
        "arab" => Some(ARAB),
        "thai" => Some(THAI),
        _ => None,
    };
    let digits = system.and_then(digits).or_else(|| digits(own))?;
    Some(Table { digits, decimal, group })
}

fn answer(line: &[u8], out: &mut String) -> Result<(), &'static str> {
    let line = std::str::from_utf8(line).map_err(|_| "shape")?;
    let fields: Vec<&str> = line.split('\t').collect();
    let [tag_text, "plain", grouping, "keep", "-", text] = fields[..] else {
        return Err("shape");
    };
    let least = match grouping {
        "auto" | "always" => 1,
        "min2" => 2,
        "never" => usize::MAX,
        _ => return Err("shape"),
    };
    let (locale, system) = tag(tag_text).ok_or("tag")?;
    let (sign, rest) = match text.as_bytes().first() {
        Some(b'-') => ("-", &text[1..]),
        Some(b'+') => ("+", &text[1..]),
        _ => ("", text),
    };
    if let Some(at) = rest.find(['e', 'E']) {
        let digits = |s: &str| !s.is_empty() && s.bytes().all(|b| b.is_ascii_digit());
        // the lines made here have an exponent only to be past the magnitudes
        return Err(if digits(&rest[..at]) && digits(&rest[at + 1..]) { "limit" } else { "number" });
    }
    let (whole, fraction) = match rest.split_once('.') {
        Some((_, "")) => return Err("number"),
        Some((w, f)) => (w, f),
        None => (rest, ""),
    };
    let digits = |s: &str| s.bytes().all(|b| b.is_ascii_digit());
    if !digits(whole) || !digits(fraction) || whole.len() + fraction.len() == 0 {
        return Err("number");
    }
    if whole.len() > 32768 || fraction.len() > 32768 {
        return Err("limit");
    }
    let table = table(&locale, system.as_deref()).ok_or("table")?;
    let whole = if whole.is_empty() { "0" } else { whole };
    out.push_str("ok\t");
    out.push_str(sign);
    for (at, digit) in whole.bytes().enumerate() {
        let left = whole.len() - at;
        if at > 0 && left % 3 == 0 && least != usize::MAX && whole.len() >= 3 + least {
            out.push_str(table.group);
        }
        out.push(table.digits[(digit - b'0') as usize]);
    }
    if !fraction.is_empty() {
        out.push_str(table.decimal);
        for digit in fraction.bytes() {
            out.push(table.digits[(digit - b'0') as usize]);
        }
    }
    Ok(())
}

fn main() -> io::Result<()> {
    let mut input = io::BufReader::with_capacity(1 << 16, io::stdin().lock());
    let mut output = BufWriter::with_capacity(1 << 16, io::stdout().lock());
    let (mut line, mut out) = (Vec::new(), String::new());
    loop {
        line.clear();
        if input.read_until(b'\n', &mut line)? == 0 {
            return output.flush();
        }
        if line.last() == Some(&b'\n') {
            line.pop();
        }
        out.clear();
        if let Err(word) = answer(&line, &mut out) {
            out.push_str("err\t");
            out.push_str(word);
        }
        out.push('\n');
        output.write_all(out.as_bytes())?;
    }
}
