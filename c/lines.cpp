// Writes the answers to the request lines of standard input, under the book of a file, which is kept after the first 5,000 of them, as
// c/lines.c does in C.
//
// usage: lines BOOK < LINES > ANSWERS
#include <legumeyet.hpp>

#include <algorithm>
#include <iostream>
#include <regex>
#include <string>
#include <vector>

using namespace legumeyet;
using Words = std::vector<std::string>;

// The words of fields, in the order of their numbers.
static const Words GROUPINGS{"auto", "never", "always", "min2", "on-aligned"};
static const Words SIGNS{"keep", "auto", "never", "always", "except-zero", "negative"};
static const Words MODES{"-",           "expand",     "trunc",     "ceil",       "floor",
                         "half-expand", "half-trunc", "half-ceil", "half-floor", "half-even"};

// The choice that a word is, of an enum whose numbers are the places of its words.
template <class Choice> static Choice choice_of(const std::string &word, const Words &words) {
    return static_cast<Choice>(std::find(words.begin(), words.end(), word) - words.begin());
}

// The pieces of a text between the marks.
static Words pieces(const std::string &text, char mark) {
    Words found(1);
    for (char it : text) {
        if (it == mark)
            found.emplace_back();
        else
            found.back() += it;
    }
    return found;
}

// Whether a word is a letter and counts, as `f0-2`; they are put into the numbers.
static bool are_counts(const std::string &word, char letter, int32_t &least, int32_t &most) {
    const std::size_t mark = word.find('-');
    if (word[0] != letter || word.size() < 4 || mark == std::string::npos || word[1] > '9') return false;
    least = std::stoi(word.substr(1)), most = std::stoi(word.substr(mark + 1));
    return true;
}

// The options of a rounding: `-`, or as `-2,half-even,1` or `f0-2,s1-3,more,half-even,whole`.
static Options rounding_of(const Words &words) {
    Options found;
    int32_t least = 0, most = 0;
    for (const std::string &it : words) {
        if (it == "-") continue;
        if (are_counts(it, 'f', least, most)) {
            found.position = -most, found.minimum_fraction_digits = least;
            found.trailing_zeros = least == most ? TrailingZeros::Keep : TrailingZeros::Trim;
        } else if (are_counts(it, 's', least, most))
            found = found.with_minimum_significant_digits(least).with_maximum_significant_digits(most);
        else if (it == "whole")
            found.trailing_zeros = found.trailing_zeros == TrailingZeros::Trim ? TrailingZeros::TrimAll : TrailingZeros::TrimWhole;
        else if (it == "more" || it == "less")
            found.rounding_priority = it == "more" ? RoundingPriority::MorePrecision : RoundingPriority::LessPrecision;
        else if (it[0] >= 'a')
            found.rounding = choice_of<Rounding>(it, MODES);
        else if (found.rounding == Rounding::Usual)
            found.position = std::stoi(it);
        else
            found.increment = Increment{std::stoi(it)};
    }
    return found;
}

// The word that an answer has for an error.
static std::string word_of(Code error) {
    switch (error) {
    case Code::Tag: return "tag";
    case Code::Table: return "table";
    case Code::Number: return "number";
    case Code::Limit: return "limit";
    case Code::Range: return "range";
    case Code::Exponent: return "exponent";
    case Code::Unreadable: return "unreadable";
    case Code::NotWritten: return "not-written";
    default: return "no word";
    }
}

// A form: what comes before its format, the format, and the code of the currency.
static const std::regex FORM("(read-lenient|read|exact)?-?(plain|short|long|percent|currency|accounting|code)?-?([A-Z]{3})?");

// The formatter of a format.
static NumberFormatter formatter_of(Book &book, const std::string &tag, const std::smatch &form, Grouping grouping) {
    const std::string format = form[2];
    if (format == "short" || format == "long") return CompactDecimalFormatter(book, tag, format == "long" ? Width::Long : Width::Short, grouping);
    if (format == "percent") return PercentFormatter(book, tag, grouping);
    if (format.empty() || format == "plain") return DecimalFormatter(book, tag, grouping);
    const auto style = format == "accounting" ? CurrencyStyle::Accounting : CurrencyStyle::Standard;
    return CurrencyFormatter(book, tag, form[3].str(), style, format == "code" ? CurrencyWidth::Code : CurrencyWidth::Symbol, grouping);
}

// The number of a text. A line takes only an amount that is its own rounding, and a formatter any digits.
static std::string read_by(NumberFormatter &it, const std::string &text, bool is_amount) {
    const std::string number = it.read(text);
    if (is_amount && it.format(number) != text) throw Error(Code::NotWritten);
    return number;
}

// The word of the plural category of a number, or of the range that it is.
static std::string category_for(Book &book, const Words &fields, const Options &options) {
    PluralRules rules(book, fields[0], fields[1] == "ordinal" ? Plurals::Ordinal : Plurals::Cardinal);
    const std::string &number = fields[5];
    if (fields[1] != "range-plural") return std::string(name(rules.select(number, options)));
    const std::size_t mark = number.find("..");
    if (mark == std::string::npos) throw Error(Code::Number);
    return std::string(name(rules.select_range(number.substr(0, mark), number.substr(mark + 2), options)));
}

// The text for the fields of a request by the call of a formatter; for `short` and `long` with the value shown after a tab.
static std::string text_for(Book &book, const Words &fields, const Options &options) {
    std::smatch form;
    if (fields[1] == "plural" || fields[1] == "ordinal" || fields[1] == "range-plural") return category_for(book, fields, options);
    if (!std::regex_match(fields[1], form, FORM)) return "no form";
    NumberFormatter it = formatter_of(book, fields[0], form, choice_of<Grouping>(fields[2], GROUPINGS));
    const std::string task = form[1], &number = fields[5];
    if (task == "read") return read_by(it, number, form[3].matched);
    if (task == "read-lenient") return it.read_lenient(number);
    if (task == "exact") return it.format_exact(number, options);
    return it.format(number, options) + (form[2] == "short" || form[2] == "long" ? '\t' + it.shown(number, options) : "");
}

// What the calls of a formatter say to a request, as an answer.
static std::string by_formatter(Book &book, const std::string &line) {
    const auto fields = pieces(line, '\t');
    const Options options = rounding_of(pieces(fields[4], ',')).with_sign(choice_of<Sign>(fields[3], SIGNS));
    try {
        return "ok\t" + text_for(book, fields, options);
    } catch (const Error &error) {
        return "err\t" + word_of(error.code());
    }
}

static int answer_lines(const char *path) {
    Book book = Book::from_file(path);
    int lines = 0;
    for (std::string line; std::getline(std::cin, line);) {
        if (lines++ == 5000) book.keep();
        const std::string answer = book.answer(line), said = by_formatter(book, line);
        std::cout << answer << (said == answer ? "" : " but " + said) << '\n';
    }
    return 0;
}

int main(int count, char **words) {
    try {
        return count == 2 ? answer_lines(words[1]) : 1;
    } catch (const Error &error) {
        std::cerr << "error " << error.number << ": " << error.what() << '\n';
        return 1;
    }
}
