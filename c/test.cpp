// Calls each function of legumeyet.hpp well and badly. The status is 1 where one does otherwise than it should, and a line says which.
//
// usage: test BOOK
//
// BOOK is a file with the world's book.
#include "expect.hpp"

#include <iomanip>
#include <iostream>
#include <limits>
#include <sstream>
#include <sys/wait.h>
#include <thread>
#if __cplusplus >= 202002L
#include <ranges>
#endif

using legumeyet::Book, legumeyet::CompactDecimalFormatter, legumeyet::DecimalFormatter;
using legumeyet::CurrencyFormatter, legumeyet::CurrencyStyle, legumeyet::CurrencyWidth, legumeyet::PercentFormatter;
using legumeyet::Code, legumeyet::Grouping, legumeyet::Increment, legumeyet::Kind, legumeyet::Number, legumeyet::Options;
using legumeyet::Rounding, legumeyet::RoundingPriority, legumeyet::Sign, legumeyet::TrailingZeros, legumeyet::Width;

// Whether a formatter takes arguments of these types.
template <class, class... Arguments> constexpr bool takes = false;
template <class... Arguments>
constexpr bool takes<std::void_t<decltype(std::declval<DecimalFormatter &>().format(std::declval<Arguments>()...))>, Arguments...> = true;
template <class... Arguments> constexpr bool formats_of = takes<void, Arguments...>;

static_assert(formats_of<int> && formats_of<int, int> && formats_of<long long, short, Options> && formats_of<unsigned long, int>);
static_assert(formats_of<uint8_t> && formats_of<int8_t> && formats_of<char *> && formats_of<const std::string &, Options>);
static_assert(formats_of<std::string> && formats_of<const char *> && formats_of<const char (&)[3]> && formats_of<std::string_view, Options>);
static_assert(formats_of<double> && formats_of<double, Options> && formats_of<Number> && formats_of<Number, Options>);
static_assert(!formats_of<double, int> && !formats_of<double, int, Options> && !formats_of<double, double> && !formats_of<int, double>);
static_assert(!formats_of<float> && !formats_of<float, int, Options> && !formats_of<long double> && !formats_of<long double, Options>);
static_assert(!formats_of<std::nullptr_t> && !formats_of<std::nullptr_t, int> && !formats_of<bool> && !formats_of<const bool &>);
static_assert(!formats_of<char> && !formats_of<wchar_t> && !formats_of<char16_t> && !formats_of<char32_t> && !formats_of<int, bool>);
static_assert(!formats_of<int, Sign> && !formats_of<int, legumeyet_options> && !formats_of<Sign> && !formats_of<void *>);

// Numbers whose parts and shown values are asked for.
template <class, class T> constexpr bool has_parts = false;
template <class T>
constexpr bool has_parts<std::void_t<decltype(std::declval<DecimalFormatter &>().format_parts(std::declval<T>()))>, T> = true;
static_assert(has_parts<void, int> && has_parts<void, uint64_t> && has_parts<void, double> && has_parts<void, std::string>);
static_assert(!has_parts<void, float> && !has_parts<void, bool> && !has_parts<void, char> && !has_parts<void, std::nullptr_t>);

// One choice cannot be given for another.
static_assert(std::is_constructible_v<CompactDecimalFormatter, const char *, Width, Grouping>);
static_assert(!std::is_constructible_v<CompactDecimalFormatter, const char *, Grouping>);
static_assert(!std::is_constructible_v<CompactDecimalFormatter, const char *, Grouping, Width>);
static_assert(!std::is_constructible_v<CompactDecimalFormatter, const char *, uint32_t>);
static_assert(!std::is_constructible_v<DecimalFormatter, const char *, Width> && !std::is_constructible_v<DecimalFormatter, const char *, int>);
static_assert(std::is_constructible_v<CurrencyFormatter, Book &, const char *, std::string, CurrencyStyle, CurrencyWidth, Grouping>);
static_assert(!std::is_constructible_v<CurrencyFormatter, const char *> && !std::is_constructible_v<PercentFormatter, const char *, const char *>);
static_assert(!std::is_constructible_v<CurrencyFormatter, const char *, const char *, CurrencyWidth>);
static_assert(!std::is_constructible_v<CurrencyFormatter, const char *, const char *, Grouping>);
static_assert(!std::is_convertible_v<const char *, PercentFormatter>);

// A null pointer that is seen by the compiler is no text.
static_assert(!std::is_constructible_v<DecimalFormatter, std::nullptr_t> && !std::is_constructible_v<DecimalFormatter, Book &, std::nullptr_t>);
static_assert(!std::is_constructible_v<CurrencyFormatter, const char *, std::nullptr_t> && !std::is_constructible_v<Book, std::nullptr_t>);
static_assert(std::is_constructible_v<DecimalFormatter, std::string> && std::is_constructible_v<DecimalFormatter, char *, Grouping>);

// What a temporary result has is given away and not shown.
template <class T> constexpr bool gives_away = std::is_same_v<decltype(std::declval<legumeyet::Result<T>>().value()), T> &&
                                               std::is_same_v<decltype(*std::declval<legumeyet::Result<T>>()), T>;
static_assert(gives_away<std::string> && gives_away<legumeyet::Column> && gives_away<Book> && gives_away<legumeyet::Annotated>);
static_assert(!std::is_convertible_v<const char *, DecimalFormatter> && !std::is_convertible_v<const char *, Book>);

// Books and formatters are moved and not copied, and nothing is thrown there; the type of a `format_to` is its iterator's.
template <class T> constexpr bool is_moved = std::is_nothrow_move_constructible_v<T> && std::is_nothrow_move_assignable_v<T> &&
                                             std::is_nothrow_destructible_v<T> && !std::is_copy_constructible_v<T> &&
                                             !std::is_copy_assignable_v<T>;
static_assert(is_moved<Book> && is_moved<DecimalFormatter> && is_moved<CompactDecimalFormatter>);
static_assert(is_moved<PercentFormatter> && is_moved<CurrencyFormatter>);
static_assert(std::is_nothrow_move_constructible_v<legumeyet::Result<DecimalFormatter>>);
static_assert(std::is_copy_assignable_v<legumeyet::Error> && std::is_aggregate_v<Options>);
static_assert(noexcept(std::declval<DecimalFormatter &>().format_to(nullptr, 0, 1)) && noexcept(std::declval<Book &>().try_keep()));
static_assert(noexcept(DecimalFormatter::try_open(std::declval<Book &>(), std::string_view())) && noexcept(Book::try_world()));
static_assert(Options().with_rounding(Rounding::Floor, -2).with_sign(Sign::Never).position == -2);

// Whether options take an argument as the position of a rounding.
template <class, class T> constexpr bool rounds = false;
template <class T> constexpr bool rounds<std::void_t<decltype(Options().with_rounding(Rounding::Floor, std::declval<T>()))>, T> = true;
static_assert(rounds<void, int> && rounds<void, int16_t> && rounds<void, uint64_t> && !rounds<void, double> && !rounds<void, bool>);

static const std::string BOOK = R"([[["en","","latn","-","","+","",".",",",3,3,1],["bad","","latn","","","+","",".",",",3,3,1]],
[["latn","0123456789"]],[["en",[]]],[["en","",[[3,3,[["other",["","K"]]]],[6,6,[["other",["","M"]]]]],null]],
[["en","",[[3,3,[["other",[""," thousand"]]]]],null]]])";

// The call throws the error of this number.
template <class Call> static void expect_error(int32_t number, Call call) {
    try {
        call();
        std::cout << "no error, and not " << number << '\n';
    } catch (const legumeyet::Error &error) {
        if (error.number == number && error.code() == Code{number} && *error.what() != 0) return;
        std::cout << error.number << ", and not " << number << '\n';
    }
    wrong = 1;
}

// A null pointer in place of a text is an empty text.
static void null_texts(DecimalFormatter &english) {
    const char *null = nullptr;
    expect_error(LEGUMEYET_TAG, [&] { DecimalFormatter{null}; });
    expect_error(LEGUMEYET_CODE, [&] { CurrencyFormatter{"en", null}; });
    expect_error(LEGUMEYET_BOOK_JSON, [&] { Book{null}; });
    expect_error(LEGUMEYET_NUMBER, [&] { english.format(null); });
    expect_error(LEGUMEYET_NUMBER, [&] { english.format_parts(null); });
    expect_error(LEGUMEYET_NUMBER, [&] { english.format_all(std::vector<const char *>{"1", null}); });
    expect_error(LEGUMEYET_NOT_WRITTEN, [&] { english.read(null); });
    expect_error(LEGUMEYET_NOT_WRITTEN, [&] { english.read_lenient(null); });
}

static const Options ROUNDED = Options().with_rounding(Rounding::HalfEven, -1);

static void doubles(DecimalFormatter &english) {
    Options options = Options().with_rounding(Rounding::HalfEven, -2).with_increment(Increment::Five).with_minimum_integer_digits(3);
    expect(english.format(0.1), "0.1");
    expect(english.format(-1234.5), "-1,234.5");
    expect(english.format(5.0), "5");
    expect(english.format(-0.0), "-0");
    expect(english.format(1.23, options), "001.25");
    expect(english.format(1.26, options.with_increment(Increment::Fifty)), "001.50");
    expect(english.format(1234, Options().with_rounding(Rounding::HalfEven, 0).with_increment(Increment::TwoHundredFifty)), "1,250");
    expect(english.format(400, Options().with_rounding(Rounding::HalfEven, 3)) + english.format("000"), "0000");
    expect(english.format("2.00", Options().with_trailing_zeros(TrailingZeros::TrimWhole)), "2");
    expect(english.format("2.50", Options().with_trailing_zeros(TrailingZeros::TrimWhole)), "2.50");
    options = options.with_trailing_zeros(TrailingZeros::Trim).with_minimum_fraction_digits(1);
    expect(english.format(1.98, options), "002.0");
    expect_error(LEGUMEYET_NUMBER, [&] { english.format(std::numeric_limits<double>::quiet_NaN()); });
    expect_error(LEGUMEYET_NUMBER, [&] { english.format(-std::numeric_limits<double>::infinity()); });
    options.minimum_integer_digits = 40000;
    expect_error(LEGUMEYET_OPTION, [&] { english.format(1.5, options); });
}

static void formats(DecimalFormatter &english) {
    const std::string long_number(1000, '1');
    const char *text = "1e3";
    char changing[] = "1e4";
    expect(english.format("-987654.321"), "-987,654.321");
    expect(english.format(text) + english.format(changing), "1,00010,000");
    expect(english.format(500, -2), "5.00");
    expect(english.format({500, -2}), "5.00");
    expect(english.format(-123456, 1), "-1,234,560");
    expect(english.format(0), "0");
    expect(english.format(1234), "1,234");
    expect(english.format(int8_t{-5}), "-5");
    expect(english.format(uint8_t{65}, 3L), "65,000");
    expect(english.format(INT64_MIN), "-9,223,372,036,854,775,808");
    expect(english.format(UINT64_MAX), "18,446,744,073,709,551,615");
    expect(english.format(UINT64_MAX, -2), "184,467,440,737,095,516.15");
    expect(english.format(-9650, -3, ROUNDED.with_sign(Sign::Never)), "9.6");
    expect(english.format("9.65", ROUNDED.with_sign(Sign::Always)), "+9.6");
    expect(english.format("9.65", {Sign::Always, Rounding::HalfEven, -1}), "+9.6");
    expect_error(LEGUMEYET_LIMIT, [&] { english.format(5, 40000); });
    expect_error(LEGUMEYET_LIMIT, [&] { english.format(0, -40000); });
    expect_error(LEGUMEYET_LIMIT, [&] { english.format(5, UINT64_MAX); });
    expect_error(LEGUMEYET_OPTION, [&] { english.format(5, 40000, Options().with_sign(Sign{6})); });
    expect(std::to_string(english.format(long_number).size()), "1333");
    expect_error(LEGUMEYET_NUMBER, [&] { english.format("5."); });
    expect_error(LEGUMEYET_NUMBER, [&] { english.format(std::string_view()); });
    expect_error(LEGUMEYET_LIMIT, [&] { english.format(std::string(40000, '9')); });
    expect_error(LEGUMEYET_LIMIT, [&] { english.format(10, INT16_MAX); });
    expect_error(LEGUMEYET_OPTION, [&] { english.format("1", Options().with_sign(Sign{6})); });
    for (int position : {-65536, -32769, 32768, 70000})
        expect_error(LEGUMEYET_OPTION, [&] { english.format(5, 0, Options().with_rounding(Rounding::HalfEven, position)); });
    for (int count : {-1, 32768, 65536, 70000}) {
        expect_error(LEGUMEYET_OPTION, [&] { english.format(5, 0, Options().with_minimum_integer_digits(count)); });
        expect_error(LEGUMEYET_OPTION, [&] { english.format(5, 0, Options().with_minimum_fraction_digits(count)); });
    }
}

// Significant digits, alone and beside a position.
static void significant_digits(DecimalFormatter &english) {
    const auto digits = [](auto least, auto most) { return Options().with_minimum_significant_digits(least).with_maximum_significant_digits(most); };
    const auto which = [&](RoundingPriority it) { return digits(0, 2).with_rounding(Rounding::HalfEven, -1).with_rounding_priority(it); };
    const std::pair<Options, const char *> ROWS[] = {
        {digits(0, 3), "1,230"}, {digits(0, 5), "1,234.6"}, {digits(8, 0), "1,234.5600"}, {digits(8, 9).with_trailing_zeros(TrailingZeros::TrimWhole), "1,234.5600"},
        {digits(1, 5).with_rounding(Rounding::Floor), "1,234.5"}, {which(RoundingPriority::Auto), "1,200"},
        {which(RoundingPriority::MorePrecision), "1,234.6"}, {which(RoundingPriority::LessPrecision), "1,200"},
    };
    for (const auto &[options, text] : ROWS) expect(english.format(1234.56, options), text);
    expect(english.format(5, 0, digits(3, 3)) + english.format(5, 0, digits(3, 3).with_trailing_zeros(TrailingZeros::TrimAll)), "5.005");
    for (const Options &it : {digits(3, 2), digits(-1, 2), digits(0, 65536), digits(0, UINT64_MAX), digits(0, 2).with_rounding(Rounding::Cash),
                              digits(0, 2).with_increment(Increment::Five), digits(0, 2).with_rounding_priority(RoundingPriority::MorePrecision),
                              which(RoundingPriority{3}), digits(0, 0).with_rounding_priority(RoundingPriority::LessPrecision)})
        expect_error(LEGUMEYET_OPTION, [&] { english.format(5, 0, it); });
}

#if __cplusplus >= 202002L
// Options by their names.
static void designates(DecimalFormatter &english) {
    expect(english.format(1.255, {.rounding = Rounding::HalfEven, .position = -2, .trailing_zeros = TrailingZeros::Trim}), "1.26");
    expect(english.format(1.5, {.rounding = Rounding::HalfEven, .position = -2, .trailing_zeros = TrailingZeros::Trim}), "1.5");
    expect(english.format({7, 0}, {.minimum_integer_digits = 3, .minimum_fraction_digits = 1}), "007.0");
    expect(english.format(12345, {.minimum_significant_digits = 1, .maximum_significant_digits = 3}), "12,300");
}
#endif

// Each option reaches its field.
static void options() {
    const Options all = Options().with_sign(Sign::Negative).with_rounding(Rounding::HalfFloor, -3).with_trailing_zeros(TrailingZeros::Trim);
    const auto found = static_cast<legumeyet_options>(
        all.with_increment(Increment::TwentyFive).with_minimum_integer_digits(4).with_minimum_fraction_digits(5).with_minimum_significant_digits(6)
            .with_maximum_significant_digits(7).with_rounding_priority(RoundingPriority::LessPrecision));
    const bool is_first = found.sign == LEGUMEYET_SIGN_NEGATIVE && found.rounding == LEGUMEYET_ROUND_HALF_FLOOR && found.position == -3;
    const bool is_second = found.trailing_zeros == LEGUMEYET_TRAILING_ZEROS_TRIM && found.increment == 25;
    const bool is_third = found.minimum_integer_digits == 4 && found.minimum_fraction_digits == 5;
    const bool is_last = found.minimum_significant_digits == 6 && found.maximum_significant_digits == 7 && found.rounding_priority == 2;
    expect(is_first && is_second && is_third && is_last ? "all" : "not all", "all");
    const auto none = static_cast<legumeyet_options>(Options().with_rounding(Rounding::Keep));
    expect(none.sign == 0 && none.rounding == 0 && none.position == 0 && none.increment == 1 ? "none" : "some", "none");
}

// What is written into a room, or to an iterator.
static void rooms(DecimalFormatter &english) {
    char room[16] = "...............";
    auto written = english.format_to(room, sizeof room, -1234.5);
    expect(std::string(room, written.out) + (written ? " well" : ""), "-1,234.5 well");
    expect(std::string(room + 8), ".......");
    written = english.format_to(room, 3, {123456, -2});
    expect(std::string(room, written.out) + room[3] + std::to_string(written.size), "1,228");
    expect_code(written.code, Code::TooSmall);
    written = english.format_to(nullptr, 0, "1e100");
    expect_code(written.code, Code::TooSmall);
    expect(std::to_string(written.size) + (written.out == nullptr ? " at null" : ""), "134 at null");
    written = english.format_to(room, sizeof room, "5.");
    expect_code(written.code, Code::Number);
    expect(written.out == room && written.size == 0 ? "nothing" : "something", "nothing");
    std::string text = "= ";
    expect_code(english.format_to(std::back_inserter(text), 500, ROUNDED.with_sign(Sign::Always)).code, Code::Ok);
    expect(text, "= +500.0");
    expect_code(english.format_to(std::back_inserter(text), "x").code, Code::Number);
    expect(text, "= +500.0");
    for (int count : {191, 192, 193, 1000}) {
        std::ostringstream stream;
        const auto there = english.format_to(std::ostreambuf_iterator<char>(stream), std::string(static_cast<size_t>(count), '1'));
        expect(std::to_string(there.size) + (there.out.failed() ? " failed" : ""), std::to_string(count + (count - 1) / 3));
        expect(stream.str(), english.format(std::string(static_cast<size_t>(count), '1')));
    }
}

// What a stream is given.
static void streams(DecimalFormatter &english, CompactDecimalFormatter &short_english) {
    std::ostringstream out;
    out << english(-1234.5) << '|' << std::setw(8) << english({500, -2}, Options().with_sign(Sign::Always)) << '|';
    out << short_english("-1172700") << '|';
    expect(out.str(), "-1,234.5|   +5.00|-1.2M|");
    const std::string long_number(1000, '1');
    const auto kept = english(7), long_kept = english(long_number);
    out.str("");
    out << kept << kept << long_kept;
    expect(out.str(), "77" + english.format(long_number));
    std::size_t size = 0;
    expect_code(long_kept.with_text([&](std::string_view text) { size = text.size(); }), Code::Ok);
    expect(std::to_string(size), "1333");
    expect_error(LEGUMEYET_NUMBER, [&] { out << english("5."); });
#if defined(__cpp_lib_format)
    expect(std::format("{}|{:>10}|{:*<9}|{:.3}", english(-1234.5), english({500, -2}), short_english(-1172700), english(1234)),
           "-1,234.5|      5.00|-1.2M****|1,2");
    expect_error(LEGUMEYET_NUMBER, [&] { expect(std::format("{}", english("5.")), "an error"); });
#endif
}

// The parts of a text, one after the other with their kinds.
static std::string named(const legumeyet::Annotated &annotated) {
    std::string found;
    for (auto [text, kind] : annotated) found += std::to_string(static_cast<uint32_t>(kind)) + std::string(text) + ' ';
    return found;
}

static void parts(DecimalFormatter &english) {
    const auto small = english.format_parts("-1234.5"), large = english.format_parts(std::string(1000, '1'));
    expect(small.text, "-1,234.5");
    expect(std::to_string(small.parts.size()), "5");
    expect(small.text.substr(small.parts[1].start, small.parts[1].end - small.parts[1].start), "1,234");
    expect(std::to_string(small.parts[4].kind), std::to_string(LEGUMEYET_PART_FRACTION));
    expect(std::to_string(large.text.size() + large.parts.size()), "1667");
    expect(named(small), "1- 31,234 4, 5. 65 ");
    expect(named(english.format_parts(INT64_MIN)), "1- 39,223,372,036,854,775,808 4, 4, 4, 4, 4, 4, ");
    expect(named(english.format_parts(uint8_t{65}, Options().with_sign(Sign::Always))), "2+ 365 ");
    expect(named(english.format_parts(1.25e-3, Options().with_rounding(Rounding::Ceil, -3))), "30 5. 6002 ");
    for (double number : {0.0, -0.0, 5.0, 0.1, -1234.5, 1e21, 1152921504606846976.0, 5e-324, std::numeric_limits<double>::max()})
        expect(english.format_parts(number).text, english.format(number));
    expect(std::to_string(std::count_if(small.begin(), small.end(), [](auto it) { return it.kind == Kind::Group; })), "1");
    expect_error(LEGUMEYET_NUMBER, [&] { english.format_parts("5."); });
    expect_error(LEGUMEYET_NUMBER, [&] { english.format_parts(std::numeric_limits<double>::quiet_NaN()); });
#if __cplusplus >= 202002L
    static_assert(std::ranges::forward_range<legumeyet::Annotated>);
#endif
}

static void compacts(Book &book, CompactDecimalFormatter &english) {
    const auto annotated = english.format_parts(-1650);
    CompactDecimalFormatter long_english(book, "en", Width::Long), never(book, "en", Width::Short, Grouping::Never);
    expect(english.format("-1172700"), "-1.2M");
    expect(english.format(16, 2), "1.6K");
    expect(english.format(UINT64_MAX, -9), "18,447M");
    expect(english.format(-1172700.0), "-1.2M");
    expect(english.format("1250000", {Sign::Always, Rounding::Trunc, 6}), "+1M");
    expect(english.format("12345678901"), "12,346M");
    expect(never.format("12345678901"), "12346M");
    expect(long_english.format("1650"), "1.6 thousand");
    expect(annotated.text, "-1.6K");
    expect(named(annotated), "1- ");
    expect(english.shown("-1172700"), "-1.2c6");
    expect(english.shown("950") + ' ' + english.shown(1172700) + ' ' + english.shown(-1650.0), "950 1.2c6 -1.6c3");
    expect(english.format_exact("-1.20c6"), "-1.20M");
    expect(english.format_exact(english.shown("1650"), Options().with_sign(Sign::Always)), "+1.6K");
    expect_error(LEGUMEYET_NUMBER, [&] { english.format("5."); });
    expect_error(LEGUMEYET_RANGE, [&] { english.format(std::string(32768, '9')); });
    expect_error(LEGUMEYET_EXPONENT, [&] { english.format_exact("1.2c5"); });
    expect_error(LEGUMEYET_NUMBER, [&] { english.format_exact("1.2e6"); });
    expect_error(LEGUMEYET_NUMBER, [&] { english.shown("1.2c6"); });
    expect_error(LEGUMEYET_OPTION, [&] { CompactDecimalFormatter(book, "en", Width{2}); });
    expect_error(LEGUMEYET_TABLE, [&] { CompactDecimalFormatter(book, "bad"); });
    expect_error(LEGUMEYET_TAG, [&] { CompactDecimalFormatter(book, "e"); });
}

static void reads(Book &book, DecimalFormatter &english) {
    const std::string long_number(1000, '1');
    expect(english.read("-1,234.50"), "-1234.50");
    expect(english.read(english.format(long_number)), long_number);
    expect(english.read_lenient(" 1234.5 "), "1234.5");
    expect_error(LEGUMEYET_NOT_WRITTEN, [&] { english.read_lenient("1,23"); });
    expect_error(LEGUMEYET_NOT_WRITTEN, [&] { english.read("98,7654"); });
    expect_error(LEGUMEYET_NOT_WRITTEN, [&] { english.read(std::string_view()); });
    expect_error(LEGUMEYET_UTF8, [&] { english.read("\xff"); });
    expect_error(LEGUMEYET_UNREADABLE, [&] { DecimalFormatter(book, "bad").read("1"); });
}

static void answers(Book &book) {
    const std::string long_line = "en\tplain\tauto\tkeep\t-\t" + std::string(1000, '1');
    expect(book.answer("en\tplain\tauto\tkeep\t-\t-987654.321"), "ok\t-987,654.321");
    expect(book.answer("e\tplain\tauto\tkeep\t-\t1"), "err\ttag");
    expect(book.answer(std::string_view()), "err\tshape");
    expect(std::to_string(book.answer(long_line).size()), "1336");
}

// The kept book is never given back.
static void keeps() {
    Book kept(BOOK);
    kept.keep();
    kept.keep();
    DecimalFormatter english(kept, "en"), moved = std::move(english);
    CompactDecimalFormatter short_english(kept, "en");
    kept = Book("[[],[],[],[],[]]");
    expect(moved.format("-987654.321"), "-987,654.321");
    expect(short_english.format("-1172700"), "-1.2M");
    expect_error(LEGUMEYET_TABLE, [&] { DecimalFormatter(kept, "en"); });
}

// What is moved from is closed, also by an assignment, but for what is moved to itself.
static void moves(Book &book) {
    DecimalFormatter english(book, "en", Grouping::Never), other(book, "en"), &same = english;
    english = std::move(other);
    expect(english.format(1234), "1,234");
    expect_error(LEGUMEYET_CLOSED, [&] { other.format(1); });
    expect_code(other.try_format(1).error(), Code::Closed);
    other = std::move(english);
    expect(other.format(1234), "1,234");
    expect_error(LEGUMEYET_CLOSED, [&] { english.format(1); });
    english = std::move(same);
    english = DecimalFormatter(book, "en");
    english = std::move(same);
    expect(english.format(1234), "1,234");
    std::swap(english, other);
    expect(english.format(1234) + other.format(5), "1,2345");
    std::vector<DecimalFormatter> many;
    for (int count = 0; count < 5; count++) many.emplace_back(book, "en");
    expect(many.front().format(1234), "1,234");
}

// An error may be assigned, and a result has what was found or the code of the error.
static void results(Book &book, DecimalFormatter &english) {
    legumeyet::Error error(LEGUMEYET_TAG);
    error = legumeyet::Error(Code::Table);
    expect(std::to_string(error.number) + error.what(), "6the book lacks a table for the tag");
    expect(legumeyet::message(Code::Tag) + legumeyet::message(Code{99}), "no locale tagan error of another version");
    expect(legumeyet::message(Code::Ok) + legumeyet::message(Code::File), "all is wellthe file cannot be read");
    auto well = english.try_format(1234);
    const auto badly = english.try_format("5.");
    expect(*well + std::to_string(well->size()) + (well ? "t" : "f") + (badly.has_value() ? "t" : "f"), "1,2345tf");
    expect_code(well.error(), Code::Ok);
    expect_code(badly.error(), Code::Number);
    expect(badly.value_or("none") + well.value_or("none") + english.try_format("x").value_or("no"), "none1,234no");
    expect_error(LEGUMEYET_NUMBER, [&] { (void)badly.value(); });
    expect_code(DecimalFormatter::try_open(book, "en", Grouping{5}).error(), Code::Option);
    expect_code(CompactDecimalFormatter::try_open(book, "en", Width::Short, Grouping{5}).error(), Code::Option);
    auto opened = CompactDecimalFormatter::try_open(book, "en");
    expect(opened->format(1650), "1.6K");
    CompactDecimalFormatter taken = *std::move(opened);
    expect_code(opened->try_format(1).error(), Code::Closed);
    expect(taken.format(1650), "1.6K");
#ifdef __cpp_lib_expected
    std::expected<std::string, Code> expected = english.try_format(1234);
    expect(expected.value_or("none"), "1,234");
    expected = english.try_format("x");
    expect_code(expected.error(), Code::Number);
    std::expected<DecimalFormatter, Code> formatter = DecimalFormatter::try_open(book, "en");
    expect(formatter->format(1234), "1,234");
#endif
}

// Formatters of a tag alone, in threads of their own from the first on, and in a forked child.
static void world() {
    bool is_right[8] = {};
    std::vector<std::thread> threads;
    for (bool &it : is_right)
        threads.emplace_back([&it] { it = DecimalFormatter("de").format("1234567.891") == "1.234.567,891"; });
    for (auto &it : threads) it.join();
    for (bool it : is_right) expect(it ? "right" : "a thread is wrong", "right");
    const pid_t child = fork();
    if (child == 0) _exit(DecimalFormatter("hi").format("1234567.891") == "12,34,567.891" ? 0 : 1);
    int status = -1;
    waitpid(child, &status, 0);
    expect(std::to_string(status), "0");
    expect(DecimalFormatter("ar-EG").format(1234567891, -3), "١٬٢٣٤٬٥٦٧٫٨٩١");
    expect(DecimalFormatter("de", Grouping::Never).format(1234), "1234");
    expect(DecimalFormatter("es").format(1234) + ' ' + DecimalFormatter("es", Grouping::OnAligned).format(1234), "1234 1.234");
    expect(CompactDecimalFormatter("hi", Width::Long).format(1234567), "12 लाख");
    expect(DecimalFormatter(legumeyet::tag_of_locale_name("de_DE.UTF-8")).format("0.5"), "0,5");
    expect(legumeyet::tag_of_locale_name(nullptr), "en");
    const auto locales = legumeyet::world_locales();
    expect(std::find(locales.begin(), locales.end(), "de-AT") != locales.end() ? "there" : "not there", "there");
    expect(locales.back(), "zu-ZA");
    expect_error(LEGUMEYET_TABLE, [] { CompactDecimalFormatter("xx"); });
    try {
        DecimalFormatter("de_DE");
        expect("no error", "de_DE");
    } catch (const legumeyet::Error &error) {
        expect(error.what(), "no locale tag: `de_DE` is written `de-DE`");
    }
}

// Amounts of money, of the world's book; `_` is a no-break space.
static std::string spaced(std::string_view text) {
    std::string found;
    for (char it : text) found += it == '_' ? std::string("\u00a0") : std::string(1, it);
    return found;
}

static void money() {
    CurrencyFormatter euros("de", "EUR"), dollars("en", "USD", CurrencyStyle::Accounting), yen("en", "JPY"), francs("de-CH", "CHF");
    CurrencyFormatter codes("en", "EUR", CurrencyStyle::Standard, CurrencyWidth::Code), cash("en", "CHF"), none("en", "QQQ");
    expect(euros.format(1234.5), spaced("1.234,50_€"));
    expect(euros.format("1234567.891", Options().with_rounding(Rounding::None)), spaced("1.234.567,891_€"));
    expect(CurrencyFormatter("de", "EUR", CurrencyStyle::Standard, CurrencyWidth::Symbol, Grouping::Never).format(1234.5), spaced("1234,50_€"));
    expect(dollars.format(-5) + dollars.format(5, 0, Options().with_sign(Sign::Always)), "($5.00)+$5.00");
    expect(francs.format(-5) + ' ' + francs.format({-500, -2}), "CHF-5.00 CHF-5.00");
    expect(yen.format(2.5) + yen.format("2.5", Options().with_rounding(Rounding::HalfExpand, -1)), "¥2¥2.5");
    expect(cash.format("2.345", Options().with_rounding(Rounding::Cash)), spaced("CHF_2.35"));
    expect(codes.format(5) + none.format(1), spaced("EUR_5.00QQQ_1.00"));
    expect(dollars.format("1.005") + dollars.format("1.015"), "$1.00$1.02");
    expect(dollars.format(UINT64_MAX), "$18,446,744,073,709,551,615.00");
    expect(named(dollars.format_parts("-1234.5")), "1($ 7$ 31,234 4, 5. 650 1) ");
    expect(named(francs.format_parts(-5)), "1CHF- 7CHF 35 5. 600 ");
    expect(euros.read(spaced("-1.234,50_€")) + ' ' + dollars.read("($5.00)") + ' ' + dollars.read("$1.5"), "-1234.50 -5.00 1.5");
    std::ostringstream out;
    std::string text;
    out << dollars(-5) << '|' << std::setw(8) << yen(5) << '|';
    expect(out.str(), "($5.00)|     ¥5|");
    expect_code(dollars.format_to(std::back_inserter(text), -5).code, Code::Ok);
    expect(text, "($5.00)");
#if defined(__cpp_lib_format)
    expect(std::format("{:>9}", dollars(-5)), "  ($5.00)");
#endif
    expect(dollars.read_lenient("5.00") + ' ' + dollars.read_lenient(" -5 USD") + ' ' + euros.read_lenient("1234,5€"), "5.00 -5 1234.5");
    expect_error(LEGUMEYET_NOT_WRITTEN, [&] { dollars.read_lenient("5 EUR"); });
    expect_error(LEGUMEYET_NOT_WRITTEN, [&] { dollars.read("5.00"); });
    expect_error(LEGUMEYET_UTF8, [&] { dollars.read("\xff"); });
    expect_error(LEGUMEYET_NUMBER, [&] { dollars.format("5."); });
    expect_error(LEGUMEYET_NUMBER, [&] { dollars.format(std::numeric_limits<double>::infinity()); });
    expect_error(LEGUMEYET_OPTION, [&] { dollars.format(5, 0, Options().with_rounding(Rounding{12})); });
    CurrencyFormatter moved = std::move(dollars);
    expect(moved.format(-5), "($5.00)");
    expect_error(LEGUMEYET_CLOSED, [&] { dollars.format(-5); });
    expect_error(LEGUMEYET_CLOSED, [&] { dollars.read("$5"); });
    expect_error(LEGUMEYET_CLOSED, [&] { dollars.read_lenient("$5"); });
}

// Formatters of a book that is not kept, which is closed before them.
static void money_of(const char *path) {
    Book book = Book::from_file(path);
    CurrencyFormatter euros(book, "de", "EUR"), dollars(book, "en", "USD", CurrencyStyle::Accounting);
    PercentFormatter turkish(book, "tr");
    book = Book("[[],[],[],[],[]]");
    expect(euros.format(1234.5), spaced("1.234,50_€"));
    expect(dollars.format(-5) + turkish.format("12.5"), "($5.00)%12,5");
    expect(named(dollars.format_parts("-1234.5")), "1($ 7$ 31,234 4, 5. 650 1) ");
    expect(dollars.read("($5.00)") + ' ' + euros.read_lenient("EUR 1234,5") + ' ' + turkish.read_lenient("12,5"), "-5.00 1234.5 12.5");
    expect_error(LEGUMEYET_TABLE, [&] { CurrencyFormatter(book, "de", "EUR"); });
    CurrencyFormatter moved = std::move(euros);
    const legumeyet::SharedUnitFormatter shared(std::move(moved));
    std::string text;
    std::thread([&] { text = shared.format(7); }).join();
    expect(text, spaced("7,00_€"));
}

// Formatters of money that are refused; a book that has no units.
static void no_money() {
    Book book(BOOK), kept(BOOK);
    kept.keep();
    expect_error(LEGUMEYET_TABLE, [&] { CurrencyFormatter(book, "en", "EUR"); });
    expect_error(LEGUMEYET_OPTION, [&] { PercentFormatter(book, "e", Grouping{5}); });
    expect_error(LEGUMEYET_TABLE, [&] { CurrencyFormatter(kept, "en", "EUR"); });
    expect_error(LEGUMEYET_TABLE, [&] { PercentFormatter(kept, "en"); });
    expect_error(LEGUMEYET_TAG, [] { CurrencyFormatter("e", "EUR"); });
    expect_error(LEGUMEYET_OPTION, [] { CurrencyFormatter("e", "eur", CurrencyStyle{2}); });
    expect_error(LEGUMEYET_OPTION, [] { CurrencyFormatter("de", "EUR", CurrencyStyle::Standard, CurrencyWidth{2}); });
    expect_error(LEGUMEYET_OPTION, [] { CurrencyFormatter("de", "EUR", CurrencyStyle::Standard, CurrencyWidth::Code, Grouping{5}); });
    expect_error(LEGUMEYET_OPTION, [] { PercentFormatter("de", Grouping{5}); });
    for (const char *code : {"eur", "EURO", "EU", "", "E\u00dc", "12A"})
        expect_error(LEGUMEYET_CODE, [&] { CurrencyFormatter("e", code); });
    try {
        CurrencyFormatter("de", "eur");
        expect("no error", "eur");
    } catch (const legumeyet::Error &error) {
        const std::string_view said = error.what();
        expect(said.substr(said.size() - 7), ": `eur`");
    }
}

static void percents() {
    PercentFormatter german("de"), turkish("tr"), swiss("de-CH", Grouping::Never);
    expect(german.format(12.5) + turkish.format("12.5") + swiss.format(1234), spaced("12,5_%%12,51234%"));
    expect(german.format(-0.25, Options().with_rounding(Rounding::HalfEven, -1)), spaced("-0,2_%"));
    expect(named(turkish.format_parts("-12.5")), "1- 8% 312 5, 65 ");
    expect(german.read(spaced("12,5_%")) + ' ' + turkish.read("-%12,5"), "12.5 -12.5");
    expect(german.read_lenient("12,5") + ' ' + turkish.read_lenient("12,5 %"), "12.5 12.5");
    expect_error(LEGUMEYET_NOT_WRITTEN, [&] { german.read("12,5"); });
    expect(german.format(1.5, Options().with_rounding(Rounding::Cash)) + german.format(1.5, Options().with_rounding(Rounding::None)), spaced("1,5_%1,5_%"));
    expect(DecimalFormatter("de").format(1.5, Options().with_rounding(Rounding::Cash)), "1,5");
    std::swap(german, turkish);
    expect(german.format(5), "%5");
}

// Which locales a book has.
static void locales(Book &book) {
    Book none("[[],[],[],[],[]]"), world = Book::world();
    std::string found;
    for (const std::string &it : book.locales()) found += it + ' ';
    expect(found, "en bad ");
    expect(std::to_string(none.locales().size()), "0");
    expect(world.found_locale("de-XX") + ' ' + world.found_locale("de-AT") + ' ' + world.found_locale("en-u-nu-thai"), "de de-AT und");
    expect_error(LEGUMEYET_TABLE, [&] { none.found_locale("de"); });
    const auto all = world.locales();
    expect(std::find(all.begin(), all.end(), "de-AT") != all.end() ? "there" : "not there", "there");
    Book moved = std::move(none);
    expect_error(LEGUMEYET_CLOSED, [&] { none.locales(); });
}

static void files(const char *path) {
    Book world = Book::world(), same = Book::from_file(path);
    expect(same.answer("de\tplain\tauto\tkeep\t-\t-987654.321"), world.answer("de\tplain\tauto\tkeep\t-\t-987654.321"));
    expect_error(LEGUMEYET_BOOK_JSON, [] { Book::from_file("/dev/null"); });
    try {
        Book::from_file("/no/file");
        expect("no error", "/no/file");
    } catch (const std::system_error &error) {
        expect(std::to_string(error.code().value()), std::to_string(ENOENT));
    }
}

// What is closed refuses each call.
static void closed(Book &book, DecimalFormatter &english, CompactDecimalFormatter &short_english) {
    std::string text;
    expect_error(LEGUMEYET_CLOSED, [&] { english.format("1"); });
    expect_error(LEGUMEYET_CLOSED, [&] { english.format(1, 40000); });
    expect_error(LEGUMEYET_CLOSED, [&] { english.read("1"); });
    expect_error(LEGUMEYET_CLOSED, [&] { english.format_parts(1); });
    expect_error(LEGUMEYET_CLOSED, [&] { std::ostringstream() << english(1); });
    expect_code(english.format_to(std::back_inserter(text), 1).code, Code::Closed);
    expect_code(english.format_to(nullptr, 0, 1).code, Code::Closed);
    expect_error(LEGUMEYET_CLOSED, [&] { short_english.format("1"); });
    expect_error(LEGUMEYET_CLOSED, [&] { short_english.shown(1); });
    expect_error(LEGUMEYET_CLOSED, [&] { DecimalFormatter(book, "en"); });
    expect_error(LEGUMEYET_CLOSED, [&] { CompactDecimalFormatter(book, "en"); });
    expect_error(LEGUMEYET_CLOSED, [&] { book.answer(""); });
    expect_error(LEGUMEYET_CLOSED, [&] { book.keep(); });
}

int main(int count, char **words) {
    if (count != 2) return 1;
    world();
    files(words[1]);
    money();
    money_of(words[1]);
    no_money();
    percents();
    Book first(BOOK), book(std::move(first)); // `first` is closed by that
    DecimalFormatter english(book, "en"), moved = std::move(english);
    CompactDecimalFormatter short_english(book, "en"), moved_short = std::move(short_english);
    closed(first, english, short_english);
    expect_error(LEGUMEYET_BOOK_JSON, [] { Book("[1"); });
    expect_error(LEGUMEYET_BOOK_JSON, [] { Book(std::string_view{}); });
    expect_error(LEGUMEYET_TAG, [&] { DecimalFormatter(book, "e"); });
    expect_error(LEGUMEYET_TABLE, [&] { DecimalFormatter(book, "xx"); });
    answers(book);
    locales(book);
    reads(book, moved);
    compacts(book, moved_short);
    results(book, moved);
    null_texts(moved);
    first = Book(BOOK);
    book = Book("[[],[],[],[],[]]");
    options();
    formats(moved);
    significant_digits(moved);
    doubles(moved);
    rooms(moved);
    streams(moved, moved_short);
    parts(moved);
#if __cplusplus >= 202002L
    designates(moved);
#endif
    keeps();
    moves(first);
    return wrong;
}
