// Opens formatters of skeletons and of formats by legumeyet.hpp, well and badly, and has them write by their own options and by others. The
// status is 1 where a call does otherwise than it should, and a line says which.
//
// usage: skeletons BOOK
//
// BOOK is a file with the world's book.
#include "expect.hpp"

#include <iostream>
#include <list>
#include <sstream>
#include <thread>

using namespace legumeyet;

// What is constructed, and what is not: a skeleton is no format, and a face has the choices of its own.
static_assert(std::is_constructible_v<NumberFormatter, const char *> && !std::is_convertible_v<const char *, NumberFormatter>);
static_assert(std::is_constructible_v<NumberFormatter, std::string, Format, Options> && std::is_constructible_v<NumberFormatter, Book &, const char *, Format>);
static_assert(!std::is_constructible_v<NumberFormatter, const char *, const char *> && !std::is_constructible_v<NumberFormatter, const char *, Options>);
static_assert(!std::is_constructible_v<NumberFormatter, std::nullptr_t> && !std::is_constructible_v<DecimalFormatter, const char *, Format>);
static_assert(std::is_base_of_v<NumberFormatter, DecimalFormatter> && std::is_base_of_v<NumberFormatter, CurrencyFormatter>);
static_assert(!std::is_constructible_v<DecimalFormatter, NumberFormatter> && std::is_constructible_v<NumberFormatter, DecimalFormatter>);
static_assert(std::is_nothrow_move_constructible_v<NumberFormatter> && std::is_nothrow_move_assignable_v<NumberFormatter>);
static_assert(!std::is_copy_constructible_v<NumberFormatter> && !std::is_copy_assignable_v<NumberFormatter>);
static_assert(std::is_aggregate_v<Format> && std::is_base_of_v<Error, SkeletonError> && std::is_copy_assignable_v<SkeletonError>);
static_assert(Rounding::Keep == Rounding::Usual && Options::own().is_own && !Options::own().with_sign(Sign::Auto).is_own);

// A formatter that is const has no call, since its calls are made one at a time; a shared one has.
template <class, class Formatter> constexpr bool is_called = false;
template <class Formatter> constexpr bool is_called<std::void_t<decltype(std::declval<Formatter &>().try_read(""), std::declval<Formatter &>().try_format(1))>, Formatter> = true;
static_assert(is_called<void, NumberFormatter> && !is_called<void, const NumberFormatter> && !is_called<void, const DecimalFormatter>);
static_assert(is_called<void, const SharedNumberFormatter> && std::is_trivially_copyable_v<SharedNumberFormatter>);

// The call throws this error.
template <class Thrown = Error, class Call> static void expect_error(std::string_view wanted, Call call) {
    try {
        call();
        expect("no error", wanted);
    } catch (const Error &error) {
        expect(dynamic_cast<const Thrown *>(&error) != nullptr ? error.what() : "an error of another class", wanted);
    }
}

// What is no skeleton, and where its fault begins.
static const struct {
    const char *skeleton;
    Code code;
    std::size_t place;
} FAULTS[] = {
    {"foo", Code::SkeletonUnknown, 0},
    {"percent foo", Code::SkeletonUnknown, 8},
    {"percent percent", Code::SkeletonTwice, 8},
    {"currency/EURO", Code::SkeletonCode, 0},
    {"percent sign-accounting", Code::SkeletonPair, 8},
    {"percent latin", Code::SkeletonSystem, 8},
    {"sign-always scientific/sign-never", Code::SkeletonUnsupported, 12},
    {"compact-short scientific", Code::SkeletonTwice, 14},
    {"compact-short scale/100", Code::SkeletonLater, 14},
    {"percent scale/100", Code::SkeletonLater, 8},
    {"percent .0#/@@", Code::SkeletonUnknown, 8},
    {"percent decimal-always", Code::SkeletonUnsupported, 8},
};

static void faults(Book &book) {
    for (const auto &it : FAULTS) {
        const std::string said = message(it.code) + ": at " + std::to_string(it.place) + " of `" + it.skeleton + '`';
        std::size_t place = 77;
        expect_code(NumberFormatter::try_skeleton("e", it.skeleton, &place).error(), it.code);
        expect_code(NumberFormatter::try_skeleton(book, "e", it.skeleton).error(), it.code);
        expect(std::to_string(place), std::to_string(it.place));
        place = 77;
        expect_code(try_normal_skeleton(it.skeleton, &place).error(), it.code);
        expect_code(try_normal_skeleton(it.skeleton).error(), it.code);
        expect(std::to_string(place), std::to_string(it.place));
        expect_error<SkeletonError>(said, [&] { NumberFormatter::skeleton("e", it.skeleton); });
        expect_error<SkeletonError>(said, [&] { NumberFormatter::skeleton(book, "e", it.skeleton); });
        expect_error<SkeletonError>(said, [&] { normal_skeleton(it.skeleton); });
    }
    try {
        NumberFormatter::skeleton("de", std::string("percent foo"));
    } catch (const SkeletonError &error) {
        SkeletonError copied = error;
        expect(std::to_string(copied.number) + ' ' + std::to_string(copied.place), "201 8");
        expect_code(copied.code(), Code::SkeletonUnknown);
    }
    std::size_t place = 77;
    Book closed = Book::world(), moved = std::move(closed);
    expect_code(NumberFormatter::try_skeleton(closed, "de", "foo", &place).error(), Code::Closed);
    expect_code(NumberFormatter::try_skeleton("e", "percent", &place).error(), Code::Tag);
    expect_code(NumberFormatter::try_skeleton("xx", "percent", &place).error(), Code::Table);
    expect(std::to_string(place), "77");
    expect_error("no locale tag: `de_DE` is written `de-DE`", [] { NumberFormatter::skeleton("de_DE", "percent"); });
    expect_error(message(Code::Table), [] { NumberFormatter::skeleton("xx", "percent"); });
}

static void normal_texts() {
    const std::string long_one = "currency/" + std::string(300, ' ') + "EUR", many(300, '0');
    expect(normal_skeleton("percent") + '|' + normal_skeleton("currency/EUR .00") + '|' + normal_skeleton(""), "percent|currency/EUR .00|");
    expect(normal_skeleton(" .00  currency/eur ") + '|' + normal_skeleton("K sign-auto") + '|' + normal_skeleton("+! % "), "currency/EUR .00|compact-short|percent sign-always");
    expect(normal_skeleton("@@+ ,!") + '|' + normal_skeleton(".##/@@@+") + '|' + normal_skeleton("precision-integer/@@#s/w"), "@@* group-on-aligned|.##/@@@*|./@@#s/w");
    expect_code(try_normal_skeleton(long_one).error(), Code::SkeletonCode);
    expect_code(try_normal_skeleton('.' + many).error(), Code::SkeletonUnknown);
    expect(*try_normal_skeleton("integer-width/*" + std::string(100, '0')), "integer-width/*" + std::string(100, '0'));
}

// Formatters of skeletons write by the options of these, and by others where these are given.
static void skeletons(Book &book) {
    auto euros = NumberFormatter::skeleton("en", "currency/EUR .00"), percents = NumberFormatter::skeleton(book, "de", "percent .00##");
    auto compact = *NumberFormatter::try_skeleton("en", std::string("compact-short")), plain = NumberFormatter::skeleton("en", "sign-always group-off");
    expect(euros.format(1234.5) + ' ' + percents.format("12.34567") + ' ' + compact.format(-1172700) + ' ' + plain.format(1234),
           "€1,234.50 12,3457\u00a0% -1.2M +1234");
    expect(plain.format("007.50") + ' ' + plain.format("007.50", {}) + ' ' + plain.format("7.50", Options::own()), "+7.5 007.50 +7.5");
    expect(std::to_string(NumberFormatter::skeleton(book, "en", "K .00").format_parts(-1234).parts.size()), "4");
    const Format permilles = {{}, {}, Unit::Permille};
    expect(NumberFormatter("de", permilles).format(5) + NumberFormatter::skeleton("en", "permille").format(12.5), "5\u00a0‰12.5‰");
    expect(plain.format(7, 0, Options().with_sign(Sign::Never).with_minimum_fraction_digits(1)), "7.0");
    expect(NumberFormatter::skeleton("es", "@@# ,!").format(1234.5) + ' ' + NumberFormatter::skeleton("es", "@@#").format(5), "1.230 5,0");
    expect(NumberFormatter::skeleton("en", "K .00").format(-1234) + ' ' + NumberFormatter::skeleton("de", "KK .0").format(1234567), "-1.23K 1,2 Millionen");
    auto powers = NumberFormatter::skeleton("en", "scientific/*ee .00"), thousands = NumberFormatter::skeleton(book, "de", "engineering");
    expect(powers.format(1234567) + ' ' + powers.format("1234567.891", {}) + ' ' + thousands.format(0.00012) + ' ' + powers.shown(-999999),
           "1.23E06 1.234567891E06 120E-6 -1.00e06");
    expect(*plain.try_format(5) + *plain.try_format(5, Options()) + plain.format(500, -2), "+55+5");
    std::string text;
    std::ostringstream out;
    char room[8];
    expect_code(plain.format_to(std::back_inserter(text), 5).code, Code::Ok);
    expect(text + std::string(room, plain.format_to(room, sizeof room, 5).out), "+5+5");
    out << plain(5) << plain(5, {});
    expect(out.str(), "+55");
    expect(plain.format_all(std::vector<double>{5, -5}).text() + plain.format_all(std::list<int>{5}, Options()).text(), "+5-55");
    expect(plain.format_parts(5).text + plain.format_parts("005", {}).text, "+5005");
    expect(plain.shown("005.0") + ' ' + plain.shown("005.0", {}) + ' ' + compact.shown(1650) + ' ' + euros.shown(5), "+5 005.0 1.6c3 5.00");
    expect(plain.format_exact("5.0") + ' ' + plain.format_exact("5.0", {}) + ' ' + compact.format_exact("-1.25c6"), "+5 5.0 -1.25M");
    expect(euros.read("€1,234.50") + ' ' + euros.read_lenient("5 EUR") + ' ' + percents.read("12,50\u00a0%"), "1234.50 5 12.50");
    expect_code(compact.try_read("1.2M").error(), Code::Unreadable);
    expect_code(compact.try_read_lenient("1.2M").error(), Code::Unreadable);
    expect_code(plain.try_format_exact("1.2c3").error(), Code::Exponent);
}

#if __cplusplus >= 202002L
// Formats by their names.
static void designates(Book &book) {
    NumberFormatter euros("de", {.currency = "EUR", .grouping = Grouping::Never}), dollars(book, "en", {.currency = "USD"}, {.sign = Sign::Always});
    expect(euros.format(1234.5) + ' ' + dollars.format(5) + ' ' + dollars.format(5, {.rounding = Rounding::None}), "1234,50\u00a0€ +$5.00 $5");
    expect(NumberFormatter("en", {.notation = Notation::Compact}).format(1650), "1.6K");
    expect(NumberFormatter("en", {.notation = Notation::Scientific}).format(1650, {.rounding = Rounding::HalfEven, .position = -1}), "1.6E3");
}
#endif

// Formats in words, and options that are a formatter's own.
static void formats(Book &book) {
    const Options rounded = Options().with_rounding(Rounding::HalfEven, -1).with_sign(Sign::Always);
    NumberFormatter plain("en"), own(book, "en", Format(), rounded), percents("tr", Format{{}, {}, Unit::Percent}), rest("en");
    const std::string code = "USD";
    Format money{{}, {}, {}, code, CurrencyStyle::Accounting, CurrencyWidth::Code};
    NumberFormatter dollars(book, "en", money), compact("en", Format{Notation::Compact, Width::Long, {}, {}, {}, {}, Grouping::Min2});
    expect(plain.format("007.50") + ' ' + own.format("9.65") + ' ' + own.format("9.65", {}) + ' ' + percents.format(12.5), "007.50 +9.6 9.65 %12,5");
    expect(dollars.format(-5) + ' ' + compact.format(1650) + ' ' + compact.format(10000e12), "(USD\u00a05.00) 1.6 thousand 10,000 trillion");
    NumberFormatter powers("en", Format{Notation::Scientific}), thousands(book, "de", Format{Notation::Engineering}, rounded);
    expect(powers.format("1234567.891") + ' ' + powers.format(1234567, rounded) + ' ' + thousands.format(0.00012) + ' ' + thousands.format(-1250000),
           "1.234567891E6 +1.2E6 +120,0E-6 -1,2E6");
    const auto [text, parts] = powers.format_parts("-0.00012");
    expect(text + ' ' + std::to_string(parts.size()), "-1.2E-4 7");
    expect(Kind{parts[4].kind} == Kind::ExponentSeparator && Kind{parts[5].kind} == Kind::ExponentMinusSign && Kind{parts[6].kind} == Kind::ExponentInteger ? "exponent" : "", "exponent");
    expect(powers.read("1.20E6") + ' ' + thousands.read("-120,0E-6"), "1200000 -0.0001200");
    expect_code(powers.try_read("12E5").error(), Code::NotWritten);
    expect_code(powers.try_read_lenient("1.2E6").error(), Code::Unreadable);
    expect_code(powers.try_format_exact("1.2").error(), Code::Exponent);
    const auto name = [](CurrencyFormatter it) { return it.format(5); };
    expect(name({"en", "USD"}) + name({book, "en", "USD", CurrencyStyle::Accounting}), "$5.00$5.00");
    own = std::move(rest);
    expect(own.format("9.65"), "9.65");
    NumberFormatter any = CurrencyFormatter("en", "USD"), kept = std::move(any);
    expect(kept.format(5), "$5.00");
    expect_code(any.try_format(5).error(), Code::Closed);
    expect_code(NumberFormatter::try_open(book, "en", Format(), Options().with_sign(Sign{6}))->try_format(5).error(), Code::Option);
    money.currency = "usd";
    expect_error(message(Code::Code) + ": `usd`", [&] { NumberFormatter("e", money); });
    expect_error(message(Code::Code) + ": ``", [] { NumberFormatter("e", Format{{}, {}, Unit::Currency}); });
    expect_error(message(Code::Code) + ": `EUR`", [] { NumberFormatter("e", Format{{}, {}, Unit::Percent, "EUR"}); });
    for (const Format &it : {Format{Notation{4}}, Format{{}, Width{2}}, Format{{}, {}, Unit{4}}, Format{{}, {}, {}, {}, CurrencyStyle{2}},
                             Format{{}, {}, {}, {}, {}, CurrencyWidth{2}}, Format{{}, {}, {}, {}, {}, {}, Grouping{5}}, Format{{}, {}, {}, {}, {}, {}, Grouping{-1}}})
        expect_code(NumberFormatter::try_open("e", it).error(), Code::Option);
    expect_error(message(Code::Table), [] { NumberFormatter("en", Format{Notation::Compact, {}, Unit::Percent}); });
    expect_error(message(Code::Table), [] { NumberFormatter("en", Format{Notation::Scientific, {}, Unit::Percent}); });
    expect_error("no locale tag: `de_DE` is written `de-DE`", [] { NumberFormatter("de_DE"); });
}

// Plain numbers, percents and amounts have exact forms and are shown; a percent and a plain number are rounded by no currency.
static void every_format() {
    DecimalFormatter plain("en");
    PercentFormatter percents("en");
    CurrencyFormatter euros("en", "EUR");
    const Options rounded = Options().with_rounding(Rounding::HalfEven, -1);
    expect(plain.format_exact("-1.20") + ' ' + percents.format_exact("1.20") + ' ' + euros.format_exact("1.2"), "-1.20 1.20% €1.20");
    expect(plain.shown("9.65", rounded) + ' ' + percents.shown(9.65, rounded) + ' ' + euros.shown(1.005), "9.6 9.6 1.00");
    expect(plain.format("1.25", Options().with_rounding(Rounding::Cash)) + ' ' + percents.format("1.25", Options().with_rounding(Rounding::None)), "1.25 1.25%");
    expect_code(plain.try_format_exact("1.2c3").error(), Code::Exponent);
    expect_code(plain.try_format_exact("x").error(), Code::Number);
}

// What is typed is read by the digits and separators of Latin too, where the locale writes others.
static void second_tables(Book &book) {
    DecimalFormatter arabic("ar-EG"), persian(book, "fa");
    auto pounds = NumberFormatter::skeleton("ar-EG", "currency/EGP");
    expect(arabic.read_lenient("1,234.5") + ' ' + arabic.read_lenient("1234.5") + ' ' + arabic.read_lenient("١٬٢٣٤٫٥") + ' ' + persian.read_lenient("1,234.5"),
           "1234.5 1234.5 1234.5 1234.5");
    expect(pounds.read_lenient("1,234.5 EGP"), "1234.5");
    expect_code(arabic.try_read("1,234.5").error(), Code::NotWritten);
    expect_code(arabic.try_read_lenient("1,23").error(), Code::NotWritten);
    expect(SharedNumberFormatter(std::move(arabic)).read_lenient("1,234.5"), "1234.5");
}

// Formatters of skeletons in threads, with their own options.
static void shared() {
    static const SharedNumberFormatter plain{NumberFormatter::skeleton("en", "sign-always .00")};
    const SharedNumberFormatter own{NumberFormatter("en", Format(), Options().with_minimum_integer_digits(3))}, copied = own;
    bool is_right[8] = {};
    std::vector<std::thread> threads;
    for (bool &it : is_right)
        threads.emplace_back([&it, copied] {
            it = true;
            for (int turn = 0; turn < 500; turn++) {
                it = it && plain.format(5) == "+5.00" && plain.format(5, {}) == "5" && *plain.try_format(5) == "+5.00" && copied.format(7) == "007";
                it = it && plain.format_all(std::vector<int>{5, 6}).text() == "+5.00+6.00" && plain.shown(5) == "+5.00" && plain.read("5.00") == "5.00";
            }
        });
    for (std::thread &it : threads) it.join();
    for (bool it : is_right) expect(it ? "right" : "a thread is wrong", "right");
    NumberFormatter opened = NumberFormatter::skeleton("en", "percent"), taken = std::move(opened);
    const SharedNumberFormatter closed(std::move(opened)), kept(std::move(taken));
    expect_code(closed.try_format(5).error(), Code::Closed);
    expect_code(opened.try_shown(5).error(), Code::Closed);
    expect_code(taken.try_read_lenient("5").error(), Code::Closed);
    expect_code(taken.try_format_exact("5").error(), Code::Closed);
    expect(kept.format(5) + NumberFormatter::skeleton("en", "percent").format(5), "5%5%");
}

int main(int count, char **words) {
    if (count != 2) return 1;
    Book book = Book::from_file(words[1]);
    faults(book);
    normal_texts();
    skeletons(book);
    formats(book);
#if __cplusplus >= 202002L
    designates(book);
#endif
    every_format();
    second_tables(book);
    shared();
    return wrong;
}
