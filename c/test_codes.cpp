// Calls what legumeyet.hpp has for a program without exceptions, well and badly; it is compiled with -fno-exceptions. The status is 1 where
// one does otherwise than it should, and a line says which.
//
// usage: test_codes BOOK
//
// BOOK is a file with the world's book.
#include "expect.hpp"

#include <cstdio>
#include <sstream>

#ifdef __cpp_exceptions
#error "compile it with -fno-exceptions"
#endif

using legumeyet::Book, legumeyet::CompactDecimalFormatter, legumeyet::DecimalFormatter;
using legumeyet::CurrencyFormatter, legumeyet::CurrencyStyle, legumeyet::NumberFormatter, legumeyet::PercentFormatter, legumeyet::Rounding;
using legumeyet::Code, legumeyet::Grouping, legumeyet::Options, legumeyet::Result, legumeyet::Sign, legumeyet::Width;

// Nothing is constructed that may be refused, and what was found cannot be forgotten to be looked for.
static_assert(!std::is_constructible_v<DecimalFormatter, const char *> && !std::is_constructible_v<Book, const char *>);
static_assert(!std::is_convertible_v<Result<std::string>, bool> && !std::is_convertible_v<Result<std::string>, std::string>);

// The result has this text.
static void expect_text(const Result<std::string> &got, std::string_view wanted) {
    expect_code(got.error(), Code::Ok);
    if (got) expect(*got, wanted);
}

static void books(const char *path) {
    Result<Book> world = Book::try_world(), same = Book::try_from_file(path), none = Book::try_from_file("/no/file");
    expect_code(none.error(), Code::File);
    expect(std::to_string(errno), std::to_string(ENOENT));
    expect_text(world->try_answer("de\tplain\tauto\tkeep\t-\t-987654.321"), "ok\t-987.654,321");
    expect_text(same->try_answer(""), "err\tshape");
    expect_code(world->try_keep(), Code::Ok);
    expect_code(Book::try_from_json("[1").error(), Code::BookJson);
    Book moved = *std::move(world);
    expect_code(world->try_answer("").error(), Code::Closed);
    expect_code(world->try_keep(), Code::Closed);
    expect_code(DecimalFormatter::try_open(*world, "de").error(), Code::Closed);
    auto english = CompactDecimalFormatter::try_open(moved, "en", Width::Long);
    moved = *Book::try_from_json("[[],[],[],[],[]]");
    expect_text(english->try_format(1650), "1.6 thousand");
    expect_code(CompactDecimalFormatter::try_open(moved, "en").error(), Code::Table);
    expect_code(DecimalFormatter::try_open(moved, "e").error(), Code::Tag);
}

static void plain() {
    auto german = DecimalFormatter::try_open("de");
    if (!german) return expect_code(german.error(), Code::Ok);
    char room[8];
    std::string text;
    std::ostringstream out;
    expect_text(german->try_format("1234567.891", Options().with_sign(Sign::Always)), "+1.234.567,891");
    expect_text(german->try_format({500, -2}), "5,00");
    expect_code(german->try_format("5.").error(), Code::Number);
    expect_code(german->try_format(1, Options().with_sign(Sign{6})).error(), Code::Option);
    expect_text(german->try_read("-1.234,50"), "-1234.50");
    expect_code(german->try_read("x").error(), Code::NotWritten);
    expect_text(german->try_read_lenient(" 1234,5"), "1234.5");
    expect_code(german->format_to(room, sizeof room, 0.1).code, Code::Ok);
    expect(std::string_view(room, 3), "0,1");
    expect_code(german->format_to(std::back_inserter(text), std::string(1000, '1')).code, Code::Ok);
    expect_text(german->try_format(std::string(1000, '1')), text);
    const auto parts = german->try_format_parts(-1.5);
    expect(parts->text + std::to_string(parts->parts.size()) + std::string((*++parts->begin()).text), "-1,541");
    expect_code(german->try_format_parts("5.").error(), Code::Number);
    out << (*german)(-1234.5) << '|';
    expect(out.str() + (out ? "well" : "badly"), "-1.234,5|well");
    out << (*german)("5.");
    expect(out.fail() ? "failed" : "well", "failed");
    expect_text(DecimalFormatter::try_open("de", Grouping::Never)->try_format(1234), "1234");
    legumeyet::Column column;
    const double some[] = {0.5, 1e300 * 1e300};
    expect_code(german->format_all_to(column, some, 1), Code::Ok);
    expect_code(german->format_all_to(column, some), Code::Number);
    expect(std::to_string(column.size()) + column.text(), "20,50,5");
    expect_code(german->try_format_all(std::vector<const char *>{"5."}).error(), Code::Number);
    for (std::string_view it : *german->try_format_all(std::vector<int>{1234})) expect(it, "1.234");
    expect_code(german->try_format_all(std::vector<int>{1}, legumeyet::Exponent(40000)).error(), Code::Limit);
    expect_code(DecimalFormatter::try_open(static_cast<const char *>(nullptr)).error(), Code::Tag);
    expect_code(DecimalFormatter::try_open("de_DE").error(), Code::Tag);
    expect_code(DecimalFormatter::try_open("xx").error(), Code::Table);
}

static void units() {
    auto dollars = CurrencyFormatter::try_open("en", "USD", CurrencyStyle::Accounting);
    auto percents = PercentFormatter::try_open("tr");
    if (!dollars || !percents) return expect("refused", "opened");
    expect_text(dollars->try_format(-5), "($5.00)");
    expect_text(dollars->try_read("($5.00)"), "-5.00");
    expect_code(dollars->try_read("5").error(), Code::NotWritten);
    expect_text(dollars->try_read_lenient("5 $"), "5");
    expect_code(dollars->try_read_lenient("5 EUR").error(), Code::NotWritten);
    expect_text(percents->try_format(12.5), "%12,5");
    expect_text(percents->try_format(1.5, Options().with_rounding(Rounding::Cash)), "%1,5");
    expect_code(CurrencyFormatter::try_open("en", "usd").error(), Code::Code);
    auto book = Book::try_from_json("[[],[],[],[],[]]");
    expect_code(PercentFormatter::try_open(*book, "en").error(), Code::Table);
    expect_code(book->try_keep(), Code::Ok);
    expect_code(CurrencyFormatter::try_open(*book, "en", "USD").error(), Code::Table);
    expect(std::to_string(book->try_locales()->size()), "0");
    expect_code(book->try_found_locale("en").error(), Code::Table);
}

static void skeletons() {
    std::size_t place = 77;
    auto euros = NumberFormatter::try_skeleton("en", "currency/EUR .00", &place);
    if (!euros) return expect_code(euros.error(), Code::Ok);
    expect(std::to_string(place), "77");
    expect_text(euros->try_format(5), "€5.00");
    expect_text(euros->try_format(5, Options().with_rounding(Rounding::None)), "€5");
    expect_code(NumberFormatter::try_skeleton("en", "percent foo", &place).error(), Code::SkeletonUnknown);
    expect(std::to_string(place), "8");
    expect_text(legumeyet::try_normal_skeleton("percent"), "percent");
    expect_code(legumeyet::try_normal_skeleton("foo", &place).error(), Code::SkeletonUnknown);
    expect(std::to_string(place), "0");
    expect_text(NumberFormatter::try_open("en", {.currency = "USD"}, {.sign = Sign::Always})->try_format(5), "+$5.00");
    auto book = Book::try_from_json("[[],[],[],[],[]]");
    expect_code(NumberFormatter::try_open(*book, "en", {}).error(), Code::Table);
    expect_code(NumberFormatter::try_skeleton(*book, "en", "").error(), Code::Table);
    const legumeyet::SharedNumberFormatter shared(*std::move(euros));
    expect_text(shared.try_format(7), "€7.00");
    expect_text(shared.try_shown(7), "7.00");
}

static void compact() {
    auto english = CompactDecimalFormatter::try_open("en");
    if (!english) return expect_code(english.error(), Code::Ok);
    expect_text(english->try_format(-1172700), "-1.2M");
    expect_text(english->try_shown("-1172700"), "-1.2c6");
    expect_text(english->try_format_exact("-1.20c6"), "-1.20M");
    expect_code(english->try_format_exact("1.2c5").error(), Code::Exponent);
    expect_code(english->try_shown("x").error(), Code::Number);
    expect_code(CompactDecimalFormatter::try_open("en", Width{2}).error(), Code::Option);
    expect(legumeyet::message(Code::Tag), "no locale tag");
    expect(legumeyet::tag_of_locale_name("de_DE.UTF-8"), "de-DE");
    expect(legumeyet::world_locales().back(), "zu-ZA");
}

static void answers() {
    auto answers = legumeyet::Answers::try_open(3);
    if (!answers) return expect_code(answers.error(), Code::Ok);
    expect_text(answers->try_answer("de\tplain\tauto\tkeep\t-\t1234.5\nx"), "ok\t1.234,5\nerr\tshape\n");
    expect_code(legumeyet::Answers::try_open(0).error(), Code::Option);
    auto book = Book::try_from_json("[[],[],[],[],[]]");
    expect_code(legumeyet::Answers::try_open(*book).error(), Code::Unkept);
    expect_code(book->try_keep(), Code::Ok);
    expect_text(legumeyet::Answers::try_open(*book)->try_answer("de\tplain\tauto\tkeep\t-\t1"), "err\ttable\n");
}

int main(int count, char **words) {
    if (count != 2) return 1;
    books(words[1]);
    plain();
    units();
    skeletons();
    compact();
    answers();
    return wrong;
}
