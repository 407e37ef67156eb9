// Calls the plural rules and the facts of legumeyet.hpp well and badly. The status is 1 where one does otherwise than it should.
#include "expect.hpp"

#include <thread>

using legumeyet::Code, legumeyet::CompactDecimalFormatter, legumeyet::CurrencyFormatter, legumeyet::DecimalFormatter, legumeyet::Fact;
using legumeyet::Format, legumeyet::NumberFormatter, legumeyet::Options, legumeyet::PluralCategory, legumeyet::PluralRules, legumeyet::Plurals;
using legumeyet::Rounding, legumeyet::SharedNumberFormatter;

static_assert(name(PluralCategory::Zero) == "zero" && name(PluralCategory::Few) == "few" && name(PluralCategory::Other) == "other");
static_assert(std::is_nothrow_move_constructible_v<PluralRules> && !std::is_copy_constructible_v<PluralRules>);
static_assert(std::is_constructible_v<PluralRules, const char *, Plurals, Format> && !std::is_constructible_v<PluralRules, const char *, int>);

// The words of the categories of numbers, with blanks between.
template <class... Numbers> static std::string words(PluralRules rules, const Numbers &...numbers) {
    std::string found;
    ((found += name(rules.select(numbers)), found += ' '), ...);
    return found;
}

// The words of the categories that numbers may have.
static std::string listed(PluralRules rules) {
    std::string found;
    for (PluralCategory it : rules.categories()) (found += name(it)) += ' ';
    return found;
}

static void categories() {
    const auto compact = CompactDecimalFormatter::format_of();
    const auto dollars = CurrencyFormatter::format_of("USD"), yen = CurrencyFormatter::format_of("JPY");
    const Options tenths = Options().with_rounding(Rounding::HalfEven, -1), ones = Options().with_rounding(Rounding::HalfEven, 0);
    expect(words(PluralRules("en"), 1, "1.0", 0, 2, -1, uint64_t{1}, 1.0), "one other other other one one one ");
    expect(words(PluralRules("pl"), 1, 2, 5, 12, 22, 1.5, "1.0"), "one few many many few other other ");
    expect(words(PluralRules("ar"), 0, 1, 2, 3, 11, 100, 1.5), "zero one two few many other other ");
    expect(words(PluralRules("fr"), 0, 1.5, 2, 1000000), "one one other many ");
    expect(words(PluralRules("ja"), 1, 2), "other other ");
    expect(words(PluralRules("en", Plurals::Ordinal), 1, 2, 3, 4, 11, 21, 22, 113), "one two few other other one two other ");
    expect(words(PluralRules("de", Plurals::Ordinal), 1, 2), "other other ");
    expect(words(PluralRules("fr", Plurals::Cardinal, compact), 1200000, 1500), "many other ");
    expect(words(PluralRules("en", Plurals::Cardinal, dollars), 1) + words(PluralRules("en", Plurals::Cardinal, yen), 1), "other one ");
    expect(name(PluralRules("en").select(1, tenths)), "other");
    expect(name(PluralRules("en").select(1.2, ones)), "one");
    expect(name(PluralRules("en").select({100, -2})), "other");
    expect(listed(PluralRules("en")) + listed(PluralRules("ja")), "one other other ");
    expect(listed(PluralRules("en", Plurals::Ordinal)), "one two few other ");
    expect(listed(PluralRules("ar")), "zero one two few many other ");
    expect(PluralRules("pl").format_all(std::vector<double>{1, 2, 5}).text(), "onefewmany");
    expect(std::to_string(PluralRules("pl").format_parts(5).parts.size()) + PluralRules("pl").shown(5), "05");
}

static void ranges() {
    PluralRules french("fr"), polish("pl");
    expect(name(french.select_range(0, 1)), "one");
    expect(name(french.select_range(1, 2.5)), "other");
    expect(name(polish.select_range(1, 5)), "many");
    expect(name(polish.select_range("1", "2")), "few");
    expect(name(PluralRules("en").select_range(0, 1)), "other");
    expect_code(DecimalFormatter("en").try_format_range(1, 2).error(), Code::Option);
}

static void refusals() {
    PluralRules english("en");
    expect_code(english.try_select("5.").error(), Code::Number);
    expect_code(english.try_select("1e40000").error(), Code::Limit);
    expect_code(english.try_select_range(1, "x").error(), Code::Number);
    expect_code(english.try_read("one").error(), Code::Unreadable);
    expect_code(PluralRules::try_open("e").error(), Code::Tag);
    expect_code(PluralRules::try_open("en", Plurals::Cardinal, CurrencyFormatter::format_of("usd")).error(), Code::Code);
    legumeyet::Book own(R"([[["en","","latn","-","","+","",".",",",3,3,1]],[["latn","0123456789"]],[["en",[["one","i = 1 and v = 0"]]]],[],[]])");
    expect(words(PluralRules(own, "en"), 1, 2), "one other ");
    expect_code(PluralRules::try_open(own, "en", Plurals::Ordinal).error(), Code::Table);
    PluralRules moved = std::move(english);
    expect(name(moved.select(1)), "one");
    expect_code(english.try_select(1).error(), Code::Closed);
}

static void shared() {
    static const SharedNumberFormatter polish{PluralRules("pl")};
    std::vector<std::thread> threads;
    std::vector<std::string> found(4);
    for (std::string &it : found) threads.emplace_back([&it] { it = polish.format(5) + polish.format_range(1, 2) + polish.tell(Fact::Categories); });
    for (std::thread &it : threads) it.join();
    for (const std::string &it : found) expect(it, "manyfewone few many other");
}

static void facts() {
    const auto german = DecimalFormatter("de").symbols(), arabic = DecimalFormatter("ar-EG").symbols();
    expect(german.decimal_separator + german.grouping_separator + german.minus_before + german.minus_after, ",.-");
    expect(german.plus_before + german.plus_after + german.digits, "+0123456789");
    expect(arabic.digits, "٠١٢٣٤٥٦٧٨٩");
    expect(CompactDecimalFormatter("de").tell(Fact::DecimalSeparator), ",");
    for (const auto &[code, wanted] : {std::pair("CHF", "2 2 5"), std::pair("JPY", "0 0 1"), std::pair("KWD", "3 3 1")}) {
        const auto [fraction, cash, increment] = CurrencyFormatter("en", code).currency_digits();
        expect(std::to_string(fraction) + " " + std::to_string(cash) + " " + std::to_string(increment), wanted);
    }
    expect_code(DecimalFormatter("de").try_tell(Fact::FractionDigits).error(), Code::Option);
    expect_code(DecimalFormatter("de").try_tell(Fact::Categories).error(), Code::Option);
    expect_code(DecimalFormatter("de").try_tell(Fact{0}).error(), Code::Option);
}

int main() {
    categories();
    ranges();
    refusals();
    shared();
    facts();
    return wrong;
}
