// Writes columns by legumeyet.hpp, well and badly. The status is 1 where a call does otherwise than it should, and a line says which.
#include "expect.hpp"

#include <array>
#include <deque>
#include <iostream>
#include <limits>
#include <list>
#include <sys/wait.h>
#include <thread>
#if __cplusplus >= 202002L
#include <ranges>
#include <span>
#endif

using namespace legumeyet;

// Whether a formatter takes a column of this type.
template <class, class... Numbers> constexpr bool takes = false;
template <class... Numbers>
constexpr bool takes<std::void_t<decltype(std::declval<DecimalFormatter &>().format_all(std::declval<Numbers>()...))>, Numbers...> = true;
template <class... Numbers> constexpr bool takes_all = takes<void, Numbers...>;
static_assert(takes_all<std::vector<double>> && takes_all<std::vector<double> &> && takes_all<const std::vector<int64_t> &>);
static_assert(takes_all<std::array<int, 3>> && takes_all<std::list<double>> && takes_all<const double (&)[3]> && takes_all<uint8_t (&)[2]>);
static_assert(takes_all<std::vector<std::string>> && takes_all<std::deque<std::string_view>> && takes_all<const char *const (&)[2]>);
static_assert(!takes_all<std::vector<float>> && !takes_all<std::vector<bool>> && !takes_all<std::vector<long double>> && !takes_all<std::string>);
static_assert(takes_all<const double *, int> && takes_all<const int64_t *, std::size_t, Options> && takes_all<double (&)[3], unsigned>);
static_assert(!takes_all<const double *, double> && !takes_all<const double *, Options> && !takes_all<const int *, int> && !takes_all<double *>);
static_assert(!takes_all<const char *> && !takes_all<double> && !takes_all<std::vector<void *>> && !takes_all<std::vector<std::vector<double>>>);
static_assert(takes_all<std::vector<int>, Exponent> && takes_all<const int64_t *, int, Exponent> && takes_all<const int64_t (&)[3], Exponent, Options>);
static_assert(!takes_all<std::vector<double>, Exponent> && !takes_all<std::vector<std::string>, Exponent> && !takes_all<std::vector<int>, int>);

// A temporary column has no texts to show, since they would be gone with it.
template <class, class T> constexpr bool is_indexed = false;
template <class T> constexpr bool is_indexed<std::void_t<decltype(std::declval<T>()[0])>, T> = true;
template <class, class T> constexpr bool begins = false;
template <class T> constexpr bool begins<std::void_t<decltype(std::declval<T>().begin())>, T> = true;
static_assert(is_indexed<void, Column &> && is_indexed<void, const Column &> && !is_indexed<void, Column>);
static_assert(begins<void, Column &> && !begins<void, Column> && begins<void, const Annotated &> && !begins<void, Annotated>);
static_assert(std::is_copy_constructible_v<Column> && std::is_nothrow_move_constructible_v<Column>);
#if __cplusplus >= 202002L
static_assert(std::ranges::random_access_range<const Column> && std::ranges::sized_range<Column>);
static_assert(takes_all<std::span<const double>> && takes_all<std::span<int>>);
#endif

// The texts of a column with a bar after each.
static std::string barred(const Column &column) {
    std::string found;
    for (std::string_view it : column) (found += it) += '|';
    return found;
}

// The call throws this error.
template <class Call> static void expect_error(std::string_view wanted, Call call) {
    try {
        call();
        expect("no error", wanted);
    } catch (const Error &error) {
        expect(error.what(), wanted);
    }
}

static const double NONE = std::numeric_limits<double>::quiet_NaN();

// Every second number from a place on, as a row of a table that has its columns one after the other.
struct Row {
    struct iterator {
        using iterator_category = std::forward_iterator_tag;
        using value_type = double;
        using difference_type = std::ptrdiff_t;
        using pointer = const double *;
        using reference = const double &;
        const double *at = nullptr;
        const double &operator*() const { return *at; }
        iterator &operator++() { return at += 2, *this; }
        iterator operator++(int) { return {std::exchange(at, at + 2)}; }
        bool operator==(const iterator &other) const { return at == other.at; }
        bool operator!=(const iterator &other) const { return at != other.at; }
    };
    const double *first;
    std::size_t count;
    const double *data() const { return first; }
    std::size_t size() const { return count; }
    iterator begin() const { return {first}; }
    iterator end() const { return {first + 2 * count}; }
};

// What is read where it is, and what is not.
static_assert(inner::is_memory_of<double, std::vector<double> &> && inner::is_memory_of<double, const std::vector<double>>);
static_assert(inner::is_memory_of<int64_t, std::array<int64_t, 3>> && inner::is_memory_of<double, const double (&)[3]>);
static_assert(!inner::is_memory_of<double, Row> && !inner::is_memory_of<double, std::list<double>> && !inner::is_memory_of<int64_t, std::vector<int>>);
#if __cplusplus >= 202002L
static_assert(inner::is_memory_of<double, std::span<const double>> && inner::is_memory_of<int64_t, std::span<int64_t, 2>>);
#endif

static void ranges(DecimalFormatter &english) {
    const double some[] = {1234.5, -7, 0.25};
    const int64_t whole[] = {1234, INT64_MIN, INT64_MAX};
    const std::string all = "1,234.5|-7|0.25|", of_whole = "1,234|-9,223,372,036,854,775,808|9,223,372,036,854,775,807|";
    expect(barred(english.format_all(some, 3)), all);
    expect(barred(english.format_all(whole, 3)), of_whole);
    expect(barred(english.format_all(some)) + barred(english.format_all(whole)), all + of_whole);
    expect(barred(english.format_all(some, {})) + barred(english.format_all(whole, {})), all + of_whole);
    expect(barred(english.format_all(std::vector<double>(some, some + 3))), all);
    expect(barred(english.format_all(std::list<double>(some, some + 3))), all);
    expect(barred(english.format_all(std::vector<uint64_t>{1, UINT64_MAX, 1000, UINT64_MAX})),
           "1|18,446,744,073,709,551,615|1,000|18,446,744,073,709,551,615|");
    expect(barred(english.format_all(std::array<int8_t, 3>{-128, 0, 127})), "-128|0|127|");
    expect(barred(english.format_all(std::list<long long>{-1234, 5})), "-1,234|5|");
    const double table[] = {1, 2, 3, 4, 5, 6};
    expect(barred(english.format_all(Row{table, 3})) + barred(english.format_all(Row{table + 1, 2})), "1|3|5|2|4|");
    expect(barred(english.format_all(std::vector<std::string>{"1e3", "-0.50", "+5"})), "1,000|-0.50|+5|");
    expect(barred(english.format_all(std::deque<const char *>{"1e3", "7"})), "1,000|7|");
    expect(barred(english.format_all(some, Options().with_rounding(Rounding::HalfEven, -1).with_sign(Sign::Always))), "+1,234.5|-7.0|+0.2|");
    expect(barred(english.format_all(some, 2, Options().with_sign(Sign::Never))), "1,234.5|7|");
#if __cplusplus >= 202002L
    expect(barred(english.format_all(std::span(some).first(2), {.sign = Sign::Always})), "+1,234.5|-7|");
    expect(barred(english.format_all(std::views::iota(999, 1002))), "999|1,000|1,001|");
    auto odd = std::views::iota(1, 8) | std::views::filter([](int it) { return it % 2 == 1; });
    expect(barred(english.format_all(odd)), "1|3|5|7|");
#endif
}

static void columns(DecimalFormatter &english) {
    Column column = english.format_all(std::vector<int>{1, 1000, 10});
    expect(std::to_string(column.size()) + std::string(column[1]) + std::string(column.front()) + std::string(column.back()), "31,000110");
    expect(column.text(), "11,00010");
    expect_code(english.format_all_to(column, std::vector<double>{0.5}), Code::Ok);
    expect(barred(column), "1|1,000|10|0.5|");
    auto it = column.begin();
    expect(*(it + 1) == it[1] && column.end() - it == 4 && it < column.end() && *--(it += 2) == "1,000" && *it++ == *(1 + column.begin()) ? "so" : "no", "so");
    const Column copied = column, moved = std::move(column);
    expect(barred(copied), barred(moved));
    column.clear();
    expect(column.empty() && column.begin() == column.end() && column.text().empty() ? "empty" : "not empty", "empty");
    expect(std::to_string(std::count(copied.begin(), copied.end(), "10")), "1");
}

// Columns of many numbers, and of long ones, which need more room than was made at first.
static void many(DecimalFormatter &english, const SharedDecimalFormatter &shared) {
    std::vector<double> numbers(10000);
    for (std::size_t at = 0; at < numbers.size(); at++) numbers[at] = static_cast<double>(at) * 1234.5 - 5e6;
    const Column column = english.format_all(numbers), same = shared.format_all(numbers);
    const Column gathered = english.format_all(std::list<double>(numbers.begin(), numbers.end()));
    for (std::size_t at = 0; at < numbers.size(); at++)
        if (column[at] != english.format(numbers[at]) || column[at] != same[at] || column[at] != gathered[at]) return expect(column[at], english.format(numbers[at]));
    const std::vector<double> great(500, 1.7976931348623157e308);
    const std::vector<std::string> long_ones(20, std::string(30000, '1'));
    expect(std::to_string(english.format_all(great).text().size()), std::to_string(500 * 411));
    expect(std::to_string(english.format_all(long_ones).text().size()), std::to_string(20 * (30000 + 9999)));
}

static void refused(DecimalFormatter &english, DecimalFormatter &closed) {
    Column column;
    expect_error(message(Code::Number) + ": the number at 1", [&] { english.format_all(std::vector<double>{1, NONE, 2}); });
    expect_error(message(Code::Number) + ": the number at 0", [&] { english.format_all(&NONE, 1); });
    expect_error(message(Code::Number) + ": the number at 2", [&] { english.format_all(std::vector<const char *>{"1", "2", "x", "3"}); });
    for (const char *it : {"", "\n", "1\n2", "1\n", "5."})
        expect_error(message(Code::Number) + ": the number at 1", [&] { english.format_all(std::vector<std::string>{"1", it, "2"}); });
    expect_error(message(Code::Limit) + ": the number at 1", [&] { english.format_all(std::vector<std::string>{"1", "1e40000"}); });
    std::list<double> late(1000, 1.5);
    late.push_back(NONE);
    expect_code(english.format_all_to(column, late), Code::Number);
    expect(std::to_string(column.size()), "1000");
    expect_code(english.format_all_to(column, std::vector<std::string>{"7", "\n"}), Code::Number);
    expect(std::to_string(column.size()) + std::string(column.back()), "10017");
    expect_code(english.try_format_all(late).error(), Code::Number);
    const Options unknown = Options().with_sign(Sign{6});
    expect_error(message(Code::Option), [&] { english.format_all(std::vector<double>{}, unknown); });
    expect_error(message(Code::Option), [&] { english.format_all(std::vector<std::string>{}, unknown); });
    expect_code(english.format_all_to(column, std::list<int>{}, unknown), Code::Option);
    expect(barred(english.format_all(std::vector<double>())) + barred(english.format_all(std::list<int>())) +
               barred(english.format_all(static_cast<const double *>(nullptr), 0)) + barred(english.format_all(std::vector<std::string>())),
           "");
    expect_error(message(Code::Closed), [&] { closed.format_all(std::vector<double>{1}); });
    expect_error(message(Code::Closed), [&] { closed.format_all(std::vector<std::string>{}); });
    expect_code(closed.format_all_to(column, std::list<double>{}), Code::Closed);
    expect(std::to_string(column.size()), "1001");
}

static void others() {
    CompactDecimalFormatter compact("en");
    CurrencyFormatter euros("en", "EUR");
    PercentFormatter percents("tr");
    const double some[] = {-1172700, 950};
    expect(barred(compact.format_all(some)), "-1.2M|950|");
    expect(barred(compact.format_all(std::vector<std::string>{"1650"})), "1.6K|");
    expect(barred(euros.format_all(some)) + barred(euros.format_all(std::vector<int>{5})), "-€1,172,700.00|€950.00|€5.00|");
    expect(barred(percents.format_all(std::vector<double>{12.5})), "%12,5|");
    const SharedCompactDecimalFormatter shared_compact(std::move(compact));
    const SharedUnitFormatter shared_euros(std::move(euros));
    expect(barred(shared_compact.format_all(some, 2)) + barred(shared_euros.format_all(std::vector<const char *>{"5"})), "-1.2M|950|€5.00|");
    expect(barred(*shared_euros.try_format_all(std::vector<int>{7}, Options().with_rounding(Rounding::None))), "€7|");
    expect_code(compact.try_format_all(some).error(), Code::Closed);
}

// What a temporary has is used in the statement that makes it.
static void temporaries(DecimalFormatter &english, const SharedDecimalFormatter &shared) {
    const std::vector<double> some{1234.5, -7};
    std::string found;
    for (std::string_view it : english.try_format_all(some).value()) (found += it) += '|';
    for (std::string_view it : *english.try_format_all(some)) (found += it) += '|';
    for (std::string_view it : english.format_all(some)) (found += it) += '|';
    for (auto [text, kind] : english.try_format_parts(-5).value()) (found += text) += '|';
    found += english.format_all(some).text() + *english.try_format(5) + shared.try_format(5).value();
    expect(found, "1,234.5|-7|1,234.5|-7|1,234.5|-7|-|5|1,234.5-755");
}

// Mantissas times one power of ten.
static void exponents(DecimalFormatter &english, const SharedDecimalFormatter &shared) {
    const int64_t cents[] = {123456, -7, 0};
    const std::string wanted = "1,234.56|-0.07|0.00|";
    const Exponent two(-2);
    expect(barred(english.format_all(cents, two)) + barred(shared.format_all(cents, two)), wanted + wanted);
    expect(barred(english.format_all(std::list<int>(std::begin(cents), std::end(cents)), two)), wanted);
    expect(barred(english.format_all(cents, 3, two)) + barred(shared.format_all(cents, 3, two)), wanted + wanted);
    expect(barred(*english.try_format_all(std::vector<int8_t>{5}, Exponent(3), Options().with_sign(Sign::Always))), "+5,000|");
    expect(barred(english.format_all(std::vector<uint64_t>{1, UINT64_MAX, 2}, two)), "0.01|184,467,440,737,095,516.15|0.02|");
    expect(barred(english.format_all(cents, 2)), "123,456|-7|");
    expect_code(english.try_format_all(cents, Exponent(32768)).error(), Code::Limit);
    expect_code(english.try_format_all(std::list<int>{1}, Exponent(-40000)).error(), Code::Limit);
    expect_error(message(Code::Limit) + ": the number at 1", [&] { english.format_all(std::vector<int>{1, 10}, Exponent(32767)); });
}

static void in_threads(const SharedDecimalFormatter &shared) {
    std::vector<std::thread> threads;
    bool is_right[8] = {};
    for (int at = 0; at < 8; at++)
        threads.emplace_back([&, at] {
            std::vector<int64_t> numbers(2000);
            for (std::size_t it = 0; it < numbers.size(); it++) numbers[it] = static_cast<int64_t>(it) + 1000 * (at + 1);
            const Column column = shared.format_all(numbers);
            is_right[at] = true;
            for (std::size_t it = 0; it < numbers.size(); it++) is_right[at] = is_right[at] && column[it] == shared.format(numbers[it]);
        });
    for (std::thread &it : threads) it.join();
    for (bool it : is_right) expect(it ? "right" : "a thread is wrong", "right");
    const pid_t child = fork();
    if (child == 0) _exit(barred(shared.format_all(std::vector<int>{1234})) == "1.234|" ? 0 : 1);
    int status = -1;
    waitpid(child, &status, 0);
    expect(std::to_string(status), "0");
}

int main() {
    DecimalFormatter english("en"), opened("de"), closed("en"), taken = std::move(closed);
    const SharedDecimalFormatter german(std::move(opened)), shared_english(std::move(taken));
    ranges(english);
    columns(english);
    many(english, shared_english);
    refused(english, closed);
    others();
    temporaries(english, shared_english);
    exponents(english, shared_english);
    in_threads(german);
    return wrong;
}
