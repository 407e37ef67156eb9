// Uses shared formatters of legumeyet.hpp in eight threads at once, and prints what they answer otherwise than they should. The status is 1
// where something does.
#include <legumeyet.hpp>

#include <atomic>
#include <iostream>
#include <iterator>
#include <sstream>
#include <string>
#include <thread>
#include <type_traits>
#include <utility>
#include <vector>

using namespace legumeyet;

static std::atomic<int> wrong{0};

static void expect(const char *what, const std::string &got, const std::string &wanted) {
    if (got == wanted) return;
    if (wrong++ == 0) std::cout << what << ": " << got << ", and not " << wanted << '\n';
}

// Copied as a pointer is, and nothing to be done where one goes out of scope.
template <class T> constexpr bool is_plain = std::is_trivially_copyable_v<T> && std::is_trivially_destructible_v<T>;
static_assert(is_plain<SharedDecimalFormatter> && is_plain<SharedCompactDecimalFormatter> && is_plain<SharedUnitFormatter>);

static const SharedDecimalFormatter &german() {
    static const SharedDecimalFormatter shared(DecimalFormatter("de"));
    return shared;
}

static void use_all(const SharedCompactDecimalFormatter &compact, const SharedUnitFormatter &euros) {
    char room[16];
    std::string text;
    expect("format", german().format("1234567.891"), "1.234.567,891");
    expect("an integer and a power", german().format(-123456, -2), "-1.234,56");
    expect("rounded", german().format(2.675, Options().with_rounding(Rounding::HalfEven, -2)), "2,68");
    const auto written = german().format_to(room, sizeof room, 1234.5);
    expect("a room", std::string(room, written.size), "1.234,5");
    german().format_to(std::back_inserter(text), 18446744073709551615u);
    expect("an iterator", text, "18.446.744.073.709.551.615");
    std::ostringstream out;
    out << german()(1234.5);
    expect("<<", out.str(), "1.234,5");
    text.clear();
    for (auto [part, kind] : german().format_parts("-1.5")) text += std::string(part) + std::to_string(static_cast<int>(kind)) + ' ';
    expect("parts", text, "-1 13 ,5 56 ");
    expect("read", german().read("1.234,5"), "1234.5");
    expect("lenient", german().read_lenient(" 1234,5 "), "1234.5");
    expect("an error", std::to_string(static_cast<int>(german().try_format("5.").error())), std::to_string(LEGUMEYET_NUMBER));
    expect("compact", compact.format(-1172700), "-1.2M");
    expect("shown", compact.shown(-1172700), "-1.2c6");
    expect("exact", compact.format_exact("-1.20c6"), "-1.20M");
    expect("an amount", euros.format(1234.5), "€1,234.50");
    expect("read", euros.read("€1,234.50"), "1234.50");
    expect("lenient", euros.read_lenient("1234.5 EUR"), "1234.5");
}

int main() {
    const SharedCompactDecimalFormatter compact(CompactDecimalFormatter("en"));
    SharedUnitFormatter euros(PercentFormatter("en"));
    expect("a percent", euros.format(12.5), "12.5%");
    euros = SharedUnitFormatter(CurrencyFormatter("en", "EUR"));
    std::vector<std::thread> threads;
    for (int at = 0; at < 8; at++)
        threads.emplace_back([=] {
            for (int turn = 0; turn < 1000; turn++) use_all(compact, euros);
        });
    for (std::thread &thread : threads) thread.join();
    DecimalFormatter opened("de");
    const SharedDecimalFormatter shared(std::move(opened)), copied = shared;
    expect("a copy", copied.format(1234), "1.234");
    const SharedDecimalFormatter closed(std::move(opened));
    expect("what was moved from", std::to_string(static_cast<int>(closed.try_format(1).error())), std::to_string(LEGUMEYET_CLOSED));
    expect("what was moved from", std::to_string(static_cast<int>(opened.try_format(1).error())), std::to_string(LEGUMEYET_CLOSED));
    return wrong == 0 ? 0 : 1;
}
