// legumeyet.h for C++17 and later: handles that close themselves, options of types of their own, texts as strings.
//
//     legumeyet::DecimalFormatter german("de");
//     german.format(1234567.891);                                // 1.234.567,891
//     std::cout << german(1234.5);                               // 1.234,5
//     legumeyet::CompactDecimalFormatter("de").format(1234567);  // 1,2 Mio. with a no-break space
//     legumeyet::CurrencyFormatter("de", "EUR").format(1234.5);  // 1.234,50 € with a no-break space
//     legumeyet::NumberFormatter::skeleton("de", "currency/EUR .00/w").format(5); // 5 € with a no-break space
//     legumeyet::PluralRules("pl").select(5);                    // PluralCategory::Many
//     german.format_all(std::vector<double>{1234.5, 0.25});      // a Column of 1.234,5 and 0,25
//     legumeyet::Answers(16).answer(lines);                      // the answers to request lines
//
// Where a function of legumeyet.h returns an error, a call whose name begins with `try_` has it in its Result, and `format_to` in its
// FormatToResult; `format_all_to` and `try_keep` return it as a Code, and each other call throws it as an Error. A program that is compiled
// with -fno-exceptions has all but the last. A call that makes a std::string or a std::vector may throw std::bad_alloc.
//
// Threads: a book, a formatter, rules or answers may go to another thread, and are used by one call at a time, also by a call that only reads, so
// no call is const. A shared formatter is used by any number of threads at once, and its calls are const:
// static const legumeyet::SharedDecimalFormatter german{legumeyet::DecimalFormatter{"de"}};
//
// A null pointer in place of a text is an empty text, which is no tag and no number. The macros None and Always of X11 may be there when this
// header is included; a program that has them writes Rounding{LEGUMEYET_ROUND_NONE} and Sign{LEGUMEYET_SIGN_ALWAYS}.
#ifndef LEGUMEYET_HPP
#define LEGUMEYET_HPP

#if __cplusplus < 201703L
#error "legumeyet.hpp is for C++17 and later: -std=c++17"
#endif

#include <legumeyet.h>

#include <algorithm>
#include <atomic>
#include <cerrno>
#include <charconv>
#include <cstddef>
#include <iosfwd>
#include <iterator>
#include <memory>
#include <mutex>
#include <stdexcept>
#include <string>
#include <string_view>
#include <system_error>
#include <type_traits>
#include <unistd.h>
#include <utility>
#include <variant>
#include <vector>

#if __cplusplus >= 202002L
#include <version>
#endif
#ifdef __cpp_lib_expected
#include <expected>
#endif
#if defined(__cpp_lib_format) && defined(__cpp_exceptions)
#include <format>
#endif

// What borrows from what is given is told to Clang, which warns where that is gone before.
#if __has_cpp_attribute(clang::lifetimebound)
#define LEGUMEYET_BORROWS [[clang::lifetimebound]]
#else
#define LEGUMEYET_BORROWS
#endif

#pragma push_macro("Always")
#pragma push_macro("None")
#undef Always
#undef None

namespace legumeyet {

// What a call returns; legumeyet.h says of each call which.
enum class Code : int32_t {
    File = LEGUMEYET_FILE, Ok = LEGUMEYET_OK, Memory = LEGUMEYET_MEMORY, Closed = LEGUMEYET_CLOSED, TooSmall = LEGUMEYET_TOO_SMALL,
    Option = LEGUMEYET_OPTION, Tag = LEGUMEYET_TAG, Table = LEGUMEYET_TABLE, Number = LEGUMEYET_NUMBER, Limit = LEGUMEYET_LIMIT,
    Range = LEGUMEYET_RANGE, Utf8 = LEGUMEYET_UTF8, Unreadable = LEGUMEYET_UNREADABLE, NotWritten = LEGUMEYET_NOT_WRITTEN,
    Exponent = LEGUMEYET_EXPONENT, Code = LEGUMEYET_CODE, Unkept = LEGUMEYET_UNKEPT, BookJson = LEGUMEYET_BOOK_JSON, BookShape = LEGUMEYET_BOOK_SHAPE,
    BookTag = LEGUMEYET_BOOK_TAG, BookSystem = LEGUMEYET_BOOK_SYSTEM, BookText = LEGUMEYET_BOOK_TEXT, BookDigits = LEGUMEYET_BOOK_DIGITS,
    BookCondition = LEGUMEYET_BOOK_CONDITION, BookTypes = LEGUMEYET_BOOK_TYPES, BookExponents = LEGUMEYET_BOOK_EXPONENTS,
    BookDuplicate = LEGUMEYET_BOOK_DUPLICATE, BookCycle = LEGUMEYET_BOOK_CYCLE, BookUnit = LEGUMEYET_BOOK_UNIT, BookCode = LEGUMEYET_BOOK_CODE,
    SkeletonUnknown = LEGUMEYET_SKELETON_UNKNOWN, SkeletonTwice = LEGUMEYET_SKELETON_TWICE, SkeletonCode = LEGUMEYET_SKELETON_CODE,
    SkeletonPair = LEGUMEYET_SKELETON_PAIR, SkeletonSystem = LEGUMEYET_SKELETON_SYSTEM, SkeletonLater = LEGUMEYET_SKELETON_LATER,
    SkeletonUnsupported = LEGUMEYET_SKELETON_UNSUPPORTED
};

// How the digits are written: LEGUMEYET_NOTATION.
enum class Notation : int32_t {
    Standard = LEGUMEYET_NOTATION_STANDARD, Compact = LEGUMEYET_NOTATION_COMPACT, Scientific = LEGUMEYET_NOTATION_SCIENTIFIC,
    Engineering = LEGUMEYET_NOTATION_ENGINEERING
};
// In which patterns compact numbers are written: LEGUMEYET_WIDTH.
enum class Width : int32_t { Short = LEGUMEYET_WIDTH_SHORT, Long = LEGUMEYET_WIDTH_LONG };
// What is written beside the digits: LEGUMEYET_UNIT.
enum class Unit : int32_t {
    None = LEGUMEYET_UNIT_NONE, Percent = LEGUMEYET_UNIT_PERCENT, Currency = LEGUMEYET_UNIT_CURRENCY, Permille = LEGUMEYET_UNIT_PERMILLE
};
// How a negative amount of money is written: LEGUMEYET_STYLE.
enum class CurrencyStyle : int32_t { Standard = LEGUMEYET_STYLE_STANDARD, Accounting = LEGUMEYET_STYLE_ACCOUNTING };
// What a currency is written as: LEGUMEYET_CURRENCY.
enum class CurrencyWidth : int32_t { Symbol = LEGUMEYET_CURRENCY_SYMBOL, Code = LEGUMEYET_CURRENCY_CODE };
// When grouping separators are written: LEGUMEYET_GROUPING.
enum class Grouping : int32_t {
    Auto = LEGUMEYET_GROUPING_AUTO, Never = LEGUMEYET_GROUPING_NEVER, Always = LEGUMEYET_GROUPING_ALWAYS, Min2 = LEGUMEYET_GROUPING_MIN2,
    OnAligned = LEGUMEYET_GROUPING_ON_ALIGNED
};

// What is written of a number, it or the word of its plural category: LEGUMEYET_PLURALS.
enum class Plurals : int32_t { None = LEGUMEYET_PLURALS_NONE, Cardinal = LEGUMEYET_PLURALS_CARDINAL, Ordinal = LEGUMEYET_PLURALS_ORDINAL };
// A plural category, for which a language has words of its own: `name` has its own word, as `few`.
enum class PluralCategory { Zero, One, Two, Few, Many, Other };

// Which sign is written: LEGUMEYET_SIGN.
enum class Sign : int32_t {
    Keep = LEGUMEYET_SIGN_KEEP, Auto = LEGUMEYET_SIGN_AUTO, Never = LEGUMEYET_SIGN_NEVER, Always = LEGUMEYET_SIGN_ALWAYS,
    ExceptZero = LEGUMEYET_SIGN_EXCEPT_ZERO, Negative = LEGUMEYET_SIGN_NEGATIVE
};

// Which multiple of the increment, at the position, a number is rounded to: LEGUMEYET_ROUND. Usual and Keep are one.
enum class Rounding : int32_t {
    Usual = LEGUMEYET_ROUND_USUAL, Keep = Usual, Expand = LEGUMEYET_ROUND_EXPAND, Trunc = LEGUMEYET_ROUND_TRUNC, Ceil = LEGUMEYET_ROUND_CEIL,
    Floor = LEGUMEYET_ROUND_FLOOR, HalfExpand = LEGUMEYET_ROUND_HALF_EXPAND, HalfTrunc = LEGUMEYET_ROUND_HALF_TRUNC,
    HalfCeil = LEGUMEYET_ROUND_HALF_CEIL, HalfFloor = LEGUMEYET_ROUND_HALF_FLOOR, HalfEven = LEGUMEYET_ROUND_HALF_EVEN, Cash = LEGUMEYET_ROUND_CASH,
    None = LEGUMEYET_ROUND_NONE
};

// What a number is rounded to a multiple of, at the position.
enum class Increment : int32_t {
    One = 1, Two = 2, Five = 5, Ten = 10, Twenty = 20, TwentyFive = 25, Fifty = 50, OneHundred = 100, TwoHundred = 200, TwoHundredFifty = 250,
    FiveHundred = 500, OneThousand = 1000, TwoThousand = 2000, TwoThousandFiveHundred = 2500, FiveThousand = 5000
};
// What becomes of the zeros at the end of the fraction digits: LEGUMEYET_TRAILING_ZEROS.
enum class TrailingZeros : int32_t {
    Keep = LEGUMEYET_TRAILING_ZEROS_KEEP, Trim = LEGUMEYET_TRAILING_ZEROS_TRIM, TrimWhole = LEGUMEYET_TRAILING_ZEROS_TRIM_WHOLE,
    TrimAll = LEGUMEYET_TRAILING_ZEROS_TRIM_ALL
};
// Which rounding counts, where a number has significant digits and a position: LEGUMEYET_PRIORITY.
enum class RoundingPriority : int32_t {
    Auto = LEGUMEYET_PRIORITY_AUTO, MorePrecision = LEGUMEYET_PRIORITY_MORE_PRECISION, LessPrecision = LEGUMEYET_PRIORITY_LESS_PRECISION
};

// What a part of a text is: LEGUMEYET_PART. A later library may have other kinds.
enum class Kind : uint32_t {
    MinusSign = LEGUMEYET_PART_MINUS_SIGN, PlusSign = LEGUMEYET_PART_PLUS_SIGN, Integer = LEGUMEYET_PART_INTEGER, Group = LEGUMEYET_PART_GROUP,
    Decimal = LEGUMEYET_PART_DECIMAL, Fraction = LEGUMEYET_PART_FRACTION, Currency = LEGUMEYET_PART_CURRENCY, PercentSign = LEGUMEYET_PART_PERCENT_SIGN,
    ExponentSeparator = LEGUMEYET_PART_EXPONENT_SEPARATOR, ExponentMinusSign = LEGUMEYET_PART_EXPONENT_MINUS_SIGN,
    ExponentPlusSign = LEGUMEYET_PART_EXPONENT_PLUS_SIGN, ExponentInteger = LEGUMEYET_PART_EXPONENT_INTEGER
};

// What a formatter tells of itself: LEGUMEYET_FACT.
enum class Fact : uint32_t {
    DecimalSeparator = LEGUMEYET_FACT_DECIMAL_SEPARATOR, GroupingSeparator = LEGUMEYET_FACT_GROUPING_SEPARATOR,
    MinusBefore = LEGUMEYET_FACT_MINUS_BEFORE, MinusAfter = LEGUMEYET_FACT_MINUS_AFTER, PlusBefore = LEGUMEYET_FACT_PLUS_BEFORE,
    PlusAfter = LEGUMEYET_FACT_PLUS_AFTER, Digits = LEGUMEYET_FACT_DIGITS, FractionDigits = LEGUMEYET_FACT_FRACTION_DIGITS,
    CashDigits = LEGUMEYET_FACT_CASH_DIGITS, CashIncrement = LEGUMEYET_FACT_CASH_INCREMENT, Categories = LEGUMEYET_FACT_CATEGORIES
};

namespace inner {

inline constexpr std::string_view CATEGORIES[] = {"zero", "one", "two", "few", "many", "other"};

// For a template that is only of what a condition holds of.
template <bool holds> using If = std::enable_if_t<holds, int>;

// Whether a type is of integers that numbers are given as: not of characters, which are no integers with a sign or without, and not bool.
template <class T, class = void> inline constexpr bool is_number = false;
template <class T>
inline constexpr bool is_number<T, std::enable_if_t<std::is_integral_v<T> && !std::is_same_v<T, bool> && sizeof(T) <= sizeof(int64_t)>> =
    std::is_same_v<T, std::make_signed_t<T>> || std::is_same_v<T, std::make_unsigned_t<T>>;

// Whether a number is one of the type.
template <class To, class From> constexpr bool fits(From number) noexcept {
    const To narrow = static_cast<To>(number);
    return static_cast<From>(narrow) == number && (narrow < To{}) == (number < From{});
}

// An integer as a word, or where it has no room in one a word that each call refuses.
class Word {
    int32_t word;

  public:
    template <class T, If<is_number<T>> = 0> constexpr Word(T number) noexcept : word(fits<int32_t>(number) ? static_cast<int32_t>(number) : INT32_MAX) {}
    constexpr operator int32_t() const noexcept { return word; }
};

// Options that are given, with another field.
template <class Options, class T> constexpr Options with(Options options, T Options::*field, std::common_type_t<T> it) noexcept {
    options.*field = it;
    options.is_own = false;
    return options;
}

// Whether a type is of texts.
template <class T> inline constexpr bool is_text = std::is_convertible_v<const T &, std::string_view> && !std::is_null_pointer_v<T>;

inline const uint8_t *bytes(std::string_view text) noexcept { return reinterpret_cast<const uint8_t *>(text.data()); }
inline uint8_t *bytes(char *text) noexcept { return reinterpret_cast<uint8_t *>(text); }

// A text that a call is given, which it borrows. A null pointer is an empty one.
class Text {
    std::string_view view;

  public:
    template <class T, If<is_text<T>> = 0> Text(const T &text LEGUMEYET_BORROWS) noexcept(std::is_nothrow_constructible_v<std::string_view, const T &>) {
        if constexpr (std::is_pointer_v<T>)
            view = text == nullptr ? std::string_view() : std::string_view(text);
        else
            view = text;
    }
    Text(std::nullptr_t) = delete;

    operator std::string_view() const noexcept { return view; }
    std::size_t size() const noexcept { return view.size(); }
    const uint8_t *bytes() const noexcept { return inner::bytes(view); }
};

// How many bytes a text may have that is written without an allocation of this header.
inline constexpr std::size_t NEAR = 256;

// Calls `use` with the text that `call` writes, which takes the last three arguments of such a function of legumeyet.h.
template <class Call, class Use> Code with_text(Call call, Use use) {
    char near[NEAR];
    std::size_t length = 0;
    auto code = static_cast<Code>(call(bytes(near), sizeof near, &length));
    if (code == Code::Ok) use(std::string_view(near, length));
    if (code != Code::TooSmall) return code;
    std::string far(length, ' ');
    code = static_cast<Code>(call(bytes(&far[0]), far.size(), &length));
    if (code == Code::Ok) use(std::string_view(far.data(), length));
    return code;
}

} // namespace inner

// How numbers are written: legumeyet_format. Euros in accounting are, in C++20, {.currency = "EUR", .currency_style = CurrencyStyle::Accounting}.
struct Format {
    Notation notation = Notation::Standard;
    Width width = Width::Short;
    Unit unit = Unit::None;
    std::string_view currency = {}; // its code, which is borrowed; where there is one, Unit::None is Unit::Currency
    CurrencyStyle currency_style = CurrencyStyle::Standard;
    CurrencyWidth currency_width = CurrencyWidth::Symbol;
    Grouping grouping = Grouping::Auto;
    Plurals plurals = Plurals::None;
    // The same for legumeyet.h, but for the code.
    constexpr explicit operator legumeyet_format() const noexcept {
        const Unit known = unit == Unit::None && !currency.empty() ? Unit::Currency : unit;
        return {static_cast<int32_t>(notation),       static_cast<int32_t>(width),    static_cast<int32_t>(known),  static_cast<int32_t>(currency_style),
                static_cast<int32_t>(currency_width), static_cast<int32_t>(grouping), static_cast<int32_t>(plurals)};
    }
};

constexpr std::string_view name(PluralCategory it) noexcept { return inner::CATEGORIES[static_cast<std::size_t>(it)]; }

// What is made of a number before it is written: legumeyet_options. At most two fraction digits, in C++20 and in each version:
//
//     german.format(1.255, {.rounding = Rounding::HalfEven, .position = -2, .trailing_zeros = TrailingZeros::Trim});
//     german.format(1.255, Options().with_rounding(Rounding::HalfEven, -2).with_trailing_zeros(TrailingZeros::Trim));
//     german.format(12345, Options().with_maximum_significant_digits(3)); // 12.300
//
// A call without options is by the formatter's own: those of its skeleton, or that a NumberFormatter was opened with, and else Options().
struct Options {
    Sign sign = Sign::Keep;
    Rounding rounding = Rounding::Usual;
    int32_t position = 0;
    TrailingZeros trailing_zeros = TrailingZeros::Keep;
    Increment increment = Increment::One;
    int32_t minimum_integer_digits = 0;
    int32_t minimum_fraction_digits = 0;
    int32_t minimum_significant_digits = 0; // 0 is none
    int32_t maximum_significant_digits = 0; // 0 is none
    RoundingPriority rounding_priority = RoundingPriority::Auto;
    bool is_own = false; // whether they are the formatter's own, and none of these

    // The formatter's own, for a function that passes options on.
    static constexpr Options own() noexcept { return {{}, {}, 0, {}, Increment::One, 0, 0, 0, 0, {}, true}; }
    // The same with another choice. An integer that has no room in its field is refused by the call that is given the options: Code::Option.
    constexpr Options with_sign(Sign it) const noexcept { return inner::with(*this, &Options::sign, it); }
    constexpr Options with_rounding(Rounding it, inner::Word at = 0) const noexcept {
        return inner::with(inner::with(*this, &Options::rounding, it), &Options::position, at);
    }
    constexpr Options with_trailing_zeros(TrailingZeros it) const noexcept { return inner::with(*this, &Options::trailing_zeros, it); }
    constexpr Options with_increment(Increment it) const noexcept { return inner::with(*this, &Options::increment, it); }
    constexpr Options with_minimum_integer_digits(inner::Word count) const noexcept { return inner::with(*this, &Options::minimum_integer_digits, count); }
    constexpr Options with_minimum_fraction_digits(inner::Word count) const noexcept { return inner::with(*this, &Options::minimum_fraction_digits, count); }
    constexpr Options with_minimum_significant_digits(inner::Word count) const noexcept { return inner::with(*this, &Options::minimum_significant_digits, count); }
    constexpr Options with_maximum_significant_digits(inner::Word count) const noexcept { return inner::with(*this, &Options::maximum_significant_digits, count); }
    constexpr Options with_rounding_priority(RoundingPriority it) const noexcept { return inner::with(*this, &Options::rounding_priority, it); }
    // The same for legumeyet.h.
    constexpr explicit operator legumeyet_options() const noexcept {
        return {static_cast<int32_t>(sign), static_cast<int32_t>(rounding), position, static_cast<int32_t>(increment), static_cast<int32_t>(trailing_zeros),
                minimum_integer_digits, minimum_fraction_digits, minimum_significant_digits, maximum_significant_digits, static_cast<int32_t>(rounding_priority)};
    }
};

// What a code means, in English.
inline std::string message(Code code) {
    const auto write = [&](auto... out) { return legumeyet_error_text(static_cast<int32_t>(code), out...); };
    std::string found = code == Code::Ok ? "all is well" : code == Code::File ? "the file cannot be read" : "an error of another version";
    inner::with_text(write, [&](std::string_view text) { found = text; });
    return found;
}

#ifdef __cpp_exceptions
// Why a call was refused: `number` as in legumeyet.h, `what()` in English.
class Error : public std::runtime_error {
  public:
    int32_t number;
    explicit Error(int32_t error, const std::string &hint = "") : Error(static_cast<Code>(error), hint) {}
    explicit Error(Code code, const std::string &hint = "") : std::runtime_error(message(code) + hint), number(static_cast<int32_t>(code)) {}

    Code code() const noexcept { return static_cast<Code>(number); }
};

// Why a text is no skeleton: `place` is where the faulty word begins, in bytes, and `what()` says it too.
class SkeletonError : public Error {
  public:
    std::size_t place;
    SkeletonError(Code code, std::string_view skeleton, std::size_t at)
        : Error(code, ": at " + std::to_string(at) + " of `" + std::string(skeleton) + "`"), place(at) {}
};
#endif

// What a call found, or the code that refused it, which is not Code::Ok. In C++23 it converts to a std::expected.
template <class T> class [[nodiscard]] Result {
    static_assert(std::is_nothrow_move_constructible_v<T>);
    std::variant<T, Code> content;

  public:
    Result(T &&found) noexcept : content(std::in_place_index<0>, std::move(found)) {}
    Result(Code code) noexcept : content(std::in_place_index<1>, code) {}

    bool has_value() const noexcept { return content.index() == 0; }
    explicit operator bool() const noexcept { return has_value(); }
    Code error() const noexcept { return has_value() ? Code::Ok : *std::get_if<1>(&content); }
    // What was found; only of a result that has it.
    T &operator*() &noexcept LEGUMEYET_BORROWS { return *std::get_if<0>(&content); }
    const T &operator*() const &noexcept LEGUMEYET_BORROWS { return *std::get_if<0>(&content); }
    T operator*() &&noexcept { return std::move(**this); }
    T *operator->() noexcept { return std::get_if<0>(&content); }
    const T *operator->() const noexcept { return std::get_if<0>(&content); }
    // What was found, or another value.
    template <class U> T value_or(U &&other) const & { return has_value() ? **this : static_cast<T>(std::forward<U>(other)); }
    template <class U> T value_or(U &&other) && { return has_value() ? std::move(**this) : static_cast<T>(std::forward<U>(other)); }

#ifdef __cpp_exceptions
    // What was found. Throws the Error of the code.
    T &value() & LEGUMEYET_BORROWS { return has_value() ? **this : throw Error(error()); }
    const T &value() const & LEGUMEYET_BORROWS { return has_value() ? **this : throw Error(error()); }
    T value() && { return has_value() ? std::move(**this) : throw Error(error()); }
#endif
#ifdef __cpp_lib_expected
    operator std::expected<T, Code>() && {
        if (!has_value()) return std::unexpected(error());
        return std::move(**this);
    }
#endif
};

namespace inner {

#ifdef __cpp_exceptions
inline void expect_well(Code code) { if (code != Code::Ok) throw Error(code); }

// The same where a formatter is opened. Told are an underscore of a tag, and what is no code of a currency, or no skeleton.
inline void expect_opened(Code code, std::string_view tag, std::string_view given = {}, std::size_t place = 0) {
    std::string hyphens(tag);
    std::replace(hyphens.begin(), hyphens.end(), '_', '-');
    if (code == Code::Tag && hyphens != tag) throw Error(code, ": `" + std::string(tag) + "` is written `" + hyphens + "`");
    if (code == Code::Code) throw Error(code, ": `" + std::string(given) + "`");
    if (static_cast<int32_t>(code) / 100 == 2) throw SkeletonError(code, given, place);
    expect_well(code);
}
#endif

// What a call opened by a handle.
template <class Opened, class Handle, class Call> Result<Opened> opened_by(Opened &found, Handle &handle, Call call) noexcept {
    const auto code = static_cast<Code>(call(&handle));
    if (code != Code::Ok) return code;
    return std::move(found);
}

// The text that a call writes, as `with_text` takes it.
template <class Call> Result<std::string> text_of(Call call) {
    std::string text;
    const Code code = with_text(call, [&](std::string_view written) { text = written; });
    if (code != Code::Ok) return code;
    return text;
}

// A handle that is closed where it goes out of scope. What is moved from is closed, but for what is moved to itself.
template <class Handle, int32_t (*close)(Handle *)> class Owned {
  protected:
    Handle handle{};

    Owned() = default;
    Owned(Owned &&other) noexcept : handle(std::exchange(other.handle, Handle{})) {}
    Owned &operator=(Owned &&other) noexcept {
        if (this != &other) {
            close(&handle);
            handle = std::exchange(other.handle, Handle{});
        }
        return *this;
    }
    ~Owned() { close(&handle); }
};

// Options as two arguments of legumeyet.h: no words are those of a formatter's skeleton.
struct Words {
    legumeyet_options options;
    std::size_t count;

    explicit Words(const Options &it) noexcept : options(it), count(it.is_own ? 0 : sizeof options / sizeof(int32_t)) {}
};

// The one of two functions of legumeyet.h that takes a handle: a formatter's, and its twin of a shared one.
template <class Own, class Shared> constexpr Own twin(const legumeyet_formatter *, Own own, Shared) noexcept { return own; }
template <class Own, class Shared> constexpr Shared twin(const legumeyet_shared_formatter *, Own, Shared shared) noexcept { return shared; }

// Where an item of a whole is.
template <class Whole, class Item> class Iterator {
    const Whole *whole = nullptr;
    std::ptrdiff_t at = 0;

  public:
    using iterator_category = std::input_iterator_tag;
    using iterator_concept = std::random_access_iterator_tag;
    using difference_type = std::ptrdiff_t;
    using value_type = Item;
    using reference = Item;
    using pointer = void;

    Iterator() = default;
    Iterator(const Whole &it, std::size_t item) noexcept : whole(&it), at(static_cast<std::ptrdiff_t>(item)) {}

    Item operator*() const noexcept { return (*whole)[static_cast<std::size_t>(at)]; }
    Item operator[](std::ptrdiff_t count) const noexcept { return *(*this + count); }
    Iterator &operator+=(std::ptrdiff_t count) noexcept { return at += count, *this; }
    Iterator &operator-=(std::ptrdiff_t count) noexcept { return at -= count, *this; }
    Iterator &operator++() noexcept { return *this += 1; }
    Iterator &operator--() noexcept { return *this -= 1; }
    Iterator operator++(int) noexcept { return ++*this - 1; }
    Iterator operator--(int) noexcept { return --*this + 1; }
    friend Iterator operator+(Iterator it, std::ptrdiff_t count) noexcept { return it += count; }
    friend Iterator operator+(std::ptrdiff_t count, Iterator it) noexcept { return it += count; }
    friend Iterator operator-(Iterator it, std::ptrdiff_t count) noexcept { return it -= count; }
    friend std::ptrdiff_t operator-(const Iterator &left, const Iterator &right) noexcept { return left.at - right.at; }
    friend bool operator==(const Iterator &left, const Iterator &right) noexcept { return left.at == right.at; }
    friend bool operator!=(const Iterator &left, const Iterator &right) noexcept { return left.at != right.at; }
    friend bool operator<(const Iterator &left, const Iterator &right) noexcept { return left.at < right.at; }
    friend bool operator>(const Iterator &left, const Iterator &right) noexcept { return left.at > right.at; }
    friend bool operator<=(const Iterator &left, const Iterator &right) noexcept { return left.at <= right.at; }
    friend bool operator>=(const Iterator &left, const Iterator &right) noexcept { return left.at >= right.at; }
};

class Numbers;

} // namespace inner

// The power of ten that all mantissas of a column are times: cents are Exponent(-2). One that has no room is refused by the call: Code::Limit.
class Exponent {
    int16_t power;
    bool is_known;

  public:
    template <class T, inner::If<inner::is_number<T>> = 0>
    constexpr explicit Exponent(T it) noexcept : power(static_cast<int16_t>(it)), is_known(inner::fits<int16_t>(it)) {}

    constexpr bool has_room() const noexcept { return is_known; }
    constexpr explicit operator int16_t() const noexcept { return power; }
};

// A number to be written: a text, as `-987654.321`, an integer, a double, or an integer times a power of ten. It borrows a text.
class Number {
    std::variant<std::string_view, int64_t, uint64_t, double> content;
    int16_t exponent = 0;

  public:
    template <class T, inner::If<inner::is_text<T>> = 0> Number(const T &text LEGUMEYET_BORROWS) : content(inner::Text(text)) {}
    // The number `mantissa` times ten to the power `exponent`, with all digits down to it: 500 and -2 are `5.00`.
    template <class T, inner::If<inner::is_number<T>> = 0> Number(T number) noexcept : Number(number, 0) {}
    template <class T, class E, inner::If<inner::is_number<T> && inner::is_number<E>> = 0> Number(T mantissa, E power) noexcept {
        if (!inner::fits<int16_t>(power))
            content = std::string_view("1e99999"); // no call takes it: Code::Limit
        else if (inner::fits<int64_t>(mantissa))
            content = static_cast<int64_t>(mantissa);
        else
            content = static_cast<uint64_t>(mantissa);
        exponent = static_cast<int16_t>(power);
    }
    // The shortest number that gives the double back: `1,234.5` of 1234.5 in English, `5` of 5.0. That of a float is another: it is refused.
    template <class T, inner::If<std::is_same_v<T, double>> = 0> Number(T number) noexcept : content(number) {}
    // Has the function of legumeyet.h for the number write it.
    template <class Handle, class... Out> int32_t written_by(Handle *by, const inner::Words &words, Out... out) const noexcept {
        const auto write = [&](auto call, auto... number) { return call(by, number..., &words.options, words.count, out...); };
        if (const auto *text = std::get_if<std::string_view>(&content))
            return write(inner::twin(by, legumeyet_formatter_format, legumeyet_shared_formatter_format), inner::bytes(*text), text->size());
        if (const auto *number = std::get_if<int64_t>(&content))
            return write(inner::twin(by, legumeyet_formatter_format_i64, legumeyet_shared_formatter_format_i64), *number, exponent);
        if (const auto *number = std::get_if<uint64_t>(&content))
            return write(inner::twin(by, legumeyet_formatter_format_u64, legumeyet_shared_formatter_format_u64), *number, exponent);
        const double number = *std::get_if<double>(&content);
        return write(inner::twin(by, legumeyet_formatter_format_double, legumeyet_shared_formatter_format_double), number);
    }
};

// What a call wrote to `out`, which is the place after the last byte. The text has `size` bytes. Code::TooSmall says that the room has the
// first of them, which may end inside a character; of any other error nothing is written, and `size` is 0.
template <class Out> struct FormatToResult {
    Out out;
    std::size_t size;
    Code code;

    explicit operator bool() const noexcept { return code == Code::Ok; }
};

// A part of a text.
struct Part {
    std::string_view text;
    Kind kind;
};

// A text, and its parts by bytes. As a range it has the same parts with their texts: for (auto [text, kind] : annotated) ..
struct Annotated {
    std::string text;
    std::vector<legumeyet_interval> parts;

    using iterator = inner::Iterator<Annotated, Part>;

    Part operator[](std::size_t at) const &noexcept LEGUMEYET_BORROWS {
        return {std::string_view(text).substr(parts[at].start, parts[at].end - parts[at].start), static_cast<Kind>(parts[at].kind)};
    }
    iterator begin() const &noexcept LEGUMEYET_BORROWS { return {*this, 0}; }
    iterator end() const &noexcept LEGUMEYET_BORROWS { return {*this, parts.size()}; }
    Part operator[](std::size_t at) && = delete;
    iterator begin() && = delete;
    iterator end() && = delete;
};

// The texts of many numbers, one after the other in one string: `column[0]` is the first. As a range it has each as a std::string_view.
class Column {
    std::string content;
    std::vector<std::size_t> ends;

    friend class inner::Numbers;
    // Adds the texts of `total` numbers. A call writes those from a number on, and takes the last five arguments of legumeyet.h.
    template <class Call> Code add(std::size_t total, Call call) {
        struct Written {
            Column &column;
            std::size_t used, count;
            ~Written() {
                column.content.resize(used);
                column.ends.resize(count);
            }
        } written{*this, content.size(), ends.size()};
        const std::size_t before = ends.size();
        ends.resize(before + total);
        content.resize(written.used + 16 * total + inner::NEAR);
        for (;;) {
            const std::size_t done = written.count - before;
            std::size_t *next = ends.data() + written.count, count = 0;
            const int32_t code = call(done, inner::bytes(&content[written.used]), content.size() - written.used, next, total - done, &count);
            for (std::size_t *it = next; it != next + count; ++it) *it += written.used;
            if (count > 0) written.used = next[count - 1];
            written.count += count;
            if (code != LEGUMEYET_TOO_SMALL) return static_cast<Code>(code);
            content.resize(2 * content.size());
        }
    }

  public:
    using iterator = inner::Iterator<Column, std::string_view>;
    using const_iterator = iterator;
    using value_type = std::string_view;
    using size_type = std::size_t;

    std::size_t size() const noexcept { return ends.size(); }
    [[nodiscard]] bool empty() const noexcept { return ends.empty(); }
    // A text, of a place below `size()`. It is the column's: it is used before that is changed, and a temporary column has none to give.
    std::string_view operator[](std::size_t at) const &noexcept LEGUMEYET_BORROWS {
        const std::size_t start = at == 0 ? 0 : ends[at - 1];
        return std::string_view(content).substr(start, ends[at] - start);
    }
    std::string_view front() const &noexcept LEGUMEYET_BORROWS { return (*this)[0]; }
    std::string_view back() const &noexcept LEGUMEYET_BORROWS { return (*this)[size() - 1]; }
    iterator begin() const &noexcept LEGUMEYET_BORROWS { return {*this, 0}; }
    iterator end() const &noexcept LEGUMEYET_BORROWS { return {*this, size()}; }
    std::string_view operator[](std::size_t at) && = delete;
    std::string_view front() && = delete;
    std::string_view back() && = delete;
    iterator begin() && = delete;
    iterator end() && = delete;
    // All texts, with nothing between.
    const std::string &text() const &noexcept LEGUMEYET_BORROWS { return content; }
    std::string text() &&noexcept { return std::move(content); }
    // Leaves no text. The memory is kept for those that come.
    void clear() noexcept {
        content.clear();
        ends.clear();
    }
};

// What a formatter writes numbers with: separators, what is before and after a number with a minus or a plus, and the ten digits, zero first.
struct Symbols { std::string decimal_separator, grouping_separator, minus_before, minus_after, plus_before, plus_after, digits; };

// How many digits amounts of a currency have after the separator, and in cash, which is rounded to a multiple, the increment, of the last one.
struct CurrencyDigits { int fraction, cash, cash_increment; };

template <class Formatter> class Formatted;

namespace inner {

// Whether a type is of numbers that are given alone.
template <class T> inline constexpr bool is_given = is_text<T> || is_number<T> || std::is_same_v<T, double>;

// A number that is given as text, as an integer, also times a power of ten, or as a double, for a function of legumeyet.h that takes texts.
class Digits {
    std::string text;

  public:
    template <class T, If<is_given<T>> = 0> Digits(const T &number, int power = 0) {
        char near[32], *end = near + sizeof near;
        if constexpr (is_text<T>)
            text = Text(number);
        else if constexpr (std::is_same_v<T, double>)
            text.assign(near, std::remove(near, std::to_chars(near, end, number, std::chars_format::scientific).ptr, '+'));
        else {
            const auto zeros = static_cast<std::size_t>(std::max(power, 0)), fraction = static_cast<std::size_t>(std::max(-power, 0));
            text.assign(near, std::to_chars(near, end, number).ptr).append(zeros, '0');
            const std::size_t start = *near == '-', count = text.size() - start;
            if (fraction > 0) text.insert(start, count > fraction ? 0 : fraction + 1 - count, '0').insert(text.size() - fraction, 1, '.');
        }
    }

    operator std::string_view() const noexcept { return text; }
};

// What a range has, and whether it has that in one piece of memory: one with a stride may have `data` and `size` too.
template <class Range> using iterator_of = decltype(std::begin(std::declval<Range &>()));
template <class Range> using item_of = std::remove_cv_t<std::remove_reference_t<decltype(*std::declval<iterator_of<Range> &>())>>;
#ifdef __cpp_lib_concepts
template <class T, class Iterator> inline constexpr bool is_contiguous = std::contiguous_iterator<Iterator>;
#else
template <class T, class Iterator>
inline constexpr bool is_contiguous = std::is_pointer_v<Iterator> || std::is_same_v<Iterator, typename std::vector<T>::iterator> ||
                                      std::is_same_v<Iterator, typename std::vector<T>::const_iterator>;
#endif
template <class T, class Range, class = void> inline constexpr bool is_memory_of = false;
template <class T, class Range>
inline constexpr bool is_memory_of<T, Range, std::void_t<decltype(std::data(std::declval<Range &>()), std::size(std::declval<Range &>()))>> =
    std::is_convertible_v<decltype(std::data(std::declval<Range &>())), const T *> && is_contiguous<T, iterator_of<Range>>;

// Many numbers to be written. What is in one piece of memory as the library takes it is borrowed, and the rest is copied.
class Numbers {
    const double *doubles = nullptr;
    const int64_t *integers = nullptr;
    std::size_t count = 0;
    Exponent exponent{0};
    std::vector<double> copied_doubles;
    std::vector<int64_t> copied_integers;
    std::string lines;

    void take(const double *numbers, std::size_t total) noexcept { doubles = numbers, count = total; }
    void take(const int64_t *numbers, std::size_t total) noexcept { integers = numbers, count = total; }

    template <class T, class Range> void copy(std::vector<T> &copied, Range &range) {
        for (const auto &it : range) copied.push_back(it);
        take(copied.data(), copied.size());
    }
    // A line feed inside a text would make two numbers of it: with a space there it is none, as before.
    void copy_line(std::string_view text) {
        lines += text;
        std::replace(lines.end() - static_cast<std::ptrdiff_t>(text.size()), lines.end(), '\n', ' ');
        lines += '\n', ++count;
    }

    template <class Range> void take(Range &range) {
        using T = item_of<Range>;
        if constexpr (is_memory_of<double, Range> || is_memory_of<int64_t, Range>)
            take(std::data(range), std::size(range));
        else if constexpr (std::is_same_v<T, double>)
            copy(copied_doubles, range);
        else if constexpr (is_number<T> && (std::is_signed_v<T> || sizeof(T) < sizeof(int64_t)))
            copy(copied_integers, range);
        else
            for (const auto &it : range) {
                if constexpr (is_text<T>) copy_line(Text(it));
                else copy_line(Digits(it, static_cast<int16_t>(exponent)));
            }
    }

  public:
    template <class Range, class T = item_of<Range>, If<is_given<T>> = 0> Numbers(Range &&range) { take(range); }
    template <class Range, If<is_number<item_of<Range>>> = 0> Numbers(Range &&range, Exponent power) : exponent(power) { if (power.has_room()) take(range); }
    template <class C, If<is_number<C>> = 0> Numbers(const double *numbers, C total) noexcept { take(numbers, static_cast<std::size_t>(total)); }
    template <class C, If<is_number<C>> = 0> Numbers(const int64_t *numbers, C total, Exponent power = Exponent(0)) noexcept : exponent(power) {
        take(numbers, static_cast<std::size_t>(total));
    }
    Numbers(const Numbers &) = delete;
    // Has the functions of legumeyet.h for the numbers add their texts to a column.
    template <class Handle> Code written_by(Handle *by, const Words &words, Column &into) const {
        if (!exponent.has_room()) return Code::Limit;
        std::string_view rest = lines;
        std::size_t first = 0;
        return into.add(count, [&](std::size_t done, auto... out) {
            const auto write = [&](auto call, auto... numbers) { return call(by, numbers..., &words.options, words.count, out...); };
            const auto power = static_cast<int16_t>(exponent);
            if (doubles != nullptr)
                return write(twin(by, legumeyet_formatter_format_doubles, legumeyet_shared_formatter_format_doubles), doubles + done, count - done);
            if (integers != nullptr)
                return write(twin(by, legumeyet_formatter_format_integers, legumeyet_shared_formatter_format_integers), integers + done, count - done, power);
            for (; first < done; ++first) rest.remove_prefix(rest.find('\n') + 1);
            return write(twin(by, legumeyet_formatter_format_texts, legumeyet_shared_formatter_format_texts), bytes(rest), rest.size());
        });
    }
};

// For what many numbers are made of.
template <class... Given> using Many = If<std::is_constructible_v<Numbers, Given...>>;

// The handle of a shared formatter: it is copied as its bytes are, and what it shows stays for the rest of the program.
struct Kept { legumeyet_shared_formatter handle{}; };

// What a formatter writes and reads by the handle that `Base` has.
template <class Base> class Formatter : Base {
    friend class Formatted<Formatter>;

    Words words_of(const Options &options) const noexcept { return Words(options.is_own ? own : options); }
    // The call that writes a number, but for its last arguments; and one for a number as text.
    auto writing(const Number &number, const Options &options) noexcept {
        return [by = &handle, &number, words = words_of(options)](auto... out) { return number.written_by(by, words, out...); };
    }
    template <class Call> auto writing(Call call, std::string_view number, const Options &options) noexcept {
        return [=, by = &handle, words = words_of(options)](auto... out) {
            return call(by, bytes(number), number.size(), &words.options, words.count, out...);
        };
    }

  protected:
    static constexpr Options OWN = Options::own();

    using Base::handle;
    Options own = OWN;

    Formatter() = default;

  public:
    // Writes the text of a number to the front of the room. Nothing is allocated by this header.
    FormatToResult<char *> format_to(char *first, std::size_t room, Number number, Options options = OWN) noexcept {
        std::size_t size = 0;
        const auto code = static_cast<Code>(writing(number, options)(bytes(first), room, &size));
        return {first == nullptr ? first : first + std::min(size, room), size, code};
    }
    // Writes the text of a number to an output iterator, as std::back_inserter(text). A text up to 256 bytes takes no allocation.
    template <class Out, If<!std::is_pointer_v<Out>> = 0> FormatToResult<Out> format_to(Out out, Number number, Options options = OWN) {
        std::size_t size = 0;
        const Code code = with_text(writing(number, options), [&](std::string_view text) {
            out = std::copy(text.begin(), text.end(), std::move(out));
            size = text.size();
        });
        return {std::move(out), size, code};
    }
    // What `<<` and std::format write a number by; it borrows the formatter, and a text. It is used in the statement that makes it.
    Formatted<Formatter> operator()(Number number LEGUMEYET_BORROWS, Options options = OWN) &noexcept LEGUMEYET_BORROWS { return {*this, number, options}; }
    // The text of a number.
    Result<std::string> try_format(Number number, Options options = OWN) { return text_of(writing(number, options)); }
    // Adds the texts of many numbers to a column: of a range of doubles, integers or texts, or of doubles or int64_t behind a pointer and
    // their count. Where one is refused the column has those before it, so that its size says which. The numbers are not texts of the column
    // itself. Integers may all be times a power of ten: format_all_to(column, cents, Exponent(-2)).
    [[nodiscard]] Code format_all_to(Column &into, const Numbers &numbers, Options options = OWN) { return numbers.written_by(&handle, words_of(options), into); }
    template <class A, class B, Many<A, B> = 0> [[nodiscard]] Code format_all_to(Column &into, A &&numbers, B how, Options options = OWN) {
        return format_all_to(into, Numbers(numbers, how), options);
    }
    template <class C> [[nodiscard]] Code format_all_to(Column &into, const int64_t *numbers, C count, Exponent power, Options options = OWN) {
        return format_all_to(into, Numbers(numbers, count, power), options);
    }
    // The texts of many numbers, which are given as to `format_all_to`.
    Result<Column> try_format_all(const Numbers &numbers, Options options = OWN) {
        Column column;
        const Code code = format_all_to(column, numbers, options);
        if (code != Code::Ok) return code;
        return column;
    }
    template <class A, class B, Many<A, B> = 0> Result<Column> try_format_all(A &&numbers, B how, Options options = OWN) {
        return try_format_all(Numbers(numbers, how), options);
    }
    template <class C> Result<Column> try_format_all(const int64_t *numbers, C count, Exponent power, Options options = OWN) {
        return try_format_all(Numbers(numbers, count, power), options);
    }
    // The text of a number with its parts, in order of their beginning; of a compact number without digits of its own those of its sign.
    Result<Annotated> try_format_parts(const Digits &number, Options options = OWN) {
        const auto write = writing(twin(&handle, legumeyet_formatter_format_parts, legumeyet_shared_formatter_format_parts), number, options);
        Annotated found{std::string(), std::vector<legumeyet_interval>(16)};
        std::size_t count = 0;
        Result<std::string> text = text_of([&](auto... out) {
            found.parts.resize(std::max(found.parts.size(), count));
            return write(out..., found.parts.data(), found.parts.size(), &count);
        });
        if (!text) return text.error();
        found.text = *std::move(text);
        found.parts.resize(count);
        return found;
    }
    // The value that the text of a number shows: `-1.2c6` of `-1.2M`, `-1.2e6` of `-1.2E6`, and of any other its digits after the options.
    Result<std::string> try_shown(const Digits &number, Options options = OWN) {
        return text_of(writing(twin(&handle, legumeyet_formatter_shown, legumeyet_shared_formatter_shown), number, options));
    }
    // The text of a significand with an exponent, its digits as they are: `-1.20M` of `-1.20c6`. Where it is not compact it has no exponent, and
    // in scientific notation there is none: Code::Exponent.
    Result<std::string> try_format_exact(Text number, Options options = OWN) {
        return text_of(writing(twin(&handle, legumeyet_formatter_format_exact, legumeyet_shared_formatter_format_exact), number, options));
    }
    // The word of the plural category of a range from one number to another, where the format has plurals, and else Code::Option.
    Result<std::string> try_format_range(const Digits &start, const Digits &end, Options options = OWN) {
        const auto call = twin(&handle, legumeyet_formatter_format_range, legumeyet_shared_formatter_format_range);
        const auto ranges = [&, second = std::string_view(end)](auto *by, const uint8_t *first, std::size_t length, auto... more) {
            return call(by, first, length, bytes(second), second.size(), more...);
        };
        return text_of(writing(ranges, start, options));
    }
    // A fact of the formatter as text: `,` of Fact::DecimalSeparator in German. Code::Option of one that it does not have.
    Result<std::string> try_tell(Fact fact) {
        const auto tell = twin(&handle, legumeyet_formatter_tell, legumeyet_shared_formatter_tell);
        return text_of([&](auto... out) { return tell(&handle, static_cast<uint32_t>(fact), out...); });
    }
    // The number that is written so, as digits: in English `-1234.50` of `-1,234.50`, and of `-€1,234.50` with euros. Not of a compact or scientific one.
    Result<std::string> try_read(Text text) {
        const auto read = twin(&handle, legumeyet_formatter_read, legumeyet_shared_formatter_read);
        return text_of([&](auto... out) { return read(&handle, text.bytes(), text.size(), out...); });
    }
    // The number that somebody typed, as digits: `1234.5` of ` 1234.5 ` in English; legumeyet_formatter_read_lenient has the rule.
    Result<std::string> try_read_lenient(Text text) {
        const auto read = twin(&handle, legumeyet_formatter_read_lenient, legumeyet_shared_formatter_read_lenient);
        return text_of([&](auto... out) { return read(&handle, text.bytes(), text.size(), out...); });
    }

#ifdef __cpp_exceptions
    std::string format(Number number, Options options = OWN) { return try_format(number, options).value(); }
    template <class T, class E, If<is_number<T> && is_number<E>> = 0> std::string format(T mantissa, E exponent, Options options = OWN) {
        return format(Number(mantissa, exponent), options);
    }
    // An Error says which number it is of, from 0 on.
    Column format_all(const Numbers &numbers, Options options = OWN) {
        Column column;
        const Code code = format_all_to(column, numbers, options);
        const bool is_of_one = code != Code::Ok && code != Code::Closed && code != Code::Option;
        if (is_of_one) throw Error(code, ": the number at " + std::to_string(column.size()));
        expect_well(code);
        return column;
    }
    template <class A, class B, Many<A, B> = 0> Column format_all(A &&numbers, B how, Options options = OWN) {
        return format_all(Numbers(numbers, how), options);
    }
    template <class C> Column format_all(const int64_t *numbers, C count, Exponent power, Options options = OWN) {
        return format_all(Numbers(numbers, count, power), options);
    }
    Annotated format_parts(const Digits &number, Options options = OWN) { return try_format_parts(number, options).value(); }
    std::string shown(const Digits &number, Options options = OWN) { return try_shown(number, options).value(); }
    std::string format_exact(Text number, Options options = OWN) { return try_format_exact(number, options).value(); }
    std::string format_range(const Digits &start, const Digits &end, Options options = OWN) { return try_format_range(start, end, options).value(); }
    std::string read(Text text) { return try_read(text).value(); }
    std::string read_lenient(Text text) { return try_read_lenient(text).value(); }
    std::string tell(Fact fact) { return try_tell(fact).value(); }
    Symbols symbols() {
        return {tell(Fact::DecimalSeparator), tell(Fact::GroupingSeparator), tell(Fact::MinusBefore), tell(Fact::MinusAfter),
                tell(Fact::PlusBefore), tell(Fact::PlusAfter), tell(Fact::Digits)};
    }
    CurrencyDigits currency_digits() {
        return {std::stoi(tell(Fact::FractionDigits)), std::stoi(tell(Fact::CashDigits)), std::stoi(tell(Fact::CashIncrement))};
    }
#endif
};

} // namespace inner

// A number as a formatter writes it: std::cout << german(1234.5), and in C++20 std::format("{:>12}", german(1234.5)).
template <class Formatter> class Formatted {
    friend Formatter;

    Formatter *formatter;
    Number number;
    Options options;

    Formatted(Formatter &by, Number it, const Options &how) noexcept : formatter(&by), number(it), options(how) {}

  public:
    // Calls with the text.
    template <class Use> Code with_text(Use use) const { return inner::with_text(formatter->writing(number, options), use); }
    // Writes the text, or where a program has no exceptions sets the failbit.
    template <class Traits> friend std::basic_ostream<char, Traits> &operator<<(std::basic_ostream<char, Traits> &out, const Formatted &it) {
        using View = std::basic_string_view<char, Traits>;
        const Code code = it.with_text([&](std::string_view text) { out << View(text.data(), text.size()); });
#ifdef __cpp_exceptions
        inner::expect_well(code);
#else
        if (code != Code::Ok) out.setstate(std::basic_ostream<char, Traits>::failbit);
#endif
        return out;
    }
};

// The tag of a locale's name as LANG and setlocale give it: `de-DE` of `de_DE.UTF-8`; legumeyet_tag_of_locale_name has the rule.
inline std::string tag_of_locale_name(const char *name) { return *inner::text_of([&](auto... out) { return legumeyet_tag_of_locale_name(name, out...); }); }

// The tags of the world's locales, in order.
inline std::vector<std::string_view> world_locales() {
    std::vector<std::string_view> found;
    while (const char *tag = legumeyet_world_locale(found.size())) found.emplace_back(tag);
    return found;
}

// The normal text of a skeleton: `compact-short` of `K  sign-auto`. Where a text is none, `place` is where the faulty word begins, in bytes.
inline Result<std::string> try_normal_skeleton(inner::Text skeleton, std::size_t *place = nullptr) {
    std::size_t at = 0, *const found = place != nullptr ? place : &at;
    return inner::text_of([&](auto... out) { return legumeyet_skeleton_normal(skeleton.bytes(), skeleton.size(), found, out...); });
}
#ifdef __cpp_exceptions
inline std::string normal_skeleton(inner::Text skeleton) {
    std::size_t place = 0;
    Result<std::string> found = try_normal_skeleton(skeleton, &place);
    inner::expect_opened(found.error(), {}, skeleton, place);
    return *std::move(found);
}
#endif

// A book of tables.
class Book : inner::Owned<legumeyet_book, legumeyet_book_close> {
    friend class Answers;
    friend class NumberFormatter;

    Book() = default;

    template <class Call> static Result<Book> opened(Call call) noexcept {
        Book book;
        return inner::opened_by(book, book.handle, call);
    }

  public:
    // The book that a JSON text is.
    static Result<Book> try_from_json(inner::Text json) noexcept {
        return opened([&](legumeyet_book *book) { return legumeyet_book_open(json.bytes(), json.size(), book); });
    }
    // The world's book, which is in the library.
    static Result<Book> try_world() noexcept { return opened(legumeyet_book_open_world); }
    // The book that a file is. Of Code::File errno says why the file cannot be read.
    static Result<Book> try_from_file(const std::string &path) noexcept {
        return opened([&](legumeyet_book *book) { return legumeyet_book_open_file(path.c_str(), book); });
    }
    // Keeps the book for the rest of the program: formatters that are opened from it afterwards borrow its tables.
    [[nodiscard]] Code try_keep() noexcept { return static_cast<Code>(legumeyet_book_keep(&handle)); }
    // The answer to a request line, without its line feed: `ok`, a tab and a text, or `err`, a tab and a word.
    Result<std::string> try_answer(inner::Text line) {
        return inner::text_of([&](auto... out) { return legumeyet_book_answer(&handle, line.bytes(), line.size(), out...); });
    }
    // The tag of the locale whose symbols the book has for a tag: of the world's book `de` for `de-XX`, and `de-AT` for `de-AT`.
    Result<std::string> try_found_locale(inner::Text tag) {
        return inner::text_of([&](auto... out) { return legumeyet_book_found_locale(&handle, tag.bytes(), tag.size(), out...); });
    }
    // The tags of the locales that the book has symbols of, in its order; world_locales lists those of the world's book.
    Result<std::vector<std::string>> try_locales() {
        std::vector<std::string> found;
        std::size_t count = 0;
        const auto code = static_cast<Code>(legumeyet_book_locale_count(&handle, &count));
        if (code != Code::Ok) return code;
        while (found.size() < count) {
            auto tag = inner::text_of([&](auto... out) { return legumeyet_book_locale(&handle, found.size(), out...); });
            if (!tag) return tag.error();
            found.push_back(*std::move(tag));
        }
        return found;
    }

#ifdef __cpp_exceptions
    explicit Book(inner::Text json) : Book(try_from_json(json).value()) {}
    static Book world() { return try_world().value(); }
    // Throws a std::system_error where the file cannot be read.
    static Book from_file(const std::string &path) {
        Result<Book> book = try_from_file(path);
        if (book.error() == Code::File) throw std::system_error(errno, std::generic_category(), path);
        return std::move(book).value();
    }
    void keep() { inner::expect_well(try_keep()); }
    std::string answer(inner::Text line) { return try_answer(line).value(); }
    std::string found_locale(inner::Text tag) { return try_found_locale(tag).value(); }
    std::vector<std::string> locales() { return try_locales().value(); }
#endif
};

namespace inner {

// The world's book, kept, which a process opens for answers, and once it has opened a few formatters of tags without a book. A forked child opens
// its own, since a thread that is not in it may have had the book's lock.
class World {
    Book book;
    std::mutex lock;
    const pid_t process = getpid();

    // How many formatters are opened of their tags alone, each in some hundredth of the time that the book takes.
    static constexpr unsigned FEW = 16;
    inline static std::atomic<World *> shared{nullptr};
    inline static std::atomic<unsigned> alone{0};

    static bool is_mine(const World *found) noexcept { return found != nullptr && found->process == getpid(); }
    static Result<World *> of_process() {
        World *found = shared.load();
        if (is_mine(found)) return found;
        Result<Book> opened = Book::try_world();
        if (!opened) return opened.error();
        auto made = std::make_unique<World>(*std::move(opened));
        while (!is_mine(found))
            if (shared.compare_exchange_weak(found, made.get())) return made.release();
        return found;
    }

  public:
    explicit World(Book opened) noexcept : book(std::move(opened)) {}
    // Calls with the book, one call at a time.
    template <class Call> static auto with(Call call) -> decltype(call(std::declval<Book &>())) {
        const Result<World *> world = of_process();
        if (!world) return world.error();
        const std::lock_guard<std::mutex> held((*world)->lock);
        const Code code = (*world)->book.try_keep();
        if (code != Code::Ok) return code;
        return call((*world)->book);
    }
    // Calls with no book for the first formatters, while the process has none, and else with it.
    template <class Call> static auto opening(Call call) -> decltype(call(static_cast<Book *>(nullptr))) {
        if (!is_mine(shared.load()) && alone.fetch_add(1) < FEW) return call(static_cast<Book *>(nullptr));
        return with([&](Book &world) { return call(&world); });
    }
};

} // namespace inner

// The answers to many request lines, by the formatters that were used last, as many as the capacity is. They may outlive their book.
class Answers : inner::Owned<legumeyet_answers, legumeyet_answers_close> {
    struct Unopened {};
    explicit Answers(Unopened) noexcept {}

  public:
    static constexpr std::size_t CAPACITY = 512;
    // By the world's book, which the process opens once and keeps. Code::Option of a capacity of 0.
    static Result<Answers> try_open(std::size_t capacity = CAPACITY) { return inner::World::with([&](Book &book) { return try_open(book, capacity); }); }
    // By a book that is kept: Code::Unkept of another.
    static Result<Answers> try_open(Book &book, std::size_t capacity = CAPACITY) noexcept {
        Answers found{Unopened()};
        return inner::opened_by(found, found.handle, [&](legumeyet_answers *it) { return legumeyet_answers_open(&book.handle, capacity, it); });
    }
    // The answers to the lines, in order, as Book::answer has them, each with a line feed. A last line without one is answered too.
    Result<std::string> try_answer(inner::Text given) {
        std::string_view lines = given;
        std::string whole, text(lines.size() + inner::NEAR, ' ');
        if (!lines.empty() && lines.back() != '\n') lines = whole.append(lines).append(1, '\n');
        for (std::size_t used = 0;;) {
            std::size_t read = 0, written = 0, needs = 0;
            const auto code = static_cast<Code>(legumeyet_answers_answer(
                &handle, inner::bytes(lines), lines.size(), inner::bytes(&text[used]), text.size() - used, &read, &written, &needs));
            lines.remove_prefix(read);
            used += written;
            if (code != Code::Ok && code != Code::TooSmall) return code;
            text.resize(code == Code::Ok ? used : text.size() + std::max(text.size(), needs));
            if (code == Code::Ok) return text;
        }
    }

#ifdef __cpp_exceptions
    explicit Answers(std::size_t capacity = CAPACITY) : Answers(try_open(capacity).value()) {}
    explicit Answers(Book &book, std::size_t capacity = CAPACITY) : Answers(try_open(book, capacity).value()) {}
    std::string answer(inner::Text lines) { return try_answer(lines).value(); }
#endif
};

// The formatter of a format, or of a skeleton, for a locale tag. It may outlive its book. One for which no book is given is of the world's: of the
// first ones of a process only what the tag asks for is read, and then the process opens the book once and keeps it.
class NumberFormatter : public inner::Formatter<inner::Owned<legumeyet_formatter, legumeyet_formatter_close>> {
    friend class SharedNumberFormatter;

  protected:
    using Text = inner::Text;
    struct Closed { explicit Closed() = default; };
    // A formatter of any class, of a book, or where there is none of a tag alone.
    template <class Self> static Result<Self> opened(Book *book, Text tag, const Format &format, Options options = OWN) noexcept {
        const auto words = static_cast<legumeyet_format>(format);
        Self found{Closed()};
        found.own = options;
        return inner::opened_by(found, found.handle, [&](legumeyet_formatter *it) {
            const auto open = [&](auto call, auto... by) {
                return call(by..., tag.bytes(), tag.size(), LEGUMEYET_WORDS(words), inner::bytes(format.currency), format.currency.size(), it);
            };
            return book == nullptr ? open(legumeyet_formatter_open_world) : open(legumeyet_formatter_open, &book->handle);
        });
    }
    static Result<NumberFormatter> opened_by_skeleton(Book *book, Text tag, Text skeleton, std::size_t *place) noexcept {
        NumberFormatter found{Closed()};
        std::size_t at = 0, *const fault = place != nullptr ? place : &at;
        return inner::opened_by(found, found.handle, [&](legumeyet_formatter *it) {
            const auto open = [&](auto call, auto... by) { return call(by..., tag.bytes(), tag.size(), skeleton.bytes(), skeleton.size(), fault, it); };
            return book == nullptr ? open(legumeyet_formatter_open_world_skeleton) : open(legumeyet_formatter_open_skeleton, &book->handle);
        });
    }

  public:
    explicit NumberFormatter(Closed) noexcept {}
    // Of a format, and with options of its own, which its calls look at. Code::Table of compact or scientific numbers with a unit.
    static Result<NumberFormatter> try_open(Book &book, Text tag, const Format &format, Options options = OWN) noexcept {
        return opened<NumberFormatter>(&book, tag, format, options);
    }
    static Result<NumberFormatter> try_open(Text tag, const Format &format, Options options = OWN) {
        return inner::World::opening([&](Book *book) { return opened<NumberFormatter>(book, tag, format, options); });
    }
    // Of a skeleton, the text by which ICU asks for a format: docs/skeletons.md of the repository. `place` is as of try_normal_skeleton.
    static Result<NumberFormatter> try_skeleton(Book &book, Text tag, Text skeleton, std::size_t *place = nullptr) noexcept {
        return opened_by_skeleton(&book, tag, skeleton, place);
    }
    static Result<NumberFormatter> try_skeleton(Text tag, Text skeleton, std::size_t *place = nullptr) {
        return inner::World::opening([&](Book *book) { return opened_by_skeleton(book, tag, skeleton, place); });
    }

#ifdef __cpp_exceptions
    explicit NumberFormatter(Text tag, const Format &format = {}, Options options = OWN) : NumberFormatter(try_open(tag, format, options), tag, format.currency) {}
    NumberFormatter(Book &book, Text tag, const Format &format = {}, Options options = OWN)
        : NumberFormatter(try_open(book, tag, format, options), tag, format.currency) {}
    // Throws a SkeletonError where the text is no skeleton.
    static NumberFormatter skeleton(Text tag, Text skeleton) {
        std::size_t place = 0;
        return {try_skeleton(tag, skeleton, &place), tag, skeleton, place};
    }
    static NumberFormatter skeleton(Book &book, Text tag, Text skeleton) {
        std::size_t place = 0;
        return {try_skeleton(book, tag, skeleton, &place), tag, skeleton, place};
    }

  private:
    NumberFormatter(Result<NumberFormatter> opened, Text tag, Text given, const std::size_t &place = 0) {
        inner::expect_opened(opened.error(), tag, given, place);
        *this = *std::move(opened);
    }
#endif
};

namespace inner {

// A formatter of one kind, of the format that Kind::format_of makes of the choices after the tag.
template <class Kind> class Face : public NumberFormatter {
  public:
    explicit Face(Closed closed) noexcept : NumberFormatter(closed) {}

    template <class... Choices> static Result<Kind> try_open(Book &book, Text tag, const Choices &...choices) noexcept {
        return opened<Kind>(&book, tag, Kind::format_of(choices...));
    }
    template <class... Choices> static Result<Kind> try_open(Text tag, const Choices &...choices) {
        return World::opening([&](Book *book) { return opened<Kind>(book, tag, Kind::format_of(choices...)); });
    }
#ifdef __cpp_exceptions
    template <class K = Kind, class = decltype(K::format_of())> explicit Face(Text tag) : NumberFormatter(tag, K::format_of()) {}
    template <class T, class... More, class K = Kind, class = decltype(K::format_of(std::declval<const T &>(), std::declval<const More &>()...))>
    Face(Text tag, const T &choice, const More &...more) : NumberFormatter(tag, K::format_of(choice, more...)) {}
    template <class... Choices, class K = Kind, class = decltype(K::format_of(std::declval<const Choices &>()...))>
    Face(Book &book, Text tag, const Choices &...choices) : NumberFormatter(book, tag, K::format_of(choices...)) {}
#endif
};

} // namespace inner

// The formatter of plain numbers for a locale tag: DecimalFormatter("de", Grouping::Never).
class DecimalFormatter : public inner::Face<DecimalFormatter> {
  public:
    using Face::Face;
    static constexpr Format format_of(Grouping grouping = Grouping::Auto) noexcept { return {{}, {}, {}, {}, {}, {}, grouping}; }
};

// The formatter of compact numbers for a locale tag: CompactDecimalFormatter("de", Width::Long).
class CompactDecimalFormatter : public inner::Face<CompactDecimalFormatter> {
  public:
    using Face::Face;
    static constexpr Format format_of(Width width = Width::Short, Grouping grouping = Grouping::Min2) noexcept {
        return {Notation::Compact, width, {}, {}, {}, {}, grouping};
    }
};

// The formatter of percents for a locale tag: PercentFormatter("de"). A percent is written as it is given: 12.5 as `12.5%`.
class PercentFormatter : public inner::Face<PercentFormatter> {
  public:
    using Face::Face;
    static constexpr Format format_of(Grouping grouping = Grouping::Auto) noexcept { return {{}, {}, Unit::Percent, {}, {}, {}, grouping}; }
};

// The formatter of amounts of money for a locale tag and the code of a currency: CurrencyFormatter("de", "EUR", CurrencyStyle::Accounting).
// An amount has the digits of its currency, with Rounding::Cash those in cash, and with Rounding::None those that are given.
class CurrencyFormatter : public inner::Face<CurrencyFormatter> {
  public:
    using Face::Face;
    static Format format_of(Text currency, CurrencyStyle style = CurrencyStyle::Standard, CurrencyWidth width = CurrencyWidth::Symbol,
                            Grouping grouping = Grouping::Auto) noexcept { return {{}, {}, Unit::Currency, currency, style, width, grouping}; }
};

// The plural rules of a locale tag: the category of a number as it is shown, by the options, and in another format too: PluralCategory::Many of
// PluralRules("fr", Plurals::Cardinal, CompactDecimalFormatter::format_of()).select(1200000), and Two of PluralRules("en", Plurals::Ordinal).select(2).
class PluralRules : public inner::Face<PluralRules> {
    using Digits = inner::Digits;

    static Result<PluralCategory> category_of(const Result<std::string> &word) noexcept {
        if (!word) return word.error();
        return static_cast<PluralCategory>(std::find(inner::CATEGORIES, inner::CATEGORIES + 5, *word) - inner::CATEGORIES);
    }

  public:
    using Face::Face;
    static Format format_of(Plurals type = Plurals::Cardinal, Format format = {}) noexcept { return format.plurals = type, format; }
    // The category of a number, of the range from one to another, and those that numbers may have, in their order.
    Result<PluralCategory> try_select(Number number, Options options = OWN) { return category_of(try_format(number, options)); }
    Result<PluralCategory> try_select_range(const Digits &start, const Digits &end, Options options = OWN) {
        return category_of(try_format_range(start, end, options));
    }
    Result<std::vector<PluralCategory>> try_categories() {
        const Result<std::string> words = try_tell(Fact::Categories);
        if (!words) return words.error();
        std::vector<PluralCategory> found;
        for (auto it : {PluralCategory::Zero, PluralCategory::One, PluralCategory::Two, PluralCategory::Few, PluralCategory::Many, PluralCategory::Other})
            if (words->find(name(it)) != std::string::npos) found.push_back(it);
        return found;
    }

#ifdef __cpp_exceptions
    PluralCategory select(Number number, Options options = OWN) { return try_select(number, options).value(); }
    PluralCategory select_range(const Digits &start, const Digits &end, Options options = OWN) { return try_select_range(start, end, options).value(); }
    std::vector<PluralCategory> categories() { return try_categories().value(); }
#endif
};

// A formatter for any number of threads at once. It is copied as a pointer is, and what it writes with stays for the rest of the program. A call
// on one that was made of a formatter that was moved from returns Code::Closed. Each call is that of NumberFormatter, as const.
class SharedNumberFormatter : inner::Formatter<inner::Kept> {
    using Calling = inner::Formatter<inner::Kept>;
    using Digits = inner::Digits;
    using Numbers = inner::Numbers;
    using Text = inner::Text;
    // The functions of legumeyet.h take the handle as const, so no call writes to it.
    Calling &by() const noexcept { return const_cast<SharedNumberFormatter &>(*this); }

  public:
    explicit SharedNumberFormatter(NumberFormatter &&formatter) noexcept {
        own = formatter.own;
        legumeyet_formatter_share(&formatter.handle, &handle);
    }

    FormatToResult<char *> format_to(char *first, std::size_t room, Number number, Options options = OWN) const noexcept {
        return by().format_to(first, room, number, options);
    }
    template <class Out, inner::If<!std::is_pointer_v<Out>> = 0> FormatToResult<Out> format_to(Out out, Number number, Options options = OWN) const {
        return by().format_to(std::move(out), number, options);
    }
    Formatted<Calling> operator()(Number number LEGUMEYET_BORROWS, Options options = OWN) const &noexcept LEGUMEYET_BORROWS { return by()(number, options); }
    Result<std::string> try_format(Number number, Options options = OWN) const { return by().try_format(number, options); }
    [[nodiscard]] Code format_all_to(Column &into, const Numbers &numbers, Options options = OWN) const { return by().format_all_to(into, numbers, options); }
    template <class A, class B, inner::Many<A, B> = 0>
    [[nodiscard]] Code format_all_to(Column &into, A &&numbers, B how, Options options = OWN) const { return by().format_all_to(into, numbers, how, options); }
    template <class C> [[nodiscard]] Code format_all_to(Column &into, const int64_t *numbers, C count, Exponent power, Options options = OWN) const {
        return by().format_all_to(into, numbers, count, power, options);
    }
    Result<Column> try_format_all(const Numbers &numbers, Options options = OWN) const { return by().try_format_all(numbers, options); }
    template <class A, class B, inner::Many<A, B> = 0> Result<Column> try_format_all(A &&numbers, B how, Options options = OWN) const {
        return by().try_format_all(numbers, how, options);
    }
    template <class C> Result<Column> try_format_all(const int64_t *numbers, C count, Exponent power, Options options = OWN) const {
        return by().try_format_all(numbers, count, power, options);
    }
    Result<Annotated> try_format_parts(const Digits &number, Options options = OWN) const { return by().try_format_parts(number, options); }
    Result<std::string> try_shown(const Digits &number, Options options = OWN) const { return by().try_shown(number, options); }
    Result<std::string> try_format_exact(Text number, Options options = OWN) const { return by().try_format_exact(number, options); }
    Result<std::string> try_format_range(const Digits &start, const Digits &end, Options options = OWN) const { return by().try_format_range(start, end, options); }
    Result<std::string> try_tell(Fact fact) const { return by().try_tell(fact); }
    Result<std::string> try_read(Text text) const { return by().try_read(text); }
    Result<std::string> try_read_lenient(Text text) const { return by().try_read_lenient(text); }

#ifdef __cpp_exceptions
    std::string format(Number number, Options options = OWN) const { return by().format(number, options); }
    template <class T, class E, inner::If<inner::is_number<T> && inner::is_number<E>> = 0>
    std::string format(T mantissa, E exponent, Options options = OWN) const { return by().format(mantissa, exponent, options); }
    Column format_all(const Numbers &numbers, Options options = OWN) const { return by().format_all(numbers, options); }
    template <class A, class B, inner::Many<A, B> = 0> Column format_all(A &&numbers, B how, Options options = OWN) const {
        return by().format_all(numbers, how, options);
    }
    template <class C> Column format_all(const int64_t *numbers, C count, Exponent power, Options options = OWN) const {
        return by().format_all(numbers, count, power, options);
    }
    Annotated format_parts(const Digits &number, Options options = OWN) const { return by().format_parts(number, options); }
    std::string shown(const Digits &number, Options options = OWN) const { return by().shown(number, options); }
    std::string format_exact(Text number, Options options = OWN) const { return by().format_exact(number, options); }
    std::string format_range(const Digits &start, const Digits &end, Options options = OWN) const { return by().format_range(start, end, options); }
    std::string tell(Fact fact) const { return by().tell(fact); }
    std::string read(Text text) const { return by().read(text); }
    std::string read_lenient(Text text) const { return by().read_lenient(text); }
#endif
};

using SharedDecimalFormatter = SharedNumberFormatter;
using SharedCompactDecimalFormatter = SharedNumberFormatter;
using SharedUnitFormatter = SharedNumberFormatter;

} // namespace legumeyet

#if defined(__cpp_lib_format) && defined(__cpp_exceptions)
// The text of a number, with the width, fill and precision that a std::string_view takes. Throws a legumeyet::Error.
template <class Formatter> struct std::formatter<legumeyet::Formatted<Formatter>, char> : std::formatter<std::string_view, char> {
    template <class Context> auto format(const legumeyet::Formatted<Formatter> &it, Context &context) const {
        std::formatter<std::string_view, char> writer = *this;
        auto out = context.out();
        const auto write = [&](std::string_view text) { out = writer.format(text, context); };
        legumeyet::inner::expect_well(it.with_text(write));
        return out;
    }
};
#endif

#pragma pop_macro("None")
#pragma pop_macro("Always")

#endif
