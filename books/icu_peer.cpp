// Answers request lines by ICU4C's number formatter: forms plain, short, long, percent and permille, and of a currency
// currency-EUR, code-EUR and accounting-EUR; rounding `-`, and of a currency `cash` too; each as `ok`, a tab
// and the text. So too a number skeleton behind two colons, as `::percent`, with grouping auto, sign keep and
// rounding `-`; the form skeleton takes one for a text, and answers its normal text, or `err` and the place of its
// fault. The form read takes a text and answers the decimal number that ICU4C's strict
// parser finds in the whole of it. Any other line is `err`, a tab and a word. A formatter is kept for each
// locale, form, grouping, sign and rounding, up to a thousand, and a parser for each locale.
#include <unicode/fmtable.h>
#include <unicode/numberformatter.h>
#include <unicode/numfmt.h>
#include <unicode/parsepos.h>
#include <unicode/unistr.h>

#include <iostream>
#include <memory>
#include <string>
#include <string_view>
#include <unordered_map>
#include <vector>

using icu::number::LocalizedNumberFormatter;

static std::vector<std::string_view> fields(std::string_view line) {
    std::vector<std::string_view> found;
    for (size_t start = 0;;) {
        const size_t tab = line.find('\t', start);
        found.push_back(line.substr(start, tab - start));
        if (tab == std::string_view::npos) return found;
        start = tab + 1;
    }
}

// A sign as it is shown in accounting.
static UNumberSignDisplay in_accounting(UNumberSignDisplay sign) {
    switch (sign) {
    case UNUM_SIGN_AUTO: return UNUM_SIGN_ACCOUNTING;
    case UNUM_SIGN_ALWAYS: return UNUM_SIGN_ACCOUNTING_ALWAYS;
    case UNUM_SIGN_EXCEPT_ZERO: return UNUM_SIGN_ACCOUNTING_EXCEPT_ZERO;
    case UNUM_SIGN_NEGATIVE: return UNUM_SIGN_ACCOUNTING_NEGATIVE;
    default: return sign;
    }
}

// A formatter for percents, for permilles or for a currency; false where form and rounding are none of theirs.
static bool make_of_unit(const std::vector<std::string_view>& field, UNumberSignDisplay sign, LocalizedNumberFormatter& made) {
    const bool cash = field[4] == "cash";
    if (!cash && field[4] != "-") return false;
    if (field[1] == "percent" || field[1] == "permille") {
        made = made.unit(field[1] == "percent" ? icu::NoUnit::percent() : icu::NoUnit::permille()).precision(icu::number::Precision::unlimited());
        return !cash;
    }
    const size_t dash = field[1].find('-');
    const std::string_view style = field[1].substr(0, dash);
    if (dash == std::string_view::npos || (style != "currency" && style != "code" && style != "accounting")) return false;
    const std::string_view name = field[1].substr(dash + 1);
    UErrorCode code = U_ZERO_ERROR;
    const icu::CurrencyUnit unit(icu::StringPiece(name.data(), int32_t(name.size())), code);
    made = made.unit(unit).precision(icu::number::Precision::currency(cash ? UCURR_USAGE_CASH : UCURR_USAGE_STANDARD));
    if (style == "code") made = made.unitWidth(UNUM_UNIT_WIDTH_ISO_CODE);
    if (style == "accounting") made = made.sign(in_accounting(sign));
    return U_SUCCESS(code);
}

static icu::UnicodeString unicode(std::string_view text) {
    return icu::UnicodeString::fromUTF8({text.data(), int32_t(text.size())});
}

// A formatter for a number skeleton; false where it has a fault.
static bool make_of_skeleton(const std::vector<std::string_view>& field, const icu::Locale& locale, LocalizedNumberFormatter& made) {
    if (field[2] != "auto" || field[3] != "keep" || field[4] != "-") return false;
    UErrorCode code = U_ZERO_ERROR;
    made = icu::number::NumberFormatter::forSkeleton(unicode(field[1].substr(2)), code).locale(locale);
    return U_SUCCESS(code);
}

// Writes the normal text of a skeleton, or the place of its fault, which is -1 where ICU4C says none.
static bool write_normal(std::string_view skeleton, std::string& text) {
    UErrorCode code = U_ZERO_ERROR;
    UParseError fault;
    fault.offset = -1;
    const auto made = icu::number::NumberFormatter::forSkeleton(unicode(skeleton), fault, code);
    const icu::UnicodeString normal = made.toSkeleton(code);
    text.clear();
    if (U_SUCCESS(code)) normal.toUTF8String(text);
    else text = std::to_string(fault.offset);
    return U_SUCCESS(code);
}

// A formatter for the first five fields; false where one of them is not known.
static bool make(const std::vector<std::string_view>& field, LocalizedNumberFormatter& made) {
    static const std::unordered_map<std::string_view, UNumberGroupingStrategy> groupings = {
        {"auto", UNUM_GROUPING_AUTO},
        {"never", UNUM_GROUPING_OFF},
        {"always", UNUM_GROUPING_ON_ALIGNED},
        {"min2", UNUM_GROUPING_MIN2}};
    static const std::unordered_map<std::string_view, UNumberSignDisplay> signs = {
        {"keep", UNUM_SIGN_AUTO},
        {"auto", UNUM_SIGN_AUTO},
        {"always", UNUM_SIGN_ALWAYS},
        {"never", UNUM_SIGN_NEVER},
        {"except-zero", UNUM_SIGN_EXCEPT_ZERO},
        {"negative", UNUM_SIGN_NEGATIVE}};
    const auto grouping = groupings.find(field[2]);
    const auto sign = signs.find(field[3]);
    if (grouping == groupings.end() || sign == signs.end()) return false;
    UErrorCode code = U_ZERO_ERROR;
    const icu::Locale locale = icu::Locale::forLanguageTag({field[0].data(), int32_t(field[0].size())}, code);
    if (field[1].substr(0, 2) == "::") return U_SUCCESS(code) && make_of_skeleton(field, locale, made);
    const auto base = icu::number::NumberFormatter::withLocale(locale).grouping(grouping->second).sign(sign->second);
    if (field[1] == "percent" || field[1] == "permille" || field[1].find('-') != std::string_view::npos) {
        made = base;
        return U_SUCCESS(code) && make_of_unit(field, sign->second, made);
    }
    if (field[4] != "-") return false;
    if (field[1] == "plain") made = base.precision(icu::number::Precision::unlimited());
    else if (field[1] == "short") made = base.notation(icu::number::Notation::compactShort());
    else if (field[1] == "long") made = base.notation(icu::number::Notation::compactLong());
    else return false;
    return U_SUCCESS(code);
}

// The number that the whole text spells in the locale, as ICU4C reads it strictly or leniently, or nothing.
static bool read(std::string_view tag, std::string_view text, bool is_lenient, std::string& number) {
    static std::unordered_map<std::string, std::unique_ptr<icu::NumberFormat>> kept[2];
    UErrorCode code = U_ZERO_ERROR;
    auto& parser = kept[is_lenient][std::string(tag)];
    if (parser == nullptr) {
        parser.reset(icu::NumberFormat::createInstance(icu::Locale::forLanguageTag({tag.data(), int32_t(tag.size())}, code), code));
        if (U_FAILURE(code)) return false;
        parser->setLenient(is_lenient);
    }
    const icu::UnicodeString given = unicode(text);
    icu::ParsePosition end;
    icu::Formattable found;
    parser->parse(given, found, end);
    if (end.getErrorIndex() >= 0 || end.getIndex() != given.length()) return false;
    const icu::StringPiece decimal = found.getDecimalNumber(code);
    if (U_FAILURE(code)) return false;
    number.assign(decimal.data(), decimal.size());
    return true;
}

int main() {
    // A locale that ICU does not have is answered as root is, and not as the locale of this machine.
    UErrorCode code = U_ZERO_ERROR;
    icu::Locale::setDefault(icu::Locale::getRoot(), code);
    if (U_FAILURE(code)) return 1;
    std::ios::sync_with_stdio(false);
    std::cin.tie(nullptr);
    std::unordered_map<std::string, LocalizedNumberFormatter> kept;
    std::string line, text, answers;
    while (std::getline(std::cin, line)) {
        const auto field = fields(line);
        const LocalizedNumberFormatter* formatter = nullptr;
        const bool is_lenient = field.size() == 6 && field[1] == "read-lenient";
        const bool is_read = is_lenient || (field.size() == 6 && field[1] == "read");
        const bool is_skeleton = field.size() == 6 && field[1] == "skeleton";
        if (field.size() == 6 && !is_read && !is_skeleton) {
            const std::string key = line.substr(0, field[5].data() - line.data());
            auto found = kept.find(key);
            if (LocalizedNumberFormatter made; found == kept.end() && make(field, made)) {
                if (kept.size() > 1000) kept.clear();
                found = kept.emplace(key, std::move(made)).first;
            }
            if (found != kept.end()) formatter = &found->second;
        }
        if (is_read) {
            if (read(field[0], field[5], is_lenient, text)) answers.append("ok\t").append(text).push_back('\n');
            else answers += "err\tnot-written\n";
        } else if (is_skeleton) {
            answers += write_normal(field[5], text) ? "ok\t" : "err\t";
            answers.append(text).push_back('\n');
        } else if (formatter == nullptr) {
            answers += "err\tshape\n";
        } else {
            UErrorCode code = U_ZERO_ERROR;
            const auto formatted = formatter->formatDecimal({field[5].data(), int32_t(field[5].size())}, code);
            text.clear();
            formatted.toTempString(code).toUTF8String(text);
            if (U_SUCCESS(code)) answers.append("ok\t").append(text).push_back('\n');
            else answers += "err\tnumber\n";
        }
        if (answers.size() > 65536) {
            std::cout.write(answers.data(), answers.size());
            answers.clear();
        }
    }
    std::cout.write(answers.data(), answers.size());
}
