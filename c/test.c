/*
 * Calls each function of legumeyet.h well and badly, but for the columns and the world's book, and prints what it answers otherwise than it
 * should. The status is 1 where something does.
 *
 * usage: test [shared]
 *
 * With the word all of it is done again by shared formatters, and by those of a kept book. What these have is never given back, so no tool
 * may look for lost memory then.
 */
#include "calls.h"
#include <math.h>
#include <stdlib.h>

#define WELL LEGUMEYET_OK

enum { MANY = 40000 };

/* A book for each of its errors; the first is of bytes that are no text. */
static const struct {
    int32_t error;
    const char *json;
} REFUSED[] = {
    {LEGUMEYET_BOOK_JSON, "[\"\xff\"]"},
    {LEGUMEYET_BOOK_JSON, "[1"},
    {LEGUMEYET_BOOK_JSON, ""},
    {LEGUMEYET_BOOK_SHAPE, "[]"},
    {LEGUMEYET_BOOK_TAG, "[[],[],[[\"e\",[]]],[],[]]"},
    {LEGUMEYET_BOOK_SYSTEM, "[[],[[\"LATN\",\"0123456789\"]],[],[],[]]"},
    {LEGUMEYET_BOOK_TEXT, "[[],[],[],[[\"en\",\"\",[[3,3,[[\"other\",[\"\\t\",\"K\"]]]]],null]],[]]"},
    {LEGUMEYET_BOOK_DIGITS, "[[],[[\"latn\",\"012345678\"]],[],[],[]]"},
    {LEGUMEYET_BOOK_CONDITION, "[[],[],[[\"en\",[[\"one\",\"i is 1\"]]]],[],[]]"},
    {LEGUMEYET_BOOK_TYPES, "[[],[],[],[[\"en\",\"\",[[6,6,[[\"other\",[\"\",\"M\"]]]],[3,3,[[\"other\",[\"\",\"K\"]]]]],null]],[]]"},
    {LEGUMEYET_BOOK_EXPONENTS, "[[],[],[],[],[[\"en\",\"\",[[3,3,[[\"other\",[\"\",\"K\"]]]],[6,2,[[\"other\",[\"\",\"M\"]]]]],null]]]"},
    {LEGUMEYET_BOOK_DUPLICATE, "[[],[],[[\"en\",[]],[\"EN\",[]]],[],[]]"},
    {LEGUMEYET_BOOK_CYCLE, "[[],[],[],[],[],[[\"en\",\"en\"]]]"},
    {LEGUMEYET_BOOK_UNIT, "[[[],[],[],[],[]],[[[\"en\",\"\",\"%\",null,[\"\",\"\"]]],[],[],[],[]]]"},
    {LEGUMEYET_BOOK_CODE, "[[[],[],[],[],[]],[[],[],[],[],[[\"eur\",2,1,2,1]]]]"},
};

/* A book with U+0000 and U+202F in its symbols. */
static const char WITH_NUL[] =
    "[[[\"en\",\"\",\"latn\",\"-\",\"\",\"+\",\"\",\"\\u0000\",\"\\u202f\",3,3,1]],[[\"latn\",\"0123456789\"]],[],[],[]]";

static legumeyet_book book, closed_book;
static legumeyet_formatter formatters[FORMATS], closed;
static legumeyet_shared_formatter shared[FORMATS], closed_shared;

/* Whom the calls are made by. */
static caller by[FORMATS];

static void books(void) {
    size_t row;
    for (row = 0; row < COUNT(REFUSED); row++) {
        expect(REFUSED[row].json, legumeyet_book_open(TEXT(REFUSED[row].json), &closed_book), REFUSED[row].error);
        expect("a refused book stays closed", legumeyet_book_close(&closed_book), LEGUMEYET_CLOSED);
    }
    expect("a book", legumeyet_book_open(TEXT(BOOK), &book), WELL);
    expect("over an open book", legumeyet_book_open(TEXT(BOOK), &book), WELL);
    expect("a refused one over it", legumeyet_book_open(TEXT("[]"), &book), LEGUMEYET_BOOK_SHAPE);
}

static void locales(void) {
    static const char *const TAGS[] = {"ar", "bad", "de-CH", "en", "tr"};
    size_t count = 77, at;
    expect("a closed book", legumeyet_book_locale_count(&closed_book, &count), LEGUMEYET_CLOSED);
    expect("the count", (int64_t)count, 77);
    expect_error("a closed book", legumeyet_book_locale(&closed_book, 9, out, ROOM, &length), LEGUMEYET_CLOSED);
    expect("the count", legumeyet_book_locale_count(&book, &count), WELL);
    expect("the count", (int64_t)count, COUNT(TAGS));
    for (at = 0; at < COUNT(TAGS); at++) expect_text("a locale", legumeyet_book_locale(&book, at, out, ROOM, &length), TAGS[at]);
    expect_error("no more", legumeyet_book_locale(&book, count, out, ROOM, &length), LEGUMEYET_OPTION);
    expect_error("no more", legumeyet_book_locale(&book, SIZE_MAX, out, ROOM, &length), LEGUMEYET_OPTION);
    expect_error("a closed book", legumeyet_book_found_locale(&closed_book, TEXT("e"), out, ROOM, &length), LEGUMEYET_CLOSED);
    expect_text("a locale found", legumeyet_book_found_locale(&book, TEXT("DE-ch-u-nu-thai"), out, ROOM, &length), "de-CH");
    expect_error("no tag", legumeyet_book_found_locale(&book, TEXT("e"), out, ROOM, &length), LEGUMEYET_TAG);
    expect_error("no tag", legumeyet_book_found_locale(&book, NOTHING, out, ROOM, &length), LEGUMEYET_TAG);
    expect_error("no UTF-8", legumeyet_book_found_locale(&book, TEXT("en-\xff"), out, ROOM, &length), LEGUMEYET_TAG);
    expect_error("no tables", legumeyet_book_found_locale(&book, TEXT("fr"), out, ROOM, &length), LEGUMEYET_TABLE);
}

/* Formats that are refused: the words before the code, that before the tag, and that before the tables. */
static const struct {
    int32_t error;
    asked it;
} NO_FORMATS[] = {
    {LEGUMEYET_TAG, {"e", {0}, "", NULL}},
    {LEGUMEYET_TAG, {"", {0}, "", NULL}},
    {LEGUMEYET_TAG, {"\xff\xfe", {0}, "", NULL}},
    {LEGUMEYET_TAG, {"e", {.notation = LEGUMEYET_NOTATION_COMPACT}, "", NULL}},
    {LEGUMEYET_TAG, {"e", {.notation = LEGUMEYET_NOTATION_SCIENTIFIC}, "", NULL}},
    {LEGUMEYET_TAG, {"e", {.unit = LEGUMEYET_UNIT_CURRENCY}, "EUR", NULL}},
    {LEGUMEYET_TABLE, {"xx", {0}, "", NULL}},
    {LEGUMEYET_TABLE, {"bad", {.notation = LEGUMEYET_NOTATION_COMPACT}, "", NULL}},
    {LEGUMEYET_TABLE, {"de-CH", {.unit = LEGUMEYET_UNIT_PERCENT}, "", NULL}},
    {LEGUMEYET_TABLE, {"tr", {.unit = LEGUMEYET_UNIT_CURRENCY}, "EUR", NULL}},
    {LEGUMEYET_TABLE, {"en", {.notation = LEGUMEYET_NOTATION_COMPACT, .unit = LEGUMEYET_UNIT_PERCENT}, "", NULL}},
    {LEGUMEYET_TABLE, {"en", {.notation = LEGUMEYET_NOTATION_COMPACT, .unit = LEGUMEYET_UNIT_CURRENCY}, "EUR", NULL}},
    {LEGUMEYET_TABLE, {"tr", {.notation = LEGUMEYET_NOTATION_SCIENTIFIC}, "", NULL}},
    {LEGUMEYET_TABLE, {"xx", {.notation = LEGUMEYET_NOTATION_ENGINEERING}, "", NULL}},
    {LEGUMEYET_TABLE, {"en", {.notation = LEGUMEYET_NOTATION_SCIENTIFIC, .unit = LEGUMEYET_UNIT_PERCENT}, "", NULL}},
    {LEGUMEYET_TABLE, {"en", {.notation = LEGUMEYET_NOTATION_ENGINEERING, .unit = LEGUMEYET_UNIT_CURRENCY}, "EUR", NULL}},
    {LEGUMEYET_CODE, {"e", {.unit = LEGUMEYET_UNIT_CURRENCY}, "eur", NULL}},
    {LEGUMEYET_CODE, {"e", {.unit = LEGUMEYET_UNIT_CURRENCY}, "EURO", NULL}},
    {LEGUMEYET_CODE, {"e", {.unit = LEGUMEYET_UNIT_CURRENCY}, "", NULL}},
    {LEGUMEYET_CODE, {"e", {0}, "EUR", NULL}},
    {LEGUMEYET_CODE, {"e", {.unit = LEGUMEYET_UNIT_PERCENT}, "EUR", NULL}},
    {LEGUMEYET_CODE, {"e", {.unit = LEGUMEYET_UNIT_PERMILLE}, "EUR", NULL}},
    {LEGUMEYET_CODE, {"e", {.notation = LEGUMEYET_NOTATION_COMPACT, .unit = LEGUMEYET_UNIT_CURRENCY}, "eur", NULL}},
    {LEGUMEYET_OPTION, {"e", {.notation = 4}, "EUR", NULL}},
    {LEGUMEYET_OPTION, {"e", {.notation = -1}, "", NULL}},
    {LEGUMEYET_OPTION, {"e", {.width = 2}, "", NULL}},
    {LEGUMEYET_OPTION, {"e", {.unit = 4}, "EUR", NULL}},
    {LEGUMEYET_OPTION, {"e", {.currency_style = 2}, "", NULL}},
    {LEGUMEYET_OPTION, {"e", {.unit = LEGUMEYET_UNIT_CURRENCY, .currency_style = 2}, "eur", NULL}},
    {LEGUMEYET_OPTION, {"e", {.currency_width = 2}, "", NULL}},
    {LEGUMEYET_OPTION, {"e", {.grouping = 5}, "", NULL}},
    {LEGUMEYET_OPTION, {"e", {.grouping = INT32_MIN}, "", NULL}},
    {LEGUMEYET_OPTION, {"e", {.plurals = 3}, "", NULL}},
    {LEGUMEYET_OPTION, {"e", {.unit = LEGUMEYET_UNIT_CURRENCY, .plurals = -1}, "eur", NULL}},
    {LEGUMEYET_TAG, {"e", {.plurals = LEGUMEYET_PLURALS_CARDINAL}, "", NULL}},
    {LEGUMEYET_TABLE, {"tr", {.plurals = LEGUMEYET_PLURALS_CARDINAL}, "", NULL}},
    {LEGUMEYET_TABLE, {"en", {.plurals = LEGUMEYET_PLURALS_ORDINAL}, "", NULL}},
};

static void opens(void) {
    static char long_tag[MANY];
    legumeyet_formatter it = {0};
    size_t row;
    memset(long_tag, 'a', sizeof long_tag);
    for (row = 0; row < COUNT(NO_FORMATS); row++) {
        expect("of a closed book", open_asked(&closed_book, &NO_FORMATS[row].it, &it), LEGUMEYET_CLOSED);
        expect("a refused format", open_asked(&book, &NO_FORMATS[row].it, &it), NO_FORMATS[row].error);
        expect("it stayed closed", legumeyet_formatter_close(&it), LEGUMEYET_CLOSED);
    }
    expect("a long tag", legumeyet_formatter_open(&book, (uint8_t *)long_tag, MANY, NOTHING, NOTHING, &it), LEGUMEYET_TAG);
    for (row = 0; row < FORMATS; row++) expect("a format", open_asked(&book, &ASKED[row], &it), WELL);
    for (row = 0; row < COUNT(NO_FORMATS); row++)
        expect("a refused one over it", open_asked(&book, &NO_FORMATS[row].it, &it), NO_FORMATS[row].error);
    expect("it stayed open", legumeyet_formatter_close(&it), WELL);
    expect("twice", legumeyet_formatter_close(&it), LEGUMEYET_CLOSED);
}

/* Words in a block of their own, so that a tool sees what is read behind them. */
static int32_t *block_of(const int32_t *words, size_t count) {
    int32_t *block = malloc(count == 0 ? 1 : count * sizeof *block);
    if (block == NULL) exit(1);
    memcpy(block, words, count * sizeof *block);
    return block;
}

/* Opens plain English by the first words, and writes with it by the first options. */
static int32_t by_words(const int32_t *format_words, size_t format_count, const int32_t *option_words, size_t option_count) {
    int32_t *format_block = block_of(format_words, format_count), *option_block = block_of(option_words, option_count);
    legumeyet_formatter it = {0};
    int32_t error = legumeyet_formatter_open(&book, TEXT("en"), (void *)format_block, format_count, NOTHING, &it);
    if (error == WELL) error = legumeyet_formatter_format(&it, TEXT("-1234.56"), (void *)option_block, option_count, out, ROOM, &length);
    legumeyet_formatter_close(&it);
    free(format_block);
    free(option_block);
    return error;
}

/* Fewer words than there are, as those of an older header, and more, which a newer one has. */
static void words(void) {
    static const int32_t PERCENTS[12] = {0, 0, LEGUMEYET_UNIT_PERCENT, 0, 0, LEGUMEYET_GROUPING_NEVER};
    static const int32_t ROUNDED[12] = {LEGUMEYET_SIGN_NEVER, LEGUMEYET_ROUND_HALF_EVEN, -1, 1, LEGUMEYET_TRAILING_ZEROS_TRIM, 6, 2, 3, 5,
                                        LEGUMEYET_PRIORITY_LESS_PRECISION};
    static const char *const TEXTS[] = {"-1,234.56%", "1,234.56%", "1,235%", "1,234.6%", "1,234.6%", "1,234.6%", "001,234.6%", "001,234.60%",
                                        "001,234.56%", "001,234.6%", "001,234.60%"};
    int32_t more[12];
    size_t count;
    for (count = 1; count < 6; count++)
        expect_text("words of a format", by_words(PERCENTS, count, ROUNDED, 0), count < 3 ? "-1,234.56" : "-1,234.56%");
    for (count = 6; count <= 12; count++) expect_text("more words", by_words(PERCENTS, count, ROUNDED, 0), "-1234.56%");
    for (count = 0; count <= 12; count++) expect_text("options", by_words(PERCENTS, 3, ROUNDED, count), TEXTS[count < 10 ? count : 10]);
    for (count = 7; count < 12; count++) {
        memcpy(more, PERCENTS, sizeof more);
        more[count] = count % 2 == 0 ? 1 : INT32_MIN;
        expect_error("a word that is not known", by_words(more, 12, ROUNDED, 0), LEGUMEYET_OPTION);
        expect_text("it is not among them", by_words(more, count, ROUNDED, 0), "-1234.56%");
    }
    for (count = 10; count < 12; count++) {
        memcpy(more, ROUNDED, sizeof more);
        more[count] = 1;
        expect_error("a word that is not known", by_words(PERCENTS, 3, more, 12), LEGUMEYET_OPTION);
        expect_text("it is not among them", by_words(PERCENTS, 3, more, count), TEXTS[10]);
    }
    expect("the words of a format", (int64_t)(sizeof(legumeyet_format) / sizeof(int32_t)), 7);
    expect("the words of options", (int64_t)(sizeof(legumeyet_options) / sizeof(int32_t)), 10);
}

/* What is made of a number, as the rows have it. */
#define AT(where, ...) {.rounding = LEGUMEYET_ROUND_HALF_EVEN, .position = (where), __VA_ARGS__}
#define SIGNED(which) {.sign = (which)}
#define ZEROS(which) {.trailing_zeros = LEGUMEYET_TRAILING_ZEROS_##which}
#define LEAST(integer, fraction) {.minimum_integer_digits = (integer), .minimum_fraction_digits = (fraction)}
#define ROUND(which) {.rounding = LEGUMEYET_ROUND_##which, .position = -1}
#define DIGITS(least, most, ...) {.minimum_significant_digits = (least), .maximum_significant_digits = (most), __VA_ARGS__}
#define MODE(which) .rounding = LEGUMEYET_ROUND_##which
/* Significant digits or a position: what shows more, or less. */
#define WHICH(which, where) .rounding_priority = LEGUMEYET_PRIORITY_##which##_PRECISION, MODE(HALF_EVEN), .position = (where)
#define TRIM(how) .trailing_zeros = LEGUMEYET_TRAILING_ZEROS_##how

/* Numbers that are given as text, with what is written, or why not. */
static const struct {
    int format;
    const char *number;
    legumeyet_options options;
    int32_t error;
    const char *text;
} WRITTEN[] = {
    {PLAIN, "-987654.321", {0}, WELL, "-987,654.321"},
    {PLAIN, "0e3", {0}, WELL, "0"},
    {PLAIN, "0e-2", {0}, WELL, "0"},
    {PLAIN, "1.5e3", {0}, WELL, "1,500"},
    {PLAIN, "9.65", AT(-1, .sign = LEGUMEYET_SIGN_ALWAYS), WELL, "+9.6"},
    {PLAIN, "+5", {0}, WELL, "+5"},
    {PLAIN, "+5", SIGNED(LEGUMEYET_SIGN_AUTO), WELL, "5"},
    {PLAIN, "-5", SIGNED(LEGUMEYET_SIGN_NEVER), WELL, "5"},
    {PLAIN, "0", SIGNED(LEGUMEYET_SIGN_EXCEPT_ZERO), WELL, "0"},
    {PLAIN, "-0", SIGNED(LEGUMEYET_SIGN_NEGATIVE), WELL, "0"},
    {SHORT, "-1172700", {0}, WELL, "-1.2M"},
    {SHORT, "999500", {0}, WELL, "1M"},
    {SHORT, "950", SIGNED(LEGUMEYET_SIGN_ALWAYS), WELL, "+950"},
    {SHORT, "12345678901", {0}, WELL, "12,346M"},
    {SHORT, "-1172700", AT(6, 0), WELL, "-1M"},
    {LONG, "1650", {0}, WELL, "1.6 thousand"},
    {HUNDREDTHS, "-1234", {0}, WELL, "-1.23K"},
    {HUNDREDTHS, "999999", {0}, WELL, "1.00M"},
    {HUNDREDTHS, "1234", AT(2, 0), WELL, "1.20K"},
    {HUNDREDTHS, "+5", SIGNED(LEGUMEYET_SIGN_ALWAYS), WELL, "5.00"},
    /* scientific numbers: what is made of their significand, and it is divided again where that reached the next exponent */
    {SCIENTIFIC, "1234567.891", {0}, WELL, "1.234567891E6"},
    {SCIENTIFIC, "-0.00012", {0}, WELL, "-1.2E-4"},
    {SCIENTIFIC, "0.00", {0}, WELL, "0E0"},
    {SCIENTIFIC, "+005.0", {0}, WELL, "+5E0"},
    {SCIENTIFIC, "1e32767", {0}, WELL, "1E32767"},
    {SCIENTIFIC, "5", SIGNED(LEGUMEYET_SIGN_ALWAYS), WELL, "+5E0"},
    {SCIENTIFIC, "1234567.891", AT(-2, 0), WELL, "1.23E6"},
    {SCIENTIFIC, "1234567.891", AT(-2, .increment = 25), WELL, "1.25E6"},
    {SCIENTIFIC, "999999", AT(-2, 0), WELL, "1.00E6"},
    {SCIENTIFIC, "999999", AT(-2, TRIM(TRIM)), WELL, "1E6"},
    {SCIENTIFIC, "1200000", LEAST(2, 3), WELL, "01.200E6"},
    {SCIENTIFIC, "1234567", DIGITS(0, 3, 0), WELL, "1.23E6"},
    {SCIENTIFIC, "12", DIGITS(3, 3, 0), WELL, "1.20E1"},
    {SCIENTIFIC, "1650", ROUND(CASH), WELL, "1.65E3"},
    {ENGINEERING, "0.00012", {0}, WELL, "120E-6"},
    {ENGINEERING, "1234567.891", {0}, WELL, "1.234567891E6"},
    {ENGINEERING, "999999", AT(0, 0), WELL, "1E6"},
    {ENGINEERING, "12345", DIGITS(0, 3, 0), WELL, "12.3E3"},
    {TWO_DIGITS, "1200000", {0}, WELL, "1.2E06"},
    {TWO_DIGITS, "1234567.891", {0}, WELL, "1.234567891E06"},
    {TWO_DIGITS, "1e100", AT(-1, 0), WELL, "1.0E100"},
    {ARABIC_POWERS, "0.00012", {0}, WELL, ARABIC_POWER},
    {PERCENT, "-12.50", {0}, WELL, "-12.50%"},
    {EUROS, "-1234.5", {0}, WELL, "-" EURO "1,234.50"},
    {EUROS, "0.125", {0}, WELL, EURO "0.12"},
    {EUROS, "-0.001", {0}, WELL, "-" EURO "0.00"},
    {EUROS, "-0.001", SIGNED(LEGUMEYET_SIGN_NEGATIVE), WELL, EURO "0.00"},
    {ACCOUNTS, "-5", {0}, WELL, "(" EURO "5.00)"},
    {FRANCS, "-5", {0}, WELL, "CHF-5.00"},
    {FRANCS, "2.345", {0}, WELL, "CHF" SPACE "2.34"},
    {ARABIC, "1234.5", {0}, WELL, ARABIC_NUMBER},
    /* roundings: that of cash, and none, round nothing where there is no currency */
    {PLAIN, "9.65", ROUND(USUAL), WELL, "9.65"},
    {PLAIN, "9.65", ROUND(EXPAND), WELL, "9.7"},
    {PLAIN, "9.65", ROUND(TRUNC), WELL, "9.6"},
    {PLAIN, "-9.65", ROUND(CEIL), WELL, "-9.6"},
    {PLAIN, "-9.65", ROUND(FLOOR), WELL, "-9.7"},
    {PLAIN, "9.65", ROUND(HALF_EXPAND), WELL, "9.7"},
    {PLAIN, "9.65", ROUND(HALF_TRUNC), WELL, "9.6"},
    {PLAIN, "-9.65", ROUND(HALF_CEIL), WELL, "-9.6"},
    {PLAIN, "-9.65", ROUND(HALF_FLOOR), WELL, "-9.7"},
    {PLAIN, "9.65", ROUND(HALF_EVEN), WELL, "9.6"},
    {PLAIN, "9.65", ROUND(CASH), WELL, "9.65"},
    {PLAIN, "9.65", ROUND(NONE), WELL, "9.65"},
    {SHORT, "1650", ROUND(CASH), WELL, "1.6K"},
    {PERCENT, "12.55", ROUND(CASH), WELL, "12.55%"},
    {PERCENT, "12.55", ROUND(NONE), WELL, "12.55%"},
    {PERCENT, "12.55", ROUND(HALF_EVEN), WELL, "12.6%"},
    {EUROS, "5", ROUND(NONE), WELL, EURO "5"},
    {EUROS, "5.06", ROUND(EXPAND), WELL, EURO "5.1"},
    {FRANCS, "2.345", ROUND(CASH), WELL, "CHF" SPACE "2.35"},
    {PLAIN, "1", {.rounding = 12}, LEGUMEYET_OPTION, NULL},
    {EUROS, "x", {.rounding = -1}, LEGUMEYET_OPTION, NULL},
    {PLAIN, "1", {.position = 32768}, LEGUMEYET_OPTION, NULL},
    {PLAIN, "1", {.position = -32769}, LEGUMEYET_OPTION, NULL},
    {PLAIN, "1", {.sign = 6}, LEGUMEYET_OPTION, NULL},
    {SHORT, "x", {.sign = -1}, LEGUMEYET_OPTION, NULL},
    /* increments */
    {PLAIN, "1.235", AT(-2, .increment = 0), WELL, "1.24"},
    {PLAIN, "1.235", AT(-2, .increment = 1), WELL, "1.24"},
    {PLAIN, "1.23", AT(-2, .increment = 2), WELL, "1.24"},
    {PLAIN, "1.23", AT(-2, .increment = 5), WELL, "1.25"},
    {PLAIN, "-1.37", AT(-2, .increment = 25), WELL, "-1.25"},
    {PLAIN, "1234567.88", AT(-2, .increment = 25), WELL, "1,234,568.00"},
    {PLAIN, "1234567.8", AT(-2, .increment = 25), WELL, "1,234,567.75"},
    {PLAIN, "1.235", {.increment = 25}, WELL, "1.235"},
    {PLAIN, "1.26", AT(-2, .increment = 50), WELL, "1.50"},
    {PLAIN, "1.26", AT(-2, .increment = 50, .trailing_zeros = LEGUMEYET_TRAILING_ZEROS_TRIM), WELL, "1.5"},
    {PLAIN, "1.26", AT(-2, .increment = 50, .trailing_zeros = LEGUMEYET_TRAILING_ZEROS_TRIM, .minimum_fraction_digits = 2), WELL, "1.50"},
    {PLAIN, "1.98", AT(-2, .increment = 50, .trailing_zeros = LEGUMEYET_TRAILING_ZEROS_TRIM_WHOLE), WELL, "2"},
    {PLAIN, "1.26", AT(-2, .increment = 50, .minimum_fraction_digits = 3), WELL, "1.500"},
    {PLAIN, "1.26", {.increment = 50, .position = -2}, WELL, "1.26"},
    {PLAIN, "15", AT(0, .increment = 10), WELL, "20"},
    {PLAIN, "-30", AT(0, .increment = 20), WELL, "-40"},
    {PLAIN, "149.9", AT(0, .increment = 100), WELL, "100"},
    {PLAIN, "300", AT(0, .increment = 200), WELL, "400"},
    {PLAIN, "1.37", AT(-3, .increment = 250), WELL, "1.250"},
    {PLAIN, "76", AT(-1, .increment = 500), WELL, "100.0"},
    {PLAIN, "1499", AT(0, .increment = 1000), WELL, "1,000"},
    {PLAIN, "2999", AT(0, .increment = 2000), WELL, "2,000"},
    {PLAIN, "1300", AT(0, .increment = 2500), WELL, "2,500"},
    {PLAIN, "2500", AT(0, .increment = 5000), WELL, "0"},
    {PLAIN, "2.4", AT(-1, .increment = 1000), WELL, "0.0"},
    {EUROS, "1.26", AT(-2, .increment = 50), WELL, EURO "1.50"},
    {PLAIN, "1", AT(32766, .increment = 10), WELL, "0"},
    {PLAIN, "1", AT(32767, .increment = 10), LEGUMEYET_OPTION, NULL},
    {PLAIN, "1", AT(-32768, .increment = 10), LEGUMEYET_OPTION, NULL},
    {PLAIN, "1", AT(-2, .increment = 30), LEGUMEYET_OPTION, NULL},
    {PLAIN, "1", AT(-2, .increment = 10000), LEGUMEYET_OPTION, NULL},
    {SHORT, "1370", AT(-2, .increment = 5), WELL, "1.4K"},
    {PLAIN, "1", AT(-2, .increment = 3), LEGUMEYET_OPTION, NULL},
    {PLAIN, "1", {.increment = 3}, LEGUMEYET_OPTION, NULL},
    {SHORT, "1", AT(-2, .increment = 26), LEGUMEYET_OPTION, NULL},
    /* zeros at the end */
    {PLAIN, "1.5000", ZEROS(TRIM), WELL, "1.5"},
    {PLAIN, "-200.00", ZEROS(TRIM), WELL, "-200"},
    {PLAIN, "-200.00", ZEROS(TRIM_WHOLE), WELL, "-200"},
    {PLAIN, "1.50", ZEROS(TRIM_WHOLE), WELL, "1.50"},
    {EUROS, "5", ZEROS(TRIM), WELL, EURO "5"},
    {EUROS, "5", ZEROS(TRIM_WHOLE), WELL, EURO "5"},
    {EUROS, "5.5", ZEROS(TRIM_WHOLE), WELL, EURO "5.50"},
    {PLAIN, "1.995", AT(-2, .trailing_zeros = LEGUMEYET_TRAILING_ZEROS_TRIM), WELL, "2"},
    {PLAIN, "1.5", AT(-2, .trailing_zeros = LEGUMEYET_TRAILING_ZEROS_TRIM), WELL, "1.5"},
    {PLAIN, "1.255", AT(-2, .trailing_zeros = LEGUMEYET_TRAILING_ZEROS_TRIM), WELL, "1.26"},
    {PLAIN, "1.995", AT(-2, .trailing_zeros = LEGUMEYET_TRAILING_ZEROS_TRIM, .minimum_fraction_digits = 1), WELL, "2.0"},
    {PLAIN, "1", {.trailing_zeros = 4}, LEGUMEYET_OPTION, NULL},
    /* a zero that a rounding above the ones leaves is one digit; all others show as many as they have */
    {PLAIN, "400", AT(3, 0), WELL, "0"},
    {PLAIN, "-400", AT(3, 0), WELL, "-0"},
    {PLAIN, "600", AT(3, 0), WELL, "1,000"},
    {PLAIN, "0", AT(3, 0), WELL, "0"},
    {PLAIN, "0.5", AT(3, 0), WELL, "0"},
    {PLAIN, "400", AT(3, .minimum_integer_digits = 4), WELL, "0,000"},
    {PLAIN, "499.99", {.rounding = LEGUMEYET_ROUND_TRUNC, .position = 2, .increment = 5}, WELL, "0"},
    {PLAIN, "500", {.rounding = LEGUMEYET_ROUND_TRUNC, .position = 2, .increment = 5}, WELL, "500"},
    {PLAIN, "000", AT(0, 0), WELL, "000"},
    {PLAIN, "000", {0}, WELL, "000"},
    {SHORT, "400", AT(3, 0), WELL, "0"},
    {EUROS, "400", AT(3, 0), WELL, EURO "0"},
    /* least counts of digits */
    {PLAIN, "7.5", LEAST(3, 2), WELL, "007.50"},
    {PLAIN, "-0", LEAST(3, 2), WELL, "-000.00"},
    {PLAIN, "-1234.5678", LEAST(3, 2), WELL, "-1,234.5678"},
    {PLAIN, "0007.5000", LEAST(3, 2), WELL, "0,007.5000"},
    {PLAIN, "7", LEAST(5, 0), WELL, "00,007"},
    {PLAIN, "-0.9", {.sign = LEGUMEYET_SIGN_NEGATIVE, .rounding = LEGUMEYET_ROUND_TRUNC, .minimum_fraction_digits = 2}, WELL, "0.00"},
    {SHORT, "1650", LEAST(0, 5), WELL, "1.6K"},
    {PLAIN, "1", LEAST(32768, 0), LEGUMEYET_OPTION, NULL},
    {PLAIN, "1", LEAST(0, 32768), LEGUMEYET_OPTION, NULL},
    {PLAIN, "1", LEAST(-1, 0), LEGUMEYET_OPTION, NULL},
    /* significant digits */
    {PLAIN, "12345", DIGITS(0, 3, 0), WELL, "12,300"},
    {PLAIN, "12345", DIGITS(0, 3, .position = -5), WELL, "12,300"},
    {PLAIN, "0.012345", DIGITS(0, 3, 0), WELL, "0.0123"},
    {PLAIN, "-12355", DIGITS(0, 4, MODE(HALF_EVEN)), WELL, "-12,360"},
    {PLAIN, "5", DIGITS(3, 0, 0), WELL, "5.00"},
    {PLAIN, "12345.678", DIGITS(3, 0, 0), WELL, "12,345.678"},
    {PLAIN, "0", DIGITS(3, 0, 0), WELL, "0.00"},
    {PLAIN, "-0", DIGITS(3, 3, 0), WELL, "-0.00"},
    {PLAIN, "0", DIGITS(0, 3, 0), WELL, "0"},
    {PLAIN, "1.5000", DIGITS(0, 65535, 0), WELL, "1.5"},
    {PLAIN, "1.5000", DIGITS(4, 4, TRIM(TRIM)), WELL, "1.500"},
    {PLAIN, "1.999", DIGITS(2, 3, 0), WELL, "2.0"},
    {PLAIN, "999.5", DIGITS(0, 3, 0), WELL, "1,000"},
    {PLAIN, "999.5", DIGITS(4, 4, 0), WELL, "999.5"},
    {PLAIN, "0.9996", DIGITS(3, 3, 0), WELL, "1.00"},
    {PLAIN, "2.5", DIGITS(0, 1, 0), WELL, "2"},
    {PLAIN, "2.5", DIGITS(0, 1, MODE(HALF_EXPAND)), WELL, "3"},
    {PLAIN, "-2.1", DIGITS(0, 1, MODE(FLOOR)), WELL, "-3"},
    {PLAIN, "94", DIGITS(0, 1, MODE(EXPAND)), WELL, "100"},
    {PLAIN, "7.5", DIGITS(3, 3, .minimum_integer_digits = 3), WELL, "007.50"},
    {PLAIN, "7.5", DIGITS(0, 3, .minimum_fraction_digits = 3), WELL, "7.5"},
    {PLAIN, "5", DIGITS(3, 0, TRIM(TRIM_WHOLE)), WELL, "5"},
    {PLAIN, "5.1", DIGITS(3, 0, TRIM(TRIM_WHOLE)), WELL, "5.10"},
    {PLAIN, "4.999", DIGITS(3, 3, TRIM(TRIM_ALL)), WELL, "5"},
    {EUROS, "1234.5", DIGITS(0, 3, 0), WELL, EURO "1,230"},
    {EUROS, "5", DIGITS(0, 3, 0), WELL, EURO "5"},
    {EUROS, "5", DIGITS(3, 0, 0), WELL, EURO "5.00"},
    {PERCENT, "12.345", DIGITS(0, 2, 0), WELL, "12%"},
    {SHORT, "1250000", DIGITS(0, 1, 0), WELL, "1M"},
    {PLAIN, "1", DIGITS(4, 3, 0), LEGUMEYET_OPTION, NULL},
    {PLAIN, "1", DIGITS(0, 65536, 0), LEGUMEYET_OPTION, NULL},
    {PLAIN, "1", DIGITS(65536, 0, 0), LEGUMEYET_OPTION, NULL},
    {SHORT, "1", DIGITS(-1, 3, 0), LEGUMEYET_OPTION, NULL},
    {PLAIN, "1", DIGITS(1, -1, 0), LEGUMEYET_OPTION, NULL},
    {EUROS, "1", DIGITS(0, 3, MODE(CASH)), LEGUMEYET_OPTION, NULL},
    {EUROS, "1", DIGITS(0, 3, MODE(NONE)), LEGUMEYET_OPTION, NULL},
    {PLAIN, "1", DIGITS(0, 3, MODE(FLOOR), .increment = 5), LEGUMEYET_OPTION, NULL},
    {PLAIN, "1", DIGITS(0, 3, MODE(FLOOR), .increment = 10), LEGUMEYET_OPTION, NULL},
    {PLAIN, "1", DIGITS(0, 3, MODE(FLOOR), .rounding_priority = 3), LEGUMEYET_OPTION, NULL},
    {PLAIN, "1", DIGITS(0, 3, .rounding_priority = LEGUMEYET_PRIORITY_MORE_PRECISION), LEGUMEYET_OPTION, NULL},
    {PLAIN, "1", AT(-2, .rounding_priority = LEGUMEYET_PRIORITY_LESS_PRECISION), LEGUMEYET_OPTION, NULL},
    /* significant digits or a position: where both leave the same place, more precision are the digits, and less the position */
    {PLAIN, "1234.56", DIGITS(0, 2, WHICH(MORE, -1)), WELL, "1,234.6"},
    {PLAIN, "1234.56", DIGITS(0, 2, WHICH(LESS, -1)), WELL, "1,200"},
    {PLAIN, "0.01234", DIGITS(0, 2, WHICH(MORE, -1)), WELL, "0.012"},
    {PLAIN, "0.01234", DIGITS(0, 2, WHICH(LESS, -1)), WELL, "0.0"},
    {PLAIN, "0.01234", DIGITS(0, 2, WHICH(LESS, -1), TRIM(TRIM)), WELL, "0"},
    {PLAIN, "1.04", DIGITS(0, 2, WHICH(MORE, -1)), WELL, "1"},
    {PLAIN, "1.04", DIGITS(0, 2, WHICH(LESS, -1)), WELL, "1.0"},
    {PLAIN, "9.96", DIGITS(0, 2, WHICH(MORE, -1)), WELL, "10.0"},
    {PLAIN, "9.96", DIGITS(0, 2, WHICH(LESS, -1)), WELL, "10"},
    {PLAIN, "0", DIGITS(0, 2, WHICH(MORE, -2)), WELL, "0.00"},
    {PLAIN, "0", DIGITS(0, 2, WHICH(LESS, -2)), WELL, "0"},
    {PLAIN, "0", DIGITS(2, 2, WHICH(MORE, 0)), WELL, "0.0"},
    {PLAIN, "5", DIGITS(0, 2, WHICH(MORE, -2), TRIM(TRIM_WHOLE)), WELL, "5"},
    {PLAIN, "5.5", DIGITS(0, 2, WHICH(MORE, -2), TRIM(TRIM_WHOLE)), WELL, "5.50"},
    {PLAIN, "1234", DIGITS(0, 2, WHICH(MORE, -2), TRIM(TRIM), .minimum_fraction_digits = 1), WELL, "1,234.0"},
    {PLAIN, "1234", DIGITS(0, 2, WHICH(LESS, -2), TRIM(TRIM), .minimum_fraction_digits = 1), WELL, "1,200"},
    {EUROS, "1234.567", DIGITS(0, 3, WHICH(MORE, -2)), WELL, EURO "1,234.57"},
    {EUROS, "1234.567", DIGITS(0, 3, WHICH(LESS, -2)), WELL, EURO "1,230"},
    /* two fraction digits at least, and none of a whole number */
    {PLAIN, "1.500", AT(-3, TRIM(TRIM_ALL), .minimum_fraction_digits = 2), WELL, "1.50"},
    {PLAIN, "1.9996", AT(-3, TRIM(TRIM_ALL), .minimum_fraction_digits = 2), WELL, "2"},
    {PLAIN, "1.2345", AT(-3, TRIM(TRIM_ALL), .minimum_fraction_digits = 2), WELL, "1.234"},
    {PLAIN, "2.000", ZEROS(TRIM_ALL), WELL, "2"},
    /* no numbers */
    {PLAIN, "5.", {0}, LEGUMEYET_NUMBER, NULL},
    {PLAIN, "\xff", {0}, LEGUMEYET_NUMBER, NULL},
    {PLAIN, "", {0}, LEGUMEYET_NUMBER, NULL},
    {SHORT, "5.", {0}, LEGUMEYET_NUMBER, NULL},
    {SCIENTIFIC, "1e+3", {0}, LEGUMEYET_NUMBER, NULL},
    {SCIENTIFIC, "x", {.sign = 6}, LEGUMEYET_OPTION, NULL},
    {EUROS, "1,5", {0}, LEGUMEYET_NUMBER, NULL},
    {PLAIN, "1e40000", {0}, LEGUMEYET_LIMIT, NULL},
    {SHORT, "1e40000", {0}, LEGUMEYET_LIMIT, NULL},
    {SCIENTIFIC, "1e40000", {0}, LEGUMEYET_LIMIT, NULL},
    {EUROS, "1e40000", {0}, LEGUMEYET_LIMIT, NULL},
};

static void writes(void) {
    size_t row;
    for (row = 0; row < COUNT(WRITTEN); row++)
        expect_answer(WRITTEN[row].number, format(by[WRITTEN[row].format], WRITTEN[row].number, WRITTEN[row].options), WRITTEN[row].error,
                      WRITTEN[row].text);
}

/* A mantissa times a power of ten; with a sign or without. */
static const struct {
    int format;
    bool is_signed;
    uint64_t mantissa;
    int16_t exponent;
    legumeyet_options options;
    int32_t error;
    const char *text;
} INTEGERS[] = {
    {PLAIN, true, (uint64_t)-123456, -2, {0}, WELL, "-1,234.56"},
    {PLAIN, true, 5, 3, {0}, WELL, "5,000"},
    {PLAIN, true, (uint64_t)INT64_MIN, 0, {0}, WELL, "-9,223,372,036,854,775,808"},
    {PLAIN, true, 0, 0, {0}, WELL, "0"},
    {PLAIN, true, 0, 3, {0}, WELL, "0,000"},
    {PLAIN, true, 0, -2, {0}, WELL, "0.00"},
    {PLAIN, true, 4, 2, AT(3, 0), WELL, "0"},
    {PLAIN, true, 10, INT16_MAX, {0}, LEGUMEYET_LIMIT, NULL},
    {PLAIN, false, UINT64_MAX, 0, {0}, WELL, "18,446,744,073,709,551,615"},
    {PLAIN, false, UINT64_MAX, -2, {0}, WELL, "184,467,440,737,095,516.15"},
    {PLAIN, false, 0, -2, {0}, WELL, "0.00"},
    {PLAIN, false, 10, INT16_MAX, {0}, LEGUMEYET_LIMIT, NULL},
    {SHORT, true, (uint64_t)-11727, 2, {0}, WELL, "-1.2M"},
    {SHORT, false, UINT64_MAX, -9, {0}, WELL, "18,447M"},
    {SHORT, true, 10, INT16_MAX, {0}, LEGUMEYET_LIMIT, NULL},
    {SHORT, false, 10, INT16_MAX, {0}, LEGUMEYET_LIMIT, NULL},
    {SCIENTIFIC, true, (uint64_t)-123456, -2, {0}, WELL, "-1.23456E3"},
    {SCIENTIFIC, true, 0, 3, {0}, WELL, "0E0"},
    {SCIENTIFIC, false, UINT64_MAX, 0, AT(-2, 0), WELL, "1.84E19"},
    {EUROS, true, (uint64_t)-12345, -1, {0}, WELL, "-" EURO "1,234.50"},
    {EUROS, false, UINT64_MAX, -2, {0}, WELL, EURO "184,467,440,737,095,516.15"},
    {EUROS, true, 1, 0, {.sign = 6}, LEGUMEYET_OPTION, NULL},
    {PERCENT, false, 125, -1, {0}, WELL, "12.5%"},
};

static void integers(void) {
    size_t row;
    for (row = 0; row < COUNT(INTEGERS); row++) {
        const caller it = by[INTEGERS[row].format];
        const legumeyet_options options = INTEGERS[row].options;
        const uint64_t mantissa = INTEGERS[row].mantissa;
        const int16_t exponent = INTEGERS[row].exponent;
        const int32_t error = INTEGERS[row].is_signed ? CALL(it, format_i64, (int64_t)mantissa, exponent, LEGUMEYET_WORDS(options), out, ROOM, &length)
                                                      : CALL(it, format_u64, mantissa, exponent, LEGUMEYET_WORDS(options), out, ROOM, &length);
        expect_answer("an integer", error, INTEGERS[row].error, INTEGERS[row].text);
    }
}

static const struct {
    int format;
    double number;
    legumeyet_options options;
    int32_t error;
    const char *text;
} DOUBLES[] = {
    {PLAIN, 0.1, {0}, WELL, "0.1"},
    {PLAIN, 0.1 + 0.2, {0}, WELL, "0.30000000000000004"},
    {PLAIN, -1234.5, {0}, WELL, "-1,234.5"},
    {PLAIN, 5.0, {0}, WELL, "5"},
    {PLAIN, 0.0, {0}, WELL, "0"},
    {PLAIN, -0.0, {0}, WELL, "-0"},
    {PLAIN, 9007199254740992.0, {0}, WELL, "9,007,199,254,740,992"},
    {PLAIN, 1e21, {0}, WELL, "1,000,000,000,000,000,000,000"},
    {PLAIN, -1.5e-7, {0}, WELL, "-0.00000015"},
    {PLAIN, 9.75, AT(-1, .sign = LEGUMEYET_SIGN_ALWAYS), WELL, "+9.8"},
    {PLAIN, 5.0, LEAST(0, 2), WELL, "5.00"},
    {PLAIN, 400, AT(3, 0), WELL, "0"},
    {SHORT, -1172700.0, {0}, WELL, "-1.2M"},
    {SCIENTIFIC, -1.5e-7, {0}, WELL, "-1.5E-7"},
    {SCIENTIFIC, 5e-324, {0}, WELL, "5E-324"},
    {ENGINEERING, 1e21, {0}, WELL, "1E21"},
    {SCIENTIFIC, INFINITY, {0}, LEGUMEYET_NUMBER, NULL},
    {EUROS, 2.675, {0}, WELL, EURO "2.68"},
    {PLAIN, NAN, {0}, LEGUMEYET_NUMBER, NULL},
    {PLAIN, INFINITY, {0}, LEGUMEYET_NUMBER, NULL},
    {SHORT, -INFINITY, {0}, LEGUMEYET_NUMBER, NULL},
    {EUROS, NAN, {0}, LEGUMEYET_NUMBER, NULL},
    {PLAIN, NAN, {.sign = 6}, LEGUMEYET_OPTION, NULL},
};

static void doubles(void) {
    size_t row;
    for (row = 0; row < COUNT(DOUBLES); row++) {
        const legumeyet_options options = DOUBLES[row].options;
        expect_answer("a double", CALL(by[DOUBLES[row].format], format_double, DOUBLES[row].number, LEGUMEYET_WORDS(options), out, ROOM, &length),
                      DOUBLES[row].error, DOUBLES[row].text);
    }
}

/* What is shown of a number; and exact forms with their texts. */
static const struct {
    bool is_exact;
    int format;
    const char *number;
    legumeyet_options options;
    int32_t error;
    const char *text;
} SHOWN[] = {
    {false, SHORT, "-1172700", {0}, WELL, "-1.2c6"},
    {false, SHORT, "950", {0}, WELL, "950"},
    {false, SHORT, "999500", SIGNED(LEGUMEYET_SIGN_ALWAYS), WELL, "+1c6"},
    {false, SHORT, "-1172700", AT(6, 0), WELL, "-1c6"},
    {false, HUNDREDTHS, "1234", {0}, WELL, "1.23c3"},
    {false, HUNDREDTHS, "5", {0}, WELL, "5.00"},
    {false, SCIENTIFIC, "-1172700", {0}, WELL, "-1.1727e6"},
    {false, SCIENTIFIC, "0.00012", AT(-2, 0), WELL, "1.20e-4"},
    {false, ENGINEERING, "0.00012", {0}, WELL, "120e-6"},
    {false, TWO_DIGITS, "1200000", {0}, WELL, "1.2e06"},
    {false, ARABIC_POWERS, "0.00012", {0}, WELL, "1.2e-4"},
    {false, SCIENTIFIC, "1.2e", {0}, LEGUMEYET_NUMBER, NULL},
    {false, SHORT, "\xff", {0}, LEGUMEYET_NUMBER, NULL},
    {false, SHORT, "1", {.sign = 6}, LEGUMEYET_OPTION, NULL},
    {false, PLAIN, "-1234.50", {0}, WELL, "-1234.50"},
    {false, PLAIN, "9.65", AT(-1, .sign = LEGUMEYET_SIGN_ALWAYS), WELL, "+9.6"},
    {false, PLAIN, "1e40000", {0}, LEGUMEYET_LIMIT, NULL},
    {false, PERCENT, "12.5", LEAST(3, 2), WELL, "012.50"},
    {false, EUROS, "1.005", {0}, WELL, "1.00"},
    {false, EUROS, "5", ZEROS(TRIM), WELL, "5"},
    {false, FRANCS, "-2.345", ROUND(CASH), WELL, "-2.35"},
    {false, ARABIC, "1234.5", {0}, WELL, "1234.5"},
    {false, EUROS, "x", {0}, LEGUMEYET_NUMBER, NULL},
    {true, SHORT, "-1.20c6", {0}, WELL, "-1.20M"},
    {true, HUNDREDTHS, "-1.2c6", {0}, WELL, "-1.2M"},
    {true, SHORT, "0c6", {0}, WELL, "0M"},
    {true, SHORT, "1.20c6", AT(-1, .sign = LEGUMEYET_SIGN_ALWAYS), WELL, "+1.2M"},
    {true, SHORT, "1.5c3", LEAST(0, 2), WELL, "1.50K"},
    {true, SHORT, "1.5c3", ROUND(CASH), WELL, "1.5K"},
    {true, SHORT, "1.2e6", {0}, LEGUMEYET_NUMBER, NULL},
    {true, SHORT, "1c3\xff", {0}, LEGUMEYET_NUMBER, NULL},
    {true, SHORT, "", {0}, LEGUMEYET_NUMBER, NULL},
    {true, SHORT, "1c256", {0}, LEGUMEYET_LIMIT, NULL},
    {true, SHORT, "1.2c5", {0}, LEGUMEYET_EXPONENT, NULL},
    {true, SHORT, "1200", {0}, LEGUMEYET_EXPONENT, NULL},
    {true, SHORT, "1c3", {.rounding = 12}, LEGUMEYET_OPTION, NULL},
    {true, PLAIN, "-1234.50", {0}, WELL, "-1,234.50"},
    {true, PLAIN, "1.25", AT(-1, .sign = LEGUMEYET_SIGN_ALWAYS), WELL, "+1.2"},
    {true, PLAIN, "1.2c3", {0}, LEGUMEYET_EXPONENT, NULL},
    {true, PLAIN, "1.2e3", {0}, LEGUMEYET_NUMBER, NULL},
    {true, SCIENTIFIC, "1.2", {0}, LEGUMEYET_EXPONENT, NULL},
    {true, SCIENTIFIC, "1.2c6", {0}, LEGUMEYET_EXPONENT, NULL},
    {true, ENGINEERING, "1.2e6", {0}, LEGUMEYET_NUMBER, NULL},
    {true, PERCENT, "1.20", {0}, WELL, "1.20%"},
    {true, PERCENT, "1c3", {0}, LEGUMEYET_EXPONENT, NULL},
    {true, EUROS, "1.2", {0}, WELL, EURO "1.20"},
    {true, EUROS, "1.2", ROUND(NONE), WELL, EURO "1.2"},
    {true, FRANCS, "-2.345", ROUND(CASH), WELL, "CHF-2.35"},
    {true, EUROS, "1c6", {0}, LEGUMEYET_EXPONENT, NULL},
    {true, EUROS, "1c256", {0}, LEGUMEYET_LIMIT, NULL},
};

static void shows(void) {
    size_t row;
    for (row = 0; row < COUNT(SHOWN); row++) {
        const caller it = by[SHOWN[row].format];
        const legumeyet_options options = SHOWN[row].options;
        const char *number = SHOWN[row].number;
        const int32_t error = SHOWN[row].is_exact ? CALL(it, format_exact, TEXT(number), LEGUMEYET_WORDS(options), out, ROOM, &length)
                                                  : CALL(it, shown, TEXT(number), LEGUMEYET_WORDS(options), out, ROOM, &length);
        expect_answer(number, error, SHOWN[row].error, SHOWN[row].text);
    }
}

/* What is read of a text that the formatter writes, and of one that is typed: the number, or why there is none. */
static const struct {
    int format;
    const char *text;
    int32_t error, typed_error;
    const char *number, *typed;
} READ[] = {
    {PLAIN, "-1,234.50", WELL, WELL, "-1234.50", "-1234.50"},
    {PLAIN, "+5", WELL, WELL, "+5", "+5"},
    {PLAIN, "987,654,321.0", WELL, WELL, "987654321.0", "987654321.0"},
    {PLAIN, "98,7654", LEGUMEYET_NOT_WRITTEN, LEGUMEYET_NOT_WRITTEN, NULL, NULL},
    {PLAIN, "", LEGUMEYET_NOT_WRITTEN, LEGUMEYET_NOT_WRITTEN, NULL, NULL},
    {PLAIN, "\xff", LEGUMEYET_UTF8, LEGUMEYET_UTF8, NULL, NULL},
    {PLAIN, "1234.5", LEGUMEYET_NOT_WRITTEN, WELL, NULL, "1234.5"},
    {PLAIN, " 1,234.5 ", LEGUMEYET_NOT_WRITTEN, WELL, NULL, "1234.5"},
    {PLAIN, ".5", LEGUMEYET_NOT_WRITTEN, WELL, NULL, "0.5"},
    {PLAIN, "5.", LEGUMEYET_NOT_WRITTEN, WELL, NULL, "5"},
    {PLAIN, "\xe2\x88\x92" "5", LEGUMEYET_NOT_WRITTEN, WELL, NULL, "-5"},
    {PLAIN, "\xef\xbc\x91\xef\xbc\x92", LEGUMEYET_NOT_WRITTEN, WELL, NULL, "12"},
    {PLAIN, "1,23", LEGUMEYET_NOT_WRITTEN, LEGUMEYET_NOT_WRITTEN, NULL, NULL},
    {PLAIN, "1,234,5", LEGUMEYET_NOT_WRITTEN, LEGUMEYET_NOT_WRITTEN, NULL, NULL},
    {PLAIN, "1 234", LEGUMEYET_NOT_WRITTEN, LEGUMEYET_NOT_WRITTEN, NULL, NULL},
    {BAD, "1", LEGUMEYET_UNREADABLE, LEGUMEYET_UNREADABLE, NULL, NULL},
    {BAD, "\xff", LEGUMEYET_UTF8, LEGUMEYET_UTF8, NULL, NULL},
    {SHORT, "1.6K", LEGUMEYET_UNREADABLE, LEGUMEYET_UNREADABLE, NULL, NULL},
    {SHORT, "950", LEGUMEYET_UNREADABLE, LEGUMEYET_UNREADABLE, NULL, NULL},
    {LONG, "\xff", LEGUMEYET_UTF8, LEGUMEYET_UTF8, NULL, NULL},
    {HUNDREDTHS, "1.23K", LEGUMEYET_UNREADABLE, LEGUMEYET_UNREADABLE, NULL, NULL},
    {SCIENTIFIC, "1.2345E6", WELL, LEGUMEYET_UNREADABLE, "1234500", NULL},
    {SCIENTIFIC, "-1.20E-3", WELL, LEGUMEYET_UNREADABLE, "-0.00120", NULL},
    {SCIENTIFIC, "0E0", WELL, LEGUMEYET_UNREADABLE, "0", NULL},
    {SCIENTIFIC, "12.3E4", LEGUMEYET_NOT_WRITTEN, LEGUMEYET_UNREADABLE, NULL, NULL},
    {SCIENTIFIC, "1.2e6", LEGUMEYET_NOT_WRITTEN, LEGUMEYET_UNREADABLE, NULL, NULL},
    {SCIENTIFIC, " 1.2E6", LEGUMEYET_NOT_WRITTEN, LEGUMEYET_UNREADABLE, NULL, NULL},
    {SCIENTIFIC, "1E99999", LEGUMEYET_NOT_WRITTEN, LEGUMEYET_UNREADABLE, NULL, NULL},
    {ARABIC_POWERS, ARABIC_POWER, WELL, LEGUMEYET_UNREADABLE, "0.00012", NULL},
    {ARABIC_POWERS, "1.2E6", LEGUMEYET_NOT_WRITTEN, LEGUMEYET_UNREADABLE, NULL, NULL},
    {ENGINEERING, "120E-6", WELL, LEGUMEYET_UNREADABLE, "0.000120", NULL},
    {ENGINEERING, "1.2E-4", LEGUMEYET_NOT_WRITTEN, LEGUMEYET_UNREADABLE, NULL, NULL},
    {ENGINEERING, "\xff", LEGUMEYET_UTF8, LEGUMEYET_UTF8, NULL, NULL},
    {PERCENT, "-12.50%", WELL, WELL, "-12.50", "-12.50"},
    {PERCENT, "12.5 %", LEGUMEYET_NOT_WRITTEN, WELL, NULL, "12.5"},
    {PERCENT, "-12.5", LEGUMEYET_NOT_WRITTEN, WELL, NULL, "-12.5"},
    {EUROS, "-" EURO "1,234.50", WELL, WELL, "-1234.50", "-1234.50"},
    {EUROS, EURO "1.5", WELL, WELL, "1.5", "1.5"},
    {EUROS, "$1.00", LEGUMEYET_NOT_WRITTEN, LEGUMEYET_NOT_WRITTEN, NULL, NULL},
    {EUROS, EURO "1234.50", LEGUMEYET_NOT_WRITTEN, WELL, NULL, "1234.50"},
    {EUROS, " 1234.5 ", LEGUMEYET_NOT_WRITTEN, WELL, NULL, "1234.5"},
    {EUROS, "1,234.5 " EURO, LEGUMEYET_NOT_WRITTEN, WELL, NULL, "1234.5"},
    {EUROS, "5 EUR", LEGUMEYET_NOT_WRITTEN, WELL, NULL, "5"},
    {EUROS, "-EUR 5", LEGUMEYET_NOT_WRITTEN, WELL, NULL, "-5"},
    {EUROS, "987654321.5 EUR", LEGUMEYET_NOT_WRITTEN, WELL, NULL, "987654321.5"},
    {EUROS, EURO "1,23", LEGUMEYET_NOT_WRITTEN, LEGUMEYET_NOT_WRITTEN, NULL, NULL},
    {EUROS, "", LEGUMEYET_NOT_WRITTEN, LEGUMEYET_NOT_WRITTEN, NULL, NULL},
    {EUROS, "\xff", LEGUMEYET_UTF8, LEGUMEYET_UTF8, NULL, NULL},
    {ACCOUNTS, "(" EURO "5.00)", WELL, WELL, "-5.00", "-5.00"},
    {ACCOUNTS, "(" EURO "5)", WELL, WELL, "-5", "-5"},
    {FRANCS, "CHF-5.00", WELL, WELL, "-5.00", "-5.00"},
    /* second tables: of digits that are not those of ASCII, by those of `latn` too */
    {ARABIC, ARABIC_NUMBER, WELL, WELL, "1234.5", "1234.5"},
    {ARABIC, "1,234.5", LEGUMEYET_NOT_WRITTEN, WELL, NULL, "1234.5"},
    {ARABIC, "1234.5", LEGUMEYET_NOT_WRITTEN, WELL, NULL, "1234.5"},
    {ARABIC, "1,23", LEGUMEYET_NOT_WRITTEN, LEGUMEYET_NOT_WRITTEN, NULL, NULL},
    {ARABIC_PERCENT, ARABIC_NUMBER "\xd9\xaa", WELL, WELL, "1234.5", "1234.5"},
    {ARABIC_PERCENT, "1,234.5%", LEGUMEYET_NOT_WRITTEN, WELL, NULL, "1234.5"},
};

static void reads(void) {
    size_t row;
    for (row = 0; row < COUNT(READ); row++) {
        const caller it = by[READ[row].format];
        expect_answer(READ[row].text, CALL(it, read, TEXT(READ[row].text), out, ROOM, &length), READ[row].error, READ[row].number);
        expect_answer(READ[row].text, CALL(it, read_lenient, TEXT(READ[row].text), out, ROOM, &length), READ[row].typed_error, READ[row].typed);
    }
}

/* As many digits as there may be, and more. */
static void many_digits(void) {
    static char digits[MANY];
    static uint8_t wide[3 * MANY], back[3 * MANY];
    const legumeyet_options most = LEAST(32767, 32767);
    size_t needed = 0, read = 0;
    memset(digits, '9', sizeof digits);
    expect_error("40,000 digits", CALL(by[PLAIN], format, (uint8_t *)digits, MANY, NOTHING, out, ROOM, &length), LEGUMEYET_LIMIT);
    expect("30,000 digits", CALL(by[PLAIN], format, (uint8_t *)digits, 30000, NOTHING, wide, sizeof wide, &needed), WELL);
    expect("30,000 digits", (int64_t)needed, 39999);
    expect("30,000 digits", CALL(by[PLAIN], read, wide, needed, back, sizeof back, &read), WELL);
    expect("30,000 digits", (int64_t)read, 30000);
    expect_error("40,000 digits", CALL(by[PLAIN], read, (uint8_t *)digits, MANY, out, ROOM, &length), LEGUMEYET_NOT_WRITTEN);
    expect("most digits", CALL(by[PLAIN], format, TEXT("1"), LEGUMEYET_WORDS(most), wide, sizeof wide, &needed), WELL);
    expect("most digits", (int64_t)needed, 2 * 32767 + 10922 + 1);
    expect("the greatest double", CALL(by[PLAIN], format_double, 1.7976931348623157e308, NOTHING, wide, sizeof wide, &needed), WELL);
    expect("the greatest double", (int64_t)needed, 309 + 102);
    expect("the least double", CALL(by[PLAIN], format_double, 5e-324, NOTHING, wide, sizeof wide, &needed), WELL);
    expect("the least double", (int64_t)needed, 2 + 324);
    expect_error("what is shown", CALL(by[SHORT], format, (uint8_t *)digits, 32768, NOTHING, out, ROOM, &length), LEGUMEYET_RANGE);
    expect_error("the value shown", CALL(by[SHORT], shown, (uint8_t *)digits, 32768, NOTHING, out, ROOM, &length), LEGUMEYET_RANGE);
    expect("hundredths", CALL(by[HUNDREDTHS], format, (uint8_t *)digits, 32768, NOTHING, wide, sizeof wide, &needed), WELL);
    expect("hundredths", (int64_t)needed, 32763 + 10920 + 4);
    expect("a power", CALL(by[SCIENTIFIC], format, (uint8_t *)digits, 32768, NOTHING, wide, sizeof wide, &needed), WELL);
    expect("a power", (int64_t)needed, 32768 + 1 + 6);
    expect("no compact number", CALL(by[EUROS], shown, (uint8_t *)digits, 32768, NOTHING, wide, sizeof wide, &needed), WELL);
    expect("no compact number", (int64_t)needed, 32768 + 3);
    memset(digits + 1, '0', 32767);
    memcpy(digits + 32768, "c6", 2);
    expect_error("an exact form", CALL(by[SHORT], format_exact, (uint8_t *)digits, 32770, NOTHING, out, ROOM, &length), LEGUMEYET_RANGE);
    expect("30,000 digits", CALL(by[SHORT], format, (uint8_t *)digits, 30000, NOTHING, wide, sizeof wide, &needed), WELL);
    expect("30,000 digits", (int64_t)needed, 29994 + 9997 + 1);
    memcpy(digits, "1000.", 5);
    memset(digits + 5, '0', 32767);
    digits[5 + 32767] = '1';
    expect_error("a digit beyond thousands", CALL(by[HUNDREDTHS], format, (uint8_t *)digits, 5 + 32768, NOTHING, out, ROOM, &length), LEGUMEYET_RANGE);
    expect_error("a digit beyond thousands", CALL(by[HUNDREDTHS], shown, (uint8_t *)digits, 5 + 32768, NOTHING, out, ROOM, &length), LEGUMEYET_RANGE);
    expect_error("a digit beyond a power", CALL(by[SCIENTIFIC], format, (uint8_t *)digits, 5 + 32768, NOTHING, out, ROOM, &length), LEGUMEYET_RANGE);
    expect_error("a digit beyond a power", CALL(by[ENGINEERING], shown, (uint8_t *)digits, 5 + 32768, NOTHING, out, ROOM, &length), LEGUMEYET_RANGE);
}

/* Texts with their parts. */
static const struct {
    int format;
    const char *number, *text;
    size_t count;
    legumeyet_interval parts[7];
} PARTS[] = {
    {PLAIN, "-1234.5", "-1,234.5", 5, {{0, 1, LEGUMEYET_PART_MINUS_SIGN}, {1, 6, LEGUMEYET_PART_INTEGER}, {2, 3, LEGUMEYET_PART_GROUP},
                                       {6, 7, LEGUMEYET_PART_DECIMAL}, {7, 8, LEGUMEYET_PART_FRACTION}}},
    {PLAIN, "+5", "+5", 2, {{0, 1, LEGUMEYET_PART_PLUS_SIGN}, {1, 2, LEGUMEYET_PART_INTEGER}}},
    {SHORT, "-1650", "-1.6K", 1, {{0, 1, LEGUMEYET_PART_MINUS_SIGN}}},
    {SHORT, "950", "950", 0, {{0, 0, 0}}},
    {HUNDREDTHS, "-1234", "-1.23K", 4, {{0, 1, LEGUMEYET_PART_MINUS_SIGN}, {1, 2, LEGUMEYET_PART_INTEGER}, {2, 3, LEGUMEYET_PART_DECIMAL},
                                        {3, 5, LEGUMEYET_PART_FRACTION}}},
    {SCIENTIFIC, "-0.00012", "-1.2E-4", 7, {{0, 1, LEGUMEYET_PART_MINUS_SIGN}, {1, 2, LEGUMEYET_PART_INTEGER}, {2, 3, LEGUMEYET_PART_DECIMAL},
                                            {3, 4, LEGUMEYET_PART_FRACTION}, {4, 5, LEGUMEYET_PART_EXPONENT_SEPARATOR},
                                            {5, 6, LEGUMEYET_PART_EXPONENT_MINUS_SIGN}, {6, 7, LEGUMEYET_PART_EXPONENT_INTEGER}}},
    {TWO_DIGITS, "1200000", "1.2E06", 5, {{0, 1, LEGUMEYET_PART_INTEGER}, {1, 2, LEGUMEYET_PART_DECIMAL}, {2, 3, LEGUMEYET_PART_FRACTION},
                                          {3, 4, LEGUMEYET_PART_EXPONENT_SEPARATOR}, {4, 6, LEGUMEYET_PART_EXPONENT_INTEGER}}},
    {PERCENT, "5", "5%", 2, {{0, 1, LEGUMEYET_PART_INTEGER}, {1, 2, LEGUMEYET_PART_PERCENT_SIGN}}},
    {EUROS, "-1234.5", "-" EURO "1,234.50", 6, {{0, 1, LEGUMEYET_PART_MINUS_SIGN}, {1, 4, LEGUMEYET_PART_CURRENCY}, {4, 9, LEGUMEYET_PART_INTEGER},
                                               {5, 6, LEGUMEYET_PART_GROUP}, {9, 10, LEGUMEYET_PART_DECIMAL}, {10, 12, LEGUMEYET_PART_FRACTION}}},
};

static int is_same(const legumeyet_interval *one, const legumeyet_interval *other) {
    return one->start == other->start && one->end == other->end && one->kind == other->kind;
}

/* A row with each room for its parts. */
static void parts_of(size_t row) {
    const size_t all = PARTS[row].count;
    legumeyet_interval found[9];
    size_t room, at, count = 77;
    for (room = 0; room <= all + 1; room++) {
        const size_t listed = room < all ? room : all;
        memset(found, 7, sizeof found);
        expect("the room for parts", CALL(by[PARTS[row].format], format_parts, TEXT(PARTS[row].number), NOTHING, out, ROOM, &length, found, room, &count),
               room < all ? LEGUMEYET_TOO_SMALL : WELL);
        expect("the parts", (int64_t)count, (int64_t)all);
        expect_text("the text with its parts", WELL, PARTS[row].text);
        for (at = 0; at < listed; at++) expect("a part", is_same(&found[at], &PARTS[row].parts[at]), 1);
        expect("the part after them", (int64_t)found[listed].kind, 0x07070707);
    }
}

static void parts(void) {
    legumeyet_interval found[7];
    size_t row, count = 77;
    for (row = 0; row < COUNT(PARTS); row++) parts_of(row);
    for (row = 0; row < FORMATS; row++) {
        expect_error("no number", CALL(by[row], format_parts, TEXT("5."), NOTHING, out, ROOM, &length, found, 7, &count), LEGUMEYET_NUMBER);
        expect_error("an exponent", CALL(by[row], format_parts, TEXT("1e40000"), NOTHING, out, ROOM, &length, found, 7, &count), LEGUMEYET_LIMIT);
        expect("no parts", (int64_t)count, 77);
    }
    expect("no room", CALL(by[PLAIN], format_parts, TEXT("-1234.5"), NOTHING, out, 3, &length, found, 7, &count), LEGUMEYET_TOO_SMALL);
    expect("the parts", (int64_t)count, 5);
    expect("the length", (int64_t)length, 8);
    expect("the front", memcmp(out, "-1,.", 4), 0);
    clear();
}

static int32_t answer(const char *line) { return legumeyet_book_answer(&book, TEXT(line), out, sizeof out, &length); }

static void answers(void) {
    expect_text("a line", answer("en\tplain\tauto\tkeep\t-\t-987654.321"), "ok\t-987,654.321");
    expect_text("a short form", answer("en\tshort\tauto\tkeep\t-\t1650"), "ok\t1.6K\t1.6c3");
    expect_text("a power", answer("en\tscientific\tauto\tkeep\t-\t1650"), "ok\t1.65E3\t1.65e3");
    expect_text("a text", answer("en\tread\tauto\tkeep\t-\t-1,234.50"), "ok\t-1234.50");
    expect_text("a typed text", answer("ar\tread-lenient\tauto\tkeep\t-\t1,234.5"), "ok\t1234.5");
    expect_text("no tag", answer("e\tplain\tauto\tkeep\t-\t1"), "err\ttag");
    expect_text("no line", answer(""), "err\tshape");
    expect_text("bytes", answer("\xff"), "err\tshape");
}

/* A call wrote as much of a text as the room has. */
static void expect_front(int32_t error, const char *text, size_t room) {
    const size_t whole = strlen(text), front = room < whole ? room : whole;
    expect(text, error, room < whole ? LEGUMEYET_TOO_SMALL : WELL);
    expect("the length", (int64_t)length, (int64_t)whole);
    expect("the front", memcmp(out, text, front), 0);
    expect("the byte after it", out[front], '.');
    clear();
}

static void rooms(void) {
    static const char LINE[] = "en\tplain\tauto\tkeep\t-\t-1234.5";
    size_t room;
    for (room = 0; room <= 14; room++) {
        expect_front(CALL(by[PLAIN], format, TEXT("-1234.5"), NOTHING, out, room, &length), "-1,234.5", room);
        expect_front(CALL(by[PLAIN], format_i64, -12345, -1, NOTHING, out, room, &length), "-1,234.5", room);
        expect_front(CALL(by[PLAIN], format_u64, 12345, -1, NOTHING, out, room, &length), "1,234.5", room);
        expect_front(CALL(by[PLAIN], format_double, -1234.5, NOTHING, out, room, &length), "-1,234.5", room);
        expect_front(CALL(by[PLAIN], read, TEXT("-1,234.5"), out, room, &length), "-1234.5", room);
        expect_front(CALL(by[PLAIN], read_lenient, TEXT("-1234.5"), out, room, &length), "-1234.5", room);
        expect_front(CALL(by[SHORT], format, TEXT("-12345678901"), NOTHING, out, room, &length), "-12,346M", room);
        expect_front(CALL(by[SHORT], shown, TEXT("-1172700"), NOTHING, out, room, &length), "-1.2c6", room);
        expect_front(CALL(by[SHORT], format_exact, TEXT("-1.20c6"), NOTHING, out, room, &length), "-1.20M", room);
        expect_front(CALL(by[SCIENTIFIC], format, TEXT("-0.00012"), NOTHING, out, room, &length), "-1.2E-4", room);
        expect_front(CALL(by[SCIENTIFIC], shown, TEXT("-0.00012"), NOTHING, out, room, &length), "-1.2e-4", room);
        expect_front(CALL(by[EUROS], format, TEXT("-1234.5"), NOTHING, out, room, &length), "-" EURO "1,234.50", room);
        expect_front(CALL(by[EUROS], shown, TEXT("-1234.5"), NOTHING, out, room, &length), "-1234.50", room);
        expect_front(CALL(by[EUROS], read_lenient, TEXT("5 EUR"), out, room, &length), "5", room);
        expect_front(CALL(by[ARABIC], read_lenient, TEXT("1,234.5"), out, room, &length), "1234.5", room);
        expect_front(legumeyet_book_answer(&book, TEXT(LINE), out, room, &length), "ok\t-1,234.5", room);
        expect_front(legumeyet_error_text(LEGUMEYET_TAG, out, room, &length), "no locale tag", room);
    }
    expect_text("the greatest room", CALL(by[PLAIN], format, TEXT("1"), NOTHING, out, SIZE_MAX, &length), "1");
}

/* A pointer is null where the length is 0, or the room. */
static void nulls(void) {
    legumeyet_interval none;
    size_t row, count = 77;
    for (row = 0; row < FORMATS; row++) {
        const int is_read = row != BAD && row != SHORT && row != LONG && row != HUNDREDTHS;
        const int32_t unread = is_read ? LEGUMEYET_NOT_WRITTEN : LEGUMEYET_UNREADABLE;
        const int32_t untyped = row < SCIENTIFIC ? unread : LEGUMEYET_UNREADABLE;
        expect_error("a number", CALL(by[row], format, NOTHING, NOTHING, out, ROOM, &length), LEGUMEYET_NUMBER);
        expect_error("parts", CALL(by[row], format_parts, NOTHING, NOTHING, out, ROOM, &length, &none, 1, &count), LEGUMEYET_NUMBER);
        expect_error("what is shown", CALL(by[row], shown, NOTHING, NOTHING, out, ROOM, &length), LEGUMEYET_NUMBER);
        expect_error("an exact form", CALL(by[row], format_exact, NOTHING, NOTHING, out, ROOM, &length), LEGUMEYET_NUMBER);
        expect_error("a text", CALL(by[row], read, NOTHING, out, ROOM, &length), unread);
        expect_error("a typed text", CALL(by[row], read_lenient, NOTHING, out, ROOM, &length), untyped);
        expect("no parts", (int64_t)count, 77);
    }
    expect("a book", legumeyet_book_open(NOTHING, &closed_book), LEGUMEYET_BOOK_JSON);
    expect("a tag", legumeyet_formatter_open(&book, NOTHING, NOTHING, NOTHING, &closed), LEGUMEYET_TAG);
    expect_text("a line", legumeyet_book_answer(&book, NOTHING, out, ROOM, &length), "err\tshape");
    expect_needed("a number", CALL(by[PLAIN], format, TEXT("-1234.5"), NOTHING, NOTHING, &length), 8);
    expect_needed("an integer", CALL(by[PLAIN], format_i64, -12345, -1, NOTHING, NOTHING, &length), 8);
    expect_needed("an integer", CALL(by[PLAIN], format_u64, 12345, -1, NOTHING, NOTHING, &length), 7);
    expect_needed("a double", CALL(by[PLAIN], format_double, -1234.5, NOTHING, NOTHING, &length), 8);
    expect_needed("parts", CALL(by[PLAIN], format_parts, TEXT("-1234.5"), NOTHING, NOTHING, &length, NOTHING, &count), 8);
    expect("parts", (int64_t)count, 5);
    expect_needed("a text", CALL(by[PLAIN], read, TEXT("-1,234.5"), NOTHING, &length), 7);
    expect_needed("a typed text", CALL(by[EUROS], read_lenient, TEXT("-1234.5 "), NOTHING, &length), 7);
    expect_needed("the value shown", CALL(by[SHORT], shown, TEXT("-1650"), NOTHING, NOTHING, &length), 6);
    expect_needed("an exact form", CALL(by[SHORT], format_exact, TEXT("-1.60c3"), NOTHING, NOTHING, &length), 6);
    expect_needed("a line", legumeyet_book_answer(&book, TEXT("en\tplain\tauto\tkeep\t-\t-1234.5"), NOTHING, &length), 11);
    expect_needed("a locale", legumeyet_book_locale(&book, 0, NOTHING, &length), 2);
    expect_needed("a locale found", legumeyet_book_found_locale(&book, TEXT("de-CH"), NOTHING, &length), 5);
    expect_needed("a text of an error", legumeyet_error_text(LEGUMEYET_TAG, NOTHING, &length), 13);
}

/* A text may have a NUL inside, and what there is room for may end inside a character. */
static void inside(void) {
    legumeyet_book other = {0};
    legumeyet_formatter formatter = {0};
    expect("a book", legumeyet_book_open(TEXT(WITH_NUL), &other), WELL);
    expect("a formatter", legumeyet_formatter_open(&other, TEXT("en"), NOTHING, NOTHING, &formatter), WELL);
    expect("a NUL", legumeyet_formatter_format(&formatter, TEXT("1234.5"), NOTHING, out, ROOM, &length), WELL);
    expect("a NUL", length == 9 && memcmp(out, "1\xe2\x80\xaf" "234\0" "5", 9) == 0, 1);
    expect("inside", legumeyet_formatter_format(&formatter, TEXT("1234.5"), NOTHING, out, 2, &length), LEGUMEYET_TOO_SMALL);
    expect("inside", memcmp(out, "1\xe2", 2), 0);
    expect("a close", legumeyet_formatter_close(&formatter), WELL);
    expect("a close", legumeyet_book_close(&other), WELL);
    clear();
}

/* Each call of a formatter, on a handle that has none open: that comes before all that is wrong else. */
static void no_formatter(caller it) {
    static const legumeyet_options UNKNOWN = {.sign = 6};
    legumeyet_interval none;
    size_t count = 77;
    expect_error("a number", CALL(it, format, TEXT("x"), LEGUMEYET_WORDS(UNKNOWN), out, ROOM, &length), LEGUMEYET_CLOSED);
    expect_error("an integer", CALL(it, format_i64, 1, 0, LEGUMEYET_WORDS(UNKNOWN), out, ROOM, &length), LEGUMEYET_CLOSED);
    expect_error("an integer", CALL(it, format_u64, 1, 0, LEGUMEYET_WORDS(UNKNOWN), out, ROOM, &length), LEGUMEYET_CLOSED);
    expect_error("a double", CALL(it, format_double, NAN, LEGUMEYET_WORDS(UNKNOWN), out, ROOM, &length), LEGUMEYET_CLOSED);
    expect_error("parts", CALL(it, format_parts, TEXT("1"), NOTHING, out, ROOM, &length, &none, 1, &count), LEGUMEYET_CLOSED);
    expect("the count of a refused call", (int64_t)count, 77);
    expect_error("the value shown", CALL(it, shown, TEXT("x"), LEGUMEYET_WORDS(UNKNOWN), out, ROOM, &length), LEGUMEYET_CLOSED);
    expect_error("an exact form", CALL(it, format_exact, TEXT("x"), LEGUMEYET_WORDS(UNKNOWN), out, ROOM, &length), LEGUMEYET_CLOSED);
    expect_error("a text", CALL(it, read, TEXT("\xff"), out, ROOM, &length), LEGUMEYET_CLOSED);
    expect_error("a typed text", CALL(it, read_lenient, TEXT("\xff"), out, ROOM, &length), LEGUMEYET_CLOSED);
    if (it.own == NULL) return;
    expect("a close", legumeyet_formatter_close(it.own), LEGUMEYET_CLOSED);
    expect("a share", legumeyet_formatter_share(it.own, &closed_shared), LEGUMEYET_CLOSED);
}

static void no_book(legumeyet_book *other) {
    size_t place = 77;
    expect("a formatter", legumeyet_formatter_open(other, TEXT("e"), NOTHING, NOTHING, &closed), LEGUMEYET_CLOSED);
    expect("a skeleton", legumeyet_formatter_open_skeleton(other, TEXT("e"), TEXT("foo"), &place, &closed), LEGUMEYET_CLOSED);
    expect("its place", (int64_t)place, 77);
    expect("it stayed closed", legumeyet_formatter_close(&closed), LEGUMEYET_CLOSED);
    expect_error("a line", legumeyet_book_answer(other, TEXT("en\tplain\tauto\tkeep\t-\t1"), out, ROOM, &length), LEGUMEYET_CLOSED);
    expect("a book to keep", legumeyet_book_keep(other), LEGUMEYET_CLOSED);
    expect("a close", legumeyet_book_close(other), LEGUMEYET_CLOSED);
}

/* A handle that has something of another type open is closed to a call, and what it has stays open. */
static void casts(void) {
    legumeyet_formatter plain = {0};
    size_t row;
    no_formatter((caller){.own = &closed});
    no_formatter((caller){.shared = &closed_shared});
    no_formatter((caller){.own = (void *)&book});
    expect_text("the book", answer("en\tplain\tauto\tkeep\t-\t1234"), "ok\t1,234");
    for (row = 0; row < FORMATS; row++) no_book((void *)&formatters[row]);
    expect_text("the formatter", format(by[PLAIN], "1234", (legumeyet_options){0}), "1,234");
    expect("plain", open_asked(&book, &ASKED[PLAIN], &plain), WELL);
    expect("no book over it", legumeyet_book_open(TEXT("[]"), (void *)&plain), LEGUMEYET_BOOK_SHAPE);
    expect_text("it stayed open", legumeyet_formatter_format(&plain, TEXT("1234"), NOTHING, out, ROOM, &length), "1,234");
    expect("a book over it", legumeyet_book_open(TEXT(BOOK), (void *)&plain), WELL);
    no_formatter((caller){.own = &plain});
    expect("a formatter over the book", open_asked(&book, &ASKED[EUROS], &plain), WELL);
    expect("a close", legumeyet_formatter_close(&plain), WELL);
}

static void texts(void) {
    int32_t error;
    expect("version", legumeyet_version(), LEGUMEYET_VERSION);
    expect("minor version", legumeyet_minor(), LEGUMEYET_MINOR);
    expect_text("a text", legumeyet_error_text(LEGUMEYET_TAG, out, ROOM, &length), "no locale tag");
    for (error = -1; error < 300; error++) {
        const int is_of_book = error >= LEGUMEYET_BOOK_JSON && error <= LEGUMEYET_BOOK_CODE && error != 112;
        const int is_of_skeleton = error >= LEGUMEYET_SKELETON_UNKNOWN && error <= LEGUMEYET_SKELETON_UNSUPPORTED;
        const int is_known = (error >= LEGUMEYET_MEMORY && error <= LEGUMEYET_UNKEPT) || is_of_book || is_of_skeleton;
        size_t needed = 0;
        expect("a number's text", legumeyet_error_text(error, NOTHING, &needed), is_known ? LEGUMEYET_TOO_SMALL : LEGUMEYET_OPTION);
        expect("its length", needed > 5, is_known);
    }
}

/* Each call of the formatters. */
static void calls(void) {
    writes();
    integers();
    doubles();
    shows();
    reads();
    many_digits();
    parts();
    rooms();
    nulls();
}

/* Opens all formatters, over what is open, and makes the calls by them. */
static void opens_all(void) {
    size_t row;
    for (row = 0; row < FORMATS; row++) {
        expect("a format", open_asked(&book, &ASKED[row], &formatters[row]), WELL);
        by[row] = (caller){.own = &formatters[row]};
    }
}

/* Shares them all, and makes the calls by the shared ones. */
static void shares_all(void) {
    size_t row;
    for (row = 0; row < FORMATS; row++) {
        expect("a share", legumeyet_formatter_share(&formatters[row], &shared[row]), WELL);
        no_formatter((caller){.own = &formatters[row]});
        by[row] = (caller){.shared = &shared[row]};
    }
}

/* The book is closed before its formatters, which write and read as before. */
static void closes(void) {
    size_t row;
    expect("the book before its formatters", legumeyet_book_close(&book), WELL);
    no_book(&book);
    writes();
    reads();
    for (row = 0; row < FORMATS; row++) {
        expect("a close", legumeyet_formatter_close(&formatters[row]), WELL);
        no_formatter((caller){.own = &formatters[row]});
    }
}

int main(int count, char **word) {
    (void)word;
    clear();
    books();
    locales();
    opens();
    words();
    texts();
    inside();
    opens_all();
    calls();
    opens_all();
    answers();
    casts();
    if (count == 2) {
        shares_all();
        calls();
        opens_all();
        expect("kept", legumeyet_book_keep(&book), WELL);
        opens_all();
        calls();
        casts();
        shares_all();
        calls();
        opens_all();
    }
    closes();
    return wrong == 0 ? 0 : 1;
}
