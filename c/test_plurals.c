/*
 * Writes plural categories of numbers, of exact forms, of ranges and of columns, and tells facts of formatters, by the world's book: with
 * formatters that have their own tables, with those of the book once it is kept, and with shared ones. It prints what is otherwise than it
 * should be, and the status is 1 where something is. What a kept book or a shared formatter has is never given back, so no tool may look for
 * lost memory here.
 */
#include "calls.h"

#define WELL LEGUMEYET_OK
#define CARDINAL LEGUMEYET_PLURALS_CARDINAL
#define ORDINAL LEGUMEYET_PLURALS_ORDINAL
#define COMPACT .notation = LEGUMEYET_NOTATION_COMPACT
#define MONEY .unit = LEGUMEYET_UNIT_CURRENCY
#define FACT(name) LEGUMEYET_FACT_##name

static legumeyet_book world;

/* Categories of numbers as they are shown, by CLDR's rules. */
static const struct {
    const char *tag, *unit, *number, *text;
    legumeyet_format words;
    legumeyet_options options;
    int32_t error;
} WRITTEN[] = {
    {"ar", "", "0", "zero", {.plurals = CARDINAL}, {0}, WELL},
    {"ar", "", "1", "one", {.plurals = CARDINAL}, {0}, WELL},
    {"ar", "", "2", "two", {.plurals = CARDINAL}, {0}, WELL},
    {"ar", "", "103", "few", {.plurals = CARDINAL}, {0}, WELL},
    {"ar", "", "-111", "many", {.plurals = CARDINAL}, {0}, WELL},
    {"ar", "", "100", "other", {.plurals = CARDINAL}, {0}, WELL},
    {"pl", "", "1", "one", {.plurals = CARDINAL}, {0}, WELL},
    {"pl", "", "22", "few", {.plurals = CARDINAL}, {0}, WELL},
    {"pl", "", "12", "many", {.plurals = CARDINAL}, {0}, WELL},
    {"pl", "", "1.5", "other", {.plurals = CARDINAL}, {0}, WELL},
    {"en", "", "1", "one", {.plurals = CARDINAL}, {0}, WELL},
    {"en", "", "1.0", "other", {.plurals = CARDINAL}, {0}, WELL},
    {"en", "", "0", "other", {.plurals = CARDINAL}, {0}, WELL},
    {"en-GB", "", "-1", "one", {.plurals = CARDINAL}, {0}, WELL},
    {"ja", "", "1", "other", {.plurals = CARDINAL}, {0}, WELL},
    {"cs", "", "-0.50", "many", {.plurals = CARDINAL}, {0}, WELL},
    {"en", "", "+01", "one", {.plurals = CARDINAL}, {0}, WELL},
    {"fr", "", "00000000000001000000", "many", {.plurals = CARDINAL}, {0}, WELL},
    {"fr", "", "1e6", "many", {.plurals = CARDINAL}, {0}, WELL},
    /* as it is shown: rounded, padded, trimmed, and with the digits of a currency */
    {"en", "", "0.9", "one", {.plurals = CARDINAL}, {.rounding = LEGUMEYET_ROUND_HALF_EVEN}, WELL},
    {"en", "", "1", "other", {.plurals = CARDINAL}, {.minimum_fraction_digits = 2}, WELL},
    {"en", "", "1.0", "one", {.plurals = CARDINAL}, {.trailing_zeros = LEGUMEYET_TRAILING_ZEROS_TRIM}, WELL},
    {"en", "", "0.98", "one", {.plurals = CARDINAL}, {.maximum_significant_digits = 1}, WELL},
    {"en", "EUR", "1", "other", {.plurals = CARDINAL, MONEY}, {0}, WELL},
    {"en", "EUR", "1", "one", {.plurals = CARDINAL, MONEY}, {.trailing_zeros = LEGUMEYET_TRAILING_ZEROS_TRIM_WHOLE}, WELL},
    {"en", "JPY", "1.4", "one", {.plurals = CARDINAL, MONEY}, {0}, WELL},
    {"en", "", "1", "one", {.plurals = CARDINAL, .unit = LEGUMEYET_UNIT_PERCENT}, {0}, WELL},
    /* compact numbers, by what is in the pattern and its exponent */
    {"fr", "", "1200000", "many", {.plurals = CARDINAL, COMPACT}, {0}, WELL},
    {"fr", "", "1200", "other", {.plurals = CARDINAL, COMPACT}, {0}, WELL},
    {"fr", "", "1.7", "one", {.plurals = CARDINAL, COMPACT}, {0}, WELL},
    {"fr", "", "1000000", "many", {.plurals = CARDINAL}, {0}, WELL},
    {"fr", "", "1200000", "other", {.plurals = CARDINAL}, {0}, WELL},
    {"es", "", "999999", "many", {.plurals = CARDINAL, COMPACT, .width = LEGUMEYET_WIDTH_LONG}, {0}, WELL},
    {"fr", "", "1200000", "one", {.plurals = CARDINAL, COMPACT}, {.rounding = LEGUMEYET_ROUND_TRUNC, .position = 7}, WELL},
    /* which one */
    {"en", "", "1", "one", {.plurals = ORDINAL}, {0}, WELL},
    {"en", "", "22", "two", {.plurals = ORDINAL}, {0}, WELL},
    {"en", "", "103", "few", {.plurals = ORDINAL}, {0}, WELL},
    {"en", "", "111", "other", {.plurals = ORDINAL}, {0}, WELL},
    {"it", "", "80", "many", {.plurals = ORDINAL}, {0}, WELL},
    {"cy", "", "0", "zero", {.plurals = ORDINAL}, {0}, WELL},
    {"de", "", "1", "other", {.plurals = ORDINAL}, {0}, WELL},
    /* no numbers, and wrong options */
    {"en", "", "5.", NULL, {.plurals = CARDINAL}, {0}, LEGUMEYET_NUMBER},
    {"en", "", "1e40000", NULL, {.plurals = CARDINAL}, {0}, LEGUMEYET_LIMIT},
    {"en", "", "x", NULL, {.plurals = CARDINAL}, {.sign = 6}, LEGUMEYET_OPTION},
};

/* Categories of ranges: first the words, then the first end, then the second. */
static const struct {
    const char *tag, *first, *second, *text;
    legumeyet_format words;
    legumeyet_options options;
    int32_t error;
} RANGES[] = {
    {"fr", "0", "1", "one", {.plurals = CARDINAL}, {0}, WELL},
    {"en", "0", "1", "other", {.plurals = CARDINAL}, {0}, WELL},
    {"en", "1", "2", "other", {.plurals = CARDINAL}, {0}, WELL},
    {"ar", "0", "1", "zero", {.plurals = CARDINAL}, {0}, WELL},
    {"ar", "1", "2", "other", {.plurals = CARDINAL}, {0}, WELL},
    {"ar", "2", "103", "few", {.plurals = CARDINAL}, {0}, WELL},
    {"ka", "1", "2", "one", {.plurals = CARDINAL}, {0}, WELL},
    {"pl", "1", "4", "few", {.plurals = CARDINAL}, {0}, WELL},
    {"en", "0.7", "1.2", "one", {.plurals = CARDINAL}, {.rounding = LEGUMEYET_ROUND_HALF_EVEN}, WELL},
    {"fr", "1", "1000000", "many", {.plurals = CARDINAL, COMPACT}, {0}, WELL},
    {"en", "1", "2", "two", {.plurals = ORDINAL}, {0}, WELL},
    {"en", "1", "2", NULL, {0}, {0}, LEGUMEYET_OPTION},
    {"en", "x", "2", NULL, {0}, {0}, LEGUMEYET_OPTION},
    {"en", "x", "y", NULL, {.plurals = CARDINAL}, {.rounding = 12}, LEGUMEYET_OPTION},
    {"en", "x", "1e40000", NULL, {.plurals = CARDINAL}, {0}, LEGUMEYET_NUMBER},
    {"en", "1e40000", "x", NULL, {.plurals = CARDINAL}, {0}, LEGUMEYET_LIMIT},
    {"en", "1", "", NULL, {.plurals = CARDINAL}, {0}, LEGUMEYET_NUMBER},
};

/* Facts. */
static const struct {
    const char *tag, *unit;
    legumeyet_format words;
    uint32_t fact;
    const char *text;
} FACTS[] = {
    {"de", "", {0}, FACT(DECIMAL_SEPARATOR), ","},
    {"de", "", {0}, FACT(GROUPING_SEPARATOR), "."},
    {"de", "", {0}, FACT(MINUS_BEFORE), "-"},
    {"de", "", {0}, FACT(MINUS_AFTER), ""},
    {"de", "", {0}, FACT(PLUS_BEFORE), "+"},
    {"de", "", {0}, FACT(PLUS_AFTER), ""},
    {"de", "", {0}, FACT(DIGITS), "0123456789"},
    {"ar-EG", "", {0}, FACT(DIGITS), "\xd9\xa0\xd9\xa1\xd9\xa2\xd9\xa3\xd9\xa4\xd9\xa5\xd9\xa6\xd9\xa7\xd9\xa8\xd9\xa9"},
    {"ar-EG", "", {COMPACT}, FACT(DECIMAL_SEPARATOR), "\xd9\xab"},
    {"de-AT", "EUR", {MONEY}, FACT(FRACTION_DIGITS), "2"},
    {"de-CH", "CHF", {MONEY}, FACT(CASH_DIGITS), "2"},
    {"de-CH", "CHF", {MONEY}, FACT(CASH_INCREMENT), "5"},
    {"en", "USD", {MONEY}, FACT(CASH_INCREMENT), "1"},
    {"en", "DKK", {MONEY}, FACT(CASH_INCREMENT), "50"},
    {"en", "JPY", {MONEY}, FACT(FRACTION_DIGITS), "0"},
    {"en", "", {.plurals = CARDINAL}, FACT(CATEGORIES), "one other"},
    {"en", "", {.plurals = ORDINAL}, FACT(CATEGORIES), "one two few other"},
    {"ar", "", {.plurals = CARDINAL}, FACT(CATEGORIES), "zero one two few many other"},
    {"ja", "", {.plurals = CARDINAL}, FACT(CATEGORIES), "other"},
    {"en", "EUR", {.plurals = CARDINAL, MONEY}, FACT(FRACTION_DIGITS), "2"},
    {"en", "", {0}, FACT(FRACTION_DIGITS), NULL},
    {"en", "", {.unit = LEGUMEYET_UNIT_PERCENT}, FACT(CASH_DIGITS), NULL},
    {"en", "", {0}, FACT(CASH_INCREMENT), NULL},
    {"en", "", {0}, FACT(CATEGORIES), NULL},
    {"en", "", {0}, 0, NULL},
    {"en", "EUR", {.plurals = CARDINAL, MONEY}, 12, NULL},
    {"en", "", {0}, UINT32_MAX, NULL},
};

/* Opens a formatter, and shares it where that is asked. */
static caller open_by(bool is_shared, const char *tag, legumeyet_format words, const char *unit) {
    static legumeyet_formatter it;
    static legumeyet_shared_formatter shared;
    expect(tag, legumeyet_formatter_open(&world, TEXT(tag), LEGUMEYET_WORDS(words), TEXT(unit), &it), WELL);
    if (!is_shared) return (caller){&it, NULL};
    expect(tag, legumeyet_formatter_share(&it, &shared), WELL);
    return (caller){NULL, &shared};
}

static void rows(bool is_shared) {
    size_t row;
    for (row = 0; row < COUNT(WRITTEN); row++) {
        const caller it = open_by(is_shared, WRITTEN[row].tag, WRITTEN[row].words, WRITTEN[row].unit);
        expect_answer(WRITTEN[row].number, format(it, WRITTEN[row].number, WRITTEN[row].options), WRITTEN[row].error, WRITTEN[row].text);
    }
    for (row = 0; row < COUNT(RANGES); row++) {
        const caller it = open_by(is_shared, RANGES[row].tag, RANGES[row].words, "");
        expect_answer(RANGES[row].second, CALL(it, format_range, TEXT(RANGES[row].first), TEXT(RANGES[row].second), LEGUMEYET_WORDS(RANGES[row].options), out, ROOM, &length),
                      RANGES[row].error, RANGES[row].text);
    }
    for (row = 0; row < COUNT(FACTS); row++) {
        const caller it = open_by(is_shared, FACTS[row].tag, FACTS[row].words, FACTS[row].unit);
        expect_answer(FACTS[row].tag, CALL(it, tell, FACTS[row].fact, out, ROOM, &length), LEGUMEYET_OPTION, FACTS[row].text);
    }
}

/* The other calls of a formatter that writes words: each writes the word, but that which tells what is shown, and none reads. */
static void all_calls(bool is_shared) {
    static const double DOUBLES[] = {1, -7, 1.5};
    static const int64_t INTEGERS[] = {1, 10, 2};
    legumeyet_interval parts[4];
    size_t ends[4], count = 0, room;
    caller it = open_by(is_shared, "en", (legumeyet_format){.plurals = CARDINAL}, "");
    expect_text("an i64", CALL(it, format_i64, -1, 0, NOTHING, out, ROOM, &length), "one");
    expect_text("an i64 with a zero", CALL(it, format_i64, 10, -1, NOTHING, out, ROOM, &length), "other");
    expect_text("a u64", CALL(it, format_u64, 1, 0, NOTHING, out, ROOM, &length), "one");
    expect_text("a double", CALL(it, format_double, 1.0, NOTHING, out, ROOM, &length), "one");
    expect_error("no finite double", CALL(it, format_double, 1e308 * 10, NOTHING, out, ROOM, &length), LEGUMEYET_NUMBER);
    expect_text("parts", CALL(it, format_parts, TEXT("-1"), NOTHING, out, ROOM, &length, parts, 4, &count), "one");
    expect("no parts", (int64_t)count, 0);
    expect_text("shown", CALL(it, shown, TEXT("1.0"), NOTHING, out, ROOM, &length), "1.0");
    expect_text("an exact form", CALL(it, format_exact, TEXT("1"), NOTHING, out, ROOM, &length), "one");
    expect_error("another exponent", CALL(it, format_exact, TEXT("1c3"), NOTHING, out, ROOM, &length), LEGUMEYET_EXPONENT);
    expect_error("read", CALL(it, read, TEXT("one"), out, ROOM, &length), LEGUMEYET_UNREADABLE);
    expect_error("read", CALL(it, read, TEXT("1"), out, ROOM, &length), LEGUMEYET_UNREADABLE);
    expect_error("read", CALL(it, read, TEXT("\xff"), out, ROOM, &length), LEGUMEYET_UTF8);
    expect_error("typed", CALL(it, read_lenient, TEXT("1"), out, ROOM, &length), LEGUMEYET_UNREADABLE);
    expect("doubles", CALL(it, format_doubles, DOUBLES, 3, NOTHING, out, ROOM, ends, 4, &count), WELL);
    expect("doubles", memcmp(out, "oneotherother", 13) == 0 && count == 3 && ends[0] == 3 && ends[2] == 13, 1);
    expect("integers", CALL(it, format_integers, INTEGERS, 3, 0, NOTHING, out, ROOM, ends, 4, &count), WELL);
    expect("integers", memcmp(out, "oneotherother", 13) == 0 && count == 3 && ends[1] == 8, 1);
    clear();
    expect("texts", CALL(it, format_texts, TEXT("1\n1.0\n1x\n2"), NOTHING, out, ROOM, ends, 4, &count), LEGUMEYET_NUMBER);
    expect("texts", memcmp(out, "oneother.", 9) == 0 && count == 2 && ends[1] == 8, 1);
    for (room = 0; room < 5; room++) {
        clear();
        expect("too few bytes", CALL(it, format, TEXT("2"), NOTHING, room == 0 ? NULL : out, room, &length), LEGUMEYET_TOO_SMALL);
        expect("too few bytes", length == 5 && memcmp(out, "other", room) == 0 && out[room] == '.', 1);
        expect("a range", CALL(it, format_range, TEXT("1"), TEXT("2"), NOTHING, room == 0 ? NULL : out, room, &length), LEGUMEYET_TOO_SMALL);
    }
    clear();
    it = open_by(is_shared, "fr", (legumeyet_format){.plurals = CARDINAL, COMPACT}, "");
    expect_text("a compact number", CALL(it, shown, TEXT("-1172700"), NOTHING, out, ROOM, &length), "-1.2c6");
    expect_text("a compact form", CALL(it, format_exact, TEXT("-1.20c6"), NOTHING, out, ROOM, &length), "many");
    expect_error("another exponent", CALL(it, format_exact, TEXT("1.2c5"), NOTHING, out, ROOM, &length), LEGUMEYET_EXPONENT);
    expect_error("an exponent in the text", CALL(it, format_exact, TEXT("1e6"), NOTHING, out, ROOM, &length), LEGUMEYET_NUMBER);
}

/* Numbers too long for the digits that compact text shows, and closed handles. */
static void odd_ends(bool is_shared) {
    static char nines[32768 + 1];
    legumeyet_formatter closed = {0};
    legumeyet_shared_formatter closed_shared = {0};
    const caller by_closed = is_shared ? (caller){NULL, &closed_shared} : (caller){&closed, NULL};
    caller it = open_by(is_shared, "fr", (legumeyet_format){.plurals = CARDINAL, COMPACT}, "");
    memset(nines, '9', sizeof nines - 1);
    expect_error("nines", format(it, nines, (legumeyet_options){0}), LEGUMEYET_RANGE);
    expect_error("nines", CALL(it, format_range, TEXT("1"), TEXT(nines), NOTHING, out, ROOM, &length), LEGUMEYET_RANGE);
    expect_error("nines", CALL(it, format_range, TEXT(nines), TEXT("x"), NOTHING, out, ROOM, &length), LEGUMEYET_NUMBER);
    it = open_by(is_shared, "fr", (legumeyet_format){.plurals = CARDINAL}, "");
    expect_text("nines", format(it, nines, (legumeyet_options){0}), "other");
    expect_error("closed", CALL(by_closed, tell, 0, out, ROOM, &length), LEGUMEYET_CLOSED);
    expect_error("closed", CALL(by_closed, format_range, TEXT("x"), TEXT("y"), NOTHING, out, ROOM, &length), LEGUMEYET_CLOSED);
}

/* Each locale has both kinds of rules, and one of their categories; a book without rules has none. */
static void opens(void) {
    legumeyet_book small = {0};
    legumeyet_formatter it = {0};
    legumeyet_format words = {.plurals = 3};
    const char *tag;
    size_t at;
    for (at = 0; (tag = legumeyet_world_locale(at)) != NULL; at++) {
        for (words.plurals = CARDINAL; words.plurals <= ORDINAL; words.plurals++) {
            expect(tag, legumeyet_formatter_open(&world, TEXT(tag), LEGUMEYET_WORDS(words), NOTHING, &it), WELL);
            expect(tag, legumeyet_formatter_format_i64(&it, 1, 0, NOTHING, out, ROOM, &length), WELL);
            expect(tag, length >= 3 && length <= 5, 1);
            expect(tag, legumeyet_formatter_tell(&it, FACT(CATEGORIES), out, ROOM, &length), WELL);
            expect(tag, length >= 5 && memcmp(out + length - 5, "other", 5) == 0, 1);
        }
    }
    words.plurals = 3;
    expect("a third kind", legumeyet_formatter_open(&world, TEXT("e"), LEGUMEYET_WORDS(words), TEXT("x"), &it), LEGUMEYET_OPTION);
    words.plurals = -1;
    expect("a kind below", legumeyet_formatter_open(&world, TEXT("en"), LEGUMEYET_WORDS(words), NOTHING, &it), LEGUMEYET_OPTION);
    words.plurals = CARDINAL;
    expect("no tag", legumeyet_formatter_open(&world, TEXT("e"), LEGUMEYET_WORDS(words), NOTHING, &it), LEGUMEYET_TAG);
    expect("no code", legumeyet_formatter_open(&world, TEXT("e"), LEGUMEYET_WORDS(words), TEXT("EUR"), &it), LEGUMEYET_CODE);
    expect("a small book", legumeyet_book_open(TEXT(BOOK), &small), WELL);
    expect("its rules", legumeyet_formatter_open(&small, TEXT("en"), LEGUMEYET_WORDS(words), NOTHING, &it), WELL);
    expect("no rules", legumeyet_formatter_open(&small, TEXT("tr"), LEGUMEYET_WORDS(words), NOTHING, &it), LEGUMEYET_TABLE);
    words.plurals = ORDINAL;
    expect("no ordinal ones", legumeyet_formatter_open(&small, TEXT("en"), LEGUMEYET_WORDS(words), NOTHING, &it), LEGUMEYET_TABLE);
    expect("the book", legumeyet_book_close(&small), WELL);
    expect("that of `en` stayed", legumeyet_formatter_close(&it), WELL);
}

/* A formatter of its own tables stays when its book is closed. */
static void outlives(void) {
    const legumeyet_format words = {.plurals = ORDINAL};
    legumeyet_book brief = {0};
    legumeyet_formatter it = {0};
    expect("the world", legumeyet_book_open_world(&brief), WELL);
    expect("a formatter", legumeyet_formatter_open(&brief, TEXT("en"), LEGUMEYET_WORDS(words), NOTHING, &it), WELL);
    expect("the book", legumeyet_book_close(&brief), WELL);
    expect_text("after it", legumeyet_formatter_format(&it, TEXT("23"), NOTHING, out, ROOM, &length), "few");
    expect("a close", legumeyet_formatter_close(&it), WELL);
}

int main(void) {
    int turn;
    expect("the minor version", legumeyet_minor() >= 1, 1);
    expect("the world", legumeyet_book_open_world(&world), WELL);
    clear();
    for (turn = 0; turn < 4; turn++) {
        if (turn == 2) expect("kept", legumeyet_book_keep(&world), WELL);
        rows(turn % 2 == 1);
        all_calls(turn % 2 == 1);
        odd_ends(turn % 2 == 1);
        opens();
        clear();
    }
    outlives();
    return wrong;
}
