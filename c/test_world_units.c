/*
 * Writes and reads percents and amounts of money of the world's book, which is kept: some of known texts, and some in each of its locales.
 * It prints what is otherwise than it should be, and the status is 1 where something is. What a kept book has is never given back, so no
 * tool may look for lost memory here.
 */
#include "expect.h"
#include <legumeyet.h>
#include <stdio.h>
#include <string.h>

#define SPACE "\xc2\xa0"
#define EURO "\xe2\x82\xac"

enum { ROOM = 256, HALF = ROOM / 2 };

static legumeyet_book world, unkept;
static uint8_t out[ROOM];
static size_t length;

static void expect_text(const char *what, int32_t error, const char *text) {
    expect(what, error, LEGUMEYET_OK);
    if (length == strlen(text) && memcmp(out, text, length) == 0) return;
    fprintf(stderr, "%s: %.*s, and not %s\n", what, (int)length, (const char *)out, text);
    wrong = 1;
}

/* The formatter writes the number so; what it reads of that, also leniently, is written so again. The formatter is closed. */
static void expect_trip(legumeyet_formatter *formatter, const char *number, legumeyet_options options, const char *text) {
    uint8_t digits[HALF], typed[HALF];
    size_t count = 0, typed_count = 0;
    expect_text(number, legumeyet_formatter_format(formatter, LEGUMEYET_TEXT(number), LEGUMEYET_WORDS(options), out, ROOM, &length), text);
    expect(text, legumeyet_formatter_read(formatter, out, length, digits, HALF, &count), LEGUMEYET_OK);
    expect(text, legumeyet_formatter_read_lenient(formatter, out, length, typed, HALF, &typed_count), LEGUMEYET_OK);
    expect(text, typed_count == count && memcmp(typed, digits, count) == 0, 1);
    expect_text(text, legumeyet_formatter_format(formatter, digits, count, LEGUMEYET_WORDS(options), out, ROOM, &length), text);
    expect(text, legumeyet_formatter_close(formatter), LEGUMEYET_OK);
}

/* Opens a formatter of percents where there is no code, and else one of amounts, by a book. */
static int32_t open_by(legumeyet_book *book, const char *tag, const char *code, int32_t style, int32_t width, legumeyet_formatter *formatter) {
    const legumeyet_format words = {.unit = *code == 0 ? LEGUMEYET_UNIT_PERCENT : LEGUMEYET_UNIT_CURRENCY, .currency_style = style, .currency_width = width};
    return legumeyet_formatter_open(book, LEGUMEYET_TEXT(tag), LEGUMEYET_WORDS(words), LEGUMEYET_TEXT(code), formatter);
}

static int32_t open_units(const char *tag, const char *code, int32_t style, int32_t width, legumeyet_formatter *formatter) {
    return open_by(&world, tag, code, style, width, formatter);
}

/* Texts of numbers in some locales, standard ones by their symbols where the row says nothing else. */
static const struct {
    const char *tag, *code, *number, *text;
    int32_t style, width;
    legumeyet_options options;
} ROWS[] = {
    {"de", "", "12.5", "12,5" SPACE "%", 0, 0, {0}},
    {"tr", "", "12.5", "%12,5", 0, 0, {0}},
    {"eu", "", "-5", "\xe2\x88\x92%" SPACE "5", 0, 0, {0}},
    {"de", "EUR", "1234.5", "1.234,50" SPACE EURO, 0, 0, {0}},
    {"en", "USD", "-5", "($5.00)", LEGUMEYET_STYLE_ACCOUNTING, 0, {0}},
    {"en", "USD", "5", "USD" SPACE "5.00", 0, LEGUMEYET_CURRENCY_CODE, {0}},
    {"de-CH", "CHF", "-5", "CHF-5.00", 0, 0, {0}},
    {"nl", "USD", "-5", "US$" SPACE "-5,00", 0, 0, {0}},
    {"en", "JPY", "2.5", "\xc2\xa5" "2", 0, 0, {0}},
    {"en", "QQQ", "0", "QQQ" SPACE "0.00", 0, 0, {0}},
    {"en", "CHF", "2.345", "CHF" SPACE "2.35", 0, 0, {.rounding = LEGUMEYET_ROUND_CASH}},
};

static void texts(void) {
    legumeyet_formatter it = {0};
    size_t row;
    for (row = 0; row < sizeof ROWS / sizeof *ROWS; row++) {
        expect(ROWS[row].tag, open_units(ROWS[row].tag, ROWS[row].code, ROWS[row].style, ROWS[row].width, &it), LEGUMEYET_OK);
        expect_trip(&it, ROWS[row].number, ROWS[row].options, ROWS[row].text);
    }
    expect("no such language", open_units("xx", "EUR", 0, 0, &it), LEGUMEYET_TABLE);
    expect("small letters", open_units("de", "eur", 0, 0, &it), LEGUMEYET_CODE);
    expect("it stayed closed", legumeyet_formatter_close(&it), LEGUMEYET_CLOSED);
}

/* What people type of amounts: the number, or nothing where it is none. Those with symbols of their own are read by the symbols of plain
   numbers too, and a text that is two numbers so is none, unless the formatter writes it. */
static const struct {
    const char *tag, *code, *text, *digits;
} TYPED[] = {
    {"ar-EG", "EGP", "1,234.5", "1234.5"},
    {"de-AT", "EUR", EURO SPACE "1.234,50", "1234.50"},
    {"de-AT", "EUR", "1.234,50", "1234.50"},
    {"de-AT", "EUR", EURO " 1 234,50", "1234.50"},
    {"de-AT", "EUR", "1,234.50", ""},
    {"de-LU", "LUF", "1.234" SPACE "F", "1.234"},
    {"de-LU", "LUF", "1.234", ""},
    {"en-DE", "EUR", "1.234,50", "1234.50"},
    {"fr-CH", "CHF", "5,50", "5.50"},
    {"fr-CH", "CHF", "5.50 CHF", "5.50"},
    {"pt-CV", "CVE", "12$50", "12.50"},
    {"pt-CV", "CVE", "12,50", "12.50"},
};

static void expect_typed(legumeyet_formatter *formatter, const char *text, const char *digits) {
    const int32_t error = legumeyet_formatter_read_lenient(formatter, LEGUMEYET_TEXT(text), out, ROOM, &length);
    if (*digits == 0) expect(text, error, LEGUMEYET_NOT_WRITTEN);
    else expect_text(text, error, digits);
}

static void typed(void) {
    legumeyet_formatter it = {0};
    size_t row, at;
    for (row = 0; row < sizeof TYPED / sizeof *TYPED; row++) {
        for (at = 0; at < 2; at++) {
            expect(TYPED[row].tag, open_by(at == 0 ? &world : &unkept, TYPED[row].tag, TYPED[row].code, 0, 0, &it), LEGUMEYET_OK);
            expect_typed(&it, TYPED[row].text, TYPED[row].digits);
        }
    }
    expect("a close", legumeyet_formatter_close(&it), LEGUMEYET_OK);
}

/* Each locale has percents and amounts, in each style and width: a formatter writes, and reads it back. */
static void all_locales(void) {
    static const char *const CODES[] = {"", "EUR", "USD", "JPY", "QQQ"};
    legumeyet_formatter it = {0};
    size_t at, row;
    const char *tag;
    for (at = 0; (tag = legumeyet_world_locale(at)) != NULL; at++) {
        for (row = 0; row < sizeof CODES / sizeof *CODES; row++) {
            expect(tag, open_units(tag, CODES[row], row % 2, row / 2 % 2, &it), LEGUMEYET_OK);
            expect(tag, legumeyet_formatter_format_i64(&it, -12345600, -2, NULL, 0, out, HALF, &length), LEGUMEYET_OK);
            expect(tag, legumeyet_formatter_read(&it, out, length, out + HALF, HALF, &length), LEGUMEYET_OK);
            expect(tag, length >= 7 && memcmp(out + HALF, "-123456", 7) == 0, 1);
        }
    }
    expect("a close", legumeyet_formatter_close(&it), LEGUMEYET_OK);
}

static int is_listed(const char *tag, size_t count) {
    size_t at;
    for (at = 0; at < count; at++)
        if (legumeyet_book_locale(&world, at, out, ROOM, &length) == LEGUMEYET_OK && length == strlen(tag) && memcmp(out, tag, length) == 0) return 1;
    return 0;
}

static void locales(void) {
    static const char *const FOUND[][2] = {{"de-XX", "de"}, {"de-AT", "de-AT"}, {"de-AT-1996", "de-AT"}, {"en-u-nu-thai", "und"}, {"en-US", "und"}};
    size_t count = 0, row;
    expect("the count", legumeyet_book_locale_count(&world, &count), LEGUMEYET_OK);
    expect("de", is_listed("de", count), 1);
    expect("de-AT", is_listed("de-AT", count), 1);
    expect("xx", is_listed("xx", count), 0);
    for (row = 0; row < sizeof FOUND / sizeof *FOUND; row++) {
        const char *tag = FOUND[row][0], *its = FOUND[row][1];
        expect(tag, legumeyet_book_found_locale(&world, (const uint8_t *)tag, strlen(tag), out, ROOM, &length), LEGUMEYET_OK);
        expect(its, length == strlen(its) && memcmp(out, its, length) == 0, 1);
    }
    expect("xx", legumeyet_book_found_locale(&world, (const uint8_t *)"xx", 2, out, ROOM, &length), LEGUMEYET_TABLE);
}

int main(void) {
    expect("the world", legumeyet_book_open_world(&world), LEGUMEYET_OK);
    expect("kept", legumeyet_book_keep(&world), LEGUMEYET_OK);
    expect("the world again", legumeyet_book_open_world(&unkept), LEGUMEYET_OK);
    texts();
    typed();
    all_locales();
    locales();
    expect("the book", legumeyet_book_close(&world), LEGUMEYET_OK);
    expect("the other book", legumeyet_book_close(&unkept), LEGUMEYET_OK);
    return wrong;
}
