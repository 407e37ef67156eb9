/* What the tests in C share beside expect.h: a book, its formatters of some formats, and calls of them, be they shared or not. */
#ifndef LEGUMEYET_CALLS_H
#define LEGUMEYET_CALLS_H

#include "expect.h"
#include <legumeyet.h>
#include <string.h>

#define TEXT(text) LEGUMEYET_TEXT(text)
#define NOTHING NULL, 0
#define COUNT(array) (sizeof(array) / sizeof *(array))
#define SPACE "\xc2\xa0"
#define EURO "\xe2\x82\xac"
#define ARABIC_NUMBER "\xd9\xa1\xd9\xac\xd9\xa2\xd9\xa3\xd9\xa4\xd9\xab\xd9\xa5" /* 1,234.5 with Arabic digits and separators */
#define ARABIC_POWER "\xd9\xa1\xd9\xab\xd9\xa2\xd8\xa3\xd8\xb3-\xd9\xa4" /* 1.2E-4 with them, and the text before exponents */

enum { ROOM = 64 };

/* Arabic, Swiss German, English, Turkish, and a locale whose numbers can't be read back; with euros, francs in cash, and percents; of two of
   them the text before exponents. */
static const char BOOK[] =
    "[[[[\"ar\",\"\",\"arab\",\"-\",\"\",\"+\",\"\",\"\\u066b\",\"\\u066c\",3,3,1],[\"ar\",\"latn\",\"latn\",\"-\",\"\",\"+\",\"\",\".\",\",\",3,3,1],"
    "[\"bad\",\"\",\"latn\",\"\",\"\",\"+\",\"\",\".\",\",\",3,3,1],[\"de-CH\",\"\",\"latn\",\"-\",\"\",\"+\",\"\",\".\",\"'\",3,3,1],"
    "[\"en\",\"\",\"latn\",\"-\",\"\",\"+\",\"\",\".\",\",\",3,3,1],[\"tr\",\"\",\"latn\",\"-\",\"\",\"+\",\"\",\",\",\".\",3,3,1]],"
    "[[\"arab\",\"\xd9\xa0\xd9\xa1\xd9\xa2\xd9\xa3\xd9\xa4\xd9\xa5\xd9\xa6\xd9\xa7\xd9\xa8\xd9\xa9\"],[\"latn\",\"0123456789\"]],[[\"en\",[]]],"
    "[[\"en\",\"\",[[3,3,[[\"other\",[\"\",\"K\"]]]],[6,6,[[\"other\",[\"\",\"M\"]]]]],null]],"
    "[[\"en\",\"\",[[3,3,[[\"other\",[\"\",\" thousand\"]]]]],null]]],"
    "[[[\"ar\",\"\",\"\\u066a\",null,[\"\",\"\\u00a4\"]],[\"ar\",\"latn\",\"%\",null,[\"\",\"\\u00a4\"]],"
    "[\"en\",\"\",\"%\",null,[\"\",\"\\u00a4\"]],[\"tr\",\"\",\"%\",null,[\"\\u00a4\",\"\"]]],"
    "[[\"de-CH\",\"\",null,[\"\\u00a4\\u00a0\",\"\",\"\\u00a4-\",\"\",\"\\u00a4+\",\"\"],null],"
    "[\"en\",\"\",null,[\"\\u00a4\",\"\"],[\"\\u00a4\\u00a0\",\"\"]]],"
    "[[\"en\",\"\",null,[\"\\u00a4\",\"\",\"(\\u00a4\",\")\",\"+\\u00a4\",\"\"],null]],"
    "[[\"en\",\"EUR\",\"\\u20ac\",0]],[[\"CHF\",2,1,2,5],[\"JPY\",0,1,0,1]]],"
    "[[],[],[[\"ar\",\"\",\"\\u0623\\u0633\",\"\\u00d7\",\"\\u0609\",\"~\",[\"\",\"\\u2013\",\"\"],[\"+\",\"\"],[\"\\u2264\",\"\"]],"
    "[\"en\",\"\",\"E\",\"\\u00d7\",\"\\u2030\",\"~\",[\"\",\"\\u2013\",\"\"],[\"\",\"+\"],[\"\\u2264\",\"\"]]]]]";

/* A format for a tag, by words, with the text of its unit, or by a skeleton. */
typedef struct {
    const char *tag;
    legumeyet_format words;
    const char *unit, *skeleton;
} asked;

enum { PLAIN, BAD, SHORT, LONG, HUNDREDTHS, PERCENT, EUROS, ACCOUNTS, FRANCS, ARABIC, ARABIC_PERCENT, SCIENTIFIC, ENGINEERING, TWO_DIGITS, ARABIC_POWERS, FORMATS };

/* Those of the tests. */
static const asked ASKED[FORMATS] = {
    [PLAIN] = {"en", {0}, "", NULL},
    [BAD] = {"bad", {0}, "", NULL},
    [SHORT] = {"en", {.notation = LEGUMEYET_NOTATION_COMPACT, .grouping = LEGUMEYET_GROUPING_MIN2}, "", NULL},
    [LONG] = {"en", {.notation = LEGUMEYET_NOTATION_COMPACT, .width = LEGUMEYET_WIDTH_LONG}, "", NULL},
    [HUNDREDTHS] = {"en", {0}, "", "compact-short .00"},
    [PERCENT] = {"en", {.unit = LEGUMEYET_UNIT_PERCENT}, "", NULL},
    [EUROS] = {"en", {.unit = LEGUMEYET_UNIT_CURRENCY}, "EUR", NULL},
    [ACCOUNTS] = {"en", {.unit = LEGUMEYET_UNIT_CURRENCY, .currency_style = LEGUMEYET_STYLE_ACCOUNTING}, "EUR", NULL},
    [FRANCS] = {"de-CH", {.unit = LEGUMEYET_UNIT_CURRENCY, .currency_width = LEGUMEYET_CURRENCY_CODE}, "CHF", NULL},
    [ARABIC] = {"ar", {0}, "", NULL},
    [ARABIC_PERCENT] = {"ar", {.unit = LEGUMEYET_UNIT_PERCENT}, "", NULL},
    [SCIENTIFIC] = {"en", {.notation = LEGUMEYET_NOTATION_SCIENTIFIC}, "", NULL},
    [ENGINEERING] = {"en", {.notation = LEGUMEYET_NOTATION_ENGINEERING, .width = LEGUMEYET_WIDTH_LONG}, "", NULL},
    [TWO_DIGITS] = {"en", {0}, "", "scientific/*ee"},
    [ARABIC_POWERS] = {"ar", {.notation = LEGUMEYET_NOTATION_SCIENTIFIC}, "", NULL},
};

/* What a call is made by: a formatter, or a shared one. */
typedef struct {
    legumeyet_formatter *own;
    const legumeyet_shared_formatter *shared;
} caller;

/* The call of that name of either. */
#define CALL(it, name, ...) \
    ((it).own != NULL ? legumeyet_formatter_##name((it).own, __VA_ARGS__) : legumeyet_shared_formatter_##name((it).shared, __VA_ARGS__))

static uint8_t out[ROOM];
static size_t length;

/* Nothing is written. */
static inline void clear(void) {
    memset(out, '.', sizeof out);
    length = 77;
}

/* The call was well and wrote this text, and nothing after it. */
static inline void expect_text(const char *what, int32_t error, const char *text) {
    expect(what, error, LEGUMEYET_OK);
    if (length != strlen(text) || memcmp(out, text, length) != 0) {
        fprintf(stderr, "%s: %.*s, and not %s\n", what, (int)(length < ROOM ? length : ROOM), (const char *)out, text);
        wrong = 1;
    }
    expect("the byte after a text", out[strlen(text)], '.');
    clear();
}

/* The call was refused and wrote nothing. */
static inline void expect_error(const char *what, int32_t error, int32_t wanted) {
    expect(what, error, wanted);
    expect("the length of a refused call", (int64_t)length, 77);
    expect("the bytes of a refused call", out[0], '.');
    clear();
}

/* The call wrote this text, where there is one, or else it was refused so. */
static inline void expect_answer(const char *what, int32_t error, int32_t wanted, const char *text) {
    if (text != NULL)
        expect_text(what, error, text);
    else
        expect_error(what, error, wanted);
}

/* The call wrote nothing, and tells what the text needs. */
static inline void expect_needed(const char *what, int32_t error, size_t wanted) {
    expect(what, error, LEGUMEYET_TOO_SMALL);
    expect(what, (int64_t)length, (int64_t)wanted);
    clear();
}

/* Opens a formatter of a format. */
static inline int32_t open_asked(legumeyet_book *book, const asked *it, legumeyet_formatter *formatter) {
    size_t place = 0;
    if (it->skeleton != NULL) return legumeyet_formatter_open_skeleton(book, TEXT(it->tag), TEXT(it->skeleton), &place, formatter);
    return legumeyet_formatter_open(book, TEXT(it->tag), LEGUMEYET_WORDS(it->words), TEXT(it->unit), formatter);
}

static inline int32_t format(caller it, const char *number, legumeyet_options options) {
    return CALL(it, format, TEXT(number), LEGUMEYET_WORDS(options), out, ROOM, &length);
}

#endif
