/*
 * Opens the world's book, and formatters of some formats for each of its locales, all open at once; opens books of files; and makes tags of
 * locales' names. It prints what is otherwise than it should be, and the status is 1 where something is.
 *
 * usage: test_world BOOK FOLDER
 *
 * BOOK is a file with the world's book, FOLDER a folder.
 */
#include <errno.h>
#include "expect.h"
#include <legumeyet.h>
#include <stdio.h>
#include <stdlib.h>
#include <string.h>

enum { ROOM = 256, MOST = 2000, FORMATS = 6 };

static const struct {
    legumeyet_format words;
    const char *unit;
} ASKED[FORMATS] = {
    {{0}, ""},
    {{.notation = LEGUMEYET_NOTATION_COMPACT, .grouping = LEGUMEYET_GROUPING_MIN2}, ""},
    {{.notation = LEGUMEYET_NOTATION_COMPACT, .width = LEGUMEYET_WIDTH_LONG, .grouping = LEGUMEYET_GROUPING_MIN2}, ""},
    {{.notation = LEGUMEYET_NOTATION_SCIENTIFIC}, ""},
    {{.unit = LEGUMEYET_UNIT_PERCENT}, ""},
    {{.unit = LEGUMEYET_UNIT_CURRENCY}, "EUR"},
};

static legumeyet_book world;
static legumeyet_formatter formatters[FORMATS][MOST];
static uint8_t out[ROOM];
static size_t length;

static void expect_text(const char *what, int32_t error, const char *text) {
    expect(what, error, LEGUMEYET_OK);
    if (length == strlen(text) && memcmp(out, text, length) == 0) return;
    fprintf(stderr, "%s: %.*s, and not %s\n", what, (int)length, (const char *)out, text);
    wrong = 1;
}

/* The locales are in order, and there is none after the last. Returns their count. */
static size_t locales(void) {
    size_t count = 0;
    const char *last = "", *tag;
    for (; (tag = legumeyet_world_locale(count)) != NULL; count++) {
        expect(tag, strcmp(last, tag) < 0, 1);
        last = tag;
    }
    expect("many locales", count > 900 && count <= MOST, 1);
    expect("no more", legumeyet_world_locale(count + 1) == NULL, 1);
    expect("no more", legumeyet_world_locale(SIZE_MAX) == NULL, 1);
    return count;
}

static int32_t open_plain(const char *tag, legumeyet_formatter *formatter) {
    return legumeyet_formatter_open(&world, LEGUMEYET_TEXT(tag), NULL, 0, NULL, 0, formatter);
}

/* A formatter writes, and reads what it writes, but compact text. */
static void expect_back(const char *tag, legumeyet_formatter *it, bool is_read) {
    const int32_t wanted = is_read ? LEGUMEYET_OK : LEGUMEYET_UNREADABLE;
    expect(tag, legumeyet_formatter_format_i64(it, -12345678, -2, NULL, 0, out, ROOM / 2, &length), LEGUMEYET_OK);
    expect(tag, legumeyet_formatter_read(it, out, length, out + ROOM / 2, ROOM / 2, &length), wanted);
    if (is_read) expect(tag, length == 10 && memcmp(out + ROOM / 2, "-123456.78", 10) == 0, 1);
}

/* Each locale has formatters of each format, which have their own tables, and write. */
static void opens(size_t count) {
    size_t at, row;
    for (at = 0; at < count; at++) {
        const char *tag = legumeyet_world_locale(at);
        for (row = 0; row < FORMATS; row++)
            expect(tag, legumeyet_formatter_open(&world, LEGUMEYET_TEXT(tag), LEGUMEYET_WORDS(ASKED[row].words), LEGUMEYET_TEXT(ASKED[row].unit), &formatters[row][at]), LEGUMEYET_OK);
    }
    for (at = 0; at < count; at++)
        for (row = 0; row < FORMATS; row++) expect_back(legumeyet_world_locale(at), &formatters[row][at], ASKED[row].words.notation != LEGUMEYET_NOTATION_COMPACT);
}

static void closes(size_t count) {
    size_t at, row;
    for (at = 0; at < count; at++)
        for (row = 0; row < FORMATS; row++) expect("a close", legumeyet_formatter_close(&formatters[row][at]), LEGUMEYET_OK);
}

/* A number in a locale, whose signs have up to seven bytes. */
static void expect_written(const char *tag, const char *number, const char *text) {
    legumeyet_formatter formatter = {0};
    expect(tag, open_plain(tag, &formatter), LEGUMEYET_OK);
    expect_text(tag, legumeyet_formatter_format(&formatter, LEGUMEYET_TEXT(number), NULL, 0, out, ROOM, &length), text);
    expect(tag, legumeyet_formatter_close(&formatter), LEGUMEYET_OK);
}

/* What is typed is read as a line reads it; NULL: it is no number. */
static void expect_typed(const char *tag, const char *typed, const char *number) {
    legumeyet_formatter formatter = {0};
    char line[ROOM];
    int32_t error;
    expect(tag, open_plain(tag, &formatter), LEGUMEYET_OK);
    error = legumeyet_formatter_read_lenient(&formatter, LEGUMEYET_TEXT(typed), out, ROOM, &length);
    if (number != NULL) expect_text(typed, error, number);
    else expect(typed, error, LEGUMEYET_NOT_WRITTEN);
    snprintf(line, sizeof line, "%s\tread-lenient\tauto\tkeep\t-\t%s", tag, typed);
    expect(line, legumeyet_book_answer(&world, LEGUMEYET_TEXT(line), out, ROOM, &length), LEGUMEYET_OK);
    expect(line, length >= 3 && memcmp(out, number != NULL ? "ok\t" : "err", 3) == 0, 1);
    if (number != NULL) expect(line, length == 3 + strlen(number) && memcmp(out + 3, number, length - 3) == 0, 1);
    expect(tag, legumeyet_formatter_close(&formatter), LEGUMEYET_OK);
}

/* Separators with one digit before them, and with two, in Spanish, which has them with two. */
static void groupings(void) {
    static const char *const TEXTS[][2] = {{"1234,5", "12.345,6"}, {"1234,5", "12345,6"}, {"1234,5", "12.345,6"}, {"1234,5", "12.345,6"}, {"1.234,5", "12.345,6"}};
    int32_t grouping, at;
    for (grouping = LEGUMEYET_GROUPING_AUTO; grouping <= LEGUMEYET_GROUPING_ON_ALIGNED; grouping++) {
        const legumeyet_format words = {.grouping = grouping};
        legumeyet_formatter formatter = {0};
        expect("a grouping", legumeyet_formatter_open(&world, LEGUMEYET_TEXT("es"), LEGUMEYET_WORDS(words), NULL, 0, &formatter), LEGUMEYET_OK);
        for (at = 0; at < 2; at++)
            expect_text("a grouping", legumeyet_formatter_format(&formatter, LEGUMEYET_TEXT(at == 0 ? "1234.5" : "12345.6"), NULL, 0, out, ROOM, &length), TEXTS[grouping][at]);
        expect("a grouping", legumeyet_formatter_close(&formatter), LEGUMEYET_OK);
    }
}

static void texts(void) {
    expect_written("de", "1234567.891", "1.234.567,891");
    expect_written("de-AT-u-nu-latn", "-1234", "-1\xc2\xa0" "234");
    expect_written("de-FR", "1234567.891", "1.234.567,891");
    expect_written("hi", "1234567.891", "12,34,567.891");
    expect_written("ar-EG", "-1234.5", "\xd8\x9c-\xd9\xa1\xd9\xac\xd9\xa2\xd9\xa3\xd9\xa4\xd9\xab\xd9\xa5");
    expect_written("he", "-1234.5", "\xe2\x80\x8e-1,234.5");
    expect_written("fa", "-5", "\xe2\x80\x8e\xe2\x88\x92\xdb\xb5");
    expect_written("ps", "+5", "\xe2\x80\x8e+\xe2\x80\x8e\xdb\xb5");
    expect("no such language", open_plain("xx", &formatters[0][0]), LEGUMEYET_TABLE);
    expect("an underscore", open_plain("de_DE", &formatters[0][0]), LEGUMEYET_TAG);
    expect_typed("ar-EG", "1,234.5", "1234.5");
    expect_typed("ar-EG", "\xd9\xa1\xd9\xac\xd9\xa2\xd9\xa3\xd9\xa4\xd9\xab\xd9\xa5", "1234.5");
    expect_typed("ar-EG-u-nu-latn", "1,234.5", "1234.5");
    expect_typed("ar-EG", "1,23", NULL);
    expect_typed("hi", "\xe0\xa5\xa7\xe0\xa5\xa8\xe0\xa5\xa9", "123");
    expect_typed("fa", "1,234.5", "1234.5");
    expect_typed("mr", "1,234.5", "1234.5");
    expect_typed("km-u-nu-khmr", "1,234", NULL);
    expect_typed("km-u-nu-khmr", "1,234.5", "1234.5");
    expect_typed("km-u-nu-khmr", "1.234,5", "1234.5");
}

/* The answer to a line, which is the same by two books. */
static void expect_same(legumeyet_book *other, const char *line) {
    uint8_t own[ROOM];
    size_t own_length = 0;
    expect(line, legumeyet_book_answer(other, LEGUMEYET_TEXT(line), own, ROOM, &own_length), LEGUMEYET_OK);
    expect(line, legumeyet_book_answer(&world, LEGUMEYET_TEXT(line), out, ROOM, &length), LEGUMEYET_OK);
    expect(line, length == own_length && memcmp(out, own, length) == 0, 1);
}

static void files(const char *path, const char *folder) {
    legumeyet_book book = {0};
    errno = 0;
    expect("no file", legumeyet_book_open_file("/no/file", &book), LEGUMEYET_FILE);
    expect("why", errno, ENOENT);
    expect("a folder", legumeyet_book_open_file(folder, &book), LEGUMEYET_FILE);
    expect("why", errno, EISDIR);
    expect("an empty file", legumeyet_book_open_file("/dev/null", &book), LEGUMEYET_BOOK_JSON);
    expect("it stayed closed", legumeyet_book_close(&book), LEGUMEYET_CLOSED);
    expect("a file", legumeyet_book_open_file(path, &book), LEGUMEYET_OK);
    expect_same(&book, "de\tlong\tauto\tkeep\t-\t-987654.321");
    expect("over an open one", legumeyet_book_open_file(path, &book), LEGUMEYET_OK);
    expect("no file over it", legumeyet_book_open_file("/no/file", &book), LEGUMEYET_FILE);
    expect_same(&book, "ar-EG\tplain\tauto\tkeep\t-\t-987654.321");
    expect("the world over it", legumeyet_book_open_world(&book), LEGUMEYET_OK);
    expect("a close", legumeyet_book_close(&book), LEGUMEYET_OK);
}

static int32_t tag_of(const char *name, size_t room) { return legumeyet_tag_of_locale_name(name, out, room, &length); }

static void names(void) {
    static const char *const ROWS[][2] = {
        {"de_DE", "de-DE"},      {"de_DE.UTF-8", "de-DE"}, {"sr_RS@latin", "sr-RS"},  {"sr_RS.UTF-8@latin", "sr-RS"}, {"uz_UZ@cyrillic.x", "uz-UZ"},
        {"C", "en"},             {"POSIX", "en"},          {"C.UTF-8", "en"},         {"POSIX@x", "en"},              {"", "en"},
        {".UTF-8", "en"},        {"@euro", "en"},          {"zh_Hant_TW", "zh-Hant-TW"}, {"de", "de"},                {"en-US", "en-US"},
        {"Cy", "Cy"},            {"c", "c"},               {"_", "-"},                {"german", "german"},           {"de\xff", "de\xff"},
    };
    size_t row, room;
    for (row = 0; row < sizeof ROWS / sizeof *ROWS; row++) expect_text(ROWS[row][0], tag_of(ROWS[row][0], ROOM), ROWS[row][1]);
    expect_text("no name", tag_of(NULL, ROOM), "en");
    for (room = 0; room <= 6; room++) {
        memset(out, '.', ROOM);
        expect("room", tag_of("de_DE@euro", room), room < 5 ? LEGUMEYET_TOO_SMALL : LEGUMEYET_OK);
        expect("length", (int64_t)length, 5);
        expect("the front", memcmp(out, "de-DE", room < 5 ? room : 5), 0);
        expect("the byte after it", out[room < 5 ? room : 5], '.');
    }
    expect("no room", legumeyet_tag_of_locale_name("de_DE", NULL, 0, &length), LEGUMEYET_TOO_SMALL);
}

int main(int count, char **words) {
    size_t known = locales();
    expect("the world", legumeyet_book_open_world(&world), LEGUMEYET_OK);
    expect("over an open one", legumeyet_book_open_world(&world), LEGUMEYET_OK);
    opens(known);
    texts();
    groupings();
    if (count == 3) files(words[1], words[2]);
    names();
    expect("the book before its formatters", legumeyet_book_close(&world), LEGUMEYET_OK);
    closes(known);
    return wrong || count != 3;
}
