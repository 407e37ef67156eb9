/*
 * Uses shared formatters in eight threads at once, each call of them well and badly, and prints what they answer otherwise than they
 * should. `shared TURNS` makes so many calls of a plain formatter a thread, 100,000 without TURNS. The formatters are of a kept book and
 * of one that is not, and both books are closed before the threads start. The status is 1 where something is wrong.
 */
#include <legumeyet.h>
#include <pthread.h>
#include <stdio.h>
#include <stdlib.h>
#include <string.h>

#define TEXT(text) LEGUMEYET_TEXT(text)
#define WRITES_TO out, ROOM, length

enum { THREADS = 8, ROOM = 64 };

static const char BOOK[] = "[[[[\"en\",\"\",\"latn\",\"-\",\"\",\"+\",\"\",\".\",\",\",3,3,1],[\"de\",\"\",\"latn\",\"-\",\"\",\"+\",\"\",\",\",\".\",3,3,1]],"
                           "[[\"latn\",\"0123456789\"]],[[\"en\",[]]],[[\"en\",\"\",[[6,6,[[\"other\",[\"\",\"M\"]]]]],null]],[]],"
                           "[[],[[\"en\",\"\",null,[\"\\u00a4\",\"\"],null]],[[\"en\",\"\",null,[\"\\u00a4\",\"\"],null]],[[\"en\",\"USD\",\"$\",0]],[]]]";

/* Those of the kept book, and a plain one with tables of its own, the German one. */
static legumeyet_shared_formatter english, german, compact, dollars;

static int turns = 100000;

/* What a thread found wrong, and where its calls write to. */
typedef struct {
    unsigned seed;
    int wrong;
    uint8_t out[ROOM];
    size_t length;
} work;

/* Counts, and tells once, a call that did not write this text. */
static void expect_text(work *it, const char *what, int32_t error, const char *text) {
    if (error == 0 && it->length == strlen(text) && memcmp(it->out, text, it->length) == 0) return;
    if (it->wrong++ == 0) printf("%s: %d %.*s, and not %s\n", what, (int)error, (int)it->length, (const char *)it->out, text);
}

static void expect(work *it, const char *what, int64_t got, int64_t wanted) {
    if (got == wanted) return;
    if (it->wrong++ == 0) printf("%s: %lld, and not %lld\n", what, (long long)got, (long long)wanted);
}

/* A number that no other turn of a thread has, as text, in English, and in German. */
static void use_plain(work *it, unsigned turn) {
    unsigned high = 100 + (it->seed * 7919 + turn * 31) % 900, middle = turn % 1000, low = turn / 1000 % 1000;
    char number[ROOM], written[ROOM], in_german[ROOM];
    snprintf(number, sizeof number, "-%u%03u.%03u", high, middle, low);
    snprintf(written, sizeof written, "-%u,%03u.%03u", high, middle, low);
    snprintf(in_german, sizeof in_german, "-%u.%03u,%03u", high, middle, low);
    expect_text(it, "format", legumeyet_shared_formatter_format(&english, TEXT(number), NULL, 0, it->out, ROOM, &it->length), written);
    expect_text(it, "format", legumeyet_shared_formatter_format(&german, TEXT(number), NULL, 0, it->out, ROOM, &it->length), in_german);
}

/* The other calls, by each formatter. */
static void use_others(work *it) {
    static const struct {
        legumeyet_shared_formatter *formatter;
        const char *text, *integer, *natural, *real, *exact, *shown;
        size_t parts;
    } ROWS[] = {
        {&english, "-1,234.5", "-1,234.56", "5", "1,234.5", "1.20", "-1234.5", 5},
        {&german, "-1.234,5", "-1.234,56", "5", "1.234,5", "1,20", "-1234.5", 5},
        {&compact, "-1234", "-1235", "5", "1234", NULL, "-1234", 1},
        {&dollars, "-$1,234.50", "-$1,234.56", "$5.00", "$1,234.50", "$1.20", "-1234.50", 6},
    };
    legumeyet_interval intervals[8];
    size_t row, count = 0;
    uint8_t *out = it->out;
    size_t *length = &it->length;
    for (row = 0; row < sizeof ROWS / sizeof *ROWS; row++) {
        const legumeyet_shared_formatter *formatter = ROWS[row].formatter;
        expect_text(it, "i64", legumeyet_shared_formatter_format_i64(formatter, -123456, -2, NULL, 0, WRITES_TO), ROWS[row].integer);
        expect_text(it, "u64", legumeyet_shared_formatter_format_u64(formatter, 5, 0, NULL, 0, WRITES_TO), ROWS[row].natural);
        expect_text(it, "double", legumeyet_shared_formatter_format_double(formatter, 1234.5, NULL, 0, WRITES_TO), ROWS[row].real);
        expect_text(it, "parts", legumeyet_shared_formatter_format_parts(formatter, TEXT("-1234.5"), NULL, 0, WRITES_TO, intervals, 8, &count), ROWS[row].text);
        expect(it, "count of parts", (int64_t)count, (int64_t)ROWS[row].parts);
        expect_text(it, "shown", legumeyet_shared_formatter_shown(formatter, TEXT("-1234.5"), NULL, 0, WRITES_TO), ROWS[row].shown);
        expect(it, "number", legumeyet_shared_formatter_format(formatter, TEXT("5."), NULL, 0, WRITES_TO), LEGUMEYET_NUMBER);
        expect(it, "room", legumeyet_shared_formatter_format(formatter, TEXT("1234"), NULL, 0, NULL, 0, length), LEGUMEYET_TOO_SMALL);
        if (ROWS[row].exact == NULL) continue;
        expect_text(it, "exact", legumeyet_shared_formatter_format_exact(formatter, TEXT("1.20"), NULL, 0, WRITES_TO), ROWS[row].exact);
        expect_text(it, "read", legumeyet_shared_formatter_read(formatter, TEXT(ROWS[row].text), WRITES_TO), ROWS[row].shown);
        expect(it, "read", legumeyet_shared_formatter_read(formatter, TEXT("1234"), WRITES_TO), LEGUMEYET_NOT_WRITTEN);
        expect_text(it, "lenient", legumeyet_shared_formatter_read_lenient(formatter, TEXT(" 1234 "), WRITES_TO), "1234");
    }
    expect_text(it, "compact", legumeyet_shared_formatter_format_i64(&compact, -98765, 4, NULL, 0, WRITES_TO), "-988M");
    expect_text(it, "exact", legumeyet_shared_formatter_format_exact(&compact, TEXT("1.20c6"), NULL, 0, WRITES_TO), "1.20M");
    expect(it, "unreadable", legumeyet_shared_formatter_read(&compact, TEXT("1M"), WRITES_TO), LEGUMEYET_UNREADABLE);
}

/* Columns, of numbers that no other turn of a thread has. */
static void use_columns(work *it, unsigned turn) {
    const int64_t integers[2] = {100000 + 1000 * it->seed + turn % 1000, -7};
    const double doubles[2] = {(double)integers[0], -7};
    const unsigned high = (unsigned)(integers[0] / 1000), low = (unsigned)(integers[0] % 1000);
    size_t ends[3], count = 0;
    uint8_t *out = it->out;
    char written[ROOM], lines[ROOM];
    snprintf(written, sizeof written, "%u,%03u-7", high, low);
    expect(it, "integers", legumeyet_shared_formatter_format_integers(&english, integers, 2, 0, NULL, 0, out, ROOM, ends, 3, &count), 0);
    it->length = ends[1];
    expect_text(it, "integers", count == 2 ? 0 : -1, written);
    snprintf(lines, sizeof lines, "%u\n-7\nx", (unsigned)integers[0]);
    expect(it, "texts", legumeyet_shared_formatter_format_texts(&english, TEXT(lines), NULL, 0, out, ROOM, ends, 3, &count), LEGUMEYET_NUMBER);
    it->length = ends[1];
    expect_text(it, "texts", count == 2 ? 0 : -1, written);
    snprintf(written, sizeof written, "$%u,%03u.00-$7.00", high, low);
    expect(it, "amounts", legumeyet_shared_formatter_format_integers(&dollars, integers, 2, 0, NULL, 0, out, ROOM, ends, 3, &count), 0);
    it->length = ends[1];
    expect_text(it, "amounts", count == 2 ? 0 : -1, written);
    snprintf(written, sizeof written, "%u.%03u-7", high, low);
    expect(it, "doubles", legumeyet_shared_formatter_format_doubles(&german, doubles, 2, NULL, 0, out, ROOM, ends, 3, &count), 0);
    it->length = ends[1];
    expect_text(it, "doubles", count == 2 ? 0 : -1, written);
    expect(it, "compact", legumeyet_shared_formatter_format_doubles(&compact, doubles, 2, NULL, 0, out, ROOM, ends, 1, &count), LEGUMEYET_TOO_SMALL);
}

static void *do_work(void *given) {
    work *it = given;
    int turn;
    for (turn = 0; turn < turns; turn++) {
        use_plain(it, (unsigned)turn);
        if (turn % 10 == 0) use_columns(it, (unsigned)turn);
        if (turn % 100 == 0) use_others(it);
    }
    return NULL;
}

/* Opens a formatter of words and shares it; `opened` says what is wrong. */
static void share_one(work *opened, legumeyet_book *book, const char *tag, legumeyet_format words, const char *unit, legumeyet_shared_formatter *shared) {
    legumeyet_formatter it = {0};
    expect(opened, "share of a closed one", legumeyet_formatter_share(&it, shared), LEGUMEYET_CLOSED);
    expect(opened, "open", legumeyet_formatter_open(book, TEXT(tag), LEGUMEYET_WORDS(words), TEXT(unit), &it), 0);
    expect(opened, "share", legumeyet_formatter_share(&it, shared), 0);
    expect(opened, "share again", legumeyet_formatter_share(&it, shared), LEGUMEYET_CLOSED);
    expect(opened, "close of what was shared", legumeyet_formatter_close(&it), LEGUMEYET_CLOSED);
}

static void share_all(work *opened) {
    const legumeyet_format plain = {0}, short_form = {.notation = LEGUMEYET_NOTATION_COMPACT, .grouping = LEGUMEYET_GROUPING_MIN2};
    legumeyet_book kept = {0}, own = {0};
    expect(opened, "book", legumeyet_book_open(TEXT(BOOK), &kept) | legumeyet_book_open(TEXT(BOOK), &own) | legumeyet_book_keep(&kept), 0);
    share_one(opened, &kept, "en", plain, "", &english);
    share_one(opened, &own, "de", plain, "", &german);
    share_one(opened, &kept, "en", short_form, "", &compact);
    share_one(opened, &kept, "en", (legumeyet_format){.unit = LEGUMEYET_UNIT_CURRENCY}, "USD", &dollars);
    expect(opened, "close of the books", legumeyet_book_close(&kept) | legumeyet_book_close(&own), 0);
}

/* Closes them, twice; a copy stays open. */
static void close_all(work *closed) {
    legumeyet_shared_formatter copied = english, *const all[] = {&english, &german, &compact, &dollars};
    uint8_t *out = closed->out;
    size_t at, *length = &closed->length;
    for (at = 0; at < sizeof all / sizeof *all; at++) {
        expect(closed, "close", legumeyet_shared_formatter_close(all[at]), 0);
        expect(closed, "close again", legumeyet_shared_formatter_close(all[at]), LEGUMEYET_CLOSED);
        expect(closed, "closed", legumeyet_shared_formatter_format(all[at], TEXT("1"), NULL, 0, WRITES_TO), LEGUMEYET_CLOSED);
        expect(closed, "closed", legumeyet_shared_formatter_read(all[at], TEXT("1"), WRITES_TO), LEGUMEYET_CLOSED);
    }
    expect_text(closed, "copy", legumeyet_shared_formatter_format(&copied, TEXT("1234"), NULL, 0, WRITES_TO), "1,234");
    expect(closed, "close of a copy", legumeyet_shared_formatter_close(&copied), 0);
}

int main(int count, char **words) {
    static work works[THREADS], outside;
    pthread_t threads[THREADS];
    int at, wrong = 0;
    if (count > 1) turns = atoi(words[1]);
    share_all(&outside);
    for (at = 0; at < THREADS; at++) {
        works[at].seed = (unsigned)at + 1;
        if (pthread_create(&threads[at], NULL, do_work, &works[at]) != 0) return 1;
    }
    for (at = 0; at < THREADS; at++) wrong += pthread_join(threads[at], NULL) != 0 || works[at].wrong != 0;
    close_all(&outside);
    return wrong != 0 || outside.wrong != 0;
}
