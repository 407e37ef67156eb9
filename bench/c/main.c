/*
 * Times the calls of legumeyet.h beside those of ICU4C, in turns, and prints the one over the other: below 1 this library is faster.
 * `k` is of formatters that borrow the tables of a book that is kept, and `s` of one of these that is shared.
 * ICU4C's texts are UTF-16, as its calls for C write and read them; what it reads is an integer, and here the digits.
 *
 * usage: main BOOK [TURNS]
 */
#include <legumeyet.h>
#include <malloc.h>
#include <stdio.h>
#include <stdlib.h>
#include <string.h>
#include <time.h>
#include <unicode/unum.h>
#include <unicode/unumberformatter.h>
#include <unicode/ustring.h>

enum { ROOM = 128, DIGITS = 18, CALLS = 20000, HANDLES = 64 };

static legumeyet_book book, kept_book;
static legumeyet_formatter plain, kept_plain, compact, kept_compact;
static legumeyet_shared_formatter shared_plain;
static UNumberFormatter *icu_plain, *icu_compact;
static UNumberFormat *icu_reader;
static UFormattedNumber *icu_result;

/* What is written: the digits, as a text and as an integer; and what is read: their text in English. */
static const char *const NUMBER = "987654321987654321";
static size_t count;
static int64_t integer;
static uint8_t written[ROOM], out[ROOM];
static UChar wide_written[ROOM], wide_out[ROOM];
static size_t written_length, length;
static int64_t wide_integer;
static UErrorCode status;

static void end(const char *what) {
    fprintf(stderr, "bench: %s\n", what);
    exit(1);
}

static void text_by(legumeyet_formatter *formatter) {
    if (legumeyet_formatter_format(formatter, (const uint8_t *)NUMBER, count, NULL, 0, out, ROOM, &length) != 0) end("format");
}

static void text_here(void) { text_by(&plain); }

static void kept_text_here(void) { text_by(&kept_plain); }

static void shared_text_here(void) {
    if (legumeyet_shared_formatter_format(&shared_plain, (const uint8_t *)NUMBER, count, NULL, 0, out, ROOM, &length) != 0)
        end("format of a shared one");
}

static void text_there(void) {
    unumf_formatDecimal(icu_plain, NUMBER, (int32_t)count, icu_result, &status);
    unumf_resultToString(icu_result, wide_out, ROOM, &status);
}

static void integer_here(void) {
    if (legumeyet_formatter_format_i64(&plain, integer, 0, NULL, 0, out, ROOM, &length) != 0) end("format_i64");
}

static void integer_there(void) {
    unumf_formatInt(icu_plain, integer, icu_result, &status);
    unumf_resultToString(icu_result, wide_out, ROOM, &status);
}

static void short_here(void) { text_by(&compact); }

static void kept_short_here(void) { text_by(&kept_compact); }

static void short_there(void) {
    unumf_formatDecimal(icu_compact, NUMBER, (int32_t)count, icu_result, &status);
    unumf_resultToString(icu_result, wide_out, ROOM, &status);
}

static void read_here(void) {
    if (legumeyet_formatter_read(&plain, written, written_length, out, ROOM, &length) != 0) end("read");
}

static void read_there(void) { wide_integer = unum_parseInt64(icu_reader, wide_written, (int32_t)written_length, NULL, &status); }

typedef struct {
    const char *name;
    void (*here)(void), (*there)(void);
} row;

static const row ROWS[] = {
    {"text", text_here, text_there},
    {"integer", integer_here, integer_there},
    {"short", short_here, short_there},
    {"read", read_here, read_there},
    {"text k", kept_text_here, text_there},
    {"short k", kept_short_here, short_there},
    {"text s", shared_text_here, text_there},
};

enum { KINDS = sizeof ROWS / sizeof ROWS[0] };

static double now(void) {
    struct timespec it;
    clock_gettime(CLOCK_PROCESS_CPUTIME_ID, &it);
    return (double)it.tv_sec * 1e9 + (double)it.tv_nsec;
}

/* Keeps the least time of a call, in nanoseconds. */
static void time_of(void (*call)(void), double *least) {
    double start = now(), spent;
    int at;
    for (at = 0; at < CALLS; at++) call();
    spent = (now() - start) / CALLS;
    if (*least == 0 || spent < *least) *least = spent;
}

/* Whether both wrote the same text last. */
static void expect_same(const char *what) {
    UChar wide[ROOM];
    int32_t wide_length = 0;
    u_strFromUTF8(wide, ROOM, &wide_length, (const char *)out, (int32_t)length, &status);
    if (u_strncmp(wide, wide_out, wide_length) != 0 || wide_out[wide_length] != 0) end(what);
}

/* Makes the text that is read: the integer as it was written last. */
static void prepare_reading(void) {
    memcpy(written, out, length);
    written_length = length;
    memcpy(wide_written, wide_out, sizeof wide_out);
}

/* Makes the numbers of a row of the table, and sees that both sides write them alike and read the same number. */
static void prepare(size_t digits) {
    count = digits;
    integer = strtoll(NUMBER + DIGITS - digits, NULL, 10);
    text_there();
    text_here();
    expect_same("the texts differ");
    kept_text_here();
    expect_same("the texts of a kept book differ");
    shared_text_here();
    expect_same("the texts of a shared formatter differ");
    short_there();
    short_here();
    expect_same("the short texts differ");
    kept_short_here();
    expect_same("the short texts of a kept book differ");
    integer_there();
    integer_here();
    expect_same("the texts of integers differ");
    prepare_reading();
    read_there();
    read_here();
    if (wide_integer != integer || length != digits || memcmp(out, NUMBER + DIGITS - digits, digits) != 0) end("what is read differs");
    if (U_FAILURE(status)) end(u_errorName(status));
}

static void open_plain(legumeyet_book *from, legumeyet_formatter *formatter) {
    if (legumeyet_formatter_open(from, LEGUMEYET_TEXT("en"), NULL, 0, NULL, 0, formatter) != 0) end("plain");
}

static void open_compact(legumeyet_book *from, legumeyet_formatter *formatter) {
    const legumeyet_format words = {.notation = LEGUMEYET_NOTATION_COMPACT, .grouping = LEGUMEYET_GROUPING_MIN2};
    if (legumeyet_formatter_open(from, LEGUMEYET_TEXT("en"), LEGUMEYET_WORDS(words), NULL, 0, formatter) != 0) end("compact");
}

static void open_all(const char *path) {
    static uint8_t json[1 << 24];
    FILE *file = fopen(path, "rb");
    size_t json_length = file == NULL ? 0 : fread(json, 1, sizeof json, file);
    if (json_length == 0 || legumeyet_book_open(json, json_length, &book) != 0) end("the book can't be opened");
    if (legumeyet_book_open(json, json_length, &kept_book) != 0 || legumeyet_book_keep(&kept_book) != 0) end("the book can't be kept");
    fclose(file);
    open_plain(&book, &plain);
    open_plain(&kept_book, &kept_plain);
    if (legumeyet_formatter_share(&kept_plain, &shared_plain) != 0) end("share");
    open_plain(&kept_book, &kept_plain);
    open_compact(&book, &compact);
    open_compact(&kept_book, &kept_compact);
    icu_plain = unumf_openForSkeletonAndLocale(u"", 0, "en", &status);
    icu_compact = unumf_openForSkeletonAndLocale(u"compact-short", -1, "en", &status);
    icu_reader = unum_open(UNUM_DECIMAL, NULL, 0, "en", NULL, &status);
    icu_result = unumf_openResult(&status);
    if (U_FAILURE(status)) end(u_errorName(status));
}

/* What formatters of a book hold, beside their handles; they stay open, so that no memory is used again. */
static void print_memory(const char *whose, legumeyet_book *from) {
    legumeyet_formatter *plains = calloc(HANDLES, sizeof *plains);
    legumeyet_formatter *compacts = calloc(HANDLES, sizeof *compacts);
    size_t start = mallinfo2().uordblks, held;
    int at;
    if (plains == NULL || compacts == NULL) end("memory");
    for (at = 0; at < HANDLES; at++) open_plain(from, &plains[at]);
    held = mallinfo2().uordblks - start;
    for (at = 0; at < HANDLES; at++) open_compact(from, &compacts[at]);
    printf("a formatter of %s holds %zu bytes, a short one %zu\n", whose, held / HANDLES,
           (mallinfo2().uordblks - start - held) / HANDLES);
}

int main(int words, char **word) {
    int turns = words > 2 ? atoi(word[2]) : 15, turn;
    size_t digits, kind;
    double sums[KINDS] = {0}, text_sum = 0, integer_sum = 0, kept_sum = 0, shared_sum = 0;
    if (words < 2) end("usage: main BOOK [TURNS]");
    open_all(word[1]);
    printf("digits");
    for (kind = 0; kind < KINDS; kind++) printf("%9s  ns here", ROWS[kind].name);
    printf("  integer, text  text s, text k\n");
    for (digits = 1; digits <= DIGITS; digits++) {
        double here[KINDS] = {0}, there[KINDS] = {0};
        prepare(digits);
        for (turn = 0; turn < turns; turn++)
            for (kind = 0; kind < KINDS; kind++) {
                time_of(ROWS[kind].here, &here[kind]);
                time_of(ROWS[kind].there, &there[kind]);
            }
        printf("%6zu", digits);
        for (kind = 0; kind < KINDS; kind++) {
            printf("%9.2f%9.0f", here[kind] / there[kind], here[kind]);
            sums[kind] += here[kind] / there[kind] / DIGITS;
        }
        printf("%15.2f%16.2f\n", here[1] / here[0], here[6] / here[4]);
        text_sum += here[0];
        integer_sum += here[1];
        kept_sum += here[4];
        shared_sum += here[6];
    }
    printf("mean  ");
    for (kind = 0; kind < KINDS; kind++) printf("%9.2f         ", sums[kind]);
    printf("%6.2f%16.2f\n", integer_sum / text_sum, shared_sum / kept_sum);
    printf("a handle has %zu bytes\n", sizeof plain);
    print_memory("a book", &book);
    print_memory("a kept book", &kept_book);
    return 0;
}
