/*
 * Makes a call so many times, for bench/calls.py, which counts the instructions of one. The world's book is opened first, but for those of `first`
 * and of a tag alone, and is kept for the kinds that end with `-k` or `-s`, and for those of categories.
 *
 * usage: calls KIND COUNT
 */
#include <legumeyet.h>
#include <stdio.h>
#include <stdlib.h>

enum { ROOM = 128 };

static legumeyet_book book;
static legumeyet_formatter it;
static legumeyet_shared_formatter shared;
static uint8_t out[ROOM];
static size_t length, number_length;

static void well(const char *what, int32_t error) {
    if (error == 0) return;
    fprintf(stderr, "bench: %s: %d\n", what, (int)error);
    exit(1);
}

/* The kinds: the words of a format and the code of its currency; what is written, and by which options. */
static const struct {
    const char *name, *tag, *code, *number;
    legumeyet_format format;
    legumeyet_options options;
    int is_kept, is_asked, is_shared, is_first, is_alone;
} KINDS[] = {
    {.name = "text", .tag = "de", .number = "1234567"},
    {.name = "text-k", .tag = "de", .number = "1234567", .is_kept = 1},
    {.name = "text-s", .tag = "de", .number = "1234567", .is_kept = 1, .is_shared = 1},
    {.name = "exponent-k", .tag = "de", .number = "1234567e0", .is_kept = 1},
    {.name = "minus-k", .tag = "de", .number = "-1234.56", .is_kept = 1},
    {.name = "narrow-k", .tag = "fr", .number = "1234567", .is_kept = 1},
    {.name = "long-k", .tag = "de", .number = "12345678901234567", .is_kept = 1},
    {.name = "arabic-k", .tag = "ar-EG", .number = "1234567", .is_kept = 1},
    {.name = "short-k", .tag = "de", .format = {.notation = LEGUMEYET_NOTATION_COMPACT}, .number = "1234567", .is_kept = 1},
    {.name = "percent-k", .tag = "de", .format = {.unit = LEGUMEYET_UNIT_PERCENT}, .number = "1234567", .is_kept = 1},
    {.name = "amount-k", .tag = "de", .format = {.unit = LEGUMEYET_UNIT_CURRENCY}, .code = "EUR", .number = "1234567", .is_kept = 1},
    {.name = "rounded-k", .tag = "de", .number = "1234567.891", .options = {.rounding = LEGUMEYET_ROUND_HALF_EVEN}, .is_kept = 1, .is_asked = 1},
    {.name = "significant-k", .tag = "de", .number = "1234567.891", .options = {.maximum_significant_digits = 3}, .is_kept = 1, .is_asked = 1},
    {.name = "category-en", .tag = "en", .number = "1234567", .format = {.plurals = LEGUMEYET_PLURALS_CARDINAL}, .is_kept = 1},
    {.name = "category-pl", .tag = "pl", .number = "1234567", .format = {.plurals = LEGUMEYET_PLURALS_CARDINAL}, .is_kept = 1},
    {.name = "ordinal-en", .tag = "en", .number = "1234567", .format = {.plurals = LEGUMEYET_PLURALS_ORDINAL}, .is_kept = 1},
    {.name = "open-k", .tag = "de", .is_kept = 1},
    {.name = "open", .tag = "de"},
    {.name = "text-a", .tag = "de", .number = "1234567", .is_alone = 1},
    {.name = "first-book", .tag = "de", .number = "1234567", .is_first = 1},
    {.name = "first", .tag = "de", .number = "1234567", .is_first = 1, .is_alone = 1},
    {.name = "first-short", .tag = "de", .number = "1234567", .format = {.notation = LEGUMEYET_NOTATION_COMPACT}, .is_first = 1, .is_alone = 1},
    {.name = "first-amount", .tag = "de", .number = "1234567", .code = "EUR", .format = {.unit = LEGUMEYET_UNIT_CURRENCY}, .is_first = 1, .is_alone = 1},
};

static void open_formatter(size_t kind) {
    const char *tag = KINDS[kind].tag, *code = KINDS[kind].code == NULL ? "" : KINDS[kind].code;
    const legumeyet_format format = KINDS[kind].format;
    if (KINDS[kind].is_alone)
        well("alone", legumeyet_formatter_open_world(LEGUMEYET_TEXT(tag), LEGUMEYET_WORDS(format), LEGUMEYET_TEXT(code), &it));
    else
        well("open", legumeyet_formatter_open(&book, LEGUMEYET_TEXT(tag), LEGUMEYET_WORDS(format), LEGUMEYET_TEXT(code), &it));
}

static void write_number(size_t kind) {
    const uint8_t *number = (const uint8_t *)KINDS[kind].number;
    const legumeyet_options *options = KINDS[kind].is_asked ? &KINDS[kind].options : NULL;
    const size_t words = options == NULL ? 0 : sizeof *options / sizeof(int32_t);
    well("format", KINDS[kind].is_shared ? legumeyet_shared_formatter_format(&shared, number, number_length, options, words, out, ROOM, &length)
                                         : legumeyet_formatter_format(&it, number, number_length, options, words, out, ROOM, &length));
}

/* The call of a kind: of those without a number a formatter is opened; of the first ones the book of the formatter too. */
static void call(size_t kind) {
    if (KINDS[kind].is_first && !KINDS[kind].is_alone) well("a book", legumeyet_book_open_world(&book));
    if (KINDS[kind].is_first || KINDS[kind].number == NULL) open_formatter(kind);
    if (KINDS[kind].number != NULL) write_number(kind);
}

int main(int count_of_words, char **words) {
    size_t kind = 0, count = sizeof KINDS / sizeof *KINDS;
    while (kind < count && (count_of_words != 3 || strcmp(words[1], KINDS[kind].name) != 0)) kind++;
    if (count_of_words == 1)
        for (kind = 0; kind < count; kind++) puts(KINDS[kind].name);
    else if (kind == count)
        return 2;
    if (count_of_words == 1) return 0;
    if (!KINDS[kind].is_first && !KINDS[kind].is_alone) well("a book", legumeyet_book_open_world(&book));
    if (KINDS[kind].is_kept) well("kept", legumeyet_book_keep(&book));
    if (!KINDS[kind].is_first && KINDS[kind].number != NULL) open_formatter(kind);
    if (KINDS[kind].is_shared) well("shared", legumeyet_formatter_share(&it, &shared));
    number_length = KINDS[kind].number == NULL ? 0 : strlen(KINDS[kind].number);
    for (long at = atol(words[2]); at > 0; at--) call(kind);
    printf("%.*s\n", (int)length, (const char *)out);
    return 0;
}
