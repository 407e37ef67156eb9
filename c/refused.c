/*
 * Makes each kind of call, and a call that memory is refused once more: tools/try_c runs it with each request for memory refused in
 * turn. A call is then well or answers LEGUMEYET_MEMORY, and the second one is well. It prints how many were refused; the status
 * is 1 where another number came or memory is lost. Lost memory is seen where malloc keeps no blocks for a thread:
 * GLIBC_TUNABLES=glibc.malloc.tcache_count=0.
 *
 * usage: refused BOOK
 */
#include <legumeyet.h>
#include <malloc.h>
#include <stdio.h>
#include <stdlib.h>
#include <string.h>

#define TEXT(text) LEGUMEYET_TEXT(text)
#define TWICE(call) (is_refused(call) ? expect_well(call) : (void)0)
#define TAG "en-a-aa-b-bb-u-ca-gregory-nu-latn-x-y"
#define DIGITS "-98765432109876543210.5"

static const char BOOK[] = "[[[[\"ar\",\"\",\"arab\",\"-\",\"\",\"+\",\"\",\"\\u066b\",\"\\u066c\",3,3,1],"
                           "[\"ar\",\"latn\",\"latn\",\"-\",\"\",\"+\",\"\",\".\",\",\",3,3,1],[\"en\",\"\",\"latn\",\"-\",\"\",\"+\",\"\",\".\",\",\",3,3,1]],"
                           "[[\"arab\",\"\\u0660\\u0661\\u0662\\u0663\\u0664\\u0665\\u0666\\u0667\\u0668\\u0669\"],[\"latn\",\"0123456789\"]],"
                           "[[\"en\",[[\"one\",\"i = 1\"]]]],[[\"en\",\"\",[[3,3,[[\"one\",[\"\",\" k\"]],[\"other\",[\"\",\" ks\"]]]]],null]],[]],"
                           "[[[\"en\",\"\",\"%\",null,[\"\",\"\\u00a4\"]]],[[\"en\",\"\",null,[\"\\u00a4\",\"\"],null]],"
                           "[[\"en\",\"\",null,[\"\\u00a4\",\"\",\"(\\u00a4\",\")\",\"+\\u00a4\",\"\"],null]],[[\"en\",\"USD\",\"$\",0]],"
                           "[[\"USD\",2,1,2,25]]],"
                           "[[],[],[[\"en\",\"\",\"E\",\"\\u00d7\",\"\\u2030\",\"~\",[\"\",\"\\u2013\",\"\"],[\"\",\"+\"],[\"\\u2264\",\"\"]]]]]";

static int refused, wrong;
static uint8_t out[64];
static size_t length;

static int is_refused(int32_t error) {
    if (error != LEGUMEYET_OK && error != LEGUMEYET_MEMORY) wrong = 1;
    refused += error == LEGUMEYET_MEMORY;
    return error == LEGUMEYET_MEMORY;
}

static void expect_well(int32_t error) { wrong = wrong || error != LEGUMEYET_OK; }

static void expect_text(const char *text) {
    if (length == strlen(text) && memcmp(out, text, length) == 0) return;
    printf("%.*s, and not %s\n", (int)length, (const char *)out, text);
    wrong = 1;
}

/* A number in a format, with its text by the options, and the count of its parts; then a text that is read, and one that was typed. */
static const struct {
    const char *tag, *skeleton, *number;
    legumeyet_options options;
    const char *text;
    size_t parts;
    const char *read, *typed, *typed_number;
} ROWS[] = {
    {TAG, "", DIGITS, {.rounding = LEGUMEYET_ROUND_HALF_EVEN}, "-98,765,432,109,876,543,210", 8, "-123,456,789.50", " -123456789.50", "-123456789.50"},
    {TAG, "", "1234567.8", {.rounding = LEGUMEYET_ROUND_HALF_EVEN, .position = -2, .increment = 25}, "1,234,567.75", 5, NULL, NULL, NULL},
    {TAG, "", DIGITS, {.rounding = LEGUMEYET_ROUND_HALF_EVEN, .maximum_significant_digits = 5, .rounding_priority = LEGUMEYET_PRIORITY_LESS_PRECISION}, "-98,765,000,000,000,000,000", 8, NULL, NULL, NULL},
    {TAG, "compact-short", DIGITS, {.rounding = LEGUMEYET_ROUND_HALF_EVEN}, "-98,765,432,109,876,543 ks", 1, NULL, NULL, NULL},
    {TAG, "compact-short precision-increment/0.25", DIGITS, {0}, "-98,765,432,109,876,543.25 ks", 9, NULL, NULL, NULL},
    {TAG, "scientific/*ee", DIGITS, {0}, "-9.87654321098765432105E19", 6, NULL, NULL, NULL},
    {TAG, "engineering", "-9876543.21098765", {.rounding = LEGUMEYET_ROUND_HALF_EVEN, .position = -16, .increment = 25}, "-9.8765432109876500E6", 6, NULL, NULL, NULL},
    {TAG, "percent", DIGITS, {0}, "-98,765,432,109,876,543,210.5%", 11, "-98,765,432,109.5%", "-98765432109.5", "-98765432109.5"},
    {TAG, "currency/USD sign-accounting", "-12345.5", {.rounding = LEGUMEYET_ROUND_CASH}, "($12,345.50)", 7, "($123,456,789.50)", "USD -123456789.50", "-123456789.50"},
    {"ar", ".00", "-5", {0}, "-\xd9\xa5", 2, "-\xd9\xa5", "-5.", "-5"},
};

/* A row, by a formatter that has tables of its own, or borrows those of a kept book. */
static void call_row(legumeyet_book *book, size_t row) {
    legumeyet_formatter it = {0};
    legumeyet_interval parts[16];
    size_t count = 0, place = 0;
    TWICE(legumeyet_formatter_open_skeleton(book, TEXT(ROWS[row].tag), TEXT(ROWS[row].skeleton), &place, &it));
    TWICE(legumeyet_formatter_format(&it, TEXT(ROWS[row].number), LEGUMEYET_WORDS(ROWS[row].options), out, sizeof out, &length));
    expect_text(ROWS[row].text);
    TWICE(legumeyet_formatter_format_parts(&it, TEXT(ROWS[row].number), LEGUMEYET_WORDS(ROWS[row].options), out, sizeof out, &length, parts, 16, &count));
    expect_text(ROWS[row].text);
    wrong = wrong || count != ROWS[row].parts;
    if (ROWS[row].read != NULL) {
        TWICE(legumeyet_formatter_read(&it, TEXT(ROWS[row].read), out, sizeof out, &length));
        wrong = wrong || length == 0 || out[0] != '-';
        TWICE(legumeyet_formatter_read_lenient(&it, TEXT(ROWS[row].typed), out, sizeof out, &length));
        expect_text(ROWS[row].typed_number);
    }
    expect_well(legumeyet_formatter_close(&it));
}

/* A formatter of words, which has rules of its own. */
static void call_words(legumeyet_book *book) {
    static const legumeyet_format WORDS = {.plurals = LEGUMEYET_PLURALS_CARDINAL};
    legumeyet_formatter it = {0};
    TWICE(legumeyet_formatter_open(book, TEXT(TAG), LEGUMEYET_WORDS(WORDS), NULL, 0, &it));
    TWICE(legumeyet_formatter_format(&it, TEXT("1"), NULL, 0, out, sizeof out, &length));
    expect_text("one");
    TWICE(legumeyet_formatter_format_range(&it, TEXT("1"), TEXT(DIGITS), NULL, 0, out, sizeof out, &length));
    expect_text("other");
    expect_well(legumeyet_formatter_close(&it));
}

/* The other calls, of a plain formatter and a compact one, whose book is closed before they write. */
static void call_others(legumeyet_book *book) {
    static const legumeyet_format COMPACT = {.notation = LEGUMEYET_NOTATION_COMPACT, .grouping = LEGUMEYET_GROUPING_MIN2};
    static const legumeyet_options ROUNDED = {.sign = LEGUMEYET_SIGN_AUTO, .rounding = LEGUMEYET_ROUND_HALF_EVEN};
    static const char *const TEXTS[2][3] = {{"-123,456,789,012,346", "12,345,678,901,234,568", "-123,456,789"},
                                            {"-123,456,789,012 ks", "12,345,678,901,235 ks", "-123,457 ks"}};
    legumeyet_formatter formatters[2] = {{0}, {0}};
    int at;
    TWICE(legumeyet_formatter_open(book, TEXT(TAG), NULL, 0, NULL, 0, &formatters[0]));
    TWICE(legumeyet_formatter_open(book, TEXT(TAG), LEGUMEYET_WORDS(COMPACT), NULL, 0, &formatters[1]));
    expect_well(legumeyet_book_close(book));
    for (at = 0; at < 2; at++) {
        TWICE(legumeyet_formatter_format_i64(&formatters[at], -123456789012345678, -3, LEGUMEYET_WORDS(ROUNDED), out, sizeof out, &length));
        expect_text(TEXTS[at][0]);
        TWICE(legumeyet_formatter_format_u64(&formatters[at], 12345678901234567890U, -3, LEGUMEYET_WORDS(ROUNDED), out, sizeof out, &length));
        expect_text(TEXTS[at][1]);
        TWICE(legumeyet_formatter_format_double(&formatters[at], -123456789.25, LEGUMEYET_WORDS(ROUNDED), out, sizeof out, &length));
        expect_text(TEXTS[at][2]);
    }
    TWICE(legumeyet_formatter_shown(&formatters[0], TEXT(DIGITS), LEGUMEYET_WORDS(ROUNDED), out, sizeof out, &length));
    expect_text("-98765432109876543210");
    TWICE(legumeyet_formatter_format_exact(&formatters[0], TEXT(DIGITS), NULL, 0, out, sizeof out, &length));
    expect_text("-98,765,432,109,876,543,210.5");
    TWICE(legumeyet_formatter_shown(&formatters[1], TEXT(DIGITS), LEGUMEYET_WORDS(ROUNDED), out, sizeof out, &length));
    expect_text("-98765432109876543c3");
    TWICE(legumeyet_formatter_format_exact(&formatters[1], TEXT("-1234567890.5c3"), LEGUMEYET_WORDS(ROUNDED), out, sizeof out, &length));
    expect_text("-1,234,567,890 ks");
    for (at = 0; at < 2; at++) expect_well(legumeyet_formatter_close(&formatters[at]));
}

/* Formatters of a tag alone, by the world's book. */
static void call_alone(void) {
    legumeyet_formatter it = {0};
    size_t place = 0;
    TWICE(legumeyet_formatter_open_world(TEXT("en-AU-u-nu-thai-rg-dezzzz"), NULL, 0, NULL, 0, &it));
    TWICE(legumeyet_formatter_format(&it, TEXT("5"), NULL, 0, out, sizeof out, &length));
    expect_text("\xe0\xb9\x95");
    TWICE(legumeyet_formatter_open_world_skeleton(TEXT("de"), TEXT("currency/EUR"), &place, &it));
    TWICE(legumeyet_formatter_format(&it, TEXT("-1234.5"), NULL, 0, out, sizeof out, &length));
    expect_text("-1.234,50\xc2\xa0\xe2\x82\xac");
    expect_well(legumeyet_formatter_close(&it));
}

static void call_all(const char *path) {
    legumeyet_book book = {0};
    size_t row;
    TWICE(legumeyet_book_open_file(path, &book));
    TWICE(legumeyet_book_open(TEXT(BOOK), &book));
    TWICE(legumeyet_book_answer(&book, TEXT(TAG "\tplain\tauto\tkeep\t-\t" DIGITS), out, sizeof out, &length));
    expect_text("ok\t-98,765,432,109,876,543,210.5");
    for (row = 0; row < sizeof ROWS / sizeof *ROWS; row++) call_row(&book, row);
    call_words(&book);
    call_others(&book);
    call_alone();
}

int main(int count, char **words) {
    void *volatile first = malloc(1), *volatile second = malloc(1);
    size_t before, after;
    free(first); /* by these malloc has what it takes for itself, though one of them be refused */
    free(second);
    before = mallinfo2().uordblks;
    if (count != 2) return 1;
    call_all(words[1]);
    after = mallinfo2().uordblks;
    if (after != before) printf("%zu bytes are lost\n", after - before);
    if (wrong) printf("a call answered otherwise\n");
    printf("%d refused\n", refused);
    return wrong || after != before;
}
