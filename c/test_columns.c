/*
 * Calls each function that writes a column, well and badly, by formatters and by shared ones, and prints what each answers otherwise than it
 * should. The status is 1 where something does.
 */
#include "calls.h"
#include <math.h>

enum { ENDS = 8, WIDE = 96 };

static legumeyet_book book, loose;
static legumeyet_formatter formatters[FORMATS], lent[FORMATS], closed;
static legumeyet_shared_formatter shared[FORMATS], closed_shared;
static caller by[FORMATS];
static uint8_t texts_out[WIDE];
static size_t ends[ENDS], count, room = WIDE, ends_room = ENDS;

static void clear_column(void) {
    size_t at;
    memset(texts_out, '.', sizeof texts_out);
    for (at = 0; at < ENDS; at++) ends[at] = 77;
    count = 77;
}

/* The call returned this, and wrote these texts with their ends, up to NULL, and no end after them. */
static void expect_column(int32_t error, int32_t wanted, const char *const *texts) {
    size_t at, end = 0, wanted_count = 0;
    while (texts[wanted_count] != NULL) wanted_count++;
    expect("a column", error, wanted);
    expect("how many were written", (int64_t)count, (int64_t)wanted_count);
    for (at = 0; at < wanted_count && at < count; at++) {
        const size_t each = strlen(texts[at]);
        if (memcmp(texts_out + end, texts[at], each) != 0) {
            fprintf(stderr, "%.*s, and not %s\n", (int)each, (const char *)texts_out + end, texts[at]);
            wrong = 1;
        }
        end += each;
        expect(texts[at], (int64_t)ends[at], (int64_t)end);
    }
    for (at = wanted_count; at < ENDS; at++) expect("an end after those", (int64_t)ends[at], 77);
    if (wanted != LEGUMEYET_TOO_SMALL && end < WIDE) expect("the byte after the texts", texts_out[end], '.');
    clear_column();
}

/* One text after the other. */
#define EXPECT(call, wanted, ...)                              \
    do {                                                       \
        static const char *const texts_[] = {__VA_ARGS__};     \
        expect_column(call, wanted, texts_);                   \
    } while (0)
#define WRITTEN texts_out, room, ends, ends_room, &count
#define OWN NULL, 0

static const double DOUBLES[] = {1234.5, -7, 0.25};
static const int64_t INTEGERS[] = {123450, -700, 0};
static const char LINES[] = "1234.50\n-7\n1e3\n";

/* What each format makes of these columns. */
static const struct {
    int format;
    const char *doubles[4], *integers[4], *lines[4];
} ROWS[] = {
    {PLAIN, {"1,234.5", "-7", "0.25"}, {"1,234.50", "-7.00", "0.00"}, {"1,234.50", "-7", "1,000"}},
    {SHORT, {"1.2K", "-7", "0.25"}, {"1.2K", "-7", "0"}, {"1.2K", "-7", "1K"}},
    {SCIENTIFIC, {"1.2345E3", "-7E0", "2.5E-1"}, {"1.2345E3", "-7E0", "0E0"}, {"1.2345E3", "-7E0", "1E3"}},
    {PERCENT, {"1,234.5%", "-7%", "0.25%"}, {"1,234.50%", "-7.00%", "0.00%"}, {"1,234.50%", "-7%", "1,000%"}},
    {EUROS, {EURO "1,234.50", "-" EURO "7.00", EURO "0.25"}, {EURO "1,234.50", "-" EURO "7.00", EURO "0.00"}, {EURO "1,234.50", "-" EURO "7.00", EURO "1,000.00"}},
};

static void columns(void) {
    const legumeyet_options digits = {.minimum_significant_digits = 2, .maximum_significant_digits = 3};
    size_t row;
    for (row = 0; row < COUNT(ROWS); row++) {
        const caller it = by[ROWS[row].format];
        expect_column(CALL(it, format_doubles, DOUBLES, 3, OWN, WRITTEN), LEGUMEYET_OK, ROWS[row].doubles);
        expect_column(CALL(it, format_integers, INTEGERS, 3, -2, OWN, WRITTEN), LEGUMEYET_OK, ROWS[row].integers);
        expect_column(CALL(it, format_texts, TEXT(LINES), OWN, WRITTEN), LEGUMEYET_OK, ROWS[row].lines);
    }
    EXPECT(CALL(by[PLAIN], format_doubles, DOUBLES, 3, LEGUMEYET_WORDS(digits), WRITTEN), LEGUMEYET_OK, "1,230", "-7.0", "0.25", NULL);
    EXPECT(CALL(by[PLAIN], format_integers, INTEGERS, 3, -2, LEGUMEYET_WORDS(digits), WRITTEN), LEGUMEYET_OK, "1,230", "-7.0", "0.0", NULL);
    EXPECT(CALL(by[SCIENTIFIC], format_doubles, DOUBLES, 3, LEGUMEYET_WORDS(digits), WRITTEN), LEGUMEYET_OK, "1.23E3", "-7.0E0", "2.5E-1", NULL);
    EXPECT(CALL(by[TWO_DIGITS], format_texts, TEXT(LINES), OWN, WRITTEN), LEGUMEYET_OK, "1.2345E03", "-7E00", "1E03", NULL);
    EXPECT(CALL(by[EUROS], format_texts, TEXT(LINES), LEGUMEYET_WORDS(digits), WRITTEN), LEGUMEYET_OK, EURO "1,230", "-" EURO "7.0", EURO "1,000", NULL);
}

/* Where lines end, and numbers that are none. */
static void lines(void) {
    const caller plain = by[PLAIN];
    EXPECT(CALL(plain, format_texts, TEXT("1234.50\n-7\n1e3"), OWN, WRITTEN), LEGUMEYET_OK, "1,234.50", "-7", "1,000", NULL);
    EXPECT(CALL(plain, format_texts, TEXT("7\n\n8"), OWN, WRITTEN), LEGUMEYET_NUMBER, "7", NULL);
    EXPECT(CALL(plain, format_texts, TEXT("7\r\n8"), OWN, WRITTEN), LEGUMEYET_NUMBER, NULL);
    EXPECT(CALL(plain, format_texts, TEXT("7\n1e32768\n8"), OWN, WRITTEN), LEGUMEYET_LIMIT, "7", NULL);
    EXPECT(CALL(plain, format_texts, TEXT("\n"), OWN, WRITTEN), LEGUMEYET_NUMBER, NULL);
    EXPECT(CALL(plain, format_texts, NULL, 0, OWN, WRITTEN), LEGUMEYET_OK, NULL);
    EXPECT(CALL(plain, format_integers, INTEGERS, 1, 32767, OWN, WRITTEN), LEGUMEYET_LIMIT, NULL);
}

/* What stops a column, and that one goes on from there. */
static void stops(void) {
    static const double BROKEN[] = {5, NAN, 1e21, -INFINITY};
    static const legumeyet_options ROUNDED = {.sign = LEGUMEYET_SIGN_ALWAYS, .rounding = LEGUMEYET_ROUND_HALF_EVEN, .position = -1};
    static const legumeyet_options CASH = {.sign = LEGUMEYET_SIGN_ALWAYS, .rounding = LEGUMEYET_ROUND_CASH}, UNKNOWN = {.sign = 6};
    const caller plain = by[PLAIN];
    size_t row;
    EXPECT(CALL(plain, format_doubles, DOUBLES, 3, LEGUMEYET_WORDS(ROUNDED), WRITTEN), LEGUMEYET_OK, "+1,234.5", "-7.0", "+0.2", NULL);
    EXPECT(CALL(plain, format_doubles, BROKEN, 4, OWN, WRITTEN), LEGUMEYET_NUMBER, "5", NULL);
    EXPECT(CALL(plain, format_doubles, BROKEN + 2, 2, OWN, WRITTEN), LEGUMEYET_NUMBER, "1,000,000,000,000,000,000,000", NULL);
    room = 9;
    EXPECT(CALL(plain, format_doubles, DOUBLES, 3, OWN, WRITTEN), LEGUMEYET_TOO_SMALL, "1,234.5", "-7", NULL);
    EXPECT(CALL(plain, format_doubles, DOUBLES + 2, 1, OWN, WRITTEN), LEGUMEYET_OK, "0.25", NULL);
    room = 8;
    EXPECT(CALL(plain, format_doubles, DOUBLES, 3, OWN, WRITTEN), LEGUMEYET_TOO_SMALL, "1,234.5", NULL);
    room = 6;
    EXPECT(CALL(plain, format_doubles, DOUBLES, 3, OWN, WRITTEN), LEGUMEYET_TOO_SMALL, NULL);
    EXPECT(CALL(plain, format_doubles, DOUBLES, 3, OWN, NULL, 0, ends, ends_room, &count), LEGUMEYET_TOO_SMALL, NULL);
    room = WIDE;
    ends_room = 2;
    EXPECT(CALL(plain, format_doubles, DOUBLES, 3, OWN, WRITTEN), LEGUMEYET_TOO_SMALL, "1,234.5", "-7", NULL);
    EXPECT(CALL(plain, format_doubles, DOUBLES, 2, OWN, WRITTEN), LEGUMEYET_OK, "1,234.5", "-7", NULL);
    ends_room = 1;
    EXPECT(CALL(plain, format_doubles, BROKEN, 4, OWN, WRITTEN), LEGUMEYET_TOO_SMALL, "5", NULL);
    EXPECT(CALL(plain, format_doubles, DOUBLES, 3, OWN, texts_out, room, NULL, 0, &count), LEGUMEYET_TOO_SMALL, NULL);
    EXPECT(CALL(plain, format_doubles, NULL, 0, OWN, NULL, 0, NULL, 0, &count), LEGUMEYET_OK, NULL);
    EXPECT(CALL(plain, format_integers, NULL, 0, 0, OWN, WRITTEN), LEGUMEYET_OK, NULL);
    ends_room = ENDS;
    for (row = 0; row < COUNT(ROWS); row++) {
        EXPECT(CALL(by[ROWS[row].format], format_doubles, NULL, 0, LEGUMEYET_WORDS(UNKNOWN), WRITTEN), LEGUMEYET_OPTION, NULL);
        EXPECT(CALL(by[ROWS[row].format], format_integers, INTEGERS, 3, 0, LEGUMEYET_WORDS(UNKNOWN), WRITTEN), LEGUMEYET_OPTION, NULL);
        EXPECT(CALL(by[ROWS[row].format], format_texts, TEXT("x"), LEGUMEYET_WORDS(UNKNOWN), WRITTEN), LEGUMEYET_OPTION, NULL);
    }
    EXPECT(CALL(by[PERCENT], format_doubles, DOUBLES, 1, LEGUMEYET_WORDS(CASH), WRITTEN), LEGUMEYET_OK, "+1,234.5%", NULL);
    EXPECT(CALL(by[EUROS], format_doubles, DOUBLES, 1, LEGUMEYET_WORDS(CASH), WRITTEN), LEGUMEYET_OK, "+" EURO "1,234.50", NULL);
}

/* By a handle that has no formatter open. */
static void no_columns(caller it) {
    EXPECT(CALL(it, format_doubles, NULL, 0, OWN, WRITTEN), LEGUMEYET_CLOSED, NULL);
    EXPECT(CALL(it, format_doubles, DOUBLES, 3, OWN, WRITTEN), LEGUMEYET_CLOSED, NULL);
    EXPECT(CALL(it, format_integers, INTEGERS, 3, 0, OWN, WRITTEN), LEGUMEYET_CLOSED, NULL);
    EXPECT(CALL(it, format_texts, TEXT("x"), OWN, WRITTEN), LEGUMEYET_CLOSED, NULL);
}

int main(void) {
    size_t row, turn;
    clear_column();
    expect("the book", legumeyet_book_open(TEXT(BOOK), &book), LEGUMEYET_OK);
    expect("another book", legumeyet_book_open(TEXT(BOOK), &loose), LEGUMEYET_OK);
    expect("kept", legumeyet_book_keep(&book), LEGUMEYET_OK);
    for (turn = 0; turn < 4; turn++) { /* by formatters that borrow tables or have their own, and by the same shared */
        for (row = 0; row < FORMATS; row++) {
            expect("a format", open_asked(turn % 2 == 0 ? &book : &loose, &ASKED[row], turn < 2 ? &formatters[row] : &lent[row]), LEGUMEYET_OK);
            if (turn >= 2) expect("a share", legumeyet_formatter_share(&lent[row], &shared[row]), LEGUMEYET_OK);
            by[row] = turn < 2 ? (caller){.own = &formatters[row]} : (caller){.shared = &shared[row]};
        }
        columns();
        lines();
        stops();
    }
    no_columns((caller){.own = &closed});
    no_columns((caller){.own = (void *)&book});
    no_columns((caller){.shared = &closed_shared});
    for (row = 0; row < FORMATS; row++) expect("a close", legumeyet_formatter_close(&formatters[row]), LEGUMEYET_OK);
    expect("a close", legumeyet_book_close(&book), LEGUMEYET_OK);
    expect("a close", legumeyet_book_close(&loose), LEGUMEYET_OK);
    return wrong;
}
