/*
 * Keeps a book, and writes with formatters of it: some that were opened before, those that borrow its tables, and these after the book is
 * closed. tools/try_c also runs it with each request for memory refused in turn: a call is then well or answers LEGUMEYET_MEMORY, and is
 * well when it is made again. It prints how many were refused; the status is 1 where something is otherwise. What a kept book has is
 * never given back, so no tool may look for lost memory here.
 */
#include "expect.h"
#include <legumeyet.h>
#include <malloc.h>
#include <stdio.h>
#include <string.h>

#define TEXT(text) LEGUMEYET_TEXT(text)
#define TWICE(call) (is_refused(call) ? expect(#call, call, LEGUMEYET_OK) : (void)0)

/* The patterns of thousands are those of each magnitude from three on, but for eight of them, which have their own: so a formatter that has
   a copy of the short table holds far more than one that borrows it. */
#define PATTERNS(magnitude, word) "[" #magnitude ",3,[[\"one\",[\"\",\" k" word "\"]],[\"other\",[\"\",\" ks" word "\"]]]]"
#define FOUR(a, b, c, d) PATTERNS(a, " one") "," PATTERNS(b, " two") "," PATTERNS(c, " three") "," PATTERNS(d, " four")

/* A pair: tables of numbers, those of Arabic with second ones; and those of percents, of dollars, and of their digits in cash, which are
   multiples of 25 of the last one. */
static const char BOOK[] = "[[[[\"ar\",\"\",\"arab\",\"-\",\"\",\"+\",\"\",\"\\u066b\",\"\\u066c\",3,3,1],"
                           "[\"ar\",\"latn\",\"latn\",\"-\",\"\",\"+\",\"\",\".\",\",\",3,3,1],[\"en\",\"\",\"latn\",\"-\",\"\",\"+\",\"\",\".\",\",\",3,3,1]],"
                           "[[\"arab\",\"\\u0660\\u0661\\u0662\\u0663\\u0664\\u0665\\u0666\\u0667\\u0668\\u0669\"],[\"latn\",\"0123456789\"]],"
                           "[[\"en\",[[\"one\",\"i = 1\"]]]],"
                           "[[\"en\",\"\",[" PATTERNS(3, "") "," FOUR(11, 12, 13, 14) "," FOUR(15, 16, 17, 18) "],null]],"
                           "[[\"en\",\"\",[[3,3,[[\"other\",[\"\",\" thousand\"]]]]],null]]],"
                           "[[[\"ar\",\"\",\"\\u066a\",null,[\"\",\"\\u00a4\"]],[\"ar\",\"latn\",\"%\",null,[\"\",\"\\u00a4\"]],"
                           "[\"en\",\"\",\"%\",null,[\"\",\"\\u00a4\"]]],[[\"en\",\"\",null,[\"\\u00a4\",\"\"],null]],"
                           "[[\"en\",\"\",null,[\"\\u00a4\",\"\",\"(\\u00a4\",\")\",\"+\\u00a4\",\"\"],null]],[[\"en\",\"USD\",\"$\",0]],"
                           "[[\"USD\",2,1,2,25]]]]";

enum { PLAIN, SHORT, PERCENTS, DOLLARS, ARABIC, ARABIC_PERCENTS, CATEGORIES, FORMATS };

/* The formatters: the first two are those whose memory is compared. */
static const struct {
    const char *tag, *unit;
    legumeyet_format words;
} ASKED[FORMATS] = {
    [PLAIN] = {"en", "", {.grouping = LEGUMEYET_GROUPING_MIN2}},
    [SHORT] = {"en", "", {.notation = LEGUMEYET_NOTATION_COMPACT, .grouping = LEGUMEYET_GROUPING_MIN2}},
    [PERCENTS] = {"en", "", {.unit = LEGUMEYET_UNIT_PERCENT}},
    [DOLLARS] = {"en", "USD", {.unit = LEGUMEYET_UNIT_CURRENCY, .currency_style = LEGUMEYET_STYLE_ACCOUNTING}},
    [ARABIC] = {"ar", "", {0}},
    [ARABIC_PERCENTS] = {"ar", "", {.unit = LEGUMEYET_UNIT_PERCENT}},
    [CATEGORIES] = {"en", "", {.notation = LEGUMEYET_NOTATION_COMPACT, .plurals = LEGUMEYET_PLURALS_CARDINAL}},
};

static legumeyet_book book;
static legumeyet_formatter own[FORMATS], borrowing[FORMATS], long_english;
static legumeyet_answers answers;
static uint8_t out[64];
static size_t length;
static int refused;

static int is_refused(int32_t error) {
    if (error != LEGUMEYET_MEMORY) expect("a call", error, LEGUMEYET_OK);
    refused += error == LEGUMEYET_MEMORY;
    return error == LEGUMEYET_MEMORY;
}

static void expect_text(const char *text) {
    expect(text, (int64_t)length, (int64_t)strlen(text));
    expect(text, memcmp(out, text, strlen(text)), 0);
}

/* Opens formatters, from the first up to the last, and tells the memory that they hold; 0 under valgrind, which has an allocator of its own.
   What a refused call gave back may be given again in larger blocks, so it is compared only where none was refused before. */
static size_t open_some(legumeyet_formatter *formatters, int first, int last) {
    const size_t start = mallinfo2().uordblks;
    int at;
    for (at = first; at < last; at++)
        TWICE(legumeyet_formatter_open(&book, TEXT(ASKED[at].tag), LEGUMEYET_WORDS(ASKED[at].words), TEXT(ASKED[at].unit), &formatters[at]));
    return mallinfo2().uordblks - start;
}

/* Texts that formatters write, by the options of a row, with the numbers that they read of other texts; NULL: they read none of it. */
static const struct {
    int format;
    const char *number, *text;
    legumeyet_options options;
    const char *read, *typed, *typed_number;
} ROWS[] = {
    {PLAIN, "-1234.5", "-1234.5", {0}, "-1234.5", " 12345.50 ", "12345.50"},
    {PLAIN, "98765432109876123", "98,765,432,109,876,123", {0}, "98765432109876123", "1,23", NULL},
    {PERCENTS, "-98765432109876123.5", "-98,765,432,109,876,123.5%", {0}, "-98765432109876123.5", "-98765432109876123.5 %", "-98765432109876123.5"},
    {DOLLARS, "1234567.8", "$1,234,567.75", {.rounding = LEGUMEYET_ROUND_CASH}, "1234567.75", "USD -1234567890.5", "-1234567890.5"},
    {DOLLARS, "-98765432109876123", "($98,765,432,109,876,123.00)", {0}, "-98765432109876123.00", "5 $", "5"},
    {ARABIC, "-5", "-\xd9\xa5", {0}, "-5", "-98,765,432,109.5", "-98765432109.5"},
    {ARABIC_PERCENTS, "5", "\xd9\xa5\xd9\xaa", {0}, "5", "98,765,432,109.5 %", "98765432109.5"},
};

/* What is told of a text that was typed, where memory for it was not refused; a refused call is made again. */
static int32_t told_of(legumeyet_formatter *formatter, const char *text) {
    int32_t told = legumeyet_formatter_read_lenient(formatter, TEXT(text), out, sizeof out, &length);
    if (told != LEGUMEYET_MEMORY) return told;
    refused++;
    return legumeyet_formatter_read_lenient(formatter, TEXT(text), out, sizeof out, &length);
}

static void write_rows(legumeyet_formatter *formatters) {
    size_t row;
    for (row = 0; row < sizeof ROWS / sizeof *ROWS; row++) {
        legumeyet_formatter *it = &formatters[ROWS[row].format];
        TWICE(legumeyet_formatter_format(it, TEXT(ROWS[row].number), LEGUMEYET_WORDS(ROWS[row].options), out, sizeof out, &length));
        expect_text(ROWS[row].text);
        TWICE(legumeyet_formatter_read(it, TEXT(ROWS[row].text), out, sizeof out, &length));
        expect_text(ROWS[row].read);
        expect(ROWS[row].typed, told_of(it, ROWS[row].typed), ROWS[row].typed_number != NULL ? LEGUMEYET_OK : LEGUMEYET_NOT_WRITTEN);
        if (ROWS[row].typed_number != NULL) expect_text(ROWS[row].typed_number);
    }
}

/* A column: where memory was refused those before the number are written, and it goes on from there. */
static void write_column(legumeyet_formatter *plain) {
    static const char *const lines[] = {"1234.5\n98765432109876123\n-7\n1e20\n", "98765432109876123\n-7\n1e20\n", "-7\n1e20\n", "1e20\n"};
    size_t ends[4] = {0}, count = 0, used = 0, more = 0;
    if (is_refused(legumeyet_formatter_format_texts(plain, TEXT(lines[0]), NULL, 0, out, sizeof out, ends, 4, &count))) {
        expect("those before it", count < 4, 1);
        used = count == 0 ? 0 : ends[count - 1];
        expect("it goes on", legumeyet_formatter_format_texts(plain, TEXT(lines[count & 3]), NULL, 0, out + used, sizeof out - used, ends + count, 4 - count, &more), LEGUMEYET_OK);
    }
    expect("how many", (int64_t)(count + more), 4);
    length = used + ends[3];
    expect_text("1234.598,765,432,109,876,123-7100,000,000,000,000,000,000");
}

/* Words of plural categories. */
static void write_words(legumeyet_formatter *words) {
    legumeyet_interval parts[8];
    size_t count = 77;
    TWICE(legumeyet_formatter_format(words, TEXT("1"), NULL, 0, out, sizeof out, &length));
    expect_text("one");
    TWICE(legumeyet_formatter_format(words, TEXT("98765432109876123"), NULL, 0, out, sizeof out, &length));
    expect_text("other");
    TWICE(legumeyet_formatter_format_parts(words, TEXT("1"), NULL, 0, out, sizeof out, &length, parts, 8, &count));
    expect("no parts", (int64_t)count, 0);
    TWICE(legumeyet_formatter_format_range(words, TEXT("98765432109876123"), TEXT("98765432109876124"), NULL, 0, out, sizeof out, &length));
    expect_text("other");
    expect("facts", legumeyet_formatter_tell(words, LEGUMEYET_FACT_CATEGORIES, out, sizeof out, &length), LEGUMEYET_OK);
    expect_text("one other");
    expect("no word is read", legumeyet_formatter_read(words, TEXT("one"), out, sizeof out, &length), LEGUMEYET_UNREADABLE);
    expect("nor a number", legumeyet_formatter_read_lenient(words, TEXT("1"), out, sizeof out, &length), LEGUMEYET_UNREADABLE);
}

/* Each other call of formatters, which are the same whoever has the tables. */
static void write_all(legumeyet_formatter *formatters) {
    legumeyet_formatter *compact = &formatters[SHORT], *dollars = &formatters[DOLLARS];
    legumeyet_interval parts[8];
    size_t count = 0;
    write_rows(formatters);
    write_column(&formatters[PLAIN]);
    write_words(&formatters[CATEGORIES]);
    TWICE(legumeyet_formatter_format_parts(&formatters[PLAIN], TEXT("-12345.5"), NULL, 0, out, sizeof out, &length, parts, 8, &count));
    expect("parts", (int64_t)count, 5);
    TWICE(legumeyet_formatter_format(compact, TEXT("1650"), NULL, 0, out, sizeof out, &length));
    expect_text("1.6 k");
    TWICE(legumeyet_formatter_format_i64(compact, 98765432109876123, 0, NULL, 0, out, sizeof out, &length));
    expect_text("98,765,432,109,876 ks two");
    TWICE(legumeyet_formatter_format_parts(compact, TEXT("-1650"), NULL, 0, out, sizeof out, &length, parts, 8, &count));
    expect("parts", (int64_t)count, 1);
    TWICE(legumeyet_formatter_shown(compact, TEXT("1650"), NULL, 0, out, sizeof out, &length));
    expect_text("1.6c3");
    TWICE(legumeyet_formatter_format_exact(compact, TEXT("1.60c3"), NULL, 0, out, sizeof out, &length));
    expect_text("1.60 k");
    expect("no compact text is read", legumeyet_formatter_read(compact, TEXT("1.6 k"), out, sizeof out, &length), LEGUMEYET_UNREADABLE);
    TWICE(legumeyet_formatter_shown(dollars, TEXT("98765432109876123"), NULL, 0, out, sizeof out, &length));
    expect_text("98765432109876123.00");
    TWICE(legumeyet_formatter_format_exact(dollars, TEXT("5"), NULL, 0, out, sizeof out, &length));
    expect_text("$5.00");
    TWICE(legumeyet_formatter_format_u64(dollars, 5, -1, NULL, 0, out, sizeof out, &length));
    expect_text("$0.50");
    TWICE(legumeyet_formatter_format_double(dollars, -98765432.125, NULL, 0, out, sizeof out, &length));
    expect_text("($98,765,432.12)");
    TWICE(legumeyet_formatter_format_parts(dollars, TEXT("-12345.5"), NULL, 0, out, sizeof out, &length, parts, 8, &count));
    expect("parts", (int64_t)count, 7);
}

/* Lines that are answered together, with a room that is too small at first. What is refused is asked again, from the line that it was. */
static void answer_lines(void) {
    static const char LINES[] = "en\tplain\tauto\tkeep\t-\t-98765432109876543210.5\nen-a-aa-b-bb-u-nu-latn-x-y\tshort\tauto\tkeep\t-\t1650\nq\n"
                                "en\tcurrency-USD\tauto\tkeep\t-\t1234.5\nen\tread-lenient\tauto\tkeep\t-\t 1234.5\nen\tplain";
    static const char ANSWERS[] = "ok\t-98,765,432,109,876,543,210.5\nok\t1.6 k\t1.6c3\nerr\tshape\nok\t$1,234.50\nok\t1234.5\n";
    static uint8_t all[sizeof ANSWERS];
    size_t at = 0, to = 0, room = 0, read, written, needs;
    int32_t error;
    do {
        error = legumeyet_answers_answer(&answers, TEXT(LINES + at), all + to, room - to, &read, &written, &needs);
        refused += error == LEGUMEYET_MEMORY;
        at += read;
        to += written;
        room += error == LEGUMEYET_TOO_SMALL && room < sizeof all;
    } while (error == LEGUMEYET_MEMORY || (error == LEGUMEYET_TOO_SMALL && to + needs <= sizeof all));
    expect("lines", error, LEGUMEYET_OK);
    expect("what was read", (int64_t)at, (int64_t)(strrchr(LINES, '\n') + 1 - LINES));
    expect("what was written", (int64_t)to, (int64_t)strlen(ANSWERS));
    expect("their answers", memcmp(all, ANSWERS, to), 0);
}

/* Calls on a kept book answer as on any other. */
static void use_kept_book(void) {
    const legumeyet_format unknown = {.grouping = 5};
    size_t place = 77;
    TWICE(legumeyet_book_answer(&book, TEXT("en\tplain\tauto\tkeep\t-\t-1234.5"), out, sizeof out, &length));
    expect_text("ok\t-1,234.5");
    TWICE(legumeyet_formatter_open_skeleton(&book, TEXT("en"), TEXT("compact-long"), &place, &long_english));
    TWICE(legumeyet_formatter_format(&long_english, TEXT("1650"), NULL, 0, out, sizeof out, &length));
    expect_text("1.6 thousand");
    expect("a tag", legumeyet_formatter_open(&book, TEXT("e"), NULL, 0, NULL, 0, &borrowing[PLAIN]), LEGUMEYET_TAG);
    expect("no option", legumeyet_formatter_open(&book, TEXT("en"), LEGUMEYET_WORDS(unknown), NULL, 0, &borrowing[PLAIN]), LEGUMEYET_OPTION);
    expect("no skeleton", legumeyet_formatter_open_skeleton(&book, TEXT("en"), TEXT("foo"), &place, &long_english), LEGUMEYET_SKELETON_UNKNOWN);
}

int main(void) {
    size_t held, borrowed;
    int at;
    expect("a closed book", legumeyet_book_keep(&book), LEGUMEYET_CLOSED);
    TWICE(legumeyet_book_open(TEXT(BOOK), &book));
    held = open_some(own, PLAIN, PERCENTS);
    open_some(own, PERCENTS, FORMATS);
    TWICE(legumeyet_book_keep(&book));
    expect("once more", legumeyet_book_keep(&book), LEGUMEYET_OK);
    borrowed = open_some(borrowing, PLAIN, PERCENTS);
    if (held != 0 && refused == 0) expect("it borrows", 2 * borrowed < held, 1);
    open_some(borrowing, PERCENTS, FORMATS);
    TWICE(legumeyet_answers_open(&book, 2, &answers));
    answer_lines();
    use_kept_book();
    write_all(own);
    write_all(borrowing);
    expect("the book", legumeyet_book_close(&book), LEGUMEYET_OK);
    expect("a closed book", legumeyet_book_keep(&book), LEGUMEYET_CLOSED);
    answer_lines();
    write_all(borrowing);
    expect("its answers", legumeyet_answers_close(&answers), LEGUMEYET_OK);
    expect("its formatter", legumeyet_formatter_close(&long_english), LEGUMEYET_OK);
    for (at = 0; at < FORMATS; at++) expect("its formatter", legumeyet_formatter_close(&borrowing[at]), LEGUMEYET_OK);
    write_all(own);
    for (at = 0; at < FORMATS; at++) expect("its formatter", legumeyet_formatter_close(&own[at]), LEGUMEYET_OK);
    printf("%d refused\n", refused);
    return wrong;
}
