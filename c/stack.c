/*
 * Makes each kind of call in a thread whose stack was filled with a mark, and looks how much of it was written over. It prints that of each
 * kind, and the status is 1 where it and a quarter more are above what the header says.
 *
 * usage: stack BOOK
 *
 * BOOK is a file with the world's book.
 */
#include <legumeyet.h>
#include <pthread.h>
#include <stdio.h>
#include <stdlib.h>
#include <string.h>

enum { STACK = 1 << 20, PROMISED = 48 << 10, PROMISED_DEEP = 168 << 10, MARK = 0xa5, DEEP = 100000, LONG = 32767, PARTS = 1 << 15, STEP = 7 };

/* Ends the work of a thread where a call returns another number. */
#define EXPECT(wanted, call) \
    if ((call) != (wanted)) return fprintf(stderr, "%s:%d: %s\n", __FILE__, __LINE__, #call), (void *)NULL
#define WELL(call) EXPECT(LEGUMEYET_OK, call)
#define NOT_MEMORY(call) EXPECT(true, (call) != LEGUMEYET_MEMORY)

static const char *path;
static const legumeyet_options ROUNDED = {.sign = LEGUMEYET_SIGN_ALWAYS, .rounding = LEGUMEYET_ROUND_HALF_EVEN, .position = -1};
static const legumeyet_options PADDED = {.rounding = LEGUMEYET_ROUND_EXPAND, .position = 3, .increment = 25, .trailing_zeros = LEGUMEYET_TRAILING_ZEROS_TRIM,
                                         .minimum_integer_digits = 9, .minimum_fraction_digits = 9};
static const legumeyet_options CASH = {.rounding = LEGUMEYET_ROUND_CASH};
static const legumeyet_options SIGNIFICANT = {.rounding = LEGUMEYET_ROUND_HALF_EVEN, .position = -1, .trailing_zeros = LEGUMEYET_TRAILING_ZEROS_TRIM_ALL,
                                              .minimum_significant_digits = 3, .maximum_significant_digits = 9,
                                              .rounding_priority = LEGUMEYET_PRIORITY_LESS_PRECISION};

/* The kept book of the world, and a number of as many digits as there may be. */
static legumeyet_book world;
static uint8_t digits[LONG];

static uint8_t out[1 << 19];
static size_t length, count, ends[4];
static legumeyet_interval parts[PARTS];

/* What a thread of its own does without a call. */
static void *nothing(void *given) { return given; }

static void *books(void *given) {
    legumeyet_book book = {0};
    WELL(legumeyet_book_open_world(&book));
    WELL(legumeyet_book_open_file(path, &book));
    WELL(legumeyet_book_locale_count(&book, &count));
    WELL(legumeyet_book_locale(&book, count - 1, out, sizeof out, &length));
    WELL(legumeyet_book_found_locale(&book, (const uint8_t *)"de-XX", 5, out, sizeof out, &length));
    WELL(legumeyet_book_close(&book));
    WELL(legumeyet_error_text(LEGUMEYET_BOOK_CYCLE, out, sizeof out, &length));
    WELL(legumeyet_tag_of_locale_name("de_DE.UTF-8", out, sizeof out, &length));
    return given;
}

/* JSONs of arrays in arrays, of objects in objects, and of both in turn, which are no books. */
static void *deep(void *given) {
    static const char *const INSIDE[] = {"[", "{\"\":", "{\"\":[", "[{\"\":"};
    static uint8_t json[DEEP];
    size_t row, at;
    for (row = 0; row < sizeof INSIDE / sizeof *INSIDE; row++) {
        const size_t each = strlen(INSIDE[row]);
        legumeyet_book book = {0};
        for (at = 0; at + each <= DEEP; at += each) memcpy(json + at, INSIDE[row], each);
        EXPECT(LEGUMEYET_BOOK_JSON, legumeyet_book_open(json, at, &book));
    }
    return given;
}

/* Each call of a formatter: a short number and one of as many digits as there may be, columns, and what is read and typed. What a format does
   not have is refused, and memory never. */
#define CALL_ALL(it, calls) \
    do { \
        static const double DOUBLES[] = {1234.5, -7, 1e300}; \
        static const int64_t INTEGERS[] = {123456, -7, INT64_MIN}; \
        uint8_t *said = out + sizeof out / 2; \
        WELL(calls##_format_i64(it, -123456789, -2, LEGUMEYET_WORDS(ROUNDED), out, sizeof out, &length)); \
        WELL(calls##_format_u64(it, 12345678901234567890U, -2, NULL, 0, out, sizeof out, &length)); \
        WELL(calls##_format_double(it, -123456789.25, LEGUMEYET_WORDS(PADDED), out, sizeof out, &length)); \
        WELL(calls##_format_double(it, 5e-324, LEGUMEYET_WORDS(ROUNDED), out, sizeof out, &length)); \
        WELL(calls##_format(it, digits, LONG - 1, LEGUMEYET_WORDS(PADDED), out, sizeof out, &length)); \
        WELL(calls##_format_parts(it, digits, LONG, LEGUMEYET_WORDS(ROUNDED), out, sizeof out, &length, parts, PARTS, &count)); \
        WELL(calls##_format(it, digits, LONG, LEGUMEYET_WORDS(ROUNDED), out, sizeof out, &length)); \
        WELL(calls##_format(it, digits, LONG, LEGUMEYET_WORDS(CASH), out, sizeof out, &length)); \
        WELL(calls##_format(it, digits, LONG, LEGUMEYET_WORDS(SIGNIFICANT), out, sizeof out, &length)); \
        EXPECT(LEGUMEYET_NUMBER, calls##_format(it, LEGUMEYET_TEXT("x"), NULL, 0, out, sizeof out, &length)); \
        WELL(calls##_format_doubles(it, DOUBLES, 3, LEGUMEYET_WORDS(ROUNDED), out, sizeof out, ends, 4, &count)); \
        WELL(calls##_format_integers(it, INTEGERS, 3, -2, LEGUMEYET_WORDS(PADDED), out, sizeof out, ends, 4, &count)); \
        WELL(calls##_format_texts(it, LEGUMEYET_TEXT("1234.5\n-7\n1e9"), LEGUMEYET_WORDS(ROUNDED), out, sizeof out, ends, 4, &count)); \
        WELL(calls##_shown(it, digits, LONG, LEGUMEYET_WORDS(ROUNDED), out, sizeof out, &length)); \
        NOT_MEMORY(calls##_format_exact(it, digits, LONG, LEGUMEYET_WORDS(ROUNDED), out, sizeof out, &length)); \
        NOT_MEMORY(calls##_format_exact(it, LEGUMEYET_TEXT("1.20c6"), NULL, 0, out, sizeof out, &length)); \
        NOT_MEMORY(calls##_format_range(it, digits, LONG, digits, LONG, LEGUMEYET_WORDS(ROUNDED), out, sizeof out, &length)); \
        NOT_MEMORY(calls##_tell(it, LEGUMEYET_FACT_DIGITS, out, sizeof out, &length)); \
        NOT_MEMORY(calls##_tell(it, LEGUMEYET_FACT_CASH_INCREMENT, out, sizeof out, &length)); \
        NOT_MEMORY(calls##_tell(it, LEGUMEYET_FACT_CATEGORIES, out, sizeof out, &length)); \
        WELL(calls##_format(it, digits, LONG, NULL, 0, out, sizeof out / 2, &length)); \
        NOT_MEMORY(calls##_read(it, out, length, said, sizeof out / 2, &count)); \
        NOT_MEMORY(calls##_read_lenient(it, out, length, said, sizeof out / 2, &count)); \
        NOT_MEMORY(calls##_read_lenient(it, digits, LONG, said, sizeof out / 2, &count)); \
        NOT_MEMORY(calls##_read(it, LEGUMEYET_TEXT("x"), said, sizeof out / 2, &count)); \
        NOT_MEMORY(calls##_read_lenient(it, LEGUMEYET_TEXT(" 1x "), said, sizeof out / 2, &count)); \
        NOT_MEMORY(calls##_read_lenient(it, LEGUMEYET_TEXT("1,234.5"), said, sizeof out / 2, &count)); \
    } while (0)

/* The formats: of words, and of skeletons. */
static const struct {
    legumeyet_format words;
    const char *unit, *skeleton;
} FORMATS[] = {
    {{0}, "", NULL},
    {{.notation = LEGUMEYET_NOTATION_COMPACT, .width = LEGUMEYET_WIDTH_LONG, .grouping = LEGUMEYET_GROUPING_MIN2}, "", NULL},
    {{.unit = LEGUMEYET_UNIT_PERCENT}, "", NULL},
    {{.unit = LEGUMEYET_UNIT_CURRENCY, .currency_style = LEGUMEYET_STYLE_ACCOUNTING}, "USD", NULL},
    {{.notation = LEGUMEYET_NOTATION_COMPACT, .plurals = LEGUMEYET_PLURALS_CARDINAL}, "", NULL},
    {{.plurals = LEGUMEYET_PLURALS_ORDINAL}, "", NULL},
    {{0}, "", "currency/CHF precision-currency-cash sign-accounting-except-zero unit-width-iso-code group-min2 integer-width/*000"},
    {{0}, "", "compact-short sign-always"},
    {{0}, "", "compact-long precision-increment/0.25"},
    {{.notation = LEGUMEYET_NOTATION_ENGINEERING}, "", NULL},
    {{.notation = LEGUMEYET_NOTATION_SCIENTIFIC, .plurals = LEGUMEYET_PLURALS_CARDINAL}, "", NULL},
    {{0}, "", "scientific/*ee/sign-always precision-increment/0.25"},
};

/* Formatters for some of the world's locales, by a book, and some of them shared. */
static void *formatters_of(legumeyet_book *book, void *given) {
    legumeyet_formatter it = {0};
    legumeyet_shared_formatter shared = {0};
    size_t at, row, place = 0;
    const char *tag;
    for (at = 0; (tag = legumeyet_world_locale(at)) != NULL; at += STEP) {
        for (row = 0; row < sizeof FORMATS / sizeof *FORMATS; row++) {
            if (FORMATS[row].skeleton != NULL) {
                WELL(legumeyet_formatter_open_skeleton(book, LEGUMEYET_TEXT(tag), LEGUMEYET_TEXT(FORMATS[row].skeleton), &place, &it));
            } else {
                WELL(legumeyet_formatter_open(book, LEGUMEYET_TEXT(tag), LEGUMEYET_WORDS(FORMATS[row].words), LEGUMEYET_TEXT(FORMATS[row].unit), &it));
            }
            CALL_ALL(&it, legumeyet_formatter);
            if (at % (8 * STEP) != 0) continue; /* what is shared stays */
            WELL(legumeyet_formatter_share(&it, &shared));
            CALL_ALL(&shared, legumeyet_shared_formatter);
            WELL(legumeyet_shared_formatter_close(&shared));
        }
    }
    EXPECT(true, legumeyet_formatter_close(&it) != LEGUMEYET_MEMORY);
    return given;
}

/* By a book that is not kept, whose formatters have tables of their own. */
static void *with_own_tables(void *given) {
    legumeyet_book book = {0};
    WELL(legumeyet_book_open_world(&book));
    if (formatters_of(&book, given) == NULL) return NULL;
    WELL(legumeyet_book_keep(&book));
    WELL(legumeyet_book_close(&book));
    return given;
}

static void *formatters(void *given) { return formatters_of(&world, given); }

/* Of tags alone. */
static void *alone(void *given) {
    legumeyet_formatter it = {0};
    size_t at, row, place = 0;
    const char *tag;
    for (at = 0; (tag = legumeyet_world_locale(at)) != NULL; at += STEP)
        for (row = 0; row < sizeof FORMATS / sizeof *FORMATS; row++) {
            if (FORMATS[row].skeleton != NULL) {
                WELL(legumeyet_formatter_open_world_skeleton(LEGUMEYET_TEXT(tag), LEGUMEYET_TEXT(FORMATS[row].skeleton), &place, &it));
            } else {
                WELL(legumeyet_formatter_open_world(LEGUMEYET_TEXT(tag), LEGUMEYET_WORDS(FORMATS[row].words), LEGUMEYET_TEXT(FORMATS[row].unit), &it));
            }
        }
    WELL(legumeyet_formatter_close(&it));
    return given;
}

/* Skeletons with a word of each kind, and with faults. */
static void *skeletons(void *given) {
    static const char *const TEXTS[] = {"currency/CHF precision-currency-cash sign-accounting-except-zero unit-width-iso-code group-min2 integer-width/*000",
                                        "percent .00##", "KK ,_ +! 000", ".00 rounding-mode-half-ceiling", "", "foo", "percent percent", "scale/100", "EE+!00 @@#", "scientific/sign-never"};
    static uint8_t wide[STACK];
    legumeyet_formatter it = {0};
    size_t row, place = 0;
    for (row = 0; row < sizeof TEXTS / sizeof *TEXTS; row++) {
        NOT_MEMORY(legumeyet_skeleton_normal(LEGUMEYET_TEXT(TEXTS[row]), &place, out, sizeof out, &length));
        NOT_MEMORY(legumeyet_formatter_open_skeleton(&world, LEGUMEYET_TEXT("ar-EG"), LEGUMEYET_TEXT(TEXTS[row]), &place, &it));
    }
    memset(wide, ' ', sizeof wide);
    WELL(legumeyet_formatter_open_skeleton(&world, LEGUMEYET_TEXT("ar-EG"), wide, sizeof wide, &place, &it));
    WELL(legumeyet_formatter_close(&it));
    return given;
}

/* The forms of request lines, and texts that they take. */
static const struct {
    const char *form, *rounding, *text;
} FORMS[] = {
    {"plain", "-2,half-even,25", "-987654.321"}, {"short", "0,expand,5", "987654321"}, {"long", "-", "-987654.321"}, {"exact-short", "-", "1.20c6"},
    {"exact-long", "-", "9c3"}, {"read", "-", "1"}, {"read-lenient", "-", "1234.5"}, {"read-lenient", "-", " .5 "}, {"percent", "-1,trunc,25", "12.5"},
    {"currency-USD", "-", "-1234.5"}, {"currency-CHF", "cash", "2.345"}, {"accounting-EUR", "-", "-5"}, {"code-JPY", "3,floor,1", "1234.5"},
    {"read-percent", "-", "5%"}, {"read-currency-USD", "-", "$5.00"}, {"read-accounting-USD", "-", "($5.00)"}, {"read-code-CHF", "cash", "CHF 5.00"},
    {"read-lenient-percent", "-", "12.5"}, {"read-lenient-currency-USD", "-", "USD 1234.5"}, {"read-lenient-accounting-EUR", "-", "(5)"},
    {"read-lenient-code-QQQ", "-", "5 QQQ"}, {"none", "-", "1"}, {"plain", "-", "1x"}, {"plain", "f0-2,s1-3,more,half-even", "12345.678"},
    {"plural", "s1-3,half-even", "-1234.5"}, {"ordinal", "-", "22"}, {"range-plural", "f0-2,half-even,1", "1..1234.5"},
    {"plural::currency/USD", "-", "1"}, {"ordinal::compact-long", "-", "1234567"}, {"range-plural::compact-short", "-", "1..1234567"},
    {"::currency/CHF precision-currency-cash sign-accounting-except-zero unit-width-iso-code group-min2 integer-width/*000", "-", "-1234.5"},
    {"scientific", "-", "-987654.321"}, {"engineering", "f0-2,half-even,1", "0.00012"}, {"::scientific/*ee sign-always", "-", "1234567"},
    {"plural::engineering", "-", "1234567"}, {"exact::compact-short sign-always", "-", "1.20c6"}, {"read::percent", "-", "5%"}, {"read-lenient::currency/EUR", "-", "EUR 1234.5"}};

/* Lines of each form for tags with ASCII digits and with others, and for one with all that a tag may have. */
static void *lines(void *given) {
    static const char *const TAGS[] = {"en", "de-CH", "ar-EG", "fa", "km-u-nu-khmr", "my-MM", "hi-u-nu-deva-x-a", "sl-rozaj-biske-1994-a-foo-t-it-m0-abc-u-cu-usd-nu-latn-x-y"};
    legumeyet_answers answers = {0};
    char line[256];
    size_t tag, form, read, written, needs;
    for (tag = 0; tag < sizeof TAGS / sizeof *TAGS; tag++) {
        for (form = 0; form < sizeof FORMS / sizeof *FORMS; form++) {
            snprintf(line, sizeof line, "%s\t%s\tauto\tkeep\t%s\t%s\n", TAGS[tag], FORMS[form].form, FORMS[form].rounding, FORMS[form].text);
            WELL(legumeyet_book_answer(&world, (const uint8_t *)line, strlen(line) - 1, out, sizeof out, &length));
            WELL(legumeyet_answers_open(&world, 1 + form % 3, &answers));
            WELL(legumeyet_answers_answer(&answers, LEGUMEYET_TEXT(line), out, sizeof out, &read, &written, &needs)); /* makes what is kept */
            WELL(legumeyet_answers_answer(&answers, LEGUMEYET_TEXT(line), out, sizeof out, &read, &written, &needs)); /* uses it */
        }
    }
    WELL(legumeyet_answers_close(&answers));
    return given;
}

/* A line with a number of as many digits as there may be, and one of another form after each, so that what is kept is let go. */
static void *long_lines(void *given) {
    static char many[2 * LONG];
    legumeyet_answers answers = {0};
    size_t form, read, written, needs;
    WELL(legumeyet_answers_open(&world, 1, &answers));
    for (form = 0; form < sizeof FORMS / sizeof *FORMS; form++) {
        int start = snprintf(many, sizeof many, "ar-EG\t%s\tauto\tkeep\t%s\t", FORMS[form].form, FORMS[form].rounding);
        memcpy(many + start, digits, LONG);
        memcpy(many + start + LONG, "\n", 2);
        WELL(legumeyet_answers_answer(&answers, LEGUMEYET_TEXT(many), out, sizeof out, &read, &written, &needs));
        WELL(legumeyet_book_answer(&world, (const uint8_t *)many, strlen(many) - 1, out, sizeof out, &length));
    }
    WELL(legumeyet_answers_close(&answers));
    return given;
}

/* How many bytes of its stack a thread writes over; 0 where it did not do its work. */
static size_t used(void *(*work)(void *)) {
    static uint8_t stack[STACK] __attribute__((aligned(4096)));
    pthread_attr_t attributes;
    pthread_t thread;
    void *done = NULL;
    size_t at = 0;
    memset(stack, MARK, STACK);
    if (pthread_attr_init(&attributes) != 0 || pthread_attr_setstack(&attributes, stack, STACK) != 0) return 0;
    if (pthread_create(&thread, &attributes, work, digits) != 0 || pthread_join(thread, &done) != 0 || done == NULL) return 0;
    while (stack[at] == MARK) at++;
    return STACK - at;
}

int main(int words_count, char **words) {
    static const struct {
        const char *name;
        void *(*work)(void *);
        size_t promised;
    } ROWS[] = {{"books", books, PROMISED}, {"deep JSON", deep, PROMISED_DEEP}, {"formatters", formatters, PROMISED}, {"skeletons", skeletons, PROMISED},
                {"with own tables", with_own_tables, PROMISED}, {"of tags alone", alone, PROMISED}, {"lines", lines, PROMISED}, {"long lines", long_lines, PROMISED}};
    size_t own, row;
    int wrong = words_count != 2;
    path = words_count == 2 ? words[1] : "";
    memset(digits, '9', LONG);
    if (legumeyet_book_open_world(&world) != 0 || legumeyet_book_keep(&world) != 0) return 1;
    own = used(nothing);
    for (row = 0; row < sizeof ROWS / sizeof *ROWS; row++) {
        const size_t all = used(ROWS[row].work), taken = all - own;
        printf("%s: %zu bytes\n", ROWS[row].name, all == 0 ? 0 : taken);
        wrong = wrong || all == 0 || taken + taken / 4 > ROWS[row].promised;
    }
    return wrong;
}
