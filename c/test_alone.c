/*
 * Opens formatters of a tag alone, in many formats and for each locale of the world's book and odd tags, and compares all that they write, read
 * and tell with what formatters of that book do. It prints what is otherwise than it should be, and the status is 1 where something is.
 */
#include "calls.h"
#include <pthread.h>

enum { FORMATS_ALONE = 17, THREADS = 4, FACTS = 12 };

static const struct {
    legumeyet_format words;
    const char *unit, *skeleton;
} ALONE[FORMATS_ALONE] = {
    {{0}, "", NULL},
    {{.grouping = LEGUMEYET_GROUPING_ON_ALIGNED}, "", NULL},
    {{.notation = LEGUMEYET_NOTATION_COMPACT, .grouping = LEGUMEYET_GROUPING_MIN2}, "", NULL},
    {{.notation = LEGUMEYET_NOTATION_COMPACT, .width = LEGUMEYET_WIDTH_LONG}, "", NULL},
    {{.notation = LEGUMEYET_NOTATION_SCIENTIFIC}, "", NULL},
    {{.notation = LEGUMEYET_NOTATION_ENGINEERING}, "", NULL},
    {{.unit = LEGUMEYET_UNIT_PERCENT}, "", NULL},
    {{.unit = LEGUMEYET_UNIT_PERMILLE}, "", NULL},
    {{.unit = LEGUMEYET_UNIT_CURRENCY}, "EUR", NULL},
    {{.unit = LEGUMEYET_UNIT_CURRENCY, .currency_style = LEGUMEYET_STYLE_ACCOUNTING}, "CHF", NULL},
    {{.unit = LEGUMEYET_UNIT_CURRENCY, .currency_width = LEGUMEYET_CURRENCY_CODE}, "XQX", NULL},
    {{.plurals = LEGUMEYET_PLURALS_CARDINAL}, "", NULL},
    {{.plurals = LEGUMEYET_PLURALS_ORDINAL}, "", NULL},
    {{.plurals = LEGUMEYET_PLURALS_CARDINAL, .unit = LEGUMEYET_UNIT_CURRENCY}, "JPY", NULL},
    {{0}, "", "compact-short .00"},
    {{0}, "", "currency/USD .00/w sign-accounting"},
    {{0}, "", "scientific/*ee"},
};

/* Tags that no locale of the book is: with extensions, systems, unknown parts, scripts, variants and in capitals. */
static const char *const ODD[] = {
    "DE-AT",         "de-u-nu-thai",      "de-XX",        "en-US-u-sd-ustx",  "hi-u-nu-deva", "ar-EG-u-nu-latn", "qaa",       "und",
    "zh-Hant-TW",    "de-CH-1996",        "en-u-rg-dezz", "sr-Latn-RS-x-foo", "nn-NO",        "root",            "pt-CV",     "es-419-u-nu-arabext",
    "mo",            "en-u-nu-zzzz",      "fil-PH",       "ca-ES-valencia",   "az-Cyrl",      "i-klingon",       "no",        "zxx",
};

/* What is refused, and how. */
static const struct {
    const char *tag;
    legumeyet_format words;
    const char *unit, *skeleton;
    int32_t error;
    size_t place;
} REFUSED[] = {
    {"e", {0}, "", NULL, LEGUMEYET_TAG, 99},
    {"de_DE", {0}, "", NULL, LEGUMEYET_TAG, 99},
    {"", {0}, "", NULL, LEGUMEYET_TAG, 99},
    {"de\xff", {0}, "", NULL, LEGUMEYET_TAG, 99},
    {"de\",\"x", {0}, "", NULL, LEGUMEYET_TAG, 99},
    {"e", {.unit = LEGUMEYET_UNIT_CURRENCY}, "EUR", NULL, LEGUMEYET_TAG, 99},
    {"e", {.plurals = LEGUMEYET_PLURALS_ORDINAL}, "", NULL, LEGUMEYET_TAG, 99},
    {"e", {.grouping = 5}, "", NULL, LEGUMEYET_OPTION, 99},
    {"de", {.notation = 9}, "", NULL, LEGUMEYET_OPTION, 99},
    {"de", {.unit = LEGUMEYET_UNIT_CURRENCY}, "eur", NULL, LEGUMEYET_CODE, 99},
    {"de", {.unit = LEGUMEYET_UNIT_CURRENCY}, "", NULL, LEGUMEYET_CODE, 99},
    {"de", {0}, "EUR", NULL, LEGUMEYET_CODE, 99},
    {"de", {.notation = LEGUMEYET_NOTATION_COMPACT, .unit = LEGUMEYET_UNIT_PERCENT}, "", NULL, LEGUMEYET_TABLE, 99},
    {"de", {.notation = LEGUMEYET_NOTATION_SCIENTIFIC, .unit = LEGUMEYET_UNIT_CURRENCY}, "EUR", NULL, LEGUMEYET_TABLE, 99},
    {"e", {0}, "", "percent", LEGUMEYET_TAG, 99},
    {"e", {0}, "", "percent foo", LEGUMEYET_SKELETON_UNKNOWN, 8},
    {"de", {0}, "", "percent currency/EUR", LEGUMEYET_SKELETON_TWICE, 8},
    {"de", {0}, "", "currency/EURO", LEGUMEYET_SKELETON_CODE, 0},
    {"de", {0}, "", "compact-short currency/EUR", LEGUMEYET_TABLE, 99},
};

static const char *const NUMBERS[] = {"0", "1", "-1234.5", "21", "1650", "+12345678.905", "999999", "0.00012", "1e20", "123456789012345678901.25"};
static const char *const TYPED[] = {"1234.5", "1,234.5", "1.234,5", " 5 ", ".5", "-5", "\xe2\x82\xac" "5", "5 EUR", "5%", "1 234,50", "\xd9\xa1\xd9\xa2", "x"};

static legumeyet_book world;
static uint8_t twin_out[512], own_out[512];
static size_t twin_length, own_length;

static int32_t open_alone(const char *tag, const legumeyet_format *words, const char *unit, const char *skeleton, size_t *place, legumeyet_formatter *it) {
    if (skeleton != NULL) return legumeyet_formatter_open_world_skeleton(TEXT(tag), TEXT(skeleton), place, it);
    return legumeyet_formatter_open_world(TEXT(tag), LEGUMEYET_WORDS(*words), TEXT(unit), it);
}

static int32_t open_twin(const char *tag, const legumeyet_format *words, const char *unit, const char *skeleton, size_t *place, legumeyet_formatter *it) {
    if (skeleton != NULL) return legumeyet_formatter_open_skeleton(&world, TEXT(tag), TEXT(skeleton), place, it);
    return legumeyet_formatter_open(&world, TEXT(tag), LEGUMEYET_WORDS(*words), TEXT(unit), it);
}

static void expect_same_text(const char *tag, size_t row, const char *what, int32_t own, int32_t twin) {
    if (own == twin && (own != LEGUMEYET_OK || (own_length == twin_length && memcmp(own_out, twin_out, own_length) == 0))) return;
    fprintf(stderr, "%s, format %zu, %s: %d, and not %d\n", tag, row, what, (int)own, (int)twin);
    wrong = 1;
}

#define BOTH(call, ...) \
    call(own, __VA_ARGS__, own_out, sizeof own_out, &own_length), call(twin, __VA_ARGS__, twin_out, sizeof twin_out, &twin_length)

/* Two formatters write, read and tell the same. */
static void expect_twins(const char *tag, size_t row, legumeyet_formatter *own, legumeyet_formatter *twin) {
    const legumeyet_options tenths = {.sign = LEGUMEYET_SIGN_ALWAYS, .rounding = LEGUMEYET_ROUND_HALF_EVEN, .position = -1};
    size_t at;
    uint32_t fact;
    for (at = 0; at < COUNT(NUMBERS); at++) {
        const char *it = NUMBERS[at];
        expect_same_text(tag, row, "rounded", BOTH(legumeyet_formatter_format, TEXT(it), LEGUMEYET_WORDS(tenths)));
        expect_same_text(tag, row, "shown", BOTH(legumeyet_formatter_shown, TEXT(it), NOTHING));
        expect_same_text(tag, row, "a range", BOTH(legumeyet_formatter_format_range, TEXT(it), TEXT("2"), NOTHING));
        expect_same_text(tag, row, it, BOTH(legumeyet_formatter_format, TEXT(it), NOTHING));
        expect_same_text(tag, row, "read", BOTH(legumeyet_formatter_read, own_out, own_length));
        expect_same_text(tag, row, it, BOTH(legumeyet_formatter_format, TEXT(it), NOTHING));
        expect_same_text(tag, row, "read as typed", BOTH(legumeyet_formatter_read_lenient, own_out, own_length));
    }
    for (at = 0; at < COUNT(TYPED); at++) expect_same_text(tag, row, TYPED[at], BOTH(legumeyet_formatter_read_lenient, TEXT(TYPED[at])));
    for (fact = 0; fact <= FACTS; fact++) expect_same_text(tag, row, "a fact", BOTH(legumeyet_formatter_tell, fact));
}

/* Both are opened, or refused alike. */
static void compare(const char *tag) {
    size_t row;
    for (row = 0; row < FORMATS_ALONE; row++) {
        legumeyet_formatter own = {0}, twin = {0};
        size_t place = 0;
        const int32_t error = open_alone(tag, &ALONE[row].words, ALONE[row].unit, ALONE[row].skeleton, &place, &own);
        expect(tag, error, open_twin(tag, &ALONE[row].words, ALONE[row].unit, ALONE[row].skeleton, &place, &twin));
        if (error == LEGUMEYET_OK) expect_twins(tag, row, &own, &twin);
        expect("closed alike", legumeyet_formatter_close(&own), legumeyet_formatter_close(&twin));
    }
}

/* A call that is refused leaves its handle as it was, open or closed, and tells the place of a faulty word. */
static void refused(void) {
    size_t row;
    for (row = 0; row < COUNT(REFUSED); row++) {
        legumeyet_formatter kept = {0}, closed = {0};
        size_t place = 99, twin_place = 99;
        const legumeyet_format plain = {0};
        expect("open", open_alone("de", &plain, "", NULL, &place, &kept), LEGUMEYET_OK);
        expect(REFUSED[row].tag, open_alone(REFUSED[row].tag, &REFUSED[row].words, REFUSED[row].unit, REFUSED[row].skeleton, &place, &kept), REFUSED[row].error);
        expect("its place", (int64_t)place, (int64_t)REFUSED[row].place);
        expect("by the book", open_twin(REFUSED[row].tag, &REFUSED[row].words, REFUSED[row].unit, REFUSED[row].skeleton, &twin_place, &closed), REFUSED[row].error);
        expect("its place", (int64_t)twin_place, (int64_t)place);
        expect_text("it writes", legumeyet_formatter_format(&kept, TEXT("1234.5"), NOTHING, out, ROOM, &length), "1.234,5");
        expect("a closed one", open_alone(REFUSED[row].tag, &REFUSED[row].words, REFUSED[row].unit, REFUSED[row].skeleton, &place, &closed), REFUSED[row].error);
        expect("stays closed", legumeyet_formatter_close(&closed), LEGUMEYET_CLOSED);
        expect("a close", legumeyet_formatter_close(&kept), LEGUMEYET_OK);
        expect("another", legumeyet_formatter_close(&kept), LEGUMEYET_CLOSED);
    }
}

/* No words, no unit, a longer struct of words, what has another formatter open, a shared one, and one that is opened again. */
static void handles(void) {
    static legumeyet_shared_formatter shared;
    legumeyet_formatter it = {0};
    int32_t more[9] = {0};
    size_t place = 99;
    expect("no words", legumeyet_formatter_open_world(TEXT("de-AT"), NOTHING, NOTHING, &it), LEGUMEYET_OK);
    expect_text("it writes", legumeyet_formatter_format(&it, TEXT("1234.5"), NOTHING, out, ROOM, &length), "1" SPACE "234,5");
    expect("over an open one", legumeyet_formatter_open_world_skeleton(TEXT("de"), TEXT("currency/EUR"), &place, &it), LEGUMEYET_OK);
    expect("no place", (int64_t)place, 99);
    expect_text("it writes", legumeyet_formatter_format(&it, TEXT("1234.5"), NOTHING, out, ROOM, &length), "1.234,50" SPACE EURO);
    expect_text("and reads", legumeyet_formatter_read_lenient(&it, TEXT("1234,5"), out, ROOM, &length), "1234.5");
    expect("a skeleton of no words", legumeyet_formatter_open_world_skeleton(TEXT("de"), NOTHING, &place, &it), LEGUMEYET_OK);
    expect("no tag", legumeyet_formatter_open_world(NOTHING, NOTHING, NOTHING, &it), LEGUMEYET_TAG);
    expect("no tag of a skeleton", legumeyet_formatter_open_world_skeleton(NOTHING, NOTHING, &place, &it), LEGUMEYET_TAG);
    expect_text("it writes", legumeyet_formatter_format(&it, TEXT("1234.5"), NOTHING, out, ROOM, &length), "1.234,5");
    expect("words to come", legumeyet_formatter_open_world(TEXT("fr"), (const legumeyet_format *)more, COUNT(more), NOTHING, &it), LEGUMEYET_OK);
    more[8] = 1;
    expect("that are not known", legumeyet_formatter_open_world(TEXT("fr"), (const legumeyet_format *)more, COUNT(more), NOTHING, &it), LEGUMEYET_OPTION);
    expect("shared", legumeyet_formatter_share(&it, &shared), LEGUMEYET_OK);
    expect_text("it writes", legumeyet_shared_formatter_format(&shared, TEXT("1234.5"), NOTHING, out, ROOM, &length), "1\xe2\x80\xaf" "234,5");
    expect("closed by that", legumeyet_formatter_close(&it), LEGUMEYET_CLOSED);
    expect("opened again", legumeyet_formatter_open_world(TEXT("en"), NOTHING, NOTHING, &it), LEGUMEYET_OK);
    expect("a close", legumeyet_formatter_close(&it), LEGUMEYET_OK);
}

/* Threads open and use formatters of their own. */
static void *in_thread(void *from) {
    const size_t first = *(const size_t *)from;
    size_t at;
    const char *tag;
    for (at = first; (tag = legumeyet_world_locale(at)) != NULL; at += 16 * THREADS) {
        legumeyet_formatter own = {0};
        uint8_t text[ROOM];
        size_t wrote = 0;
        if (legumeyet_formatter_open_world(TEXT(tag), NOTHING, NOTHING, &own) != LEGUMEYET_OK) return from;
        if (legumeyet_formatter_format(&own, TEXT("-1234567.5"), NOTHING, text, sizeof text, &wrote) != LEGUMEYET_OK) return from;
        if (legumeyet_formatter_read(&own, text, wrote, text, 0, &wrote) == LEGUMEYET_OK) return from;
        if (legumeyet_formatter_close(&own) != LEGUMEYET_OK) return from;
    }
    return NULL;
}

static void threads(void) {
    pthread_t all[THREADS];
    size_t starts[THREADS], at;
    void *failed = NULL;
    for (at = 0; at < THREADS; at++) {
        starts[at] = at;
        expect("a thread", pthread_create(&all[at], NULL, in_thread, &starts[at]), 0);
    }
    for (at = 0; at < THREADS; at++) {
        expect("its end", pthread_join(all[at], &failed), 0);
        expect("its formatters", failed == NULL, 1);
    }
}

int main(void) {
    size_t at;
    const char *tag;
    clear();
    threads();
    expect("the world", legumeyet_book_open_world(&world), LEGUMEYET_OK);
    expect("kept", legumeyet_book_keep(&world), LEGUMEYET_OK);
    refused();
    handles();
    for (at = 0; at < COUNT(ODD); at++) compare(ODD[at]);
    for (at = 0; (tag = legumeyet_world_locale(at)) != NULL; at++) compare(tag);
    return wrong;
}
