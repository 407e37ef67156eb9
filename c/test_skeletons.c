/*
 * Opens formatters of skeletons, well and badly, writes by their own options and by others, and makes normal texts, and prints what is
 * otherwise than it should be. The status is 1 where something is.
 */
#include "calls.h"
#include <stdlib.h>

enum { WIDE = 10 << 20, PLACE = 77 };

static legumeyet_book book, closed_book;

/* What is no skeleton, and where its fault begins. */
static const struct {
    const char *skeleton;
    int32_t error;
    size_t place;
} FAULTS[] = {
    {"foo", LEGUMEYET_SKELETON_UNKNOWN, 0},
    {"percent foo", LEGUMEYET_SKELETON_UNKNOWN, 8},
    {"percent  .0x", LEGUMEYET_SKELETON_UNKNOWN, 9},
    {"\xff", LEGUMEYET_SKELETON_UNKNOWN, 0},
    {"percent\tK", LEGUMEYET_SKELETON_UNKNOWN, 0},
    {"sign-accounting foo", LEGUMEYET_SKELETON_UNKNOWN, 16},
    {"percent currency/EUR", LEGUMEYET_SKELETON_TWICE, 8},
    {"percent permille", LEGUMEYET_SKELETON_TWICE, 8},
    {"base-unit percent", LEGUMEYET_SKELETON_TWICE, 10},
    {"sign-accounting sign-always", LEGUMEYET_SKELETON_TWICE, 16},
    {"currency/EURO", LEGUMEYET_SKELETON_CODE, 0},
    {"K currency/", LEGUMEYET_SKELETON_CODE, 2},
    {"sign-accounting", LEGUMEYET_SKELETON_PAIR, 0},
    {".00 unit-width-iso-code", LEGUMEYET_SKELETON_PAIR, 4},
    {"percent precision-currency-cash", LEGUMEYET_SKELETON_PAIR, 8},
    {"latin", LEGUMEYET_SKELETON_SYSTEM, 0},
    {"percent numbering-system/thai", LEGUMEYET_SKELETON_SYSTEM, 8},
    {"K scientific", LEGUMEYET_SKELETON_TWICE, 2},
    {"scientific engineering", LEGUMEYET_SKELETON_TWICE, 11},
    {"scientific/foo", LEGUMEYET_SKELETON_UNKNOWN, 0},
    {"percent scale/100", LEGUMEYET_SKELETON_LATER, 8},
    {"%x100", LEGUMEYET_SKELETON_LATER, 0},
    {"scientific/sign-except-zero", LEGUMEYET_SKELETON_UNSUPPORTED, 0},
    {". engineering/*ee/sign-never", LEGUMEYET_SKELETON_UNSUPPORTED, 2},
    {"EE+?0", LEGUMEYET_SKELETON_UNSUPPORTED, 0},
    {"percent scientific", LEGUMEYET_SKELETON_LATER, 8},
    {"E0 currency/EUR", LEGUMEYET_SKELETON_LATER, 0},
    {"unit/kilometer", LEGUMEYET_SKELETON_LATER, 0},
    {". measure-unit/length-meter", LEGUMEYET_SKELETON_LATER, 2},
    {"unit-width-narrow currency/USD", LEGUMEYET_SKELETON_LATER, 0},
    {"currency/USD unit-width-full-name", LEGUMEYET_SKELETON_LATER, 13},
    {"compact-short currency/EUR .00", LEGUMEYET_SKELETON_LATER, 27},
    {"K precision-currency-standard", LEGUMEYET_SKELETON_LATER, 2},
    {"currency/EUR rounding-mode-up", LEGUMEYET_SKELETON_LATER, 13},
    {"decimal-always", LEGUMEYET_SKELETON_UNSUPPORTED, 0},
    {"K unit-width-hidden", LEGUMEYET_SKELETON_UNSUPPORTED, 2},
    {"unit-width-formal", LEGUMEYET_SKELETON_UNSUPPORTED, 0},
    {". unit-width-variant", LEGUMEYET_SKELETON_UNSUPPORTED, 2},
    {"integer-width-trunc", LEGUMEYET_SKELETON_UNSUPPORTED, 0},
    {"integer-width/##0", LEGUMEYET_SKELETON_UNSUPPORTED, 0},
    {"group-thousands", LEGUMEYET_SKELETON_UNSUPPORTED, 0},
    {". rounding-mode-half-odd", LEGUMEYET_SKELETON_UNSUPPORTED, 2},
    {"rounding-mode-unnecessary", LEGUMEYET_SKELETON_UNSUPPORTED, 0},
    {"per-measure-unit/duration-second", LEGUMEYET_SKELETON_UNSUPPORTED, 0},
    {"percent usage/road", LEGUMEYET_SKELETON_UNSUPPORTED, 8},
    {"precision-increment/0.3", LEGUMEYET_SKELETON_UNSUPPORTED, 0},
};

static void faults(void) {
    legumeyet_formatter it = {0};
    size_t row, place = PLACE;
    for (row = 0; row < COUNT(FAULTS); row++) {
        const char *skeleton = FAULTS[row].skeleton;
        expect("of a closed book", legumeyet_formatter_open_skeleton(&closed_book, TEXT("e"), TEXT(skeleton), &place, &it), LEGUMEYET_CLOSED);
        expect("no place", (int64_t)place, PLACE);
        expect(skeleton, legumeyet_formatter_open_skeleton(&book, TEXT("e"), TEXT(skeleton), &place, &it), FAULTS[row].error);
        expect(skeleton, (int64_t)place, (int64_t)FAULTS[row].place);
        expect("it stayed closed", legumeyet_formatter_close(&it), LEGUMEYET_CLOSED);
        place = PLACE;
        expect_error(skeleton, legumeyet_skeleton_normal(TEXT(skeleton), &place, out, ROOM, &length), FAULTS[row].error);
        expect(skeleton, (int64_t)place, (int64_t)FAULTS[row].place);
        place = PLACE;
    }
    expect("a tag", legumeyet_formatter_open_skeleton(&book, TEXT("e"), TEXT("percent"), &place, &it), LEGUMEYET_TAG);
    expect("no language", legumeyet_formatter_open_skeleton(&book, TEXT("xx"), NOTHING, &place, &it), LEGUMEYET_TABLE);
    expect("no percents", legumeyet_formatter_open_skeleton(&book, TEXT("de-CH"), TEXT("percent"), &place, &it), LEGUMEYET_TABLE);
    expect("no currencies", legumeyet_formatter_open_skeleton(&book, TEXT("tr"), TEXT("currency/EUR"), &place, &it), LEGUMEYET_TABLE);
    expect("compact amounts", legumeyet_formatter_open_skeleton(&book, TEXT("en"), TEXT("K currency/EUR"), &place, &it), LEGUMEYET_TABLE);
    expect("no exponents", legumeyet_formatter_open_skeleton(&book, TEXT("tr"), TEXT("E0"), &place, &it), LEGUMEYET_TABLE);
    expect("no place", (int64_t)place, PLACE);
    expect("it stayed closed", legumeyet_formatter_close(&it), LEGUMEYET_CLOSED);
}

/* Numbers by the options of a skeleton. */
static const struct {
    const char *tag, *skeleton, *number, *text, *shown;
} WRITTEN[] = {
    {"en", "", "1234.5678912", "1,234.567891", "1234.567891"},
    {"en", "", "007", "7", "7"},
    {"en", "", "000", "0", "0"},
    {"en", "", "1.500", "1.5", "1.5"},
    {"en", "", "+5", "5", "5"},
    {"en", "", "-0", "-0", "-0"},
    {"en", ".00", "1.005", "1.00", "1.00"},
    {"en", ".00", "7", "7.00", "7.00"},
    {"en", ".00##", "1.23456", "1.2346", "1.2346"},
    {"en", ".00##", "1.2", "1.20", "1.20"},
    {"en", ".00*", "1.23456789", "1.23456789", "1.23456789"},
    {"en", ".00/w", "5.0", "5", "5"},
    {"en", ".00/w", "5.5", "5.50", "5.50"},
    {"en", "precision-integer rounding-mode-up", "1.2", "2", "2"},
    {"en", "@@@", "9.996", "10.0", "10.0"},
    {"en", "@@#/w", "12345", "12,300", "12300"},
    {"en", "@@*", "0.1", "0.10", "0.10"},
    {"en", ".0#/@@r", "0.00123", "0.0012", "0.0012"},
    {"en", ".0#/@@s", "0.00123", "0.0", "0.0"},
    {"en", ".00/@##", "1234", "1,230.00", "1230.00"},
    {"en", ".0#/w", "3", "3", "3"},
    {"en", "currency/EUR @@#", "1234.5", EURO "1,230", "1230"},
    {"en", "group-off", "1234.5", "1234.5", "1234.5"},
    {"en", "group-min2", "1234.5", "1234.5", "1234.5"},
    {"en", "sign-always", "5", "+5", "+5"},
    {"en", "integer-width/*000", "7", "007", "007"},
    {"en", "percent", "12.5", "12.5%", "12.5"},
    {"en", "currency/EUR", "1234.5", EURO "1,234.50", "1234.50"},
    {"en", "currency/eur .00*", "1.2345", EURO "1.2345", "1.2345"},
    {"en", "currency/EUR unit-width-iso-code", "5", "EUR" SPACE "5.00", "5.00"},
    {"en", "currency/EUR sign-accounting", "-5", "(" EURO "5.00)", "-5.00"},
    {"de-CH", "currency/CHF precision-currency-cash", "2.345", "CHF" SPACE "2.35", "2.35"},
    {"en", "compact-short", "1650", "1.6K", "1.6c3"},
    {"en", "compact-short", "12345678901", "12,346M", "12346c6"},
    {"en", "K group-off", "12345678901", "12346M", "12346c6"},
    {"en", "compact-long", "-1650", "-1.6 thousand", "-1.6c3"},
    {"en", "compact-short .00", "-1234", "-1.23K", "-1.23c3"},
    {"en", "compact-short .00", "999999", "1.00M", "1.00c6"},
    {"en", "compact-short .0", "999949", "999.9K", "999.9c3"},
    {"en", "compact-short .0", "999950", "1.0M", "1.0c6"},
    {"en", "@@@ K", "1234567", "1.23M", "1.23c6"},
    {"en", "compact-short @@@", "1000", "1.00K", "1.00c3"},
    {"en", "compact-short @@@", "5", "5.00", "5.00"},
    {"en", "compact-short precision-integer", "1500", "2K", "2c3"},
    {"en", "compact-short rounding-mode-down", "1999", "1.9K", "1.9c3"},
    {"en", "compact-short precision-unlimited", "1234567", "1.234567M", "1.234567c6"},
    {"en", "compact-long .##", "1234.567", "1.23 thousand", "1.23c3"},
    {"en", "scientific", "1234567.891", "1.234568E6", "1.234568e6"},
    {"en", "scientific", "1200000.0", "1.2E6", "1.2e6"},
    {"en", "E0", "+0.00", "0E0", "0e0"},
    {"en", "scientific/*ee", "1200000", "1.2E06", "1.2e06"},
    {"en", "scientific/sign-always", "1200000", "1.2E+6", "1.2e+6"},
    {"en", "E+!00", "-0.00012", "-1.2E-04", "-1.2e-04"},
    {"en", "engineering", "0.00012", "120E-6", "120e-6"},
    {"en", "EE000", "12000", "12E003", "12e003"},
    {"en", "scientific .00", "999999", "1.00E6", "1.00e6"},
    {"en", "engineering @@#", "999999", "1.0E6", "1.0e6"},
    {"en", "scientific .0 sign-always rounding-mode-down", "1999", "+1.9E3", "+1.9e3"},
    {"en", "scientific precision-unlimited", "1234567.891", "1.234567891E6", "1.234567891e6"},
    {"ar", "scientific", "0.00012", ARABIC_POWER, "1.2e-4"},
    {"ar", "", "1234.5", ARABIC_NUMBER, "1234.5"},
};

/* What a formatter of a row writes, and what it shows. */
static void expect_written(caller it, size_t row) {
    const char *number = WRITTEN[row].number;
    expect_text(WRITTEN[row].skeleton, CALL(it, format, TEXT(number), NOTHING, out, ROOM, &length), WRITTEN[row].text);
    expect_text(WRITTEN[row].skeleton, CALL(it, shown, TEXT(number), NOTHING, out, ROOM, &length), WRITTEN[row].shown);
}

/* By a book that is kept, the formatters are shared too. */
static void writes(bool is_kept) {
    legumeyet_formatter it = {0};
    legumeyet_shared_formatter shared = {0};
    size_t row, place = PLACE;
    for (row = 0; row < COUNT(WRITTEN); row++) {
        const char *tag = WRITTEN[row].tag, *skeleton = WRITTEN[row].skeleton;
        expect(skeleton, legumeyet_formatter_open_skeleton(&book, TEXT(tag), TEXT(skeleton), &place, &it), LEGUMEYET_OK);
        expect("no place", (int64_t)place, PLACE);
        expect_written((caller){.own = &it}, row);
        if (!is_kept) continue;
        expect(skeleton, legumeyet_formatter_share(&it, &shared), LEGUMEYET_OK);
        expect_written((caller){.shared = &shared}, row);
    }
    expect("a close", legumeyet_formatter_close(&it), is_kept ? LEGUMEYET_CLOSED : LEGUMEYET_OK);
}

/* Options that are given are in place of those of the skeleton, wholly; in each call. */
static void options(void) {
    static const double DOUBLES[] = {7, 1.005};
    static const int64_t INTEGERS[] = {7, -12};
    const legumeyet_options as_given = {0};
    legumeyet_interval parts[8];
    legumeyet_formatter it = {0};
    size_t place, count = 0, ends[2];
    expect("a skeleton", legumeyet_formatter_open_skeleton(&book, TEXT("en"), TEXT(".00 sign-always"), &place, &it), LEGUMEYET_OK);
    expect_text("its own", legumeyet_formatter_format(&it, TEXT("007"), NOTHING, out, ROOM, &length), "+7.00");
    expect_text("given ones", legumeyet_formatter_format(&it, TEXT("007"), LEGUMEYET_WORDS(as_given), out, ROOM, &length), "007");
    expect_text("the first word", legumeyet_formatter_format(&it, TEXT("007"), &as_given, 1, out, ROOM, &length), "007");
    expect_text("an integer", legumeyet_formatter_format_i64(&it, 70, -1, NOTHING, out, ROOM, &length), "+7.00");
    expect_text("an integer", legumeyet_formatter_format_i64(&it, 70, -1, LEGUMEYET_WORDS(as_given), out, ROOM, &length), "7.0");
    expect_text("an integer", legumeyet_formatter_format_u64(&it, 70, -1, NOTHING, out, ROOM, &length), "+7.00");
    expect_text("a double", legumeyet_formatter_format_double(&it, 7, NOTHING, out, ROOM, &length), "+7.00");
    expect_text("an exact form", legumeyet_formatter_format_exact(&it, TEXT("7.0"), NOTHING, out, ROOM, &length), "+7.00");
    expect_text("parts", legumeyet_formatter_format_parts(&it, TEXT("7"), NOTHING, out, ROOM, &length, parts, 8, &count), "+7.00");
    expect("parts", (int64_t)count, 4);
    expect("a column", legumeyet_formatter_format_doubles(&it, DOUBLES, 2, NOTHING, out, ROOM, ends, 2, &count), LEGUMEYET_OK);
    length = ends[1];
    expect_text("a column", LEGUMEYET_OK, "+7.00+1.00");
    expect("a column", legumeyet_formatter_format_integers(&it, INTEGERS, 2, -1, NOTHING, out, ROOM, ends, 2, &count), LEGUMEYET_OK);
    length = ends[1];
    expect_text("a column", LEGUMEYET_OK, "+0.70-1.20");
    expect("a column", legumeyet_formatter_format_texts(&it, TEXT("007\n1"), NOTHING, out, ROOM, ends, 2, &count), LEGUMEYET_OK);
    length = ends[1];
    expect_text("a column", LEGUMEYET_OK, "+7.00+1.00");
    expect("a power", legumeyet_formatter_open_skeleton(&book, TEXT("en"), TEXT("E00 .00 sign-always"), &place, &it), LEGUMEYET_OK);
    expect_text("its own", legumeyet_formatter_format(&it, TEXT("1234567"), NOTHING, out, ROOM, &length), "+1.23E06");
    expect_text("given ones", legumeyet_formatter_format(&it, TEXT("1234567"), LEGUMEYET_WORDS(as_given), out, ROOM, &length), "1.234567E06");
    expect_text("the value", legumeyet_formatter_shown(&it, TEXT("1234567"), &as_given, 1, out, ROOM, &length), "1.234567e06");
    expect("words over it", legumeyet_formatter_open(&book, TEXT("en"), NOTHING, NOTHING, &it), LEGUMEYET_OK);
    expect_text("no options of its own", legumeyet_formatter_format(&it, TEXT("007"), NOTHING, out, ROOM, &length), "007");
    expect("a close", legumeyet_formatter_close(&it), LEGUMEYET_OK);
}

/* Skeletons with their normal text, which is its own. */
static const char *const NORMAL[][2] = {
    {"", ""},
    {"  ", ""},
    {"%", "percent"},
    {"K currency/eur", "compact-short currency/EUR"},
    {".00 K", "compact-short .00"},
    {"currency/EUR  K sign-auto", "compact-short currency/EUR"},
    {"KK", "compact-long"},
    {". +!", "precision-integer sign-always"},
    {"K group-auto", "compact-short group-auto"},
    {"K group-min2", "compact-short"},
    {"000 .00##", ".00## integer-width/*000"},
    {".+ notation-simple base-unit", "precision-unlimited"},
    {"E0", "scientific"},
    {"EE+!00", "engineering/*ee/sign-always"},
    {"scientific/sign-always/+ee", "scientific/*ee/sign-always"},
    {".00 engineering/sign-auto", "engineering .00"},
    {"rounding-mode-half-even", ""},
    {"()! unit-width-iso-code currency/CHF precision-currency-cash", "currency/CHF precision-currency-cash unit-width-iso-code sign-accounting-always"},
};

static void normal_texts(void) {
    static uint8_t long_out[128];
    size_t row, room, needed = 0, place = PLACE;
    for (row = 0; row < COUNT(NORMAL); row++) {
        const char *text = NORMAL[row][1];
        const size_t each = strlen(text);
        expect(NORMAL[row][0], legumeyet_skeleton_normal(TEXT(NORMAL[row][0]), &place, long_out, sizeof long_out, &needed), LEGUMEYET_OK);
        expect(text, needed == each && memcmp(long_out, text, each) == 0, 1);
        expect(text, legumeyet_skeleton_normal(TEXT(text), &place, long_out, sizeof long_out, &needed), LEGUMEYET_OK);
        expect(text, needed == each && memcmp(long_out, text, each) == 0, 1);
    }
    for (room = 0; room <= 8; room++) {
        expect("room", legumeyet_skeleton_normal(TEXT("%"), &place, out, room, &length), room < 7 ? LEGUMEYET_TOO_SMALL : LEGUMEYET_OK);
        expect("the length", (int64_t)length, 7);
        expect("the front", memcmp(out, "percent", room < 7 ? room : 7), 0);
        expect("the byte after it", out[room < 7 ? room : 7], '.');
        clear();
    }
    expect_needed("no room", legumeyet_skeleton_normal(TEXT("K"), &place, NOTHING, &length), 13);
    expect_text("no text", legumeyet_skeleton_normal(NOTHING, &place, out, ROOM, &length), "");
    expect("no place", (int64_t)place, PLACE);
}

/* Ten megabytes: of a mark, of spaces before a word, and of a word after another. */
static void wide_texts(void) {
    char *text = malloc(WIDE);
    legumeyet_formatter it = {0};
    size_t place = PLACE;
    if (text == NULL) exit(1);
    memset(text, ' ', WIDE);
    expect("spaces", legumeyet_formatter_open_skeleton(&book, TEXT("en"), (uint8_t *)text, WIDE, &place, &it), LEGUMEYET_OK);
    expect("no place", (int64_t)place, PLACE);
    memcpy(text + WIDE - 3, "foo", 3);
    expect("a word", legumeyet_formatter_open_skeleton(&book, TEXT("en"), (uint8_t *)text, WIDE, &place, &it), LEGUMEYET_SKELETON_UNKNOWN);
    expect("its place", (int64_t)place, WIDE - 3);
    memset(text, '0', WIDE);
    text[0] = '.';
    expect("zeros", legumeyet_formatter_open_skeleton(&book, TEXT("en"), (uint8_t *)text, WIDE, &place, &it), LEGUMEYET_SKELETON_UNKNOWN);
    expect("their place", (int64_t)place, 0);
    memcpy(text, "percent ", 8);
    expect("zeros", legumeyet_skeleton_normal((uint8_t *)text, WIDE, &place, out, ROOM, &length), LEGUMEYET_SKELETON_UNKNOWN);
    expect("their place", (int64_t)place, 8);
    expect("a close", legumeyet_formatter_close(&it), LEGUMEYET_OK);
    free(text);
}

int main(void) {
    clear();
    expect("a book", legumeyet_book_open(TEXT(BOOK), &book), LEGUMEYET_OK);
    faults();
    writes(false);
    options();
    normal_texts();
    wide_texts();
    expect("kept", legumeyet_book_keep(&book), LEGUMEYET_OK);
    writes(true);
    options();
    expect("a close", legumeyet_book_close(&book), LEGUMEYET_OK);
    return wrong;
}
