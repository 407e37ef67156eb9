/*
 * Numbers written and read as the readers of a locale do, for PostgreSQL: docs/databases.md.
 *
 * A formatter is opened for a locale tag and a format. The ones that were used last are kept, as long as the backend runs, in a table of a
 * fixed size, so a column of a million tags holds no more memory than one of a hundred. A backend has one thread, so it owns them, and one
 * that leaves the table is closed. They are of a kept book, whose tables they borrow.
 *
 * No call of the library raises an error of PostgreSQL's, and between two rows nothing is held but this table. So a statement may be
 * cancelled anywhere.
 */
#include "postgres.h"

#if PG_VERSION_NUM < 130000
#error "legumeyet needs PostgreSQL 13 or a later version"
#endif

#include "common/hashfn.h"
#include "common/shortest_dec.h"
#include "fmgr.h"
#include "mb/pg_wchar.h"
#include "miscadmin.h"
#include "utils/builtins.h"
#include "utils/numeric.h"
#if PG_VERSION_NUM >= 160000
#include "varatt.h"
#endif

#include <legumeyet.h>
#include <math.h>

PG_MODULE_MAGIC;

void _PG_init(void);

/* A tag and a format that a row asks for. They have no NUL at their end. The format of plural categories is their type. */
typedef struct {
    const char *tag, *format;
    size_t tag_length, format_length;
    bool plurals;
} Asked;

/* A formatter that is kept, with what it was asked for by: the tag and then the format are in `key`. */
#define KEY_ROOM 224
typedef struct {
    uint64 used; /* when it was used last, in uses of all; 0 where the place is empty */
    legumeyet_formatter formatter;
    uint32 hash;
    uint16 tag_length, format_length;
    bool plurals;
    char key[KEY_ROOM];
} KeptFormatter;

/* The table. A hash has one set, which has the four of its formatters that were used last. */
#define SETS 64
#define IN_A_SET 4
static KeptFormatter kept[SETS][IN_A_SET];
static uint64 uses;

/* The last formatter whose tag and format are too long for a key. */
static legumeyet_formatter unkept;

static legumeyet_book world;
static bool has_world;

/* A number, as one of the calls of the library takes it. */
typedef struct {
    enum { DIGITS, INTEGER, REAL } kind;
    const char *digits;
    int64 integer;
    double real;
} Number;

/* So many bytes of a user's text are in a message. */
#define SHOWN 100

/* The front of a text, as a message has it. */
static char *
shown(const char *text, size_t length) {
    size_t most = (size_t)pg_mbcliplen(text, (int)length, SHOWN);
    return psprintf("%.*s%s", (int)most, text, most < length ? "..." : "");
}

/* Raises the error of a number that only a lack of memory brings, or a fault here. */
static void
refuse(int32_t error) {
    char text[200];
    size_t length = 0;
    if (error == LEGUMEYET_MEMORY)
        ereport(ERROR, (errcode(ERRCODE_OUT_OF_MEMORY), errmsg("out of memory")));
    if (legumeyet_error_text(error, (uint8_t *)text, sizeof text, &length) != LEGUMEYET_OK)
        length = 0;
    elog(ERROR, "legumeyet returned %d: %.*s", (int)error, (int)length, text);
}

/* Opens the book of all locales, and keeps it for as long as the process runs. */
static void
open_world(void) {
    int32_t error = legumeyet_book_open_world(&world);
    if (error == LEGUMEYET_OK)
        error = legumeyet_book_keep(&world);
    if (error != LEGUMEYET_OK)
        refuse(error);
    has_world = true;
}

/* Where shared_preload_libraries names the library, the server opens the book as it starts, and each backend has it from there. */
void
_PG_init(void) {
    if (process_shared_preload_libraries_in_progress)
        open_world();
}

/* Sees to it that the book is open, and that the texts of this database are UTF-8. */
static void
need_world(void) {
    if (GetDatabaseEncoding() != PG_UTF8)
        ereport(ERROR, (errcode(ERRCODE_FEATURE_NOT_SUPPORTED), errmsg("legumeyet needs a database with encoding \"UTF8\""),
                        errdetail("The encoding of this database is \"%s\".", GetDatabaseEncodingName()),
                        errhint("CREATE DATABASE name ENCODING 'UTF8' TEMPLATE template0 makes one.")));
    if (!has_world)
        open_world();
}

static Asked
asked_of(FunctionCallInfo fcinfo) {
    text *tag = PG_GETARG_TEXT_PP(1), *format = PG_GETARG_TEXT_PP(2);
    Asked asked = {VARDATA_ANY(tag), VARDATA_ANY(format), VARSIZE_ANY_EXHDR(tag), VARSIZE_ANY_EXHDR(format), false};
    return asked;
}

/* Whether a format has no word: then numbers are written as they are given. */
static bool
is_plain(const Asked *asked) {
    size_t at = 0;
    while (at < asked->format_length && asked->format[at] == ' ')
        at++;
    return at == asked->format_length;
}

/* What is wrong with a word of a format; NULL where the error is not of the format. */
static const char *
fault_of_word(int32_t error) {
    switch (error) {
    case LEGUMEYET_SKELETON_UNKNOWN:
        return "is not known";
    case LEGUMEYET_SKELETON_TWICE:
        return "sets what another word has set";
    case LEGUMEYET_SKELETON_CODE:
        return "has no code of a currency, as \"currency/EUR\" has";
    case LEGUMEYET_SKELETON_PAIR:
        return "is for amounts of money, and no currency is there";
    case LEGUMEYET_SKELETON_SYSTEM:
        return "is for the locale tag to say, as \"de-u-nu-thai\" does";
    case LEGUMEYET_SKELETON_LATER:
        return "is not supported yet, or not beside the other words";
    case LEGUMEYET_SKELETON_UNSUPPORTED:
        return "is not supported";
    default:
        return NULL;
    }
}

/* Raises the error of a format: what is wrong with the word at a place. */
static void
refuse_format(const Asked *asked, const char *fault, size_t place) {
    const char *word = asked->format + place;
    size_t length = 0;
    while (place + length < asked->format_length && word[length] != ' ')
        length++;
    ereport(ERROR, (errcode(ERRCODE_INVALID_PARAMETER_VALUE),
                    errmsg("invalid number format: \"%s\"", shown(asked->format, asked->format_length)),
                    errdetail("The word \"%s\" at byte %zu %s.", shown(word, length), place + 1, fault),
                    errhint("A format is a number skeleton, as \"currency/EUR\", \".00\" or \"compact-short\".")));
}

/* Raises the error of a formatter that can't be opened. */
static void
refuse_formatter(const Asked *asked, int32_t error, size_t place) {
    const char *fault = fault_of_word(error);
    char *tag = shown(asked->tag, asked->tag_length);
    if (fault != NULL)
        refuse_format(asked, fault, place);
    if (error == LEGUMEYET_TAG)
        ereport(ERROR, (errcode(ERRCODE_INVALID_PARAMETER_VALUE), errmsg("invalid locale tag: \"%s\"", tag),
                        errdetail("A locale tag is a language and what follows it after hyphens, as \"de\", \"de-CH\" or \"zh-Hant-TW\"."),
                        strchr(tag, '_') != NULL ? errhint("Write hyphens for underscores: \"de-DE\" for \"de_DE\".") : 0));
    if (error == LEGUMEYET_TABLE && asked->plurals)
        ereport(ERROR, (errcode(ERRCODE_INVALID_PARAMETER_VALUE), errmsg("no plural categories for locale tag \"%s\"", tag),
                        errdetail("The locale has no data for them.")));
    if (error == LEGUMEYET_TABLE)
        ereport(ERROR, (errcode(ERRCODE_INVALID_PARAMETER_VALUE),
                        errmsg("no number format \"%s\" for locale tag \"%s\"", shown(asked->format, asked->format_length), tag),
                        errdetail("The locale has no data for it, or it is of compact or scientific numbers with a unit, which are not supported yet.")));
    refuse(error);
}

/* Which plural categories a type is of; or raises that it is none. */
static int32_t
plurals_of(const Asked *asked) {
    if (asked->format_length == 8 && memcmp(asked->format, "cardinal", 8) == 0)
        return LEGUMEYET_PLURALS_CARDINAL;
    if (asked->format_length == 7 && memcmp(asked->format, "ordinal", 7) == 0)
        return LEGUMEYET_PLURALS_ORDINAL;
    ereport(ERROR, (errcode(ERRCODE_INVALID_PARAMETER_VALUE),
                    errmsg("invalid type of plural categories: \"%s\"", shown(asked->format, asked->format_length)),
                    errhint("A type is \"cardinal\" or \"ordinal\".")));
}

/* Opens a formatter, or raises why not: then what the handle had before is still open. */
static void
open_formatter(const Asked *asked, legumeyet_formatter *formatter) {
    const uint8_t *tag = (const uint8_t *)asked->tag, *format = (const uint8_t *)asked->format;
    legumeyet_format words = {.plurals = asked->plurals ? plurals_of(asked) : LEGUMEYET_PLURALS_NONE};
    size_t place = 0;
    int32_t error;
    need_world();
    if (asked->plurals)
        error = legumeyet_formatter_open(&world, tag, asked->tag_length, LEGUMEYET_WORDS(words), NULL, 0, formatter);
    else if (is_plain(asked))
        error = legumeyet_formatter_open(&world, tag, asked->tag_length, NULL, 0, NULL, 0, formatter);
    else
        error = legumeyet_formatter_open_skeleton(&world, tag, asked->tag_length, format, asked->format_length, &place, formatter);
    if (error != LEGUMEYET_OK)
        refuse_formatter(asked, error, place);
}

static uint32
hash_of(const Asked *asked) {
    uint32 tag = hash_bytes((const unsigned char *)asked->tag, (int)asked->tag_length);
    return hash_combine(tag, hash_bytes((const unsigned char *)asked->format, (int)asked->format_length));
}

static bool
is_of(const KeptFormatter *at, uint32 hash, const Asked *asked) {
    return at->used != 0 && at->hash == hash && at->tag_length == asked->tag_length && at->format_length == asked->format_length &&
           at->plurals == asked->plurals && memcmp(at->key, asked->tag, asked->tag_length) == 0 &&
           memcmp(at->key + asked->tag_length, asked->format, asked->format_length) == 0;
}

/* The place in the table that has the formatter, or else that of its set which was used longest ago. */
static KeptFormatter *
place_of(uint32 hash, const Asked *asked) {
    KeptFormatter *set = kept[hash % SETS], *oldest = set;
    for (int at = 0; at < IN_A_SET; at++) {
        if (is_of(&set[at], hash, asked))
            return &set[at];
        if (set[at].used < oldest->used)
            oldest = &set[at];
    }
    return oldest;
}

/* Opens a formatter at a place of the table. What was there is closed, once the new one is open. */
static void
keep_formatter(const Asked *asked, uint32 hash, KeptFormatter *at) {
    open_formatter(asked, &at->formatter);
    at->hash = hash;
    at->tag_length = (uint16)asked->tag_length;
    at->format_length = (uint16)asked->format_length;
    at->plurals = asked->plurals;
    memcpy(at->key, asked->tag, asked->tag_length);
    memcpy(at->key + asked->tag_length, asked->format, asked->format_length);
}

/* The formatter of what is asked for, which is there until the next one is asked for. */
static legumeyet_formatter *
formatter_of(const Asked *asked) {
    KeptFormatter *at;
    uint32 hash;
    if (asked->tag_length > KEY_ROOM || asked->format_length > KEY_ROOM - asked->tag_length) {
        open_formatter(asked, &unkept);
        return &unkept;
    }
    hash = hash_of(asked);
    at = place_of(hash, asked);
    if (!is_of(at, hash, asked))
        keep_formatter(asked, hash, at);
    at->used = ++uses;
    return &at->formatter;
}

/* Raises the error of a number that is none to write. */
static void
refuse_number(const char *name) {
    ereport(ERROR, (errcode(ERRCODE_INVALID_PARAMETER_VALUE), errmsg("cannot format %s", name),
                    errhint("Use CASE or NULLIF to write another text in its place.")));
}

static int32_t
put(legumeyet_formatter *formatter, const Number *number, uint8_t *out, size_t room, size_t *length) {
    switch (number->kind) {
    case INTEGER:
        return legumeyet_formatter_format_i64(formatter, number->integer, 0, NULL, 0, out, room, length);
    case REAL:
        return legumeyet_formatter_format_double(formatter, number->real, NULL, 0, out, room, length);
    default:
        return legumeyet_formatter_format(formatter, LEGUMEYET_TEXT(number->digits), NULL, 0, out, room, length);
    }
}

/* The text of a number by the tag and the format of a call, or its plural category. */
static Datum
write_number(FunctionCallInfo fcinfo, const Number *number, bool plurals) {
    Asked asked = asked_of(fcinfo);
    legumeyet_formatter *formatter;
    size_t room = 64 + (number->kind == DIGITS ? 2 * strlen(number->digits) : 0), length = 0;
    text *written = palloc(VARHDRSZ + room);
    int32_t error;
    asked.plurals = plurals;
    formatter = formatter_of(&asked);
    error = put(formatter, number, (uint8_t *)VARDATA(written), room, &length);
    if (error == LEGUMEYET_TOO_SMALL) {
        written = repalloc(written, VARHDRSZ + length);
        error = put(formatter, number, (uint8_t *)VARDATA(written), length, &length);
    }
    if (error == LEGUMEYET_LIMIT || error == LEGUMEYET_RANGE)
        ereport(ERROR, (errcode(ERRCODE_INVALID_PARAMETER_VALUE), errmsg("number out of range"),
                        errdetail("A number has at most 32768 digits before the point to be written.")));
    if (error != LEGUMEYET_OK)
        refuse(error);
    SET_VARSIZE(written, VARHDRSZ + length);
    return PointerGetDatum(written);
}

static Datum
write_numeric(FunctionCallInfo fcinfo, bool plurals) {
    Number number = {.kind = DIGITS};
    number.digits = DatumGetCString(DirectFunctionCall1(numeric_out, PG_GETARG_DATUM(0)));
    if (number.digits[0] == 'N')
        refuse_number("NaN");
    if (number.digits[0] == 'I' || number.digits[1] == 'I')
        refuse_number("infinity");
    return write_number(fcinfo, &number, plurals);
}

static Datum
write_integer(FunctionCallInfo fcinfo, bool plurals) {
    Number number = {.kind = INTEGER, .integer = PG_GETARG_INT32(0)};
    return write_number(fcinfo, &number, plurals);
}

static Datum
write_bigint(FunctionCallInfo fcinfo, bool plurals) {
    Number number = {.kind = INTEGER, .integer = PG_GETARG_INT64(0)};
    return write_number(fcinfo, &number, plurals);
}

static Datum
write_finite(FunctionCallInfo fcinfo, double real, bool plurals) {
    Number number = {.kind = REAL, .real = real};
    if (isnan(real))
        refuse_number("NaN");
    if (isinf(real))
        refuse_number("infinity");
    return write_number(fcinfo, &number, plurals);
}

static Datum
write_double(FunctionCallInfo fcinfo, bool plurals) {
    return write_finite(fcinfo, PG_GETARG_FLOAT8(0), plurals);
}

/* A `real` is written by its own shortest digits, 0.1 as 0.1: the double that they are nearest to has the same. */
static Datum
write_real(FunctionCallInfo fcinfo, bool plurals) {
    char digits[FLOAT_SHORTEST_DECIMAL_LEN];
    float_to_shortest_decimal_buf(PG_GETARG_FLOAT4(0), digits);
    return write_finite(fcinfo, strtod(digits, NULL), plurals);
}

/* The calls of a type of numbers. */
#define WRITES(type)                                                                           \
    PG_FUNCTION_INFO_V1(legumeyet_pg_format_##type);                                           \
    Datum legumeyet_pg_format_##type(PG_FUNCTION_ARGS) { return write_##type(fcinfo, false); } \
    PG_FUNCTION_INFO_V1(legumeyet_pg_plural_##type);                                           \
    Datum legumeyet_pg_plural_##type(PG_FUNCTION_ARGS) { return write_##type(fcinfo, true); }

WRITES(numeric)
WRITES(integer)
WRITES(bigint)
WRITES(double)
WRITES(real)

PG_FUNCTION_INFO_V1(legumeyet_pg_format_money);
Datum
legumeyet_pg_format_money(PG_FUNCTION_ARGS) {
    ereport(ERROR, (errcode(ERRCODE_INVALID_PARAMETER_VALUE), errmsg("cannot format a value of type money"),
                    errdetail("Its currency is that of the setting lc_monetary, and not of the value."),
                    errhint("Cast it, and name the currency: legumeyet.format(amount::numeric, 'de', 'currency/EUR').")));
    PG_RETURN_NULL();
}

/* Whether a `numeric` can have all digits of a number after its point. */
static bool
fits_numeric(const char *digits) {
    const char *point = strchr(digits, '.');
    return point == NULL || strlen(point + 1) <= 16383;
}

/* The digits that a text is read as, with a NUL at their end; NULL where no number is written so. */
static char *
read_digits(legumeyet_formatter *formatter, const Asked *asked, const text *typed) {
    const uint8_t *bytes = (const uint8_t *)VARDATA_ANY(typed);
    size_t length = VARSIZE_ANY_EXHDR(typed), room = length + 8, got = 0;
    char *digits = palloc(room + 1);
    int32_t error = legumeyet_formatter_read_lenient(formatter, bytes, length, (uint8_t *)digits, room, &got);
    if (error == LEGUMEYET_TOO_SMALL) {
        digits = repalloc(digits, got + 1);
        error = legumeyet_formatter_read_lenient(formatter, bytes, length, (uint8_t *)digits, got, &got);
    }
    if (error == LEGUMEYET_UNREADABLE)
        ereport(ERROR, (errcode(ERRCODE_INVALID_PARAMETER_VALUE),
                        errmsg("cannot read numbers in format \"%s\" for locale tag \"%s\"", shown(asked->format, asked->format_length),
                               shown(asked->tag, asked->tag_length)),
                        errdetail("Two numbers may have one text in it, as compact ones have, or it is scientific, which people do not type.")));
    if (error == LEGUMEYET_NOT_WRITTEN)
        return NULL;
    if (error != LEGUMEYET_OK)
        refuse(error);
    digits[got] = '\0';
    return fits_numeric(digits) ? digits : NULL;
}

/* Reads what the first argument is, or returns NULL. */
static Datum
read_number(FunctionCallInfo fcinfo, bool or_null) {
    Asked asked = asked_of(fcinfo);
    text *typed = PG_GETARG_TEXT_PP(0);
    char *digits = read_digits(formatter_of(&asked), &asked, typed);
    if (digits == NULL && or_null)
        PG_RETURN_NULL();
    if (digits == NULL)
        ereport(ERROR, (errcode(ERRCODE_INVALID_PARAMETER_VALUE),
                        errmsg("invalid number for locale tag \"%s\": \"%s\"", shown(asked.tag, asked.tag_length),
                               shown(VARDATA_ANY(typed), VARSIZE_ANY_EXHDR(typed))),
                        errhint("legumeyet.read_or_null returns null in place of this error.")));
    return DirectFunctionCall3(numeric_in, CStringGetDatum(digits), ObjectIdGetDatum(InvalidOid), Int32GetDatum(-1));
}

PG_FUNCTION_INFO_V1(legumeyet_pg_read);
Datum
legumeyet_pg_read(PG_FUNCTION_ARGS) {
    return read_number(fcinfo, false);
}

PG_FUNCTION_INFO_V1(legumeyet_pg_read_or_null);
Datum
legumeyet_pg_read_or_null(PG_FUNCTION_ARGS) {
    return read_number(fcinfo, true);
}

PG_FUNCTION_INFO_V1(legumeyet_pg_version);
Datum
legumeyet_pg_version(PG_FUNCTION_ARGS) {
    need_world();
    PG_RETURN_TEXT_P(cstring_to_text(psprintf("%u.%u", legumeyet_version(), legumeyet_minor())));
}
