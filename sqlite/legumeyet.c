/*
 * Numbers written and read as the readers of a locale do, for SQLite: a loadable extension, docs/databases.md.
 *
 * The process has one book of all locales, which is kept, and from which each connection opens its formatters; the linker is told never to
 * unload this file, so it is opened once. To open a formatter is a call on the book, so it has a lock. A connection keeps the formatters of
 * the tags and formats that it used last, in a table of a fixed size, so a column of a million tags holds no more memory than one of a
 * hundred. The functions of a connection have the table; it is freed with them. SQLite calls them one at a time.
 */
#include <sqlite3ext.h>
SQLITE_EXTENSION_INIT1

#include <legumeyet.h>
#include <math.h>
#include <pthread.h>
#include <stdarg.h>
#include <string.h>

/* SQLite before 3.31 has no such word. */
#ifndef SQLITE_INNOCUOUS
#define SQLITE_INNOCUOUS 0
#endif

static pthread_mutex_t lock = PTHREAD_MUTEX_INITIALIZER;
static legumeyet_book world;
static int has_world;

/* A text: no NUL need be at its end. */
typedef struct {
    const uint8_t *bytes;
    size_t length;
} Text;

/* A tag and a format that a row asks for. The format of plural categories is their type. */
typedef struct {
    Text tag, format;
    int32_t plurals; /* as the library has it */
} Asked;

/* A formatter that is kept, with what it was asked for by: the tag and then the format are in `key`. */
typedef struct {
    uint64_t used; /* when it was used last, in uses of all */
    legumeyet_formatter formatter;
    uint32_t hash;
    int32_t plurals;
    size_t tag_length, format_length;
    uint8_t key[];
} Kept;

/* The table of a connection. A hash has one set, which has the four of its formatters that were used last. */
#define SETS 64
#define IN_A_SET 4
/* A tag and a format of more bytes than these have the one place for such. */
#define LONGEST 256
typedef struct {
    Kept *sets[SETS][IN_A_SET], *longer;
    uint64_t uses;
    int users; /* how many functions have the table */
} Table;

/* The text of a value; where there is no memory for it, the empty one. */
static Text text_of(sqlite3_value *value) {
    Text text = {sqlite3_value_text(value), 0};
    if (text.bytes == NULL)
        text.bytes = (const uint8_t *)"";
    else
        text.length = (size_t)sqlite3_value_bytes(value);
    return text;
}

/* The tag and the format that the arguments of a call have. */
static Asked asked_of(int count, sqlite3_value **arguments) {
    Asked asked = {text_of(arguments[1]), {(const uint8_t *)"", 0}, LEGUMEYET_PLURALS_NONE};
    if (count == 3)
        asked.format = text_of(arguments[2]);
    return asked;
}

/* Ends a call by an error whose text is made as that of printf is. */
static void refuse(sqlite3_context *context, const char *form, ...) {
    va_list arguments;
    char *text;
    va_start(arguments, form);
    text = sqlite3_vmprintf(form, arguments);
    va_end(arguments);
    if (text == NULL)
        sqlite3_result_error_nomem(context);
    else
        sqlite3_result_error(context, text, -1);
    sqlite3_free(text);
}

/* How many bytes the character at the front of a text has; 0 where there is none that a message can have: NUL, or what is no UTF-8. */
static size_t character_length(const uint8_t *at, size_t left) {
    size_t length = *at == 0 ? 0 : *at < 0x80 ? 1 : *at < 0xc2 ? 0 : *at < 0xe0 ? 2 : *at < 0xf0 ? 3 : *at < 0xf5 ? 4 : 0, next;
    if (length > left || (*at == 0xe0 && at[1] < 0xa0) || (*at == 0xed && at[1] > 0x9f) || (*at == 0xf0 && at[1] < 0x90) ||
        (*at == 0xf4 && at[1] > 0x8f))
        return 0;
    for (next = 1; next < length; next++)
        if ((at[next] & 0xc0) != 0x80)
            return 0;
    return length;
}

/* How many bytes of a text are in a message, at most 100. */
static size_t shown_length(Text given) {
    size_t shown = 0, next = 1;
    while (next > 0 && shown < given.length) {
        next = character_length(given.bytes + shown, given.length - shown);
        if (shown + next > 100)
            next = 0;
        shown += next;
    }
    return shown;
}

/* Ends a call by a number of the library's, of a text that somebody gave. */
static void refuse_text(sqlite3_context *context, int32_t error, Text given) {
    char text[200];
    size_t length = 0;
    size_t shown = shown_length(given);
    if (error == LEGUMEYET_MEMORY) {
        sqlite3_result_error_nomem(context);
        return;
    }
    if (legumeyet_error_text(error, (uint8_t *)text, sizeof text, &length) != LEGUMEYET_OK)
        length = 0;
    refuse(context, "legumeyet: %.*s: '%.*s'%s", (int)length, text, (int)shown, (const char *)given.bytes,
           shown < given.length ? "..." : "");
}

/* Opens the book, where no connection has yet. */
static int32_t open_world(void) {
    int32_t error = LEGUMEYET_OK;
    pthread_mutex_lock(&lock);
    if (!has_world) {
        error = legumeyet_book_open_world(&world);
        if (error == LEGUMEYET_OK)
            error = legumeyet_book_keep(&world);
        has_world = error == LEGUMEYET_OK;
    }
    pthread_mutex_unlock(&lock);
    return error;
}

/* Whether a format has no word: then numbers are written as they are given. */
static int is_plain(Text format) {
    size_t at = 0;
    while (at < format.length && format.bytes[at] == ' ')
        at++;
    return at == format.length;
}

static int32_t open_handle(const Asked *asked, size_t *place, legumeyet_formatter *formatter) {
    Text tag = asked->tag, format = asked->format;
    legumeyet_format words = {.plurals = asked->plurals};
    int32_t error;
    pthread_mutex_lock(&lock);
    if (asked->plurals != LEGUMEYET_PLURALS_NONE || is_plain(format))
        error = legumeyet_formatter_open(&world, tag.bytes, tag.length, LEGUMEYET_WORDS(words), NULL, 0, formatter);
    else
        error = legumeyet_formatter_open_skeleton(&world, tag.bytes, tag.length, format.bytes, format.length, place, formatter);
    pthread_mutex_unlock(&lock);
    return error;
}

/* Ends a call by the number of a formatter that can't be opened. */
static void refuse_formatter(sqlite3_context *context, int32_t error, const Asked *asked, size_t place) {
    Text format = asked->format, word = {format.bytes + place, format.length - place};
    if (error >= LEGUMEYET_SKELETON_UNKNOWN && error <= LEGUMEYET_SKELETON_UNSUPPORTED)
        refuse_text(context, error, word);
    else if (error == LEGUMEYET_TABLE && asked->plurals == LEGUMEYET_PLURALS_NONE && !is_plain(format))
        refuse_text(context, error, format);
    else
        refuse_text(context, error, asked->tag);
}

/* Closes a formatter that was kept. */
static void end_kept(Kept *kept) {
    if (kept == NULL)
        return;
    legumeyet_formatter_close(&kept->formatter);
    sqlite3_free(kept);
}

/* Ends what a function has of a table; the last one frees it. */
static void end_use(void *data) {
    Table *table = data;
    size_t set, at;
    if (--table->users > 0)
        return;
    for (set = 0; set < SETS; set++)
        for (at = 0; at < IN_A_SET; at++)
            end_kept(table->sets[set][at]);
    end_kept(table->longer);
    sqlite3_free(table);
}

/* The hash of a text that follows one of this hash, by FNV-1a. */
static uint32_t hash_after(uint32_t hash, Text text) {
    size_t at;
    for (at = 0; at < text.length; at++)
        hash = (hash ^ text.bytes[at]) * 16777619u;
    return hash;
}

static int is_of(const Kept *kept, uint32_t hash, const Asked *asked) {
    return kept != NULL && kept->hash == hash && kept->plurals == asked->plurals && kept->tag_length == asked->tag.length &&
           kept->format_length == asked->format.length &&
           memcmp(kept->key, asked->tag.bytes, kept->tag_length) == 0 &&
           memcmp(kept->key + kept->tag_length, asked->format.bytes, kept->format_length) == 0;
}

/* The place that has the formatter, or else that of its set which is empty or was used longest ago. */
static Kept **place_of(Table *table, uint32_t hash, const Asked *asked) {
    Kept **set = table->sets[hash % SETS], **oldest = set;
    size_t at;
    if (asked->tag.length > LONGEST || asked->format.length > LONGEST - asked->tag.length)
        return &table->longer;
    for (at = 0; at < IN_A_SET; at++) {
        if (is_of(set[at], hash, asked))
            return &set[at];
        if (*oldest != NULL && (set[at] == NULL || set[at]->used < (*oldest)->used))
            oldest = &set[at];
    }
    return oldest;
}

/* Opens the formatter of what is asked for; NULL where the call has ended by an error. */
static Kept *opened(sqlite3_context *context, uint32_t hash, const Asked *asked) {
    Kept *kept = sqlite3_malloc64(sizeof *kept + asked->tag.length + asked->format.length);
    size_t place = 0;
    int32_t error;
    if (kept == NULL) {
        sqlite3_result_error_nomem(context);
        return NULL;
    }
    memset(kept, 0, sizeof *kept);
    error = open_handle(asked, &place, &kept->formatter);
    if (error != LEGUMEYET_OK) {
        refuse_formatter(context, error, asked, place);
        sqlite3_free(kept);
        return NULL;
    }
    kept->hash = hash;
    kept->plurals = asked->plurals;
    kept->tag_length = asked->tag.length;
    kept->format_length = asked->format.length;
    memcpy(kept->key, asked->tag.bytes, kept->tag_length);
    memcpy(kept->key + kept->tag_length, asked->format.bytes, kept->format_length);
    return kept;
}

/* The formatter of a call, which is there until the next call; NULL where this one has ended by an error. What had its place is closed. */
static legumeyet_formatter *formatter_of(sqlite3_context *context, const Asked *asked) {
    Table *table = sqlite3_user_data(context);
    uint32_t hash = hash_after(hash_after(2166136261u, asked->tag), asked->format);
    Kept **place = place_of(table, hash, asked);
    if (!is_of(*place, hash, asked)) {
        Kept *kept = opened(context, hash, asked);
        if (kept == NULL)
            return NULL;
        end_kept(*place);
        *place = kept;
    }
    (*place)->used = ++table->uses;
    return &(*place)->formatter;
}

static int has_null(int count, sqlite3_value **arguments) {
    int at;
    for (at = 0; at < count; at++)
        if (sqlite3_value_type(arguments[at]) == SQLITE_NULL)
            return 1;
    return 0;
}

static int32_t put(legumeyet_formatter *formatter, sqlite3_value *number, uint8_t *out, size_t room, size_t *length) {
    Text digits;
    switch (sqlite3_value_type(number)) {
    case SQLITE_INTEGER:
        return legumeyet_formatter_format_i64(formatter, sqlite3_value_int64(number), 0, NULL, 0, out, room, length);
    case SQLITE_FLOAT:
        return legumeyet_formatter_format_double(formatter, sqlite3_value_double(number), NULL, 0, out, room, length);
    default:
        digits = text_of(number);
        return legumeyet_formatter_format(formatter, digits.bytes, digits.length, NULL, 0, out, room, length);
    }
}

/* Writes a number as the result of a call. */
static void write_number(sqlite3_context *context, legumeyet_formatter *formatter, sqlite3_value *number) {
    uint8_t room[256], *out = room;
    size_t length = 0;
    int32_t error = put(formatter, number, out, sizeof room, &length);
    if (error == LEGUMEYET_TOO_SMALL) {
        out = sqlite3_malloc64(length);
        error = out == NULL ? LEGUMEYET_MEMORY : put(formatter, number, out, length, &length);
    }
    if (error != LEGUMEYET_OK)
        refuse_text(context, error, text_of(number));
    else
        sqlite3_result_text64(context, (const char *)out, length, SQLITE_TRANSIENT, SQLITE_UTF8);
    if (out != room)
        sqlite3_free(out);
}

/* Writes the number that is the first argument by what is asked for, as the result of a call. */
static void write_value(sqlite3_context *context, sqlite3_value *number, const Asked *asked) {
    legumeyet_formatter *formatter;
    if (sqlite3_value_type(number) == SQLITE_BLOB) {
        refuse(context, "legumeyet: a blob is no number");
        return;
    }
    if (sqlite3_value_type(number) == SQLITE_FLOAT && isinf(sqlite3_value_double(number))) {
        refuse(context, "legumeyet: infinity is no number to write");
        return;
    }
    formatter = formatter_of(context, asked);
    if (formatter != NULL)
        write_number(context, formatter, number);
}

static void format_call(sqlite3_context *context, int count, sqlite3_value **arguments) {
    Asked asked;
    if (has_null(count, arguments))
        return;
    asked = asked_of(count, arguments);
    write_value(context, arguments[0], &asked);
}

static int is_text(Text text, const char *other) {
    return text.length == strlen(other) && memcmp(text.bytes, other, text.length) == 0;
}

/* Writes the plural category of a number: of the type that is the third argument, or a cardinal one. */
static void plural_call(sqlite3_context *context, int count, sqlite3_value **arguments) {
    Asked asked;
    if (has_null(count, arguments))
        return;
    asked = asked_of(count, arguments);
    if (count == 2 || is_text(asked.format, "cardinal"))
        asked.plurals = LEGUMEYET_PLURALS_CARDINAL;
    else if (is_text(asked.format, "ordinal"))
        asked.plurals = LEGUMEYET_PLURALS_ORDINAL;
    if (asked.plurals == LEGUMEYET_PLURALS_NONE)
        refuse(context, "legumeyet: a type of plural categories is 'cardinal' or 'ordinal'");
    else
        write_value(context, arguments[0], &asked);
}

/*
 * Gives digits as SQLite has numbers: an integer where they have no point and fit 64 bits, else a real where a double has them all, as it
 * has fifteen, else the digits as a text. A double of so few digits, and a power of ten up to 22, are exact, so their quotient is nearest.
 */
static void give_number(sqlite3_context *context, const char *digits, size_t length) {
    static const double tens[] = {1e0,  1e1,  1e2,  1e3,  1e4,  1e5,  1e6,  1e7,  1e8,  1e9,  1e10, 1e11,
                                  1e12, 1e13, 1e14, 1e15, 1e16, 1e17, 1e18, 1e19, 1e20, 1e21, 1e22};
    const char *point = memchr(digits, '.', length), *it = digits, *end = digits + length;
    int is_negative = length > 0 && *digits == '-', count = 0;
    size_t after = point == NULL ? 0 : (size_t)(end - point - 1);
    uint64_t value = 0;
    for (; it < end; it++) {
        if (*it < '0' || *it > '9')
            continue;
        count += count > 0 || *it != '0';
        if (count > 19)
            break;
        value = value * 10 + (uint64_t)(*it - '0');
    }
    if (it == end && point == NULL && value <= (uint64_t)INT64_MAX + (uint64_t)is_negative)
        sqlite3_result_int64(context, (sqlite3_int64)(is_negative ? 0 - value : value));
    else if (it == end && count <= 15 && after <= 22)
        sqlite3_result_double(context, (is_negative ? -(double)value : (double)value) / tens[after]);
    else
        sqlite3_result_text64(context, digits, length, SQLITE_TRANSIENT, SQLITE_UTF8);
}

/* Reads a text as the result of a call, which stays NULL where no number is written so and `or_null` is. */
static void read_number(sqlite3_context *context, legumeyet_formatter *formatter, Text typed, int or_null) {
    uint8_t room[256], *out = room;
    size_t length = 0;
    int32_t error = legumeyet_formatter_read_lenient(formatter, typed.bytes, typed.length, out, sizeof room, &length);
    if (error == LEGUMEYET_TOO_SMALL) {
        out = sqlite3_malloc64(length);
        error = out == NULL ? LEGUMEYET_MEMORY
                            : legumeyet_formatter_read_lenient(formatter, typed.bytes, typed.length, out, length, &length);
    }
    if (error == LEGUMEYET_OK)
        give_number(context, (const char *)out, length);
    else if (!or_null || (error != LEGUMEYET_NOT_WRITTEN && error != LEGUMEYET_UTF8))
        refuse_text(context, error, typed);
    if (out != room)
        sqlite3_free(out);
}

static void read_value(sqlite3_context *context, int count, sqlite3_value **arguments, int or_null) {
    int type = sqlite3_value_type(arguments[0]);
    legumeyet_formatter *formatter;
    Asked asked;
    if (has_null(count, arguments))
        return;
    if (type == SQLITE_INTEGER || type == SQLITE_FLOAT)
        sqlite3_result_value(context, arguments[0]);
    if (type == SQLITE_BLOB && !or_null)
        refuse(context, "legumeyet: a blob is no text");
    if (type != SQLITE_TEXT)
        return;
    asked = asked_of(count, arguments);
    formatter = formatter_of(context, &asked);
    if (formatter != NULL)
        read_number(context, formatter, text_of(arguments[0]), or_null);
}

static void read_call(sqlite3_context *context, int count, sqlite3_value **arguments) {
    read_value(context, count, arguments, 0);
}

static void read_or_null_call(sqlite3_context *context, int count, sqlite3_value **arguments) {
    read_value(context, count, arguments, 1);
}

static void version_call(sqlite3_context *context, int count, sqlite3_value **arguments) {
    char *text = sqlite3_mprintf("%u.%u", legumeyet_version(), legumeyet_minor());
    (void)count;
    (void)arguments;
    if (text == NULL)
        sqlite3_result_error_nomem(context);
    else
        sqlite3_result_text(context, text, -1, sqlite3_free);
}

/* A table without formatters, with one user; NULL where there is no memory. */
static Table *new_table(void) {
    Table *table = sqlite3_malloc64(sizeof *table);
    if (table != NULL) {
        memset(table, 0, sizeof *table);
        table->users = 1;
    }
    return table;
}

/* Defines the functions for a connection. SQLite finds this call by the name of the file. */
int sqlite3_legumeyet_init(sqlite3 *connection, char **message, const sqlite3_api_routines *api);
int sqlite3_legumeyet_init(sqlite3 *connection, char **message, const sqlite3_api_routines *api) {
    static const struct {
        const char *name;
        int arguments;
        void (*call)(sqlite3_context *, int, sqlite3_value **);
    } calls[] = {
        {"legumeyet_format", 2, format_call},
        {"legumeyet_format", 3, format_call},
        {"legumeyet_plural", 2, plural_call},
        {"legumeyet_plural", 3, plural_call},
        {"legumeyet_read", 2, read_call},
        {"legumeyet_read", 3, read_call},
        {"legumeyet_read_or_null", 2, read_or_null_call},
        {"legumeyet_read_or_null", 3, read_or_null_call},
        {"legumeyet_version", 0, version_call},
    };
    const int how = SQLITE_UTF8 | SQLITE_DETERMINISTIC | SQLITE_INNOCUOUS;
    int result = SQLITE_OK;
    Table *table;
    size_t at;
    SQLITE_EXTENSION_INIT2(api);
    if (open_world() != LEGUMEYET_OK || (table = new_table()) == NULL)
        return SQLITE_NOMEM;
    for (at = 0; at < sizeof calls / sizeof *calls && result == SQLITE_OK; at++) {
        table->users++; /* which SQLite ends too where it refuses the function */
        result = sqlite3_create_function_v2(connection, calls[at].name, calls[at].arguments, how, table, calls[at].call, NULL, NULL,
                                            end_use);
        if (result != SQLITE_OK)
            *message = sqlite3_mprintf("%s can't be defined", calls[at].name);
    }
    end_use(table);
    return result;
}
