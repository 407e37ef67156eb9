/*
 * The calls for JavaScript: those of legumeyet.h with sizes of 32 bits, and with texts in two buffers of the module.
 *
 * A result below 0 is less the number of an error; else it is the length of the text that was written, or 0. A text of at most ROOM
 * bytes is put at js_in() and found at js_out(). A larger one is put at js_large_in(size), and found at js_large_out(); js_let_go() frees
 * both. The words of a format, or of the options of a call, are put at js_how(), behind their count. A column of numbers is put at
 * js_column_in(), and its texts are found at js_column_out(). In the memory of the module a pointer of the library takes eight bytes, as on
 * the machine that its layouts were computed for.
 */
typedef unsigned char u8;
typedef unsigned u32;
typedef unsigned long long u64;
typedef int number;

void *malloc(__SIZE_TYPE__);
void free(void *);
void keep_clean(void);
void forget_freed(void);

typedef struct {
    u64 content, is_open;
} handle;

typedef struct {
    u64 start, end;
    u32 kind, unused;
} interval;
_Static_assert(sizeof(handle) == 16 && sizeof(interval) == 24, "as the library has them");

/* What is written by the words of options that a call is given, and a column. */
#define WORDS const number *, u64
#define TEXT u8 *, u64, u64 *
#define COLUMN_TEXTS u8 *, u64, u64 *, u64, u64 *

number legumeyet_book_open(const u8 *, u64, handle *);
number legumeyet_book_close(handle *);
number legumeyet_book_keep(handle *);
number legumeyet_book_answer(handle *, const u8 *, u64, TEXT);
number legumeyet_book_locale_count(handle *, u64 *);
number legumeyet_book_locale(handle *, u64, TEXT);
number legumeyet_book_found_locale(handle *, const u8 *, u64, TEXT);
number legumeyet_answers_open(handle *, u64, handle *);
number legumeyet_answers_close(handle *);
number legumeyet_answers_answer(handle *, const u8 *, u64, TEXT, u64 *, u64 *);
number legumeyet_formatter_open(handle *, const u8 *, u64, WORDS, const u8 *, u64, handle *);
number legumeyet_formatter_open_skeleton(handle *, const u8 *, u64, const u8 *, u64, u64 *, handle *);
number legumeyet_formatter_close(handle *);
number legumeyet_formatter_format(handle *, const u8 *, u64, WORDS, TEXT);
number legumeyet_formatter_format_parts(handle *, const u8 *, u64, WORDS, TEXT, interval *, u64, u64 *);
number legumeyet_formatter_format_exact(handle *, const u8 *, u64, WORDS, TEXT);
number legumeyet_formatter_shown(handle *, const u8 *, u64, WORDS, TEXT);
number legumeyet_formatter_format_doubles(handle *, const double *, u64, WORDS, COLUMN_TEXTS);
number legumeyet_formatter_format_integers(handle *, const long long *, u64, short, WORDS, COLUMN_TEXTS);
number legumeyet_formatter_format_texts(handle *, const u8 *, u64, WORDS, COLUMN_TEXTS);
number legumeyet_formatter_format_range(handle *, const u8 *, u64, const u8 *, u64, WORDS, TEXT);
number legumeyet_formatter_tell(handle *, u32, TEXT);
number legumeyet_formatter_read(handle *, const u8 *, u64, TEXT);
number legumeyet_formatter_read_lenient(handle *, const u8 *, u64, TEXT);
number legumeyet_skeleton_normal(const u8 *, u64, u64 *, TEXT);
number legumeyet_error_text(number, TEXT);
u32 legumeyet_version(void);
u32 legumeyet_minor(void);

enum { ROOM = 512, HOW = 11, PARTS = 64, NUMBERS = 512, TEXTS = 1 << 14, MEMORY = 1, TOO_SMALL = 3 };

static u8 small_in[ROOM], small_out[ROOM];
static interval small_parts[PARTS];
static u8 *large_in, *large_out;
static interval *large_parts;
static u32 parts_count;
static number how[HOW];
static u64 fault_place;

u8 *js_in(void) { return small_in; }
u8 *js_out(void) { return small_out; }
u8 *js_large_in(u32 size) { return large_in = malloc(size); }
u8 *js_large_out(void) { return large_out; }
interval *js_parts(void) { return large_parts ? large_parts : small_parts; }
u32 js_parts_count(void) { return parts_count; }
number *js_how(void) { return how; }

/* Where the word or part begins that makes a text no skeleton, as the call said that read it last. */
u32 js_place(void) { return (u32)fault_place; }

void js_let_go(void) {
    free(large_in);
    free(large_out);
    free(large_parts);
    large_in = large_out = 0;
    large_parts = 0;
}

/* A call writes `length` bytes and lists `count` parts; it is made again with room for them where there was too little. */
typedef struct {
    u8 *out;
    u64 room, length;
    interval *parts;
    u64 parts_room, count;
} place;

static place small(void) { return (place){small_out, ROOM, 0, small_parts, PARTS, 0}; }

static int is_enlarged(place *at) {
    if (at->length > at->room) {
        at->out = large_out = malloc((__SIZE_TYPE__)at->length);
        at->room = at->length;
    }
    if (at->count > at->parts_room) {
        at->parts = large_parts = malloc((__SIZE_TYPE__)at->count * sizeof(interval));
        at->parts_room = at->count;
    }
    return at->out && at->parts;
}

static number told(number error, const place *at) {
    parts_count = (u32)at->count;
    return error ? -error : (number)at->length;
}

/* Makes a call that writes to the place `at`, a second time where it says so. */
#define WRITTEN(CALL)                                                        \
    place at = small();                                                      \
    number error = CALL;                                                     \
    if (error == TOO_SMALL) error = is_enlarged(&at) ? CALL : MEMORY;        \
    return told(error, &at);

#define OUT at.out, at.room, &at.length
#define PARTS_OUT OUT, at.parts, at.parts_room, &at.count

static const u8 *text_in(void) { return large_in ? large_in : small_in; }

/* A column: at most NUMBERS numbers a call, and their texts, one after the other. */
static union {
    double doubles[NUMBERS];
    long long integers[NUMBERS];
} column_in;
static u8 column_out[TEXTS];
static u64 column_ends[NUMBERS];
static u32 column_units[NUMBERS], column_length;
static number column_error;

void *js_column_in(void) { return &column_in; }
u8 *js_column_out(void) { return large_out ? large_out : column_out; }

/* How many bytes the texts have, and where each ends, in the units of JavaScript's strings: one for each character, and two for one of four bytes. */
u32 js_column_length(void) { return column_length; }
u32 *js_column_ends(void) { return column_units; }

/* Why the number after the last that was written was not; 0 where there is none, or where it is still to be written. */
number js_column_error(void) { return column_error; }

static number column_told(const u8 *out, u32 count, number error) {
    u32 at = 0, units = 0;
    for (u32 text = 0; text < count; text++) {
        for (; at < column_ends[text]; at++) units += (out[at] & 0xc0) != 0x80 ? 1 + (out[at] >= 0xf0) : 0;
        column_units[text] = units;
    }
    column_length = at;
    column_error = error == TOO_SMALL ? 0 : error;
    return (number)count;
}

/* Makes a call that writes a column, with more room where the first text needs it. Returns how many numbers were written. */
#define COLUMN(CALL)                                                         \
    u8 *out = column_out;                                                    \
    u64 room = TEXTS, count = 0;                                             \
    number error;                                                            \
    while ((error = CALL) == TOO_SMALL && count == 0) {                      \
        free(large_out);                                                     \
        room *= 2;                                                           \
        out = large_out = malloc((__SIZE_TYPE__)room);                       \
        if (!out) return column_told(column_out, 0, MEMORY);                 \
    }                                                                        \
    return column_told(out, (u32)count, error);

#define ASKED how + 1, (u64)how[0]
#define COLUMN_OUT ASKED, out, room, column_ends, NUMBERS, &count

handle *js_new(void) {
    handle *it = malloc(sizeof *it);
    if (it) *it = (handle){0, 0};
    return it;
}

/* Books. */
number js_book_open(handle *it, u32 n) { return -legumeyet_book_open(text_in(), n, it); }
number js_book_keep(handle *it) { return -legumeyet_book_keep(it); }
number js_book_answer(handle *it, u32 n) { WRITTEN(legumeyet_book_answer(it, text_in(), n, OUT)) }
number js_book_locale_count(handle *it) {
    u64 count = 0;
    number error = legumeyet_book_locale_count(it, &count);
    return error ? -error : (number)count;
}
number js_book_locale(handle *it, u32 index) { WRITTEN(legumeyet_book_locale(it, index, OUT)) }
number js_book_found_locale(handle *it, u32 n) { WRITTEN(legumeyet_book_found_locale(it, text_in(), n, OUT)) }
void js_book_close(handle *it) {
    legumeyet_book_close(it);
    free(it);
}

/* The book inside a module that is made of this one's memory, once it is kept. */
static handle *inside;
void js_book_put_inside(handle *book) { inside = book; }
handle *js_book_inside(void) { return inside; }
void js_keep_clean(void) { keep_clean(); }
void js_forget_freed(void) { forget_freed(); }

/* Answers to request lines. */
number js_answers_open(handle *book, u32 capacity, handle *it) { return -legumeyet_answers_open(book, capacity, it); }
/*
 * Answers the lines from the byte `from` up to `end`, as many as have room, and one at least. Their answers are found at js_column_out(), with
 * their length and why there are no more as of a column. Returns how many bytes of the lines were answered.
 */
number js_answers_answer(handle *it, u32 from, u32 end) {
    const u8 *lines = text_in() + from;
    u64 read = 0, written = 0, needs = 0;
    free(large_out);
    large_out = 0;
    number error = legumeyet_answers_answer(it, lines, end - from, column_out, TEXTS, &read, &written, &needs);
    if (error == TOO_SMALL && read == 0) {
        large_out = malloc((__SIZE_TYPE__)needs);
        error = large_out ? legumeyet_answers_answer(it, lines, end - from, large_out, needs, &read, &written, &needs) : MEMORY;
    }
    column_length = (u32)written;
    column_error = error == TOO_SMALL ? 0 : error;
    return (number)read;
}
void js_answers_close(handle *it) {
    legumeyet_answers_close(it);
    free(it);
}

/*
 * Formatters. The text that one is opened of is a tag and, behind it, the code of its currency or its skeleton, and that of a range its second end
 * behind its first. What a module of a page may be made without has a call that does nothing, by which JavaScript knows that it is there: compact
 * numbers, percents and amounts, and plural rules.
 */
number js_formatter_open(handle *book, u32 n, u32 unit, handle *it) {
    return -legumeyet_formatter_open(book, text_in(), n, ASKED, unit ? text_in() + n : 0, unit, it);
}
number js_formatter_open_skeleton(handle *book, u32 n, u32 skeleton, handle *it) {
    return -legumeyet_formatter_open_skeleton(book, text_in(), n, text_in() + n, skeleton, &fault_place, it);
}
number js_formatter_format(handle *it, u32 n) { WRITTEN(legumeyet_formatter_format(it, text_in(), n, ASKED, OUT)) }
number js_formatter_parts(handle *it, u32 n) { WRITTEN(legumeyet_formatter_format_parts(it, text_in(), n, ASKED, PARTS_OUT)) }
number js_formatter_shown(handle *it, u32 n) { WRITTEN(legumeyet_formatter_shown(it, text_in(), n, ASKED, OUT)) }
number js_formatter_exact(handle *it, u32 n) { WRITTEN(legumeyet_formatter_format_exact(it, text_in(), n, ASKED, OUT)) }
number js_formatter_range(handle *it, u32 n, u32 second) {
    WRITTEN(legumeyet_formatter_format_range(it, text_in(), n, text_in() + n, second, ASKED, OUT))
}
number js_formatter_tell(handle *it, u32 fact) { WRITTEN(legumeyet_formatter_tell(it, fact, OUT)) }
number js_formatter_read(handle *it, u32 n) { WRITTEN(legumeyet_formatter_read(it, text_in(), n, OUT)) }
number js_formatter_read_lenient(handle *it, u32 n) { WRITTEN(legumeyet_formatter_read_lenient(it, text_in(), n, OUT)) }
number js_formatter_doubles(handle *it, u32 n) { COLUMN(legumeyet_formatter_format_doubles(it, column_in.doubles, n, COLUMN_OUT)) }
number js_formatter_integers(handle *it, u32 n) { COLUMN(legumeyet_formatter_format_integers(it, column_in.integers, n, 0, COLUMN_OUT)) }
number js_formatter_texts(handle *it, u32 n) { COLUMN(legumeyet_formatter_format_texts(it, text_in(), n, COLUMN_OUT)) }
void js_formatter_close(handle *it) {
    legumeyet_formatter_close(it);
    free(it);
}
number js_skeleton_normal(u32 n) { WRITTEN(legumeyet_skeleton_normal(text_in(), n, &fault_place, OUT)) }
void js_compact(void) {}
void js_units(void) {}
void js_plurals(void) {}

number js_error_text(number of) { WRITTEN(legumeyet_error_text(of, OUT)) }
u32 js_version(void) { return legumeyet_version(); }
u32 js_minor(void) { return legumeyet_minor(); }
