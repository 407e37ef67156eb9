/*
 * Legumeyet: numbers written as their readers write them, from C.
 *
 * A book has the tables that numbers are written with; that of the world's locales is in the library. From it formatters are opened, one for
 * each locale tag and format: of plain, compact or scientific numbers, percents or amounts of money. They write into bytes of the caller's:
 *
 *     legumeyet_book world = {0};
 *     legumeyet_formatter german = {0};
 *     uint8_t out[64];
 *     size_t length = 0;
 *     legumeyet_book_open_world(&world);
 *     legumeyet_formatter_open(&world, LEGUMEYET_TEXT("de"), NULL, 0, NULL, 0, &german);
 *     legumeyet_formatter_format(&german, LEGUMEYET_TEXT("1234567.891"), NULL, 0, out, sizeof out, &length);
 *     fwrite(out, 1, length, stdout);                            // 1.234.567,891
 *     legumeyet_formatter_close(&german);
 *     legumeyet_book_close(&world);
 * Texts are UTF-8, a pointer and a length in bytes; no NUL is written after one, and it may have a NUL inside, where a symbol of its book
 * has one. A pointer to a text of length 0, to no words, to no numbers, or to a room of 0, may be NULL, so `NULL, 0` asks how much room a
 * text needs. No other pointer may be NULL, but where a call says so.
 *
 * A handle is memory of the caller's. Zeroed memory is a closed handle. A handle is not copied, and its fields are not for callers. A formatter
 * has the tables that it needs, so its book may be closed before it. A handle that has something of another type open, as a book's that is cast
 * to a formatter's, is closed to a call. Only a call that opens the handle closes what it had, once it returns 0. A call that returns a number
 * other than 0 leaves its handles as they were. Of several such numbers it returns the first of its list.
 *
 * A call that takes `out`, `room` and `length` writes the text to the front of the `room` bytes at `out`, and its length in bytes to
 * `length`; the bytes after the text stay as they were. Where the text is longer than `room` it returns LEGUMEYET_TOO_SMALL, the `room`
 * bytes are the first of the text, which may end inside a character, and `length` is what it needs. Any other error leaves both as they were.
 * What a call writes to overlaps nothing else that it is given, and nothing else writes meanwhile to what a call is given.
 *
 * Threads: one call at a time has a handle, also a call that only reads; any number of calls that take the handle of a shared formatter as
 * `const` run at once. A handle may go to another thread by a lock, a thread's start or join, or a sequentially consistent atomic. Two handles
 * may be used at once, also two formatters of one book; to open a formatter is a call on its book. No call is made in a signal handler, or in a
 * forked child of a process with threads. A call takes at most 48 KiB of stack, and 168 KiB to open a JSON nested far deeper than a book.
 */
#ifndef LEGUMEYET_H
#define LEGUMEYET_H

#include <stdbool.h>
#include <stddef.h>
#include <stdint.h>
#include <string.h>

#ifdef __cplusplus
extern "C" {
#endif

/* The version of this header, and the minor one: a function, a number or a word that is added raises this, and none ever changes its meaning. */
#define LEGUMEYET_VERSION 2
#define LEGUMEYET_MINOR 1

/* The two arguments that a text with a NUL at its end is given by, evaluated twice, and those of a struct of words: see legumeyet_format. */
#define LEGUMEYET_TEXT(text) (const uint8_t *)(text), strlen(text)
#define LEGUMEYET_WORDS(asked) &(asked), sizeof(asked) / sizeof(int32_t)

/* What a call returns. */
enum {
    LEGUMEYET_FILE = -1,        /* a file cannot be read: errno says why, and legumeyet_error_text has no text of it */
    LEGUMEYET_OK = 0,           /* all is well */
    LEGUMEYET_MEMORY = 1,       /* memory was refused */
    LEGUMEYET_CLOSED = 2,       /* the handle is closed, or has something of another type open */
    LEGUMEYET_TOO_SMALL = 3,    /* the text needs more room; how much was written to `length` */
    LEGUMEYET_OPTION = 4,       /* a word has a number that is not in its list, as a grouping of 5, or is unknown, or two exclude each other */
    LEGUMEYET_TAG = 5,          /* the text is no locale tag, as `e`, or `de_DE`, which is written `de-DE`: legumeyet_tag_of_locale_name */
    LEGUMEYET_TABLE = 6,        /* the book lacks a table for the tag, or compact or scientific numbers with a unit are asked for */
    LEGUMEYET_NUMBER = 7,       /* the text is no decimal number, as `5.`, or `1e+3`, which is written `1e3` */
    LEGUMEYET_LIMIT = 8,        /* a digit of the number is beyond the magnitudes -32768 to 32767 */
    LEGUMEYET_RANGE = 9,        /* what a number is shown as, compact or scientific, or an exact form, has a digit beyond these magnitudes */
    LEGUMEYET_UTF8 = 10,        /* the text is not UTF-8 */
    LEGUMEYET_UNREADABLE = 11,  /* two numbers may have one text, by the symbols, or of compact numbers or words; or typed ones are scientific */
    LEGUMEYET_NOT_WRITTEN = 12, /* the formatter writes no number so, as `98,7654` in English */
    LEGUMEYET_EXPONENT = 13,    /* numbers of the magnitude of an exact form have another exponent, as 3 that of `1.2c5`; scientific ones any */
    LEGUMEYET_CODE = 14,        /* the text is no code of a currency, three letters `A` to `Z`, as `eur`; or no currency is asked for */
    LEGUMEYET_UNKEPT = 15,      /* the book is not kept, as by legumeyet_book_keep */
    /* Why a text is no book: the first faulty entry decides, and of an entry the least number. */
    LEGUMEYET_BOOK_JSON = 101,      /* the bytes are no JSON, as `[1` */
    LEGUMEYET_BOOK_SHAPE = 102,     /* the value is no book of arrays, nor one with units and more beside it, or an entry has another form */
    LEGUMEYET_BOOK_TAG = 103,       /* a locale, or the parent of one, is refused, as `e` */
    LEGUMEYET_BOOK_SYSTEM = 104,    /* a name of a numbering system is not 3 to 8 lower-case letters and digits */
    LEGUMEYET_BOOK_TEXT = 105,      /* a tab or a line feed is in the text of a symbol or a pattern */
    LEGUMEYET_BOOK_DIGITS = 106,    /* the digits of a system are not ten characters, or a tab or a line feed is among them */
    LEGUMEYET_BOOK_CONDITION = 107, /* the condition of a plural category is not one */
    LEGUMEYET_BOOK_TYPES = 108,     /* the types of patterns do not rise */
    LEGUMEYET_BOOK_EXPONENTS = 109, /* an exponent of patterns falls, is above its type, or is more than 15 below it */
    LEGUMEYET_BOOK_DUPLICATE = 110, /* an earlier entry of the array has the same key */
    LEGUMEYET_BOOK_CYCLE = 111,     /* the parents of a locale lead back to it */
    LEGUMEYET_BOOK_UNIT = 113,      /* the place of the unit is not once in a pattern */
    LEGUMEYET_BOOK_CODE = 114,      /* the code of a currency is not three letters `A` to `Z` */
    /* Why a text is no skeleton: the first faulty word decides. */
    LEGUMEYET_SKELETON_UNKNOWN = 201,    /* a word is none of a skeleton, as `foo` */
    LEGUMEYET_SKELETON_TWICE = 202,      /* a word sets what another one has set, as the second of `percent currency/EUR` */
    LEGUMEYET_SKELETON_CODE = 203,       /* what follows `currency/` is no code of a currency, as in `currency/EURO` */
    LEGUMEYET_SKELETON_PAIR = 204,       /* a word is for amounts, and there is no currency, as `sign-accounting` alone */
    LEGUMEYET_SKELETON_SYSTEM = 205,     /* a word names a numbering system, which the tag has, as `latin` */
    LEGUMEYET_SKELETON_LATER = 206,      /* a word, or what it says beside another one, is not written yet, as `scale/100` */
    LEGUMEYET_SKELETON_UNSUPPORTED = 207 /* a word asks for what is not written here, as `decimal-always` */
};

/* How the digits are written. */
enum {
    LEGUMEYET_NOTATION_STANDARD = 0,   /* all of them: `1,650` in English */
    LEGUMEYET_NOTATION_COMPACT = 1,    /* the first two or three, in a pattern: `1.6K` */
    LEGUMEYET_NOTATION_SCIENTIFIC = 2, /* those of a significand below 10, and a power of ten: `1.65E3` */
    LEGUMEYET_NOTATION_ENGINEERING = 3 /* of one below 1,000, with an exponent that is a multiple of three: 0.00012 as `120E-6` */
};

/* In which patterns compact numbers are written. */
enum {
    LEGUMEYET_WIDTH_SHORT = 0, /* `1.6K` in English */
    LEGUMEYET_WIDTH_LONG = 1   /* `1.6 thousand` */
};

/* What is written beside the digits. */
enum {
    LEGUMEYET_UNIT_NONE = 0,     /* nothing */
    LEGUMEYET_UNIT_PERCENT = 1,  /* the percent sign: 12.5 as `12.5%`; a ratio is multiplied by 100 first */
    LEGUMEYET_UNIT_CURRENCY = 2, /* a currency: 5 dollars as `$5.00` */
    LEGUMEYET_UNIT_PERMILLE = 3  /* the permille sign: 12.5 as `12.5‰` */
};

/* For whom an amount is written. */
enum {
    LEGUMEYET_STYLE_STANDARD = 0,  /* in general: `-$5.00` in English */
    LEGUMEYET_STYLE_ACCOUNTING = 1 /* in accounting: `($5.00)` */
};

/* How a currency is written. */
enum {
    LEGUMEYET_CURRENCY_SYMBOL = 0, /* by its symbol, or by its code where it has none: `$5.00` in English */
    LEGUMEYET_CURRENCY_CODE = 1    /* by its code: `USD 5.00` */
};

/* When grouping separators are written. */
enum {
    LEGUMEYET_GROUPING_AUTO = 0,      /* where the sizes of the locale place them: `1,234,567`; in Spanish `1234`, and `12.345` */
    LEGUMEYET_GROUPING_NEVER = 1,     /* nowhere: `1234567` */
    LEGUMEYET_GROUPING_ALWAYS = 2,    /* as AUTO */
    LEGUMEYET_GROUPING_MIN2 = 3,      /* as AUTO, but only with two digits before the last separator: `1000`, `10,000` */
    LEGUMEYET_GROUPING_ON_ALIGNED = 4 /* as AUTO, but already with one digit before the last separator, also in Spanish: `1.234` */
};

/* What is written of a number: the number, or its plural category, a word: `zero`, `one`, `two`, `few`, `many` or `other`. */
enum {
    LEGUMEYET_PLURALS_NONE = 0,     /* the number: `1,650` in English */
    LEGUMEYET_PLURALS_CARDINAL = 1, /* the category of how many there are: in English `one` of `1`, and `other` of `1.0` and `2` */
    LEGUMEYET_PLURALS_ORDINAL = 2   /* that of which one it is: `one` of 1 and 21, `two` of 2, `few` of 3, else `other`: 1st, 2nd, 3rd, 4th */
};

/* Which sign is written; chosen by what the rounding left. */
enum {
    LEGUMEYET_SIGN_KEEP = 0,        /* the one of the number as it was given: `+5` stays `+5` */
    LEGUMEYET_SIGN_AUTO = 1,        /* a minus where the number has one; a plus is left out */
    LEGUMEYET_SIGN_NEVER = 2,       /* none */
    LEGUMEYET_SIGN_ALWAYS = 3,      /* a plus where the number has none */
    LEGUMEYET_SIGN_EXCEPT_ZERO = 4, /* none at zero, and else as ALWAYS */
    LEGUMEYET_SIGN_NEGATIVE = 5     /* a minus on a number that is not zero, and else none */
};

/* Which multiple of the increment, at the position, a number is rounded to. */
enum {
    LEGUMEYET_ROUND_USUAL = 0,       /* an amount to the digits of its currency, a tie to the even one; any other number is not rounded */
    LEGUMEYET_ROUND_EXPAND = 1,      /* away from zero */
    LEGUMEYET_ROUND_TRUNC = 2,       /* towards zero */
    LEGUMEYET_ROUND_CEIL = 3,        /* upwards */
    LEGUMEYET_ROUND_FLOOR = 4,       /* downwards */
    LEGUMEYET_ROUND_HALF_EXPAND = 5, /* to the nearest, a tie away from zero */
    LEGUMEYET_ROUND_HALF_TRUNC = 6,  /* to the nearest, a tie towards zero */
    LEGUMEYET_ROUND_HALF_CEIL = 7,   /* to the nearest, a tie upwards */
    LEGUMEYET_ROUND_HALF_FLOOR = 8,  /* to the nearest, a tie downwards */
    LEGUMEYET_ROUND_HALF_EVEN = 9,   /* to the nearest, a tie to the even one */
    LEGUMEYET_ROUND_CASH = 10,       /* as USUAL, but by the digits of the currency in cash */
    LEGUMEYET_ROUND_NONE = 11        /* it is not rounded */
};

/* What becomes of the zeros at the end of the fraction digits. */
enum {
    LEGUMEYET_TRAILING_ZEROS_KEEP = 0,       /* they stay: `1.50` */
    LEGUMEYET_TRAILING_ZEROS_TRIM = 1,       /* they are trimmed, and the separator where no digit is left: `1.5`, and `2` of `2.00` */
    LEGUMEYET_TRAILING_ZEROS_TRIM_WHOLE = 2, /* they are trimmed where no other digit is among them: `$5` of 5 dollars, and `$5.50` */
    LEGUMEYET_TRAILING_ZEROS_TRIM_ALL = 3    /* as TRIM, and again as TRIM_WHOLE what a least count padded: with 2 `1.50`, and `2` of 2.000 */
};

/* Which rounding counts, where a number has significant digits and a position. */
enum {
    LEGUMEYET_PRIORITY_AUTO = 0,           /* that to significant digits, wherever the position is */
    LEGUMEYET_PRIORITY_MORE_PRECISION = 1, /* the one that shows more digits: of 1234.56 to 2 digits or to -1 that to -1, `1,234.6` */
    LEGUMEYET_PRIORITY_LESS_PRECISION = 2  /* the one that shows fewer: `1,200` */
};

/* The kinds of parts. */
enum {
    LEGUMEYET_PART_MINUS_SIGN = 1,
    LEGUMEYET_PART_PLUS_SIGN = 2,
    LEGUMEYET_PART_INTEGER = 3,  /* the integer digits with their separators */
    LEGUMEYET_PART_GROUP = 4,    /* a grouping separator, inside an INTEGER */
    LEGUMEYET_PART_DECIMAL = 5,  /* the decimal separator */
    LEGUMEYET_PART_FRACTION = 6, /* the fraction digits */
    LEGUMEYET_PART_CURRENCY = 7, /* the currency */
    LEGUMEYET_PART_PERCENT_SIGN = 8,
    LEGUMEYET_PART_EXPONENT_SEPARATOR = 9,   /* the text before an exponent: `E` of `1.2E-6` */
    LEGUMEYET_PART_EXPONENT_MINUS_SIGN = 10, /* the sign of the exponent */
    LEGUMEYET_PART_EXPONENT_PLUS_SIGN = 11,
    LEGUMEYET_PART_EXPONENT_INTEGER = 12 /* its digits */
};

/* The facts of a formatter that legumeyet_formatter_tell tells. */
enum {
    LEGUMEYET_FACT_DECIMAL_SEPARATOR = 1,  /* `,` in German */
    LEGUMEYET_FACT_GROUPING_SEPARATOR = 2, /* `.` */
    LEGUMEYET_FACT_MINUS_BEFORE = 3,       /* what a minus is before the number: `-` */
    LEGUMEYET_FACT_MINUS_AFTER = 4,        /* and after it: mostly nothing */
    LEGUMEYET_FACT_PLUS_BEFORE = 5,
    LEGUMEYET_FACT_PLUS_AFTER = 6,
    LEGUMEYET_FACT_DIGITS = 7,          /* the ten digits, zero first: `0123456789` */
    LEGUMEYET_FACT_FRACTION_DIGITS = 8, /* how many digits an amount has after the separator: `2` of euros */
    LEGUMEYET_FACT_CASH_DIGITS = 9,     /* the same in cash */
    LEGUMEYET_FACT_CASH_INCREMENT = 10, /* to which multiples of the last digit cash is rounded: `5` of Swiss francs, `1` of euros */
    LEGUMEYET_FACT_CATEGORIES = 11      /* the plural categories that numbers may have, with blanks between: `one other` in English */
};

/* The handles; see above, "A handle", and below, "Shared formatters". */
typedef struct { void *content; bool is_open; } legumeyet_book;                   /* the tables of a book */
typedef struct { void *content; bool is_open; } legumeyet_formatter;              /* what numbers of one format are written with */
typedef struct { const void *content; bool is_open; } legumeyet_shared_formatter; /* the same, which threads use at once */
typedef struct { void *content; bool is_open; } legumeyet_answers;                /* a kept book, and the formatters used last */

/*
 * How numbers are written, in words: zeroed, it is plain numbers.
 *
 *     legumeyet_format money = {.unit = LEGUMEYET_UNIT_CURRENCY, .currency_style = LEGUMEYET_STYLE_ACCOUNTING};
 *     legumeyet_formatter_open(&world, LEGUMEYET_TEXT("en"), LEGUMEYET_WORDS(money), LEGUMEYET_TEXT("USD"), &accounting);
 * A call takes a struct of words by its address and by how many words it has, which are those of the header that the program was compiled
 * with: words may be added at the end. A word past the count is 0, and one that the library does not know has to be 0. So a program runs with
 * an older and with a newer library. LEGUMEYET_OPTION of a number that is not in the list of its word, also where it counts for nothing.
 */
typedef struct {
    int32_t notation;       /* a LEGUMEYET_NOTATION */
    int32_t width;          /* a LEGUMEYET_WIDTH; it counts only for compact numbers */
    int32_t unit;           /* a LEGUMEYET_UNIT; compact and scientific numbers have none: LEGUMEYET_TABLE */
    int32_t currency_style; /* a LEGUMEYET_STYLE; it counts only for amounts */
    int32_t currency_width; /* a LEGUMEYET_CURRENCY; it counts only for amounts */
    int32_t grouping;       /* a LEGUMEYET_GROUPING; people mostly expect MIN2 of compact numbers: `1000T`, `10,000T` */
    int32_t plurals;        /* a LEGUMEYET_PLURALS */
} legumeyet_format;

/*
 * What is made of a number before it is written, in words, as those of legumeyet_format: it is rounded, then trimmed, then padded, and then its
 * sign is chosen. Zeroed, the number stays as it is, and an amount has the digits of its currency. `NULL, 0` are the formatter's own options:
 * those of its skeleton, or zeroes where it was opened without one. Options that are given replace them wholly. Of LEGUMEYET_ROUND_USUAL,
 * LEGUMEYET_ROUND_CASH and LEGUMEYET_ROUND_NONE the position and the increment count for nothing. A zero that a rounding above the ones leaves
 * is one `0`: 400 to thousands, at 3, is `0`, and of dollars `$0`. Of a scientific number they change the significand: at -2 1234567 is `1.23E6`.
 *
 * Significant digits are counted from the first one on that is not zero: at most 3 of 12345 are `12,300`, and of 0.012345 `0.0123`; at least
 * 3 of 5 are `5.00`. Of zeros at the end of the fraction only those of the least count stay. The least count of fraction digits does nothing,
 * but where the priority chooses the position. LEGUMEYET_ROUND_USUAL is then HALF_EVEN, and LEGUMEYET_OPTION comes of CASH and NONE, of
 * another increment than 1, and of a least count above the greatest; a priority other than AUTO needs them, and a rounding that is a mode.
 *
 * At most two fraction digits, and none that is not needed: LEGUMEYET_ROUND_HALF_EVEN, the position -2 and LEGUMEYET_TRAILING_ZEROS_TRIM write
 * 1.995 as `2` and 1.255 as `1.26`. To the nearest twentieth: the position -2 and the increment 5 write 1.23 as `1.25`. An increment that ends
 * in zeros is one of its digits at a higher position, and the fraction digits down to the given position are shown too, where
 * LEGUMEYET_TRAILING_ZEROS keeps them: the position -2 and the increment 50 write 1.26 as `1.50`, and with TRIM as `1.5`. LEGUMEYET_OPTION of
 * such an increment where the higher position is above 32767, or the given one is -32768.
 */
typedef struct {
    int32_t sign;                       /* a LEGUMEYET_SIGN */
    int32_t rounding;                   /* a LEGUMEYET_ROUND */
    int32_t position;                   /* the magnitude that is rounded at, -32768 to 32767: 0 the ones, -2 the hundredths */
    int32_t increment;                  /* it is rounded to a multiple of 1, 2, 5 or 25 at the position, or of these with zeros up to 5000; 0 is 1 */
    int32_t trailing_zeros;             /* a LEGUMEYET_TRAILING_ZEROS */
    int32_t minimum_integer_digits;     /* so many integer digits are shown at least, 0 to 32767: with 3 7 is `007` */
    int32_t minimum_fraction_digits;    /* so many fraction digits are shown at least, 0 to 32767: with 2 7.5 is `7.50` */
    int32_t minimum_significant_digits; /* so many significant digits are shown at least, 0 to 65535; 0 is 1 beside a greatest count */
    int32_t maximum_significant_digits; /* it is rounded to so many, 0 to 65535; 0 is 65535 beside a least count */
    int32_t rounding_priority;          /* a LEGUMEYET_PRIORITY */
} legumeyet_options;

/* A part of a text: the bytes from `start` up to `end`; `kind` is a LEGUMEYET_PART. */
typedef struct { size_t start, end; uint32_t kind; } legumeyet_interval;

/* Opens the world's book, which is in the library: the tables of all locales of CLDR, Unicode's data. Returns 0; LEGUMEYET_MEMORY. */
int32_t legumeyet_book_open_world(legumeyet_book *book);

/*
 * The tag of a locale of the world's book, with a NUL at its end, as `de-AT`; NULL from the count of the locales on. The tags are in order,
 * and are never freed. Formatters can be opened of other tags too: `de-FR` has the tables of its parent `de`. Any thread may call it.
 */
const char *legumeyet_world_locale(size_t at);

/* Opens the book that a file is, as legumeyet_book_open does. `path` ends with a NUL. Returns LEGUMEYET_FILE too, and then errno says why. */
int32_t legumeyet_book_open_file(const char *path, legumeyet_book *book);

/*
 * Opens the book that a JSON text is. docs/books.md of the repository has its form, and books/README.md says how one of a choice of locales
 * is made; the shortest is `[[],[],[],[],[]]`. Returns 0; LEGUMEYET_BOOK_JSON to LEGUMEYET_BOOK_CODE; LEGUMEYET_MEMORY.
 */
int32_t legumeyet_book_open(const uint8_t *json, size_t json_length, legumeyet_book *book);

/* Closes a book, and gives its memory back; its formatters stay. Returns 0; LEGUMEYET_CLOSED, where it was closed already. */
int32_t legumeyet_book_close(legumeyet_book *book);

/*
 * Keeps a book for the rest of the program: its memory is never given back, not even where it is closed. A formatter that is opened from it
 * afterwards borrows its tables: it is opened sooner, and holds less memory. A book that is opened in its place is not kept.
 * Returns 0; LEGUMEYET_CLOSED; LEGUMEYET_MEMORY.
 */
int32_t legumeyet_book_keep(legumeyet_book *book);

/*
 * Count the locales that a book has symbols of, and write the tag of one, as `de-AT`: in the order of the book, each once.
 * Return 0; LEGUMEYET_CLOSED; LEGUMEYET_OPTION, where `index` is not below the count; LEGUMEYET_TOO_SMALL.
 */
int32_t legumeyet_book_locale_count(legumeyet_book *book, size_t *count);
int32_t legumeyet_book_locale(legumeyet_book *book, size_t index, uint8_t *out, size_t room, size_t *length);

/*
 * Writes the tag of the locale whose symbols numbers of a tag are written with: of the world's book `de` for `de-XX`, which falls back to it,
 * `de-AT` for `de-AT`, and `und` for `en-US`, as English has the symbols of the root. It is what ICU calls the actual locale.
 * Returns 0; LEGUMEYET_CLOSED; LEGUMEYET_TAG; LEGUMEYET_TABLE; LEGUMEYET_MEMORY; LEGUMEYET_TOO_SMALL.
 */
int32_t legumeyet_book_found_locale(legumeyet_book *book, const uint8_t *tag, size_t tag_length, uint8_t *out, size_t room, size_t *length);

/*
 * Answers a request line, without its line feed: `en`, `plain`, `auto`, `keep`, `-`, `-987654.321` with tabs between by `ok`, a tab and
 * `-987,654.321`. For a line that is refused the text is `err`, a tab and a word, and the call returns 0. The page legumeyet(1) of `man`
 * has the six fields, and docs/requests.md of the repository all about them. Each call makes a formatter.
 * Returns 0; LEGUMEYET_CLOSED; LEGUMEYET_MEMORY; LEGUMEYET_TOO_SMALL.
 */
int32_t legumeyet_book_answer(legumeyet_book *book, const uint8_t *line, size_t line_length, uint8_t *out, size_t room, size_t *length);

/*
 * Opens answers to request lines by a book, with the `capacity` formatters that were used last: who has many lines of few tags does not
 * make a formatter for each, as legumeyet_book_answer does. The book has to be kept, by legumeyet_book_keep; it may be closed first.
 * Returns 0; LEGUMEYET_CLOSED, of the book; LEGUMEYET_UNKEPT; LEGUMEYET_OPTION, of a capacity of 0; LEGUMEYET_MEMORY.
 */
int32_t legumeyet_answers_open(legumeyet_book *book, size_t capacity, legumeyet_answers *answers);

/* Closes answers, and gives their memory back. Returns 0; LEGUMEYET_CLOSED, where they were closed already. */
int32_t legumeyet_answers_close(legumeyet_answers *answers);

/*
 * Answers request lines, each ended by a line feed, in order: what is written is their answers, as legumeyet_book_answer has them, each
 * ended by a line feed. What is after the last line feed of `lines` is not read: a caller passes it again with what follows it, and at the
 * end of all adds a line feed where the last line has none. `read` is how many bytes of `lines` were answered, and `written` how many of `out`
 * were written, also with an error. `needs` is 0, but where the call returns LEGUMEYET_TOO_SMALL: then it is how many bytes the answer to the
 * next line has with its line feed, which are more than are left, and these are its first ones. A caller takes what is written, and goes on:
 *
 *     do {
 *         error = legumeyet_answers_answer(&answers, lines + at, length - at, out, sizeof out, &read, &written, &needs);
 *         fwrite(out, 1, written, stdout);
 *         at += read;
 *     } while (error == LEGUMEYET_TOO_SMALL && needs <= sizeof out);
 * Returns 0, where all lines that end were answered; LEGUMEYET_CLOSED, and the three counts are 0; LEGUMEYET_MEMORY; LEGUMEYET_TOO_SMALL.
 */
int32_t legumeyet_answers_answer(legumeyet_answers *answers, const uint8_t *lines, size_t lines_length, uint8_t *out, size_t room, size_t *read,
    size_t *written, size_t *needs);

/*
 * Opens the formatter of a format for a locale tag. Without words that of `en` writes -1234.5 as `-1,234.5`; of compact numbers that of `en`
 * writes 1650 as `1.6K`, of scientific ones as `1.65E3`, of percents that of `tr` 12.5 as `%12,5`, and of amounts that of `de-CH` and `CHF`
 * -5 as `CHF-5.00`. `unit` is the code of the currency, three letters `A` to `Z`, where the format is of amounts, and else `NULL, 0`. A currency
 * that the book does not know is written by its code, and has two digits. The formatter has its own copy of the tables, unless the book is kept.
 * With `plurals` each call that writes the text of a number writes its plural category instead, by what would be shown: of `1` with two fraction
 * digits at least `other` in English, and of 1200000 compact `many` in French, as `1,2 M`. It has no parts, and reads no text.
 * Returns 0; LEGUMEYET_CLOSED, of the book; LEGUMEYET_OPTION, of the format; LEGUMEYET_CODE; LEGUMEYET_TAG; LEGUMEYET_TABLE, where the book
 * has no symbols or no digits for the tag, or lacks what the format needs: plural rules, patterns of the width, percents, currencies, or the
 * text before exponents; LEGUMEYET_MEMORY, also in place of the last two.
 */
int32_t legumeyet_formatter_open(legumeyet_book *book, const uint8_t *tag, size_t tag_length, const legumeyet_format *format,
    size_t format_words, const uint8_t *unit, size_t unit_length, legumeyet_formatter *formatter);

/*
 * Opens the formatter of a skeleton, the text by which ICU asks for a format: `currency/EUR .00`, `compact-short`, `scientific .00`. The
 * options that it says are the formatter's own, but for the digits of compact numbers, as of `compact-short .00`, which are of its format.
 * docs/skeletons.md of the repository has the words, and where ICU differs.
 * Returns 0; LEGUMEYET_CLOSED, of the book; LEGUMEYET_SKELETON_UNKNOWN to LEGUMEYET_SKELETON_UNSUPPORTED, and only then `place` is written:
 * where the faulty word begins, in bytes of the skeleton, 8 of `percent foo`; LEGUMEYET_TAG; LEGUMEYET_TABLE; LEGUMEYET_MEMORY.
 */
int32_t legumeyet_formatter_open_skeleton(legumeyet_book *book, const uint8_t *tag, size_t tag_length, const uint8_t *skeleton,
    size_t skeleton_length, size_t *place, legumeyet_formatter *formatter);

/*
 * Open a formatter of a tag alone, by the world's book: the one that the call of the same name without `world` opens by that book, and refused
 * with the same numbers. They read only what the tag asks for, so they take a hundredth of the time of legumeyet_book_open_world: who opens few
 * formatters needs no book; a kept one is for who opens hundreds, or reads many texts back.
 * Return as legumeyet_formatter_open and legumeyet_formatter_open_skeleton, but for LEGUMEYET_CLOSED.
 */
int32_t legumeyet_formatter_open_world(const uint8_t *tag, size_t tag_length, const legumeyet_format *format, size_t format_words,
    const uint8_t *unit, size_t unit_length, legumeyet_formatter *formatter);
int32_t legumeyet_formatter_open_world_skeleton(const uint8_t *tag, size_t tag_length, const uint8_t *skeleton, size_t skeleton_length,
    size_t *place, legumeyet_formatter *formatter);

/*
 * Writes the normal text of a skeleton, one for all that ask for the same format: of `K  sign-auto` the text `compact-short`.
 * Returns 0; LEGUMEYET_SKELETON_UNKNOWN to LEGUMEYET_SKELETON_UNSUPPORTED, with `place` as above; LEGUMEYET_TOO_SMALL.
 */
int32_t legumeyet_skeleton_normal(const uint8_t *skeleton, size_t skeleton_length, size_t *place, uint8_t *out, size_t room, size_t *length);

/* Closes a formatter. Returns 0; LEGUMEYET_CLOSED, where it was closed already. */
int32_t legumeyet_formatter_close(legumeyet_formatter *formatter);

/*
 * Writes a decimal number that is given as text: in English `-987654.321` as `-987,654.321`, and `1.5e3` as `1,500`. With
 * LEGUMEYET_ROUND_HALF_EVEN at -1 and LEGUMEYET_SIGN_ALWAYS `9.75` is `+9.8`. An amount is rounded to the digits of its currency, and shown
 * down to them: 1.005 dollars are `$1.00`, 5 are `$5.00`, 2.5 yen are `¥2`. With LEGUMEYET_ROUND_CASH 2.345 francs are `CHF 2.35`, and with
 * LEGUMEYET_ROUND_NONE 5 dollars `$5`. A compact number is changed by the options before it is shown: -1172700 is `-1.2M`, rounded at 6 `-1M`.
 * What is shown has no zeros at the end of its fraction, so a least count of digits does nothing. The digits that a skeleton has for what is
 * before the pattern stay, whatever options are given: with `compact-short .00` 1234 is `1.23K`, rounded at 2 `1.20K`.
 * Returns 0; LEGUMEYET_CLOSED; LEGUMEYET_OPTION, of the options; LEGUMEYET_NUMBER; LEGUMEYET_LIMIT; LEGUMEYET_RANGE, of compact and scientific
 * numbers; LEGUMEYET_MEMORY, of a number of sixteen digits at most only where multiples of 25 give it a seventeenth; LEGUMEYET_TOO_SMALL.
 */
int32_t legumeyet_formatter_format(legumeyet_formatter *formatter, const uint8_t *number, size_t number_length,
    const legumeyet_options *options, size_t option_words, uint8_t *out, size_t room, size_t *length);

/*
 * Write the number `mantissa` times ten to the power `exponent`: -123456 and -2 as `-1,234.56` in English, 5 and 3 as `5,000`. The digits down
 * to that power are shown, of 0 too: 500 and -2 as `5.00`, 0 and 3 as `0,000`. The texts `0e3` and `0e-2` are both `0`.
 * Return as legumeyet_formatter_format, but for LEGUMEYET_NUMBER.
 */
int32_t legumeyet_formatter_format_i64(legumeyet_formatter *formatter, int64_t mantissa, int16_t exponent, const legumeyet_options *options,
    size_t option_words, uint8_t *out, size_t room, size_t *length);
int32_t legumeyet_formatter_format_u64(legumeyet_formatter *formatter, uint64_t mantissa, int16_t exponent, const legumeyet_options *options,
    size_t option_words, uint8_t *out, size_t room, size_t *length);

/*
 * Writes a double, by the shortest decimal number that gives it back where it is read as a double: in English 0.1 as `0.1`, 5.0 as `5`,
 * 1e21 as `1,000,000,000,000,000,000,000`, -0.0 as `-0`, and 2.675 dollars, whose exact value is a little less, as `$2.68`.
 * Returns as legumeyet_formatter_format, but for LEGUMEYET_LIMIT; LEGUMEYET_NUMBER of what is not finite.
 */
int32_t legumeyet_formatter_format_double(legumeyet_formatter *formatter, double number, const legumeyet_options *options, size_t option_words,
    uint8_t *out, size_t room, size_t *length);

/*
 * Writes as legumeyet_formatter_format does, and lists the parts of the text in order of their beginning: of `-€1,234.50` the minus sign at
 * 0 to 1, the currency at 1 to 4, the integer at 4 to 9, the group at 5 to 6, the decimal at 9 to 10 and the fraction at 10 to 12. Of a
 * compact number they are those of its sign, of `-1.2M` the minus sign at 0 to 1; with digits of a skeleton those of its digits too.
 *
 * `count` is how many parts there are. Where they are more than `intervals_room` the call returns LEGUMEYET_TOO_SMALL too, and the first
 * `intervals_room` of them are at `intervals`; those after the last part stay as they were. With LEGUMEYET_TOO_SMALL `length` and `count`
 * are what both need. Any other error leaves all as it was.
 * Returns as legumeyet_formatter_format; LEGUMEYET_MEMORY of any number.
 */
int32_t legumeyet_formatter_format_parts(legumeyet_formatter *formatter, const uint8_t *number, size_t number_length,
    const legumeyet_options *options, size_t option_words, uint8_t *out, size_t room, size_t *length, legumeyet_interval *intervals,
    size_t intervals_room, size_t *count);

/*
 * Writes the value that the text of a number shows: of `-1172700` in short English `-1.2c6`, which is -1.2 times ten to the power 6, and of a
 * scientific text `-1.1727e6`. Else it is the number, as the options leave it, as of a compact one without a pattern: `950`; of 5 dollars `5.00`.
 * Returns as legumeyet_formatter_format; LEGUMEYET_MEMORY also where what is shown has more than sixteen digits.
 */
int32_t legumeyet_formatter_shown(legumeyet_formatter *formatter, const uint8_t *number, size_t number_length, const legumeyet_options *options,
    size_t option_words, uint8_t *out, size_t room, size_t *length);

/*
 * Writes an exact form, as legumeyet_formatter_shown writes one, its digits as they are given: `-1.20c6` as `-1.20M` in short English. In
 * other formats than compact ones it has no exponent: `1.20`; scientific ones have none. Options change the significand: at -1 it is `-1.2M`.
 * Returns 0; LEGUMEYET_CLOSED; LEGUMEYET_OPTION, of the options; LEGUMEYET_NUMBER, where the text is no compact number, as `1.2e6`;
 * LEGUMEYET_LIMIT, also of an exponent above 255; LEGUMEYET_MEMORY, as of legumeyet_formatter_format; LEGUMEYET_RANGE, where the magnitude
 * of both together is above 32767; LEGUMEYET_EXPONENT; LEGUMEYET_TOO_SMALL.
 */
int32_t legumeyet_formatter_format_exact(legumeyet_formatter *formatter, const uint8_t *number, size_t number_length,
    const legumeyet_options *options, size_t option_words, uint8_t *out, size_t room, size_t *length);

/*
 * Writes the plural category of the range from one number to another, by those of both ends, as they are shown: of `0` and `1` in French
 * `one`, in English `other`. Without `plurals` it is LEGUMEYET_OPTION. Returns as legumeyet_formatter_format, of `first` before `second`.
 */
int32_t legumeyet_formatter_format_range(legumeyet_formatter *formatter, const uint8_t *first, size_t first_length, const uint8_t *second,
    size_t second_length, const legumeyet_options *options, size_t option_words, uint8_t *out, size_t room, size_t *length);

/*
 * Tells a fact of a formatter, a LEGUMEYET_FACT, as text. Amounts have the separators and signs of their currency, where it has its own.
 * Returns 0; LEGUMEYET_CLOSED; LEGUMEYET_OPTION, of another number, of 8 to 10 without a currency, of 11 without `plurals`; LEGUMEYET_TOO_SMALL.
 */
int32_t legumeyet_formatter_tell(legumeyet_formatter *formatter, uint32_t fact, uint8_t *out, size_t room, size_t *length);

/*
 * Reads a text back as the one number that the formatter writes so, and writes it as digits: in English `-1,234.50` as `-1234.50`, and with
 * euros `-€1,234.50`. How many digits the format shows is not looked at: `€1.5` is 1.5, and scientific `1.20E6` 1200000. A formatter of a kept
 * book keeps what it makes of its tables at the first call that reads. Another one, or one refused memory for that, makes it for each text.
 * Returns 0; LEGUMEYET_CLOSED; LEGUMEYET_UTF8; LEGUMEYET_UNREADABLE, as always of compact numbers and `plurals`; LEGUMEYET_NOT_WRITTEN, as of
 * `$1.00` with euros; LEGUMEYET_MEMORY, never of a plain or scientific number of sixteen digits at most; LEGUMEYET_TOO_SMALL.
 */
int32_t legumeyet_formatter_read(legumeyet_formatter *formatter, const uint8_t *text, size_t text_length, uint8_t *out, size_t room, size_t *length);

/*
 * Reads a text that somebody typed: as legumeyet_formatter_read does what the formatter writes, and other texts by folding. In English
 * ` 1234.5 `, `1,234.5`, `.5`, `5.` and `-5` with the minus sign U+2212 are read; `1,23`, `1,234,5` and `1 234` are not. With euros also
 * `€1234.5`, `1,234.5 €`, `EUR 5` and `5` are read; `$5` is not: the unit, its code, or `%` is before or after the number, or left out.
 *
 * Digits of any one system are read: `१२३` is 123. Where those of the formatter are not `0` to `9`, and the book has symbols of `latn` for
 * the locale, these are tried too: `١٬٢٣٤٫٥` and `1,234.5` are 1234.5 in `ar-EG`. Else an amount that has symbols of its own is tried with
 * those of plain numbers too: `€ 1.234,50` and `1 234,50` are 1234.50 in `de-AT`. What the formatter does not write, and the two read as
 * different numbers, is refused. Nothing is dropped or guessed, and digits are grouped wholly, by the sizes of the locale, or not at all.
 * docs/reading.md and docs/units.md of the repository have the rules.
 * Returns as legumeyet_formatter_read; LEGUMEYET_UNREADABLE also of all scientific numbers, and where two numbers may have one text once
 * symbols, affixes and unit are folded, but not of a plain number as it is written; LEGUMEYET_MEMORY of any text that is not written so.
 */
int32_t legumeyet_formatter_read_lenient(legumeyet_formatter *formatter, const uint8_t *text, size_t text_length, uint8_t *out, size_t room,
    size_t *length);

/*
 * Columns: many numbers in one call. Their texts are written to the front of `out`, one after the other and nothing between:
 *
 *     double numbers[3] = {1234.5, -7, 0.25};
 *     size_t ends[3], count = 0;
 *     legumeyet_formatter_format_doubles(&english, numbers, 3, NULL, 0, out, sizeof out, ends, 3, &count);
 *     // `1,234.5-70.25`, and the ends 7, 9 and 13
 * `count` is how many numbers were written, from the first on. The text at `at` ends at `ends[at]` of `out`, and begins where the one
 * before it ends, the first at 0. Each text is the one that the call for one number writes, with the same options.
 *
 * The call returns 0 where all were written. Else it returns why the next number, that at `count`, was not: LEGUMEYET_TOO_SMALL where
 * `count` is `ends_room`, or where its text has not room in `out` after the others; or what the call for one number returns. A caller takes
 * what is written, and goes on from the number at `count`, or from the one after it. LEGUMEYET_CLOSED and LEGUMEYET_OPTION come before all
 * numbers, also where there is none: `count` is 0. The ends from `count` on stay as they were, and so do the bytes of `out` after the last text,
 * but that with LEGUMEYET_TOO_SMALL these may be the first of the next text. A column of texts has one number a line. A line ends at a line
 * feed; what is after the last one is a line too, where it is not empty.
 */

/* Writes doubles, each as legumeyet_formatter_format_double does. */
int32_t legumeyet_formatter_format_doubles(legumeyet_formatter *formatter, const double *numbers, size_t number_count,
    const legumeyet_options *options, size_t option_words, uint8_t *out, size_t room, size_t *ends, size_t ends_room, size_t *count);
/* Writes each mantissa times ten to the power `exponent`, as legumeyet_formatter_format_i64 does. */
int32_t legumeyet_formatter_format_integers(legumeyet_formatter *formatter, const int64_t *mantissas, size_t mantissa_count, int16_t exponent,
    const legumeyet_options *options, size_t option_words, uint8_t *out, size_t room, size_t *ends, size_t ends_room, size_t *count);
/* Writes the numbers that lines are, each as legumeyet_formatter_format does: of `1234.5`, a line feed and `-7` `1,234.5` and `-7`. */
int32_t legumeyet_formatter_format_texts(legumeyet_formatter *formatter, const uint8_t *numbers, size_t numbers_length,
    const legumeyet_options *options, size_t option_words, uint8_t *out, size_t room, size_t *ends, size_t ends_room, size_t *count);

/*
 * Shared formatters: one formatter for any number of threads at once. It is opened as any other, and then shared:
 *
 *     static legumeyet_shared_formatter german;
 *     legumeyet_formatter_share(&opened, &german);
 *     legumeyet_shared_formatter_format(&german, LEGUMEYET_TEXT("1234.5"), NULL, 0, out, sizeof out, &length);
 * A shared formatter stays for the rest of the program: its memory is never given back. So share one for the program, not one a request. The
 * handle may be copied by `=`, as to another thread: each copy is a handle of its own, and is not cast to that of a formatter not shared. What
 * shares by a handle, and what closes it, which frees nothing, write to it: before and after all other calls on this very handle, as above.
 */

/*
 * Shares an open formatter for the rest of the program. `formatter` is closed, where the call returns 0: the shared handle has what it had.
 * What the shared handle had open before stays too. Returns 0; LEGUMEYET_CLOSED, of `formatter`.
 */
int32_t legumeyet_formatter_share(legumeyet_formatter *formatter, legumeyet_shared_formatter *shared);

/* Closes the handle of a shared formatter. Returns 0; LEGUMEYET_CLOSED, where it was closed already. */
int32_t legumeyet_shared_formatter_close(legumeyet_shared_formatter *formatter);

/* Each as the call of its name without `shared`. */
int32_t legumeyet_shared_formatter_format(const legumeyet_shared_formatter *formatter, const uint8_t *number, size_t number_length,
    const legumeyet_options *options, size_t option_words, uint8_t *out, size_t room, size_t *length);
int32_t legumeyet_shared_formatter_format_i64(const legumeyet_shared_formatter *formatter, int64_t mantissa, int16_t exponent,
    const legumeyet_options *options, size_t option_words, uint8_t *out, size_t room, size_t *length);
int32_t legumeyet_shared_formatter_format_u64(const legumeyet_shared_formatter *formatter, uint64_t mantissa, int16_t exponent,
    const legumeyet_options *options, size_t option_words, uint8_t *out, size_t room, size_t *length);
int32_t legumeyet_shared_formatter_format_double(const legumeyet_shared_formatter *formatter, double number, const legumeyet_options *options,
    size_t option_words, uint8_t *out, size_t room, size_t *length);
int32_t legumeyet_shared_formatter_format_parts(const legumeyet_shared_formatter *formatter, const uint8_t *number, size_t number_length,
    const legumeyet_options *options, size_t option_words, uint8_t *out, size_t room, size_t *length, legumeyet_interval *intervals,
    size_t intervals_room, size_t *count);
int32_t legumeyet_shared_formatter_shown(const legumeyet_shared_formatter *formatter, const uint8_t *number, size_t number_length,
    const legumeyet_options *options, size_t option_words, uint8_t *out, size_t room, size_t *length);
int32_t legumeyet_shared_formatter_format_exact(const legumeyet_shared_formatter *formatter, const uint8_t *number, size_t number_length,
    const legumeyet_options *options, size_t option_words, uint8_t *out, size_t room, size_t *length);
int32_t legumeyet_shared_formatter_format_range(const legumeyet_shared_formatter *formatter, const uint8_t *first, size_t first_length,
    const uint8_t *second, size_t second_length, const legumeyet_options *options, size_t option_words, uint8_t *out, size_t room,
    size_t *length);
int32_t legumeyet_shared_formatter_tell(const legumeyet_shared_formatter *formatter, uint32_t fact, uint8_t *out, size_t room, size_t *length);
int32_t legumeyet_shared_formatter_read(const legumeyet_shared_formatter *formatter, const uint8_t *text, size_t text_length, uint8_t *out,
    size_t room, size_t *length);
int32_t legumeyet_shared_formatter_read_lenient(const legumeyet_shared_formatter *formatter, const uint8_t *text, size_t text_length,
    uint8_t *out, size_t room, size_t *length);
int32_t legumeyet_shared_formatter_format_doubles(const legumeyet_shared_formatter *formatter, const double *numbers, size_t number_count,
    const legumeyet_options *options, size_t option_words, uint8_t *out, size_t room, size_t *ends, size_t ends_room, size_t *count);
int32_t legumeyet_shared_formatter_format_integers(const legumeyet_shared_formatter *formatter, const int64_t *mantissas, size_t mantissa_count,
    int16_t exponent, const legumeyet_options *options, size_t option_words, uint8_t *out, size_t room, size_t *ends, size_t ends_room,
    size_t *count);
int32_t legumeyet_shared_formatter_format_texts(const legumeyet_shared_formatter *formatter, const uint8_t *numbers, size_t numbers_length,
    const legumeyet_options *options, size_t option_words, uint8_t *out, size_t room, size_t *ends, size_t ends_room, size_t *count);

/* Writes what a number means, in English: of LEGUMEYET_TAG `no locale tag`. Returns 0; LEGUMEYET_OPTION, of 0 and others; LEGUMEYET_TOO_SMALL. */
int32_t legumeyet_error_text(int32_t error, uint8_t *out, size_t room, size_t *length);

/*
 * Writes the tag of a locale's name, which ends with a NUL, as LANG and setlocale give it: of `de_DE.UTF-8` and `de_DE` the tag `de-DE`.
 * What is from the first `.` or `@` on is cut, and each `_` becomes `-`: `sr_RS@latin` is `sr-RS`. `C`, `POSIX`, an empty name and NULL are
 * `en`. Whether a formatter can be opened of the tag is not looked at. Returns 0; LEGUMEYET_TOO_SMALL.
 */
int32_t legumeyet_tag_of_locale_name(const char *name, uint8_t *out, size_t room, size_t *length);

/* The version of the library, as LEGUMEYET_VERSION is that of this header, and the minor one: a function that came later is not in the library. */
uint32_t legumeyet_version(void);
uint32_t legumeyet_minor(void);

#ifdef __cplusplus
}
#endif

#endif
