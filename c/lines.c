/*
 * Writes the answers to the request lines of standard input, under the book of a file. Where the calls of a formatter do what a line
 * asks for, what they say has to be the answer too: another text follows it. After the first 5,000 lines the book is kept.
 *
 * usage: lines BOOK < LINES > ANSWERS
 */
#include <legumeyet.h>
#include <stdio.h>
#include <stdlib.h>
#include <string.h>

enum { ROOM = 1 << 16, NO_CALL = -1, UNKEPT = 5000 };

/* A text, as the calls take it. */
typedef struct {
    const uint8_t *at;
    size_t length;
} piece;

typedef struct {
    piece tag, form, grouping, sign, rounding, number;
} request;

/* The words of fields, in the order of their numbers. */
static const char *const GROUPINGS[] = {"auto", "never", "always", "min2", "on-aligned", NULL};
static const char *const SIGNS[] = {"keep", "auto", "never", "always", "except-zero", "negative", NULL};
static const char *const MODES[] = {"",           "expand",    "trunc",      "ceil",      "floor", "half-expand",
                                    "half-trunc", "half-ceil", "half-floor", "half-even", NULL};
static const char *const PRIORITIES[] = {"", "more", "less", NULL};

static int is_word(piece text, const char *word) { return text.length == strlen(word) && memcmp(text.at, word, text.length) == 0; }

/* The number of a word, or that of the words where it is not one of them. */
static uint32_t number_of(piece text, const char *const words[]) {
    uint32_t number = 0;
    while (words[number] != NULL && !is_word(text, words[number])) number++;
    return number;
}

/* Cuts what is before the mark off a text, which keeps what is after it. */
static piece cut(piece *text, char mark) {
    const uint8_t *end = text->length == 0 ? NULL : memchr(text->at, mark, text->length);
    piece front = {text->at, end == NULL ? text->length : (size_t)(end - text->at)};
    size_t step = front.length + (end != NULL);
    text->at += step;
    text->length -= step;
    return front;
}

/* The fields of a line. */
static request request_of(piece line) {
    request found;
    found.tag = cut(&line, '\t');
    found.form = cut(&line, '\t');
    found.grouping = cut(&line, '\t');
    found.sign = cut(&line, '\t');
    found.rounding = cut(&line, '\t');
    found.number = line;
    return found;
}

/* A word of a rounding. */
static void take_word(piece word, legumeyet_options *options) {
    const bool has_digits = word.length > 1 && word.at[1] >= '0' && word.at[1] <= '9';
    char *end = (char *)word.at + has_digits;
    const int32_t first = (int32_t)strtol(end, &end, 10), second = *end == '-' ? (int32_t)strtol(end + 1, NULL, 10) : 0;
    if (has_digits && word.at[0] == 'f') {
        options->minimum_fraction_digits = first;
        options->position = -second;
        options->trailing_zeros = first == second ? LEGUMEYET_TRAILING_ZEROS_KEEP : LEGUMEYET_TRAILING_ZEROS_TRIM;
    } else if (has_digits && word.at[0] == 's') {
        options->minimum_significant_digits = first;
        options->maximum_significant_digits = second;
    } else if (is_word(word, "whole")) {
        options->trailing_zeros += 2;
    } else if (is_word(word, "more") || is_word(word, "less")) {
        options->rounding_priority = (int32_t)number_of(word, PRIORITIES);
    } else if (word.at[0] >= 'a') {
        options->rounding = (int32_t)number_of(word, MODES);
    } else if (options->rounding == LEGUMEYET_ROUND_USUAL) {
        options->position = (int32_t)strtol((const char *)word.at, NULL, 10);
    } else {
        options->increment = (int32_t)strtol((const char *)word.at, NULL, 10);
    }
}

/* The options that a request's fields name; the field of a rounding is `-`, or as `-2,half-even,1` or `f0-2,s1-3,more,half-even,whole`. Whether
   there are such options. */
static int are_options(const request *asked, legumeyet_options *options) {
    piece rest = asked->rounding;
    options->sign = (int32_t)number_of(asked->sign, SIGNS);
    if (is_word(rest, "-")) return 1;
    while (rest.length > 0) take_word(cut(&rest, ','), options);
    return options->rounding != LEGUMEYET_ROUND_USUAL && MODES[options->rounding] != NULL;
}

/* What is asked of a formatter. */
typedef enum { WRITE, SHOW, EXACT, READ, READ_AMOUNT, READ_LENIENT } task;

/* The forms of texts, and their formats; those of amounts end with the code of the currency. */
static const struct {
    const char *word;
    legumeyet_format words;
} FORMS[] = {
    {"plain", {0}},
    {"short", {.notation = LEGUMEYET_NOTATION_COMPACT}},
    {"long", {.notation = LEGUMEYET_NOTATION_COMPACT, .width = LEGUMEYET_WIDTH_LONG}},
    {"percent", {.unit = LEGUMEYET_UNIT_PERCENT}},
    {"permille", {.unit = LEGUMEYET_UNIT_PERMILLE}},
    {"currency-", {.unit = LEGUMEYET_UNIT_CURRENCY}},
    {"accounting-", {.unit = LEGUMEYET_UNIT_CURRENCY, .currency_style = LEGUMEYET_STYLE_ACCOUNTING}},
    {"code-", {.unit = LEGUMEYET_UNIT_CURRENCY, .currency_width = LEGUMEYET_CURRENCY_CODE}},
};

/* What comes before a form, the longest first. */
static const struct {
    const char *word;
    task what;
} TASKS[] = {{"read-lenient-", READ_LENIENT}, {"read-", READ}, {"exact-", EXACT}};

/* Cuts a word off the front of a text. Returns whether it is there. */
static int is_cut(piece *text, const char *word) {
    const size_t front = strlen(word);
    if (text->length < front || memcmp(text->at, word, front) != 0) return 0;
    text->at += front;
    text->length -= front;
    return 1;
}

/* Finds what a form asks for: the task, the format and the code of the currency. Returns whether a formatter does it. */
static int is_form(piece text, task *what, legumeyet_format *words, piece *code) {
    size_t row;
    int is_plain = is_word(text, "read") || is_word(text, "read-lenient");
    *what = is_word(text, "read") ? READ : is_word(text, "read-lenient") ? READ_LENIENT : WRITE;
    *words = FORMS[0].words;
    *code = (piece){NULL, 0};
    if (is_plain) return 1;
    for (row = 0; row < sizeof TASKS / sizeof *TASKS && *what == WRITE; row++)
        if (is_cut(&text, TASKS[row].word)) *what = TASKS[row].what;
    for (row = 0; row < sizeof FORMS / sizeof *FORMS; row++) {
        const int is_compact = FORMS[row].words.notation != 0, is_amount = FORMS[row].words.unit == LEGUMEYET_UNIT_CURRENCY;
        if (!is_cut(&text, FORMS[row].word) || text.length != (is_amount ? 3 : 0)) continue;
        *words = FORMS[row].words;
        if (is_amount) *code = text;
        if (is_amount && *what == READ) *what = READ_AMOUNT;
        if (is_compact && *what == WRITE) *what = SHOW;
        return is_compact ? *what == SHOW || *what == EXACT : *what == WRITE || (*what != EXACT && row > 0);
    }
    return 0;
}

/* The text for a number, and the value that it shows after a tab. */
static int32_t write_shown(legumeyet_formatter *it, piece number, const legumeyet_options *options, uint8_t *out, size_t *length) {
    size_t value_length = 0;
    int32_t error = legumeyet_formatter_format(it, number.at, number.length, LEGUMEYET_WORDS(*options), out, ROOM, length);
    if (error != 0) return error;
    out[*length] = '\t';
    *length += 1;
    error = legumeyet_formatter_shown(it, number.at, number.length, LEGUMEYET_WORDS(*options), out + *length, ROOM - *length, &value_length);
    *length += value_length;
    return error;
}

/* The number of an amount's text. A line takes only an amount that is its own rounding, and a formatter any digits. */
static int32_t read_amount(legumeyet_formatter *it, piece text, uint8_t *out, size_t *length) {
    static uint8_t again[ROOM];
    size_t again_length = 0;
    int32_t error = legumeyet_formatter_read(it, text.at, text.length, out, ROOM, length);
    if (error == 0) error = legumeyet_formatter_format(it, out, *length, NULL, 0, again, ROOM, &again_length);
    if (error == 0 && (again_length != text.length || memcmp(again, text.at, text.length) != 0)) return LEGUMEYET_NOT_WRITTEN;
    return error;
}

/* Does what a form asks for. */
static int32_t by_task(legumeyet_formatter *it, task what, piece number, const legumeyet_options *options, uint8_t *out, size_t *length) {
    switch (what) {
    case WRITE: return legumeyet_formatter_format(it, number.at, number.length, LEGUMEYET_WORDS(*options), out, ROOM, length);
    case SHOW: return write_shown(it, number, options, out, length);
    case EXACT: return legumeyet_formatter_format_exact(it, number.at, number.length, LEGUMEYET_WORDS(*options), out, ROOM, length);
    case READ: return legumeyet_formatter_read(it, number.at, number.length, out, ROOM, length);
    case READ_AMOUNT: return read_amount(it, number, out, length);
    case READ_LENIENT: return legumeyet_formatter_read_lenient(it, number.at, number.length, out, ROOM, length);
    default: return NO_CALL;
    }
}

/* The text for a request by the calls of a formatter: an error of theirs, or NO_CALL where they can't say what is asked. */
static int32_t by_formatter(legumeyet_book *book, const request *asked, uint8_t *out, size_t *length) {
    legumeyet_formatter it = {0};
    legumeyet_options options = {0};
    legumeyet_format words;
    piece code;
    task what;
    int32_t error;
    if (!is_form(asked->form, &what, &words, &code) || !are_options(asked, &options)) return NO_CALL;
    words.grouping = (int32_t)number_of(asked->grouping, GROUPINGS);
    error = legumeyet_formatter_open(book, asked->tag.at, asked->tag.length, LEGUMEYET_WORDS(words), code.at, code.length, &it);
    if (error == 0) error = by_task(&it, what, asked->number, &options, out, length);
    legumeyet_formatter_close(&it);
    return error;
}

/* The word of an answer that an error stands for. */
static const char *word_of(int32_t error) {
    switch (error) {
    case LEGUMEYET_TAG: return "tag";
    case LEGUMEYET_TABLE: return "table";
    case LEGUMEYET_NUMBER: return "number";
    case LEGUMEYET_LIMIT: return "limit";
    case LEGUMEYET_RANGE: return "range";
    case LEGUMEYET_EXPONENT: return "exponent";
    case LEGUMEYET_UNREADABLE: return "unreadable";
    case LEGUMEYET_NOT_WRITTEN: return "not-written";
    default: return "no word";
    }
}

/* Writes what the calls of a formatter say to a request, as an answer, and returns its length: 0 where no call does what is asked. */
static size_t said_to(legumeyet_book *book, const request *asked, char *said) {
    static uint8_t text[ROOM];
    size_t length = 0;
    int32_t error = by_formatter(book, asked, text, &length);
    if (error == NO_CALL) return 0;
    if (error != 0) return (size_t)sprintf(said, "err\t%s", word_of(error));
    return (size_t)sprintf(said, "ok\t%.*s", (int)length, (const char *)text);
}

/* Writes the answer to a line, and what is said to it where that differs. */
static void answer_line(legumeyet_book *book, piece line) {
    static char said[ROOM + 8];
    static uint8_t answer[ROOM];
    size_t length = 0, said_length;
    request asked = request_of(line);
    int32_t error = legumeyet_book_answer(book, line.at, line.length, answer, ROOM, &length);
    if (error != 0) printf("error %d", (int)error);
    fwrite(answer, 1, length, stdout);
    said_length = said_to(book, &asked, said);
    if (said_length != 0 && (said_length != length || memcmp(said, answer, length) != 0)) printf(" but %.*s", (int)said_length, said);
    putchar('\n');
}

int main(int count, char **words) {
    static char line[ROOM];
    legumeyet_book book = {0};
    int32_t error = count == 2 ? legumeyet_book_open_file(words[1], &book) : LEGUMEYET_FILE;
    size_t lines;
    for (lines = 0; error == 0 && fgets(line, sizeof line, stdin) != NULL; lines++) {
        piece given = {(const uint8_t *)line, strcspn(line, "\n")};
        if (lines == UNKEPT) error = legumeyet_book_keep(&book);
        answer_line(&book, given);
    }
    legumeyet_book_close(&book);
    return error == 0 ? 0 : 1;
}
