/*
 * Uses handles in threads, for a tool that looks for races: formatters of several formats that are opened here, and used and closed in
 * another thread each; two formatters of one book, both used at once; and a book that another thread opens formatters of. All this is done
 * with a book, and then with one that is kept, whose tables the formatters share. The status is 1 where a text is wrong.
 */
#include <legumeyet.h>
#include <pthread.h>
#include <string.h>

#define TEXT(text) LEGUMEYET_TEXT(text)
#define DOLLARS .unit = LEGUMEYET_UNIT_CURRENCY

enum { TURNS = 200, THREADS = 6 };

static const char BOOK[] = "[[[[\"en\",\"\",\"latn\",\"-\",\"\",\"+\",\"\",\".\",\",\",3,3,1],[\"de\",\"\",\"latn\",\"-\",\"\",\"+\",\"\",\",\",\".\",3,3,1]],"
                           "[[\"latn\",\"0123456789\"]],[[\"en\",[]]],[[\"en\",\"\",[[6,6,[[\"other\",[\"\",\"M\"]]]]],null]],[]],"
                           "[[],[[\"en\",\"\",null,[\"\\u00a4\",\"\"],null]],[[\"en\",\"\",null,[\"\\u00a4\",\"\"],null]],[[\"en\",\"USD\",\"$\",0]],[]]]";

/* What each thread writes with; the last one opens its formatter itself, from the book. */
static const struct {
    const char *tag, *unit, *written;
    legumeyet_format words;
} ROWS[THREADS] = {
    {"en", "", "-987,654,321.25", {0}},
    {"de", "", "-987.654.321,25", {0}},
    {"en", "", "-988M", {.notation = LEGUMEYET_NOTATION_COMPACT}},
    {"en", "USD", "-$987,654,321.25", {DOLLARS}},
    {"en", "USD", "-$987,654,321.25", {DOLLARS, .currency_style = LEGUMEYET_STYLE_ACCOUNTING}},
    {"en", "", "-987,654,321.25", {0}},
};

/* What a thread is given: a row, with the formatter, or with the book that it opens one from. */
typedef struct {
    int row;
    legumeyet_book *book;
    legumeyet_formatter formatter;
    int is_right;
} work;

static int32_t open_row(legumeyet_book *book, int row, legumeyet_formatter *formatter) {
    return legumeyet_formatter_open(book, TEXT(ROWS[row].tag), LEGUMEYET_WORDS(ROWS[row].words), TEXT(ROWS[row].unit), formatter);
}

/* Whether a formatter writes the number as its row says, and reads it back where it is not compact. */
static int is_used(legumeyet_formatter *formatter, int row) {
    const char *written = ROWS[row].written;
    uint8_t out[64];
    size_t length = 0;
    if (legumeyet_formatter_format(formatter, TEXT("-987654321.25"), NULL, 0, out, sizeof out, &length) != 0) return 0;
    if (length != strlen(written) || memcmp(out, written, length) != 0) return 0;
    if (ROWS[row].words.notation != 0) return legumeyet_formatter_read(formatter, TEXT(written), out, sizeof out, &length) == LEGUMEYET_UNREADABLE;
    if (legumeyet_formatter_read(formatter, TEXT(written), out, sizeof out, &length) != 0) return 0;
    return length == 13 && memcmp(out, "-987654321.25", length) == 0;
}

/* Opens what is not open, uses it, and closes it. */
static void *do_work(void *given) {
    work *it = given;
    int turn;
    it->is_right = it->book == NULL || open_row(it->book, it->row, &it->formatter) == 0;
    for (turn = 0; turn < TURNS; turn++) it->is_right = it->is_right && is_used(&it->formatter, it->row);
    it->is_right = it->is_right && legumeyet_formatter_close(&it->formatter) == 0;
    return NULL;
}

/* Whether all threads write what they should with formatters of a book, which is kept first or not. */
static int is_right_in_threads(int is_kept) {
    legumeyet_book book = {0};
    work works[THREADS];
    pthread_t threads[THREADS];
    int at, is_right = legumeyet_book_open(TEXT(BOOK), &book) == 0 && (!is_kept || legumeyet_book_keep(&book) == 0);
    memset(works, 0, sizeof works);
    for (at = 0; at < THREADS; at++) {
        works[at].row = at;
        if (at == THREADS - 1) works[at].book = &book;
        if (works[at].book == NULL) is_right = open_row(&book, at, &works[at].formatter) == 0 && is_right;
    }
    for (at = 0; at < THREADS; at++)
        if (pthread_create(&threads[at], NULL, do_work, &works[at]) != 0) return 0;
    for (at = 0; at < THREADS; at++) is_right = pthread_join(threads[at], NULL) == 0 && works[at].is_right && is_right;
    return legumeyet_book_close(&book) == 0 && is_right;
}

int main(void) { return is_right_in_threads(0) && is_right_in_threads(1) ? 0 : 1; }
