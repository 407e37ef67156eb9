/*
 * Answers the request lines of standard input, under the book of a file, by the calls that answer many lines, and prints the answers.
 * Before that it makes these calls well and badly, and answers the first lines with every small room, in pieces that end inside a line:
 * what is otherwise than legumeyet_book_answer has it is told on standard error, and the status is 1.
 *
 * usage: answers BOOK < LINES > ANSWERS
 */
#include "expect.h"
#include <legumeyet.h>
#include <stdio.h>
#include <stdlib.h>
#include <string.h>

#define TEXT(text) (const uint8_t *)(text), strlen(text)

enum { FIRST = 40, LARGEST = 80, PIECE = 61, ROOM = 1 << 16 };

static legumeyet_book book, closed_book;
static legumeyet_answers answers, closed;
static uint8_t out[ROOM];
static size_t read, written, needs;

static void expect_counts(const char *what, size_t read_wanted, size_t written_wanted, size_t needs_wanted) {
    expect(what, (int64_t)read, (int64_t)read_wanted);
    expect(what, (int64_t)written, (int64_t)written_wanted);
    expect(what, (int64_t)needs, (int64_t)needs_wanted);
}

/* Memory that grows. */
typedef struct {
    uint8_t *at;
    size_t length;
    size_t room;
} bytes;

static void append(bytes *to, const uint8_t *from, size_t length) {
    if (to->room - to->length < length) {
        to->room = 2 * (to->length + length) + ROOM;
        to->at = realloc(to->at, to->room);
        if (to->at == NULL) exit(1);
    }
    if (length != 0) memcpy(to->at + to->length, from, length);
    to->length += length;
}

static bytes input(void) {
    bytes found = {0};
    size_t got;
    while ((got = fread(out, 1, ROOM, stdin)) != 0) append(&found, out, got);
    return found;
}

/* The length of the first lines with their line feeds. */
static size_t first_lines(const bytes *lines, int count) {
    size_t at = 0;
    while (count > 0 && at < lines->length) count -= lines->at[at++] == '\n';
    return at;
}

/* The answers that legumeyet_book_answer has to lines. */
static bytes one_by_one(const uint8_t *lines, size_t length) {
    static uint8_t text[ROOM];
    bytes found = {0};
    size_t at = 0, told = 0;
    while (at < length) {
        const uint8_t *line = lines + at;
        size_t line_length = (size_t)((const uint8_t *)memchr(line, '\n', length - at) - line);
        expect("a line alone", legumeyet_book_answer(&book, line, line_length, text, ROOM, &told), LEGUMEYET_OK);
        append(&found, text, told);
        append(&found, (const uint8_t *)"\n", 1);
        at += line_length + 1;
    }
    return found;
}

/* The answers to lines that are passed piece by piece, with a room that is too small for some, which are given as much as they need. */
static bytes in_pieces(const uint8_t *lines, size_t length, size_t room, size_t piece) {
    bytes found = {0};
    size_t at = 0, end = piece < length ? piece : length;
    while (at < length) {
        int32_t error;
        memset(out, '.', room + 1);
        error = legumeyet_answers_answer(&answers, lines + at, end - at, out, room, &read, &written, &needs);
        if (error == LEGUMEYET_OK) expect("what is after the answers", written == room || out[written] == '.', 1);
        expect("what is after the room", out[room], '.');
        expect("what it needs", needs != 0, error == LEGUMEYET_TOO_SMALL);
        append(&found, out, written);
        at += read;
        if (error == LEGUMEYET_TOO_SMALL && needs > room) {
            const uint8_t *feed = memchr(lines + at, '\n', length - at);
            size_t told = needs;
            error = legumeyet_answers_answer(&answers, lines + at, (size_t)(feed - lines) + 1 - at, out, told, &read, &written, &needs);
            expect("as much as it needs", error, LEGUMEYET_OK);
            expect_counts("as much as it needs", (size_t)(feed - lines) + 1 - at, told, 0);
            append(&found, out, written);
            at += read;
        } else if (error != LEGUMEYET_TOO_SMALL) {
            expect("a piece", error, LEGUMEYET_OK);
            if (end == length && read == 0) break;
            end = piece < length - end ? end + piece : length;
        }
    }
    return found;
}

static void expect_same(const char *what, size_t room, bytes got, const bytes *wanted) {
    if (got.length != wanted->length || (got.length != 0 && memcmp(got.at, wanted->at, got.length) != 0)) {
        fprintf(stderr, "%s %zu: other answers\n", what, room);
        wrong = 1;
    }
    free(got.at);
}

/* Calls that are refused, and those that find nothing to do. */
static void calls(void) {
    static const char LINE[] = "e\tplain\tauto\tkeep\t-\t1\nq";
    expect("a closed book", legumeyet_answers_open(&closed_book, 0, &answers), LEGUMEYET_CLOSED);
    expect("a book that is not kept", legumeyet_answers_open(&book, 0, &answers), LEGUMEYET_UNKEPT);
    expect("kept", legumeyet_book_keep(&book), LEGUMEYET_OK);
    expect("no capacity", legumeyet_answers_open(&book, 0, &answers), LEGUMEYET_OPTION);
    expect("they stayed closed", legumeyet_answers_close(&answers), LEGUMEYET_CLOSED);
    expect("many answers", legumeyet_answers_open(&book, 65535, &answers), LEGUMEYET_OK);
    expect("a line of many", legumeyet_answers_answer(&answers, TEXT(LINE), out, ROOM, &read, &written, &needs), LEGUMEYET_OK);
    expect("answers", legumeyet_answers_open(&book, 3, &answers), LEGUMEYET_OK);
    expect("answers again", legumeyet_answers_open(&book, 1, &answers), LEGUMEYET_OK);
    read = written = needs = 77;
    out[0] = '.';
    expect("closed answers", legumeyet_answers_answer(&closed, TEXT(LINE), out, ROOM, &read, &written, &needs), LEGUMEYET_CLOSED);
    expect_counts("closed answers", 0, 0, 0);
    expect("the bytes of closed answers", out[0], '.');
    expect("a book as answers", legumeyet_answers_close((legumeyet_answers *)(void *)&book), LEGUMEYET_CLOSED);
    expect("answers as a book", legumeyet_book_close((legumeyet_book *)(void *)&answers), LEGUMEYET_CLOSED);
    expect("a line and a half", legumeyet_answers_answer(&answers, TEXT(LINE), out, ROOM, &read, &written, &needs), LEGUMEYET_OK);
    expect_counts("a line and a half", strlen(LINE) - 1, 8, 0);
    expect("its answer", memcmp(out, "err\ttag\n", 8), 0);
    expect("half a line", legumeyet_answers_answer(&answers, TEXT("q"), out, ROOM, &read, &written, &needs), LEGUMEYET_OK);
    expect_counts("half a line", 0, 0, 0);
    expect("no lines", legumeyet_answers_answer(&answers, NULL, 0, NULL, 0, &read, &written, &needs), LEGUMEYET_OK);
    expect_counts("no lines", 0, 0, 0);
    expect("no room", legumeyet_answers_answer(&answers, TEXT(LINE), NULL, 0, &read, &written, &needs), LEGUMEYET_TOO_SMALL);
    expect_counts("no room", 0, 0, 8);
    expect("an empty line", legumeyet_answers_answer(&answers, TEXT("\n"), out, ROOM, &read, &written, &needs), LEGUMEYET_OK);
    expect("an empty line", memcmp(out, "err\tshape\n", 10), 0);
    expect_counts("an empty line", 1, 10, 0);
}

int main(int count, char **words) {
    bytes lines = input(), wanted, all;
    size_t first = first_lines(&lines, FIRST), room;
    int32_t error = count == 2 ? legumeyet_book_open_file(words[1], &book) : LEGUMEYET_FILE;
    if (error != LEGUMEYET_OK) return 1;
    calls();
    wanted = one_by_one(lines.at, first);
    for (room = 0; room <= LARGEST; room++) expect_same("the room", room, in_pieces(lines.at, first, room, PIECE), &wanted);
    for (room = 1; room <= LARGEST; room++) expect_same("pieces of", room, in_pieces(lines.at, first, 16 * LARGEST, room), &wanted);
    free(wanted.at);
    expect("the book", legumeyet_book_close(&book), LEGUMEYET_OK);
    all = in_pieces(lines.at, lines.length, ROOM - 1, ROOM);
    fwrite(all.at, 1, all.length, stdout);
    free(all.at);
    free(lines.at);
    expect("answers", legumeyet_answers_close(&answers), LEGUMEYET_OK);
    expect("twice", legumeyet_answers_close(&answers), LEGUMEYET_CLOSED);
    return wrong;
}
