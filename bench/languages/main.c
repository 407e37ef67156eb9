/*
 * Prints the nanoseconds of a call that writes a number in German, by a formatter of the world's book, kept, and the text; then those of a number
 * among a thousand of a column, and what they are over those of a call for one: of texts, of integers and of doubles. One line a number of digits.
 *
 * usage: main TURNS DIGITS..
 */
#include <legumeyet.h>
#include <stdio.h>
#include <stdlib.h>
#include <string.h>
#include <time.h>

enum { TURNS = 20, COLUMN = 1000 };

static const char *const NUMBER = "987654321987654321";

static double now(void) {
    struct timespec at;
    clock_gettime(CLOCK_MONOTONIC, &at);
    return (double)at.tv_sec * 1e9 + (double)at.tv_nsec;
}

/* A column: the same number many times, as texts, as integers and as doubles. */
static struct {
    uint8_t lines[COLUMN * 32];
    size_t length, ends[COLUMN], count, length_of_one;
    int64_t integers[COLUMN];
    double doubles[COLUMN];
    uint8_t out[COLUMN * 64];
} column;

static void fill_column(size_t digits) {
    char number[32];
    int length = snprintf(number, sizeof number, "%.*s", (int)digits, NUMBER);
    column.length = 0;
    for (int at = 0; at < COLUMN; at++) {
        memcpy(column.lines + column.length, number, (size_t)length);
        column.lines[column.length + (size_t)length] = '\n';
        column.length += (size_t)length + 1;
        column.integers[at] = atoll(number);
        column.doubles[at] = atof(number);
    }
}

/* Writes the column of a kind, 0 texts, 1 integers, 2 doubles. */
static int32_t write_column(legumeyet_formatter *german, int kind) {
    uint8_t *out = column.out;
    size_t room = sizeof column.out, *ends = column.ends, *count = &column.count;
    if (kind == 0)
        return legumeyet_formatter_format_texts(german, column.lines, column.length, NULL, 0, out, room, ends, COLUMN, count);
    if (kind == 1)
        return legumeyet_formatter_format_integers(german, column.integers, COLUMN, 0, NULL, 0, out, room, ends, COLUMN, count);
    return legumeyet_formatter_format_doubles(german, column.doubles, COLUMN, NULL, 0, out, room, ends, COLUMN, count);
}

/* Writes one number of a kind as many times by a call each. */
static int32_t write_singles(legumeyet_formatter *german, int kind, size_t digits) {
    int32_t error = 0;
    uint8_t *out = column.out;
    size_t room = sizeof column.out;
    for (int at = 0; error == 0 && at < COLUMN; at++) {
        if (kind == 0) error = legumeyet_formatter_format(german, (const uint8_t *)NUMBER, digits, NULL, 0, out, room, &column.length_of_one);
        if (kind == 1) error = legumeyet_formatter_format_i64(german, column.integers[at], 0, NULL, 0, out, room, &column.length_of_one);
        if (kind == 2) error = legumeyet_formatter_format_double(german, column.doubles[at], NULL, 0, out, room, &column.length_of_one);
    }
    return error;
}

/* The nanoseconds of a number of a kind, by a call each and in a column: the least of the turns, in which the two take turns. */
static int32_t time_both(legumeyet_formatter *german, int kind, size_t digits, int turns, double least[2]) {
    least[0] = least[1] = 1e18;
    for (int turn = 0; turn < 2 * turns; turn++) {
        double start = now();
        int32_t error = turn % 2 == 0 ? write_singles(german, kind, digits) : write_column(german, kind);
        double spent = (now() - start) / COLUMN;
        if (error != 0) return error;
        if (spent < least[turn % 2]) least[turn % 2] = spent;
    }
    return 0;
}

int main(int words, char **word) {
    legumeyet_book world = {0};
    legumeyet_formatter german = {0};
    if (words < 3 || legumeyet_book_open_world(&world) != 0 || legumeyet_book_keep(&world) != 0) return 1;
    if (legumeyet_formatter_open(&world, LEGUMEYET_TEXT("de"), NULL, 0, NULL, 0, &german) != 0) return 1;
    for (int at = 2; at < words; at++) {
        size_t digits = (size_t)atoi(word[at]);
        double least[3][2];
        fill_column(digits);
        for (int kind = 0; kind < 3; kind++)
            if (time_both(&german, kind, digits, TURNS * atoi(word[1]), least[kind]) != 0) return 1;
        if (write_singles(&german, 0, digits) != 0) return 1;
        printf("%.1f %.*s", least[0][0], (int)column.length_of_one, (const char *)column.out);
        for (int kind = 0; kind < 3; kind++) printf(" %.1f %.2f", least[kind][1], least[kind][1] / least[kind][0]);
        putchar('\n');
    }
    return 0;
}
