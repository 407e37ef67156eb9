/* What the tests in C share: whether something was answered otherwise than it should, and a comparison that says so. */
#ifndef LEGUMEYET_EXPECT_H
#define LEGUMEYET_EXPECT_H

#include <stdint.h>
#include <stdio.h>

static int wrong;

static void expect(const char *what, int64_t got, int64_t wanted) {
    if (got == wanted) return;
    fprintf(stderr, "%s: %lld, and not %lld\n", what, (long long)got, (long long)wanted);
    wrong = 1;
}

#endif
