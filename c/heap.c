/* The three calls by which the library takes memory and gives it back, over those of the C library. */
#include <stdbool.h>
#include <stddef.h>
#include <stdlib.h>

/* Whether there is memory, and where it is; `at` is never null. */
typedef struct { bool is_there; void *at; } answer;

/* What `at` is where there is no memory: it is neither read nor written. */
static const char nowhere;

static answer answer_of(void *at) { return (answer){ at != NULL, at != NULL ? at : (void *)&nowhere }; }

answer rattle_alloc(size_t size, size_t align) { return answer_of(malloc(size != 0 ? size : align)); }

answer rattle_realloc(void *at, size_t kept, size_t size, size_t align) {
    (void)kept;
    return answer_of(realloc(at, size != 0 ? size : align));
}

void rattle_dealloc(void *at) { free(at); }
