/* What tools/build_c writes of books/world-locales.txt, as a C file. */
#ifndef WORLD_H
#define WORLD_H

#include <stddef.h>
#include <stdint.h>

/* The tags of the locales of the world's book, each with a NUL at its end, and where each begins. */
extern const char world_locales[];
extern const uint32_t world_locale_starts[];
extern const size_t world_locale_count;

#endif
