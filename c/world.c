/* The list of the locales of the world's book. */
#include "world.h"
#include <legumeyet.h>

const char *legumeyet_world_locale(size_t at) { return at < world_locale_count ? world_locales + world_locale_starts[at] : NULL; }
