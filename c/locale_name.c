/* Tags of the names that LANG and setlocale give. */
#include <legumeyet.h>
#include <string.h>

static int is_word(const char *text, size_t length, const char *word) { return length == strlen(word) && memcmp(text, word, length) == 0; }

int32_t legumeyet_tag_of_locale_name(const char *name, uint8_t *out, size_t room, size_t *length) {
    size_t at, end = name == NULL ? 0 : strcspn(name, ".@");
    if (end == 0 || is_word(name, end, "C") || is_word(name, end, "POSIX")) {
        name = "en";
        end = 2;
    }
    for (at = 0; at < end && at < room; at++) out[at] = name[at] == '_' ? '-' : (uint8_t)name[at];
    *length = end;
    return end <= room ? LEGUMEYET_OK : LEGUMEYET_TOO_SMALL;
}
