/* A book of a file. */
#include <errno.h>
#include <legumeyet.h>
#include <stdio.h>
#include <stdlib.h>

/* Reads a file to its end, into memory that the caller frees. Returns 0; LEGUMEYET_FILE; LEGUMEYET_MEMORY. */
static int32_t read_whole(FILE *file, uint8_t **bytes, size_t *length) {
    size_t room = 0;
    *bytes = NULL;
    *length = 0;
    do {
        uint8_t *more = realloc(*bytes, room += room + 65536);
        if (more == NULL) return LEGUMEYET_MEMORY;
        *bytes = more;
        *length += fread(more + *length, 1, room - *length, file);
    } while (*length == room);
    return ferror(file) ? LEGUMEYET_FILE : LEGUMEYET_OK;
}

int32_t legumeyet_book_open_file(const char *path, legumeyet_book *book) {
    FILE *file = fopen(path, "rbe");
    uint8_t *bytes;
    size_t length;
    int32_t error;
    int why;
    if (file == NULL) return errno == ENOMEM ? LEGUMEYET_MEMORY : LEGUMEYET_FILE;
    error = read_whole(file, &bytes, &length);
    why = errno;
    fclose(file);
    if (error == LEGUMEYET_OK) error = legumeyet_book_open(bytes, length, book);
    free(bytes);
    errno = why;
    return error;
}
