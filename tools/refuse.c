/* Loaded in front of the C library (LD_PRELOAD), refuses requests for memory, reads and writes of the program that it is
   loaded into, or makes them short. Each of these is the number of the one that is meant, from 1, or `all`, or not there:

     REFUSE_MEMORY   the request gets nothing
     REFUSE_READ     the read fails
     REFUSE_WRITE    the write fails
     EMPTY_WRITE     the write takes no byte
     SHORT_READ      the read gives SHORT_SIZE bytes, or one
     SHORT_WRITE     the write takes SHORT_SIZE bytes, or one

   REFUSE_FROM is the read from which on requests for memory are counted, or refused; without it all are.
   REFUSE_TELL is a file that gets the counts of requests, reads and writes when the program ends.
   A program that still runs after ten minutes is ended by SIGALRM. */
#define _GNU_SOURCE
#include <errno.h>
#include <fcntl.h>
#include <stdlib.h>
#include <sys/syscall.h>
#include <unistd.h>

extern void *__libc_malloc(size_t size);
extern void *__libc_calloc(size_t count, size_t size);
extern void *__libc_realloc(void *old, size_t size);
extern void *__libc_memalign(size_t alignment, size_t size);

#define ALL (~0ul)

static unsigned long requests, reads, writes;
static unsigned long from, memory, failed_read, failed_write, empty_write, short_read, short_write, short_size;
static int is_ready;

/* The number that is said under this name, or 0. */
static unsigned long said(const char *name) {
    const char *text = getenv(name);
    if (!text) return 0;
    return *text == 'a' ? ALL : strtoul(text, 0, 10);
}

static void prepare(void) {
    if (is_ready) return;
    is_ready = 1;
    from = said("REFUSE_FROM");
    memory = said("REFUSE_MEMORY");
    failed_read = said("REFUSE_READ");
    failed_write = said("REFUSE_WRITE");
    empty_write = said("EMPTY_WRITE");
    short_read = said("SHORT_READ");
    short_write = said("SHORT_WRITE");
    short_size = said("SHORT_SIZE");
    if (!short_size) short_size = 1;
    alarm(600);
}

static int is_meant(unsigned long wanted, unsigned long number) { return wanted && (wanted == ALL || wanted == number); }

static int is_refused(void) {
    prepare();
    if (reads < from) return 0;
    requests++;
    if (!is_meant(memory, requests)) return 0;
    errno = ENOMEM;
    return 1;
}

void *malloc(size_t size) { return is_refused() ? 0 : __libc_malloc(size); }
void *calloc(size_t count, size_t size) { return is_refused() ? 0 : __libc_calloc(count, size); }
void *realloc(void *old, size_t size) { return is_refused() ? 0 : __libc_realloc(old, size); }
void *aligned_alloc(size_t alignment, size_t size) { return is_refused() ? 0 : __libc_memalign(alignment, size); }
void *memalign(size_t alignment, size_t size) { return is_refused() ? 0 : __libc_memalign(alignment, size); }

int posix_memalign(void **out, size_t alignment, size_t size) {
    void *given = is_refused() ? 0 : __libc_memalign(alignment, size);
    if (!given) return ENOMEM;
    *out = given;
    return 0;
}

ssize_t read(int file, void *bytes, size_t size) {
    prepare();
    reads++;
    if (is_meant(failed_read, reads)) {
        errno = EIO;
        return -1;
    }
    if (size > short_size && is_meant(short_read, reads)) size = short_size;
    return syscall(SYS_read, file, bytes, size);
}

static ssize_t put(int file, const void *bytes, size_t size) {
    prepare();
    writes++;
    if (is_meant(failed_write, writes)) {
        errno = EIO;
        return -1;
    }
    if (is_meant(empty_write, writes)) return 0;
    if (size > short_size && is_meant(short_write, writes)) size = short_size;
    return syscall(SYS_write, file, bytes, size);
}

ssize_t write(int file, const void *bytes, size_t size) { return put(file, bytes, size); }
ssize_t __write(int file, const void *bytes, size_t size) { return put(file, bytes, size); }

/* Puts a number and the byte behind it in front of what ends at `end`, and returns where that begins. */
static char *spelled(char *end, unsigned long number, char behind) {
    *--end = behind;
    do {
        *--end = '0' + number % 10;
        number /= 10;
    } while (number);
    return end;
}

__attribute__((destructor)) static void tell(void) {
    const char *path = getenv("REFUSE_TELL");
    char text[96], *end = text + sizeof text, *start;
    long file;
    if (!path || (file = syscall(SYS_openat, AT_FDCWD, path, O_WRONLY | O_CREAT | O_TRUNC, 0600)) < 0) return;
    start = spelled(end, writes, '\n');
    start = spelled(start, reads, ' ');
    start = spelled(start, requests, ' ');
    syscall(SYS_write, file, start, end - start);
    syscall(SYS_close, file);
}
