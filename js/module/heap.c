/*
 * The memory of a module that has no host: malloc, realloc and free over memory.grow; the calls by which the library takes memory, as
 * c/heap.c has them; and those of the C library that LLVM makes.
 *
 * Each block has a head with its size. Freed blocks of one size are in one list, and a request takes the first of its list: sizes up to
 * 1,024 are multiples of 16, larger ones powers of two. What is freed is never given back to the system, but is used again.
 */
typedef __SIZE_TYPE__ size_t;
typedef unsigned long long u64;
typedef unsigned char u8;

extern u8 __heap_base;

typedef struct block {
    u64 size;
    struct block *next;
    u64 unused;
} block;

enum { HEAD = 16, STEP = 16, SMALL = 1024, LISTS = SMALL / STEP + 31 - 10, PAGE = 65536 };
/* More than a gibibyte at once is refused. */
static const u64 MOST = 1u << 30;

static block *freed[LISTS];
static size_t end_of_heap;
/* Whether what is freed is filled with zeros: so it is while the memory is made of which a page's module is. */
static int is_clean;

static size_t rounded_up(size_t size) { return (size + STEP - 1) & ~(size_t)(STEP - 1); }

/* The list of a size, which becomes that of the blocks there. */
static unsigned list_of(size_t *size) {
    if (*size <= SMALL) {
        *size = rounded_up(*size ? *size : 1);
        return (unsigned)(*size / STEP - 1);
    }
    unsigned list = SMALL / STEP;
    size_t power = 2 * SMALL;
    for (; power < *size; power *= 2) list++;
    *size = power;
    return list;
}

static block *block_of(void *at) { return (block *)((u8 *)at - HEAD); }

static size_t start_of_heap(void) { return rounded_up((size_t)&__heap_base); }

/* A block behind all others. */
static block *made(size_t size) {
    if (!end_of_heap) end_of_heap = start_of_heap();
    u64 end = (u64)end_of_heap + HEAD + size, have = (u64)__builtin_wasm_memory_size(0) * PAGE;
    if (end > have && __builtin_wasm_memory_grow(0, (size_t)((end - have + PAGE - 1) / PAGE)) == (size_t)-1) return 0;
    block *it = (block *)end_of_heap;
    it->size = size;
    end_of_heap = (size_t)end;
    return it;
}

void *malloc(size_t size) {
    if (size > MOST) return 0;
    unsigned list = list_of(&size);
    block *it = freed[list];
    if (it)
        freed[list] = it->next;
    else
        it = made(size);
    return it ? (u8 *)it + HEAD : 0;
}

void free(void *at) {
    if (!at) return;
    block *it = block_of(at);
    size_t size = (size_t)it->size;
    if (is_clean) __builtin_memset(at, 0, size);
    unsigned list = list_of(&size);
    it->next = freed[list];
    freed[list] = it;
}

/* From now on what is freed is filled with zeros. */
void keep_clean(void) { is_clean = 1; }

/*
 * Makes zeros of all that is freed, heads too, and forgets it, for a module that is made of the memory as it is: blocks that are not freed are found by
 * the pointers to them, and what is behind the last of them is free. Of their heads only the sizes stay.
 */
void forget_freed(void) {
    for (unsigned list = 0; list < LISTS; list++) {
        for (block *it = freed[list], *next; it; it = next) {
            next = it->next;
            it->next = it; /* its own mark */
        }
        freed[list] = 0;
    }
    size_t at = start_of_heap(), end = at;
    while (at < end_of_heap) {
        block *it = (block *)at;
        int is_freed = it->next == it;
        at += HEAD + (size_t)it->size;
        if (!is_freed) end = at;
        if (is_freed) it->size = 0;
        it->next = 0;
    }
    end_of_heap = end;
    is_clean = 0;
}

/* memory.copy and memory.fill are these three. */
void *memcpy(void *to, const void *from, size_t size) {
    __asm__ volatile("local.get %0\nlocal.get %1\nlocal.get %2\nmemory.copy 0, 0" : : "r"(to), "r"(from), "r"(size) : "memory");
    return to;
}
void *memmove(void *to, const void *from, size_t size) { return memcpy(to, from, size); }
void *memset(void *to, int byte, size_t size) {
    __asm__ volatile("local.get %0\nlocal.get %1\nlocal.get %2\nmemory.fill 0" : : "r"(to), "r"(byte), "r"(size) : "memory");
    return to;
}

int memcmp(const void *one, const void *other, size_t size) {
    const u8 *a = one, *b = other;
    for (; size--; a++, b++)
        if (*a != *b) return *a < *b ? -1 : 1;
    return 0;
}
int bcmp(const void *one, const void *other, size_t size) { return memcmp(one, other, size); }

static void *resized(void *at, size_t size) {
    if (!at) return malloc(size);
    size_t old = (size_t)block_of(at)->size;
    if (old >= size) {
        if (is_clean) __builtin_memset((u8 *)at + size, 0, old - size);
        return at;
    }
    void *to = malloc(size);
    if (!to) return 0;
    memcpy(to, at, old);
    free(at);
    return to;
}

/* Whether there is memory, and where it is; `at` is never null. The library counts bytes by 64 bits, so what is too much is refused first. */
typedef struct {
    u64 is_there, at;
} answer;

static u8 nowhere[STEP];

static answer answer_of(void *at) { return (answer){at != 0, (u64)(size_t)(at ? at : nowhere)}; }

answer rattle_alloc(u64 size, u64 align) { return answer_of(size > MOST ? 0 : malloc((size_t)(size ? size : align))); }

answer rattle_realloc(void *at, u64 kept, u64 size, u64 align) {
    (void)kept;
    return answer_of(size > MOST ? 0 : resized(at, (size_t)(size ? size : align)));
}

void rattle_dealloc(void *at) { free(at); }
