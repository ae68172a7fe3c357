/* The heap of the page's module, in the place of the C library's: what the kit's rattle_alloc, rattle_realloc and
   rattle_dealloc promise. Nothing here is proved, as nothing of a C library is. A block is 16 bytes that say its class
   and the bytes that were asked for, and then the block itself; freed blocks stand in a list for each class. */
typedef unsigned long size;
typedef struct { size ok; void *p; } tried;
typedef struct block { size class, asked; struct block *next; } block;

#define EXPORT(name) __attribute__((export_name(#name)))
enum { HEAD = 16, SMALL = 64, PAGE = 65536 };

extern char __heap_base;
static block *freed[SMALL + 64];
static char *next, *end;
static size used;

/* Up to 1024 bytes a class for each 16, above that one for each power of two. */
static size class_of(size n) { return n <= 16 * SMALL ? (n + 15) / 16 : SMALL + 64 - (size)__builtin_clzl(n - 1); }
static size room_of(size class) { return class <= SMALL ? 16 * class : (size)1 << (class - SMALL); }

static char *fresh(size n) {
    if (!next) {
        next = (char *)(((size)&__heap_base + 15) / 16 * 16);
        end = (char *)(__builtin_wasm_memory_size(0) * PAGE);
    }
    if (n > (size)(end - next)) {
        size pages = (n - (size)(end - next) + PAGE - 1) / PAGE;
        if (__builtin_wasm_memory_grow(0, pages) == (size)-1) return 0;
        end += pages * PAGE;
    }
    char *at = next;
    next += n;
    return at;
}

static char *take(size n) {
    if (n > (size)1 << 40) return 0;
    size class = class_of(n ? n : 1);
    block *it = freed[class];
    if (it) freed[class] = it->next;
    else if (!(it = (block *)fresh(HEAD + room_of(class)))) return 0;
    it->class = class;
    it->asked = n;
    used += n;
    return (char *)it + HEAD;
}

static void give(char *p) {
    block *it = (block *)(p - HEAD);
    used -= it->asked;
    it->next = freed[it->class];
    freed[it->class] = it;
}

tried rattle_alloc(size n, size a) {
    char *p = take(n);
    return (tried){ p != 0, p };
}

tried rattle_realloc(char *p, size kept, size n, size a) {
    block *it = (block *)(p - HEAD);
    if (n && n <= room_of(it->class) && class_of(n) == it->class) {
        used += n - it->asked;
        it->asked = n;
        return (tried){ 1, p };
    }
    char *q = take(n);
    if (q) {
        __builtin_memcpy(q, p, kept < n ? kept : n);
        give(p);
    }
    return (tried){ q != 0, q };
}

void rattle_dealloc(char *p) { give(p); }

/* For the page: memory for what it passes, and the bytes in use. */
EXPORT(page_alloc) char *page_alloc(size n) { return take(n); }
EXPORT(page_free) void page_free(char *p) { give(p); }
EXPORT(page_used) size page_used(void) { return used; }

/* What the compiler calls by name where it finds it shorter than the code. */
int memcmp(const void *x, const void *y, size n) {
    const unsigned char *a = x, *b = y;
    for (; n; n--, a++, b++)
        if (*a != *b) return *a < *b ? -1 : 1;
    return 0;
}
int bcmp(const void *x, const void *y, size n) { return memcmp(x, y, n); }
