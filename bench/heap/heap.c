// Counts what is held of the heap, and the most that was. Loaded before the C library (LD_PRELOAD), so that each format is counted alike. A block
// that realloc moves counts once, as in valgrind's massif.
#define _GNU_SOURCE
#include <errno.h>
#include <malloc.h>
#include <stddef.h>

extern void *__libc_malloc(size_t size);
extern void *__libc_calloc(size_t count, size_t size);
extern void *__libc_realloc(void *block, size_t size);
extern void *__libc_memalign(size_t align, size_t size);
extern void __libc_free(void *block);

// What is held, the most that was since the last restart, and what was held before the first block that counts since then.
static size_t held, most, found;

// How many blocks were made or moved, and how many of them come before that first one.
static size_t made, before;

static void *gained(void *block, size_t old_size) {
    if (block) {
        if (made++ == before) most = found = held;
        held += malloc_usable_size(block) - old_size;
        if (held > most) most = held;
    }
    return block;
}

static void lost(void *block) {
    if (block) held -= malloc_usable_size(block);
}

void *malloc(size_t size) { return gained(__libc_malloc(size), 0); }
void *calloc(size_t count, size_t size) { return gained(__libc_calloc(count, size), 0); }
void *memalign(size_t align, size_t size) { return gained(__libc_memalign(align, size), 0); }
void *aligned_alloc(size_t align, size_t size) { return gained(__libc_memalign(align, size), 0); }

int posix_memalign(void **block, size_t align, size_t size) {
    void *aligned = gained(__libc_memalign(align, size), 0);
    if (!aligned) return ENOMEM;
    *block = aligned;
    return 0;
}

void *realloc(void *block, size_t size) {
    size_t old_size = block ? malloc_usable_size(block) : 0;
    void *moved = __libc_realloc(block, size);
    if (!moved && size == 0) held -= old_size;
    return gained(moved, old_size);
}

void free(void *block) {
    lost(block);
    __libc_free(block);
}

// Counts anew, once the next `blocks` blocks are made.
void heap_restart(size_t blocks) {
    before = made + blocks;
    most = found = held;
}

// The most that was held since beyond what was held then, in bytes.
size_t heap_most(void) { return made > before ? most - found : 0; }

// How many blocks were made or moved.
size_t heap_made(void) { return made; }
