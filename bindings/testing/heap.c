/* Counts what a program holds of its heap, and the most of it: linked into the program, or as a
 * shared object that is loaded before all others. Needs glibc, and one thread.
 *
 * A block counts with what malloc adds to it. Where a block grows both count, the old one and the
 * new one, since both stand while bytes are copied.
 *
 * With HEAP_WRAPPED it is linked by --wrap of the four calls, beside a heap of the sanitizers. */
#include <malloc.h>
#include <stddef.h>

#ifdef HEAP_WRAPPED
#define COUNTED(call) __wrap_##call
#define OWN(call) __real_##call
#else
#define COUNTED(call) call
#define OWN(call) __libc_##call
#endif

void *OWN(malloc)(size_t);
void *OWN(calloc)(size_t, size_t);
void *OWN(realloc)(void *, size_t);
void OWN(free)(void *);

void *COUNTED(malloc)(size_t);
void *COUNTED(calloc)(size_t, size_t);
void *COUNTED(realloc)(void *, size_t);
void COUNTED(free)(void *);

size_t heap_held(void);
size_t heap_most(void);
void heap_begin(void);

static size_t held, most;

static size_t size_of(void *block) { return block ? malloc_usable_size(block) + 8 : 0; }

static void *taken(void *block) {
    held += size_of(block);
    if (held > most) most = held;
    return block;
}

void *COUNTED(malloc)(size_t len) { return taken(OWN(malloc)(len)); }

void *COUNTED(calloc)(size_t count, size_t len) { return taken(OWN(calloc)(count, len)); }

void *COUNTED(realloc)(void *block, size_t len) {
    size_t old = size_of(block);
    void *grown = OWN(realloc)(block, len);
    if (grown || len == 0) {
        taken(grown);
        held -= old;
    }
    return grown;
}

void COUNTED(free)(void *block) {
    held -= size_of(block);
    OWN(free)(block);
}

size_t heap_held(void) { return held; }

/* The most that was held since heap_begin. */
size_t heap_most(void) { return most; }

void heap_begin(void) { most = held; }
