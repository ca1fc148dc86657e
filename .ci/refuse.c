/* Refuses memory to a test program, and counts what it asks for, where its tests want that.

   Preloaded, this library stands before the C library's malloc, realloc and free. A test sends it messages: requests for
   sizes that no allocation can have, so that without the library each is refused and the same program runs as it is.
   crates/test_support/src/memory.rt sends message k as BASE + k * WORD, plus its argument n:

       0   the nth request from here on is refused, and no other
       1   the nth request from here on is refused, and each later one
       2   no request is refused, but a block that is to give back more than SPARE bytes stays as it is
       3   the end of messages 0 to 2; granted exactly if something was refused
       4   blocks and their bytes are counted from here on
       5   granted exactly if at most n requests were made between messages 0 to 2 and message 3
       6   the same of the bytes that they asked for
       7   the same of the blocks that were handed out and not freed
       8   the same of the bytes of these blocks, as the C library has made room for them

   A block that is made smaller is no request, and refused by message 2 alone. A process that was refused memory makes the
   file that REFUSE_LOG names. */
#include <fcntl.h>
#include <malloc.h>
#include <stddef.h>
#include <stdlib.h>
#include <string.h>

extern void *__libc_malloc(size_t);
extern void *__libc_realloc(void *, size_t);
extern void __libc_free(void *);

static const size_t BASE = (size_t)1 << 62, WORD = (size_t)1 << 32;

/* What the C library may add to a block: a larger request may fit into it. */
static const size_t SPARE = 32;

/* What a granted message returns. It is no block: free leaves it alone. */
static _Alignas(max_align_t) char granted_block[sizeof(max_align_t)];

static enum { ONE, FROM, SMALLER, NONE } mode = NONE;
static size_t nth, met, total; /* the first request to refuse, from 1; refusals since the mode was set, and of the process */
/* The counts, for messages 5 to 8; the last two are below 0 where blocks of before are freed. */
enum { REQUESTS, BYTES, BLOCKS, HELD };
static long long counts[4];

/* Whether the size is a message; then *block is what malloc returns. */
static int is_message(size_t size, void **block) {
    if (size < BASE || size >= BASE + 9 * WORD) return 0;
    size_t message = (size - BASE) / WORD, n = (size - BASE) % WORD;
    int granted = message >= 5 ? counts[message - 5] <= (long long)n : message == 3 && met > 0;
    if (message <= 3) mode = message;
    if (message <= 2) nth = n, met = 0, counts[REQUESTS] = counts[BYTES] = 0;
    if (message == 4) memset(counts, 0, sizeof counts);
    *block = granted ? granted_block : NULL;
    return 1;
}

static int is_refused(size_t size) {
    if (mode == NONE) return 0;
    size_t seen = ++counts[REQUESTS];
    counts[BYTES] += size;
    if (mode == SMALLER || (mode == ONE ? seen != nth : seen < nth)) return 0;
    met++, total++;
    return 1;
}

void *malloc(size_t size) {
    void *block;
    if (is_message(size, &block)) return block;
    block = is_refused(size) ? NULL : __libc_malloc(size);
    counts[BLOCKS] += block != NULL, counts[HELD] += malloc_usable_size(block);
    return block;
}

void *realloc(void *old, size_t size) {
    size_t before = malloc_usable_size(old);
    if (mode == SMALLER && size + SPARE < before) return NULL;
    void *block = size > before && is_refused(size) ? NULL : __libc_realloc(old, size);
    if (block == NULL) return NULL;
    counts[BLOCKS] += old == NULL, counts[HELD] += (long long)malloc_usable_size(block) - (long long)before;
    return block;
}

void free(void *block) {
    if (block == granted_block || block == NULL) return;
    counts[BLOCKS]--, counts[HELD] -= malloc_usable_size(block);
    __libc_free(block);
}

__attribute__((destructor)) static void log_refusals(void) {
    const char *name = getenv("REFUSE_LOG");
    if (name != NULL && total > 0) creat(name, 0600);
}
