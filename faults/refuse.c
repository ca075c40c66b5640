// Stands before the C library's requests for memory (LD_PRELOAD) and refuses one of them: REFUSE is its number, from 1, and the
// file REFUSED is made when it is refused. A block that is freed twice, or was never given, ends the process by a signal.
#define _GNU_SOURCE
#include <dlfcn.h>
#include <errno.h>
#include <fcntl.h>
#include <pthread.h>
#include <stdint.h>
#include <stdlib.h>
#include <string.h>
#include <unistd.h>

extern void *__libc_malloc(size_t);
extern void *__libc_calloc(size_t, size_t);
extern void *__libc_realloc(void *, size_t);
extern void *__libc_memalign(size_t, size_t);
extern void __libc_free(void *);

// The blocks that stand, by their address. There is room for far more than a run of these asks for.
enum { PLACES = 1 << 20 };
static void *blocks[PLACES];
static pthread_mutex_t lock = PTHREAD_MUTEX_INITIALIZER;
static long next, wanted = -1;

static size_t place_of(void *block) {
    size_t place = ((uintptr_t)block >> 4) * 0x9E3779B97F4A7C15u % PLACES;
    while (blocks[place] && blocks[place] != block) place = (place + 1) % PLACES;
    return place;
}

// A place that is given up is filled by those after it, so that each is still found.
static void give_up(size_t place) {
    for (size_t at = (place + 1) % PLACES; blocks[at]; at = (at + 1) % PLACES) {
        void *block = blocks[at];
        blocks[at] = 0;
        blocks[place_of(block)] = block;
    }
}

static void *kept(void *block) {
    if (!block) return block;
    pthread_mutex_lock(&lock);
    blocks[place_of(block)] = block;
    pthread_mutex_unlock(&lock);
    return block;
}

static void forget(void *block) {
    if (!block) return;
    pthread_mutex_lock(&lock);
    size_t place = place_of(block);
    if (!blocks[place]) abort();
    blocks[place] = 0;
    give_up(place);
    pthread_mutex_unlock(&lock);
}

// Whether this request is the one to refuse.
static int is_refused(void) {
    if (wanted < 0) {
        const char *number = getenv("REFUSE");
        wanted = number ? atol(number) : 0;
    }
    if (__atomic_add_fetch(&next, 1, __ATOMIC_SEQ_CST) != wanted) return 0;
    const char *name = getenv("REFUSED");
    int file = name ? open(name, O_CREAT | O_WRONLY, 0600) : -1;
    if (file >= 0) close(file);
    errno = ENOMEM;
    return 1;
}

void *malloc(size_t size) { return is_refused() ? 0 : kept(__libc_malloc(size)); }
void *calloc(size_t count, size_t size) { return is_refused() ? 0 : kept(__libc_calloc(count, size)); }
void *memalign(size_t at, size_t size) { return is_refused() ? 0 : kept(__libc_memalign(at, size)); }
void *aligned_alloc(size_t at, size_t size) { return memalign(at, size); }

int posix_memalign(void **block, size_t at, size_t size) {
    void *given = memalign(at, size);
    if (!given) return ENOMEM;
    *block = given;
    return 0;
}

void *realloc(void *block, size_t size) {
    if (is_refused()) return 0;
    forget(block);
    return kept(__libc_realloc(block, size));
}

void free(void *block) {
    forget(block);
    __libc_free(block);
}
