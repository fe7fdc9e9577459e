/* Refuses one request for memory of a program that it is preloaded into: the one whose number is in REFUSE; with REFUSE_ON=1 each
   later one too. Requests count from the start of the program itself: what the loader and the C library ask for before is theirs. The file
   descriptor in TOLD gets a line `refused CALL WANTED OF HELD` where a request was refused (HELD: the bytes of the block that it was
   to change, 0 for a new one), and at the end of the program `requests N`. */
#include <malloc.h>
#include <stddef.h>
#include <stdio.h>
#include <stdlib.h>
#include <unistd.h>

extern void *__libc_malloc(size_t);
extern void *__libc_calloc(size_t, size_t);
extern void *__libc_realloc(void *, size_t);
extern void *__libc_memalign(size_t, size_t);

static long requests, number;
static int told = -1, goes_on, is_running;

static long named(const char *name, long otherwise) {
    const char *text = getenv(name);
    return text ? atol(text) : otherwise;
}

static void tell(const char *text, int length) {
    if (told >= 0 && write(told, text, (size_t)length) < 0) _exit(9);
}

__attribute__((constructor)) static void start(void) {
    number = named("REFUSE", 0);
    told = (int)named("TOLD", -1);
    goes_on = (int)named("REFUSE_ON", 0);
    is_running = 1;
}

static int is_refused(const char *call, size_t wanted, void *held) {
    char text[96];
    if (!is_running) return 0;
    requests++;
    if (number == 0 || requests < number || (requests > number && !goes_on)) return 0;
    if (requests == number)
        tell(text, snprintf(text, sizeof text, "refused %s %zu of %zu\n", call, wanted, held ? malloc_usable_size(held) : 0));
    return 1;
}

void *malloc(size_t size) { return is_refused("malloc", size, NULL) ? NULL : __libc_malloc(size); }

void *calloc(size_t count, size_t size) {
    return is_refused("calloc", count * size, NULL) ? NULL : __libc_calloc(count, size);
}

void *realloc(void *old, size_t size) { return is_refused("realloc", size, old) ? NULL : __libc_realloc(old, size); }

void *memalign(size_t align, size_t size) { return is_refused("memalign", size, NULL) ? NULL : __libc_memalign(align, size); }

void *aligned_alloc(size_t align, size_t size) { return memalign(align, size); }

int posix_memalign(void **place, size_t align, size_t size) {
    void *block = memalign(align, size);
    if (block == NULL) return 12;
    *place = block;
    return 0;
}

__attribute__((destructor)) static void end(void) {
    char text[32];
    tell(text, snprintf(text, sizeof text, "requests %ld\n", requests));
}
