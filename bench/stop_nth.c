/* Kills a program that it is preloaded into at one of its calls that write, sync, cut or make a file: the one whose number is in STOP. With
   HALF=1 half of the bytes of a write are written before. The file descriptor in TOLD gets a line `CALL BYTES` for each such
   call where STOP is 0. Standard output and standard error do not count. The folder SYNCED, where it is named, gets a copy of each file as it
   was when it was synced last. */
#define _GNU_SOURCE
#include <dlfcn.h>
#include <fcntl.h>
#include <signal.h>
#include <stdarg.h>
#include <stdio.h>
#include <stdlib.h>
#include <string.h>
#include <sys/stat.h>
#include <sys/types.h>
#include <unistd.h>

static long calls, number, half;
static int told = -1;

static long named(const char *name, long otherwise) {
    const char *text = getenv(name);
    return text ? atol(text) : otherwise;
}

__attribute__((constructor)) static void start(void) {
    number = named("STOP", 0);
    half = named("HALF", 0);
    told = (int)named("TOLD", -1);
}

/* Whether this call is the one to stop at. */
static int is_last(const char *name, size_t bytes) {
    char text[64];
    calls++;
    if (number == 0 && told >= 0) {
        int length = snprintf(text, sizeof text, "%s %zu\n", name, bytes);
        static ssize_t (*put)(int, const void *, size_t);
        if (!put) put = dlsym(RTLD_NEXT, "write");
        if (put(told, text, (size_t)length) < 0) _exit(9);
    }
    return number != 0 && calls == number;
}

/* Copies a file, not a folder, into the folder SYNCED, by the last part of its name. */
static void keep(int file) {
    char link[64], path[4096], bytes[1 << 16];
    const char *folder = getenv("SYNCED");
    ssize_t length;
    size_t count;
    struct stat found;
    if (!folder || fstat(file, &found) || !S_ISREG(found.st_mode)) return;
    snprintf(link, sizeof link, "/proc/self/fd/%d", file);
    length = readlink(link, path, sizeof path - 1);
    if (length < 0) _exit(9);
    path[length] = 0;
    snprintf(bytes, sizeof bytes, "%s/%s", folder, strrchr(path, '/') + 1);
    FILE *from = fopen(path, "rb"), *copy = fopen(bytes, "wb");
    if (!from || !copy) _exit(9);
    while ((count = fread(bytes, 1, sizeof bytes, from)) > 0)
        if (fwrite(bytes, 1, count, copy) != count) _exit(9);
    if (ferror(from) || fclose(from) || fclose(copy)) _exit(9);
}

static void stop(void) {
    kill(getpid(), SIGKILL);
    for (;;) pause();
}

#define NEXT(type, name, ...) \
    static type (*next)(__VA_ARGS__); \
    if (!next) next = (type(*)(__VA_ARGS__))dlsym(RTLD_NEXT, name)

ssize_t write(int file, const void *bytes, size_t count) {
    NEXT(ssize_t, "write", int, const void *, size_t);
    if (file > 2 && is_last("write", count)) {
        if (half) next(file, bytes, count / 2);
        stop();
    }
    return next(file, bytes, count);
}

ssize_t pwrite(int file, const void *bytes, size_t count, off_t at) {
    NEXT(ssize_t, "pwrite", int, const void *, size_t, off_t);
    if (is_last("pwrite", count)) {
        if (half) next(file, bytes, count / 2, at);
        stop();
    }
    return next(file, bytes, count, at);
}

ssize_t pwrite64(int file, const void *bytes, size_t count, off64_t at) {
    NEXT(ssize_t, "pwrite64", int, const void *, size_t, off64_t);
    if (is_last("pwrite", count)) {
        if (half) next(file, bytes, count / 2, at);
        stop();
    }
    return next(file, bytes, count, at);
}

int fsync(int file) {
    NEXT(int, "fsync", int);
    if (is_last("fsync", 0)) stop();
    int status = next(file);
    if (status == 0) keep(file);
    return status;
}

int fdatasync(int file) {
    NEXT(int, "fdatasync", int);
    if (is_last("fdatasync", 0)) stop();
    int status = next(file);
    if (status == 0) keep(file);
    return status;
}

int ftruncate(int file, off_t length) {
    NEXT(int, "ftruncate", int, off_t);
    if (is_last("ftruncate", 0)) stop();
    return next(file, length);
}

int ftruncate64(int file, off64_t length) {
    NEXT(int, "ftruncate64", int, off64_t);
    if (is_last("ftruncate", 0)) stop();
    return next(file, length);
}

int unlink(const char *path) {
    NEXT(int, "unlink", const char *);
    if (is_last("unlink", 0)) stop();
    return next(path);
}
