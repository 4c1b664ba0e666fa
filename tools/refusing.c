/* Loaded before the C library by tools/memory, and no part of the program: it refuses requests of the program for memory. The environment says which.
   AOM_REFUSED is the number of the one that is refused, counted from 1; or, as 'read', each that follows the first read of standard input is; else none is.
   As the program ends, the file that AOM_COUNTED names gets how many requests there were, and how many of them were refused. */
#define _GNU_SOURCE
#include <dlfcn.h>
#include <errno.h>
#include <stdio.h>
#include <stdlib.h>
#include <string.h>
#include <sys/mman.h>
#include <unistd.h>

static long counted, refused, number;
static int by_read, has_read, has_ended;

#define NEXT(name) ((__typeof__(&name))dlsym(RTLD_NEXT, #name))

__attribute__((constructor)) static void begin(void)
{
    const char *which = getenv("AOM_REFUSED");
    by_read = which && !strcmp(which, "read");
    number = which ? atol(which) : 0;
}

__attribute__((destructor)) static void end(void)
{
    const char *name = getenv("AOM_COUNTED");
    has_ended = 1;
    FILE *file = name ? fopen(name, "w") : NULL;
    if (!file) return;
    fprintf(file, "%ld %ld\n", counted, refused);
    fclose(file);
}

/* whether this request is one that is refused */
static int is_refused(void)
{
    if (has_ended) return 0;
    counted++;
    if (by_read ? !has_read : counted != number) return 0;
    refused++;
    errno = ENOMEM;
    return 1;
}

void *malloc(size_t size) { return is_refused() ? NULL : NEXT(malloc)(size); }

void *calloc(size_t count, size_t size) { return is_refused() ? NULL : NEXT(calloc)(count, size); }

void *realloc(void *from, size_t size) { return is_refused() ? NULL : NEXT(realloc)(from, size); }

void *aligned_alloc(size_t alignment, size_t size) { return is_refused() ? NULL : NEXT(aligned_alloc)(alignment, size); }

int posix_memalign(void **to, size_t alignment, size_t size) { return is_refused() ? ENOMEM : NEXT(posix_memalign)(to, alignment, size); }

void *mmap(void *at, size_t size, int how, int flags, int file, off_t from)
{
    return is_refused() ? MAP_FAILED : NEXT(mmap)(at, size, how, flags, file, from);
}

ssize_t read(int file, void *to, size_t most)
{
    has_read |= file == STDIN_FILENO;
    return NEXT(read)(file, to, most);
}
