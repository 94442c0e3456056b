/* Refuses the allocation whose number, from 1, the environment says in REFUSED, and with REFUSED_ON all later ones too. The number of
   allocations is kept in the file COUNTED. It is preloaded below a program that was built with the C library's malloc. */
#include <fcntl.h>
#include <stddef.h>
#include <stdlib.h>
#include <sys/mman.h>
#include <unistd.h>

void *__libc_malloc(size_t size);
void *__libc_calloc(size_t number, size_t size);
void *__libc_realloc(void *old, size_t size);

static unsigned long unshared;
static unsigned long *count = &unshared;
static unsigned long refused;
static int on;

__attribute__((constructor)) static void begin(void) {
    const char *number = getenv("REFUSED");
    const char *path = getenv("COUNTED");
    refused = number ? strtoul(number, NULL, 10) : 0;
    on = getenv("REFUSED_ON") != NULL;
    if (path) {
        int file = open(path, O_RDWR);
        void *page = file < 0 ? MAP_FAILED : mmap(NULL, sizeof *count, PROT_READ | PROT_WRITE, MAP_SHARED, file, 0);
        if (page != MAP_FAILED) {
            count = page;
        }
        close(file);
    }
    *count = 0;
}

static int refuses(void) {
    *count += 1;
    return refused && (*count == refused || (on && *count > refused));
}

void *malloc(size_t size) {
    return refuses() ? NULL : __libc_malloc(size);
}

void *calloc(size_t number, size_t size) {
    return refuses() ? NULL : __libc_calloc(number, size);
}

void *realloc(void *old, size_t size) {
    return refuses() ? NULL : __libc_realloc(old, size);
}
