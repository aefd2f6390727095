/* Refuses requests for memory in the program that it is loaded into (LD_PRELOAD).
 *
 * A request is a call of malloc, calloc, realloc or one of the aligned kind. Those after the first write to standard
 * output, or with REQUESTS_FROM=read after the first read of standard input, are counted from 1. REFUSED=k refuses the
 * k-th; with REFUSED_ON=1 also each one after it. At each write to standard output, and at the end, a line goes to
 * descriptor 3: the count so far, and how many bytes had gone out before. The last line has two numbers more: how many
 * blocks that were requested since the program began are not freed, and how many were freed twice. */
#define _GNU_SOURCE
#include <errno.h>
#include <stddef.h>
#include <stdio.h>
#include <stdlib.h>
#include <stdint.h>
#include <string.h>
#include <sys/mman.h>
#include <sys/syscall.h>
#include <unistd.h>

extern void *__libc_malloc(size_t);
extern void *__libc_calloc(size_t, size_t);
extern void *__libc_realloc(void *, size_t);
extern void *__libc_memalign(size_t, size_t);
extern void __libc_free(void *);

static int counting;
static unsigned long requests, refused_at, written;
static int refused_on, from_read;

/* The addresses of blocks, by hashing; the lowest bit says that a block is freed. Pages are the kernel's until used. */
enum { SLOTS = 1 << 24 };
static uintptr_t *blocks;
static unsigned long live, freed_twice;

static uintptr_t *slot_of(void *block) {
    uintptr_t address = (uintptr_t)block;
    size_t at = (size_t)((address >> 4) * 0x9E3779B97F4A7C15u >> 40) % SLOTS;
    while (blocks[at] && (blocks[at] & ~(uintptr_t)1) != address) at = (at + 1) % SLOTS;
    return &blocks[at];
}

static void *note(void *block) {
    if (block && blocks) {
        *slot_of(block) = (uintptr_t)block;
        live++;
    }
    return block;
}

static void forget(void *block) {
    if (!block || !blocks) return;
    uintptr_t *slot = slot_of(block);
    if (*slot == (uintptr_t)block) {
        *slot |= 1;
        live--;
    } else if (*slot) {
        freed_twice++;
    }
}

__attribute__((constructor)) static void begin(void) {
    const char *at = getenv("REFUSED"), *on = getenv("REFUSED_ON"), *from = getenv("REQUESTS_FROM");
    refused_at = at ? strtoul(at, NULL, 10) : 0;
    refused_on = on && strcmp(on, "1") == 0;
    from_read = from && strcmp(from, "read") == 0;
    void *room = mmap(NULL, SLOTS * sizeof *blocks, PROT_READ | PROT_WRITE, MAP_PRIVATE | MAP_ANONYMOUS | MAP_NORESERVE, -1, 0);
    if (room != MAP_FAILED) blocks = room;
}

static void tell(void) {
    char line[64];
    int len = snprintf(line, sizeof line, "%lu %lu\n", requests, written);
    syscall(SYS_write, 3, line, (size_t)len);
}

__attribute__((destructor)) static void end(void) {
    counting = 0;
    char line[128];
    int len = snprintf(line, sizeof line, "%lu %lu %lu %lu\n", requests, written, live, freed_twice);
    syscall(SYS_write, 3, line, (size_t)len);
}

static int is_refused(void) {
    if (!counting) return 0;
    requests++;
    return refused_at && (requests == refused_at || (refused_on && requests > refused_at));
}

static void *refuse(void) {
    errno = ENOMEM;
    return NULL;
}

void *malloc(size_t size) { return is_refused() ? refuse() : note(__libc_malloc(size)); }

void *calloc(size_t count, size_t size) { return is_refused() ? refuse() : note(__libc_calloc(count, size)); }

void *realloc(void *block, size_t size) {
    if (is_refused()) return refuse();
    void *got = __libc_realloc(block, size);
    if (got || !size) {
        forget(block);
        note(got);
    }
    return got;
}

void *memalign(size_t align, size_t size) { return is_refused() ? refuse() : note(__libc_memalign(align, size)); }

void free(void *block) {
    forget(block);
    __libc_free(block);
}

void *aligned_alloc(size_t align, size_t size) { return memalign(align, size); }

int posix_memalign(void **block, size_t align, size_t size) {
    void *got = memalign(align, size);
    if (!got) return ENOMEM;
    *block = got;
    return 0;
}

ssize_t read(int file, void *buffer, size_t size) {
    if (from_read && file == STDIN_FILENO) counting = 1;
    return syscall(SYS_read, file, buffer, size);
}

ssize_t write(int file, const void *buffer, size_t size) {
    if (file != STDOUT_FILENO) return syscall(SYS_write, file, buffer, size);
    if (!from_read) counting = 1;
    tell();
    ssize_t done = syscall(SYS_write, file, buffer, size);
    if (done > 0) written += (unsigned long)done;
    return done;
}
