// Refuses one growth of memory, or all from one on, to a program that is started with this library before its own (LD_PRELOAD).
//
// REFUSE_AT is the number of the call that is refused, from 1; with REFUSE_REST=1 all later ones are, too. REFUSE_COUNT names a file
// that gets the number of calls. The count begins when the program's libraries are loaded. A call that shrinks or frees isn't counted.
#define _GNU_SOURCE
#include <errno.h>
#include <stdatomic.h>
#include <stddef.h>
#include <stdio.h>
#include <stdlib.h>
#include <sys/syscall.h>
#include <unistd.h>

extern void *__libc_malloc(size_t);
extern void *__libc_calloc(size_t, size_t);
extern void *__libc_realloc(void *, size_t);
extern void *__libc_memalign(size_t, size_t);

static atomic_ulong calls;
static unsigned long refused_at;
static int refuses_the_rest, is_counting;

__attribute__((constructor)) static void begin(void) {
    const char *at = getenv("REFUSE_AT"), *rest = getenv("REFUSE_REST");
    refused_at = at ? strtoul(at, NULL, 10) : 0;
    refuses_the_rest = rest && *rest == '1';
    is_counting = 1;
}

static void tell(void) {
    unsigned long counted = atomic_load(&calls);
    is_counting = 0;
    const char *path = getenv("REFUSE_COUNT");
    FILE *out = path ? fopen(path, "w") : NULL;
    if (!out) return;
    fprintf(out, "%lu\n", counted);
    fclose(out);
}

// A program that ends at once calls no destructor.
void _exit(int status) {
    tell();
    syscall(SYS_exit_group, status);
    __builtin_unreachable();
}

__attribute__((destructor)) static void end(void) { tell(); }

static int is_refused(void) {
    if (!is_counting) return 0;
    unsigned long number = atomic_fetch_add(&calls, 1) + 1;
    int refused = refused_at && (number == refused_at || (refuses_the_rest && number > refused_at));
    if (refused) errno = ENOMEM;
    return refused;
}

void *malloc(size_t size) { return is_refused() ? NULL : __libc_malloc(size); }
void *calloc(size_t count, size_t size) { return is_refused() ? NULL : __libc_calloc(count, size); }
void *realloc(void *old, size_t size) { return is_refused() ? NULL : __libc_realloc(old, size); }
void *aligned_alloc(size_t align, size_t size) { return is_refused() ? NULL : __libc_memalign(align, size); }
void *memalign(size_t align, size_t size) { return is_refused() ? NULL : __libc_memalign(align, size); }

int posix_memalign(void **to, size_t align, size_t size) {
    if (is_refused()) return ENOMEM;
    void *made = __libc_memalign(align, size);
    if (!made) return ENOMEM;
    *to = made;
    return 0;
}
