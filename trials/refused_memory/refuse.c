// Loaded before a program, refuses it allocations: that with the number in REFUSE, counted from 1, or each of them where REFUSE is
// `all`. A program that takes marks is counted and refused only between them: two allocations of certain sizes, which crates/
// trial_refused_memory/src/trial.rt knows too. It is said to do so by MARKED. Says "refused" on standard error where it refused one.
#include <errno.h>
#include <stdatomic.h>
#include <stddef.h>
#include <stdlib.h>
#include <string.h>
#include <unistd.h>

enum { FIRST_MARK = 1000003, LAST_MARK = 1000033 };

extern void *__libc_malloc(size_t len);
extern void *__libc_calloc(size_t count, size_t len);
extern void *__libc_realloc(void *old, size_t len);
extern void *__libc_memalign(size_t align, size_t len);

static int is_all;
static long wanted;           // the number of the allocation that is refused, or 0
static atomic_int is_counted; // whether allocations are counted now
static atomic_long count;

__attribute__((constructor)) static void begin(void) {
    const char *number = getenv("REFUSE");
    is_all = number && strcmp(number, "all") == 0;
    wanted = number ? atol(number) : 0;
    is_counted = !getenv("MARKED");
}

static int is_refused(size_t len) {
    if (len == FIRST_MARK || len == LAST_MARK) {
        is_counted = len == FIRST_MARK;
        count = 0;
        return 0;
    }
    if (!is_counted || (!is_all && ++count != wanted)) {
        return 0;
    }
    static const char said[] = "refused\n";
    if (write(2, said, sizeof said - 1) < 0) {
        _exit(3);
    }
    errno = ENOMEM;
    return 1;
}

void *malloc(size_t len) { return is_refused(len) ? NULL : __libc_malloc(len); }

void *calloc(size_t many, size_t len) { return is_refused(len) ? NULL : __libc_calloc(many, len); }

void *realloc(void *old, size_t len) { return is_refused(len) ? NULL : __libc_realloc(old, len); }

void *aligned_alloc(size_t align, size_t len) { return is_refused(len) ? NULL : __libc_memalign(align, len); }

int posix_memalign(void **place, size_t align, size_t len) {
    if (is_refused(len)) {
        return ENOMEM;
    }
    *place = __libc_memalign(align, len);
    return *place ? 0 : ENOMEM;
}
