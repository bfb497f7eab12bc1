/* Linked into a program in place of malloc and realloc (tools/build_unproved): the allocation of the number that
   FAIL_ALLOCATION names fails, counted from 1 over all threads, and standard error says so. */
#include <stdlib.h>
#include <unistd.h>

extern void *__real_malloc(size_t);
extern void *__real_realloc(void *, size_t);

static int fails(void) {
    static _Atomic long count, wanted = -1;
    if (wanted < 0) {
        const char *text = getenv("FAIL_ALLOCATION");
        wanted = text ? atol(text) : 0;
    }
    if (++count != wanted) return 0;
    static const char said[] = "an allocation failed\n";
    return write(2, said, sizeof said - 1) > 0;
}

void *__wrap_malloc(size_t size) { return fails() ? NULL : __real_malloc(size); }
void *__wrap_realloc(void *old, size_t size) { return fails() ? NULL : __real_realloc(old, size); }
