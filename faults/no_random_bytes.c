/* Preloaded into a program: the system has no random bytes for it. */
#include <errno.h>
#include <stddef.h>

int getentropy(void *bytes, size_t size) {
    (void)bytes;
    (void)size;
    errno = EIO;
    return -1;
}
