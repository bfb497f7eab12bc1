/* Preloaded into a program that syncs the file which NOTED_FILE names: when a sync of that file has gone well, the
   length that the file had before it is written to the file which NOTED_LENGTH names, as eight bytes, the lowest first.
   So many of its bytes a power cut leaves. */
#define _GNU_SOURCE
#include <dlfcn.h>
#include <errno.h>
#include <fcntl.h>
#include <stdint.h>
#include <stdlib.h>
#include <sys/stat.h>
#include <unistd.h>

typedef int sync_call(int);

/* The length of an open file, where it is the one that is named; or else -1. */
static int64_t length_of(int file) {
    struct stat found, named;
    const char *path = getenv("NOTED_FILE");
    if (!path || stat(path, &named) != 0 || fstat(file, &found) != 0)
        return -1;
    return found.st_dev == named.st_dev && found.st_ino == named.st_ino ? found.st_size : -1;
}

static void note(int64_t length) {
    unsigned char bytes[8];
    const char *path = getenv("NOTED_LENGTH");
    int file = path ? open(path, O_WRONLY | O_CREAT | O_CLOEXEC, 0600) : -1;
    for (int at = 0; at < 8; at++)
        bytes[at] = (unsigned char)(length >> (8 * at));
    if (file < 0 || pwrite(file, bytes, sizeof bytes, 0) != sizeof bytes)
        abort();
    close(file);
}

static int sync_by(const char *name, int file) {
    int64_t length = length_of(file);
    int ended = ((sync_call *)dlsym(RTLD_NEXT, name))(file), why = errno;
    if (ended == 0 && length >= 0)
        note(length);
    errno = why;
    return ended;
}

int fsync(int file) { return sync_by("fsync", file); }

int fdatasync(int file) { return sync_by("fdatasync", file); }
