/* Preloaded into a program that opens a store: the first time that it looks for a log and finds none, it says so on
   standard error, and stops itself (SIGSTOP). So another program can open that store before it goes on. */
#define _GNU_SOURCE
#include <dlfcn.h>
#include <errno.h>
#include <signal.h>
#include <string.h>
#include <sys/stat.h>
#include <unistd.h>

typedef int look(int, const char *, int, unsigned, struct statx *);

static int is_log(const char *path) {
    size_t length = strlen(path);
    return length > 4 && strcmp(path + length - 4, "-wal") == 0;
}

int statx(int folder, const char *path, int flags, unsigned mask, struct statx *found) {
    static const char said[] = "no log\n";
    static int has_stopped;
    int ended = ((look *)dlsym(RTLD_NEXT, "statx"))(folder, path, flags, mask, found), why = errno;
    if (ended != 0 && why == ENOENT && is_log(path) && !has_stopped && write(2, said, sizeof said - 1) > 0) {
        has_stopped = 1;
        raise(SIGSTOP);
    }
    errno = why;
    return ended;
}
