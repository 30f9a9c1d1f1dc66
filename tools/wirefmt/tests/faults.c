/* Faults for tests: stands before the C library's functions (LD_PRELOAD). FAULT names one, FAULT_FILE its file. */
#define _GNU_SOURCE
#include <dlfcn.h>
#include <errno.h>
#include <signal.h>
#include <stdio.h>
#include <stdlib.h>
#include <string.h>
#include <unistd.h>

static int is(const char *fault) {
    const char *set = getenv("FAULT");
    return set && strcmp(set, fault) == 0;
}

int rename(const char *from, const char *to) {
    if (is("kill at rename")) raise(SIGKILL);
    if (is("fail at rename")) {
        errno = EIO;
        return -1;
    }
    int (*next)(const char *, const char *) = dlsym(RTLD_NEXT, "rename");
    return next(from, to);
}

static void change(const char *name) {
    FILE *file = fopen(name, "a");
    if (!file || fputs("changed", file) < 0 || fclose(file)) abort();
}

int fsync(int file) {
    const char *name = getenv("FAULT_FILE");
    if (is("fail at fsync")) {
        errno = EIO;
        return -1;
    }
    if (is("slow fsync")) usleep(20000);
    if (is("change at fsync")) change(name);
    if ((is("remove at fsync") || is("link at fsync")) && unlink(name)) abort();
    if (is("link at fsync") && symlink("elsewhere", name)) abort();
    int (*next)(int) = dlsym(RTLD_NEXT, "fsync");
    return next(file);
}
