/* A file system that doesn't tell case apart, for tests/faults/edge.sh: put before a program's libraries (LD_PRELOAD), it lets the
 * calls that take a relative path find what has another spelling. What a folder lists keeps its spelling. */
#define _GNU_SOURCE
#include <dirent.h>
#include <dlfcn.h>
#include <fcntl.h>
#include <limits.h>
#include <stdarg.h>
#include <stdio.h>
#include <string.h>
#include <sys/stat.h>
#include <unistd.h>

typedef char Place[PATH_MAX];

/* The name in a folder that is the same but for case, where just this one isn't there. */
static void spell(const char *folder, char *name) {
    DIR *entries = opendir(folder);
    struct dirent *entry;
    Place other = "";
    if (!entries) return;
    while ((entry = readdir(entries))) {
        if (!strcmp(entry->d_name, name)) break;
        if (!strcasecmp(entry->d_name, name)) strcpy(other, entry->d_name);
    }
    closedir(entries);
    if (!entry && other[0]) strcpy(name, other);
}

/* The path as the folders on the way spell it. */
static const char *spelled(const char *path, Place found) {
    Place rest, name;
    char *left = rest, *part;
    if (path[0] == '/' || path[0] == 0 || strlen(path) >= PATH_MAX) return path;
    strcpy(rest, path);
    strcpy(found, ".");
    while ((part = strsep(&left, "/"))) {
        strcpy(name, part);
        if (part[0] && strcmp(part, ".")) spell(found, name);
        if (strlen(found) + strlen(name) + 2 > PATH_MAX) return path;
        strcat(strcat(found, "/"), name);
    }
    return found;
}

#define REAL(call) __typeof__(&call) real = (__typeof__(&call))dlsym(RTLD_NEXT, #call)
#define MODE(before) ({ va_list more; va_start(more, before); mode_t mode = va_arg(more, mode_t); va_end(more); mode; })

int open(const char *path, int flags, ...) {
    REAL(open);
    Place found;
    return real(spelled(path, found), flags, MODE(flags));
}

int openat(int folder, const char *path, int flags, ...) {
    REAL(openat);
    Place found;
    return real(folder, spelled(path, found), flags, MODE(flags));
}

int statx(int folder, const char *restrict path, int flags, unsigned mask, struct statx *restrict told) {
    REAL(statx);
    Place found;
    return real(folder, spelled(path, found), flags, mask, told);
}

int rename(const char *from, const char *to) {
    REAL(rename);
    Place found, other;
    return real(spelled(from, found), spelled(to, other));
}

int mkdir(const char *path, mode_t mode) {
    REAL(mkdir);
    Place found;
    return real(spelled(path, found), mode);
}

int rmdir(const char *path) {
    REAL(rmdir);
    Place found;
    return real(spelled(path, found));
}

int unlink(const char *path) {
    REAL(unlink);
    Place found;
    return real(spelled(path, found));
}
