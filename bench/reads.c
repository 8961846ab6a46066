/* Lists the files below a folder, looks at each, reads it and digests it by SHA-256, and does nothing else: what an update of
   nothing to do is measured by. Names that begin with a dot are passed over. Word: the folder. Built by figures-update.sh. */
#include <dirent.h>
#include <fcntl.h>
#include <stdio.h>
#include <stdlib.h>
#include <string.h>
#include <sys/stat.h>
#include <unistd.h>

#include "sha256.h"

static unsigned long files;
static uint32_t all[8];

static void fail(const char *place) { perror(place); exit(1); }

static void file(const char *place, size_t size) {
    unsigned char *bytes = malloc(size + 1);
    int fd = open(place, O_RDONLY | O_CLOEXEC);
    if (fd < 0 || !bytes || read(fd, bytes, size + 1) != (ssize_t)size) fail(place);
    close(fd);
    uint32_t h[8];
    digest(h, bytes, size);
    for (int i = 0; i < 8; i++) all[i] ^= h[i];
    free(bytes);
    files++;
}

static void folder(const char *place) {
    DIR *open = opendir(place);
    if (!open) fail(place);
    for (struct dirent *entry; (entry = readdir(open));) {
        char name[4096];
        struct stat found;
        if (entry->d_name[0] == '.') continue;
        snprintf(name, sizeof name, "%s/%s", place, entry->d_name);
        if (lstat(name, &found)) fail(name);
        if (S_ISDIR(found.st_mode)) folder(name);
        else if (S_ISREG(found.st_mode)) file(name, found.st_size);
    }
    closedir(open);
}

int main(int count, char **words) {
    folder(count > 1 ? words[1] : ".");
    printf("%lu files, ", files);
    for (int i = 0; i < 8; i++) printf("%08x", all[i]);
    puts("");
}
