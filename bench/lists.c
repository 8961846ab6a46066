/* Makes the files that `tup large N` has behind its first call, in memory; then lists them and digests each by SHA-256, and does
   nothing else: what the second call, which has nothing to do, is measured by. Word: N. Prints how many files there are, their
   bytes, the seconds of a processor of listing and digesting, the least of nine, and the digests, which are those that reads.c
   gives of the same files on a disk. Built by figures-second.sh. */
#include <stdio.h>
#include <stdlib.h>
#include <time.h>

#include "sha256.h"

struct file { char *path, *bytes; size_t size; };

static struct file *files;
static size_t count, room;

static void *get(size_t size) {
    void *block = malloc(size ? size : 1);
    if (!block) exit(1);
    return block;
}

static char *copy(const char *bytes, size_t size) { return memcpy(get(size), bytes, size); }

static void add(const char *path, const char *bytes, size_t size) {
    if (count == room && !(files = realloc(files, (room = 2 * room + 64) * sizeof *files))) exit(1);
    files[count++] = (struct file){copy(path, strlen(path) + 1), copy(bytes, size), size};
}

static void make(int folders) {
    static const char top[] = ": <libs> |> cat %<libs> > %o |> all\n",
        own[] = ": foreach *.c |> incl %f %o |> %B.o\n: *.o |> cat %f > %o |> lib ../<libs>\n";
    char *all = get(1 << 20), path[64], text[128];
    size_t end = 0;
    add("Tupfile", top, sizeof top - 1);
    for (int i = 0; i < 10; i++) {
        sprintf(path, "inc/h%d.h", i);
        add(path, text, sprintf(text, "#define H%d 0\n", i));
    }
    for (int k = 0; k < folders; k++) {
        size_t begin = end;
        sprintf(path, "d%04d/Tupfile", k);
        add(path, own, sizeof own - 1);
        for (int i = 0; i < 10; i++) {
            sprintf(path, "d%04d/s%d.c", k, i);
            add(path, text, sprintf(text, "#include \"../inc/h%d.h\"\nint d%04d_s%d;\n", i, k, i));
            size_t size = sprintf(text, "#define H%d 0\nint d%04d_s%d;\n", i, k, i);
            sprintf(path, "d%04d/s%d.o", k, i);
            add(path, text, size);
            memcpy(all + end, text, size);
            end += size;
        }
        sprintf(path, "d%04d/lib", k);
        add(path, all + begin, end - begin);
    }
    add("all", all, end);
    free(all);
}

static double now(void) {
    struct timespec t;
    clock_gettime(CLOCK_PROCESS_CPUTIME_ID, &t);
    return t.tv_sec + t.tv_nsec / 1e9;
}

static uint32_t all[8];

static double list_and_digest(void) {
    double begun = now();
    char **paths = get(count * sizeof *paths);
    for (size_t i = 0; i < count; i++) paths[i] = copy(files[i].path, strlen(files[i].path) + 1);
    for (size_t i = 0; i < count; i++) {
        uint32_t h[8];
        digest(h, (unsigned char *)files[i].bytes, files[i].size);
        for (int k = 0; k < 8; k++) all[k] ^= h[k];
    }
    for (size_t i = 0; i < count; i++) free(paths[i]);
    free(paths);
    return now() - begun;
}

int main(int words, char **word) {
    int folders = words == 2 ? atoi(word[1]) : 0;
    if (folders < 1 || folders > 1000) return 2;
    make(folders);
    size_t bytes = 0;
    for (size_t i = 0; i < count; i++) bytes += files[i].size;
    double least = list_and_digest();
    for (int i = 0; i < 8; i++) {
        double one = list_and_digest();
        if (one < least) least = one;
    }
    printf("%zu %zu %.4f ", count, bytes, least);
    for (int i = 0; i < 8; i++) printf("%08x", all[i]);
    puts("");
}
