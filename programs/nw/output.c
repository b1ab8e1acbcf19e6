// output.c: a file written whole or not at all.
// SPDX-License-Identifier: MIT
#define _POSIX_C_SOURCE 200809L
#include "output.h"
#include <errno.h>
#include <stdlib.h>
#include <string.h>
#include <sys/stat.h>

bool is_one_file(const char *a, const char *b) {
    struct stat one, other;
    return stat(a, &one) == 0 && stat(b, &other) == 0 && one.st_dev == other.st_dev && one.st_ino == other.st_ino;
}

// The name with an ending, under which a file is written that is to replace another.
static char *beside(const char *name) {
    static const char ending[] = ".new";
    char *way = malloc(strlen(name) + sizeof ending);
    return way == NULL ? NULL : strcat(strcpy(way, name), ending);
}

bool output_open(struct output *o, const struct command *c, const char *name, bool replace) {
    struct stat there;
    bool exists = stat(name, &there) == 0;
    *o = (struct output){.c = c, .name = name, .special = exists && !S_ISREG(there.st_mode)};
    bool old = exists && !o->special;
    if (old && !replace) return say(c, "%s is there already, and stays as it is; --replace replaces it", shown(name)), false;
    if (old && (o->way = beside(name)) == NULL) return say(c, "there is no memory left"), false;
    const char *way = old ? o->way : name;
    o->file = fopen(way, o->special ? "wb" : "wbx");
    int why = errno;
    if (o->file == NULL) say(c, "%s can't be opened: %s", shown(way), strerror(why)), free(o->way);
    return o->file != NULL;
}

void output_put(struct output *o, const void *s, size_t n) {
    if (o->why == 0 && fwrite(s, 1, n, o->file) != n) o->why = errno;
}

bool output_close(struct output *o, bool keep) {
    const char *way = o->way == NULL ? o->name : o->way;
    if (fflush(o->file) != 0 && o->why == 0) o->why = errno;
    if (fclose(o->file) != 0 && o->why == 0) o->why = errno;
    bool whole = keep && o->why == 0;
    if (whole && o->way != NULL && rename(o->way, o->name) != 0) {
        o->why = errno;
        whole = false;
    }
    if (!whole && !o->special) remove(way);
    const char *said = o->special ? "%s is not whole, it can't be written: %s" : "%s can't be written, and nothing of it is left: %s";
    if (o->why != 0) say(o->c, said, shown(o->name), strerror(o->why));
    free(o->way);
    return whole;
}
