"""A system that fails, or ends the program, at a call of the disk by its number, or refuses memory by a number; that notes the
calls of the disk that came to pass; that moves fewer bytes at once than it was asked to; and that acts edges that are wrong."""
import os
import subprocess
from dataclasses import dataclass

# What the environment tells: FAULT_AT is the number of the call that doesn't come to pass, from 0 on. By FAULT_DOES it
# `fails`, or it `tears`: the program ends at it, behind the first half of a write. REFUSED_AT is the number of the
# request for memory that is refused. FAULT_TOLD is the file that tells in the end how many of each there were. FAULT_NOTES is
# the file that has a line for each call that came to pass. With FAULT_SHORT each read or write moves half of its bytes. Of a file
# that FAULT_SYNC names the first writing out fails, and each writing out waits for FAULT_SLOW milliseconds first. With FAULT_DROPS a wrong edge is acted: `sync file` writes no file out; `sync
# behind create`, `sync behind make folder`, `sync behind rename` and `sync behind remove` write no folder out that was changed so;
# `rename` copies and removes; `short read` and `short write` take half of the bytes for all; `look` takes what can't be looked at
# for missing.
SOURCE = r"""
#define _GNU_SOURCE
#include <dlfcn.h>
#include <errno.h>
#include <fcntl.h>
#include <limits.h>
#include <signal.h>
#include <stdarg.h>
#include <stdio.h>
#include <stdlib.h>
#include <string.h>
#include <sys/stat.h>
#include <unistd.h>

extern void *__libc_malloc(size_t);
extern void *__libc_realloc(void *, size_t);
static long calls, requests;
/* how a folder was changed last */
static const char *changed = "create";

static int is_at(const char *name, long number) {
    const char *at = getenv(name);
    return at && atol(at) == number;
}

static int is_told(const char *what) {
    const char *told = getenv("FAULT_DOES");
    return told && !strcmp(told, what);
}

static int is_due(void) { return is_at("FAULT_AT", calls++); }

static int fault(void) {
    if (!is_told("fails")) raise(SIGKILL);
    errno = EIO;
    return -1;
}

#define REAL(name) ((__typeof__(&name))dlsym(RTLD_NEXT, #name))

static int drops(const char *what) {
    const char *told = getenv("FAULT_DROPS");
    return told && !strcmp(told, what);
}

/* the last call came to pass: its number, its name, and one or two paths */
static void note(const char *what, const char *path, const char *other) {
    const char *notes = getenv("FAULT_NOTES");
    char line[3 * PATH_MAX];
    if (!notes) return;
    int kept = errno, length = snprintf(line, sizeof line, "%ld\t%s\t%s\t%s\n", calls - 1, what, path, other);
    int file = REAL(open)(notes, O_WRONLY | O_CREAT | O_APPEND, 0600);
    if (file >= 0) {
        if (REAL(write)(file, line, length) != length) abort();
        REAL(close)(file);
    }
    errno = kept;
}

static void note_file(const char *what, int file) {
    char name[64], path[PATH_MAX];
    snprintf(name, sizeof name, "/proc/self/fd/%d", file);
    ssize_t length = readlink(name, path, sizeof path - 1);
    path[length < 0 ? 0 : length] = 0;
    note(what, path, "");
}

static int is_folder(int file) {
    struct stat about;
    return !fstat(file, &about) && S_ISDIR(about.st_mode);
}

static int drops_sync(int file) {
    char what[64] = "sync file";
    if (is_folder(file)) snprintf(what, sizeof what, "sync behind %s", changed);
    return drops(what);
}

static int is_named(const char *variable, int file) {
    const char *named = getenv(variable);
    char link[64], path[PATH_MAX];
    if (!named) return 0;
    snprintf(link, sizeof link, "/proc/self/fd/%d", file);
    ssize_t length = readlink(link, path, sizeof path - 1);
    path[length < 0 ? 0 : length] = 0;
    const char *slash = strrchr(path, '/');
    return slash && !strcmp(slash + 1, named);
}

static size_t moved(size_t size) { return getenv("FAULT_SHORT") && size > 1 ? size / 2 : size; }

int open(const char *path, int flags, ...) {
    va_list more;
    va_start(more, flags);
    int mode = va_arg(more, int);
    va_end(more);
    if (is_due()) return fault();
    int makes = flags & O_CREAT && access(path, F_OK);
    int file = REAL(open)(path, flags, mode);
    if (file >= 0 && makes) changed = "create";
    if (file >= 0) note(makes ? "create" : "open", path, "");
    return file;
}

int statx(int folder, const char *path, int flags, unsigned mask, struct statx *told) {
    if (is_due()) {
        int failed = fault();
        if (drops("look")) errno = ENOENT;
        return failed;
    }
    int done = REAL(statx)(folder, path, flags, mask, told);
    if (!done) note(S_ISREG(told->stx_mode) ? "look" : "look at folder", path, "");
    return done;
}

ssize_t pread(int file, void *into, size_t size, off_t at) {
    if (is_due()) return fault();
    note_file("read", file);
    if (drops("short read")) return REAL(pread)(file, into, size / 2, at) < 0 ? -1 : (ssize_t)size;
    return REAL(pread)(file, into, moved(size), at);
}

ssize_t pwrite(int file, const void *from, size_t size, off_t at) {
    if (is_due()) {
        if (is_told("tears")) REAL(pwrite)(file, from, size / 2, at);
        return fault();
    }
    note_file("write", file);
    if (drops("short write")) return REAL(pwrite)(file, from, size / 2, at) < 0 ? -1 : (ssize_t)size;
    return REAL(pwrite)(file, from, moved(size), at);
}

int ftruncate(int file, off_t size) {
    if (is_due()) return fault();
    note_file("cut", file);
    return REAL(ftruncate)(file, size);
}

int fsync(int file) {
    static int failed = 0;
    const char *slow = getenv("FAULT_SLOW");
    if (is_due()) return fault();
    if (slow) usleep(1000 * atol(slow));
    if (!failed && is_named("FAULT_SYNC", file)) {
        failed = 1;
        errno = EIO;
        return -1;
    }
    if (drops_sync(file)) return 0;
    int done = REAL(fsync)(file);
    if (!done) note_file("sync", file);
    return done;
}

int rename(const char *from, const char *to) {
    if (is_due()) return fault();
    int done = REAL(rename)(from, to);
    if (done) return done;
    changed = "rename";
    if (!drops("rename")) {
        note("rename", from, to);
    } else {
        note("write", to, "");
        note("remove", from, "");
    }
    return done;
}

int unlink(const char *path) {
    if (is_due()) return fault();
    int done = REAL(unlink)(path);
    if (!done) {
        changed = "remove";
        note("remove", path, "");
    }
    return done;
}

int mkdir(const char *path, mode_t mode) {
    if (is_due()) return fault();
    int done = REAL(mkdir)(path, mode);
    if (!done) {
        changed = "make folder";
        note("make folder", path, "");
    }
    return done;
}

void *malloc(size_t size) { return is_at("REFUSED_AT", requests++) ? NULL : __libc_malloc(size); }
void *realloc(void *old, size_t size) { return is_at("REFUSED_AT", requests++) ? NULL : __libc_realloc(old, size); }

__attribute__((destructor)) static void tell(void) {
    const char *told = getenv("FAULT_TOLD");
    FILE *file = told ? fopen(told, "w") : NULL;
    if (!file) return;
    fprintf(file, "%ld %ld", calls, requests);
    fclose(file);
}

/* a program with threads ends by this, and no destructor runs */
void _exit(int status) {
    tell();
    REAL(_exit)(status);
    __builtin_unreachable();
}
"""


@dataclass
class Call:
    """A call of the disk that came to pass: its number among all, what it did, and to which paths, both whole."""

    number: int
    does: str
    path: str
    other: str


class Faults:
    """The library of faults in a folder."""

    def __init__(self, folder):
        self.folder = os.path.realpath(folder)
        self.noted = f"{folder}/faults.notes"
        self.library = f"{folder}/faults.so"
        self.told = f"{folder}/faults.told"
        with open(f"{folder}/faults.c", "w", encoding="ascii") as it:
            it.write(SOURCE)
        subprocess.run(["cc", "-shared", "-fPIC", "-o", self.library, f"{folder}/faults.c", "-ldl"], check=True)

    def shell(self, **told):
        """The line of shell by which a run meets these."""
        words = {"LD_PRELOAD": self.library, "FAULT_TOLD": self.told, **told}
        return " ".join(["export", *(f"{name}='{value}'" for name, value in words.items())])

    def counts(self):
        """How many calls of the disk the last run made that came to its end, and how many requests for memory."""
        with open(self.told, encoding="ascii") as it:
            told = it.read()
        os.remove(self.told)
        return tuple(map(int, told.split()))

    def noting(self, **told):
        """The line of shell by which a run has its calls noted."""
        if os.path.exists(self.noted):
            os.remove(self.noted)
        return self.shell(FAULT_NOTES=self.noted, **told)

    def notes(self):
        """The calls of the disk that the last run made, in their order."""

        def whole(path):
            return os.path.normpath(os.path.join(self.folder, path)) if path else ""

        with open(self.noted, encoding="utf-8") as it:
            lines = [line.rstrip("\n").split("\t") for line in it]
        return [Call(int(number), does, whole(path), whole(other)) for number, does, path, other in lines]
