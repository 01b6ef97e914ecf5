"""An allocator that refuses large buffers, so that a test sees how many are made and how many stand at once."""
import subprocess

# The bytes of 64 blocks, which is what each of a fetch's two buffers takes.
LARGE = 1 << 20

SOURCE = """
#include <malloc.h>
#include <stddef.h>
extern void *__libc_malloc(size_t);
extern void *__libc_calloc(size_t, size_t);
extern void *__libc_realloc(void *, size_t);
extern void __libc_free(void *);
static int made, standing;
static int is_refused(size_t size) { return size >= LARGE && (made >= MADE || standing >= STANDING); }
static int is_large(void *it) { return it && malloc_usable_size(it) >= LARGE; }
static void *note(void *it) { if (is_large(it)) { made++; standing++; } return it; }
static void forget(void *it) { if (is_large(it)) standing--; }
void *malloc(size_t size) { return is_refused(size) ? NULL : note(__libc_malloc(size)); }
void *calloc(size_t count, size_t size) { return is_refused(count * size) ? NULL : note(__libc_calloc(count, size)); }
void *realloc(void *old, size_t size) {
    if (is_refused(size)) return NULL;
    forget(old);
    return note(__libc_realloc(old, size));
}
void free(void *it) { forget(it); __libc_free(it); }
"""


def with_buffers(folder, buffers, standing=1_000_000):
    """What LD_PRELOAD names for a program that is to have so many large buffers, and so many of them at once."""
    made = f"{folder}/buffers_{buffers}_{standing}.so"
    with open(f"{folder}/buffers.c", "w", encoding="ascii") as it:
        it.write(SOURCE)
    defined = [f"-DLARGE={LARGE}", f"-DMADE={buffers}", f"-DSTANDING={standing}"]
    subprocess.run(["cc", "-shared", "-fPIC", *defined, "-o", made, f"{folder}/buffers.c"], check=True)
    return made
