"""Refuses the program each of its allocations in turn, and says what it answers.

    geo_tools memory COMMAND [WORD ..] FILE ..

runs the built program (tools/build) with the words and each file as its standard input: once as it is, and then with the first
allocation refused, with the second one, and so on until a run asks for fewer. Each answer has to be the right one, byte for byte, or
want of memory: status 8 and nothing written. It needs a C compiler (cc), for the few lines that stand before malloc.
"""

import os
import subprocess
import sys
import tempfile

from ..program import NO_PROGRAM, built_program

OUT_OF_MEMORY = 8

BEFORE_MALLOC = r"""
#define _GNU_SOURCE
#include <dlfcn.h>
#include <errno.h>
#include <stdio.h>
#include <stdlib.h>
#include <unistd.h>
#include <fcntl.h>
static long asked, refused_at = -1;
static void *(*next_malloc)(size_t);
static void *(*next_realloc)(void *, size_t);
static void *(*next_aligned)(size_t, size_t);
static int (*next_memalign)(void **, size_t, size_t);
static void *(*next_calloc)(size_t, size_t);
static void tell(const char *what);
__attribute__((constructor)) static void begin(void) {
    next_malloc = dlsym(RTLD_NEXT, "malloc");
    next_realloc = dlsym(RTLD_NEXT, "realloc");
    next_aligned = dlsym(RTLD_NEXT, "aligned_alloc");
    next_memalign = dlsym(RTLD_NEXT, "posix_memalign");
    next_calloc = dlsym(RTLD_NEXT, "calloc");
    const char *at = getenv("REFUSED_AT");
    asked = 0;
    tell("n");
    refused_at = at ? atol(at) : -1;
}
static void tell(const char *what) {
    const char *path = getenv("REFUSED_TOLD");
    int f = path ? open(path, O_WRONLY | O_CREAT | O_TRUNC, 0600) : -1;
    if (f >= 0) { if (write(f, what, 1) != 1) _exit(70); close(f); }
}
/* told as it happens, since a program with threads ends without the destructors of its libraries */
static int refused(void) {
    if (refused_at <= 0 || __sync_add_and_fetch(&asked, 1) != refused_at) return 0;
    tell("y");
    return 1;
}
void *malloc(size_t n) { return refused() ? NULL : next_malloc ? next_malloc(n) : NULL; }
void *realloc(void *p, size_t n) { return refused() ? NULL : next_realloc(p, n); }
void *aligned_alloc(size_t a, size_t n) { return refused() ? NULL : next_aligned(a, n); }
int posix_memalign(void **p, size_t a, size_t n) { return refused() ? ENOMEM : next_memalign(p, a, n); }
static char early[4096];
void *calloc(size_t m, size_t n) {
    if (!next_calloc) return early;
    return refused() ? NULL : next_calloc(m, n);
}
"""


def main(words):
    files = [w for w in words if os.path.exists(w)]
    words = [w for w in words if not os.path.exists(w)]
    if not words or not files:
        print(__doc__, file=sys.stderr)
        return 2
    program = built_program()
    if program is None:
        print("geo_tools memory: there is no build of this source (tools/build makes one)", file=sys.stderr)
        return NO_PROGRAM
    with tempfile.TemporaryDirectory() as folder:
        source, library, told = (os.path.join(folder, n) for n in ("before.c", "before.so", "told"))
        with open(source, "w") as f:
            f.write(BEFORE_MALLOC)
        subprocess.run(["cc", "-shared", "-fPIC", "-O1", "-o", library, source, "-ldl"], check=True)
        wrong = sum(tried(program, words, file, library, told) for file in files)
    return 1 if wrong else 0


def tried(program, words, file, library, told):
    """How many of the answers to a file are neither right nor want of memory."""
    with open(file, "rb") as f:
        data = f.read()
    right = subprocess.run([program, *words], input=data, capture_output=True)
    at, refusals, wrong = 1, 0, 0
    while True:
        env = {**os.environ, "LD_PRELOAD": library, "REFUSED_AT": str(at), "REFUSED_TOLD": told}
        run = subprocess.run([program, *words], input=data, capture_output=True, env=env)
        same = run.returncode == right.returncode and run.stdout == right.stdout
        want = run.returncode == OUT_OF_MEMORY and run.stdout == b""
        if not (same or want):
            wrong += 1
            print(f"{' '.join(words)} {file}: allocation {at}: status {run.returncode}, {len(run.stdout)} bytes")
        refusals += want
        with open(told) as f:
            if f.read() == "n":
                break
        at += 1
    print(f"{' '.join(words)} {file}: {at - 1} allocations refused in turn, {refusals} answers want of memory, {at - 1 - refusals - wrong} right, {wrong} others")
    return wrong

