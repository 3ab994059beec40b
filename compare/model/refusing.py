"""A malloc that refuses one allocation of one program, preloaded before that of the C library. Needs a C compiler."""
import os
import subprocess
from pathlib import Path

SOURCE = r"""
#define _GNU_SOURCE
#include <errno.h>
#include <stdlib.h>
#include <string.h>
extern void *__libc_malloc(size_t);
extern void *__libc_realloc(void *, size_t);
static long calls, refused = -1;
static long number_for_this_program(void) {
    const char *number = getenv("REFUSED"), *program = getenv("REFUSED_IN");
    return number && program && !strcmp(program, program_invocation_short_name) ? atol(number) : 0;
}
static int refuses(void) {
    if (refused < 0) refused = number_for_this_program();
    return ++calls == refused;
}
void *malloc(size_t size) { return refuses() ? 0 : __libc_malloc(size); }
void *realloc(void *old, size_t size) { return refuses() ? 0 : __libc_realloc(old, size); }
"""


def built(room):
    """The library, made in a folder."""
    source, shared = f"{room}/refusing.c", f"{room}/refusing.so"
    Path(source).write_text(SOURCE)
    subprocess.run(["cc", "-shared", "-fPIC", "-o", shared, source], check=True)
    return shared


def environment(shared, program, number):
    """What a run has to find in its environment so that this request of the program is refused."""
    return {**os.environ, "LD_PRELOAD": shared, "REFUSED": str(number), "REFUSED_IN": Path(program).name}
