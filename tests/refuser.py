"""A small library that is loaded before the C library, and refuses a program one of its calls for memory."""

import os
import pathlib
import subprocess

REFUSED = b"*"
# The number of the call that is refused is counted from the program's first one. What refuses it writes a mark to a
# file descriptor, which may be that of the program's own output.
REFUSER = r"""
#include <stdlib.h>
#include <unistd.h>
extern void *__libc_malloc(size_t size), *__libc_realloc(void *old, size_t size);
static long left;
static int told;
__attribute__((constructor)) static void begin(void) {
    told = atoi(getenv("REFUSED_TOLD"));
    left = atol(getenv("REFUSED_CALL"));
}
static int refuses(void) {
    if (left <= 0 || __atomic_sub_fetch(&left, 1, __ATOMIC_SEQ_CST) != 0) return 0;
    if (write(told, "*", 1) != 1) _exit(99);
    return 1;
}
void *malloc(size_t size) { return refuses() ? NULL : __libc_malloc(size); }
void *realloc(void *old, size_t size) { return refuses() ? NULL : __libc_realloc(old, size); }
"""


def make_refuser(folder: pathlib.Path) -> pathlib.Path | None:
    """The library; None if there is no C compiler."""
    library = folder / "refuser.so"
    words = ["cc", "-shared", "-fPIC", "-o", str(library), "-x", "c", "-"]
    try:
        subprocess.run(words, input=REFUSER.encode(), check=True)
    except FileNotFoundError:
        return None
    return library


def refusing(library: pathlib.Path, call: int, told: int) -> dict[str, str]:
    """The environment of a program that is refused the call of that number; the file descriptor gets the mark."""
    return {**os.environ, "LD_PRELOAD": str(library), "REFUSED_CALL": str(call), "REFUSED_TOLD": str(told)}
