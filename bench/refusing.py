"""A library that refuses an allocation: loaded before a program, it refuses the one whose number the environment variable REFUSED has."""
import os
import subprocess

REFUSING = r"""
#define _GNU_SOURCE
#include <dlfcn.h>
#include <stdlib.h>
static long count, wanted = -1;
static int refused(void) {
    if (wanted < 0) { const char *text = getenv("REFUSED"); wanted = text ? atol(text) : 0; }
    return ++count == wanted;
}
void *malloc(size_t n) {
    static void *(*next)(size_t);
    if (!next) next = dlsym(RTLD_NEXT, "malloc");
    return refused() ? NULL : next(n);
}
void *realloc(void *p, size_t n) {
    static void *(*next)(void *, size_t);
    if (!next) next = dlsym(RTLD_NEXT, "realloc");
    return refused() ? NULL : next(p, n);
}
"""


def library_in(folder):
    """Builds it in a folder, by gcc."""
    source, library = os.path.join(folder, "refusing.c"), os.path.join(folder, "refusing.so")
    with open(source, "w", encoding="utf-8") as file:
        file.write(REFUSING)
    subprocess.run(["gcc", "-shared", "-fPIC", "-O1", "-o", library, source, "-ldl"], check=True)
    return library
