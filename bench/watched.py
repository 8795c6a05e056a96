"""What the stops of a desk are made of: a library that writes down each call of its two files, or has one fail; and what a stop may leave of the files."""
import collections
import os
import random
import struct
import subprocess

from desk_file import run

WRITTEN, CUT, SYNCED, TOLD = range(4)
WATCHED = r"""
#define _GNU_SOURCE
#include <dlfcn.h>
#include <errno.h>
#include <fcntl.h>
#include <stdio.h>
#include <stdlib.h>
#include <string.h>
#include <sys/uio.h>
#include <unistd.h>
enum { WRITTEN, CUT, SYNCED, TOLD };
static long value(const char *name) { const char *text = getenv(name); return text ? atol(text) : 0; }
/* 0 the desk's file, 1 its log, 2 their folder, -1 another. */
static int file_of(int handle) {
    char link[64], path[4096];
    const char *file = getenv("DESK_FILE");
    snprintf(link, sizeof link, "/proc/self/fd/%d", handle);
    ssize_t length = readlink(link, path, sizeof path - 1);
    if (!file || length < 0) return -1;
    path[length] = 0;
    if (!strcmp(path, file)) return 0;
    size_t whole = strlen(file), folder = strrchr(file, '/') - file;
    if (!strncmp(path, file, whole) && !strcmp(path + whole, "-wal")) return 1;
    return (size_t)length == folder && !strncmp(path, file, folder) ? 2 : -1;
}
/* Writes down a call that was made. */
static void note(long kind, long file, long at, const void *bytes, long count) {
    static int calls = -2;
    if (calls == -2) calls = getenv("CALLS") ? open(getenv("CALLS"), O_WRONLY | O_APPEND | O_CREAT | O_CLOEXEC, 0600) : -1;
    if (calls < 0) return;
    long head[4] = {kind, file, at, count};
    struct iovec parts[2] = {{head, sizeof head}, {(void *)bytes, bytes ? count : 0}};
    if (writev(calls, parts, 2) < 0) abort();
}
static int fails(void) {
    static long count;
    if (++count != value("FAIL_AT")) return 0;
    errno = value("FAIL_WITH");
    return 1;
}
static ssize_t written(int handle, const void *from, size_t count, off_t at) {
    static ssize_t (*next)(int, const void *, size_t, off_t);
    if (!next) next = dlsym(RTLD_NEXT, "pwrite");
    int file = file_of(handle);
    if (file < 0) return next(handle, from, count, at);
    if (fails()) return -1;
    long most = value("WRITE_MOST");
    ssize_t done = next(handle, from, most && (size_t)most < count ? (size_t)most : count, at);
    if (done > 0) note(WRITTEN, file, at, from, done);
    return done;
}
ssize_t pwrite(int handle, const void *from, size_t count, off_t at) { return written(handle, from, count, at); }
ssize_t pwrite64(int handle, const void *from, size_t count, off_t at) { return written(handle, from, count, at); }
static int cut(int handle, off_t length) {
    static int (*next)(int, off_t);
    if (!next) next = dlsym(RTLD_NEXT, "ftruncate");
    int file = file_of(handle);
    if (file >= 0 && fails()) return -1;
    int done = next(handle, length);
    if (file >= 0 && !done) note(CUT, file, length, 0, 0);
    return done;
}
int ftruncate(int handle, off_t length) { return cut(handle, length); }
int ftruncate64(int handle, off_t length) { return cut(handle, length); }
static int synced(int handle, const char *name) {
    int (*next)(int) = dlsym(RTLD_NEXT, name);
    int file = file_of(handle);
    if (file >= 0 && fails()) return -1;
    int done = next(handle);
    if (file >= 0 && !done) note(SYNCED, file, 0, 0, 0);
    return done;
}
int fsync(int handle) { return synced(handle, "fsync"); }
int fdatasync(int handle) { return synced(handle, "fdatasync"); }
static long allocations;
static int is_refused(void) { return ++allocations == value("REFUSE_AT"); }
void *malloc(size_t size) {
    static void *(*next)(size_t);
    if (!next) next = dlsym(RTLD_NEXT, "malloc");
    return is_refused() ? NULL : next(size);
}
void *realloc(void *from, size_t size) {
    static void *(*next)(void *, size_t);
    if (!next) next = dlsym(RTLD_NEXT, "realloc");
    return is_refused() ? NULL : next(from, size);
}
/* Tells how many allocations there were. */
__attribute__((destructor)) static void count_allocations(void) {
    if (!getenv("ALLOCATIONS")) return;
    int told = open(getenv("ALLOCATIONS"), O_WRONLY | O_CREAT | O_TRUNC, 0600);
    char text[32];
    if (told < 0 || pwrite(told, text, snprintf(text, sizeof text, "%ld", allocations), 0) < 0) abort();
}
ssize_t write(int handle, const void *from, size_t count) {
    static ssize_t (*next)(int, const void *, size_t);
    if (!next) next = dlsym(RTLD_NEXT, "write");
    int file = file_of(handle);
    if (file == 0 || file == 1) abort();
    ssize_t done = next(handle, from, count);
    if (handle == 1 && done > 0) note(TOLD, -1, 0, from, done);
    return done;
}
"""
Call = collections.namedtuple("Call", "kind file at count bytes")


class Watched:
    """The program on one file, with the library that watches its calls."""

    def __init__(self, folder):
        self.folder, self.file, self.notes = folder, os.path.join(folder, "desk"), os.path.join(folder, "calls")
        self.library = os.path.join(folder, "watched.so")
        with open(os.path.join(folder, "watched.c"), "w", encoding="utf-8") as source:
            source.write(WATCHED)
        subprocess.run(["gcc", "-shared", "-fPIC", "-O1", "-o", self.library, source.name, "-ldl"], check=True)

    def run(self, word, sent=b"", **poor):
        return run(word, self.file, sent=sent, LD_PRELOAD=self.library, DESK_FILE=self.file, **poor)

    def calls_of(self, word, sent=b""):
        """How a run ends, and the calls that it made."""
        if os.path.exists(self.notes):
            os.remove(self.notes)
        end = self.run(word, sent, CALLS=self.notes)
        if not os.path.exists(self.notes):
            return end, []
        with open(self.notes, "rb") as notes:
            return end, list(calls_in(notes.read()))

    def put(self, held):
        """Has the files hold this, and be absent where it is None."""
        for end, it in zip(("", "-wal"), held):
            if os.path.exists(self.file + end):
                os.remove(self.file + end)
            if it is not None:
                with open(self.file + end, "wb") as file:
                    file.write(it)


def calls_in(notes):
    at = 0
    while at < len(notes):
        kind, file, place, count = struct.unpack_from("qqqq", notes, at)
        at += 32
        end = at + count if kind in (WRITTEN, TOLD) else at
        yield Call(kind, file, place, count, notes[at:end])
        at = end


def applied(held, calls):
    """What a file that held this holds after these calls of it."""
    if not calls:
        return held
    held = bytearray(held or b"")
    for call in calls:
        if call.kind == WRITTEN:
            held.extend(bytes(max(0, call.at - len(held))))
            held[call.at : call.at + len(call.bytes)] = call.bytes
        elif call.kind == CUT:
            del held[call.at :]
            held.extend(bytes(call.at - len(held)))
    return bytes(held)


def states_of(calls, drawn, held=None):
    """What a stop after these calls of one file, which held this before, may leave of it, the plain outcome first."""
    last = max((at for at, call in enumerate(calls) if call.kind == SYNCED), default=-1) + 1
    settled, loose = applied(held, calls[:last]), calls[last:]
    yield applied(settled, loose)
    if not loose:
        return
    yield settled if last or held is not None else b""
    for at in range(len(loose)):
        yield applied(settled, loose[:at] + loose[at + 1 :])
    if loose[-1].kind == WRITTEN and loose[-1].count > 1:
        torn = loose[-1]._replace(bytes=loose[-1].bytes[: drawn.randrange(1, loose[-1].count)])
        yield applied(settled, loose[:-1] + [torn])


def stops(calls, seed, held=(None, None)):
    """Each different pair of files that a stop may leave of these: after how many calls, whether it is what these left, the files, and what had come out."""
    drawn, seen = random.Random(seed), set()
    for k in range(len(calls) + 1):
        each = [list(states_of([call for call in calls[:k] if call.file == file], drawn, held[file])) for file in (0, 1)]
        told = b"".join(call.bytes for call in calls[:k] if call.kind == TOLD)
        pairs = [(it, each[1][0]) for it in each[0]] + [(each[0][0], it) for it in each[1][1:]]
        pairs += [(each[0][1], each[1][1])] if len(each[0]) > 1 and len(each[1]) > 1 else []
        for pair in pairs:
            key = hash((*pair, told))
            if key not in seen:
                seen.add(key)
                yield k, pair is pairs[0], pair, told
