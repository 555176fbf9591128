#!/usr/bin/env python3
"""Fails one allocation of `conform` after another: bench/memory.py [PROGRAM].

A preloaded library, which is built here by cc, lets the Nth allocation fail, for each N up to the number that a whole run makes. Each
run has to end with status 5 and a prefix of the whole output, or with 0 and the whole output. Each row is a command, with how many
numbers were tried and how many runs did otherwise, which is to be none; it ends with status 1 where one did. Nothing here is part of the
gate.
"""

import os
import subprocess
import sys
import tempfile

from measure import TOP, Bounds, program

SHIM = r"""
#define _GNU_SOURCE
#include <dlfcn.h>
#include <errno.h>
#include <fcntl.h>
#include <stddef.h>
#include <stdlib.h>
#include <sys/mman.h>

static long number, here, *count = &here;

/* The count stands in a file of eight bytes, since the program may end without a word. */
__attribute__((constructor)) static void begin(void) {
    const char *word = getenv("FAILING"), *path = getenv("COUNT");
    number = word ? atol(word) : 0;
    int file = path ? open(path, O_RDWR) : -1;
    void *mapped = file < 0 ? MAP_FAILED : mmap(NULL, sizeof(long), PROT_READ | PROT_WRITE, MAP_SHARED, file, 0);
    if (mapped != MAP_FAILED) count = mapped;
}

static int fails(void) { return __atomic_add_fetch(count, 1, __ATOMIC_SEQ_CST) == number; }

void *malloc(size_t size) {
    static void *(*real)(size_t);
    if (!real) real = (void *(*)(size_t))dlsym(RTLD_NEXT, "malloc");
    if (fails()) { errno = ENOMEM; return NULL; }
    return real(size);
}

void *realloc(void *old, size_t size) {
    static void *(*real)(void *, size_t);
    if (!real) real = (void *(*)(void *, size_t))dlsym(RTLD_NEXT, "realloc");
    if (fails()) { errno = ENOMEM; return NULL; }
    return real(old, size);
}

void *aligned_alloc(size_t align, size_t size) {
    static void *(*real)(size_t, size_t);
    if (!real) real = (void *(*)(size_t, size_t))dlsym(RTLD_NEXT, "aligned_alloc");
    if (fails()) { errno = ENOMEM; return NULL; }
    return real(align, size);
}

int posix_memalign(void **result, size_t align, size_t size) {
    static int (*real)(void **, size_t, size_t);
    if (!real) real = (int (*)(void **, size_t, size_t))dlsym(RTLD_NEXT, "posix_memalign");
    if (fails()) return ENOMEM;
    return real(result, align, size);
}
"""


def example(name):
    return os.path.join(TOP, "examples", name)


# A text for `member` and a suite for `check`, in a folder that each script has.
TEXT = os.path.join(TOP, "bench", "out", "text")
SUITE = os.path.join(TOP, "bench", "out", "suite")
COMMANDS = [
    ["rules", example("g1.y")],
    ["rules", example("calculator.y")],
    ["suite", example("g1.y"), example("l1.l"), "--bases=2", "--format=1"],
    ["suite", example("g1.y"), example("l1.l"), "--bases=2", "--weigh=bytes"],
    ["suite", example("lists.y"), example("lists.l"), "--criteria=rule", "--bases=1"],
    ["lexical", example("lists.y"), example("lists.l")],
    ["spell", example("lists.y"), example("lists.l"), "--weigh=bytes"],
    ["member", example("g1.y"), example("l1.l"), TEXT],
    ["deep", example("g1.y"), example("l1.l"), "--criteria=rule", "--bases=2"],
    ["wrong", example("g1.y"), example("l1.l")],
    ["chains", example("g1.y")],
    ["chains", example("g1.y"), example("l1.l")],
    ["check", example("g1.y"), example("l1.l"), SUITE],
    ["gen", "1"],
]


def run(path, library, words, number, counter):
    """A run whose allocation of this number fails: what it came to, and how many it made."""
    with open(counter, "wb") as file:
        file.write(bytes(8))
    environment = {**os.environ, "LD_PRELOAD": library, "FAILING": str(number), "COUNT": counter}
    done = subprocess.run([path, *words], capture_output=True, env=environment)
    with open(counter, "rb") as file:
        return done, int.from_bytes(file.read(), sys.byteorder)


def tried(path, library, words, counter):
    """How many numbers were tried, how many of the runs ended for want of memory, and what went otherwise."""
    first, count = run(path, library, words, 0, counter)
    whole, wrong, wanting = first.stdout, [], 0
    for number in range(1, count + 1):
        done, _ = run(path, library, words, number, counter)
        wanting += done.returncode == 5
        good = done.stdout == whole if done.returncode == 0 else done.returncode == 5 and whole.startswith(done.stdout)
        if not good:
            wrong.append(f"number {number}: status {done.returncode}, {len(done.stdout)} bytes, {done.stderr!r}")
    return count, wanting, wrong


def put_files(path):
    os.makedirs(os.path.dirname(TEXT), exist_ok=True)
    with open(TEXT, "w") as file:
        file.write("( 0 + 0 )")
    with open(SUITE, "wb") as file:
        subprocess.run([path, "suite", example("g1.y"), example("l1.l"), "--bases=2"], stdout=file, check=True)


def main():
    path, bounds = program(), Bounds()
    with tempfile.TemporaryDirectory() as folder:
        source, library = os.path.join(folder, "failing.c"), os.path.join(folder, "failing.so")
        with open(source, "w") as file:
            file.write(SHIM)
        subprocess.run(["cc", "-O1", "-shared", "-fPIC", "-o", library, source, "-ldl"], check=True)
        put_files(path)
        for words in COMMANDS:
            number, wanting, wrong = tried(path, library, words, os.path.join(folder, "count"))
            names = " ".join(os.path.basename(word) for word in words)
            bounds.row(f"{names}: {number} numbers tried, {wanting} ended for want of memory, wrong", len(wrong), 0, "runs")
            for line in wrong[:10]:
                print(f"  {line}", flush=True)
    bounds.end()


if __name__ == "__main__":
    main()
