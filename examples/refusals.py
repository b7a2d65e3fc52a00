#!/usr/bin/env python3
"""Refuses each allocation of a run of the built `rcp replay` in turn, for one feed.

    refusals.py PROGRAM FEED

The program is the built one, `crates/rcp/out/rcp`. A run that refuses nothing comes first. Then there is a run for each allocation that
it made, which refuses that one alone. Such a run has to end with status 7, the line `rcp: no memory` and a front of the whole output
that ends after a whole record, or just as the run that refuses nothing. The last line counts both; the status is 1 where a run ended otherwise.

Allocations are counted by a small library in C, which `cc` builds and the loader puts in front of the C library's own functions.
The toolchain's `rt try --fail-alloc N -- replay < FEED` in `crates/rcp` does the same for one allocation, in a build with checks.
"""

import os
import subprocess
import sys
import tempfile

COUNTING = r"""
#include <stddef.h>
#include <stdio.h>
#include <stdlib.h>

void *__libc_malloc(size_t);
void *__libc_calloc(size_t, size_t);
void *__libc_realloc(void *, size_t);

static long calls, refused = -1;

static int is_refused(void) {
    if (refused < 0) {
        const char *text = getenv("REFUSED");
        refused = text ? atol(text) : 0;
    }
    return __sync_add_and_fetch(&calls, 1) == refused;
}

void *malloc(size_t size) { return is_refused() ? NULL : __libc_malloc(size); }
void *calloc(size_t count, size_t size) { return is_refused() ? NULL : __libc_calloc(count, size); }
void *realloc(void *old, size_t size) { return is_refused() ? NULL : __libc_realloc(old, size); }

__attribute__((destructor)) static void report(void) {
    long count = calls;
    FILE *file = fopen(getenv("COUNTED"), "w");
    fprintf(file, "%ld", count);
    fclose(file);
}
"""


def built(folder):
    source, library = os.path.join(folder, "counting.c"), os.path.join(folder, "counting.so")
    with open(source, "w") as file:
        file.write(COUNTING)
    subprocess.run(["cc", "-O2", "-shared", "-fPIC", "-o", library, source], check=True)
    return library


def run(program, feed, library, folder, refused):
    """The status, what was written, the lines of standard error, and how many allocations there were."""
    counted = os.path.join(folder, "counted")
    environment = {"LD_PRELOAD": library, "REFUSED": str(refused), "COUNTED": counted}
    ended = subprocess.run([program, "replay"], input=feed, capture_output=True, env=environment, timeout=60)
    with open(counted) as file:
        count = int(file.read())
    os.remove(counted)
    return ended.returncode, ended.stdout, ended.stderr, count


def ends_whole(octets):
    """Whether the octets are whole records: a letter, a connection, a length, and as many octets."""
    place = 0
    while place + 9 <= len(octets):
        place += 9 + int.from_bytes(octets[place + 5 : place + 9], "big")
    return place == len(octets)


def main():
    program = os.path.abspath(sys.argv[1])
    with open(sys.argv[2], "rb") as file:
        feed = file.read()
    with tempfile.TemporaryDirectory() as folder:
        library = built(folder)
        whole = run(program, feed, library, folder, 0)
        no_memory, same, fronts, wrong = 0, 0, set(), 0
        for number in range(1, whole[3] + 1):
            status, written, errors, _ = run(program, feed, library, folder, number)
            front = whole[1].startswith(written) and ends_whole(written)
            if status == 7 and errors == b"rcp: no memory\n" and front:
                no_memory += 1
                fronts.add(len(written))
            elif (status, written, errors) == whole[:3]:
                same += 1
            else:
                wrong += 1
                print(f"allocation {number}: status {status}, {len(written)} octets, {errors!r}")
        print(
            f"{whole[3]} allocations, {len(whole[1])} octets of output: {no_memory} runs without memory after "
            f"{sorted(fronts)} octets, {same} as if nothing was refused, {wrong} otherwise"
        )
    sys.exit(1 if wrong else 0)


main()
