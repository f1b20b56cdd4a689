#!/usr/bin/env python3
"""Refuses each allocation of a run of htn in turn, from outside: `refused_memory.py WORD..`, the words of the run, in a folder that has its
inputs and nothing else. A first turn refuses one allocation, a second one that and all behind it. Wants a C compiler and glibc, and htn at the
top of the repository, as examples/transport/run leaves it, or at $HTN.

Each run must answer as it does with ample memory, files included, or end with status 5 and this:
- standard error got `out of memory`, or nothing, as where the arguments are not to be had;
- the outputs are as they were, or the first alone is whole, or all are;
- standard output got the beginning of its text where all outputs are whole, and else nothing;
- no other file of the folder changed, and none came.

Prints a line for each turn: the status with ample memory, how many allocations there are, and what came of the refusals. Ends with 1 where
one of them was answered otherwise."""
import os
import pathlib
import subprocess
import sys
import tempfile

REFUSING = r"""
#include <errno.h>
#include <stddef.h>
#include <stdlib.h>
#include <unistd.h>
void *__libc_malloc(size_t), *__libc_calloc(size_t, size_t), *__libc_realloc(void *, size_t), *__libc_memalign(size_t, size_t);
static long count, refused = -1, behind;
static long number(const char *name) { char *at = getenv(name); return at ? atol(at) : 0; }
static int refuses(void) {
    if (refused < 0) { refused = number("REFUSED"); behind = number("REFUSED_BEHIND"); }
    ++count;
    return count == refused || (behind && refused && count > refused);
}
void *malloc(size_t size) { return refuses() ? 0 : __libc_malloc(size); }
void *calloc(size_t items, size_t size) { return refuses() ? 0 : __libc_calloc(items, size); }
void *realloc(void *old, size_t size) { return refuses() ? 0 : __libc_realloc(old, size); }
void *aligned_alloc(size_t alignment, size_t size) { return refuses() ? 0 : __libc_memalign(alignment, size); }
int posix_memalign(void **at, size_t alignment, size_t size) {
    void *found = refuses() ? 0 : __libc_memalign(alignment, size);
    if (found) *at = found;
    return found ? 0 : ENOMEM;
}
__attribute__((destructor)) static void reached(void) { if (count < refused) _exit(99); }
"""
OLD = b"; as it was\n"
NOT_REACHED = 99

top = pathlib.Path(__file__).resolve().parent.parent
program = os.path.abspath(os.environ.get("HTN", top / "htn"))
words = sys.argv[1:]
outputs = {"translate": words[3:5], "make": words[2:4], "prune": words[3:5]}.get(words[0], [])


def files():
    """What the files of the folder hold."""
    return {path.name: path.read_bytes() for path in pathlib.Path(".").iterdir()}


def run(library, refused, behind):
    """Runs htn over outputs that are as they were: its status, what the streams got, and the files."""
    for name in outputs:
        pathlib.Path(name).write_bytes(OLD)
    env = dict(os.environ, LD_PRELOAD=library, REFUSED=str(refused), REFUSED_BEHIND=str(int(behind)))
    ended = subprocess.run([program] + words, capture_output=True, env=env)
    return ended.returncode, ended.stdout, ended.stderr, files()


def is_want(ended, ample):
    """Whether a run ended as one may that wants memory."""
    status, out, err, held = ended
    whole = dict(ample[3])
    left = [{**whole, **dict.fromkeys(outputs[stood:], OLD)} for stood in range(len(outputs) + 1)]
    begun = out == b"" or (held == left[-1] and ample[1].startswith(out))
    return status == 5 and err in (b"", b"out of memory\n") and held in left and begun


def turn(library, ample, behind):
    """Refuses each allocation; answers whether all went well."""
    told, silent, survived, wrong, written, refused = 0, 0, 0, 0, 0, 1
    while (ended := run(library, refused, behind))[0] != NOT_REACHED:
        if ended == ample:
            survived += 1
        elif is_want(ended, ample):
            told, silent = told + (ended[2] != b""), silent + (ended[2] == b"")
            written += any(ended[3][name] != OLD for name in outputs)
        else:
            wrong += 1
            print(f"allocation {refused}: status {ended[0]}, {ended[1]!r}, {ended[2]!r}")
        refused += 1
    which = "with all behind it" if behind else "alone"
    print(f"{' '.join(words)}: status {ample[0]}; each of {refused - 1} allocations refused {which}: {told} told, {silent} silent,"
          f" {survived} survived, {wrong} wrong; something was written in {written}")
    return wrong == 0


with tempfile.TemporaryDirectory() as folder:
    source, library = os.path.join(folder, "refusing.c"), os.path.join(folder, "refusing.so")
    with open(source, "w") as file:
        file.write(REFUSING)
    subprocess.run(["cc", "-shared", "-fPIC", "-fno-builtin", "-o", library, source], check=True)
    ample = run(library, 0, False)
    right = [turn(library, ample, behind) for behind in (False, True)]
sys.exit(not all(right))
