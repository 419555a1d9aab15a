#!/usr/bin/env python3
"""Refuses each call for memory, for a thread, to read and to write of some runs in turn.

A small library in C, which is built with `cc` and loaded before the C library, refuses the call of
a number: of memory and threads that call alone, or it and all behind it; of reads and writes it
fails, is interrupted, or moves one byte. A run without memory is `out of memory` and writes
nothing, or ends as it would have; a read that fails or is interrupted is `read fault`, and such a
write `write fault` behind a front of the text; a short one and a thread that isn't made change
nothing. Each script runs in the fixed order, and with a thread for each actor and each link; there
any text is right that the model has in the order of its journal, and of a front it is only looked
at how it begins. Prints for each how many calls were refused, and the first run that didn't end as
it should.

    bench/try refusals [PROGRAM]
"""
import itertools
import os
import pathlib
import re
import subprocess
import sys
import tempfile

sys.dont_write_bytecode = True

import arguments
import judge

TOP = pathlib.Path(__file__).resolve().parent.parent
EXAMPLES = ["self_send", "hunt_and_attach", "link", "lost_link", "restarted_node", "chain"]
SECONDS = 10
LIBRARY = r"""
#define _GNU_SOURCE
#include <dlfcn.h>
#include <errno.h>
#include <pthread.h>
#include <stdlib.h>
#include <string.h>
#include <sys/syscall.h>
#include <unistd.h>

static long calls;

static const char *said(const char *name) { const char *is = getenv(name); return is ? is : ""; }

/* Whether this call of a kind is refused; then a byte is written that says so. */
static int is_refused(const char *kind) {
    if (strcmp(said("REFUSED_KIND"), kind) != 0) return 0;
    long at = atol(said("REFUSED_CALL"));
    long call = __atomic_add_fetch(&calls, 1, __ATOMIC_SEQ_CST);
    if (call != at && !(call > at && strcmp(said("REFUSED_WAY"), "from") == 0)) return 0;
    syscall(SYS_write, atoi(said("REFUSED_MARK")), "!", 1);
    return 1;
}

void *malloc(size_t size) {
    static void *(*real)(size_t);
    if (!real) real = dlsym(RTLD_NEXT, "malloc");
    return is_refused("memory") ? NULL : real(size);
}

void *realloc(void *old, size_t size) {
    static void *(*real)(void *, size_t);
    if (!real) real = dlsym(RTLD_NEXT, "realloc");
    return is_refused("memory") ? NULL : real(old, size);
}

int pthread_create(pthread_t *made, const pthread_attr_t *how, void *(*what)(void *), void *with) {
    static int (*real)(pthread_t *, const pthread_attr_t *, void *(*)(void *), void *);
    if (!real) real = dlsym(RTLD_NEXT, "pthread_create");
    return is_refused("thread") ? EAGAIN : real(made, how, what, with);
}

/* What a refused read or write does: it fails, or moves one byte. */
static ssize_t moved(long number, int file, void *bytes, size_t size) {
    const char *way = said("REFUSED_WAY");
    if (strcmp(way, "short") == 0) return syscall(number, file, bytes, size ? 1 : 0);
    errno = strcmp(way, "interrupted") == 0 ? EINTR : EIO;
    return -1;
}

ssize_t read(int file, void *bytes, size_t size) {
    if (file == 0 && is_refused("read")) return moved(SYS_read, file, bytes, size);
    return syscall(SYS_read, file, bytes, size);
}

ssize_t write(int file, const void *bytes, size_t size) {
    if (file == 1 && is_refused("write")) return moved(SYS_write, file, (void *)bytes, size);
    return syscall(SYS_write, file, bytes, size);
}
"""
OUT_OF_MEMORY = re.compile(rb"linx_sim: out of memory( after step [1-9][0-9]*)?\n")

WAYS = [("memory", "once"), ("memory", "from"), ("read", "failed"), ("read", "short"),
        ("read", "interrupted"), ("write", "failed"), ("write", "short"), ("write", "interrupted"),
        ("thread", "once"), ("thread", "from")]


def built(folder):
    """The library."""
    source, library = folder / "refuse.c", folder / "refuse.so"
    source.write_text(LIBRARY)
    subprocess.run(["cc", "-O1", "-shared", "-fPIC", "-o", library, source, "-ldl"], check=True)
    return library


def ran(command, script, library, kind, way, call):
    """How a run ended, and whether a call was refused in it."""
    reader, writer = os.pipe()
    refused = {"REFUSED_KIND": kind, "REFUSED_WAY": way, "REFUSED_CALL": str(call),
               "REFUSED_MARK": str(writer), "LD_PRELOAD": str(library)}
    end = judge.ended(command, script, SECONDS, env=refused, pass_fds=[writer])
    os.close(writer)
    was_refused = bool(os.read(reader, 1))
    os.close(reader)
    return end, was_refused


def is_right(kind, way, end, is_whole, is_front):
    """Whether a run with a refused call ended as it should."""
    if kind == "memory" and end[::2] == (6, b"") and OUT_OF_MEMORY.fullmatch(end[1]):
        return True
    if kind in ("memory", "thread") or way == "short":
        return is_whole(end)
    if kind == "read":
        return end == (3, b"linx_sim: read fault\n", b"")
    return end[:2] == (4, b"linx_sim: write fault\n") and is_front(end[2])


def tried(name, command, script, library, is_whole, is_front):
    """Refuses all calls of one script's runs; whether all was right."""
    count, wrong = 0, None
    for kind, way in WAYS:
        for call in itertools.count(1):
            end, was_refused = ran(command, script, library, kind, way, call)
            if not was_refused:
                break
            count += 1
            if not is_right(kind, way, end, is_whole, is_front):
                wrong = wrong or f"{kind}, call {call} {way}: {judge.ending(end)}"
    found = f"wrong: {wrong}" if wrong else "all as they should be"
    print(f"{name}, {command[1]}: {count} refused calls, {found}", flush=True)
    return wrong is None


def tried_in_order(name, program, script, text, library):
    """The same in the fixed order, in which a script has one text."""
    return tried(name, [program, "serial"], script, library, lambda end: end == (0, b"", text),
                 text.startswith)


def tried_in_threads(name, program, script, library):
    """The same in threads, where a text is right if the model has it in this order."""
    return tried(name, [program, "run"], script, library,
                 lambda end: judge.wrong_in_threads(script, end) is None,
                 lambda front: not front or front.startswith(b"log "))


def main():
    """Runs all scripts."""
    parser = arguments.parser(__doc__)
    arguments.add_program(parser)
    program = arguments.found_program(parser, parser.parse_args())
    right = True
    with tempfile.TemporaryDirectory() as folder:
        library = built(pathlib.Path(folder))
        for name in EXAMPLES:
            script = TOP / "examples" / f"{name}.linx"
            text = script.with_suffix(".txt").read_bytes()
            right &= tried_in_order(name, program, script.read_bytes(), text, library)
            right &= tried_in_threads(name, program, script.read_bytes(), library)
    return 0 if right else 1


if __name__ == "__main__":
    sys.exit(main())
