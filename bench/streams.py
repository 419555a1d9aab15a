#!/usr/bin/env python3
"""Runs the built program on streams that fail, that end early or that move a few bytes at a time.

Each row says how the run must end: its exit status, its line on standard error, and what the reader
of its output has. The texts are those that stand beside the examples or that bench/model writes,
and of a script that is cut off the line is the first bad one by bench/model. Each run has ten
seconds, and is ended with 124 then. Prints how many rows were as they should be, and each one that
wasn't.

    bench/try streams [PROGRAM]
"""
import contextlib
import os
import pathlib
import resource
import signal
import subprocess
import sys
import tempfile

sys.dont_write_bytecode = True

import arguments
import judge

EXAMPLE = pathlib.Path(__file__).resolve().parent.parent / "examples/link.linx"
SCRIPT, TEXT = EXAMPLE.read_bytes(), EXAMPLE.with_suffix(".txt").read_bytes()
LARGE = b"node n\nactor p n\nopen a\nrepeat 9990\nsend self 5\nrecv any\nend\nend\n"
SECONDS = 10
READ_FAULT = 3, b"linx_sim: read fault\n", b""


def write_fault(front):
    """How a run ends where no more than this front of its text can be written."""
    return 4, b"linx_sim: write fault\n", front


def done(text):
    """How a run ends that is done and has written this, or anything."""
    return 0, b"", text


def run(program, words, before=None, **streams):
    """Starts the program for at most so many seconds; `before` is called before it begins."""
    return subprocess.Popen(["timeout", str(SECONDS), program, *words], stderr=subprocess.PIPE,
                            preexec_fn=before, **streams)


def ended(started):
    """The exit status and the standard error of a started program."""
    said = started.stderr.read()
    return started.wait(), said


@contextlib.contextmanager
def file_with(data):
    """A file with these bytes, open for reading."""
    with tempfile.TemporaryFile() as opened:
        opened.write(data)
        opened.seek(0)
        yield opened


def closed(number):
    """Closes a stream of the program before it begins."""
    return lambda: os.close(number)


def write_only(program, words):
    """Standard input is open for writing alone."""
    with open(os.devnull, "wb") as given:
        return *ended(run(program, words, stdin=given, stdout=subprocess.DEVNULL)), b""


def closed_input(program, words):
    """Standard input is closed."""
    return *ended(run(program, words, closed(0), stdout=subprocess.DEVNULL)), b""


def directory(program, words):
    """Standard input is a directory."""
    given = os.open("/", os.O_RDONLY)
    started = run(program, words, stdin=given, stdout=subprocess.PIPE)
    os.close(given)
    return *ended(started), started.stdout.read()


def never_ready(program, words):
    """Standard input is a pipe that doesn't wait, and has nothing."""
    reader, writer = os.pipe()
    os.set_blocking(reader, False)
    started = run(program, words, stdin=reader, stdout=subprocess.PIPE)
    try:
        return *ended(started), started.stdout.read()
    finally:
        os.close(reader)
        os.close(writer)


def fed(program, words, script, step):
    """Standard input is a pipe into which a few bytes come at a time; all of them, or a part."""
    started = run(program, words, stdin=subprocess.PIPE, stdout=subprocess.PIPE)
    with contextlib.suppress(BrokenPipeError), started.stdin as given:
        for at in range(0, len(script), step):
            given.write(script[at:at + step])
            given.flush()
    text = started.stdout.read()
    return *ended(started), text


def closed_output(program, words):
    """Standard output is closed."""
    with file_with(SCRIPT) as given:
        return *ended(run(program, words, closed(1), stdin=given)), b""


def full_output(program, words):
    """Standard output takes nothing."""
    with file_with(SCRIPT) as given, open("/dev/full", "wb") as full:
        return *ended(run(program, words, stdin=given, stdout=full)), b""


def read_only(program, words):
    """Standard output is open for reading alone."""
    with file_with(SCRIPT) as given, open(os.devnull, "rb") as wrong:
        return *ended(run(program, words, stdin=given, stdout=wrong)), b""


def limited(program, words, most):
    """Standard output is a file that may have so many bytes; the signal of that is ignored."""
    def limit():
        signal.signal(signal.SIGXFSZ, signal.SIG_IGN)
        resource.setrlimit(resource.RLIMIT_FSIZE, (most, most))

    with file_with(SCRIPT) as given, tempfile.TemporaryFile() as written:
        status = ended(run(program, words, limit, stdin=given, stdout=written))
        written.seek(0)
        return *status, written.read()


def read_slowly(program, words, most):
    """The reader of the output takes so many bytes, a few at a time, and then closes it."""
    reader, writer = os.pipe()
    with file_with(LARGE) as given:
        started = run(program, words, stdin=given, stdout=writer)
    os.close(writer)
    text = b""
    while len(text) < most:
        part = os.read(reader, min(1000, most - len(text)))
        if not part:
            break
        text += part
    os.close(reader)
    return *ended(started), text


def never_taken(program, words):
    """Standard output is a pipe that doesn't wait, and that nobody reads."""
    reader, writer = os.pipe()
    os.set_blocking(writer, False)
    with file_with(LARGE) as given:
        started = run(program, words, stdin=given, stdout=writer)
    os.close(writer)
    status = ended(started)
    text = os.read(reader, 2**20)
    os.close(reader)
    return *status, text


def input_rows(program):
    """Each row of inputs: its name, what it runs, and how that must end."""
    word, gen = ["serial"], ["gen", "7"]
    yield "input open for writing alone", lambda: write_only(program, word), READ_FAULT
    yield "closed input", lambda: closed_input(program, word), READ_FAULT
    yield "a directory as input", lambda: directory(program, word), READ_FAULT
    yield "input that is never ready", lambda: never_ready(program, word), READ_FAULT
    yield "a directory that isn't read", lambda: directory(program, gen), done(None)
    yield "closed input that isn't read", lambda: closed_input(program, gen), done(None)
    for step in (1, 2, 3, 100):
        yield f"{step} bytes at a time", lambda n=step: fed(program, word, SCRIPT, n), done(TEXT)
    for most in (len(SCRIPT) // 2, len(SCRIPT) - 5):
        front = SCRIPT[:most]
        yield (f"the first {most} bytes", lambda part=front: fed(program, word, part, 7),
               judge.serial_end(front))


def output_rows(program):
    """Each row of outputs, in the same way."""
    word, (_, _, whole) = ["serial"], judge.serial_end(LARGE)
    yield "closed output", lambda: closed_output(program, word), write_fault(b"")
    yield "output that takes nothing", lambda: full_output(program, word), write_fault(b"")
    yield "output open for reading alone", lambda: read_only(program, word), write_fault(b"")
    for most in (0, 1, 1000, len(TEXT) - 1):
        yield (f"room for {most} bytes", lambda n=most: limited(program, word, n),
               write_fault(TEXT[:most]))
    yield "just room enough", lambda: limited(program, word, len(TEXT)), done(TEXT)
    for most in (0, 1, 70_000):
        yield (f"{most} bytes are read", lambda n=most: read_slowly(program, word, n),
               write_fault(whole[:most]))
    yield ("all is read slowly", lambda: read_slowly(program, word, len(whole) + 1),
           done(whole))
    yield ("output that is never taken", lambda: never_taken(program, word),
           write_fault(whole[:2**16]))


def main():
    """Runs all rows."""
    parser = arguments.parser(__doc__)
    arguments.add_program(parser)
    program = arguments.found_program(parser, parser.parse_args())
    count, wrongs = 0, []
    for name, runs, wanted in [*input_rows(program), *output_rows(program)]:
        count += 1
        wrong = judge.difference(runs(), wanted)
        if wrong:
            wrongs.append(f"{name}: {wrong}")
    print(f"{count - len(wrongs)} of {count} rows of streams as they should be")
    for wrong in wrongs:
        print(f"wrong: {wrong}")
    return 1 if wrongs else 0


if __name__ == "__main__":
    sys.exit(main())
