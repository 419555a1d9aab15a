"""How a run of the program must end, by bench/model and its rules of docs/use/script.md.

An end is an exit status, what was said on standard error and what was written. The status is None
where the run didn't end in its time and was stopped.
"""
import os
import pathlib
import re
import subprocess
import sys

sys.path.insert(0, str(pathlib.Path(__file__).resolve().parent / "model"))

import orders
from lines import first_bad_line
from runs import Run
from script import parse
from values import Full, Refused

FULL = re.compile(rb"linx_sim: journal full after step [1-9][0-9]*, by the limit of "
                  rb"(200000 steps|67108864 bytes of signals)\n")
REASON = (rb"(the script is longer than 1,048,576 bytes|the line is longer than 4,096 bytes|"
          rb"the line has a byte that is no printable character|"
          rb"no statement begins with this word here|a word is wrong, missing or one too many|"
          rb"no node or link has this name here|this name stands twice|"
          rb"this is more than a script may have|an `end` is missing behind this line)"
          rb"(: [ -~]{1,64})?")


def ended(command, script, seconds, **options):
    """How a command ends on these bytes, at most so many seconds after it began."""
    try:
        ran = subprocess.run(command, input=script, capture_output=True, timeout=seconds,
                             check=False, **options)
    except subprocess.TimeoutExpired:
        return None, b"", b""
    return ran.returncode, ran.stderr, ran.stdout


def is_script(script):
    """Whether these bytes are a script."""
    return first_bad_line(script) is None


def model_of(script):
    """The model's run of a script, before its first turn."""
    return Run(parse(script.decode("ascii")))


def serial_end(script):
    """How `serial` must end on these bytes; what is said of a bad line has any reason."""
    bad = first_bad_line(script)
    if bad is not None:
        return 2, re.compile(rb"linx_sim: script line %d: " % bad + REASON + rb"\n"), b""
    try:
        return 0, b"", orders.play_fixed(model_of(script)).encode()
    except Full as full:
        return 5, b"linx_sim: %s\n" % str(full).encode(), b""


def ending(end):
    """How a run ended, in words."""
    return "didn't end in its time" if end[0] is None else f"ended with {end[0]}"


def is_said(said, wanted):
    """Whether this is said where that is wanted: these bytes, or any that a pattern has."""
    return wanted.fullmatch(said) if isinstance(wanted, re.Pattern) else said == wanted


def difference(end, wanted):
    """What is wrong with an end where another is wanted, or None; a wanted text of None is any."""
    status, said, text = wanted
    if end[0] != status:
        return f"{ending(end)}, and should have with {status}"
    if not is_said(end[1], said):
        return f"said {end[1]!r}, not {said!r}"
    if text is not None and end[2] != text:
        same = len(os.path.commonprefix([end[2], text]))
        return f"wrote {len(end[2])} bytes in place of {len(text)}, right up to byte {same}"
    return None


def wrong_in_order(script, end, any_step=False):
    """What is wrong with how `serial` ended on these bytes, or None.

    Where any step will do, a journal that is full may be so after any step, and by either limit.
    """
    try:
        status, said, text = serial_end(script)
        if any_step and status == 5 and FULL.fullmatch(end[1]):
            said = end[1]
        return difference(end, (status, said, text))
    except Refused as reason:
        return f"the model refuses the script: {reason}"


def makers_of(text):
    """Who made each step of a text's journal."""
    lines = text[text.find("journal "):].split("\n")[1:-1] if text else []
    return [line.partition(" ")[2].partition(" ")[0] for line in lines if not line.startswith("+ ")]


def wrong_in_threads(script, end):
    """What is wrong with how `run` ended on these bytes of a script, or None.

    The text must be the one of the model that takes its turns in the order of this text's journal.
    A full journal isn't written, so it has no order that is known: it is right where the model's
    is full in the fixed order.
    """
    if end[:2] != (0, b""):
        return wrong_in_order(script, end, any_step=True)
    try:
        text = model_of(script).replay(makers_of(end[2].decode("ascii", "replace")))
    except Refused as reason:
        return str(reason)
    return None if text.encode() == end[2] else "its text isn't the model's in this order"


def wrong_when_judged(program, script, end, seconds):
    """What the program's words `check` and `replay` find wrong with the text of a run, or None."""
    status, _, text = end
    if status != 0:
        return None
    steps = len(makers_of(text.decode("ascii", "replace")))
    for word, said in ("check", "legal"), ("replay", "same"):
        judged = ended([program, word], script + b"text\n" + text, seconds)
        wrong = difference(judged, (0, b"", b"%s %d\n" % (said.encode(), steps)))
        if wrong:
            return f"{word}: {wrong}"
    return None
