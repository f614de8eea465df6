#!/usr/bin/env python3
"""Measures searches by a pattern through the editor beside GNU ed, sed and vim, on 1,000,000 lines of 50 bytes made by
bench/lines.py: the search that finds the last line, `g` that prints, `g` with `s`, and `s` on all lines. Processor seconds of
user and system, the least of two runs; what takes more than 20 of them is left out, and so is GNU ed where `g` changes lines, which takes
it a time that grows with their square. The last table is of 10,000 searches by one pattern.

    searches.py [--built | --unproved PROGRAM]
"""
import os
import resource
import subprocess
import sys
import tempfile

HERE = os.path.dirname(os.path.abspath(__file__))
sys.dont_write_bytecode = True
sys.path.insert(1, os.path.join(HERE, ".."))
import build  # noqa: E402 (its folder is told first)
from lines import many  # noqa: E402

PROGRAM, MARK, _ = build.chosen("ed_main", sys.argv[1:])
# In seconds of processor time, whatever else the machine does: a run that takes longer is ended.
LIMIT = 20
PATTERNS = [r"needle", r"[0-9][0-9]*", r"x.*y.*z", r"[0-9]\{3,5\} [a-z]*$", r"\([a-z]*\) \([a-z]*\) foo"]


def seconds(words, script):
    """The least processor time of two runs; None where a run was ended, or there is no such program."""
    limited = lambda: resource.setrlimit(resource.RLIMIT_CPU, (LIMIT, LIMIT))
    least = None
    for _ in range(2):
        before = resource.getrusage(resource.RUSAGE_CHILDREN)
        try:
            done = subprocess.run(words, input=script, stdout=subprocess.DEVNULL, stderr=subprocess.DEVNULL, preexec_fn=limited)
        except FileNotFoundError:
            return None
        if done.returncode < 0:
            return None
        after = resource.getrusage(resource.RUSAGE_CHILDREN)
        took = after.ru_utime - before.ru_utime + after.ru_stime - before.ru_stime
        least = took if least is None else min(least, took)
    return least


def shown(took):
    return "     -" if took is None else f"{took:6.2f}"


def rows(pattern):
    yield f"/{pattern}/ to the last line", f"1\n/^END {pattern}/=\nQ\n", f"/^END {pattern}/=", f"/^END {pattern}/="
    yield f"g/{pattern}/p", f"g/{pattern}/p\nQ\n", f"/{pattern}/p", f"g/{pattern}/p"
    yield f"g/{pattern}/s//x/", f"g/{pattern}/s//x/\nQ\n", f"s/{pattern}/x/", f"g/{pattern}/s//x/"
    yield f"1,$s/{pattern}/x/", f"1,$s/{pattern}/x/\nQ\n", f"s/{pattern}/x/", f"%s/{pattern}/x/"


# Which every second line matches, which every twelfth, and every forty-third.
OFTEN = [r"x.*y", r"x.*y.*z.*q", r"zx.*q"]


def repeated(lines):
    """10,000 searches, each from the line that the one before has found."""
    for pattern in OFTEN:
        script = "1\n" + f"/{pattern}/\n" * 10_000 + "Q\n"
        ours = seconds([PROGRAM, "edit", "-s", lines], script.encode())
        ed = seconds(["ed", "-s", lines], script.encode())
        vim = seconds(["vim", "-es", "-u", "NONE", "-N", lines], script.replace("Q\n", "q!\n").encode())
        print(f"{shown(ours)} {shown(None)} {shown(ed)} {shown(vim)}  10,000 times /{pattern}/", flush=True)
    started = seconds([PROGRAM, "edit", "-s", lines], b"Q\n"), seconds(["ed", "-s", lines], b"Q\n")
    print(f"{shown(started[0])} {shown(None)} {shown(started[1])} {shown(None)}  no command", flush=True)


def main():
    environment_is_c = os.environ.setdefault("LC_ALL", "C")
    with tempfile.TemporaryDirectory() as folder:
        lines = os.path.join(folder, "lines")
        with open(lines, "w") as file:
            file.write("".join(many()) * 5 + "END needle 12345 x y z ab cd foo 777 abc\n")
        print(f"\n{MARK}Searches by patterns, through 1,000,000 lines of 50 bytes")
        print(f"processor seconds, locale {environment_is_c}; ours, sed, GNU ed, vim")
        for pattern in PATTERNS:
            for name, script, by_sed, by_vim in rows(pattern):
                ours = seconds([PROGRAM, "edit", "-s", lines], script.encode())
                sed = seconds(["sed", "-n", by_sed, lines], b"")
                ed = None if "/s//" in name else seconds(["ed", "-s", lines], script.encode())
                vim = seconds(["vim", "-es", "-u", "NONE", "-N", "-c", by_vim, "-c", "q!", lines], b"")
                print(f"{shown(ours)} {shown(sed)} {shown(ed)} {shown(vim)}  {name}", flush=True)
        repeated(lines)


main()
