"""Processor time and peak memory of our editor beside `ed`, `sed`, `perl`, `vim` and others, on the same inputs and interleaved.

Each measure is the best of three runs. For each size the table gives seconds of processor time, mebibytes of peak memory
and the ratio to `ed`; the last lines give the exponent by which the time grows from the smallest size to the largest. A run that
takes too long is ended, which its line says, and that program isn't run again in this table.
A peak of some 11 MiB is that of this script, from which each program is started: the program's own lies below it. So nothing here
holds an input in memory.

    measure.py [--built | --unproved PROGRAM] [WORD..]     with words, only what has one of them in its title
"""

import math
import os
import resource
import shutil
import subprocess
import sys
import tempfile

sys.dont_write_bytecode = True
sys.path.insert(1, os.path.join(os.path.dirname(os.path.abspath(__file__)), ".."))
import build  # noqa: E402 (its folder is told first)
from works import WORKS  # noqa: E402

OURS, MARK, WORDS = build.chosen("ed_main", sys.argv[1:])
RUNS = 3

# The program by which apt applies updates. It takes the hunks that `diff -e` writes and nothing else.
RRED = "/usr/lib/apt/methods/rred"

# In seconds of processor time: a run that takes longer is ended.
LIMIT = 20


def measured(words, work):
    """Processor seconds and peak mebibytes of the runs of the work, and whether one of them was ended."""
    seconds, peak, ended = 0.0, 0, False
    for _ in range(work.repeat):
        with open(work.script, "rb") as script, open(os.devnull, "wb") as out:
            limited = lambda: resource.setrlimit(resource.RLIMIT_CPU, (LIMIT, LIMIT))
            child = subprocess.Popen(words + [work.file], stdin=script, stdout=out, stderr=out, preexec_fn=limited)
            _, status, usage = os.wait4(child.pid, 0)
            child.returncode = os.waitstatus_to_exitcode(status)
        seconds += usage.ru_utime + usage.ru_stime
        peak = max(peak, usage.ru_maxrss)
        ended |= os.WIFSIGNALED(status)
    return seconds, peak / 1024, ended


def best(programs, work):
    """The best of the runs of each program, one after the other in turn; a program that was ended isn't run again."""
    result = {name: (math.inf, math.inf, False) for name in programs}
    for _ in range(RUNS):
        for name, words in programs.items():
            if not result[name][2]:
                seconds, peak, ended = measured(words, work)
                result[name] = (min(result[name][0], seconds), min(result[name][1], peak), ended)
    return result


def programs_for(work):
    programs = {"ours": [OURS, "edit", "-s"]}
    if shutil.which("ed"):
        programs["ed"] = ["ed", "-s"]
    if work.sed and shutil.which("sed"):
        programs["sed"] = work.sed
    # Debian's busybox has no `ed`, so its `sed` stands here.
    if work.busybox and shutil.which("busybox"):
        programs["busybox"] = work.busybox
    if work.perl and shutil.which("perl"):
        programs["perl"] = work.perl
    if work.tac and shutil.which("tac"):
        programs["tac"] = ["tac"]
    if work.rred and os.access(RRED, os.X_OK):
        # It reads the file as standard input.
        programs["rred"] = ["sh", "-c", f'exec {RRED} -f "$1" <"$2"', "rred", work.rred]
    if work.patch and shutil.which("patch"):
        # It takes the last line, which is none of diff's, for what stands after the update.
        programs["patch"] = ["patch", "-s", "-e", "-o", os.devnull]
    if work.vim and shutil.which("vim"):
        programs["vim"] = ["vim", "-es", "-u", "NONE", "-n", "-i", "NONE"]
    return programs


def ratio_to_ed(figures, name):
    """How a program's time compares with that of `ed`, where `ed` is there, took any and wasn't ended."""
    if "ed" not in figures or not figures["ed"][0] or figures["ed"][2]:
        return ""
    return f"{figures[name][0] / figures['ed'][0]:6.2f} x ed"


def report(title, works):
    print(MARK + title)
    first, last, slow = {}, {}, set()
    for work in works:
        programs = {name: words for name, words in programs_for(work).items() if name not in slow}
        figures = best(programs, work)
        for name, (seconds, peak, ended) in figures.items():
            if ended:
                print(f"  {work.size:>8} {name:<7} ended after {LIMIT} s, {peak:.1f} MiB by then", flush=True)
                slow.add(name)
                continue
            print(f"  {work.size:>8} {name:<7} {seconds:8.3f} s {peak:8.1f} MiB {ratio_to_ed(figures, name)}".rstrip(), flush=True)
            first.setdefault(name, (work.size, seconds))
            last[name] = (work.size, seconds)
    for name, (size, seconds) in last.items():
        size_before, before = first[name]
        if size > size_before and before > 0 and seconds > 0:
            grows = math.log(seconds / before) / math.log(size / size_before)
            print(f"  growth of {name}: n^{grows:.2f}")


def main():
    if not shutil.which("ed"):
        print("no `ed` on this machine (Debian's package is called ed): our figures stand alone")
    print()
    with tempfile.TemporaryDirectory() as folder:
        for title, work, sizes in WORKS:
            if not WORDS or any(word in title for word in WORDS):
                report(title, (work(folder, size) for size in sizes))


main()
