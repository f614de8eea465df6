#!/usr/bin/env python3
"""Writes the table in the top README from the run that is kept, bench/runs/editor.txt: the seconds of the chosen rows at their largest size,
and the exponent by which ours grow. `table.py --show RUN` prints that of another run instead."""
import re
import sys
import textwrap
from pathlib import Path

sys.dont_write_bytecode = True
from kept import rows_of  # noqa: E402 (bytecode is turned off first)

TOP = Path(__file__).resolve().parents[2]
README = TOP / "README.md"
BEGIN, END = "<!-- What follows is written by `bench/editor/table.py`. -->\n", "<!-- Here the table ends. -->\n"
# The rows that are shown, by a part of their title.
SHOWN = {
    "an update of 300,000 lines": "an update of 300,000 lines as `diff -e` writes it, 20,000 hunks",
    "load, delete a line": "load 2.4 million lines, delete one, write the others",
    "print all lines": "print a million lines",
    "replace a word in each second line": "replace a word in every second line of a million by `g`",
    "exchange two fields": "exchange two fields of each of 200,000 lines by `s`",
    "delete each second line, g/foo/d": "delete every second of 400,000 lines by `g/foo/d`",
    "move each line to the front, g/^/m0": "move each of 400,000 lines to the front by `g/^/m0`",
    "a list of two s": "a list of two `s` in every second of 400,000 lines",
    "u once for each line": "delete 10,000 lines at once, and then 10,000 times `u`",
    "join each line to the first": "join 4,000 lines one by one, `2,$g/^/1,2j`",
}


def cell(figure):
    """Seconds to the hundredth, or to the thousandth below a tenth; or that the program was ended."""
    _, seconds, was_ended = figure
    return "over 20" if was_ended else f"{seconds:.2f}" if seconds >= 0.1 else f"{seconds:.3f}"


def line_of(words, programs, growth):
    largest = {name: figures[-1] for name, figures in programs.items()}
    others = ", ".join(f"`{name}` {cell(figure)}" for name, figure in largest.items() if name not in ("ours", "ed", "busybox"))
    ed = cell(largest["ed"]) if "ed" in largest else ""
    return f"| {words} | {cell(largest['ours'])} | {ed} | {others} | {'n^' + growth['ours'] if 'ours' in growth else ''} |\n"


def table_of(path):
    head, rows = rows_of(path)
    made = f"Processor seconds by size (both axes logarithmic) and at the largest one. {'; '.join(head[:4])}:"
    made = textwrap.fill(made, 140, break_on_hyphens=False) + "\n\n"
    made += "![Processor seconds of each row by size, beside GNU ed, sed, vim and perl](docs/growth.svg)\n\n"
    made += "| Work | Here | GNU ed | Others | Growth |\n|---|---|---|---|---|\n"
    for part, words in SHOWN.items():
        for title, _, programs, growth in rows:
            if part in title:
                made += line_of(words, programs, growth)
    return made


def main():
    if sys.argv[1:2] == ["--show"]:
        print(table_of(sys.argv[2]), end="")
        return
    path = TOP / "bench/runs/editor.txt"
    made = table_of(path)
    if "UNPROVED" in made:
        sys.exit(f"{path} is of an unproved build")
    page = README.read_text(encoding="utf-8")
    README.write_text(re.sub(f"(?s){re.escape(BEGIN)}.*?{re.escape(END)}", lambda _: BEGIN + made + END, page), encoding="utf-8")


main()
