"""Reads a run of measure.py."""
import collections
import re

ROW = re.compile(r"(.*) \((lines|hunks|commands|bytes)\)$")
FIGURE = re.compile(r" +(\d+) (\w+) +(ended after )?([\d.]+) s\b")
GROWTH = re.compile(r" +growth of (\w+): n\^([\d.-]+)$")


def rows_of(path):
    """The lines at the head of a run, and its rows: the title, the unit, by program sizes with seconds and whether it was ended then, and by
    program the exponent by which it grows."""
    head, rows, row, growth = [], [], None, None
    with open(path, encoding="utf-8") as lines:
        for line in map(str.rstrip, lines):
            title, figure, grown = ROW.match(line), FIGURE.match(line), GROWTH.match(line)
            if title and not line.startswith(" "):
                row, growth = collections.defaultdict(list), {}
                rows.append((title[1], title[2], row, growth))
            elif figure and row is not None:
                size, program, ended, seconds = figure.groups()
                row[program].append((int(size), float(seconds), ended is not None))
            elif grown and row is not None:
                growth[grown[1]] = grown[2]
            elif not line.startswith(" "):
                row = None
            if not rows and line:
                head.append(line)
    return head, rows
