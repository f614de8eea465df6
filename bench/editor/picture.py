#!/usr/bin/python3
"""Draws how the editor's rows grow as one picture: picture.py [RUN [TO]], where RUN is a run of bench/editor and TO is an SVG.

Without words it takes the run that is kept, bench/runs/editor.txt, and writes docs/growth.svg; a run of an unproved build has to be named
with its TO. It needs Debian's python3-matplotlib. Both axes are
logarithmic, and every panel has the same seconds: a line of slope 1 is linear growth. The same run gives the same bytes."""
import io
import math
import re
import sys
import textwrap
from pathlib import Path

import matplotlib

matplotlib.use("svg")
from matplotlib import pyplot as plots, ticker  # noqa: E402

sys.dont_write_bytecode = True
from kept import rows_of  # noqa: E402

TOP = Path(__file__).resolve().parents[2]
COLUMNS = 4
NAMES = {"ours": "edv", "ed": "GNU ed"}
COLOURS = {"ours": "#b03030", "ed": "#3060a0", "vim": "#308050", "sed": "#c08020", "perl": "#7050a0"}
SECONDS = (0.005, 30)


def rows(path):
    """Returns the date of a run, and its rows, each with its unit, and by program with what is drawn of it."""
    head, found = rows_of(path)
    drawn = [(title, unit, {program: [it for it in row[program] if it[1] > 0] for program in row if program in COLOURS})
             for title, unit, row, _ in found]
    return head[0], [it for it in drawn if any(len(points) > 1 for points in it[2].values())]


def short(size):
    """A size as a label: 12.5k, 400k, 2.4M."""
    return f"{size / 1e6:g}M" if size >= 1e6 else f"{size / 1e3:g}k"


def draw(plot, title, unit, row, has_labels):
    for program, colour in COLOURS.items():
        points = row.get(program, ())
        for ended in (False, True):
            chosen = [(size, seconds) for size, seconds, was_ended in points if was_ended == ended]
            if chosen:
                look = dict(marker="^", linestyle="", markerfacecolor="white") if ended else dict(marker="o")
                plot.loglog(*zip(*chosen), color=colour, linewidth=2.2 if program == "ours" else 1.2, markersize=5 if ended else 3,
                            label=None if ended else NAMES.get(program, program), **look)
    sizes = sorted({size for points in row.values() for size, *_ in points})
    plot.set_xticks(sizes, [short(size) for size in sizes])
    plot.xaxis.set_minor_locator(ticker.NullLocator())
    plot.set_ylim(*SECONDS)
    plot.set_yticks([0.01, 0.1, 1, 10], ["0.01", "0.1", "1", "10"] if has_labels else [])
    plot.yaxis.set_minor_locator(ticker.NullLocator())
    plot.tick_params(labelsize=8, bottom=False, left=False)
    plot.spines[["top", "right", "left", "bottom"]].set_visible(False)
    plot.grid(True, linewidth=0.4)
    plot.set_title(textwrap.fill(title.replace("$", r"\$"), 38), fontsize=8, loc="left")
    plot.set_xlabel(unit, fontsize=8)


def short_tag(tag):
    """A tag with its numbers to a tenth, and without what turns it by nothing or clips it."""
    text = re.sub(r" clip-path=\"[^\"]*\"| transform=\"rotate\(-?0 [^\"]*\"", "", re.sub(r"\s+", " ", tag[0]))
    return re.sub(r"-?\d+\.\d{2,}", lambda number: f"{float(number[0]):.1f}".removesuffix(".0"), text)


def shrunk(picture):
    """The same picture in fewer bytes: no group has a colour or a place of its own, and nothing lies outside of its panel."""
    picture = re.sub(r"<!--.*?-->|<metadata>.*?</metadata>|<clipPath.*?</clipPath>", "", picture, flags=re.S)
    picture = re.sub(r"</?g\b[^>]*>", "", picture)
    picture = re.sub(r"<[^>]*>", short_tag, picture).replace("'DejaVu Sans'", "sans-serif")
    return re.sub(r">\s+<", ">\n<", picture).replace("<defs>\n</defs>\n", "")


def main():
    path, to = (sys.argv[1:] + [None, None])[:2]
    path = path or TOP / "bench/runs/editor.txt"
    if not to and "UNPROVED" in Path(path).read_text(encoding="utf-8"):
        sys.exit(f"{path} is of an unproved build: name the picture")
    date, found = rows(path)
    plots.rcParams.update({"svg.hashsalt": "mullerfawn", "font.family": "DejaVu Sans", "svg.fonttype": "none"})
    high = math.ceil((len(found) + 1) / COLUMNS)
    figure, grid = plots.subplots(high, COLUMNS, figsize=(2.5 * COLUMNS, 2 * high), layout="constrained")
    places = list(grid.flat)
    for number, (place, (title, unit, row)) in enumerate(zip(places, found)):
        draw(place, title, unit, row, number % COLUMNS == 0)
    for place in places[len(found):]:
        place.axis("off")
    shown = {}
    for place in places[:len(found)]:
        shown.update(dict(zip(*reversed(place.get_legend_handles_labels()))))
    places[-1].plot([], [], marker="^", linestyle="", color="#606060", markerfacecolor="white", label="ended after 20 s")
    shown.update(dict(zip(*reversed(places[-1].get_legend_handles_labels()))))
    places[-1].legend(shown.values(), shown.keys(), loc="center", fontsize=9)
    figure.suptitle(f"Processor seconds by size, run of {date}", fontsize=11)
    made = io.StringIO()
    figure.savefig(made, format="svg", metadata={"Date": None})
    Path(to or TOP / "docs/growth.svg").write_text(shrunk(made.getvalue()), encoding="utf-8")


main()
