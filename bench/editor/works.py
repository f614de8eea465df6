"""What the editor is measured by: files, scripts, and the words by which other programs do the same."""

import itertools
import os
import random


class Work:
    """One piece of work at one size: the file, the script, and how often it is run. Lines and script come in small pieces."""

    def __init__(self, folder, name, size, lines, script, repeat=1, sed=None, busybox=None, perl=None, tac=False, vim=False, patch=False,
                 rred=None):
        self.name, self.size, self.repeat = name, size, repeat
        self.sed, self.busybox, self.perl, self.tac, self.vim, self.patch, self.rred = sed, busybox, perl, tac, vim, patch, rred
        self.file = os.path.join(folder, f"{name}-{size}")
        self.script = self.file + ".ed"
        with open(self.file, "wb") as out:
            out.writelines(lines)
        with open(self.script, "wb") as out:
            out.writelines(script)


def text_lines(count):
    return (b"line %07d of a text that is forty-seven bytes\n" % i for i in range(count))


def print_all(folder, n):
    return Work(folder, "print", n, text_lines(n), [b",p\nQ\n"], sed=["sed", "-n", "p"])


def start(folder, n):
    return Work(folder, "start", n, [b"a\nb\nc\n"], [b"2d\n,p\nQ\n"], repeat=n, sed=["sed", "2d"])


def script_of_text(n):
    yield b"a\n"
    yield from text_lines(n)
    yield b".\nQ\n"


def enter(folder, n):
    return Work(folder, "enter", n, [], script_of_text(n))


def delete_from_end(folder, n):
    return Work(folder, "delete", n, text_lines(n), (b"$d\n" if i < n else b"Q\n" for i in range(n + 1)))


LINES = 100_000


def search_onwards(folder, n):
    """Each search finds its line a hundred lines further, so that a thousand go once over the file."""
    return Work(folder, "onwards", n, text_lines(LINES), (b"/00 of a/p\n" if i < n else b"Q\n" for i in range(n + 1)))


def search_around(folder, n):
    """Each search goes over the whole file and comes back to its own line."""
    return Work(folder, "around", n, text_lines(LINES), (b"/0050000 of/\n" if i < n else b"Q\n" for i in range(n + 1)))


def worded_lines(count):
    """Lines of 50 bytes: words of small letters, and a last line that has what is searched for."""
    chance = random.Random(1)
    known = [bytes(chance.choices(b"abcdefghijklmnopqrstuvwxyz", k=chance.randint(3, 8))) for _ in range(1_000)]
    for _ in range(count - 1):
        yield b" ".join(chance.choices(known, k=13))[:50] + b"\n"
    yield b"# a needle and foo123bar in a line of fifty bytes:\n"


def ten_times(command):
    return lambda folder, n: Work(folder, "ten", n, worded_lines(n), [command + b"\n"] * 10 + [b"Q\n"])


def print_between_marks(folder, n):
    script = [b"90000ka\n90009kb\n"] + [b"'a,'bp\n"] * n + [b"Q\n"]
    return Work(folder, "marks", n, text_lines(LINES), script)


def move_a_mark(folder, n):
    script = [b"%dka\n'a=\n" % (1 + i * 89 % LINES) for i in range(n)] + [b"Q\n"]
    return Work(folder, "mark", n, text_lines(LINES), script)


def changed_lines(n, edits):
    """Which of n lines are changed: as many as edits, each once, far from each other."""
    return [1 + i * n // edits for i in range(edits)]


def at_places(name, command, by_chance=False):
    """A command on each of 10,000 lines, in their order or in a random one."""
    def work(folder, n):
        lines = changed_lines(n, 10_000)
        if by_chance:
            random.Random(1).shuffle(lines)
        return Work(folder, name, n, text_lines(n), [command % line for line in lines] + [b"Q\n"], vim=True)
    return work


def move_all(folder, n):
    """All lines go to where they stand, which is the move of one block."""
    return Work(folder, "block", n, text_lines(n), [b"1,$m0\nQ\n"], vim=True)


def move_to_front(folder, n):
    return Work(folder, "front", n, text_lines(n), [b"%dm0\n" % line for line in range(1, n + 1)] + [b"Q\n"])


def double(folder, n):
    return Work(folder, "double", n, text_lines(1_000), [b"1,$t$\n" * ((n // 1_000).bit_length() - 1), b"Q\n"])


def fields(count):
    return (b"%07d field %d of a line\n" % (i, i * 7919 % 1000) for i in range(count))


def swap_fields(folder, n):
    """Each line of two fields that are exchanged."""
    return Work(folder, "swap", n, fields(n), [b"1,$s/\\([0-9]*\\) \\([a-z]*\\)/\\2 \\1/\nQ\n"],
                sed=["sed", r"s/\([0-9]*\) \([a-z]*\)/\2 \1/"], perl=["perl", "-pe", r"s/([0-9]*) ([a-z]*)/$2 $1/"])


def replace_in_a_long_line(folder, megabytes):
    """One line, of whose bytes each sixteenth is replaced."""
    line = itertools.chain(itertools.repeat(b"0123456789abcdef" * 64, megabytes << 10), [b"\n"])
    return Work(folder, "long", megabytes, line, [b"s/a/b/g\nQ\n"],
                sed=["sed", "s/a/b/g"], perl=["perl", "-pe", "s/a/b/g"])


def edit_and_write(folder, n):
    """The file is 47 bytes a line; the whole of it is written to another one."""
    written = os.path.join(folder, "written").encode()
    return Work(folder, "write", n, text_lines(n), [b"1d\nw %s\nQ\n" % written], sed=["sed", "1d"],
                busybox=["busybox", "sed", "1d"], vim=True)


def update(folder, hunks):
    """As `diff -e` makes it: from the last line to the first, changed, deleted and added lines by turns."""
    script = []
    for number, line in enumerate(reversed(changed_lines(300_000, hunks))):
        script.append((b"%dc\nx\n.\n", b"%dd\n", b"%da\nx\ny\n.\n")[number % 3] % line)
    update = os.path.join(folder, f"update-{hunks}.diff")
    with open(update, "wb") as out:
        out.writelines(script)
    return Work(folder, "update", hunks, text_lines(300_000), script + [b"Q\n"], vim=True, patch=True, rred=update)


def things(count):
    """Every second line has a word with a number."""
    return (b"%07d foo%d of a line\n" % (i, i * 7919 % 1000) if i % 2 else b"%07d bar of a line\n" % i for i in range(count))


def substitute_matching(folder, n):
    return Work(folder, "g-s", n, things(n), [b"g/foo[0-9]*/s//x/\nQ\n"], vim=True, sed=["sed", "/foo[0-9]*/s//x/"],
                perl=["perl", "-pe", "s/foo[0-9]*/x/"])


def delete_matching(folder, n):
    return Work(folder, "g-d", n, things(n), [b"g/foo/d\nQ\n"], vim=True, sed=["sed", "/foo/d"], perl=["perl", "-ne", "print unless /foo/"])


def substitute_twice(folder, n):
    """Two patterns take turns, so that each is remembered once for a line."""
    return Work(folder, "g-ss", n, things(n), [b"g/foo/s/foo[0-9]*/x/\\\ns/of/from/\nQ\n"],
                sed=["sed", "/foo/{s/foo[0-9]*/x/;s/of/from/}"], perl=["perl", "-pe", "if (/foo/) { s/foo[0-9]*/x/; s/of/from/ }"])


def reverse(folder, n):
    return Work(folder, "g-m0", n, things(n), [b"g/^/m0\nQ\n"], tac=True, vim=True, perl=["perl", "-e", "print reverse <>"])


def join_pairs(folder, n):
    return Work(folder, "g-j", n, things(n), [b"g/^/.,+1j\nQ\n"], vim=True, sed=["sed", r"N;s/\n//"])


def grow_a_line(folder, n):
    """Each line is joined to the first, which undo has to have as it was before the first of them."""
    return Work(folder, "g-grow", n, things(n), [b"2,$g/^/1,2j\nQ\n"])


def delete_and_undo(folder, n):
    chance = random.Random(1)
    script = [b"%dd\nu\n" % chance.randint(1, n) for _ in range(5_000)] + [b"Q\n"]
    return Work(folder, "undo", n, text_lines(n), script, vim=True)


def undo_a_block(folder, n):
    """All lines go out at once, and come back and go out again as often as there are lines."""
    return Work(folder, "u-block", n, text_lines(n), [b"1,$d\n"] + [b"u\n"] * n + [b"Q\n"])


def undo_of_a_global(folder, n):
    return Work(folder, "g-u", n, things(n), [b"g/foo/d\nu\nu\nu\nQ\n"], vim=True)


WORKS = (
    ("print all lines of a file (lines)", print_all, (250_000, 500_000, 1_000_000)),
    ("start on a file of three lines (runs)", start, (50, 100, 200)),
    ("enter a text by a script (lines)", enter, (50_000, 100_000, 200_000)),
    ("delete lines one by one from the end (lines)", delete_from_end, (25_000, 50_000, 100_000)),
    ("change 10,000 lines at rising places (lines)", at_places("rising", b"%dc\nx\n.\n"), (250_000, 500_000, 1_000_000)),
    ("change 10,000 lines in random order (lines)", at_places("random", b"%dc\nx\n.\n", True), (250_000, 500_000, 1_000_000)),
    ("move each line to the front (lines)", move_to_front, (12_500, 25_000, 50_000)),
    ("move all lines to the front by 1,$m0 (lines)", move_all, (500_000, 1_000_000, 2_000_000)),
    ("double 1,000 lines by 1,$t$ (lines)", double, (512_000, 1_024_000, 2_048_000)),
    ("exchange two fields of each line by s (lines)", swap_fields, (50_000, 100_000, 200_000)),
    ("replace bytes in one line by s (MiB)", replace_in_a_long_line, (5, 10, 20, 50)),
    ("10,000 times s on one line, at rising places (lines)", at_places("s rising", b"%ds/^/x/\n"), (250_000, 500_000, 1_000_000)),
    ("10,000 times s on one line, in random order (lines)", at_places("s random", b"%ds/^/x/\n", True), (250_000, 500_000, 1_000_000)),
    ("search onwards in 100,000 lines (searches)", search_onwards, (250, 500, 1_000)),
    ("search around 100,000 lines (searches)", search_around, (10, 20, 40)),
    *((f"ten times {command} through lines of 50 bytes (lines)", ten_times(command.encode()), (50_000, 100_000, 200_000))
      for command in ("/needle/", "/[0-9][0-9]*/", "/foo[0-9]*bar/", "/^#/", "v/[ ]*$/p")),
    ("print ten of 100,000 lines between marks (times)", print_between_marks, (2_500, 5_000, 10_000)),
    ("mark one of 100,000 lines and tell its number (times)", move_a_mark, (2_500, 5_000, 10_000)),
    ("load, delete a line and write the others to a file (lines)", edit_and_write, (600_000, 1_000_000, 1_200_000, 2_400_000)),
    ("an update of 300,000 lines as diff -e makes it (hunks)", update, (5_000, 10_000, 20_000)),
    ("global: replace a word in each second line, g/foo[0-9]*/s//x/ (lines)", substitute_matching, (250_000, 500_000, 1_000_000)),
    ("global: a list of two s in each second line (lines)", substitute_twice, (100_000, 200_000, 400_000)),
    ("global: delete each second line, g/foo/d (lines)", delete_matching, (100_000, 200_000, 400_000)),
    ("global: move each line to the front, g/^/m0 (lines)", reverse, (100_000, 200_000, 400_000)),
    ("global: join lines in pairs, g/^/.,+1j (lines)", join_pairs, (100_000, 200_000, 400_000)),
    ("global: join each line to the first, 2,$g/^/1,2j (lines)", grow_a_line, (1_000, 2_000, 4_000)),
    ("global: 10,000 of one line each, Ng/^/s/^/x/, at rising places (lines)", at_places("g of one", b"%dg/^/s/^/x/\n"), (250_000, 500_000, 1_000_000)),
    ("global: delete each second line, and undo that three times (lines)", undo_of_a_global, (50_000, 100_000, 200_000)),
    ("undo: 5,000 times Nd and u, at random places (lines)", delete_and_undo, (50_000, 100_000, 200_000)),
    ("undo: 1,$d and then u once for each line (lines)", undo_a_block, (2_500, 5_000, 10_000)),
)
