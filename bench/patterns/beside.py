#!/usr/bin/env python3
"""Measures bre_ask beside another build of it, say of an earlier revision, on the rows of measure.py that have no back-reference.

    python3 beside.py OTHER [--runs N] [--instructions] [PART..]

OTHER is the other program. The two take turns, N times each (5, if it isn't given), and of each the least processor seconds are told, and
what part of the other's time ours takes. Two runs differ by some milliseconds, so where both take less than 0.02 s the ratio says little.
With --instructions valgrind counts the instructions of one run of each, which don't depend on what else the machine does. Rows that
became worse by more than a tenth are told once more at the end. Build crates/bre_ask first, and both alike.
"""
import argparse
import os
import re
import subprocess
import sys
import tempfile

sys.dont_write_bytecode = True
import measure  # noqa: E402 (bytecode is turned off first)
import rows  # noqa: E402

WORSE = 1.1


def hostile(folder):
    for pattern, name, texts in rows.hostile():
        for text in texts:
            yield f'{name} {len(text)}', ['count', pattern], measure.written(folder, 'hostile', text + '\n')[0]


def growth(folder):
    for size in (500_000, 1_000_000, 2_000_000):
        for pattern in rows.NESTED:
            yield f'a {size}', ['count', pattern], measure.written(folder, 'growth', 'a' * 1_000, size // 1_000, '\n')[0]
        for pattern in rows.SEARCHED:
            yield f'b, a, b {size}', ['count', pattern], measure.between(folder, size)[0]
    yield 'b, a, b 20000', ['count', 'a' + '*' * 64 + 'bb'], measure.between(folder, 20_000)[0]


def lines(folder):
    path = measure.many_lines(folder)[0]
    for pattern in dict.fromkeys(rows.LINES + rows.MANY):
        for task in ('count', 'count_searched', 'all', 'all_searched'):
            yield f'{task} of 200000 lines', [task, pattern], path


def long(folder):
    for word in ('a', 'ax'):
        path = measure.written(folder, 'long', word * (1_000 // len(word)), 50_000, '\n')[0]
        for pattern in ('.*', '[a-z]*x', '[a-z][a-z]*x'):
            yield f'{word} 50000000', ['count', pattern], path
    path = measure.written(folder, 'letter', 'the a of a line, and now and then another one ' * 20, 53_192, '\n')[0]
    for letter in ('a', 'q'):
        for task in ('all', 'all_searched'):
            yield f'{task} of 50000000', [task, letter], path
    path = measure.written(folder, 'abab', 'ab' * 500, 5_000, '\n')[0]
    for task in ('all', 'all_searched'):
        yield f'{task} of abab 5000000', [task, r'\(a\)*b'], path


PARTS = {'hostile': hostile, 'growth': growth, 'lines': lines, 'long': long}


def seconds(programs, words, path, runs):
    """The least processor seconds of each program, and whether all counted the same; None where one takes too long."""
    found = [[] for _ in programs]
    for _ in range(runs):
        for program, times in zip(programs, found):
            figures = measure.run([program, *words], path)
            if figures is None:
                return None, True
            times.append(figures)
    told = {figures[2] for times in found for figures in times}
    return [min(times)[0] for times in found], len(told) == 1


def instructions(programs, words, path, runs):
    """How many instructions one run of each program takes."""
    counts, told = [], set()
    for program in programs:
        with open(path) as text:
            run = subprocess.run(
                ['valgrind', '--tool=cachegrind', '--cache-sim=no', '--cachegrind-out-file=/dev/null', program, *words],
                stdin=text, capture_output=True, text=True, check=True)
        counts.append(int(re.search(r'I\s+refs:\s+([0-9,]+)', run.stderr)[1].replace(',', '')))
        told.add(run.stdout)
    return counts, len(told) == 1


def main():
    parser = argparse.ArgumentParser()
    parser.add_argument('other', metavar='OTHER')
    parser.add_argument('--runs', type=int, default=5)
    parser.add_argument('--instructions', action='store_true')
    parser.add_argument('parts', metavar='PART', nargs='*', help=', '.join(PARTS))
    asked = parser.parse_intermixed_args()
    programs = [os.path.abspath(asked.other), measure.PROGRAM]
    count = instructions if asked.instructions else seconds
    worse = []
    with tempfile.TemporaryDirectory() as folder:
        for part in asked.parts or PARTS:
            for name, words, path in PARTS[part](folder):
                if re.search(r'\\[1-9]', words[1]):
                    continue
                figures, agree = count(programs, words, path, asked.runs)
                row = f'{words[1][:34]:34} {name:32}'
                if figures is None:
                    print(f'{row} over {measure.MOST} s')
                    continue
                other, ours = figures
                told = f'{other:14,} {ours:14,}' if asked.instructions else f'{other:8.3f} {ours:8.3f}'
                row = f'{row} {told} {ours / max(other, 0.001):6.2f}' + ('' if agree else '  THE ANSWERS DIFFER')
                print(row, flush=True)
                if ours > WORSE * other:
                    worse.append(row)
    print(f'worse by more than a tenth: {len(worse)}', *worse, sep='\n')


if __name__ == '__main__':
    main()
