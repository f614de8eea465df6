#!/usr/bin/env python3
"""Measures bre_ask beside sed, perl and grep in one run: lines made to be slow, many short lines, and long lines.

    python3 measure.py [--built | --unproved PROGRAM] [--runs N] [--most SECONDS] [hostile] [growth] [lines] [long] [places] [searcher]
        [all] [letter] [references] [limits]

Each figure is processor seconds, the least of N runs (3, if it isn't given), and the most memory in MB; what runs the programs has
11 MB itself, so no less is told, and no text is held here. `^` is how the time grows with the line: 1 is in proportion, 2 is with
its square; it is told where both times are above what starting takes. A program that takes more than SECONDS (20) is stopped.
The counts of lines have to agree.
"""
import argparse
import itertools
import math
import os
import random
import resource
import subprocess
import sys
import tempfile

HERE = os.path.dirname(os.path.abspath(__file__))
sys.dont_write_bytecode = True
sys.path.insert(1, os.path.join(HERE, '..'))
import build  # noqa: E402 (its folder is told first)
from lines import many  # noqa: E402
from rows import FASTEST, LINES, MANY, NESTED, REFERENCES, SEARCHED, SIZES, hostile  # noqa: E402

PROGRAM = os.path.join(HERE, '../../crates/bre_ask/out/bre_ask')
MOST = 20  # seconds
RUNS = 3

def extended(pattern):
    """A basic regular expression as perl takes it."""
    for mark in '(){}':
        pattern = pattern.replace('\\' + mark, mark)
    return pattern


def commands(pattern, path=None):
    count = '$n++ if /' + extended(pattern) + '/; END { print $n + 0, "\n" }'
    return {
        'bre_ask': [PROGRAM, 'count', pattern],
        'sed -n': ['sed', '-n', f'/{pattern}/p'],
        'perl': ['perl', '-ne', count],
        'grep -c': ['grep', '-c', '--', pattern],
    }


def counted(command, out):
    """How many lines matched; sed prints them, the others their number. Of `places` it is what was printed."""
    if command[0] == 'sed':
        return sum(1 for line in out)
    printed = out.read().decode().strip()
    return int(printed) if printed.isdigit() else printed


def limit():
    resource.setrlimit(resource.RLIMIT_CPU, (MOST, MOST))
    resource.setrlimit(resource.RLIMIT_AS, (4 << 30, 4 << 30))


def run(command, path):
    """Processor seconds, MB and what is counted of the output, or None after too long a time."""
    with open(path) as text, tempfile.TemporaryFile() as out:
        child = subprocess.Popen(
            command, stdin=text, stdout=out, stderr=subprocess.DEVNULL, env={**os.environ, 'LC_ALL': 'C'},
            preexec_fn=limit)
        _, status, used = os.wait4(child.pid, 0)
        child.returncode = status
        out.seek(0)
        if os.WIFSIGNALED(status):
            return None
        return used.ru_utime + used.ru_stime, used.ru_maxrss / 1024, counted(command, out)


def best(command, path):
    runs = []
    for _ in range(RUNS):
        runs.append(run(command, path))
        if runs[-1] is None or runs[-1][0] > 5:
            break
    return None if None in runs else min(runs, key=lambda figures: figures[0])


def beside(taken):
    """How the first of some programs compares with the others, by the seconds of each."""
    first, *others = taken or ['']
    return ', '.join(f'{taken[first] / taken[name]:.2f} x {name}' for name in others if first == 'bre_ask' and taken[name] > 0)


def compare(pattern, texts, starting, programs=None, commands_of=commands):
    """The figures of each program on each of some files, and how ours compares with the others on the last of them."""
    rows, taken = {}, {}
    for name in commands_of(pattern):
        if programs and name not in programs:
            continue
        figures, last = [], None
        for path, size in texts:
            found = best(commands_of(pattern, path)[name], path)
            if found is None:
                figures.append(f'over {MOST} s')
                break
            seconds, memory, lines = found
            taken[name] = path, seconds
            told = f'{seconds:.3f} s {memory:.0f} MB'
            net = seconds - starting[name]
            if last and net > 0.02 and last[0] > 0.005:
                told += f' ^{math.log(net / last[0]) / math.log(size / last[1]):.1f}'
            last = (net, size)
            figures.append(told)
            rows.setdefault(path, {})[name] = lines
        print(f'  {name:10}' + '  '.join(f'{told:24}' for told in figures).rstrip())
    at = texts[-1][0]
    if compared := beside({name: seconds for name, (path, seconds) in taken.items() if path == at}):
        print(f'  ours: {compared}')
    for path, counts in rows.items():
        if len(set(counts.values())) > 1:
            print(f'  THE COUNTS DIFFER: {counts}')
    sys.stdout.flush()


def written(folder, name, text, times=1, ending=''):
    """A file with a text that many times, and its ending."""
    path = os.path.join(folder, name)
    with open(path, 'w') as file:
        file.writelines(itertools.repeat(text, times))
        file.write(ending)
    return path, os.path.getsize(path)


def many_lines(folder):
    path = os.path.join(folder, 'lines')
    with open(path, 'w') as file:
        file.writelines(many())
    return path, os.path.getsize(path)


def measure_hostile(folder, starting):
    print('\nOne line')
    for pattern, name, texts in hostile():
        print(f"{pattern}  on {name}, {' and '.join(str(len(text)) for text in texts)} bytes")
        compare(pattern, [written(folder, str(len(text)), text + '\n') for text in texts], starting)


def between(folder, size):
    """A line of so many `a` between two `b`."""
    return written(folder, str(size), 'b' + 'a' * size + 'b\n')


def measure_growth(folder, starting):
    """How the time grows, on lines so long that a start doesn't count, and with 64 repeats in one another."""
    print('\nOne line, 500,000 and 1,000,000 and 2,000,000 bytes')
    lines = [written(folder, str(size), 'a' * 1_000, size // 1_000, '\n') for size in (500_000, 1_000_000, 2_000_000)]
    for pattern in NESTED:
        print(f'{pattern}  on a')
        compare(pattern, lines, starting, ('bre_ask',))
    lines = [between(folder, size) for size in (500_000, 1_000_000, 2_000_000)]
    for pattern in SEARCHED:
        print(f'{pattern}  on b, a, b')
        compare(pattern, lines, starting, ('bre_ask',))
    print('a, 64 times *, bb  on b, a, b, 5002 and 10002 and 20002 bytes')
    lines = [between(folder, size) for size in (5_000, 10_000, 20_000)]
    compare('a' + '*' * 64 + 'bb', lines, starting, ('bre_ask', 'sed -n', 'grep -c'))


def measure_lines(folder, starting):
    print('\n200,000 lines of 50 bytes')
    lines = many_lines(folder)
    for pattern in LINES:
        print(pattern)
        compare(pattern, [lines], starting)


def measure_long(folder, starting):
    print('\nOne line of 50,000,000 bytes')
    for word in ('a', 'ax'):
        line = written(folder, 'long', word * (1_000 // len(word)), 50_000, '\n')
        for pattern in ('.*', '[a-z]*x', '[a-z][a-z]*x'):
            print(f'{pattern}  on {word}')
            compare(pattern, [line], starting)


def measure_places(folder, starting):
    """What a find costs that ends after a few bytes of a long line, beside reading the line: a place after its end isn't looked at."""
    print('\nOne find in a line of 50,000,000 bytes, x but for a word in the middle; bre_ask places')
    half = 25_000_000
    for pattern, word in ((r'\(a\)*b', 'aab'), (r'\(a\)*=\1b', 'a=ab')):
        for name, start in (('reading alone', 2 * half + 1_000), ('from the word', half), ('from the start', 0)):
            path = os.path.join(folder, 'place')
            with open(path, 'w') as file:
                file.write(f'{start}\t{pattern}\t')
                file.writelines(itertools.repeat('x' * 1_000, half // 1_000))
                file.write(word)
                file.writelines(itertools.repeat('x' * 1_000, half // 1_000))
                file.write('\n')
            found = best([PROGRAM, 'places'], path)
            told = f'over {MOST} s' if found is None else f'{found[0]:.3f} s {found[1]:.0f} MB  {found[2]}'
            print(f'  {pattern} on {word}, {name:15} {told}'.rstrip(), flush=True)


def all_of(pattern):
    """Programs that count all matches of each line, one after the other."""
    count = 'chomp; $n++ while /' + extended(pattern) + '/g; END { print $n + 0, "\n" }'
    return {
        'all': [PROGRAM, 'all', pattern],
        'searched': [PROGRAM, 'all_searched', pattern],
        'perl': ['perl', '-ne', count],
    }


def by_searcher(pattern):
    """Programs that count the lines with a match: ours by one searcher for all of them."""
    return {**commands(pattern), 'bre_ask': [PROGRAM, 'count_searched', pattern]}


def measure_searcher(folder, starting):
    """What a searcher costs, line after line."""
    print('\n1,000,000 lines of 50 bytes, lines with a match')
    one = many_lines(folder)[0]
    path = os.path.join(folder, 'million')
    with open(path, 'w') as file:
        for _ in range(5):
            with open(one) as text:
                file.write(text.read())
    print_rows(MANY, by_searcher, path)


def measure_all(folder, starting):
    print('\n200,000 lines of 50 bytes, all matches of each line')
    print_rows(MANY, all_of, many_lines(folder)[0])
    print('\nOne line, all its matches')
    print_rows((r'\(a\)*b',), all_of, written(folder, 'abab', 'ab' * 500, 5_000, '\n')[0])
    random.seed(1)
    letters = ''.join(random.choice('abcdefghijklmnopqrstuvwxyz') for _ in range(100_000))
    print_rows((r'\([ef]\)*g[h-j]*k', r'[ef][ef]*\(gh\)*k'), all_of, written(folder, 'letters', letters, 100, '\n')[0])


def measure_letter(folder, starting):
    """Each match of one letter in a long line, which sed and perl replace in memory."""
    print('\nOne line of 50,000,000 bytes, all matches of a letter')
    path = written(folder, 'letter', 'the a of a line, and now and then another one ' * 20, 53_192, '\n')[0]
    print_rows(('a', 'q'), with_replacing, path)


def with_replacing(letter):
    """Programs that count all matches of a letter, and those that replace it and print nothing."""
    replace = f's/{letter}/b/g'
    return {**all_of(letter), 'sed s': ['sed', '-n', replace], 'perl s': ['perl', '-ne', replace]}


def print_rows(patterns, programs, path):
    """A row for each pattern: the seconds of each program, and what was counted."""
    for pattern in patterns:
        row, seen, taken = [], {}, {}
        for name, command in programs(pattern).items():
            found = best(command, path)
            row.append(f'{name} over {MOST} s' if found is None else f'{name} {found[0]:.2f}')
            if found is not None:
                taken[name] = found[0]
            if found is not None and not name.endswith(' s'):
                seen[name] = found[2]
        differ = '' if len(set(seen.values())) < 2 else f'  THE COUNTS DIFFER: {seen}'
        print(f'  {pattern:26} {next(iter(seen.values()), "-"):>9}  ' + '  '.join(row) + f'  {beside(taken)}'.rstrip() + differ, flush=True)


def measure_limits(folder, starting):
    print('\nOne line, and what grows fastest')
    for pattern, name, line in FASTEST:
        lines = [written(folder, str(size), line(size) + '\n') for size in (20, 40, 68, 100, 200)]
        print(f'{pattern}  on {name}, 20 and 40 and 68 and 100 and 200 bytes')
        compare(pattern, lines, starting, commands_of=with_editor)


def measure_references(folder, starting):
    """Patterns with back-references beside sed, perl and GNU ed, on lines of growing length, and one of them on a file as people write."""
    print('\nOne line, and back-references with many ways')
    for pattern, name, line in REFERENCES:
        lines = [written(folder, str(size), line(size) + '\n') for size in SIZES]
        print(f"{pattern}  on {name}, {' and '.join(str(size) for size in SIZES)} bytes")
        compare(pattern, lines, starting, commands_of=with_editor)
    path = os.path.join(HERE, '../../tests/against/README.md')
    print(f'{REFERENCES[-1][0]}  on {os.path.relpath(path, HERE)}')
    compare(REFERENCES[-1][0], [(path, os.path.getsize(path))], starting, commands_of=with_editor)


def with_editor(pattern, path=''):
    """Those programs but grep, and GNU ed, whose lines are counted."""
    script = 'found=$(printf "%s\\n" "g/$1/p" | ed -s "$0"); [ $? -lt 128 ] || kill -s XCPU $$; printf "%s" "$found" | grep -c ^'
    found = commands(pattern)
    del found['grep -c']
    return {**found, 'GNU ed': ['sh', '-c', script, path, pattern]}


PARTS = {'hostile': measure_hostile, 'growth': measure_growth, 'lines': measure_lines, 'long': measure_long, 'places': measure_places,
         'searcher': measure_searcher, 'all': measure_all, 'letter': measure_letter, 'references': measure_references,
         'limits': measure_limits}


def main():
    global RUNS, MOST, PROGRAM
    PROGRAM, mark, arguments = build.chosen('bre_ask', sys.argv[1:])
    parser = argparse.ArgumentParser()
    parser.add_argument('--runs', type=int, default=RUNS)
    parser.add_argument('--most', type=int, default=MOST)
    parser.add_argument('parts', metavar='PART', nargs='*', help=', '.join(PARTS))
    words = parser.parse_args(arguments)
    RUNS, MOST = words.runs, words.most
    with tempfile.TemporaryDirectory() as folder:
        empty = written(folder, 'empty', '')[0]
        starting = {name: best(command, empty)[0] for name, command in {**commands('a', empty), **with_editor('a', empty)}.items()}
        print(f'{mark}starting: ' + ', '.join(f'{name} {seconds:.3f} s' for name, seconds in starting.items()))
        for part in words.parts or PARTS:
            PARTS[part](folder, starting)


if __name__ == '__main__':
    main()
