"""Processor time and peak memory of `vouch`, `check` and `run` beside `edit`, on the same scripts.

    measure.py [--built | --unproved PROGRAM]

Straight scripts change lines one after another from the last to the first; an update, as `diff -e` writes it, changes, deletes and adds
lines by turns, at places that are spread over its file; the others are of globals, whose lists the verifier goes through until an
invariant is found. The file of the straight scripts has 100,000 lines, that of the update 300,000, of 49 bytes each as in ../editor, that of
the globals 1,000, and that of the small scripts ten: there `edit` over no command is the start of the program. Refused scripts are measured beside those that lack the one command that may fail.
Each figure is the best of three runs, that
of a small script the best of a hundred. For large straight scripts the times, and the peak of `check`, are given for each command too. A
peak of some 10 MiB is that of this script, from which the program is started.
"""

import os
import resource
import shutil
import subprocess
import sys
import tempfile

sys.dont_write_bytecode = True
sys.path.insert(1, os.path.join(os.path.dirname(os.path.abspath(__file__)), '..'))
import build  # noqa: E402 (its folder is told first)

OURS, MARK, _ = build.chosen('ed_main', sys.argv[1:])
LARGE = 1000


def straight(count):
    """So many commands, one of which writes."""
    for number in range(count - 2, 0, -1):
        yield f'{number}c\nchanged\n.\n'
    yield 'w\nq\n'


def small(count):
    """So many commands, the last of which writes; the end of the script is its `q`."""
    for number in range(count - 1, 0, -1):
        yield f'{number}c\nchanged\n.\n'
    if count:
        yield 'w\n'


def update(count):
    """So many hunks from the last line of 300,000 to the first, and then a `w`."""
    for number in range(count, 0, -1):
        line = number * (300_000 // count) - 7
        yield (f'{line}c\nx\n.\n', f'{line}d\n', f'{line}a\nx\ny\n.\n')[number % 3]
    yield 'w\nq\n'


def globals_of(count):
    """So many globals, of each kind in turn: lines come in, go out, are changed."""
    kinds = ['g/^line/s/a/b/\n', 'g/x$/t.\n', 'v/[a-z]/d\n', 'g/1/ka\\\nm0\n']
    for number in range(count):
        yield kinds[number % len(kinds)]
    yield 'w\nq\n'


def searching(count):
    """So many commands, of which each tenth searches for a line of its own and the others mark one by its number."""
    for number in range(count - 2):
        yield f'/^key{number}=/a\nx\n.\n' if number % 10 == 0 else f'{number % 97 + 1}ka\n'
    yield 'w\nq\n'


def all_searching(count):
    """So many commands that search, each for a line of its own, and a `w`."""
    for number in range(count):
        yield f'/^key{number}=/a\nx\n.\n'
    yield 'w\nq\n'


def straight_in_place(count):
    """So many commands that change the current line."""
    for _ in range(count):
        yield 's/^/x/\n'


def globals_in_place(count):
    """So many globals that change lines."""
    for _ in range(count):
        yield 'g/a/s/b/x/\n'


# Nine lines, each the only one that its pattern matches.
CHAIN = '; '.join(f'only /^key{number}=/' for number in range(1, 10))


def landmarked(count):
    """So many commands beside nine landmarks: below each in turn a line comes in, is marked and goes out again, and between one and the next all
    are shown."""
    for number in range(count - 2):
        turn, kind = number // 5 % 8 + 1, number % 5
        yield (f'/^key{turn}=/a\nx\n.\n', 'ka\n', f'/^key{turn}=/+1d\n', f'/^key{turn}=/;/^key{turn + 1}=/p\n', f'/^key{turn}=/=\n')[kind]
    yield 'w\nq\n'


def written(name, lines):
    with open(name, 'w') as out:
        out.writelines(lines)


def measured(words, script, output):
    """Processor seconds, peak memory and status of one run."""
    with open(script, 'rb') as source, open(output, 'wb') as sink:
        process = subprocess.Popen([OURS, *words], stdin=source, stdout=sink, stderr=subprocess.DEVNULL)
        _, status, used = os.wait4(process.pid, 0)
    return used.ru_utime + used.ru_stime, used.ru_maxrss / 1024, os.waitstatus_to_exitcode(status)


def best(words, script, output, restore, runs):
    seconds, peaks = [], []
    for _ in range(runs):
        restore()
        time, peak, status = measured(words, script, output)
        seconds.append(time)
        peaks.append(peak)
    return min(seconds), min(peaks), status


def each(count, figures):
    """Microseconds a command of `vouch`, `check` and `run`, and KiB of the peak of `check`, which doesn't read the file."""
    times = ' '.join(f'{seconds * 1e6 / count:4.0f}' for seconds, _, _ in figures)
    return f' {times} us {figures[1][1] * 1024 / count:5.1f} KiB'


def table(title, kind, lines, counts, runs=3, line='line {} of the file\n'):
    """One row for each number of commands. Times are in milliseconds where there are many runs."""
    unit, factor, digits = ('s', 1, 3) if runs == 3 else ('ms', 1000, 2)
    by_command = '  a command of vouch, check, run' if kind in (straight, update) else ''
    print(f'\n{MARK}{title}')
    print(f'{"commands":>9} {"vouch":>17} {"check":>17} {"run":>17} {"edit":>17} {"certificate":>12}{by_command}')
    with tempfile.TemporaryDirectory() as folder:
        os.chdir(folder)
        written('kept', (line.format(number) for number in range(lines)))
        restore = lambda: shutil.copyfile('kept', 'F')
        for count in counts:
            written('script', kind(count))
            figures = [best(words, 'script', output, restore, runs) for words, output in (
                (['vouch', '--min', str(lines), '--max', str(lines), 'F'], 'C'), (['check', 'C'], 'told'),
                (['run', 'C', '-s', 'F'], 'told'), (['edit', '-s', 'F'], 'told'))]
            row = [f'{time * factor:8.{digits}f} {unit:<2} {peak:4.0f} M' + ('' if status == 0 else f' ({status})')
                   for time, peak, status in figures]
            print(f'{count:>9} ' + ' '.join(row) + f' {os.path.getsize("C") / 2**20:8.1f} MiB'
                  + (each(count, figures[:3]) if by_command and count >= LARGE else ''), flush=True)
        os.chdir('/')


def row(count, figures, more=''):
    """One row: seconds, peak memory and, where it isn't 0, the status of each."""
    told = (f'{time:8.3f} s  {peak:4.0f} M' + ('' if status == 0 else f' ({status})') for time, peak, status in figures)
    print(f'{count:>9} ' + ' '.join(told) + more, flush=True)


def found(title, kind, searches, counts):
    """One row for each number of commands: the start is found, its certificate made, checked, and the script run."""
    print(f'\n{MARK}{title}')
    print(f'{"commands":>9} {"vouch, found":>17} {"vouch, given":>17} {"check":>17} {"edit --vouched":>17} {"edit":>17} {"certificate":>12}')
    with tempfile.TemporaryDirectory() as folder:
        os.chdir(folder)
        for count in counts:
            written('script', kind(count))
            restore = lambda: written('F', (f'key{number}=value\n' for number in range(max(counts))))
            given = [word for number in searches(count) for word in ('--has', f'^key{number}=')]
            figures = [best(words, 'script', output, restore, 3) for words, output in (
                (['vouch', 'F'], 'C'), (['vouch', '--min', '97', '--max', 'any', *given, 'F'], 'C'), (['check', 'C'], 'told'),
                (['edit', '--vouched', '-s', 'F'], 'told'), (['edit', '-s', 'F'], 'told'))]
            row(count, figures, f' {os.path.getsize("C") / 2**20:8.1f} MiB')
        os.chdir('/')


def refused(title, kind, counts):
    """One row for each number of commands: the script that is vouched for, and with one more command that may fail."""
    print(f'\n{MARK}{title}')
    print(f'{"commands":>9} {"vouch":>17} {"refused":>21} {"refused, --all":>21}')
    with tempfile.TemporaryDirectory() as folder:
        os.chdir(folder)
        for count in counts:
            written('script', [*kind(count), 'w\nq\n'])
            written('failing', [*kind(count), '/no such line/p\nw\nq\n'])
            bounds = ['--min', '1', '--max', 'any', 'F']
            row(count, [best(['vouch', *words, *bounds], script, 'C', lambda: None, 3)
                        for script, words in (('script', []), ('failing', []), ('failing', ['--all']))])
        os.chdir('/')


def beside_landmarks(counts):
    """One row for each number of commands: vouched for with landmarks, checked and run over a file that has them."""
    print(f'\n{MARK}Landmarks: nine lines of the start')
    print(f'{"commands":>9} {"vouch":>17} {"check":>17} {"run":>17} {"edit":>17} {"certificate":>12}')
    with tempfile.TemporaryDirectory() as folder:
        os.chdir(folder)
        restore = lambda: written('F', (f'key{number}=value\nother=value\n' for number in range(1, 10)))
        for count in counts:
            written('script', landmarked(count))
            figures = [best(words, 'script', output, restore, 3) for words, output in (
                (['vouch', '--min', '0', '--max', 'any', '--at', CHAIN, 'F'], 'C'), (['check', 'C'], 'told'),
                (['run', 'C', '-s', 'F'], 'told'), (['edit', '-s', 'F'], 'told'))]
            row(count, figures, f' {os.path.getsize("C") / 2**20:8.1f} MiB')
        os.chdir('/')


def main():
    resource.setrlimit(resource.RLIMIT_CORE, (0, 0))
    table('Small scripts, over a file of 10 lines', small, 10, [0, 1, 10], 100)
    table('Straight scripts, over a file of 100,000 lines', straight, 100000, [10, 1000, 10000, 20000, 100000])
    table('Updates as diff -e writes them, over a file of 300,000 lines', update, 300000, [5000, 10000, 20000],
          line='line {:07} of a text that is forty-seven bytes\n')
    table('Globals, over a file of 1,000 lines', globals_of, 1000, [10, 100, 1000])
    found('Starts that are found: a tenth of the commands search, each for another line', searching, lambda count: range(0, count - 2, 10),
          [10, 100, 1000])
    found('Starts that are found: each command searches for another line', all_searching, range, [100, 200, 400, 800])
    refused('Refused scripts: s/^/x/ so many times, and then a search that may fail', straight_in_place, [250, 500, 1000, 2000])
    refused('Refused scripts: g/a/s/b/x/ so many times, and then a search that may fail', globals_in_place, [125, 250, 500])
    beside_landmarks([10, 100, 1000])


if __name__ == '__main__':
    main()
