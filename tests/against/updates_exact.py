#!/usr/bin/env python3
"""Counts how many scripts of `diff -e` are exact, and vouches for each that is.

    updates_exact.py [PAIRS [SEED [FOLDER..]]]

PAIRS pairs of files are random, the second made from the first by removing, entering and changing lines. As many are text files of this
machine (of FOLDER.., if any is named), those that diff/compare.py takes first. `diff -e` makes the script, `w` and `q` are added.
A script is exact if it has only commands that look at nothing but the number of lines; `diff -e` writes one that isn't, `s/.//`, for a line
that is a full stop alone. Each exact script has to be vouched for over exactly as many lines as the first file has, and its final bounds have to
be the lines of the second. Where a certificate is made, `check` has to accept it, `run` has to write the second file, and with one line more
or less in the first it has to tell that the start lies outside, and leave the file. Build the program first.
"""
import collections
import os
import random
import re
import subprocess
import sys
import tempfile

sys.dont_write_bytecode = True
HERE = os.path.dirname(os.path.abspath(__file__))
sys.path.append(os.path.join(HERE, 'diff'))
import compare

PROGRAM = os.path.abspath(os.path.join(HERE, '../../crates/ed_main/out/ed_main'))
PAIRS, SEED = 1000, 1
# The commands of `diff -e`; a text goes up to a line that is a full stop.
COMMAND = re.compile(rb'(\d+)(?:,\d+)?([acd])|(w|q)|(s/\.//|a)')
WORDS = (b'', b'a', b'b', b'end', b'..', b'x y', b'.a', b'1d', b's/.//', b'\tw')


def kind_of(script):
    """Whether a script is exact, or why not, by its own lines."""
    lines, substitutes = iter(script.split(b'\n')[:-1]), False
    for line in lines:
        found = COMMAND.fullmatch(line)
        if found is None:
            return 'with a line that is none of diff -e'
        substitutes = substitutes or line == b's/.//'
        if found[2] in (b'a', b'c') or line == b'a':
            for text in lines:
                if text == b'.':
                    break
    return 'with s/.//' if substitutes else 'exact'


def random_pairs(count, seed):
    chance = random.Random(seed)
    for _ in range(count):
        full_stops = chance.random() < 0.2
        words = WORDS + (b'.',) * full_stops
        old = [chance.choice(words) for _ in range(chance.choice((0, 1, 2, 5, 20, 100, 1000)))]
        new = []
        for line in old:
            kind = chance.random()
            if kind < 0.1:
                new += [chance.choice(words) for _ in range(chance.choice((1, 2, 3)))]
            new += [] if kind > 0.95 else [chance.choice(words)] if kind > 0.9 else [line]
        new += [chance.choice(words)] * (chance.random() < 0.3)
        yield tuple(b''.join(line + b'\n' for line in lines) for lines in (old, new))


def machine_pairs(folders):
    for _, old, _, new in compare.pairs(folders):
        yield old, new


def ran(words, script):
    return subprocess.run([PROGRAM, *words], input=script, capture_output=True)


def put(name, content):
    with open(name, 'wb') as file:
        file.write(content)


def got(name):
    with open(name, 'rb') as file:
        return file.read()


def wrong_of(old, new, script, certificate):
    """What isn't as it has to be where a certificate was made."""
    final = re.search(rb'^final (\d+) (\d+)$', certificate, re.M)
    if [int(bound) for bound in final.groups()] != [new.count(b'\n')] * 2:
        return f'{final[0]}, and the second file has {new.count(bytes([10]))} lines'
    put('CERT', certificate)
    if ran(['check', 'CERT'], script).stdout != b'accepted\n':
        return 'not accepted'
    for start in [old + b'more\n', *old.split(b'\n', 1)[1:]]:
        put('F', start)
        run = ran(['run', 'CERT', '-s', 'F'], script)
        if (run.returncode, run.stdout, got('F')) != (4, b'start outside the certificate\n', start):
            return 'a start outside was taken'
    put('F', old)
    run = ran(['run', 'CERT', '-s', 'F'], script)
    return None if (run.returncode, run.stdout, got('F')) == (0, b'', new) else f'run: status {run.returncode}, or another file'


def judged(old, new):
    """The kind of the script, what came of it, and what is wrong; None where the files are equal."""
    put('old', old)
    put('new', new)
    script = compare.script_of('old', 'new')
    if script is None:
        return None
    kind, lines = kind_of(script), str(old.count(b'\n'))
    made = ran(['vouch', '--min', lines, '--max', lines, 'F'], script)
    if made.returncode != 0:
        told = made.stdout.decode().strip().rsplit(': ', 1)[-1]
        return kind, f'not vouched for: {told}', None if kind == 'with s/.//' else f'{told}\n{script[:500]}'
    return kind, 'vouched for', wrong_of(old, new, script, made.stdout)


def counted(name, pairs, most):
    tally, failed = collections.Counter(), 0
    for old, new in pairs:
        if sum(tally.values()) == most:
            break
        answer = judged(old, new)
        if answer is None:
            continue
        kind, came, wrong = answer
        tally[kind, came] += 1
        if wrong:
            failed += 1
            print(f'{name}, {kind}: {wrong}', flush=True)
    print(f'{sum(tally.values())} scripts of diff -e, {name}:')
    for (kind, came), number in sorted(tally.items()):
        print(f'{number:8} {kind}, {came}')
    return sum(tally.values()) - failed, failed


def main():
    numbers = [int(word) for word in sys.argv[1:3]]
    count, seed = numbers + [PAIRS, SEED][len(numbers):]
    with tempfile.TemporaryDirectory() as folder:
        os.chdir(folder)
        folders = sys.argv[3:] or compare.FOLDERS
        counts = [
            counted('random files', random_pairs(2 * count, seed), count),
            counted('files of this machine', machine_pairs(folders), count),
        ]
        os.chdir('/')
    passed, failed = (sum(numbers) for numbers in zip(*counts))
    print(f'{passed} passed, {failed} failed')
    sys.exit(failed > 0)


if __name__ == '__main__':
    main()
