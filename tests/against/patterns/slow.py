#!/usr/bin/env python3
"""Looks for patterns with back-references that are slow on short lines, or take much memory.

    python3 slow.py COUNT SEED [BYTES]

The patterns are those of `compare.py COUNT SEED references`. Each is looked for in five lines of some BYTES bytes (68, if it isn't given):
letters of one kind, letters of two kinds in turn, letters at random, and two lines that end in bytes which most patterns need, so that
a match is searched for and not found. A pattern that takes more than a second, or more than 100 MB, is printed with both, and one that
takes more than 5 seconds or 2 GB is stopped. Build crates/bre_ask first.
"""
import collections
import os
import random
import resource
import subprocess
import sys
import tempfile

sys.dont_write_bytecode = True
import compare  # noqa: E402 (bytecode is turned off first)
import reference  # noqa: E402

SECONDS, MEGABYTES = 1, 100


def lines(size, chance):
    at_random = ''.join(chance.choice('aaab') for _ in range(size))
    return ['a' * size, 'ab' * (size // 2), at_random, 'b' + 'a' * (size - 6) + 'cbbca', 'c' + 'aab' * ((size - 6) // 3) + 'cbbc']


def limit():
    resource.setrlimit(resource.RLIMIT_CPU, (5, 5))
    resource.setrlimit(resource.RLIMIT_AS, (2 << 30, 2 << 30))


def figures(pattern, path):
    """Processor seconds and MB, and whether the search came to its end."""
    with open(path) as text:
        child = subprocess.Popen(
            [compare.PROGRAM, 'count', pattern], stdin=text, stdout=subprocess.DEVNULL, stderr=subprocess.DEVNULL, preexec_fn=limit)
        _, status, used = os.wait4(child.pid, 0)
        child.returncode = status
    return used.ru_utime + used.ru_stime, used.ru_maxrss / 1024, status == 0


def main():
    count, seed = int(sys.argv[1]), int(sys.argv[2])
    size = int(sys.argv[3]) if len(sys.argv) > 3 else 68
    tally, most = collections.Counter(), 0
    with tempfile.NamedTemporaryFile('w') as file:
        file.write('\n'.join(lines(size, random.Random(seed))) + '\n')
        file.flush()
        for _, tree, _, _ in compare.cases(count, seed, True):
            pattern = reference.spelled(tree)
            seconds, memory, ended = figures(pattern, file.name)
            most = max(most, seconds)
            tally['stopped'] += not ended
            tally['slow'] += ended and seconds > SECONDS
            tally['large'] += memory > MEGABYTES
            if not ended or seconds > SECONDS or memory > MEGABYTES:
                print(f'{seconds:.2f} s {memory:.0f} MB {"" if ended else "stopped "} {pattern}', flush=True)
    print(f'seed {seed}, {count} patterns on lines of {size} bytes: {tally["stopped"]} stopped, {tally["slow"]} others above {SECONDS} s, '
          f'{tally["large"]} above {MEGABYTES} MB; the slowest {most:.2f} s')


if __name__ == '__main__':
    main()
