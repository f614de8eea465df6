#!/usr/bin/env python3
"""Follows the hints on random scripts that search for a line of which there is one, and compares what GNU ed leaves.

    python3 single_matches.py COUNT SEED

Each script has a search, forward or backward, in front of a command of each kind, and half of them have commands before it that set the current
line, so that the search goes round an end of the file or not. Just one line of the file matches. The first hint is followed by its words alone
(`../verifier/hint_follower.py`), and so is the first one by which the script is another: GNU ed leaves the file that it left, or the hint's words
tell of the difference. That a global command takes the lines from the current one on, or back, tells of none. Without COUNT it is 600, without
SEED 1. It needs `ed`, and runs the program that `make` built, or PROGRAM."""
import os
import random
import sys

sys.path.insert(0, os.path.join(os.path.dirname(os.path.abspath(__file__)), '..', 'verifier'))
from hint_follower import left_by_script, lines_of, silent, steps

# What commands before the search go to.
BEFORE = ['1', '2', '3', '$', '$-1', '1p', '2p', '2,3p', '.-1', '/other/', '?other?', '/first/', "2ka\n'a", '1,2s/^/z/', '$d', '1d', '2d', '0a\nnew\n.',
          '$a\nnew\n.', '2i\nnew\n.', '1m$', '2t.', 'g/other/p', 'v/key/p']
# What the command does with the line that is found.
RESTS = ['d', 's/a/b/', 's/key/lock/', 's//lock/', 's/$/;/', 's/a/b/g', 'c\nnew\n.', 'a\nnew\n.', 'i\nnew\n.', 'm0', 'm$', 't0', 't$', 'j', 'ka', 'p',
         '=', 'l', '+1d', '-1d', '+1s/a/b/', ',$d', ';+1d', ';/other/d', ',/other/d', '\ns/a/b/', '\nd', '\na\nnew\n.', 'w out', 'r extra']
LINES = ['other a', 'first', 'other', 'a', 'last a', 'b', 'aa', 'first other']


def case_of(generator):
    """A script, and a file of which one line matches its search."""
    lines = [generator.choice(LINES) for _ in range(generator.randrange(2, 7))]
    lines[generator.randrange(len(lines))] = generator.choice(['key', 'key a', 'a key', 'key other'])
    before = [generator.choice(BEFORE) for _ in range(generator.randrange(1, 4))] if generator.random() < 0.5 else []
    quote = generator.choice('//?')
    search = f'{quote}key{quote}{generator.choice(RESTS)}'
    script = '\n'.join([*before, search, 'w', 'q']) + '\n'
    return script.encode(), ('\n'.join(lines) + '\n').encode()


def followed(found, script):
    """The first hint, and the first one by which the script is another."""
    others = [hint for hint in found if hint[1] != script]
    return found[:1] if found[:1] == others[:1] else found[:1] + others[:1]


def main():
    count = int(sys.argv[1]) if len(sys.argv) > 1 else 600
    seed = int(sys.argv[2]) if len(sys.argv) > 2 else 1
    generator = random.Random(seed)
    refused = pairs = differ = wrong = 0
    for _ in range(count):
        script, content = case_of(generator)
        status, at, lines, found = steps(script, ['--min', str(generator.choice([0, 1, 2])), '--max', 'any', 'F'])
        if status != 1:
            continue
        refused += 1
        files = {'F': content, 'extra': b'extra\n'}
        if left_by_script(lines, files)[0] is not None:
            continue
        for text, new, *_ in followed(found, script):
            pairs += 1
            differ += left_by_script(lines_of(new), files)[1] != left_by_script(lines, files)[1]
            why = silent(lines, at, text, new, files)
            if why:
                wrong += 1
                print(f'{script!r} over {content!r} -> {new!r}: {text}: {why}')
    print(f'{count} scripts of seed {seed}: {refused} refused, {pairs} hints followed, {differ} leave another file, {wrong} of them in silence')
    sys.exit(wrong > 0)


main()
