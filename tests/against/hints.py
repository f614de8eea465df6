#!/usr/bin/env python3
"""Follows the hints on random scripts, with commands after the one that fails, and compares what GNU ed leaves.

    python3 hints.py COUNT SEED

Each script has a command that searches, of each kind, maybe others before it, and one to three after it, of which some work on the line that
it leaves. Every hint on it is followed by its words alone (`../verifier/hint_follower.py`), and both scripts are run by GNU ed over files in
which no line, one line and several lines match. A difference has to be told by the hint: that it takes every line that matches, that the
script goes on where none does, or which command then works on another line. The first hint is followed further, till the script is vouched
for. Without COUNT it is 200, without SEED 1. It needs `ed`, and runs the program that `make` built, or PROGRAM."""
import os
import random
import sys

sys.path.insert(0, os.path.join(os.path.dirname(os.path.abspath(__file__)), '..', 'verifier'))
from hint_follower import silent, steps

PATTERNS = ['^port=', '^host', 'x', '=8', '^# end', 'o.t']
FILES = [
    b'alpha\nbeta\ngamma\n',
    b'port=80\nhost a\n# end\n',
    b'[main]\nname=x\nport=80\n[other]\nhost b\nport=81\nlast\n',
    b'one\nx=8\ntwo\nfort\nx=9\nthree\n# end\nfour\n',
    b'port=8\nport=8x\nhost\nhost x=8\n# end\n# end\nz\n',
    b'a\nb\nc\nd\ne\nport=80\n',
]


def after_search(random, pattern):
    """A command that begins with a search."""
    rests = [
        'd', 's/=.*/=1/', 's//new/', 'a\nnew\n.', 'i\nnew\n.', 'c\nnew\n.', 'p', 't$', 't0', 't.', 'm0', 'm$', 'ka', '=', 'w out', 'r extra',
        'j', ',$d', ',+1d', ';+1d', ',$t.', ',.d', 'l', '-1d', '+1s/a/b/', 'a\n..\n.', 's/a/b/g', ';/x/d', ',/x/d',
    ]
    return f'/{pattern}/' + random.choice(rests)


def failing(random):
    """A command, or two, of which one searches or substitutes."""
    pattern = random.choice(PATTERNS)
    kind = random.randrange(10)
    if kind < 6:
        return after_search(random, pattern)
    if kind == 6:
        return f'?{pattern}?' + random.choice(['d', 's//y/', 'p', 'm0', 'a\nnew\n.'])
    if kind == 7:
        return f'/{pattern}/\n' + random.choice(['d', 's/a/b/', 'a\nnew\n.', '.,$d', 'p', 'm0', 'ka', '+1d', '/x/d'])
    addresses = random.choice(['', ',', '1,$', '2,3', '.,$', '1', '$'])
    return f'{addresses}s/{pattern}/' + random.choice(['new/', '&&/', '/', 'y/g'])


LATER = [
    'd', 's/.$//', '.d', '.,$d', 'a\nlater\n.', 'i\nlater\n.', '+1d', '-1d', 's//z/', '.r extra', 'u', 'p', '=', '$d', '1d', '$a\nend\n.',
    '1,2p', 'g/a/s//A/', 'w copy', 'k', 'kb', 't.', 'm0', 'j', 'n', '/x/d', '1p', '.t$', "'ad", '1p\nu', '$d\nu', 'u\nd',
]


def script_of(random):
    """A script: commands before, one that may fail, commands after, and its end."""
    before = random.choices(['', '1p\n', '1d\n', '$a\ntop\n.\n', '2p\n', '/x/p\n', 'g/a/s//b/\n', '$ka\n'], [6, 1, 1, 1, 1, 1, 1, 1])[0]
    later = [random.choice(LATER) for _ in range(random.randrange(1, 4))]
    later = ['ka' if command == 'k' else command for command in later]
    return (before + failing(random) + '\n' + '\n'.join(later) + '\nw\nq\n').encode()


def main():
    count = int(sys.argv[1]) if len(sys.argv) > 1 else 200
    seed = int(sys.argv[2]) if len(sys.argv) > 2 else 1
    generator = random.Random(seed)
    followed = pairs = refused = wrong = 0
    for _ in range(count):
        script = script_of(generator)
        start = ['--min', str(generator.choice([0, 1, 3])), '--max', 'any', 'F']
        for _ in range(8):
            status, at, lines, found = steps(script, start)
            refused += status == 1
            if status != 1 or not found:
                break
            for text, new, *_ in found:
                if new == script:
                    continue
                followed += 1
                for content in FILES:
                    pairs += 1
                    why = silent(lines, at, text, new, {'F': content, 'extra': b'extra\n'})
                    if why:
                        wrong += 1
                        print(f'{script!r} -> {new!r}: {text}: {why}')
            _, script, start = found[0]
    print(f'{count} scripts of seed {seed}: {refused} refusals, {followed} hints followed to another script, {pairs} runs, {wrong} silent differences')
    sys.exit(wrong > 0)


main()
