#!/usr/bin/env python3
"""Compares random `s` commands of our editor with a plain reference, with `ed` and with `sed`.

    python3 compare.py COUNT SEED

The reference says what the standard does: it takes the matches of ../patterns/reference.py from the left, and replaces those that
the flags pick. Each case must equal it. Where `ed` or `sed` differs from both, the case is counted by its cause (causes.py), and shown
where it has none. Build the program first.
"""
import collections
import os
import random
import subprocess
import sys
import tempfile

sys.dont_write_bytecode = True
HERE = os.path.dirname(os.path.abspath(__file__))
sys.path.insert(0, os.path.join(HERE, '../patterns'))
import causes
import compare
import reference
from substitution import replaced

PROGRAM = os.path.join(HERE, '../../../crates/ed_main/out/ed_main')
SHOWN = 20


def replacement(chance, groups):
    """Parts of a replacement, each as it is spelled and as what it stands for: a byte, a split, or a group with 0 for the match.

    Each group is one that the pattern has: `ed` and `sed` refuse others.
    """
    parts = []
    for _ in range(chance.choice((0, 1, 1, 2, 2, 3))):
        kind = chance.random()
        if kind < 0.3 or groups == 0 and kind < 0.55:
            parts.append(('&', 0))
        elif kind < 0.55:
            number = chance.randint(1, min(groups, 9))
            parts.append((f'\\{number}', number))
        elif kind < 0.62:
            parts.append(('\\\n', '\n'))
        elif kind < 0.7:
            byte = chance.choice('&\\')
            parts.append(('\\' + byte, byte))
        else:
            byte = chance.choice('xyz-')
            parts.append((byte, byte))
    return parts


def expected(tree, parts, which, lines, first, last):
    """The numbered lines that are printed at the end, after the last line that was made; or the fault's report."""
    made, at = [], None
    for number, line in enumerate(lines, 1):
        new = replaced(tree, [part for _, part in parts], which, line) if first <= number <= last else None
        made += [line] if new is None else new
        at = at if new is None else len(made)
    if at is None:
        return '?\n'
    return f'{at}\n' + ''.join(f'{number}\t{line}\n' for number, line in enumerate(made, 1))


def output(command, script):
    return subprocess.run(command, input=script, capture_output=True, text=True).stdout


def cases(count, seed):
    """The kind of the pattern, its tree, the parts, the flag, the lines and the range."""
    chance = random.Random(seed)
    patterns = compare.cases(count, seed)
    for kind, tree, text, _ in patterns:
        lines = [text] + [''.join(chance.choice('aaabbc') for _ in range(chance.randrange(8))) for _ in range(chance.randrange(3))]
        chance.shuffle(lines)
        first = chance.randint(1, len(lines))
        which = chance.choice((1, 1, 'g', 'g', 'g', 2, 3))
        yield kind, tree, replacement(chance, reference.spelled(tree).count('\\(')), which, lines, first, chance.randint(first, len(lines))


def main():
    count, seed = int(sys.argv[1]), int(sys.argv[2])
    tally, known, wrong, unexplained = collections.Counter(), collections.Counter(), 0, 0
    folder = tempfile.mkdtemp()
    path = os.path.join(folder, 'F')
    for kind, tree, parts, which, lines, first, last in cases(count, seed):
        if not reference.spelled(tree):
            # No pattern is the remembered one, and there is none.
            continue
        try:
            right = expected(tree, parts, which, lines, first, last)
        except (reference.TooSlow, RecursionError):
            tally['too slow for the reference'] += 1
            continue
        delimiter = '/' if seed % 2 else '#'
        flags = {1: '', 'g': 'g'}.get(which, str(which))
        command = f's{delimiter}{reference.spelled(tree)}{delimiter}{"".join(spelled for spelled, _ in parts)}{delimiter}{flags}\n'
        script = f'{first},{last}{command}.=\n,n\nQ\n'
        with open(path, 'w') as file:
            file.write('\n'.join(lines) + '\n')
        ours = output([PROGRAM, 'edit', '-s', path], script)
        tally['equal' if ours == right else 'DIFFERENT'] += 1
        tally['of them without a match'] += ours == right == '?\n'
        if ours != right:
            wrong += 1
            print(f'lines {lines}\nscript {script!r}\n  reference {right!r}\n  ours      {ours!r}')
        others = output(['ed', '-s', path], script)
        differing = {}
        # After a fault `ed` goes on with the next command.
        if not others.startswith(right) if right == '?\n' else others != right:
            differing['ed'] = others, output(['ed', '-s', path], 'H\n' + script)
        if right != '?\n':
            told = output(['sed', f'{first},{last}{command.rstrip()}', path], '')
            if told != ''.join(line.split('\t', 1)[1] + '\n' for line in right.splitlines()[1:]):
                differing['sed'] = told, ''
        for program, (told, reason) in differing.items():
            tally[f'where {program} differs'] += 1
            cause = causes.cause(program, tree, lines[first - 1:last], which, reason)
            known[program, cause or 'NO CAUSE'] += 1
            unexplained += cause is None
            if cause is None and unexplained <= SHOWN:
                print(f'[{kind}] lines {lines}\n  script {script!r}\n  ours {right!r}\n  {program:4} {told!r} {reason!r}')
    print(f'seed {seed}, {count} cases: ' + ', '.join(f'{number} {name}' for name, number in tally.items()))
    for (program, cause), number in sorted(known.items()):
        print(f'{number:6} {program:4} {cause}')
    print(f'{unexplained} differences without a cause')
    sys.exit(wrong > 0)


if __name__ == '__main__':
    main()
