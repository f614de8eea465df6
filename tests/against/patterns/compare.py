#!/usr/bin/env python3
"""Compares where bre_ask finds random patterns in random texts with where reference.py does.

    python3 compare.py COUNT SEED [references]

Patterns are small and hostile: groups in groups, optional groups of two or three bytes side by side, repeats of repeats,
turns that may be empty, anchors within groups and repeats, and back-references, also to groups in repeats and after several
repeats, through which ways meet. A pattern with a back-reference whose ways are too many for the reference is left out. With
`references` each of the COUNT cases has one; texts may be longer, and a third of the patterns repeat a group among plain items
and refer to it later. Build crates/bre_ask first.
"""
import collections
import itertools
import os
import random
import subprocess
import sys

sys.dont_write_bytecode = True
import reference

PROGRAM = os.path.join(os.path.dirname(os.path.abspath(__file__)), '../../../crates/bre_ask/out/bre_ask')
REPEATS = [(0, None)] * 4 + [(0, 1)] * 4 + [(1, 2), (0, 2), (2, None), (1, None), (2, 2), (2, 3), (3, 5), (0, 0), (1, 1)]

# How many items a sequence has. Ways meet where several items of it are repeated.
SIZES = {'empty': (0, 1, 1, 2), 'meeting': (2, 3, 4, 5)}


class Maker:
    """A random pattern of one kind."""

    def __init__(self, kind, chance):
        self.kind = kind
        self.chance = chance
        self.opened = 0
        self.closed = []

    def word(self):
        letters = [('set', False, self.chance.choice('aab')) for _ in range(self.chance.choice((1, 2, 2, 3)))]
        return ('sequence', letters)

    def group(self, content):
        number = self.opened
        self.opened += 1
        made = ('group', number, content())
        if number < 9:
            self.closed.append(number)
        return made

    def atom(self, depth):
        chance = self.chance.random()
        if self.kind in ('reference', 'meeting') and self.closed and chance < 0.35:
            return ('reference', self.chance.choice(self.closed[-3:]))
        if depth > 0 and self.opened < 11 and chance < (0.7 if self.kind in ('nested', 'empty') else 0.55):
            return self.group(lambda: self.content(depth - 1))
        negated = self.chance.random() < 0.1
        members = self.chance.choice(['a', 'a', 'b', 'b', 'c', 'ab', '' if not negated else 'c'])
        return ('set', negated or not members, members)

    def item(self, depth):
        made = self.atom(depth)
        repeated = {'repeats': 0.75, 'empty': 0.7, 'meeting': 0.6}.get(self.kind, 0.4)
        while self.chance.random() < repeated:
            least, most = self.chance.choice(REPEATS)
            made = ('repeat', least, most, made)
            repeated /= 1.6 if self.kind == 'repeats' else 3
        return made

    def optional(self):
        made = self.group(self.word) if self.opened < 9 else self.word()[1][0]
        return ('repeat', 0, self.chance.choice((1, 1, 1, 2, None)), made)

    def content(self, depth):
        anchored = 0.25 if self.kind == 'anchors' else 0.03
        items = []
        if self.chance.random() < anchored:
            items.append(('text start',))
        for _ in range(self.chance.choice(SIZES.get(self.kind, (1, 1, 2, 2, 3)))):
            items.append(self.optional() if self.kind == 'optional' and self.chance.random() < 0.5 else self.item(depth))
        if self.chance.random() < anchored:
            items.append(('text end',))
        return ('sequence', items)

    def plain(self):
        made = ('set', *self.chance.choice(((False, 'a'), (False, 'a'), (False, 'a'), (False, 'b'), (False, 'ab'), (True, ''))))
        return ('repeat', *self.chance.choice(REPEATS), made) if self.chance.random() < 0.4 else made

    def row(self, *sizes):
        return [self.plain() for _ in range(self.chance.choice(sizes))]

    def turn(self):
        """What a group repeats: plain items, and sometimes another group or a back-reference among them."""
        made = self.row(1, 1, 1, 2)
        if self.chance.random() < 0.2:
            made.insert(self.chance.randrange(len(made) + 1), self.group(lambda: ('sequence', self.row(1, 2))))
        if self.closed and self.chance.random() < 0.15:
            made.append(('reference', self.chance.choice(self.closed)))
        return ('sequence', made)

    def turned(self):
        """Plain items, some of them in a group, a repeated group, and a back-reference later."""
        made = self.row(0, 0, 1, 2)
        if self.chance.random() < 0.3:
            made.append(self.group(lambda: ('sequence', self.row(1, 1, 2))))
            made += self.row(0, 1)
        for _ in range(self.chance.choice((1, 1, 1, 2))):
            made.append(('repeat', *self.chance.choice(REPEATS), self.group(self.turn)))
            made += self.row(0, 0, 1)
        for _ in range(self.chance.choice((1, 1, 2))):
            made.append(('reference', self.chance.choice(self.closed)))
            made += self.row(0, 0, 1)
        return ('sequence', made + [('text end',)] * (self.chance.random() < 0.3))

    def pattern(self):
        return self.turned() if self.kind == 'turned' else self.content(self.chance.choice((1, 2, 2, 3)))


KINDS = ('mixed', 'nested', 'optional', 'repeats', 'empty', 'anchors', 'reference', 'meeting')
SIZES_OF_TEXTS = (0, 1, 2, 3, 4, 5, 6, 7, 8, 10)


def made_cases(kinds, letters, sizes, seed):
    """Cases without end: the kind, the pattern, the text and the place to begin at."""
    chance = random.Random(seed)
    for kind in itertools.cycle(kinds):
        tree = Maker(kind, chance).pattern()
        text = ''.join(chance.choice(letters) for _ in range(chance.choice(sizes)))
        begin = 0 if chance.random() < 0.8 else chance.randrange(len(text) + 1)
        yield kind, tree, text, begin


def cases(count, seed, with_references=False):
    """So many cases, all of them with a back-reference where that is asked for."""
    if with_references:
        made = made_cases(KINDS + ('turned',), 'aaaaaabbbc', SIZES_OF_TEXTS + (9, 11, 12, 14), seed)
        return itertools.islice((case for case in made if reference.refers(case[1])), count)
    return itertools.islice(made_cases(KINDS, 'aaabbc', SIZES_OF_TEXTS, seed), count)


def expected(tree, text, begin):
    """What bre_ask is to print, or None where that takes too long."""
    try:
        found = reference.Match(text).find(tree, begin)
    except (reference.TooSlow, RecursionError):
        return None
    if found is None:
        return 'none'
    start, (end, groups) = found
    return ' '.join([f'{start}-{end}'] + ['-' if span is None else f'{span[0]}-{span[1]}' for span in groups])


def main():
    count, seed = int(sys.argv[1]), int(sys.argv[2])
    lines, wanted, tally = [], [], collections.Counter()
    for kind, tree, text, begin in cases(count, seed, sys.argv[3:] == ['references']):
        answer = expected(tree, text, begin)
        tally['too slow for the reference'] += answer is None
        tally['with a back-reference'] += reference.refers(tree)
        if answer is None and reference.refers(tree):
            tally['left out'] += 1
            continue
        lines.append(f'{begin}\t{reference.spelled(tree)}\t{text}')
        wanted.append(answer)
    told = subprocess.run([PROGRAM, 'places'], input='\n'.join(lines) + '\n', capture_output=True, text=True, check=True)
    found = told.stdout.splitlines()
    if len(found) != len(lines):
        sys.exit(f'{len(lines)} lines given, {len(found)} answered: {told.stderr}')
    for line, right, answer in zip(lines, wanted, found):
        if right is None:
            continue
        tally['equal' if right == answer else 'different'] += 1
        tally['of them without a match'] += right == answer == 'none'
        if right != answer and tally['different'] <= 20:
            print(f'{line}\n  reference {right}\n  bre_ask {answer}')
    print(f'seed {seed}, {count} cases: ' + ', '.join(f'{tally[name]} {name}' for name in (
        'equal', 'of them without a match', 'different', 'with a back-reference', 'too slow for the reference', 'left out')))
    sys.exit(tally['different'] > 0)


if __name__ == '__main__':
    main()
