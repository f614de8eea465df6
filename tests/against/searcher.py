#!/usr/bin/env python3
"""Compares what one searcher finds in many texts with what `find` and `matches` find in each alone.

    searcher.py [COUNT [SEED [PROCESSES]]]

There are COUNT patterns: those of patterns/compare.py, patterns over any bytes (NUL and those above 127 too), and patterns with more
states than a table holds, as `a.\\{8\\}b`, on texts so long that the table fills up again and again. Each has ten texts and more, of which one
is so long that the searcher makes its automaton. Of each text it is asked whether it matches, and where, from its start or from a place in
it. A searcher is asked as the texts come, another one from the last to the first, a third one in any order: `bre_ask blocks_searched`. Each
answer has to be that of `bre_ask blocks`, which has no searcher. Which texts match is also asked of `grep`, but for patterns with
back-references or with an anchor elsewhere than at an end, and texts with NUL, where `grep` goes by other rules, and for patterns with more
than two intervals, over which it can take very long. In one text of at most ten bytes the place is compared with
patterns/reference.py.
At the end lines of 50 MB are searched, with a text before and one after. Build crates/bre_ask first. 100,000 patterns take some
minutes, `searcher.py 500` a few seconds.
"""
import collections
import multiprocessing
import os
import random
import re
import subprocess
import sys
import time

sys.dont_write_bytecode = True
HERE = os.path.dirname(os.path.abspath(__file__))
sys.path.append(os.path.join(HERE, 'patterns'))
import compare
import reference

PROGRAM = os.path.abspath(os.path.join(HERE, '../../crates/bre_ask/out/bre_ask'))
COUNT, SEED, PROCESSES = 100_000, 1, 2
BATCH = 200
SHOWN = 10
SECONDS = 600
LONG = 50_000_000


class Ended(Exception):
    """A run that did not end as it has to."""


class Case:
    """A pattern, its tree where it has one, its texts, and the questions: each the number of a text, and a place or None."""

    def __init__(self, kind, pattern, tree, texts, chance):
        self.kind, self.pattern, self.tree, self.texts, self.questions = kind, pattern, tree, texts, []
        for number, text in enumerate(texts):
            self.questions.append((number, None))
            self.questions.append((number, 0 if chance.random() < 0.7 else chance.randint(0, len(text))))
            if chance.random() < 0.2:
                self.questions.append((number, chance.randint(0, len(text))))
        shuffled = list(self.questions)
        chance.shuffle(shuffled)
        self.orders = {'as they come': self.questions, 'from the last': self.questions[::-1], 'in any order': shuffled}

    def block(self, questions):
        lines = [b'%s\t%s' % (b'-' if place is None else b'%d' % place, self.texts[number]) for number, place in questions]
        return b'\n'.join([self.pattern, *lines, b'', b''])


def letters(chance, size, among='aaabbc'):
    return ''.join(chance.choice(among) for _ in range(size)).encode()


def small(chance):
    """A pattern of the patterns' bench. One with back-references gets no long text, and is none that takes the reference too long."""
    while True:
        tree = compare.Maker(chance.choice(compare.KINDS), chance).pattern()
        refers = reference.refers(tree)
        texts = [letters(chance, chance.choice((0, 1, 2, 3, 4, 6, 8, 10, 10 if refers else 20))) for _ in range(9)]
        texts.append(letters(chance, 10 if refers else chance.choice((260, 300, 400))))
        if not refers or all(compare.expected(tree, text.decode(), 0) for text in texts):
            chance.shuffle(texts)
            return Case('patterns of a few letters', reference.spelled(tree).encode(), tree, texts, chance)


BYTES = bytes(byte for byte in range(256) if byte != 10)
SPECIAL = b'.[]*^$\\'


def members(chance):
    """A bracket expression over any bytes: single ones and ranges."""
    made = b''
    for _ in range(chance.choice((1, 1, 2, 3))):
        low, high = sorted(chance.choice([byte for byte in BYTES if byte not in b'-[]^\\']) for _ in range(2))
        made += bytes([low]) if chance.random() < 0.4 else bytes([low, 45, high])
    return b'[' + b'^' * (chance.random() < 0.3) + made + b']'


def item(chance, some, depth):
    kind = chance.random()
    if kind < 0.2 and depth:
        made = b'\\(' + b''.join(item(chance, some, depth - 1) for _ in range(chance.choice((1, 2)))) + b'\\)'
    elif kind < 0.45:
        made = members(chance)
    elif kind < 0.55:
        made = b'.'
    else:
        byte = chance.choice(some)
        made = b'\\' * (byte in SPECIAL and byte != 93) + bytes([byte])
    return made + chance.choice((b'', b'', b'', b'*', b'\\{2\\}', b'\\{1,3\\}', b'\\{2,\\}'))


def of_bytes(chance):
    some = [chance.choice(BYTES) for _ in range(4)] + [0, 255]
    items = b''.join(item(chance, some, 2) for _ in range(chance.choice((1, 2, 3, 4))))
    pattern = b'^' * (chance.random() < 0.1) + items + b'$' * (chance.random() < 0.1)
    texts = []
    for size in (0, 1, 2, 3, 5, 8, 12, 20, 40, 300, 300):
        texts.append(bytes(chance.choice(some if chance.random() < 0.7 else BYTES) for _ in range(size)))
    chance.shuffle(texts)
    return Case('patterns over any bytes', pattern, None, texts, chance)


WIDE = (
    r'a.\{%d\}b', r'a.\{%d\}c', r'a[ab]\{%d\}c', r'\(a.\{%d\}a\)*c', r'[ab]*a[ab]\{%d\}c', r'b.\{%d\}c$', r'\(a\)*b.\{%d\}cc',
    r'^.*a.\{%d\}c', r'a.\{%d\}bc*$',
)


def wide(chance):
    """A pattern with up to 2^12 states. Texts without a `c` are scanned to their ends by most of them."""
    pattern = chance.choice(WIDE) % chance.randint(5, 12)
    sizes = (0, 3, 8, 20, 40, 100, 300, 300, 1000, 3000, 6000)
    texts = [letters(chance, size, chance.choice(('ab', 'ab', 'aab', 'abbb', 'aaabbc'))) for size in sizes]
    chance.shuffle(texts)
    return Case('patterns with many states', pattern.encode(), None, texts, chance)


def is_for_grep(case):
    # `grep` writes intervals out, and can take very long over those in one another.
    if case.tree is not None and reference.refers(case.tree) or b'\0' in case.pattern or case.pattern.count(b'\\{') > 2:
        return False
    outside = re.sub(rb'\[\^?.[^]]*\]', b'x', case.pattern, flags=re.S)
    return not re.search(rb'(?<!^)\^|(?<!\\)\$(?!$)', outside)


def grepped(case):
    """The numbers of the texts in which `grep` finds the pattern, or None where it refuses it."""
    done = subprocess.run(
        ['grep', '-a', '-n', '-e', os.fsdecode(case.pattern)], input=b'\n'.join(case.texts) + b'\n', capture_output=True,
        env={**os.environ, 'LC_ALL': 'C'}, timeout=SECONDS)
    return {int(line.split(b':', 1)[0]) - 1 for line in done.stdout.split(b'\n') if line} if done.returncode < 2 else None


def ran(word, blocks):
    done = subprocess.run([PROGRAM, word], input=b''.join(blocks), capture_output=True, timeout=SECONDS)
    if done.returncode != 0:
        raise Ended(f'{word}: status {done.returncode}, {done.stderr[:300]}')
    return done.stdout.splitlines()


def answers(cases_and_questions, word):
    """For each block its answers, or None where its pattern is none."""
    told = iter(ran(word, [case.block(questions) for case, questions in cases_and_questions]))
    found = []
    for _, questions in cases_and_questions:
        first = next(told, b'')
        found.append(None if first == b'not a pattern' else dict(zip(questions, [first, *(next(told, b'') for _ in questions[1:])])))
    if next(told, None) is not None:
        raise Ended(f'{word}: more lines than were asked for')
    return found


def shown(case, question, what):
    number, place = question
    text = case.texts[number]
    return f'{case.pattern!r} on {text[:300]!r} ({len(text)} bytes) {"matches" if place is None else f"from {place}"}: {what}'


def judged(case, alone, searched):
    """What is wrong with the answers, and what was compared."""
    counts, wrong = collections.Counter(), []
    for order, found in searched.items():
        for question, right in alone.items():
            counts['answers of a searcher, compared with one alone'] += 1
            if found[question] != right:
                wrong.append(shown(case, question, f'{right}, and a searcher asked {order} says {found[question]}'))
    by_grep = grepped(case) if is_for_grep(case) else None
    is_referred = case.tree is None
    for question, answer in alone.items():
        number, place = question
        text = case.texts[number]
        if place is None and by_grep is not None and b'\0' not in text:
            counts['answers compared with grep'] += 1
            if (answer == b'yes') != (number in by_grep):
                wrong.append(shown(case, question, f'{answer}, and grep says otherwise'))
        if place is not None and not is_referred and len(text) <= 10:
            is_referred = True
            right = compare.expected(case.tree, text.decode(), place)
            counts['places compared with the reference'] += right is not None
            if right is not None and answer.decode() != right:
                wrong.append(shown(case, question, f'{answer}, and the reference says {right}'))
    return wrong, counts


def batch(part):
    try:
        return compared(*part)
    except (Ended, subprocess.TimeoutExpired) as ended:
        return collections.Counter(WRONG=1), [f'patterns from number {part[0]} on: {ended}']


def compared(first, count, seed):
    cases, tally, wrong = [], collections.Counter(), []
    for number in range(first, first + count):
        chance = random.Random(seed * 1000003 + number)
        cases.append((wide if number % 50 == 49 else of_bytes if number % 5 == 4 else small)(chance))
    alone = answers([(case, case.questions) for case in cases], 'blocks')
    asked = [(case, order, questions) for case in cases for order, questions in case.orders.items()]
    found = answers([(case, questions) for case, _, questions in asked], 'blocks_searched')
    by_case = collections.defaultdict(dict)
    for (case, order, _), told in zip(asked, found):
        by_case[id(case)][order] = told
    for case, right in zip(cases, alone):
        searched = by_case[id(case)]
        if right is None or None in searched.values():
            tally[f'{case.kind}: no pattern' if right is None and set(searched.values()) == {None} else 'WRONG'] += 1
            continue
        faults, counts = judged(case, right, searched)
        tally += counts
        tally['WRONG' if faults else case.kind] += 1
        wrong += faults
    return tally, wrong


# A match of 50 MB with groups takes minutes, with a searcher or without, so there is none.
LONG_LINES = (
    ('ax', b'ax' * (LONG // 2), (rb'\(a\)*b', rb'[a-z]*y', rb'a.\{8\}b', rb'\(ax\)*c', rb'x.\{3\}ab$', rb'.*')),
    ('a, and b at its end', b'a' * (LONG - 1) + b'b', (rb'[a-z]*y', rb'a*bc', rb'.*b', rb'aab$')),
)


def long_lines():
    """Patterns and lines of 50 MB, with a text before each and some after."""
    for name, line, patterns in LONG_LINES:
        for pattern in patterns:
            case = Case('lines of 50 MB', pattern, None, [b'a' * 300, line, b'aab' * 5, b'axb'], random.Random(1))
            case.questions = [(0, None), (0, 0), (1, None), (1, 0), (1, LONG - 20), (2, None), (2, 0), (3, 0)]
            yield name, case


def long_line(name, case):
    """Whether a searcher answers the same, and how long both take."""
    found, seconds = [], []
    for word in ('blocks', 'blocks_searched'):
        began = time.time()
        try:
            found.append(answers([(case, case.questions)], word)[0])
        except (Ended, subprocess.TimeoutExpired) as ended:
            print(f'{case.pattern.decode()} on 50 MB of {name}: {ended}', flush=True)
            return False
        seconds.append(time.time() - began)
    print(f'{case.pattern.decode():12} on 50 MB of {name}: alone {seconds[0]:.1f} s, by a searcher {seconds[1]:.1f} s', flush=True)
    if found[0] != found[1]:
        print(f'  alone {found[0]}\n  by a searcher {found[1]}', flush=True)
    return found[0] == found[1]


def main():
    words = [int(word) for word in sys.argv[1:]]
    count, seed, processes = words + [COUNT, SEED, PROCESSES][len(words):]
    tally, to_show = collections.Counter(), SHOWN
    parts = [(first, min(BATCH, count - first), seed) for first in range(0, count, BATCH)]
    with multiprocessing.Pool(processes) as pool:
        for counts, wrong in pool.imap_unordered(batch, parts):
            tally += counts
            for line in wrong[:to_show]:
                print(line, flush=True)
            to_show -= len(wrong[:to_show])
    for name, case in long_lines() if count >= COUNT else ():
        tally['lines of 50 MB' if long_line(name, case) else 'WRONG'] += 1
    print(f'{count} patterns, seed {seed}:')
    for kind, number in sorted(tally.items()):
        print(f'{number:9} {kind}')
    compared = 'answers of a searcher, compared with one alone', 'answers compared with grep', 'places compared with the reference'
    failed = tally['WRONG']
    print(f'{sum(tally.values()) - failed - sum(tally[name] for name in compared)} passed, {failed} failed')
    sys.exit(failed > 0)


if __name__ == '__main__':
    main()
