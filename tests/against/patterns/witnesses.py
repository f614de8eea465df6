#!/usr/bin/env python3
"""Compares the texts that bre_ask finds for pairs of random patterns with all texts of up to five bytes over `a b c 0`.

    python3 witnesses.py COUNT SEED
    python3 witnesses.py users

Of each pair it is asked which text matches both, one of them alone, or neither. The patterns are those of compare.py without
back-references, half of them anchored at either end. What matches is told by relations of places (Texts), for all texts at once. Each text
that is handed out is tested; where some text of up to five bytes is as is asked, one has to be handed out that is no longer, if any is; and
that there is none is wrong where there is one. With `users` the pairs are those of the patterns of each script of tests/users, and what is printed is how long a script's
questions take. Build crates/bre_ask first, or name the program in BRE_ASK.
"""
import collections
import functools
import itertools
import json
import os
import random
import re
import resource
import statistics
import subprocess
import sys
from pathlib import Path

sys.dont_write_bytecode = True
import compare
import reference

PROGRAM = os.environ.get('BRE_ASK', compare.PROGRAM)
TEXTS = [bytes(text) for size in range(6) for text in itertools.product(b'abc0', repeat=size)]
KINDS = ('mixed', 'nested', 'optional', 'repeats', 'empty', 'anchors')
SIGNS = ('++', '+-', '-+', '--')
USERS = Path(__file__).resolve().parents[2] / 'users'


class Texts:
    """Of some texts those in which patterns match, as a number with a bit for each text. A part of a pattern is a relation of places: for
    each place and each later one the texts in which the part leads from the one to the other."""

    def __init__(self, texts):
        self.texts = texts
        self.last = max(len(text) for text in texts)
        self.idle = {(place, place): self.those(lambda text: len(text) >= place) for place in range(self.last + 1)}

    def those(self, are):
        return sum(1 << number for number, text in enumerate(self.texts) if are(text))

    def part(self, part):
        return getattr(self, part[0].replace(' ', '_'))(*part[1:])

    def sequence(self, items):
        found = self.idle
        for item in items:
            found = then(found, self.part(item))
        return found

    @functools.lru_cache(maxsize=None)
    def set(self, negated, members):
        taken = {byte for byte in range(256) if (chr(byte) in members) != negated}
        return {(place, place + 1): self.those(lambda text: len(text) > place and text[place] in taken) for place in range(self.last)}

    def text_start(self):
        return {(0, 0): self.idle[0, 0]}

    def text_end(self):
        return {(place, place): self.those(lambda text: len(text) == place) for place in range(self.last + 1)}

    def group(self, number, content):
        return self.part(content)

    def repeat(self, least, most, content):
        turn = self.part(content)
        found = self.idle
        for _ in range(least):
            found = then(found, turn)
        for _ in range(self.last if most is None else most - least):
            found = either(found, then(found, turn))
        return found

    def matching(self, tree):
        found = 0
        for texts in self.part(tree).values():
            found |= texts
        return found

    def as_asked(self, question):
        found = self.idle[0, 0]
        for sign, tree in question:
            matching = self.matching(tree)
            found &= matching if sign == '+' else ~matching
        return found


def then(first, second):
    """One relation after the other."""
    found = collections.defaultdict(int)
    for (place, middle), texts in first.items():
        for (start, end), others in second.items():
            if start == middle and texts & others:
                found[place, end] |= texts & others
    return found


def either(first, second):
    return {places: first.get(places, 0) | second.get(places, 0) for places in first.keys() | second.keys()}


def made_pattern(chance):
    """A random pattern without a back-reference."""
    items = compare.Maker(chance.choice(KINDS), chance).pattern()[1]
    if chance.random() < 0.5 and items[:1] != [('text start',)]:
        items = [('text start',)] + items
    if chance.random() < 0.5 and items[-1:] != [('text end',)]:
        items = items + [('text end',)]
    return ('sequence', items)


def asked(questions):
    """What bre_ask says of each question: the bytes of a text, None if it is told that there is none, or 'unknown'."""
    blocks = '\n'.join(''.join(f'{sign}{pattern}\n' for sign, pattern in question) for question in questions)
    told = subprocess.run([PROGRAM, 'witnesses'], input=blocks.encode('latin-1'), capture_output=True, check=True).stdout.split(b'\n')[:-1]
    if len(told) != len(questions):
        sys.exit(f'{len(questions)} questions, {len(told)} answers')
    return [None if line == b'none' else 'unknown' if line == b'unknown' else bytes(json.loads(line)) for line in told]


def compared(count, seed):
    chance = random.Random(seed)
    all_texts = Texts(TEXTS)
    questions, means = [], []
    for number in range(count):
        trees = [made_pattern(chance) for _ in range(2)]
        signs = SIGNS[number % 4]
        questions.append([(sign, reference.spelled(tree)) for sign, tree in zip(signs, trees)])
        means.append(list(zip(signs, trees)))
    tally = collections.Counter()
    for question, mean, answer in zip(questions, means, asked(questions)):
        right = all_texts.as_asked(mean)
        found = TEXTS[(right & -right).bit_length() - 1] if right else None
        if answer is None:
            kind = 'none' if found is None else 'wrong: there is one'
        elif answer == 'unknown':
            kind = 'not told, and none of up to five bytes' if found is None else 'not told'
        elif not Texts([answer]).as_asked(mean):
            kind = 'wrong: another text'
        elif found is not None and len(answer) > len(found):
            kind = 'wrong: too long'
        else:
            kind = 'a text' if found is not None else 'a text, and none of up to five bytes over these letters'
        tally[kind] += 1
        if kind.startswith('wrong') and tally[kind] <= 20:
            print(f'{question}: {answer}, {found}')
    print(f'seed {seed}, {count} pairs: ' + ', '.join(f'{tally[kind]} {kind}' for kind in sorted(tally)))
    return any(kind.startswith('wrong') for kind in tally)


def up_to(text, start, delimiter):
    """A pattern that begins there, and the place after its delimiter. A delimiter in a bracket expression is one of its bytes."""
    place, depth = start, False
    while place < len(text) and (depth or text[place] != delimiter):
        if text[place] == '\\' and not depth:
            place += 1
        elif text[place] == '[' and not depth:
            depth, place = True, place + text.startswith('[^', place)
            place += text.startswith(']', place + 1)
        elif text[place] == ']':
            depth = False
        place += 1
    return text[start:place].replace('\\' + delimiter, delimiter), place + 1


def patterns_of(script):
    """The patterns of a script's commands, each once, the empty one left out."""
    found, is_text = {}, False
    for line in script:
        if is_text:
            is_text = line != '.'
            continue
        place = 0
        while place < len(line):
            if line[place] in '/?' or line[place] in 'gvGVs' and place + 1 < len(line) and not line[place + 1].isalnum():
                command = line[place]
                place += command not in '/?'
                delimiter = line[place]
                pattern, place = up_to(line, place + 1, delimiter)
                found[pattern] = None
                if command == 's':
                    _, place = up_to(line, place, delimiter)
            elif line[place].isalpha():
                is_text = line[place] in 'aic'
                place = len(line) if line[place] not in 'gv' else place + 1
            else:
                place += 1
    found.pop('', None)
    return list(found)


def scripts():
    """The patterns of each script of tests/users."""
    for table in sorted(USERS.glob('*.txt')):
        for record in re.split(r'(?m)^== ', table.read_text(encoding='latin-1'))[1:]:
            lines = record.split('\n')[1:]
            end = next(number for number, line in enumerate(lines) if re.match('-- (start|before)', line))
            yield record.split('\n')[0], patterns_of(lines[:end])


def taken(questions):
    """The milliseconds of the processor that bre_ask takes, and what it says."""
    before = resource.getrusage(resource.RUSAGE_CHILDREN)
    answers = asked(questions)
    after = resource.getrusage(resource.RUSAGE_CHILDREN)
    return 1000 * (after.ru_utime + after.ru_stime - before.ru_utime - before.ru_stime), answers


def measured():
    start = statistics.median(taken([])[0] for _ in range(9))
    times, kinds, each = [], collections.Counter(), []
    for name, patterns in scripts():
        questions = [list(zip(signs, pair)) for pair in itertools.combinations(patterns, 2) for signs in SIGNS[:3]]
        if not questions:
            continue
        time, answers = min((taken(questions) for _ in range(5)), key=lambda one: one[0])
        times.append((time - start, name, len(patterns)))
        each += [(time - start) / len(questions)] * len(questions)
        kinds.update('none' if answer is None else 'not told' if answer == 'unknown' else 'a text' for answer in answers)
    times.sort()
    print(f'{len(times)} scripts with two patterns and more: median {statistics.median(time for time, _, _ in times):.2f} ms, '
          f'most {times[-1][0]:.2f} ms ({times[-1][1]}, {times[-1][2]} patterns); a question takes {statistics.mean(each):.2f} ms on average; '
          + ', '.join(f'{count} {kind}' for kind, count in sorted(kinds.items())))


if __name__ == '__main__':
    if sys.argv[1:] == ['users']:
        measured()
    else:
        sys.exit(compared(int(sys.argv[1]), int(sys.argv[2])))
