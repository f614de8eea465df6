#!/usr/bin/env python3
"""Runs random scripts that are vouched for with stated patterns, over files that have a line for each of them and over others.

    has.py [COUNT [SEED [PROCESSES]]]

A script is vouched for with random bounds, `--patterns` and any number of `--has`. Where that gives a certificate, `check` has to accept it,
and `run` and `fits` are asked about RUNS files, some of them missing. Whether a file is allowed is told here, by its number of lines and by
Python's own regular expressions: over one that is, the run has to end without a fault, and to leave a number of lines within `final`; over
another one, `run` and `fits` print `start outside the certificate`, with status 4, and leave the file as it was. Build the program first.
20,000 scripts take some minutes.
"""
import collections
import os
import random
import re
import shutil
import subprocess
import sys
import tempfile

import tally

PROGRAM = os.path.abspath(os.path.join(os.path.dirname(__file__), '../../crates/ed_main/out/ed_main'))
COUNT, SEED, PROCESSES = 20_000, 1, 2
RUNS = 6
SECONDS = 120
OUTSIDE = b'start outside the certificate\n'
# Patterns, and what Python calls the same.
PATTERNS = {
    'foo': 'foo', '^a': '^a', 'b$': 'b$', '^$': '^$', 'x*': 'x*', '[0-9]': '[0-9]', 'a.*b': 'a.*b', r'\(a\)\1': r'(a)\1', r'[ab]\{2\}': '[ab]{2}', '-': '-',
    '[[:upper:]]': '[A-Z]', r'^\(ab\)*$': '^(ab)*$',
}
LINES = ('foo', 'a', 'ab', 'b', '', 'aa', 'x-x', 'Q', '7', 'a fool b', 'zz', 'abab')
CHANGED = ('s/$/ b/', 's/^/a/', 's/.*/foo/', 's/x*/-/g')


class Wrong(Exception):
    """What was not as it has to be."""


class Maker:
    """Makes a random script. Its searches are mostly by few patterns, so that a pattern is searched for again after other commands."""

    def __init__(self, chance):
        self.chance, self.lines, self.has_pattern, self.is_altered = chance, [], False, False
        self.patterns = chance.sample(list(PATTERNS), chance.choice((1, 1, 2, 3)))
        for _ in range(chance.choice((1, 2, 3, 4, 6, 8))):
            self.command()
        self.lines += chance.choice((['w', 'q'], ['w', 'Q'], ['w'], ['w', 'Q', '/zz/d']))

    def search(self):
        chance = self.chance
        pattern = chance.choice(self.patterns) if chance.random() < 0.95 else chance.choice(('zz', 'foo', '' if self.has_pattern else 'a'))
        self.has_pattern = True
        offset = chance.choice(('', '', '', '', '', '-0', '+0'))
        return chance.choice((f'/{pattern}/', f'/{pattern}/', f'?{pattern}?')) + offset

    def address(self):
        kind = self.chance.random()
        return self.search() if kind < 0.5 else self.chance.choice(('$', '$', '1', '.')) if kind < 0.97 else self.chance.choice(('2', "'a", '$-1'))

    def addresses(self):
        kind = self.chance.random()
        if kind < 0.75:
            return self.address()
        return self.chance.choice((',', '1,$', f'1,{self.search()}', f'{self.search()},$', f'{self.search()};.', f'1;{self.search()}'))

    def text(self):
        return [self.chance.choice(LINES) for _ in range(self.chance.choice((0, 1, 1, 2)))]

    def command(self):
        chance = self.chance
        kind = chance.choice('aaaaicccdsjmmttkkpp=nuugggvwHrf')
        if kind in 'ai':
            self.lines += [chance.choice(('$', '$', '1', self.address())) + kind, *self.text(), '.']
        elif kind == 'c':
            self.lines += [self.addresses() + 'c', *self.text(), '.']
        elif kind == 's':
            self.lines.append(self.addresses() + chance.choice(CHANGED))
        elif kind in 'mt':
            self.lines.append(self.addresses() + kind + chance.choice(('0', '0', '$', self.search())))
        elif kind == 'k':
            self.lines.append(self.address() + 'ka')
        elif kind in 'gv':
            self.every(kind)
        elif kind == 'r':
            self.lines.append('$r F')
        elif kind in 'wHf' or kind == 'u' and self.is_altered:
            self.lines.append(kind)
        elif kind == 'u':
            self.lines.append('=')
        else:
            self.lines.append(self.addresses() + kind)
        self.is_altered = self.is_altered or kind in 'dsmt' or kind in 'aic' and len(self.lines) > 2 and self.lines[-2] in LINES

    def every(self, kind):
        """A global command with its list, in which nothing doubles the buffer."""
        chance, pattern = self.chance, self.chance.choice((*self.patterns, *self.patterns, 'foo', '' if self.has_pattern else 'b$'))
        self.has_pattern = True
        listed = []
        for _ in range(chance.choice((1, 1, 2))):
            listed.append(chance.choice(('p', 'd', 't.', 'm0', 'ka', 's/a/b/', 's//x/', f'?{pattern}?p', f'/{pattern}/p', f'{self.search()}p', f'1,{self.search()}n', 'j')))
        self.lines += f'{kind}/{pattern}/'.join(('', '\\\n'.join(listed))).split('\n')


class Case:
    """A script with what it is vouched for with, in a folder of its own."""

    def __init__(self, chance, folder):
        self.chance, self.folder, maker = chance, folder, Maker(chance)
        self.script = ''.join(line + '\n' for line in maker.lines).encode()
        self.low = chance.choice((0, 1, 1, 1, 2))
        self.high = chance.choice((None, None, self.low, self.low + 2, self.low + 5))
        self.has = [chance.choice(maker.patterns) for _ in range(chance.choice((0, 1, 1, 2, 3)))] + chance.choices(list(PATTERNS), k=chance.choice((0, 0, 1)))
        if self.high == 0:
            # Of a file without lines no pattern can be stated: these words are refused.
            self.has = []
        self.words = ['--min', str(self.low), '--max', 'any' if self.high is None else str(self.high), *[f'--has={pattern}' for pattern in self.has]]
        if not self.has or chance.random() < 0.2:
            self.words.append('--patterns')

    def ran(self, words, script=None):
        done = subprocess.run([PROGRAM, *words], input=self.script if script is None else script, capture_output=True, cwd=self.folder, timeout=SECONDS)
        return done.returncode, done.stdout

    def content(self):
        """A file, or None for one that is missing; mostly one that the bounds allow."""
        chance = self.chance
        if chance.random() < 0.05:
            return None
        high = self.low + 6 if self.high is None else self.high
        size = chance.randint(self.low, high) if chance.random() < 0.9 else chance.randint(0, high + 2)
        lines = [chance.choice(LINES) for _ in range(size)]
        text = ''.join(line + '\n' for line in lines).encode()
        return text[:-1] if lines and lines[-1] and chance.random() < 0.2 else text

    def allows(self, content):
        lines = (content or b'').decode().split('\n')
        if lines[-1] == '':
            lines.pop()
        sized = self.low <= len(lines) and (self.high is None or len(lines) <= self.high)
        return sized and all(any(re.search(PATTERNS[pattern], line) for line in lines) for pattern in self.has)

    def left(self):
        path = os.path.join(self.folder, 'F')
        if not os.path.exists(path):
            return None
        with open(path, 'rb') as file:
            return file.read()

    def put(self, name, content):
        path = os.path.join(self.folder, name)
        if content is not None:
            with open(path, 'wb') as file:
                file.write(content)
        elif os.path.exists(path):
            os.remove(path)

    def certified(self):
        """The certificate, or what `vouch` says in its place."""
        status, told = self.ran(['vouch', *self.words, 'F'])
        if status == 0 and told.startswith(b'ed-certificate 2\n'):
            return told, None
        if status == 1 and told.startswith(b'cannot: '):
            return None, told.decode().rsplit(': ', 1)[-1].strip()
        raise Wrong(f'vouch: status {status}, {told[:200]!r}')

    def is_met(self, certificate):
        """Whether the certificate states just these patterns, each once and in their order."""
        stated = certificate.decode().split('\n')[3].split(' ')
        spelled = [re.sub('%(..)', lambda escape: chr(int(escape[1], 16)), word[1:]) for word in stated[1:]]
        return stated[0] == 'has' and spelled == sorted(set(self.has))

    def tried(self, certificate):
        """How a run over a random file went."""
        content = self.content()
        self.put('F', content)
        fits = self.ran(['fits', 'CERT', 'F'], b'')
        status, output = self.ran(['run', '-s', 'CERT', 'F'])
        told = f'{content!r}: fits {fits}, run: status {status}, {output!r}, leaves {self.left()!r}'
        if not self.allows(content):
            if fits != (4, OUTSIDE) or (status, output) != (4, OUTSIDE) or self.left() != content:
                raise Wrong(f'not allowed, {told}')
            return 'over a file that is not allowed'
        # Where the script reads F again, it may be missing still.
        reads = b'\n$r F\n' in b'\n' + self.script and content is None
        if fits != (0, b'') or status not in ((0, 3) if reads else (0,)):
            raise Wrong(f'allowed, {told}')
        low, high = next(line for line in certificate.decode().split('\n') if line.startswith('final ')).split()[1:]
        if status == 0 and not (int(low) <= self.left().count(b'\n') and (high == 'any' or self.left().count(b'\n') <= int(high))):
            raise Wrong(f'final {low} {high}, {told}')
        return 'over a file that is allowed'


def case(number_and_seed):
    """What came of a script, how often it was run, and what is to be shown of it where something is wrong."""
    number, seed = number_and_seed
    folder, runs = tempfile.mkdtemp(), collections.Counter()
    tried = Case(random.Random(seed * 1000003 + number), folder)
    try:
        certificate, cannot = tried.certified()
        if certificate is None:
            return f'not vouched for: {cannot}', runs, None
        tried.put('CERT', certificate)
        if tried.ran(['check', 'CERT']) != (0, b'accepted\n'):
            raise Wrong('the certificate is not accepted')
        if not tried.is_met(certificate):
            raise Wrong(f'it states {certificate.splitlines()[3]}')
        for _ in range(RUNS):
            runs[f'runs {tried.tried(certificate)}'] += 1
        plain = subprocess.run([PROGRAM, 'vouch', *tried.words[:4], 'F'], input=tried.script, capture_output=True, cwd=folder, timeout=SECONDS)
        return f'vouched for, and {"without patterns too" if plain.returncode == 0 else "only with patterns"}', runs, None
    except (Wrong, subprocess.TimeoutExpired) as wrong:
        return 'WRONG', runs, f'{tried.words}\n{tried.script.decode()}{wrong}\n'
    finally:
        shutil.rmtree(folder)


def main():
    count, seed, processes = [int(word) for word in sys.argv[1:]] + [COUNT, SEED, PROCESSES][len(sys.argv) - 1:]
    kinds, runs = tally.told(case, count, seed, processes)
    print(f'{count} random scripts, seed {seed}:')
    tally.show(kinds, runs)
    failed = kinds['WRONG']
    print(f'{count - failed} passed, {failed} failed')
    sys.exit(failed > 0)


if __name__ == '__main__':
    main()
