#!/usr/bin/env python3
"""Compares random scripts over all commands with a plain reference and with `ed`.

    python3 compare.py COUNT SEED [PROCESSES]

Each script has a few commands on a file of a few short lines: texts, marks, searches, `s`, moves, copies, joins, files, globals with
lists, undo, the help mode and the prompt. Output, status and files have to be those of editor.py. `ed` goes on after a fault, so what we
write has to be the front of what it writes, but for the help mode's text of the fault, and where there is no fault the files have to be
the same. Where `ed` differs from both, the case is counted by what editor.py noted, and shown where it noted nothing: ../README.md says why
`ed` differs. Build the program first.
"""
import os
import random
import shutil
import subprocess
import sys
import tempfile

import editor
import tally
from editor import Command

PROGRAM = os.path.join(editor.AGAINST, '../../crates/ed_main/out/ed_main')
WORDS = ('a', 'b', 'ab', 'ba', 'x', 'abc', 'a.b', '', 'b b', 'xx')


def sequence(*items):
    return 'sequence', list(items)


def byte(members):
    return 'set', False, members


def star(item):
    return 'repeat', 0, None, item


ANY, A, B = ('set', True, ''), byte('a'), byte('b')
PATTERNS = (
    ('a', sequence(A), 0), ('b', sequence(B), 0), ('x', sequence(byte('x')), 0), ('^a', sequence(('text start',), A), 0),
    ('b$', sequence(B, ('text end',)), 0), ('ab*', sequence(A, star(B)), 0), ('.', sequence(ANY), 0),
    ('^$', sequence(('text start',), ('text end',)), 0), ('x*', sequence(star(byte('x'))), 0), ('[ab]c', sequence(byte('ab'), byte('c')), 0),
    (r'\(a\)\(b\)*', sequence(('group', 0, sequence(A)), star(('group', 1, sequence(B)))), 2), ('c', sequence(byte('c')), 0),
)
# As they are spelled, their parts, and how many groups they need.
REPLACEMENTS = (
    ('x', ['x'], 0), ('', [], 0), ('&&', [0, 0], 0), ('<&>', ['<', 0, '>'], 0), (r'\1', [1], 1), (r'\2-', [2, '-'], 2), ('a', ['a'], 0),
    (r'\&', ['&'], 0), ('y&', ['y', 0], 0), ('%', None, 0), ('p\\\nq', ['p', '\n', 'q'], 0),
)


# The commands of a list, and those of a script.
LISTED = [*'aicddjjkmmtsssspnl=frwhHP', '']
ALONE = [*'aicddjklmtsspn=gggvuurwfeEhHHP', '']


class Writer:
    """Makes random commands, each with how it is spelled. `size` is a guess at how many lines the buffer has."""

    def __init__(self, chance, size):
        self.chance, self.size = chance, size

    def pattern(self):
        return None if self.chance.random() < 0.15 else self.chance.choice(PATTERNS)

    def address(self):
        chance = self.chance
        kind = chance.random()
        if kind < 0.45:
            number = chance.randint(0 if chance.random() < 0.1 else 1, max(1, self.size))
            base, given, text = 'number', number, str(number)
        elif kind < 0.6:
            base, given, text = '.', None, '.'
        elif kind < 0.75:
            base, given, text = '$', None, '$'
        elif kind < 0.85:
            letter = chance.choice('ab')
            base, given, text = "'", letter, f"'{letter}"
        else:
            base, given = chance.choice('//?'), self.pattern()
            text = base + (given[0] if given else '') + base
        offset = chance.choice((1, -1, 2, -1)) if chance.random() < 0.2 else 0
        return (base, given, offset), text + (f'{offset:+d}' if offset else '')

    def addresses(self):
        chance = self.chance
        kind, one, last, here = chance.random(), ('number', 1, 0), ('$', None, 0), ('.', None, 0)
        if kind < 0.4:
            return None, ''
        if kind < 0.67:
            address, text = self.address()
            return ('', [address]), text
        if kind < 0.72:
            return (',', [one, last]), ','
        if kind < 0.77:
            return (';', [here, last]), ';'
        first, first_text = self.address()
        if kind < 0.8:
            return (';', [first, None]), first_text + ';'
        second, second_text = self.address()
        if kind < 0.83:
            return (';', [here, second]), ';' + second_text
        if kind < 0.86:
            return (',', [one, second]), ',' + second_text
        separator = chance.choice(',,;')
        return (separator, [first, second]), first_text + separator + second_text

    def suffix(self):
        return self.chance.choice(('', '', '', 'p', 'n', 'l'))

    def command(self, listed):
        """A command and its lines; in a list they are joined by backslashes."""
        chance = self.chance
        letter = chance.choice(LISTED if listed else ALONE)
        given, text = self.addresses()
        made = Command(letter, given, listed=listed)
        if letter in tuple('aicdjmt=hHP'):
            made.suffix = self.suffix()
        if letter in tuple('aic'):
            made.text = [chance.choice(WORDS) for _ in range(chance.choice((0, 1, 1, 2)))]
            return made, [text + letter + made.suffix, *made.text, '.']
        if letter == 'k':
            made.name = chance.choice('ab')
            return made, [text + 'k' + made.name]
        if letter in ('m', 't'):
            made.target, target = self.address()
            return made, [text + letter + target + made.suffix]
        if letter == 's':
            return self.substitution(made, text)
        if letter in ('g', 'v'):
            return self.everywhere(made, text)
        if letter in ('u', 'f', 'e', 'E', 'h', 'H', 'P'):
            made.addresses, text = None, ''
        if letter == 'u':
            made.suffix = self.suffix()
        if letter in tuple('rwfeE'):
            made.name = chance.choice(('G', 'G', None)) if letter in 'reE' else chance.choice(('H', None))
        return made, [text + letter + made.suffix + (f' {made.name}' if made.name and letter != 'k' else '')]

    def substitution(self, made, text):
        chance = self.chance
        made.pattern = self.pattern()
        groups = made.pattern[2] if made.pattern else 0
        spelling, made.parts, _ = chance.choice([r for r in REPLACEMENTS if r[2] <= groups and not (made.listed and '\n' in r[0])])
        made.which, made.flag = chance.choice((1, 1, 'g', 'g', 2)), chance.choice(('', '', 'p', 'n'))
        flags = ('' if made.which == 1 else str(made.which)) + made.flag
        return made, f's/{made.pattern[0] if made.pattern else ""}/{spelling}/{flags}'.join((text, '')).split('\n')

    def everywhere(self, made, text):
        made.pattern, made.list, lines = self.pattern(), [], []
        for _ in range(self.chance.choice((1, 1, 1, 2, 3))):
            command, spelled = self.command(True)
            made.list.append(command)
            lines += spelled
        if lines[-1] == '.' and made.list[-1].letter in tuple('aic') and self.chance.random() < 0.5:
            # A text ends with its list; a null command with the address `.` is no end of a text.
            lines.pop()
        if lines == ['']:
            # A list of one empty line is `p`.
            made.list = [Command('p', listed=True)]
        head = f'{text}{made.letter}/{made.pattern[0] if made.pattern else ""}/'
        return made, (head + '\\\n'.join(lines)).split('\n')

    def script(self):
        commands, lines = [], []
        for _ in range(self.chance.randint(1, 6)):
            command, spelled = self.command(False)
            commands.append(command)
            lines += spelled
        commands.append(Command('n', (',', [('number', 1, 0), ('$', None, 0)])))
        ending = self.chance.choice(('Q', 'Q', 'q', ''))
        if ending:
            commands.append(Command(ending))
        return commands, '\n'.join(lines + [',n'] + [ending] * bool(ending)) + '\n'


def ran(command, script, folder, files):
    for name in os.listdir(folder):
        os.remove(os.path.join(folder, name))
    for name, content in files.items():
        with open(os.path.join(folder, name), 'wb') as file:
            file.write(content)
    done = subprocess.run(command, input=script.encode(), capture_output=True, cwd=folder, timeout=20)
    left = {name: open(os.path.join(folder, name), 'rb').read() for name in os.listdir(folder)}
    return done.returncode, done.stdout, left


def case(number_and_seed):
    """What kind of case it was, and what is to be shown of it."""
    number, seed = number_and_seed
    chance = random.Random(seed * 1000003 + number)
    files = {name: ''.join(chance.choice(WORDS) + '\n' for _ in range(chance.randrange(most))).encode() for name, most in (('F', 6), ('G', 3))}
    commands, script = Writer(chance, files['F'].count(b'\n')).script()
    silent, prompt = chance.choice((True, False)), chance.choice((None, None, None, '> '))
    right = editor.Run(files, 'F', silent, prompt)
    words = ['-s'] * silent + ([] if prompt is None else ['-p', prompt]) + ['F']
    folder = tempfile.mkdtemp()
    try:
        status = right.end(commands)
        ours = ran([PROGRAM, 'edit', *words], script, folder, files)
        _, others, theirs = ran(['ed', *words], script, folder, files)
    except (editor.reference.TooSlow, subprocess.TimeoutExpired):
        return 'too slow', None
    finally:
        shutil.rmtree(folder)
    shown = (f'files {files} {words}\n{script}  reference {status} {right.output!r} {right.told!r} {right.files}\n  ours      {ours}\n'
             f'  ed        {others!r} {theirs}\n')
    if ours != (status, right.output + right.told, right.files):
        return 'DIFFERENT from the reference', shown
    fault = 'without a fault' if status == 0 else 'with a fault'
    if (others, theirs) == (right.output, right.files) if status == 0 else others.startswith(right.output):
        return f'equal {fault}', None
    if right.noted:
        return f'equal, but ed differs: {min(right.noted)}', None
    return f'equal, but ed differs, unexplained, {fault}', shown


def main():
    count, seed = int(sys.argv[1]), int(sys.argv[2])
    kinds, _ = tally.told(case, count, seed, int(sys.argv[3]) if len(sys.argv) > 3 else None)
    print(f'seed {seed}, {count} scripts:')
    tally.show(kinds)
    sys.exit(kinds['DIFFERENT from the reference'] > 0)


if __name__ == '__main__':
    main()
