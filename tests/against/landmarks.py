#!/usr/bin/env python3
"""Runs random scripts that are vouched for with landmarks, over files that have them and over others, and tests each note of the certificates.

    landmarks.py [COUNT [SEED [PROCESSES]]]

A script is made beside a file that it runs over without a fault, and chains of landmarks that the file has: they are vouched for by `--at`,
with random bounds and any number of `--has`. Where that gives a certificate, `check` has to accept it, and `run` and `fits` are asked about
RUNS files: that one, others that differ from it in a few lines, and random ones. Whether a file is allowed is told here, from the words of
the chains and by Python's own regular expressions. Over one that is, the run has to end without a fault, with the files and the output of
the plain editor of scripts/editor.py, and in that one's run, with the landmarks' letters on their lines, each note is true before its
command, in lists too: the numbers of lines, the marks, what is remembered, what lines match, and all facts of single lines, also of the lines
that undo would bring back. Over another one, `run` and `fits` print `start outside the certificate`, with status 4, and leave the file as it
was. Build the program first, or name one by PROGRAM. 50,000 scripts take half an hour.
"""
import collections
import copy
import functools
import os
import random
import re
import shutil
import subprocess
import sys
import tempfile

HERE = os.path.dirname(os.path.abspath(__file__))
sys.path.append(os.path.join(HERE, 'scripts'))
import editor
import tally
from compare import byte, sequence, star
from editor import Command, Fault

PROGRAM = os.path.abspath(os.environ.get('PROGRAM', os.path.join(HERE, '../../crates/ed_main/out/ed_main')))
COUNT, SEED, PROCESSES = 20_000, 1, 2
RUNS = 6
SECONDS = 120
# A buffer of more bytes is given up, since a global may double it at each turn.
ROOM = 1500
OUTSIDE = b'start outside the certificate\n'
START, END, ANY = ('text start',), ('text end',), ('set', True, '')


def literal(text):
    return [byte(letter) for letter in text]


# Patterns as the program is told of them: what Python calls them, and their trees.
PATTERNS = {
    'port': ('port', sequence(*literal('port'))), '^a': ('^a', sequence(START, byte('a'))), '22': ('22', sequence(*literal('22'))),
    '^#': ('^#', sequence(START, byte('#'))), '# end': ('# end', sequence(*literal('# end'))), '^$': (r'^\Z', sequence(START, END)),
    'x*': ('x*', sequence(star(byte('x')))), '[0-9]': ('[0-9]', sequence(byte('0123456789'))), 'b$': (r'b\Z', sequence(byte('b'), END)),
    'a.*b': ('a.*b', sequence(byte('a'), star(ANY), byte('b'))), 'u/l': ('u/l', sequence(*literal('u/l'))),
    r'\(a\)\1': (r'(a)\1', sequence(('group', 0, sequence(byte('a'))), ('reference', 0))), 'b': ('b', sequence(byte('b'))),
}
GROUPS = {r'\(a\)\1': 1}
LINES = ('port 22', 'port 80', '# begin', '# end', '', 'a', 'ab', 'b', 'aab', 'x', '7', 'u/l 22', 'a port b', '#', 'zz')
# Replacements as they are spelled, their parts, and how many groups they need.
REPLACEMENTS = (('x', ['x'], 0), ('', [], 0), ('&&', [0, 0], 0), ('22', ['22'], 0), ('#&', ['#', 0], 0), (r'\1b', [1, 'b'], 1), ('%', None, 0),
                ('a\\\n#', ['a', '\n', '#'], 0))
ALONE, LISTED = 'aiccddddjkklmmtsssssspp=gggvuruwfeEH', 'aicddjkmtssspn=rw'
NAMES = '0.$' + 'abcdefghijklmnopqrstuvwxyz'


class Wrong(Exception):
    """What was not as it has to be."""


@functools.lru_cache(maxsize=None)
def matches(pattern, text):
    return re.search(PATTERNS[pattern][0], text) is not None


@functools.lru_cache(maxsize=None)
def replaced(pattern, parts, which, text):
    return editor.replaced(PATTERNS[pattern][1], parts, which, text)


# What the words of a start condition say of lines.

Landmark = collections.namedtuple('Landmark', 'which pattern number gap tail also lacks none')


def places_of(chain, lines):
    """The number of the line of each landmark, or None where one is not as its words say."""
    places, above = [], 0
    for mark in chain:
        if mark.which == 'number':
            place = mark.number
        else:
            below = [number for number in range(above + 1, len(lines) + 1) if matches(mark.pattern, lines[number - 1])]
            place = below[0] if below else 0
        if not above < place <= len(lines) or place < above + mark.gap or place + mark.tail > len(lines):
            return None
        others = [number for number in range(1, len(lines) + 1) if mark.which == 'only' and number != place and matches(mark.pattern, lines[number - 1])]
        if others or not all(matches(pattern, lines[place - 1]) for pattern in mark.also):
            return None
        if any(matches(pattern, lines[place - 1]) for pattern in mark.lacks):
            return None
        if any(matches(pattern, text) for pattern in mark.none for text in lines[above:place - 1]):
            return None
        places.append(place)
        above = place
    return places


def slashed(pattern):
    return pattern.replace('/', r'\/')


def spelled(chance, chain):
    """A chain in one of its spellings."""
    def key(pattern):
        return f'|{pattern}|' if chance.random() < 0.1 else f'/{slashed(pattern)}/'

    def some(text):
        return text if chance.random() < 0.9 else f' {text} '

    parts = []
    for mark in chain:
        part = ''.join(some(f'no {key(pattern)} ') for pattern in mark.none)
        part += str(mark.number) if mark.which == 'number' else ('only ' if mark.which == 'only' else '') + key(mark.pattern)
        part += f' gap {mark.gap}' if mark.gap > 1 or chance.random() < 0.03 else ''
        part += f' tail {mark.tail}' if mark.tail else ''
        parts.append(part + ''.join(some(f' & {key(pattern)}') for pattern in mark.also) + ''.join(some(f' & not {key(pattern)}') for pattern in mark.lacks))
    return chance.choice(('; ', '; ', ';', ' ; ')).join(parts)


class Plain(editor.Run):
    """A run of the plain editor, with what patterns match kept from one run to the next."""

    def __init__(self, files):
        super().__init__(files, 'F', True)

    def matches(self, pattern, text):
        return matches(pattern, text)

    def one(self, command):
        super().one(command)
        if sum(len(line.text) + 1 for line in self.lines) > ROOM:
            raise editor.reference.TooSlow

    def substitute(self, command, first, last):
        parts = self.parts if command.parts is None else command.parts
        if parts is None or command.listed and '\n' in parts:
            raise Fault('Replacement')
        pattern, made, new = self.remembered(command.pattern), None, []
        self.parts = parts
        for line in self.lines[first - 1:last]:
            texts = replaced(pattern, tuple(parts), command.which, line.text)
            new += [line] if texts is None else [editor.Line(text) for text in texts]
            made = made if texts is None else first - 1 + len(new)
        if made is None:
            if command.listed:
                return False
            raise Fault('NoMatch')
        self.lines[first - 1:last], self.current = new, made
        if command.flag:
            self.show(command.flag, made, made)
        return True


class Maker:
    """Makes a script beside a run of it, and leaves out most commands that would meet a fault there."""

    def __init__(self, chance, files):
        self.chance, self.run, self.commands, self.lines = chance, Plain(files), [], []
        texts = [line.text for line in self.run.lines] or ['']
        near = [pattern for pattern in PATTERNS if any(matches(pattern, text) for text in texts)]
        self.patterns = chance.sample(near, min(len(near), chance.choice((1, 2, 2, 3, 3)))) + chance.choices(list(PATTERNS), k=chance.choice((0, 0, 0, 1)))
        for _ in range(chance.choice((1, 1, 2, 2, 3, 4, 5, 7))):
            self.tried(lambda: self.command(False))
        for letter in chance.choice(('wq', 'wq', 'wQ', 'w', 'Q')):
            self.commands.append(Command(letter))
            self.lines.append(letter)

    def tried(self, make):
        """A command that the run goes on with, mostly."""
        for _ in range(12):
            made, lines = make()
            after = copy.deepcopy(self.run)
            try:
                (after.everywhere if made.letter in ('g', 'v') else after.one)(made)
            except Fault:
                if self.chance.random() > 0.03:
                    continue
            except editor.reference.TooSlow:
                continue
            self.run = after
            self.commands.append(made)
            self.lines += lines
            return

    def pattern(self, remembered=0.12):
        if self.chance.random() < remembered:
            return None
        return self.chance.choice(self.patterns) if self.chance.random() < 0.95 else self.chance.choice(list(PATTERNS))

    def address(self):
        chance, kind = self.chance, self.chance.random()
        offset = chance.choice((1, -1, 1, -1, 2)) if chance.random() < 0.15 else 0
        if kind < 0.6:
            base, given = chance.choice('///?'), self.pattern()
            text = base + (slashed(given) if given and base == '/' else given or '') + base
        elif kind < 0.75:
            base, given = chance.choice('.$'), None
            text = base
        elif kind < 0.87:
            base, given = "'", chance.choice('aabz')
            text = "'" + given
        else:
            base, given = 'number', chance.choice((1, 1, 2, 3, 0))
            text = str(given)
        return (base, given, offset), text + (f'{offset:+d}' if offset else '')

    def addresses(self):
        chance, kind, one, last, here = self.chance, self.chance.random(), ('number', 1, 0), ('$', None, 0), ('.', None, 0)
        if kind < 0.13:
            return None, ''
        first, text = self.address()
        if kind < 0.6:
            return ('', [first]), text
        if kind < 0.65:
            return (',', [one, last]), ','
        if kind < 0.69:
            return (',', [first, last]), text + ',$'
        if kind < 0.73:
            return (',', [one, first]), '1,' + text
        if kind < 0.75:
            return (';', [here, first]), ';' + text
        if kind < 0.77:
            return (';', [first, None]), text + ';'
        second, more = self.address()
        separator = chance.choice(';;;,')
        return (separator, [first, second]), text + separator + more

    def command(self, listed):
        chance = self.chance
        letter = chance.choice(LISTED if listed else ALONE)
        given, text = self.addresses()
        made = Command(letter, given, listed=listed)
        if letter in 'aic':
            made.text = [chance.choice(LINES) for _ in range(chance.choice((0, 1, 1, 1, 2)))]
            return made, [text + letter, *made.text, '.']
        if letter == 'k':
            made.name = chance.choice('aabz')
            return made, [text + 'k' + made.name]
        if letter in 'mt':
            made.target, target = self.address() if chance.random() < 0.6 else chance.choice(((('number', 0, 0), '0'), (('$', None, 0), '$')))
            return made, [text + letter + target]
        if letter == 's':
            return self.substitution(made, text)
        if letter in 'gv':
            return self.everywhere(made, text if chance.random() < 0.15 else '')
        if letter in 'ufeEH':
            made.addresses, text = None, ''
        if letter in 'reE':
            made.name = 'G' if letter == 'r' or chance.random() < 0.5 else None
        if letter == 'w':
            made.name = chance.choice((None, 'H'))
        if letter in 'udjp=':
            made.suffix = chance.choice(('', '', '', 'p', 'n'))
        return made, [text + letter + made.suffix + (f' {made.name}' if made.name else '')]

    def substitution(self, made, text):
        chance = self.chance
        made.pattern = self.pattern(0.4)
        groups = GROUPS.get(made.pattern, 0)
        spelling, made.parts, _ = chance.choice([r for r in REPLACEMENTS if r[2] <= groups and not (made.listed and '\n' in r[0])])
        made.which, made.flag = chance.choice((1, 1, 1, 'g', 2)), chance.choice(('', '', '', 'p'))
        flags = ('' if made.which == 1 else str(made.which)) + made.flag
        return made, f'{text}s/{slashed(made.pattern or "")}/{spelling}/{flags}'.split('\n')

    def everywhere(self, made, text):
        made.addresses = made.addresses if text else None
        made.pattern, made.list, lines = self.pattern(), [], []
        for _ in range(self.chance.choice((1, 1, 1, 2, 3))):
            command, more = self.command(True)
            made.list.append(command)
            lines += more
        return made, (f'{text}{made.letter}/{slashed(made.pattern or "")}/' + '\\\n'.join(lines)).split('\n')


class Conditions:
    """Random chains of landmarks, mostly such as these lines have."""

    def __init__(self, chance, patterns, lines):
        self.chance, self.patterns, self.lines = chance, patterns, lines

    def some(self, wanted, share):
        return [pattern for pattern in dict.fromkeys((*self.patterns, *self.chance.choices(list(PATTERNS), k=2))) if wanted(pattern) and self.chance.random() < share]

    def landmark(self, above):
        """A landmark below this line, and its place."""
        chance, lines = self.chance, self.lines
        if chance.random() < 0.12:
            place, which, pattern = chance.randint(above + 1, len(lines)), 'number', None
        else:
            near = [pattern for pattern in self.patterns * 3 + list(PATTERNS) if any(matches(pattern, text) for text in lines[above:])]
            pattern = chance.choice(near)
            place = next(number for number in range(above + 1, len(lines) + 1) if matches(pattern, lines[number - 1]))
            alone = sum(matches(pattern, text) for text in lines) == 1
            which = 'only' if alone and chance.random() < 0.4 else 'first'
        line = lines[place - 1]
        also = self.some(lambda other: other != pattern and matches(other, line), 0.6)
        lacks = self.some(lambda other: other != pattern and not matches(other, line), 0.25)
        none = self.some(lambda other: other != pattern and not any(matches(other, text) for text in lines[above:place - 1]), 0.12)
        gap = chance.randint(1, place - above) if chance.random() < 0.2 else 1
        tail = chance.randint(0, len(lines) - place) if chance.random() < 0.3 else 0
        return Landmark(which, pattern, place, gap, tail, also, lacks, none), place

    def chain(self):
        chain, above = [], 0
        for _ in range(self.chance.choice((1, 1, 1, 2, 2, 3))):
            if above < len(self.lines):
                mark, above = self.landmark(above)
                chain.append(mark)
        return chain

    def chains(self):
        if not self.lines:
            # No landmark fits the sample then.
            return [[Landmark('first', self.chance.choice(list(PATTERNS)), None, 1, 0, [], [], [])]]
        chains = [self.chain() for _ in range(self.chance.choice((1, 1, 1, 2, 2, 3)))]
        if self.chance.random() < 0.08:
            chain = self.chance.choice(chains)
            place = self.chance.randrange(len(chain))
            chain[place] = chain[place]._replace(gap=chain[place].gap + 1, tail=chain[place].tail + 1)
        return chains


# What the notes of a certificate say, and whether it is so in a run.

def unescaped(word):
    return re.sub('%(..)', lambda escape: chr(int(escape[1], 16)), word)


def choice_of(word):
    return None if word == '-' else unescaped(word[1:])


class Notes:
    """The notes of a certificate's text."""

    def __init__(self, text):
        self.rows = [line.split(' ') for line in text.split('\n')[:-1]]
        self.path, self.start = choice_of(self.rows[1][1]), self.rows[2][1:]
        self.has, self.at = ([unescaped(word[1:]) for word in self.rows[number][1:]] for number in (3, 4))
        # The states before the counted commands and at the end, and of each command's list, by its number.
        self.states, self.loops, self.inner = [], {}, {}
        number, self.place = 0, 5
        while self.rows[self.place][0] in ('note', 'end'):
            if self.rows[self.place][0] == 'note':
                number += 1
            self.states.append(self.state())
            if self.rows[self.place][0] == 'loop':
                self.loops[number], self.inner[number] = self.state(), []
                while self.rows[self.place][0] == 'inner':
                    self.inner[number].append(self.state())
                self.place += 1
        self.final, self.writes = self.rows[self.place][1:], [unescaped(word[1:]) for word in self.rows[self.place + 1][1:]]

    def state(self):
        self.place += 1
        said = {}
        while len(self.rows[self.place]) != 1 or self.rows[self.place][0] not in ('note', 'loop', 'inner', 'done', 'end'):
            key, *words = self.rows[self.place]
            if key in ('final', 'writes'):
                break
            said[key] = words
            self.place += 1
        return said


def of_lines(said, prefix, lines, current):
    """What isn't so of these lines, of what a state says of them by its rows with this prefix."""
    places = {'0': 0, '.': current, '$': len(lines), '$+': len(lines) + 1}
    for letter in ''.join(said[prefix + 'marks']):
        marked = [number for number, line in enumerate(lines, 1) if letter in line.marks]
        if not marked:
            return f'marks {letter}'
        places[letter] = marked[0]
    for word in said[prefix + 'zone']:
        names, bound = word.split('<=')
        if names[0] in places and names[2] in places and places[names[0]] - places[names[2]] > int(bound):
            return f'zone {word}'
    for word in said[prefix + 'has']:
        if not any(matches(unescaped(word[1:]), line.text) for line in lines):
            return f'has {word}'
    for word in said[prefix + 'lines']:
        place, pattern = places.get(word[0], 0), unescaped(word[3:])
        if word[0] == '0' or not 1 <= place <= len(lines) or matches(pattern, lines[place - 1].text) != (word[1] == '+'):
            return f'lines {word}'
    for word in said[prefix + 'clear']:
        first, second, pattern = re.fullmatch(r'(.)-(\$\+|.)=(.*)', word).groups()
        if first not in places or second not in places:
            return f'clear {word}, a name that is not sure'
        if any(matches(unescaped(pattern), line.text) for line in lines[places[first]:max(places[second] - 1, 0)]):
            return f'clear {word}'
    return None


def untrue(said, run):
    """What isn't so in the run, of all that a state says."""
    wrong = of_lines(said, '', run.lines, run.current)
    if wrong is None and isinstance(run.past, tuple):
        wrong = of_lines(said, 'old-', *run.past) if 'was' in said['undo'] else 'undo'
    if wrong is None and not isinstance(run.past, tuple):
        wrong = None if {None: 'nothing', 'same': 'same'}[run.past] in said['undo'] else 'undo'
    kind = 'none' if run.parts is None else 'split' if '\n' in run.parts else 'plain'
    for key, value, allowed in (('patterns', run.pattern, [choice_of(word) for word in said['patterns']]), ('replacements', kind, said['replacements']),
                                ('names', run.name, [choice_of(word) for word in said['names']]), ('changed', 'yes' if run.changed else 'no', said['changed'])):
        if wrong is None and value not in allowed:
            wrong = f'{key} {value}'
    return wrong


class Watched(Plain):
    """A run with the landmarks' letters on their lines, of which each note has to be true."""

    def __init__(self, files, notes, letters):
        super().__init__(files)
        self.notes, self.number, self.facts = notes, 0, 0
        for letter, place in letters:
            self.lines[place - 1].marks.add(letter)

    def tested(self, said, where):
        self.facts += sum(len(said.get(key, ())) for key in ('lines', 'clear', 'old-lines', 'old-clear'))
        wrong = untrue(said, self)
        if wrong is not None:
            told = [(line.text, ''.join(sorted(line.marks))) for line in self.lines]
            raise Wrong(f'{where} {wrong}, but the current line is {self.current} of {told}, before {self.past}')

    def ask(self):
        self.number += 1
        if self.number <= len(self.notes.states):
            self.tested(self.notes.states[self.number - 1], f'note {self.number}:')

    def turn(self, number=None):
        if number is None:
            self.tested(self.notes.loops[self.number], f'invariant of {self.number}:')
        else:
            self.tested(self.notes.inner[self.number][number], f'note {self.number}.{number + 1}:')


class Case:
    """A script with what it is vouched for with, in a folder of its own."""

    def __init__(self, chance, folder):
        self.chance, self.folder, self.facts = chance, folder, 0
        self.sample = [chance.choice(LINES) for _ in range(chance.choice((0, 1, 2, 3, 3, 4, 4, 5, 6, 8)))]
        self.read = ''.join(chance.choice(LINES) + '\n' for _ in range(chance.choice((0, 1, 2)))).encode()
        maker = Maker(chance, {'F': content_of(self.sample), 'G': self.read})
        self.commands, self.script = maker.commands, ''.join(line + '\n' for line in maker.lines).encode()
        conditions = Conditions(chance, maker.patterns, self.sample)
        self.chains = conditions.chains()
        self.low = chance.choice((0, 0, 0, len(self.sample), chance.randint(0, len(self.sample))))
        self.high = chance.choice((None, None, None, len(self.sample), len(self.sample) + 2))
        self.has = [pattern for pattern in conditions.some(lambda pattern: any(matches(pattern, line) for line in self.sample), 0.15)]
        self.at = [spelled(chance, chain) for chain in self.chains]
        self.bounds = ['--min', str(self.low), '--max', 'any' if self.high is None else str(self.high), *[f'--has={pattern}' for pattern in self.has]]
        self.words = [*self.bounds, *[word for text in self.at for word in ('--at', text)]]

    def ran(self, words, script=None):
        done = subprocess.run([PROGRAM, *words], input=self.script if script is None else script, capture_output=True, cwd=self.folder, timeout=SECONDS)
        return done.returncode, done.stdout

    def letters(self):
        """The letters that the landmarks take: from z down, those that the script doesn't name."""
        named = set()
        for command in [inner for command in self.commands for inner in (command, *(command.list or ()))]:
            named |= {command.name} if command.letter == 'k' else set()
            for address in (*(command.addresses[1] if command.addresses else ()), command.target):
                named |= {address[1]} if address and address[0] == "'" else set()
        return [letter for letter in 'zyxwvutsrqponmlkjihgfedcba' if letter not in named]

    def changed(self):
        """The sample with some lines changed."""
        lines = list(self.sample)
        for _ in range(self.chance.choice((0, 1, 1, 2, 3))):
            place, kind = self.chance.randint(0, len(lines)), self.chance.random()
            if kind < 0.4:
                lines.insert(place, self.chance.choice(LINES))
            elif kind < 0.65:
                lines[place:place + 1] = [self.chance.choice(LINES)] if place < len(lines) else []
            elif kind < 0.85:
                del lines[place:place + 1]
            else:
                self.chance.shuffle(lines)
        return lines

    def lines_of(self, turn):
        """The lines of a file to run over, or None for one that is missing."""
        if turn == 0:
            return self.sample
        if turn < RUNS - 1:
            return self.changed()
        return None if self.chance.random() < 0.2 else [self.chance.choice(LINES) for _ in range(self.chance.randint(0, 7))]

    def allows(self, lines):
        """Whether the lines are a start, and the lines of the landmarks."""
        places = [places_of(chain, lines) for chain in self.chains]
        sized = self.low <= len(lines) and (self.high is None or len(lines) <= self.high)
        fits = sized and None not in places and all(any(matches(pattern, line) for line in lines) for pattern in self.has)
        return fits, [place for chain in places for place in chain or ()]

    def put(self, files):
        for name in os.listdir(self.folder):
            if name != 'CERT':
                os.remove(os.path.join(self.folder, name))
        for name, content in files.items():
            with open(os.path.join(self.folder, name), 'wb') as file:
                file.write(content)

    def left(self):
        return {name: open(os.path.join(self.folder, name), 'rb').read() for name in os.listdir(self.folder) if name != 'CERT'}

    def certified(self):
        """The certificate, or what `vouch` says in its place."""
        status, told = self.ran(['vouch', *self.words, 'F'])
        if status == 0 and told.startswith(b'ed-certificate 3\n'):
            return told, None
        if status == 1 and told.startswith(b'cannot: '):
            return None, 'not vouched for: ' + told.decode().rsplit(': ', 1)[-1].strip()
        # Words that no file fits may be refused, and the sample is one that they were made for.
        if status == 4 and not self.allows(self.sample)[0]:
            return None, 'words that are refused'
        raise Wrong(f'vouch: status {status}, {told[:200]!r}')

    def notes(self, certificate):
        """The notes of the certificate, which states just these chains and patterns."""
        notes = Notes(certificate.decode('latin-1'))
        if notes.at != self.at or notes.has != sorted(set(self.has)):
            raise Wrong(f'it states {notes.at} {notes.has}')
        return notes

    def plain(self, files, notes, places):
        """The plain editor's run, in which the notes are tested, and its status; None where it was given up."""
        right = Watched(files, notes, zip(self.letters(), places))
        try:
            status = right.end(self.commands)
            if status == 0:
                right.tested(notes.states[-1], 'at the end:')
            return right, status
        except editor.reference.TooSlow:
            return right, None
        finally:
            self.facts += right.facts

    def tried(self, notes, turn):
        """How a run over a file went."""
        lines = self.lines_of(turn)
        files = {'G': self.read} if lines is None else {'F': content_of(lines, self.chance.random() < 0.1), 'G': self.read}
        fits, places = self.allows(lines or [])
        right, ends = self.plain(files, notes, places) if fits else (None, None)
        if fits and ends is None:
            return 'left out'
        self.put(files)
        asked = self.ran(['fits', 'CERT', 'F'], b'')
        status, output = self.ran(['run', '-s', 'CERT', 'F'])
        told = f'{files!r}: fits {asked}, run: status {status}, {output!r}, leaves {self.left()!r}'
        if not fits:
            if asked != (4, OUTSIDE) or (status, output) != (4, OUTSIDE) or self.left() != files:
                raise Wrong(f'not allowed, {told}')
            return 'over a file that is not allowed'
        # A file that the script reads again may be missing.
        if asked != (0, b'') or status not in ((0, 3) if 'F' not in files else (0,)):
            raise Wrong(f'allowed, {told}')
        if (status, output, self.left()) != (ends, right.output + right.told, right.files):
            raise Wrong(f'allowed, {told}, and the plain editor: {ends}, {right.output + right.told!r}, leaves {right.files}')
        return 'over a file that is allowed'


def content_of(lines, is_cut=False):
    text = ''.join(line + '\n' for line in lines).encode()
    return text[:-1] if is_cut and lines and lines[-1] else text


def case(number_and_seed):
    """What came of a script, how often it was run and with how many facts, and what is to be shown of it where something is wrong."""
    number, seed = number_and_seed
    folder, runs = tempfile.mkdtemp(), collections.Counter()
    tried = Case(random.Random(seed * 1000003 + number), folder)
    try:
        certificate, cannot = tried.certified()
        if certificate is None:
            return cannot, runs, None
        with open(os.path.join(folder, 'CERT'), 'wb') as file:
            file.write(certificate)
        if tried.ran(['check', 'CERT']) != (0, b'accepted\n'):
            raise Wrong('the certificate is not accepted')
        notes = tried.notes(certificate)
        for turn in range(RUNS):
            runs['runs ' + tried.tried(notes, turn)] += 1
        runs['facts that held'] += tried.facts
        plain, _ = tried.ran(['vouch', *tried.bounds, *([] if tried.has else ['--patterns']), 'F'])
        return f'vouched for, and {"without landmarks too" if plain == 0 else "only with landmarks"}', runs, None
    except (Wrong, subprocess.TimeoutExpired) as wrong:
        return 'WRONG', runs, f'{number}: {tried.words}\n{tried.script.decode()}{wrong}\n'
    finally:
        shutil.rmtree(folder)


def main():
    count, seed, processes = [int(word) for word in sys.argv[1:]] + [COUNT, SEED, PROCESSES][len(sys.argv) - 1:]
    kinds, runs = tally.told(case, count, seed, processes)
    print(f'{count} random scripts, seed {seed}:')
    tally.show(kinds, runs)
    failed = kinds['WRONG']
    print(f'{count - failed} passed, {failed} failed')
    sys.exit(failed > 0)


if __name__ == '__main__':
    main()
