#!/usr/bin/env python3
"""Changes certificates byte by byte, and compares what `edv check` says with a plain checker.

    python3 changed.py SEED [PROCESSES]
    python3 changed.py --large

For each of SCRIPTS `edv vouch` makes a certificate. It is then given to `edv check` with each line doubled, dropped or exchanged
with the next one, each set with each other choice of its words, a mark more or less, an entry of a zone less, each number one more or less,
each byte changed to five others, zero bytes, CRLF line ends, and cut at each place. The
checker in this file reads the text, and says once more and as plainly as it can what the verifier's rules say; the answers and the exit
statuses have to be the same. Each difference is printed. SEED chooses the bytes. The last line counts the certificates.

`--large` gives the program certificates of some 2^30 bytes, and measures. It needs a few GiB of memory. Build the program first.
"""
import collections
import dataclasses
import itertools
import math
import multiprocessing
import os
import random
import re
import resource
import subprocess
import sys
import tempfile
import time

PROGRAM = os.path.join(os.path.dirname(os.path.abspath(__file__)), '../../../crates/ed_main/out/ed_main')
# MIN, MAX, FILE or None, and a script.
SCRIPTS = (
    (0, 'any', 'F', ''),
    (1, 3, 'F', '1d\nw\nq\n'),
    (2, 'any', 'F', "2ka\n1d\n'ap\nQ\n"),
    (1, 'any', 'F', '1d\nu\n1p\nu\nQ\n'),
    (2, 6, 'a b', "2ka\n1s/x*/;\\\n/\n'a;$n\ns//%/p\nw\nq\n"),
    (3, 3, 'conf', "1ka\n$kb\n1t$\n'bd\nw\nq\n"),
    (5, 7, 'F', "2ka\n5kb\n1,2m4\n'b,$m0\n2,3c\none\ntwo\n.\n3j\n1,2j\n$-1i\nx\n.\n$=\n/x*/;p\nw\n"),
    (0, 0, None, 'r G\n0a\nx\n.\n1w K\nw\nf H\nw\ne G\nq\n'),
    (1, 100, 'F', 'g/^Host /t.\nw\nq\n'),
    (0, 'any', 'F', 'g/^#/d\n0a\n# generated\n.\nw\nq\n'),
    (0, 4, 'F', 'g/a/s//b/\\\nka\\\nm0\\\nw H\nu\nw\nq\n'),
)
ANSWERS = ('accepted', 'refused', 'certificate: line', 'certificate: size', 'certificate: version')
# A byte is changed to some of these.
BYTES = b'0123456789abcdefghijklmnopqrstuvwxyz \n\r\t\0\xff-.$=<%_,'
OTHERS = 5
ZEROS = 10
# The words that a line of a set may have, in their order.
SETS = {b'replacements': (b'none', b'plain', b'split'), b'changed': (b'no', b'yes'), b'undo': (b'nothing', b'same', b'was')}
ADDED_MARKS = b'aby'

# Zones. A number that is any is infinite.

ANY = math.inf
LIMIT = 10**15
FIRST, SECOND, TARGET = 'first address', 'second address', 'target'
LETTERS = 'abcdefghijklmnopqrstuvwxyz'
WRITTEN = '0.$' + LETTERS
NAMES = (*WRITTEN, FIRST, SECOND, TARGET)


def clipped(number):
    return ANY if number > LIMIT else max(number, -LIMIT)


class Zone:
    """Bounds on differences: what isn't in the dictionary is any, on the diagonal 0."""

    def __init__(self, numbers=()):
        self.numbers = dict(numbers)

    def at(self, x, y):
        return self.numbers.get((x, y), 0 if x == y else ANY)

    def put(self, x, y, number):
        self.numbers[x, y] = clipped(number)
        if self.numbers[x, y] == (0 if x == y else ANY):
            del self.numbers[x, y]

    def known(self, x, y, c):
        """Whether x <= y + c is known."""
        return self.at(x, y) <= c

    def bounds(self, x, y):
        """The known bounds of x - y."""
        return -self.at(y, x), self.at(x, y)

    def guard(self, x, y, c):
        tails = [(p, self.at(p, x)) for p in NAMES if self.at(p, x) != ANY]
        heads = [(q, self.at(y, q)) for q in NAMES if self.at(y, q) != ANY]
        for p, tail in tails:
            for q, head in heads:
                self.put(p, q, min(self.at(p, q), tail + c + head))

    def set(self, x, y, c):
        for name in NAMES:
            if name != x:
                self.put(x, name, self.at(y, name) + c)
                self.put(name, x, self.at(name, y) - c)
        self.put(x, x, 0)

    def shift(self, x, low, high):
        for name in NAMES:
            if name != x:
                self.put(x, name, self.at(x, name) + high)
                self.put(name, x, self.at(name, x) - low)

    def forget(self, x):
        for name in NAMES:
            self.put(x, name, ANY)
            self.put(name, x, ANY)
        self.put(x, x, 0)

    def join(self, other):
        return Zone({pair: max(self.at(*pair), other.at(*pair)) for pair in {**self.numbers, **other.numbers}})

    def covers(self, other):
        return all(self.at(*pair) >= other.at(*pair) for pair in {**self.numbers, **other.numbers})


@dataclasses.dataclass
class State:
    """What is known before a command. The sets are never changed in place."""
    zone: Zone
    marks: set
    patterns: set
    replacements: set
    names: set
    changed: set
    undo: set
    old_zone: Zone = None
    old_marks: set = None

    def copy(self):
        return dataclasses.replace(self, zone=Zone(self.zone.numbers))

    def covers(self, other):
        sets = ('patterns', 'replacements', 'names', 'changed', 'undo')
        return (self.zone.covers(other.zone) and self.marks <= other.marks
                and all(getattr(self, name) >= getattr(other, name) for name in sets)
                and ('was' not in other.undo or self.old_zone.covers(other.old_zone) and self.old_marks <= other.old_marks))

    def join(self, other):
        olds = [state for state in (self, other) if 'was' in state.undo]
        old_zone, old_marks = (olds[0].old_zone, olds[0].old_marks) if olds else (None, None)
        if len(olds) == 2:
            old_zone, old_marks = self.old_zone.join(other.old_zone), self.old_marks & other.old_marks
        return State(self.zone.join(other.zone), self.marks & other.marks, self.patterns | other.patterns, self.replacements | other.replacements,
                     self.names | other.names, self.changed | other.changed, self.undo | other.undo, old_zone, old_marks)


# Scripts: as much of their language as SCRIPTS need.

ADDRESS = r"(?:\d+|[.$]|'[a-z]|/[^/]*/)?(?:[-+]\d*)*"
COMMAND = re.compile(rf'({ADDRESS})([,;]?)({ADDRESS})([a-zA-Z=]?)(.*)', re.DOTALL)


@dataclasses.dataclass
class Command:
    letter: str
    addresses: tuple            # the first, the separator, the second; what isn't given is empty
    listed: bool
    text: int = 0               # its number of lines
    mark: str = ''
    target: str = ''
    path: bytes = None
    pattern: bytes = b''        # none is the remembered one
    replacement: str = ''
    counted: bool = False       # by a count above 1
    list: tuple = None
    suffix: str = ''


def command_of(line, lines, listed):
    """The command of this line; the lines of its text go with it."""
    *addresses, letter, rest = COMMAND.fullmatch(line).groups()
    made = Command(letter, tuple(addresses), listed)
    if letter in ('a', 'i', 'c'):
        while lines and lines.pop(0) != '.':
            made.text += 1
    elif letter == 'k':
        made.mark = rest
        return made
    elif letter in ('m', 't'):
        made.target, rest = re.fullmatch(rf'({ADDRESS})(.*)', rest).groups()
    elif letter == 's':
        _, pattern, replacement, flags = rest.split('/')
        made.pattern, made.counted = pattern.encode(), re.sub(r'\D', '', flags) not in ('', '1')
        made.replacement = '%' if replacement == '%' else 'split' if '\\\n' in replacement else 'plain'
        return made
    elif letter in ('g', 'v'):
        _, pattern, spelled = rest.split('/', 2)
        made.pattern, made.list = pattern.encode(), tuple(commands_of(spelled.replace('\\\n', '\n').split('\n'), True))
        return made
    elif letter in ('e', 'E', 'f', 'r', 'w'):
        made.path = rest.strip().encode() or None
        return made
    made.suffix = rest
    return made


def commands_of(lines, listed):
    made = []
    while lines:
        line = lines.pop(0)
        while line.endswith('\\'):
            line += '\n' + lines.pop(0)
        made.append(command_of(line, lines, listed))
    return made


# The rules.

DEFAULTS = {
    'a': ('.', '', ''), 'i': ('.', '', ''), 'k': ('.', '', ''), 'r': ('$', '', ''), '=': ('$', '', ''), '': ('.+1', '', ''), 'j': ('.', ',', '.+1'),
    **{letter: ('.', '', '') for letter in 'cdlnpmts'},
}
ONE_ADDRESS = ('a', 'i', 'k', 'r', '=', '')


class Fails(Exception):
    """A need isn't known to hold."""


def need(holds):
    if not holds:
        raise Fails


def always(pattern):
    """Whether a pattern without brackets, groups, intervals and escapes matches every line."""
    if re.search(rb'[][\\]', pattern):
        raise NotImplementedError(pattern)
    begins, body, ends = re.fullmatch(rb'(\^?)(.*?)(\$?)', pattern, re.DOTALL).groups()
    items = re.findall(rb'(?:^\*|[^*])\**', body)
    return all(item[1:] for item in items) and not (begins and ends and b'.*' not in items)


def search(state, pattern):
    """Remembers the pattern of a command, or needs a remembered one."""
    if pattern:
        state.patterns = {pattern}
    else:
        need(None not in state.patterns)


def value(state, name, spelled):
    """Sets the name to an address."""
    zone = state.zone
    base, offsets = re.fullmatch(r"(\d+|[.$]|'[a-z]|/[^/]*/)?(.*)", spelled).groups()
    offset = sum(int(number + '1' if number in '+-' else number) for number in re.findall(r'[-+]\d*', offsets))
    if base is None:
        zone.set(name, '.', offset)
    elif base[0] == '/':
        search(state, base[1:-1].encode())
        need(zone.known('0', '$', -1) and all(map(always, state.patterns)))
        zone.forget(name)
        zone.guard('0', name, -1)
        zone.guard(name, '$', 0)
        zone.shift(name, offset, offset)
    elif base.isdigit():
        zone.set(name, '0', int(base) + offset)
    else:
        need(base[0] != "'" or base[1] in state.marks)
        zone.set(name, base[-1], offset)
    need(zone.known('0', name, 0) and zone.known(name, '$', 0))


def address(state, command):
    """Sets the addresses; tells how many were given."""
    first, separator, second = command.addresses
    given = 2 if separator else 1 if first else 0
    if not given:
        if command.letter not in DEFAULTS:
            return 0
        first, separator, second = DEFAULTS[command.letter]
    elif separator:
        second = second or (first or '$' if separator == ',' else '' if first else '$')
        first = first or ('1' if separator == ',' else '.')
    value(state, FIRST, first)
    if separator == ';':
        state.zone.set('.', FIRST, 0)
    if second:
        value(state, SECOND, second)
        if command.letter in ONE_ADDRESS:
            state.zone.set(FIRST, SECOND, 0)
    else:
        state.zone.set(SECOND, FIRST, 0)
    return given


def need_range(zone):
    need(zone.known('0', FIRST, -1) and zone.known(FIRST, SECOND, 0) and zone.known(SECOND, '$', 0))


def need_name(state, command):
    need(command.path is not None or None not in state.names)


def ended(state):
    """The end of each rule."""
    for name in (FIRST, SECOND, TARGET):
        state.zone.forget(name)
    state.zone.guard('0', '.', 0)
    state.zone.guard('.', '$', 0)
    for mark in sorted(state.marks):
        state.zone.guard('0', mark, -1)
        state.zone.guard(mark, '$', 0)
    return state


def modified(state, before, command):
    state.changed = {'yes'}
    if not command.listed:
        state.undo, state.old_zone, state.old_marks = {'was'}, before.zone, before.marks


def unmark(state, mark):
    state.zone.forget(mark)
    state.marks = state.marks - {mark}


def insert(state, name, c, low, high):
    """So many lines are put after the name's + c."""
    zone = state.zone
    for mark in sorted(state.marks):
        if zone.known(mark, name, c):
            continue
        zone.shift(mark, low if zone.known(name, mark, -c - 1) else 0, high)
    zone.shift('$', low, high)


def lift(zone, name):
    if zone.known(name, '0', 0):
        zone.set(name, '0', 1)
    elif not zone.known('0', name, -1):
        zone.shift(name, 0, 1)
        zone.guard('0', name, -1)
        if zone.known('0', '$', -1):
            zone.guard(name, '$', 0)


def least(zone, name):
    """The current line is the name's, or the last one if that is less."""
    if zone.known(FIRST, name, 0):
        zone.set('.', FIRST, 0)
    elif zone.known(name, FIRST, -1):
        zone.set('.', name, 0)
    else:
        zone.forget('.')
        zone.guard(FIRST, '.', 1)
        zone.guard('.', FIRST, 0)
        return False
    return True


def replace(state, before, command, count):
    """So many lines come in place of the range."""
    zone = state.zone
    low, high = zone.bounds(SECOND, FIRST)
    low_left, high_left = zone.bounds('$', SECOND)
    for mark in sorted(state.marks):
        if zone.known(mark, FIRST, -1):
            continue
        if zone.known(SECOND, mark, -1):
            zone.shift(mark, count - high - 1, count - low - 1)
        else:
            unmark(state, mark)
    zone.set(TARGET, '$', -1)
    zone.shift(TARGET, -high, -low)
    zone.guard(TARGET, FIRST, high_left - 1)
    zone.guard(FIRST, TARGET, 1 - low_left)
    if count:
        zone.set('.', FIRST, count - 1)
    elif not least(zone, TARGET):
        zone.guard('.', TARGET, 0)
    zone.set('$', TARGET, count)
    modified(state, before, command)


def append_lines(state, before, command, given):
    if command.text:
        insert(state, FIRST, 0, command.text, command.text)
        modified(state, before, command)
    state.zone.set('.', FIRST, command.text)


def insert_lines(state, before, command, given):
    lift(state.zone, FIRST)
    if command.text:
        insert(state, FIRST, -1, command.text, command.text)
        state.zone.set('.', FIRST, command.text - 1)
        modified(state, before, command)
    else:
        least(state.zone, '$')


def change(state, before, command, given):
    zone = state.zone
    need(zone.known(FIRST, SECOND, 0))
    lift(zone, FIRST)
    if given == 1:
        zone.set(SECOND, FIRST, 0)
    else:
        lift(zone, SECOND)
    zone.guard(FIRST, SECOND, 0)
    need_range(zone)
    replace(state, before, command, command.text)


def delete(state, before, command, given):
    need_range(state.zone)
    replace(state, before, command, 0)


def join_lines(state, before, command, given):
    zone = state.zone
    need_range(zone)
    if given == 1 or zone.known(SECOND, FIRST, 0):
        return None
    if zone.known(FIRST, SECOND, -1):
        return replace(state, before, command, 1)
    same = state.copy()
    same.zone.guard(SECOND, FIRST, 0)
    zone.guard(FIRST, SECOND, -1)
    replace(state, before, command, 1)
    return state.join(same)


def mark(state, before, command, given):
    zone = state.zone
    need(zone.known('0', FIRST, -1) and zone.known(FIRST, '$', 0))
    state.marks = state.marks | {command.mark}
    zone.set(command.mark, FIRST, 0)


def show(state, before, command, given):
    need_range(state.zone)
    state.zone.set('.', SECOND, 0)


def null(state, before, command, given):
    need(state.zone.known('0', FIRST, -1))
    state.zone.set('.', FIRST, 0)


def same(state, before, command, given):
    pass


def move(state, before, command, given):
    need_range(state.zone)
    old, new = Zone(state.zone.numbers), state.zone
    low, high = old.bounds(SECOND, FIRST)
    up = old.known(TARGET, FIRST, -1)
    need(up or old.known(SECOND, TARGET, -1))
    new.set('.', TARGET, 1 if up else 0)
    if up:
        new.shift('.', low, high)
    for name in sorted(state.marks):
        (mark_moved_up if up else mark_moved_down)(name, old, new, low, high)
    modified(state, before, command)


def mark_moved_up(name, old, new, low, high):
    if old.known(name, TARGET, 0) or old.known(SECOND, name, -1):
        return
    if old.known(TARGET, name, -1) and old.known(name, FIRST, -1):
        new.shift(name, low + 1, high + 1)
    elif old.known(FIRST, name, 0) and old.known(name, SECOND, 0):
        least_way, most_way = old.bounds(FIRST, TARGET)
        new.shift(name, 1 - most_way, 1 - least_way)
    else:
        new.forget(name)


def mark_moved_down(name, old, new, low, high):
    if old.known(name, FIRST, -1) or old.known(TARGET, name, -1):
        return
    if old.known(SECOND, name, -1) and old.known(name, TARGET, 0):
        new.shift(name, -high - 1, -low - 1)
    elif old.known(FIRST, name, 0) and old.known(name, SECOND, 0):
        new.shift(name, *old.bounds(TARGET, SECOND))
    else:
        new.forget(name)


def copy_lines(state, before, command, given):
    need_range(state.zone)
    low, high = state.zone.bounds(SECOND, FIRST)
    insert(state, TARGET, 0, low + 1, high + 1)
    state.zone.set('.', TARGET, 1)
    state.zone.shift('.', low, high)
    modified(state, before, command)


def unmark_range(state):
    for name in sorted(state.marks):
        if not (state.zone.known(name, FIRST, -1) or state.zone.known(SECOND, name, -1)):
            unmark(state, name)


def between(zone, name, low_left, high_left):
    """The current line is from the name's to as many lines before the last one as were known to be after that."""
    zone.forget('.')
    zone.guard(name, '.', 0)
    zone.guard('.', '$', -low_left)
    zone.guard('$', '.', high_left)


def substitute(state, before, command, given):
    zone = state.zone
    need_range(zone)
    if command.replacement == '%':
        need('none' not in state.replacements and not (command.listed and 'split' in state.replacements))
    search(state, command.pattern)
    sure = all(map(always, state.patterns)) and not command.counted
    need(sure or command.listed)
    if command.replacement != '%':
        state.replacements = {command.replacement}
    if not sure:
        unchanged = state.copy()
        unmark_range(state)
        zone.forget('.')
        zone.guard(FIRST, '.', 0)
        zone.guard('.', SECOND, 0)
        modified(state, before, command)
        return unchanged.join(state)
    low_left, high_left = zone.bounds('$', SECOND)
    unmark_range(state)
    if 'split' in state.replacements:
        for name in sorted(state.marks):
            if zone.known(SECOND, name, -1):
                zone.shift(name, 0, ANY)
        zone.shift('$', 0, ANY)
        between(zone, SECOND, low_left, high_left)
    else:
        zone.set('.', SECOND, 0)
    return modified(state, before, command)


def read_file(state, before, command, given):
    need_name(state, command)
    if command.path is not None and None in state.names:
        state.names = state.names - {None} | {command.path}
    low_left, high_left = state.zone.bounds('$', FIRST)
    unchanged = state.copy()
    modified(state, before, command)
    state = state.join(unchanged)
    insert(state, FIRST, 0, 0, ANY)
    between(state.zone, FIRST, low_left, high_left)
    return state


def write_file(state, before, command, given):
    zone = state.zone
    if given:
        need_range(zone)
    need_name(state, command)
    if command.path is not None and None in state.names:
        state.names = state.names - {None} | {command.path}
    if not given or zone.known(FIRST, '0', 1) and zone.known('$', SECOND, 0):
        state.changed = {'no'}
    elif not (zone.known('0', FIRST, -2) or zone.known(SECOND, '$', -1)):
        state.changed = state.changed | {'no'}


def edit(state, before, command, given):
    need_name(state, command)
    need(command.letter == 'E' or 'yes' not in state.changed)
    if command.path is not None:
        state.names = {command.path}
    for name in ('.', '$', *LETTERS):
        state.zone.forget(name)
    state.zone.guard('0', '$', 0)
    state.zone.set('.', '$', 0)
    state.marks, state.changed, state.undo, state.old_zone, state.old_marks = set(), {'no'}, {'nothing'}, None, None


def name_file(state, before, command, given):
    need_name(state, command)
    if command.path is not None:
        state.names = {command.path}


def undo(state, before, command, given):
    need('nothing' not in state.undo)
    if 'was' not in state.undo:
        return None
    back = dataclasses.replace(state, zone=Zone(state.old_zone.numbers), marks=state.old_marks, changed={'yes'}, undo={'was'},
                               old_zone=Zone(state.zone.numbers), old_marks=state.marks)
    return state.join(back) if 'same' in state.undo else back


def leave(state, before, command, given):
    need(command.letter == 'Q' or 'yes' not in state.changed)


RULES = {
    'a': append_lines, 'i': insert_lines, 'c': change, 'd': delete, 'j': join_lines, 'k': mark, 'l': show, 'n': show, 'p': show, '': null,
    '=': same, 'h': same, 'H': same, 'P': same, 'm': move, 't': copy_lines, 's': substitute, 'r': read_file, 'w': write_file, 'e': edit,
    'E': edit, 'f': name_file, 'u': undo, 'q': leave, 'Q': leave,
}


def after(before, command):
    """The state after a command, or Fails."""
    state = before.copy()
    given = address(state, command)
    if command.target:
        value(state, TARGET, command.target)
    state = ended(RULES[command.letter](state, before, command, given) or state)
    need(not command.suffix or state.zone.known('0', '.', -1))
    return state


def loop_start(before, command):
    state = before.copy()
    if address(state, command):
        need_range(state.zone)
    search(state, command.pattern)
    return ended(state)


def body_entry(invariant):
    state = invariant.copy()
    state.zone.forget('.')
    state.zone.guard('0', '.', -1)
    state.zone.guard('.', '$', 0)
    return ended(state)


def loop_end(before, command, invariant):
    state = invariant.copy()
    state.undo, state.old_zone, state.old_marks = {'same'}, None, None
    if any(listed.letter in tuple('aicdjmtsr') for listed in command.list):
        state.undo, state.old_zone, state.old_marks = {'same', 'was'}, before.zone, before.marks
    return ended(state)


# The checks.

@dataclasses.dataclass
class Certificate:
    path: bytes
    min: int
    max: int
    notes: list                 # each a state, and None or an invariant with its inner states
    end: State = None
    low: int = 0
    high: int = 0
    writes: list = None


class Refused(Exception):
    """By a check at this place."""


def check_at(place, holds):
    if not holds:
        raise Refused(place)


def passed(place, state, command, writes):
    """The state after a command whose needs hold at this place."""
    try:
        result = loop_start(state, command) if command.list else after(state, command)
    except Fails:
        raise Refused(place) from None
    if command.letter == 'w':
        check_at(place, ({command.path} if command.path is not None else state.names) <= set(writes))
    return result


def start_of(certificate):
    zone = Zone()
    zone.guard('0', '$', -certificate.min)
    zone.guard('$', '0', certificate.max)
    zone.set('.', '$', 0)
    return State(zone, set(), {None}, {'none'}, {certificate.path}, {'no'}, {'nothing'})


def check_shape(counted, notes):
    check_at('0', len(counted) == len(notes))
    for command, (_, looped) in zip(counted, notes):
        check_at('0', (command.list is None) == (looped is None))
        check_at('0', looped is None or len(looped[1]) == len(command.list))


def check(commands, certificate):
    """Raises Refused where a check fails."""
    ends = [place for place, command in enumerate(commands, 1) if command.letter in ('q', 'Q')]
    counted = commands[:ends[0]] if ends else commands
    check_shape(counted, certificate.notes)
    coming = start_of(certificate)
    for number, (command, (state, looped)) in enumerate(zip(counted, certificate.notes), 1):
        check_at(f'{number}', state.covers(coming))
        coming = passed(f'{number}', state, command, certificate.writes)
        if looped:
            invariant, inner = looped
            check_at(f'{number}', invariant.covers(coming))
            coming = body_entry(invariant)
            for turn, (listed, known) in enumerate(zip(command.list, inner), 1):
                check_at(f'{number}.{turn}', known.covers(coming))
                coming = passed(f'{number}.{turn}', known, listed, certificate.writes)
            check_at(f'{number}.{len(inner) + 1}', invariant.covers(coming))
            coming = loop_end(state, command, invariant)
    place, end = f'{len(counted) + 1}', certificate.end
    check_at(place, end.covers(coming) and (ends or 'yes' not in end.changed))
    check_at(place, end.zone.known('0', '$', -certificate.low) and end.zone.known('$', '0', certificate.high))


# The text.

ENTRY = re.compile(rb'([0.$a-z])-([0.$a-z])<=(0|-?[1-9][0-9]*)')
NUMBER = re.compile(rb'0|[1-9][0-9]*')
BOUND = 10**12


class Unread(Exception):
    """Why a text is no certificate."""


def spelled(content):
    return b'=' + b''.join(bytes([byte]) if 33 <= byte <= 126 and byte != 37 else b'%%%02x' % byte for byte in content)


class Text:
    """A text that is read line by line; each call takes the lines that it is named for."""

    def __init__(self, text):
        self.rest, self.number = text, 0

    def want(self, holds):
        """The line taken last is one that may stand there."""
        if not holds:
            raise Unread(f'line {self.number}')

    def line(self):
        """The words of the next line."""
        line, newline, rest = self.rest.partition(b'\n')
        if not newline:
            raise Unread('size')
        self.rest, self.number = rest, self.number + 1
        return line.split(b' ')

    def words(self, first):
        """What follows the first word of the next line."""
        words = self.line()
        self.want(words[0] == first)
        return words[1:]

    def values(self, first):
        values = [self.value(word) for word in self.words(first)]
        self.want(values == sorted(set(values), key=lambda value: (value is not None, value or b'')))
        return values

    def value(self, word):
        if word == b'-':
            return None
        content = re.sub(rb'%([0-9a-f]{2})', lambda found: bytes.fromhex(found[1].decode()), word[1:])
        self.want(spelled(content) == word)
        return content

    def bound(self, word):
        self.want(NUMBER.fullmatch(word) and int(word) <= BOUND)
        return int(word)

    def bounds(self, first):
        words = self.words(first)
        self.want(len(words) == 2)
        return self.bound(words[0]), ANY if words[1] == b'any' else self.bound(words[1])

    def zone(self, before):
        """A zone, and the marks on the next line."""
        zone, order = Zone(), []
        for word in self.words(before + b'zone'):
            entry = ENTRY.fullmatch(word)
            self.want(entry)
            x, y, number = entry[1].decode(), entry[2].decode(), int(entry[3])
            self.want(abs(number) <= LIMIT and (x != y or number != 0))
            order.append((WRITTEN.index(x), WRITTEN.index(y)))
            zone.put(x, y, number)
        self.want(order == sorted(set(order)))
        marks = self.words(before + b'marks')
        self.want(len(marks) < 2 and all(re.fullmatch(rb'[a-z]+', word) for word in marks))
        letters = marks[0].decode() if marks else ''
        self.want(list(letters) == sorted(set(letters)))
        self.want(all(name in letters + '0.$' for pair in zone.numbers for name in pair))
        return zone, set(letters)

    def choice(self, first, members):
        words = self.words(first)
        self.want(words and words == [word for word in members.split() if word in words])
        return {word.decode() for word in words}

    def state(self):
        zone, marks = self.zone(b'')
        patterns = self.values(b'patterns')
        self.want(patterns)
        replacements = self.choice(b'replacements', b'none plain split')
        names = self.values(b'names')
        self.want(names)
        changed = self.choice(b'changed', b'no yes')
        undo = self.choice(b'undo', b'nothing same was')
        old = self.zone(b'old-') if 'was' in undo else (None, None)
        return State(zone, marks, set(patterns), replacements, set(names), changed, undo, *old)

    def looped(self, line):
        """A global's invariant and inner states, where this line begins them, and the line after them."""
        if line != [b'loop']:
            return None, line
        invariant, inner, line = self.state(), [], self.line()
        while line == [b'inner']:
            inner.append(self.state())
            line = self.line()
        self.want(line == [b'done'])
        return (invariant, inner), self.line()

    def certificate(self):
        first, newline, _ = self.rest.partition(b'\n')
        if not newline or first != b'ed-certificate 1':
            raise Unread('version')
        self.line()
        path = self.words(b'path')
        self.want(len(path) == 1)
        made = Certificate(self.value(path[0]), *self.start(), [])
        line = self.line()
        while line == [b'note']:
            state = self.state()
            looped, line = self.looped(self.line())
            made.notes.append((state, looped))
        self.want(line == [b'end'])
        made.end = self.state()
        made.low, made.high = self.bounds(b'final')
        made.writes = self.values(b'writes')
        self.want(None not in made.writes)
        if self.rest:
            raise Unread('size')
        return made

    def start(self):
        low, high = self.bounds(b'start')
        self.want(low <= high)
        return low, high


def right(script, certificate):
    """What has to be printed, and the status."""
    try:
        check(commands_of(script.split('\n')[:-1], False), Text(certificate).certificate())
    except Unread as why:
        return f'certificate: {why}', 1
    except Refused as place:
        return f'refused: command {place}', 1
    return 'accepted', 0


# The changes: what each is called, the bytes from one place to another, and those that come in their place.

def changes_of_lines(text):
    lines, start = text.splitlines(keepends=True), 0
    for number, line in enumerate(lines, 1):
        end = start + len(line)
        yield f'line {number} doubled', end, end, line
        yield f'line {number} dropped', start, end, b''
        if number < len(lines):
            following = lines[number]
            yield f'line {number} exchanged with the next', start, end + len(following), following + line
        start = end


def other_choices(line):
    """The line with each other choice of what it lists, as far as the line alone can show."""
    key, *words = line.split() or [b'']
    if key in SETS:
        choices = (chosen for size in range(len(SETS[key]) + 1) for chosen in itertools.combinations(SETS[key], size))
        yield from (b' '.join((key, *chosen)) for chosen in choices if list(chosen) != words)
    elif key.endswith(b'marks'):
        marks = set(words[0]) if words else set()
        for letter in marks.union(ADDED_MARKS):
            yield b' '.join([key, bytes(sorted(marks ^ {letter}))]).rstrip()
    elif key.endswith(b'zone'):
        yield from (b' '.join((key, *words[:place], *words[place + 1:])) for place in range(len(words)))


def changes_of_choices(text):
    start = 0
    for number, line in enumerate(text.splitlines(keepends=True), 1):
        for other in other_choices(line):
            yield f'line {number} as {other.decode()}', start, start + len(line), other + b'\n'
        start += len(line)


def changes_of_bytes(text, chance):
    for number in re.finditer(rb'(?:(?<==)|(?<= ))-?[0-9]+(?=[ \n])', text):
        for step in (-1, 1):
            yield f'number at byte {number.start()} by {step:+}', *number.span(), b'%d' % (int(number[0]) + step)
    for place in range(len(text)):
        for byte in chance.sample(sorted(set(BYTES) - {text[place]}), OTHERS):
            yield f'byte {place}', place, place + 1, bytes([byte])
    for place in chance.sample(range(len(text) + 1), ZEROS):
        yield f'a zero byte at {place}', place, place, b'\0'


def changes(text, chance):
    yield 'none', 0, 0, b''
    yield 'CRLF', 0, len(text), text.replace(b'\n', b'\r\n')
    yield from changes_of_lines(text)
    yield from changes_of_choices(text)
    yield from changes_of_bytes(text, chance)
    for place in range(len(text)):
        yield f'cut at byte {place}', place, len(text), b''


def case(job):
    """The answer, and what is to be shown where it is another one."""
    folder, number, certificate, (name, start, end, instead) = job
    changed = certificate[:start] + instead + certificate[end:]
    path = f'{folder}/{os.getpid()}'
    with open(path, 'wb') as file:
        file.write(changed)
    with open(f'{folder}/script{number}', 'rb') as script:
        ran = subprocess.run([PROGRAM, 'check', path], stdin=script, stdout=subprocess.PIPE, stderr=subprocess.DEVNULL, timeout=600)
    answer, status = right(SCRIPTS[number][3], changed)
    if (ran.stdout, ran.returncode) == (f'{answer}\n'.encode(), status):
        return answer, None
    return answer, f'{SCRIPTS[number]}, {name}, {certificate[start:end]} to {instead}: {answer}, {status}, and not {ran.stdout}, {ran.returncode}'


def vouched(number):
    low, high, path, script = SCRIPTS[number]
    words = ['vouch', '--min', str(low), '--max', str(high)] + ([path] if path else [])
    ran = subprocess.run([PROGRAM, *words], input=script.encode(), stdout=subprocess.PIPE, stderr=subprocess.DEVNULL)
    if ran.returncode:
        sys.exit(f'{SCRIPTS[number]}: {ran.stdout.decode()}')
    return ran.stdout


def jobs(folder, certificates, seed):
    for number, certificate in enumerate(certificates):
        for change in changes(certificate, random.Random(seed * 1000003 + number)):
            yield folder, number, certificate, change


def compare(seed, processes):
    tally, failed, began = collections.Counter(), 0, time.monotonic()
    certificates = [vouched(number) for number in range(len(SCRIPTS))]
    with tempfile.TemporaryDirectory() as folder, multiprocessing.Pool(processes) as pool:
        for number, row in enumerate(SCRIPTS):
            with open(f'{folder}/script{number}', 'w', encoding='ascii') as file:
                file.write(row[3])
        for answer, difference in pool.imap_unordered(case, jobs(folder, certificates, seed), 64):
            tally[next(kind for kind in ANSWERS if answer.startswith(kind))] += 1
            if difference:
                failed += 1
                print(difference)
    print(f'seed {seed}, {len(SCRIPTS)} scripts, {time.monotonic() - began:.0f} s:')
    for kind, count in sorted(tally.items()):
        print(f'{count:8} {kind}')
    print(f'{sum(tally.values()) - failed} passed, {failed} failed')
    return failed


# Large certificates.

FIRST_LINE = b'ed-certificate 1\n'
MOST = 2**30
# How each is called, its first and last bytes with zero bytes between, its size, and the answer.
LARGE = (
    ('one line after the first', FIRST_LINE, b'\n', MOST, ('certificate: line 2\n', 1)),
    ('its newline is missing', FIRST_LINE, b'', MOST, ('certificate: size\n', 1)),
    ('no newline at all', b'', b'', MOST, ('certificate: version\n', 1)),
    ('a byte too many', FIRST_LINE, b'\n', MOST + 1, ('', 3)),
)


def large():
    failed = 0
    with tempfile.TemporaryDirectory() as folder:
        path = f'{folder}/CERT'
        for name, first, last, size, expected in LARGE:
            with open(path, 'wb') as file:
                file.write(first)
                file.truncate(size - len(last))
                file.seek(0, os.SEEK_END)
                file.write(last)
            began = time.monotonic()
            with subprocess.Popen([PROGRAM, 'check', path], stdin=subprocess.DEVNULL, stdout=subprocess.PIPE) as process:
                output = process.stdout.read().decode()
                _, status, used = os.wait4(process.pid, 0)
                process.returncode = os.waitstatus_to_exitcode(status)
            same_answer = (output, process.returncode) == expected
            failed += not same_answer
            print(f'{name}: {time.monotonic() - began:.2f} s, {used.ru_maxrss / 2**10:.0f} MiB, {output.strip() or "no output"}, '
                  f'status {process.returncode}{"" if same_answer else f" and not {expected}"}')
    print(f'{len(LARGE) - failed} passed, {failed} failed')
    return failed


def main():
    resource.setrlimit(resource.RLIMIT_CORE, (0, 0))
    if sys.argv[1] == '--large':
        sys.exit(large() > 0)
    sys.exit(compare(int(sys.argv[1]), int(sys.argv[2]) if len(sys.argv) > 2 else None) > 0)


if __name__ == '__main__':
    main()
