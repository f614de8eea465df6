"""The editor once more, as plainly as it can be said: what a script does to a buffer, what it writes, and how it ends.

A script is a list of commands (the class Command), so that nothing is parsed here. `Run` carries them out on files that are a dict
from names to bytes. Nothing is fast: a search evaluates its pattern by ../patterns/reference.py, undo keeps a copy of the buffer.
Where `ed` is known to do otherwise, the run notes why (`Run.noted`).
"""
import dataclasses
import os
import sys

sys.dont_write_bytecode = True
AGAINST = os.path.dirname(os.path.dirname(os.path.abspath(__file__)))
sys.path += [AGAINST, os.path.join(AGAINST, 'patterns'), os.path.join(AGAINST, 'substitute')]
import reference
from substitution import replaced


class Fault(Exception):
    """A fault by the first word of its name."""


@dataclasses.dataclass
class Command:
    letter: str
    # None, or a separator with addresses: ('', [a]), (',', [a, b]), (';', [a, b]), where b may be None after a `;`.
    # An address is a base, what stands with it (a number, a letter, a pattern) and an offset.
    addresses: tuple = None
    text: list = dataclasses.field(default_factory=list)
    target: tuple = None
    name: str = None
    pattern: tuple = None       # a spelling and its tree; None is the remembered one
    parts: list = None          # of a replacement; None is the remembered one
    which: object = 1           # a number, or 'g'
    flag: str = ''
    suffix: str = ''
    list: list = None
    listed: bool = False


@dataclasses.dataclass
class Line:
    text: str
    marks: set = dataclasses.field(default_factory=set)
    flag: bool = False


HERE, LAST = ('.', None, 0), ('$', None, 0)
DEFAULTS = {
    'a': ('', [HERE]), 'i': ('', [HERE]), 'k': ('', [HERE]), 'r': ('', [LAST]), '=': ('', [LAST]), '': ('', [('.', None, 1)]),
    'j': (',', [HERE, ('.', None, 1)]), **{letter: (',', [HERE, HERE]) for letter in 'cdlnpmts'},
}


# What the help mode tells of each fault.
TEXTS = {
    'Address': 'invalid address', 'Mark': 'mark not set', 'Pattern': 'no previous pattern', 'NoMatch': 'no match',
    'Destination': 'invalid destination', 'Name': 'no current file name', 'Unsaved': 'buffer modified', 'Undo': 'nothing to undo',
    'Replacement': 'invalid replacement', 'File': 'file refused',
}


class Run:
    def __init__(self, files, start, silent, prompt=None):
        self.files, self.silent, self.output = dict(files), silent, b''
        # What the help mode told of the fault that ended the run.
        self.told = b''
        self.help, self.prompting, self.prompt = False, prompt is not None, '*' if prompt is None else prompt
        self.lines, self.current, self.pattern, self.parts, self.changed, self.past = [], 0, None, None, False, None
        self.name, self.noted, self.altered = start, set(), False
        if start in files:
            self.load(files[start])

    # What the run writes.

    def write(self, text):
        self.output += text.encode('latin-1')

    def count(self, number):
        if not self.silent:
            self.write(f'{number}\n')

    def show(self, form, first, last):
        for number in range(first, last + 1):
            text = self.lines[number - 1].text
            self.write({'p': f'{text}\n', 'n': f'{number}\t{text}\n', 'l': f'{text}$\n'}[form])

    # Addresses.

    def remembered(self, pattern):
        if pattern is None:
            if self.pattern is None:
                raise Fault('Pattern')
            return self.pattern
        self.pattern = pattern
        return pattern

    def matches(self, pattern, text):
        return reference.Match(text).find(pattern[1], 0) is not None

    def searched(self, base, pattern):
        pattern, last, at = self.remembered(pattern), len(self.lines), self.current
        if base == '/':
            order = [*range(at + 1, last + 1), *range(1, at + 1)]
        else:
            order = [*range(at - 1, 0, -1), *range(last, max(at, 1) - 1, -1)]
        for number in order:
            if self.matches(pattern, self.lines[number - 1].text):
                return number
        raise Fault('NoMatch')

    def value(self, address):
        base, given, offset = address
        if base == 'number':
            number = given
        elif base == '.':
            number = self.current
        elif base == '$':
            number = len(self.lines)
        elif base == "'":
            marked = [number for number, line in enumerate(self.lines, 1) if given in line.marks]
            if not marked:
                if not self.lines:
                    self.noted.add('a mark in an empty buffer')
                raise Fault('Mark')
            number = marked[0]
        else:
            number = self.searched(base, given)
        if not 0 <= number + offset <= len(self.lines):
            if not self.lines:
                self.noted.add('an address in an empty buffer')
            raise Fault('Address')
        return number + offset

    def values(self, addresses):
        if addresses is None:
            return []
        separator, (first, *second) = addresses
        found = [self.value(first)]
        if separator == ';':
            self.current = found[0]
        if second:
            found.append(found[0] if second[0] is None else self.value(second[0]))
        return found

    def span(self, letter, found):
        last = len(self.lines)
        if letter in 'wgv' and letter and not found:
            return 1, last
        if letter in ('a', 'r', '='):
            return found[-1], found[-1]
        if letter == 'i':
            if found[-1] == 0:
                self.noted.add('i at line 0')
            return max(1, found[-1]), max(1, found[-1])
        if letter in ('k', ''):
            if found[-1] == 0:
                raise Fault('Address')
            return found[-1], found[-1]
        first, second = found[0], found[-1]
        if letter == 'c':
            if first == 0:
                self.noted.add('c at line 0')
            if first > second or max(1, second) > last:
                raise Fault('Address')
            return max(1, first), max(1, second)
        if first == 0 or first > second:
            raise Fault('Address')
        return first, second

    # Changes of the buffer.

    def enter(self, at, texts):
        for place, text in enumerate(texts):
            self.lines.insert(at + place, Line(text))
        self.current = at + len(texts)
        return bool(texts)

    def load(self, content):
        self.lines = [Line(text) for text in content.decode('latin-1').split('\n')[:-1]]
        if content and not content.endswith(b'\n'):
            self.lines.append(Line(content.decode('latin-1').split('\n')[-1]))
        self.current, self.changed, self.past = len(self.lines), False, None
        self.count(len(content))

    def kept(self):
        return [Line(line.text, set(line.marks)) for line in self.lines], self.current

    def path(self, given):
        if given is None and self.name is None:
            raise Fault('Name')
        return given if given is not None else self.name

    def bytes_of(self, path):
        if path not in self.files:
            raise Fault('File')
        return self.files[path]

    def substitute(self, command, first, last):
        parts = command.parts
        if parts is None:
            if self.parts is None or command.listed and '\n' in self.parts:
                raise Fault('Replacement')
            parts = self.parts
        pattern, made, new = self.remembered(command.pattern), None, []
        if command.which != 1 and self.matches(pattern, ''):
            self.noted.add('empty matches with g or a count')
        self.parts = parts
        for line in self.lines[first - 1:last]:
            result = replaced(pattern[1], parts, command.which, line.text)
            new += [line] if result is None else [Line(text) for text in result]
            made = made if result is None else first - 1 + len(new)
        if made is None:
            if command.listed:
                if command.flag:
                    self.noted.add('s with l, n or p in a list, where it replaces nothing')
                return False
            raise Fault('NoMatch')
        self.lines[first - 1:last] = new
        self.current = made
        if command.flag:
            self.show(command.flag, made, made)
        return True

    def move(self, first, last, target):
        if first <= target <= last:
            if target == last:
                self.noted.add('m to after its own last line')
            raise Fault('Destination')
        moved = self.lines[first - 1:last]
        if any(line.flag for line in moved):
            self.noted.add('m of lines that its global has yet to take')
        del self.lines[first - 1:last]
        place = target if target < first else target - len(moved)
        self.lines[place:place] = moved
        self.current = place + len(moved)
        return True

    def undo(self):
        if self.past is None:
            raise Fault('Undo')
        if self.past == 'same':
            self.noted.add('u after a global that changed nothing')
        else:
            self.noted.add('u and what it says of changes and of the current line')
            present = self.kept()
            self.lines, self.current = self.past
            self.past, self.changed = present, True

    # One command; whether it changed the buffer.

    def effect(self, command, first, last, target):
        letter = command.letter
        if letter == 'a':
            return self.enter(first, command.text)
        if letter == 'i':
            if not command.text:
                self.current = min(first, len(self.lines))
                return False
            return self.enter(first - 1, command.text)
        if letter in ('c', 'd'):
            del self.lines[first - 1:last]
            if letter == 'c' and command.text:
                self.enter(first - 1, command.text)
            else:
                self.current = min(first, len(self.lines))
            return True
        if letter == 'j':
            if first == last:
                return False
            self.lines[first - 1:last] = [Line(''.join(line.text for line in self.lines[first - 1:last]))]
            self.current = first
            return True
        if letter == 'k':
            for line in self.lines:
                line.marks.discard(command.name)
            self.lines[first - 1].marks.add(command.name)
        elif letter == 'm':
            return self.move(first, last, target)
        elif letter == 't':
            return self.enter(target, [line.text for line in self.lines[first - 1:last]])
        elif letter == 's':
            return self.substitute(command, first, last)
        elif letter == '=':
            self.write(f'{last}\n')
        elif letter in ('l', 'n', 'p', ''):
            self.show(letter or 'p', first, last)
            self.current = last
        elif letter == 'u':
            self.undo()
        elif letter in ('h', 'H', 'P'):
            # `h` has no fault to tell of; `one` turns the modes.
            pass
        else:
            return self.on_file(command, first, last)
        return False

    def on_file(self, command, first, last):
        letter, path = command.letter, self.path(command.name)
        if letter == 'f':
            self.name = path
            self.write(f'{path}\n')
        elif letter == 'w':
            self.name = self.name or path
            written = ''.join(line.text + '\n' for line in self.lines[first - 1:last]).encode('latin-1')
            self.files[path] = written
            self.count(len(written))
            if (first, last) == (1, len(self.lines)):
                self.changed = False
        elif letter == 'r':
            content = self.bytes_of(path)
            self.name = self.name or path
            texts = content.decode('latin-1').split('\n')
            entered = self.enter(first, texts[:-1] if texts[-1] == '' else texts)
            self.count(len(content))
            return entered
        else:
            if letter == 'e' and self.changed:
                raise Fault('Unsaved')
            content = self.bytes_of(path)
            self.name = path
            self.load(content)
        return False

    def one(self, command):
        before, written = self.kept(), self.output
        try:
            found = self.values(command.addresses or DEFAULTS.get(command.letter))
            target = None if command.target is None else self.value(command.target)
            first, last = (0, 0) if command.letter in ('u', 'e', 'E', 'f', 'h', 'H', 'P') else self.span(command.letter, found)
            alters = self.effect(command, first, last, target)
            if command.suffix:
                if self.current == 0:
                    self.noted.add('a suffix at line 0')
                    raise Fault('Address')
                self.show(command.suffix, self.current, self.current)
        except Fault:
            # A command that faults writes nothing of its own.
            self.output = written
            raise
        # A mode is turned by a command that is done.
        if command.letter == 'H':
            self.help = not self.help
        if command.letter == 'P':
            self.prompting = not self.prompting
        if alters:
            self.changed = self.altered = True
            if not command.listed:
                self.past = before

    def everywhere(self, command):
        before = self.kept()
        if not self.lines:
            self.noted.add('g or v in an empty buffer')
        if len(command.list) > 1 and any(listed.letter == '' and not listed.addresses for listed in command.list):
            self.noted.add('an empty line in a list')
        first, last = self.span(command.letter, self.values(command.addresses))
        pattern = self.remembered(command.pattern)
        for number in range(first, last + 1):
            line = self.lines[number - 1]
            line.flag = self.matches(pattern, line.text) == (command.letter == 'g')
        self.altered = False
        while any(line.flag for line in self.lines):
            self.turn()
            place = [line.flag for line in self.lines].index(True)
            self.lines[place].flag, self.current = False, place + 1
            for number, listed in enumerate(command.list):
                self.turn(number)
                self.one(listed)
        self.past = before if self.altered else 'same'

    def turn(self, number=None):
        """Comes before each turn of a list, and before each command of it, by its number: for who watches a run."""

    def ask(self):
        """The prompt, before each command of the script and before its end is found."""
        if self.prompting:
            self.write(self.prompt)

    def end(self, script):
        """Carries the script out; the status that the run ends with."""
        try:
            for command in script:
                self.ask()
                if command.letter == 'Q':
                    return 0
                if command.letter == 'q':
                    break
                (self.everywhere if command.letter in ('g', 'v') else self.one)(command)
            else:
                self.ask()
            if self.changed:
                raise Fault('Unsaved')
            return 0
        except Fault as fault:
            self.write('?\n')
            if self.help:
                self.told = (TEXTS[fault.args[0]] + '\n').encode()
            return 3 if fault.args == ('File',) else 1
