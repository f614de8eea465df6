"""Random scripts of commands that look at nothing of the buffer but its number of lines, and what each does to that number.

`Counted` carries out such commands on two numbers, the last line and the current one, on the remembered path and on whether the buffer was
changed. It holds no lines, and states the standard's rules again, apart from the program.
"""
import copy
import dataclasses

# What may be followed by `l`, `n` or `p`, and what takes no addresses.
SUFFIXED = 'acdijlmnpt=hHP'
UNADDRESSED = 'fqQhHP'
LARGEST = 999999999  # the largest number that is read
TEXTS = ('', 'a', 'x', '..', 'b b', ' .', 'w')
# None of these lines is a command.
UNREAD = (
    'x', '2q', '1,2Q', ',2a2', '5H', '1h', 'qp', 'Ql', 'wq', 'wG', '!ls', 'w !ls', 'z', '1,2,3p', '1234567890p', '1+1234567890p', '1 2p', 'm', '1t',
    'p5', 'pq', 'ap5', '2f G', 'k', 'kA', '=x', '.p+', "1';p", 'd,', 's', 'dd', '1;2;p',
)


class Fault(Exception):
    """A fault, by its text."""


@dataclasses.dataclass
class Address:
    base: object        # a number, `.` or `$`
    offset: int
    spelled: str


ONE, HERE, NEXT, LAST = Address(1, 0, '1'), Address('.', 0, '.'), Address('.', 1, '+'), Address('$', 0, '$')
# The addresses of a command that is given none: what separates them, and they themselves.
DEFAULTS = {
    'a': ('', HERE), 'i': ('', HERE), '=': ('', LAST), '': ('', NEXT), 'j': (',', HERE, NEXT),
    **{letter: (',', HERE, HERE) for letter in 'cdlnpmt'},
}


@dataclasses.dataclass
class Command:
    """A command, or a line that is none (its letter is None)."""
    letter: str
    head: str = ''          # the addresses as they are spelled
    addresses: tuple = ()   # as in DEFAULTS; without a second address after a `;` the first one's value is taken
    text: tuple = ()
    target: Address = None
    name: str = None
    suffix: str = ''
    blanks: str = ''        # at the line's end

    def lines(self, letter=None):
        """Its lines, with another letter if one is given."""
        if self.letter is None:
            return [self.head]
        spelled = self.head + (self.letter if letter is None else letter) + (self.target.spelled if self.target else '') + self.suffix
        spelled += f' {self.name}' if self.name else self.blanks
        return [spelled, *self.text, '.'] if self.letter in tuple('aic') else [spelled]


class Counted:
    def __init__(self, last, name):
        self.last, self.current, self.name, self.is_changed = last, last, name, False

    def value(self, address):
        base = {'.': self.current, '$': self.last}.get(address.base, address.base)
        if not 0 <= base + address.offset <= self.last:
            raise Fault('invalid address')
        return base + address.offset

    def values(self, addresses):
        if not addresses:
            return []
        separator, first, *second = addresses
        found = [self.value(first)]
        if separator == ';':
            self.current = found[0]
        if separator:
            found.append(self.value(second[0]) if second else found[0])
        return found

    def span(self, letter, found):
        """The lines that a command is applied to."""
        if not found:
            return (1, self.last) if letter == 'w' else (0, 0)
        first, last = found[0], found[-1]
        if letter in ('a', '='):
            return last, last
        if letter == 'i':
            return max(1, last), max(1, last)
        if letter == '':
            first = last
        if letter == 'c':
            if not (first <= last and max(1, last) <= self.last):
                raise Fault('invalid address')
            return max(1, first), max(1, last)
        if not 1 <= first <= last:
            raise Fault('invalid address')
        return first, last

    def alter(self, more, current):
        self.last, self.current, self.is_changed = self.last + more, current, True

    def enter(self, after, count):
        if count:
            self.alter(count, after + count)
        else:
            self.current = after

    def path(self, name):
        if name is None and self.name is None:
            raise Fault('no current file name')
        return name or self.name

    def effect(self, command, first, last, target):
        letter, size, count = command.letter, len(command.text), last - first + 1
        if letter == 'a':
            self.enter(first, size)
        elif letter == 'i':
            self.enter(first - 1 if size else min(first, self.last), size)
        elif letter == 'd' or letter == 'c' and not size:
            self.alter(-count, min(first, self.last - count))
        elif letter == 'c':
            self.alter(size - count, first - 1 + size)
        elif letter == 'j' and first < last:
            self.alter(1 - count, first)
        elif letter == 'm':
            if first <= target <= last:
                raise Fault('invalid destination')
            self.alter(0, target + count if target < first else target)
        elif letter == 't':
            self.enter(target, count)
        elif letter in ('l', 'n', 'p', ''):
            self.current = last
        elif letter == 'w':
            self.name = self.name or self.path(command.name)
            self.is_changed = self.is_changed and (first, last) != (1, self.last)
        elif letter == 'f':
            self.name = self.path(command.name)
        elif letter == 'q':
            self.leave()

    def leave(self):
        if self.is_changed:
            raise Fault('buffer modified')

    def do(self, command):
        if command.letter is None:
            raise Fault('invalid command')
        found = self.values(command.addresses or DEFAULTS.get(command.letter))
        target = self.value(command.target) if command.target else None
        self.effect(command, *self.span(command.letter, found), target)
        if command.suffix and self.current == 0:
            raise Fault('invalid address')


def end_of(commands, last, name):
    """How a script ends: the place of its fault, counted from 1, and the fault's text, or None twice; and the lines that it leaves."""
    state = Counted(last, name)
    for place, command in enumerate([*commands, Command('q')], 1):
        try:
            state.do(command)
        except Fault as fault:
            return place, fault.args[0], None
        if command.letter in ('q', 'Q'):
            break
    return None, None, state.last


class Maker:
    """Makes a random script over a buffer that starts with so many lines and never has more than `most`."""

    def __init__(self, chance, last, name, most):
        self.chance, self.state, self.most, self.commands = chance, Counted(last, name), most, []
        # Half of the scripts lack what `ed` refuses, and this editor doesn't.
        self.is_for_ed = chance.random() < 0.5

    def offset(self, amount):
        """An offset as it may be spelled: signs alone, numbers, or a chain of both that comes to this amount."""
        chance = self.chance
        kind = chance.random()
        if amount == 0 and kind < 0.8:
            return ''
        if kind < 0.5 and abs(amount) <= LARGEST:
            return f'{amount:+d}'
        if kind < 0.7 and abs(amount) <= 4:
            return chance.choice(('', ' ')).join('+' * amount if amount > 0 else '-' * -amount)
        steps, left = [], amount
        for _ in range(1000 if kind > 0.998 else chance.choice((1, 2, 3))):
            step = chance.choice((LARGEST, -LARGEST, chance.randint(-9, 9)))
            steps.append(step)
            left -= step
        while left:
            step = max(-LARGEST, min(LARGEST, left))
            steps.append(step)
            left -= step
        if chance.random() < 0.5:
            steps.sort(reverse=True)
        return chance.choice(('', '', ' ')).join(f'{step:+d}' for step in steps)

    def address(self, number):
        """An address of this value, by a number, `.` or `$`."""
        chance, state = self.chance, self.state
        kind = chance.random()
        if kind < 0.4 and 0 <= number <= LARGEST:
            return Address(number, 0, chance.choice(('', '', '', '00')) + str(number) if number < 10 ** 7 else str(number))
        if kind < 0.5:
            base = chance.choice((0, 1, max(0, number - 1), number + 1 if number >= 0 else 3, LARGEST))
            base = min(base, LARGEST)
            return Address(base, number - base, str(base) + self.offset(number - base))
        if kind < 0.75:
            offset = self.offset(number - state.current)
            dot = '' if offset[:1] in ('+', '-') and chance.random() < 0.5 else '.'
            return Address('.', number - state.current, dot + offset)
        return Address('$', number - state.last, '$' + self.offset(number - state.last))

    def number(self, low=0):
        """A line's number, mostly one that is there."""
        chance, last = self.chance, self.state.last
        kind = chance.random()
        if kind < 0.05:
            return chance.choice((0, 0, -1, last + 1, last + 2, LARGEST, -LARGEST, 3 * LARGEST, 1000 * LARGEST))
        return chance.choice((chance.randint(min(low, last), last), min(low, last), last)) if kind < 0.95 else chance.randint(0, last)

    def addresses(self):
        """Addresses as they are spelled, and as in DEFAULTS."""
        chance = self.chance
        kind = chance.random()
        if kind < 0.3:
            return '', ()
        if kind < 0.55:
            address = self.address(self.number(1))
            return address.spelled, ('', address)
        if kind < 0.62:
            return ',', (',', ONE, LAST)
        if kind < 0.67:
            return ';', (';', HERE, LAST)
        separator, blank = chance.choice(',,;;'), chance.choice(('', '', '', ' '))
        low = self.number(1)
        first = None if kind < 0.75 else self.address(low)
        low = self.state.value(HERE) if first is None and separator == ';' else 1 if first is None else low
        if kind > 0.93:
            return first.spelled + blank + separator, (separator, first, *[first] * (separator == ','))
        before = self.state.current
        if separator == ';':
            self.state.current = low
        second = self.address(self.number(max(1, low)))
        self.state.current = before
        spelled = ('' if first is None else first.spelled) + blank + separator + blank + second.spelled
        return spelled, (separator, first or (HERE if separator == ';' else ONE), second)

    def command(self):
        chance = self.chance
        made = Command(chance.choice((*'aaaiiiccddddjjlnppp===mmmmttttwwwffhHP', '')))
        letter = made.letter
        if letter not in UNADDRESSED or not letter:
            made.head, made.addresses = self.addresses()
        if letter in tuple('aic'):
            made.text = tuple(chance.choice(TEXTS) for _ in range(chance.choice((0, 1, 1, 2, 3))))
        if letter in ('m', 't'):
            made.target = self.target(made.addresses)
        if letter in ('w', 'f') and chance.random() < 0.5:
            made.name = chance.choice('FGH')
        if letter in tuple(SUFFIXED) and chance.random() < 0.2:
            made.suffix = chance.choice('lnp')
        made.blanks = ' ' * (chance.random() < 0.05)
        return made

    def target(self, addresses):
        """A target, evaluated where the addresses before it leave the current line."""
        before = self.state.current
        try:
            Counted.values(self.state, addresses)
            return self.address(self.number())
        except Fault:
            return self.address(self.number())
        finally:
            self.state.current = before

    def is_refused_by_ed(self, command):
        """`i` and `c` at line 0, where it stands for line 1."""
        return command.letter in ('i', 'c') and 0 in copy.copy(self.state).values(command.addresses or DEFAULTS[command.letter])

    def add(self, risk):
        """One command more, which meets a fault by this chance; whether the script goes on after it."""
        chance, is_wild = self.chance, self.chance.random() < risk
        if is_wild and chance.random() < 0.2:
            self.commands.append(Command(None, chance.choice(UNREAD)))
            return False
        for _ in range(40):
            command, state = self.command(), copy.copy(self.state)
            try:
                state.do(command)
                is_fault = False
            except Fault:
                is_fault = True
            if not is_fault and self.is_for_ed and self.is_refused_by_ed(command):
                continue
            if is_fault == is_wild and state.last <= self.most:
                self.commands.append(command)
                self.state = state
                return not is_fault
        self.commands.append(Command('='))
        return True

    def script(self, size, risk):
        """A random script of about so many commands, up to its first fault or a little further, and an end."""
        chance = self.chance
        while len(self.commands) < size and self.add(risk):
            pass
        ends = chance.choice(('Q', 'Q', 'Q', 'wq', 'wq', 'w', 'wQ', 'q', '', 'Gq'))
        for letter in ends:
            self.commands.append(Command('w', name='G') if letter == 'G' else Command(letter))
        if chance.random() < 0.15:
            for _ in range(chance.choice((1, 2))):
                self.commands.append(self.command() if chance.random() < 0.5 else Command(None, chance.choice(UNREAD)))
        return self.commands
