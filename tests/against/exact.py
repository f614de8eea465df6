#!/usr/bin/env python3
"""Compares what `vouch` answers about random exact scripts with what their runs do.

    exact.py [COUNT [SEED [PROCESSES]]]

An exact script has only commands that look at nothing of the buffer but its number of lines. Over a start file of a known number of lines
it has to be vouched for just where `edit` runs it to its end. Then `check` accepts the certificate, and both its final bounds are the number
of lines that the run leaves. That number is told by files: the script up to its end is run once more with `w REPORT` for its end, by
our program and, where it is installed, by GNU `ed`, and the newlines of REPORT are counted. `ed` refuses some commands that aren't
refused here; such a script is counted, and not compared with `ed`.
Where the run ends by a fault, `vouch` has to name that fault and its command. The fault is told by a run in help mode; that it is that
command's, by two runs that end by `Q`, right before the command without a fault, right after it with one.
The two numbers of exact_scripts.py have to agree with both. One of a hundred scripts has a thousand commands. The rows of
exact_rows.py are run first. Build the program first. 20,000 scripts take some minutes, `exact.py 300` a few seconds.
"""
import os
import random
import shutil
import subprocess
import sys
import tempfile

sys.dont_write_bytecode = True
import exact_rows
import tally
from exact_scripts import Command, Maker, end_of

PROGRAM = os.path.abspath(os.path.join(os.path.dirname(__file__), '../../crates/ed_main/out/ed_main'))
COUNT, SEED, PROCESSES = 20_000, 1, 2
SECONDS = 120
SOME_LINES, MANY_LINES = 2_000, 100_000
ED = shutil.which('ed')
Q = Command('Q')


class Wrong(Exception):
    """What was not as it has to be."""


def spelled(commands, is_cut=False, **letters):
    """The bytes of a script, cut off before the full stop of a last text, or with a letter put for another."""
    lines = [line for command in commands for line in command.lines(letters.get(command.letter))]
    if is_cut and lines[-1:] == ['.'] and commands[-1].letter in tuple('aic'):
        lines.pop()
    return ''.join(line + '\n' for line in lines).encode()


class Start:
    """The start of a run in a folder: a file of so many lines, one that is missing, or none that is named."""

    def __init__(self, folder, lines, words, content):
        self.folder, self.lines, self.words, self.content = folder, lines, words, content

    def ran(self, words, script):
        for name in os.listdir(self.folder):
            os.remove(os.path.join(self.folder, name))
        if self.content is not None:
            with open(os.path.join(self.folder, 'F'), 'wb') as file:
                file.write(self.content)
        done = subprocess.run([*words, *self.words], input=script, capture_output=True, cwd=self.folder, timeout=SECONDS)
        return done.returncode, done.stdout

    def ours(self, words, script):
        return self.ran([PROGRAM, *words], script)

    def vouched(self, script):
        """The certificate, or what `vouch` says in its place."""
        status, told = self.ours(['vouch', '--min', str(self.lines), '--max', str(self.lines)], script)
        if status == 0 and told.startswith(b'ed-certificate 1\n'):
            return told, None
        if status == 1 and told.startswith(b'cannot: '):
            return None, told.decode()[len('cannot: '):].strip()
        raise Wrong(f'vouch: status {status}, {told[:200]!r}')

    def accepted(self, certificate, script):
        with tempfile.NamedTemporaryFile() as file:
            file.write(certificate)
            file.flush()
            done = subprocess.run([PROGRAM, 'check', file.name], input=script, capture_output=True, timeout=SECONDS)
        return (done.returncode, done.stdout) == (0, b'accepted\n')

    def reported(self, words, commands):
        """The number of lines at the end of these commands, or None where a run of them meets a fault."""
        status, output = self.ran(words, spelled([*commands, Command('w', name='REPORT'), Q]))
        path = os.path.join(self.folder, 'REPORT')
        if status != 0 or b'?' in output.split(b'\n') or not os.path.exists(path):
            return None
        with open(path, 'rb') as file:
            return file.read().count(b'\n')

    def ends(self, commands):
        return self.ours(['edit', '-s'], spelled(commands))[0]


def final_of(certificate):
    rows = dict(row.partition(' ')[::2] for row in certificate.decode().splitlines())
    return rows['final'], rows['writes']


def run_without_fault(start, commands):
    """The number of lines that a run leaves, as our program and `ed` tell, and what `ed` had to say."""
    end = next((place for place, command in enumerate(commands) if command.letter in ('q', 'Q')), len(commands))
    lines = start.reported([PROGRAM, 'edit', '-s'], commands[:end])
    if ED is None:
        return lines, 'ed is not installed'
    others = start.reported([ED, '-s'], commands[:end])
    if others is not None and others != lines:
        raise Wrong(f'the run leaves {lines} lines, and that of ed {others}')
    return lines, 'ed leaves as many lines' if others is not None else 'ed refuses a command, or the missing file'


def compared_end(start, commands, script, certificate, cannot):
    """What was compared of a run that ended without a fault."""
    lines, witness = run_without_fault(start, commands)
    if certificate is None:
        raise Wrong(f'a false alarm: {cannot}; the run leaves {lines} lines')
    if final_of(certificate)[0] != f'{lines} {lines}':
        raise Wrong(f'final {final_of(certificate)[0]}; the run leaves {lines} lines')
    if not start.accepted(certificate, script):
        raise Wrong('the certificate is not accepted')
    return f'no fault, vouched for with the lines that the run leaves; {witness}', (None, None, lines)


def compared_fault(start, commands, script, certificate, cannot):
    """What was compared of a run that ended by a fault."""
    if certificate is not None:
        raise Wrong('vouched for, and the run meets a fault')
    place, _, fault = cannot[len('command '):].partition(': ')
    place = int(place)
    # Here no command turns a mode but the first, an `H`.
    told = start.ours(['edit', '-s'], b'H\n' + spelled(commands, H='h', P='h'))[1].splitlines()[-2:]
    if told != [b'?', fault.encode()]:
        raise Wrong(f'cannot: {cannot}; the run meets {told}')
    if start.ends([*commands[:place - 1], Q]) != 0:
        raise Wrong(f'cannot: {cannot}; the run meets a fault before')
    if place <= len(commands) and start.ends([*commands[:place], Q]) == 0:
        raise Wrong(f'cannot: {cannot}; the run goes on after that command')
    return f'a fault, and vouch names it and its command: {fault}', (place, fault, None)


def compared(start, commands, script, options):
    certificate, cannot = start.vouched(script)
    status, _ = start.ours(['edit', *options], script)
    if status not in (0, 1):
        raise Wrong(f'edit: status {status}')
    compare = compared_end if status == 0 else compared_fault
    return compare(start, commands, script, certificate, cannot)


def start_of(chance, folder):
    kind = chance.random()
    if kind < 0.1:
        return Start(folder, 0, [], None)
    if kind < 0.15:
        return Start(folder, 0, ['F'], None)
    lines = chance.randrange(9)
    content = b''.join(chance.choice((b'a', b'', b'b c', b'.', b'x\tx')) + b'\n' for _ in range(lines))
    return Start(folder, lines, ['F'], content[:-1] if content[-2:-1] not in (b'\n', b'') and chance.random() < 0.2 else content)


def case(number_and_seed):
    """What kind of script it was, and what is to be shown of it where something is wrong."""
    number, seed = number_and_seed
    chance, folder = random.Random(seed * 1000003 + number), tempfile.mkdtemp()
    start, is_long = start_of(chance, folder), number % 100 == 99
    name = 'F' if start.words else None
    maker = Maker(chance, start.lines, name, MANY_LINES if number % 50 == 0 else SOME_LINES)
    commands = maker.script(1000 if is_long else chance.choice((1, 2, 3, 4, 5, 6, 8, 12)), 1 / 5000 if is_long else 0.1)
    script = spelled(commands, chance.random() < 0.5)
    if script[-2:-1] not in (b'\n', b'') and chance.random() < 0.05:
        script = script[:-1]
    options = chance.choice(([], ['-s'], ['-p', '> '], ['-s', '-p', '']))
    try:
        kind, told = compared(start, commands, script, options)
        if told != end_of(commands, start.lines, name):
            raise Wrong(f'vouch and the run: {told}; by the two numbers: {end_of(commands, start.lines, name)}')
        return ('1,000 commands: ' if is_long else '') + kind, None
    except (Wrong, subprocess.TimeoutExpired) as wrong:
        shown = script.decode() if len(script) < 4000 else f'{len(script)} bytes: {number=} {seed=}\n'
        return 'WRONG', f'{start.lines} lines, {start.words} {start.content!r} {options}\n{shown}{wrong}\n'
    finally:
        shutil.rmtree(folder)


def bytes_of(script):
    return script.encode('utf-8', 'surrogateescape')


def row_case(row, folder):
    """What is wrong with a row, or None."""
    lines = 0 if row.start in (exact_rows.MISSING, exact_rows.NO_PATH) else row.start
    start = Start(folder, lines, [] if row.start == exact_rows.NO_PATH else ['F'], None if isinstance(row.start, str) else b'line\n' * lines)
    try:
        certificate, cannot = start.vouched(bytes_of(row.script))
        status, _ = start.ours(['edit', '-s'], bytes_of(row.script))
        told = cannot if certificate is None else final_of(certificate)
        right = row.cannot or (f'{row.lines} {row.lines}', row.writes)
        if told != right:
            raise Wrong(f'{right} is right, and vouch says {told}')
        if certificate is not None and not start.accepted(certificate, bytes_of(row.script)):
            raise Wrong('the certificate is not accepted')
        if (status != 0) != (row.cannot is not None):
            raise Wrong(f'edit: status {status}')
        return None
    except Wrong as wrong:
        return f'{row.name}: {row.start}\n{row.script[:1000]!r}\n{wrong}\n'


def main():
    count, seed, processes = [int(word) for word in sys.argv[1:]] + [COUNT, SEED, PROCESSES][len(sys.argv) - 1:]
    kinds, _ = tally.told(case, count, seed, processes)
    with tempfile.TemporaryDirectory() as folder:
        for row in exact_rows.ROWS:
            wrong = row_case(row, folder)
            kinds['WRONG' if wrong else 'a row worked out by hand'] += 1
            if wrong:
                print(wrong, flush=True)
    print(f'{len(exact_rows.ROWS)} rows, and {count} random scripts, seed {seed}:')
    tally.show(kinds)
    failed = kinds['WRONG']
    print(f'{sum(kinds.values()) - failed} passed, {failed} failed')
    sys.exit(failed > 0)


if __name__ == '__main__':
    main()
