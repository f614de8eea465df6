#!/usr/bin/env python3
"""Runs random scripts that the verifier vouches for, and looks for a run that their certificates don't allow.

    python3 runs.py COUNT SEED [PROCESSES [RUNS]]

Each script is that of ../scripts/compare.py, with bounds on the lines of its start file. Where `edv vouch` prints a certificate,
`edv check` has to accept it, and `edv run` runs the script RUNS times (50 if left out), on start files of each size within the
bounds in turn, up to LARGEST lines, with random lines, and with random other files that may be missing. Each run has to end with status 0,
or with 3 where the script reads a file that isn't there; to leave a number of lines within the certificate's; to write no path that it
doesn't list; and status, output and the files that are left have to be those of the plain editor of ../scripts/editor.py. A run is left
out where the plain editor's buffer grows beyond ROOM bytes, as a global may double it at each turn, or where its patterns take too long.

Where there is no certificate, the plain editor runs the script up to RUNS times, and it is counted whether a run failed: in the others the
alarm was false, or the runs were too few. Build the program first.
"""
import collections
import os
import random
import subprocess
import sys
import tempfile

sys.path.append(os.path.join(os.path.dirname(os.path.abspath(__file__)), '../scripts'))
import editor
import tally
from compare import PROGRAM, WORDS, Writer, ran

LARGEST = 20
ROOM = 4000
RUNS = int(sys.argv[4]) if len(sys.argv) > 4 else 50


class Watched(editor.Run):
    """A run of the plain editor that keeps which paths it wrote, and gives up where its buffer grows too large."""

    def __init__(self, files):
        self.written = set()
        super().__init__(files, 'F', True)

    def on_file(self, command, first, last):
        alters = super().on_file(command, first, last)
        if command.letter == 'w':
            self.written.add(self.path(command.name))
        return alters

    def one(self, command):
        super().one(command)
        if sum(len(line.text) + 1 for line in self.lines) > ROOM:
            raise editor.reference.TooSlow


class Script:
    """A random script with bounds on its start file, and its certificate, or the reason why there is none."""

    def __init__(self, chance, folder):
        self.chance, self.folder = chance, folder
        low = chance.choice((0, 1, 1, 2, 2, 3, 5))
        high = chance.choice((None, low, low + 1, low + 3))
        self.commands, self.text = Writer(chance, low + 1).script()
        self.words = ['--min', str(low), '--max', 'any' if high is None else str(high), 'F']
        self.sizes = range(low, min(high if high is not None else LARGEST, LARGEST) + 1)
        status, self.certificate, _ = self.ran(['vouch', *self.words], {})
        self.vouched = status == 0

    def ran(self, words, files):
        return ran([PROGRAM, *words], self.text, self.folder, files)

    def accepted(self):
        return self.ran(['check', 'C'], {'C': self.certificate})[:2] == (0, b'accepted\n')

    def reason(self):
        return self.certificate.decode().strip().rsplit(': ', 1)[-1]

    def start(self, turn):
        """The files of a run, the first of the size that is next."""
        files = {'F': file_of(self.chance, self.sizes[turn % len(self.sizes)])}
        return files | {name: file_of(self.chance, self.chance.randrange(4)) for name in 'GH' if self.chance.random() < 0.8}

    def judged(self, files, right, ends):
        """Our run on these files: its status, and what the certificate or the plain editor doesn't allow of it."""
        low, high, writes = told(self.certificate.decode())
        files = files | {'C': self.certificate}
        status, output, left = self.ran(['run', 'C', '-s', 'F'], files)
        written = right.written | {name for name in {*files, *left} if files.get(name) != left.get(name)}
        wrong = []
        if status not in (0, 3):
            wrong.append(f'status {status}')
        if status == 0 and not (low <= len(right.lines) and (high is None or len(right.lines) <= high)):
            wrong.append(f'{len(right.lines)} lines at the end')
        if not written <= writes:
            wrong.append(f'writes {written}')
        if (status, output, left) != (ends, right.output + right.told, right.files | {'C': self.certificate}):
            wrong.append(f'not the run of the plain editor, {ends} {right.output} {right.files}, but {output} {left}')
        return status, '; '.join(wrong)


def file_of(chance, size):
    """So many random lines; now and then the last one has no newline."""
    lines = [chance.choice(WORDS) for _ in range(size)]
    return ('\n'.join(lines) + ('\n' if lines and (lines[-1] == '' or chance.random() < 0.9) else '')).encode()


def told(certificate):
    """The bounds on the number of lines at the end, and the paths."""
    rows = dict(row.split(' ', 1) for row in certificate.splitlines() if row.startswith(('final ', 'writes ')))
    low, high = rows['final'].split()
    return int(low), None if high == 'any' else int(high), {word[1:] for word in rows.get('writes', '').split()}


def plain(script, files):
    """The plain editor's run, and its status, or None where it was given up."""
    right = Watched(files)
    try:
        return right, right.end(script.commands)
    except editor.reference.TooSlow:
        return right, None


def alarm(script):
    """What became of the plain runs of a script that isn't vouched for."""
    for turn in range(RUNS):
        if plain(script, script.start(turn))[1] not in (None, 0, 3):
            return 'not vouched for, and a run failed'
    return f'not vouched for, and no run failed: {script.reason()}'


def vouched_for(script):
    """What kind of script it was that is vouched for, how its runs ended, and what is to be shown of it."""
    counts, done, shown = collections.Counter(), set(), f'{script.words}\n{script.text}{script.certificate.decode()}'
    if not script.accepted():
        return 'VOUCHED FOR AND NOT ACCEPTED', counts, shown
    for turn in range(RUNS):
        files = script.start(turn)
        right, ends = plain(script, files)
        if ends is None:
            counts['runs: left out'] += 1
            continue
        status, wrong = script.judged(files, right, ends)
        counts[f'runs: status {status}'] += 1
        done.add(script.sizes[turn % len(script.sizes)])
        if wrong:
            return 'VOUCHED FOR AND NOT ALLOWED', counts, f'{wrong}\n{files} {shown}'
    return f'vouched for, and run on {"each size" if len(done) == len(script.sizes) else "some sizes only"}', counts, None


def case(number_and_seed):
    number, seed = number_and_seed
    with tempfile.TemporaryDirectory() as folder:
        try:
            script = Script(random.Random(seed * 1000003 + number), folder)
            return vouched_for(script) if script.vouched else (alarm(script), collections.Counter(), None)
        except subprocess.TimeoutExpired as late:
            return 'OUR PROGRAM TOOK TOO LONG', collections.Counter(), f'{number}: {late}'


def main():
    count, seed = int(sys.argv[1]), int(sys.argv[2])
    kinds, runs = tally.told(case, count, seed, int(sys.argv[3]) if len(sys.argv) > 3 else None)
    print(f'seed {seed}, {count} scripts, {RUNS} runs of each that is vouched for:')
    tally.show(kinds, runs)
    sys.exit(any(kind.isupper() for kind in kinds))


if __name__ == '__main__':
    main()
