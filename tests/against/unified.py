#!/usr/bin/env python3
"""Compares the diffs of `edit -n --diff` with GNU patch and GNU diff.

    unified.py [COUNT [SEED]]

A random file is to be written anew with other lines: some of them dropped, doubled, moved or changed, or all of another file. The old one
may lack its last newline, and either may be empty. GNU `patch` has to make the new file of the old one by the diff, with no fuzz and
no offset, and no more lines go and come than by `diff -d`, which looks for the fewest. Each twentieth file has 3,000 lines, of which so many
are changed that the search gives up: of these only the new file is compared. The old file has a strange name now and then, which has to be
written as GNU `diff` writes it, and by which `patch` has to find the file. Build the program first, or name one by PROGRAM.
"""
import os
import random
import subprocess
import sys
import tempfile

HERE = os.path.dirname(os.path.abspath(__file__))
PROGRAM = os.path.abspath(os.environ.get('PROGRAM', os.path.join(HERE, '../../crates/ed_main/out/ed_main')))
COUNT, SEED = 2_000, 1
WORDS = ['', 'a', 'b', 'c', '-', '+', ' ', '@@ -1 +1 @@', '\\ No newline at end of file', '--- F', '+++ G', '}', 'port 22', 'caf\xe9']
# GNU diff writes the byte 127 as it is, so no name has it.
NAMES = ['F', 'a b', 'a\tb', 'a\nb', 'a"b', 'a\\b', "a'b", '\x01\a\b\v\f\r\x1b', 'caf\xe9', '$~#']


def changed(random, lines):
    """The lines after some changes."""
    lines = list(lines)
    for _ in range(random.choice((0, 1, 1, 2, 3, 8))):
        place = random.randrange(len(lines) + 1)
        kind = random.randrange(4)
        if kind == 0:
            del lines[place:place + random.randrange(1, 4)]
        elif kind == 1:
            lines[place:place] = [random.choice(WORDS) for _ in range(random.randrange(1, 4))]
        elif kind == 2 and place < len(lines):
            lines[place] = random.choice(WORDS)
        elif place < len(lines):
            lines.insert(random.randrange(len(lines)), lines.pop(place))
    return lines


def pair(random, number):
    """The lines of an old file and of a new one, and whether the search has to find the fewest changes."""
    if number % 20 == 19:
        old = [random.choice(WORDS) for _ in range(3000)]
        return old, [random.choice(WORDS) if random.random() < 0.6 else line for line in old], False
    old = [random.choice(WORDS) for _ in range(random.choice((0, 1, 2, 5, 20, 60)))]
    new = [random.choice(WORDS) for _ in range(random.randrange(8))] if random.random() < 0.1 else changed(random, old)
    return old, new, True


def bytes_of(lines):
    return b''.join(line.encode('latin-1') + b'\n' for line in lines)


def counted(diff):
    """How many lines go and how many come by a diff."""
    lines = diff.splitlines(keepends=True)[2:]
    return sum(line[:1] == b'-' for line in lines), sum(line[:1] == b'+' for line in lines)


def fault_of(folder, name, old, new, is_fewest):
    """What is wrong with the diff of a file that is to become another, or None."""
    files = [os.path.join('old', name), os.path.join('new', name)]
    for file, text in zip(files, (old, new)):
        with open(os.path.join(folder, file), 'wb') as written:
            written.write(text)
    script = (b',d\n' if old else b'') + (b'0a\n' + new + b'.\n' if new else b'') + b'w\nq\n'
    ran = subprocess.run([PROGRAM, 'edit', '-n', '-s', '--diff', files[0]], cwd=folder, input=script, capture_output=True)
    if ran.returncode != 0:
        return f'status {ran.returncode}: {ran.stderr!r}'
    if old == new:
        return None if ran.stdout == b'' else f'a diff of a file that stays: {ran.stdout!r}'
    theirs = subprocess.run(['diff', '-d', '-a', '-u', *files], cwd=folder, capture_output=True).stdout
    if ran.stdout.split(b'\n')[0] != theirs.split(b'\t')[0]:
        return f'another head than that of {theirs!r}: {ran.stdout!r}'
    patched = subprocess.run(['patch', '-p0', '-F0', '-o', 'out'], input=ran.stdout, cwd=folder, capture_output=True)
    with open(os.path.join(folder, 'out'), 'rb') as file:
        made = file.read()
    if patched.returncode != 0 or b'offset' in patched.stdout or made != new:
        return f'patch, status {patched.returncode}: {patched.stdout!r}'
    if is_fewest and sum(counted(ran.stdout)) > sum(counted(theirs)):
        return f'{counted(ran.stdout)} lines go and come, by diff {counted(theirs)}'
    return None


def main():
    count, seed = (int(word) for word in (sys.argv[1:] + [COUNT, SEED][len(sys.argv) - 1:])[:2])
    generator = random.Random(seed)
    wrong = 0
    with tempfile.TemporaryDirectory() as folder:
        for side in ('old', 'new'):
            os.mkdir(os.path.join(folder, side))
        for number in range(count):
            old, new, is_fewest = pair(generator, number)
            text = bytes_of(old)
            if text and generator.random() < 0.2:
                text = text[:-1]
            fault = fault_of(folder, generator.choice(NAMES), text, bytes_of(new), is_fewest)
            if fault:
                wrong += 1
                print(f'pair {number} of seed {seed}: {old[:60]} to {new[:60]}: {fault}')
    print(f'{count} pairs, {wrong} wrong')
    return wrong > 0


if __name__ == '__main__':
    sys.exit(main())
