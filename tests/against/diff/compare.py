#!/usr/bin/env python3
"""Brings text files of this machine to others' lines by the scripts of `diff -e`, and compares the file that is written with `diff`'s
other side, byte for byte.

    python3 compare.py COUNT [FOLDER..]

The folders are those where packages put documents, headers and locale files, unless others are named. A pair is two files of one kind
that stand beside each other in their folder's order and differ; both end in a newline, which `diff -e` takes for granted, and have no
zero byte, so that `diff` takes them for text. Build the program first.
"""
import os
import subprocess
import sys
import tempfile

PROGRAM = os.path.join(os.path.dirname(os.path.abspath(__file__)), '../../../crates/ed_main/out/ed_main')
FOLDERS = ['/usr/share/doc', '/usr/include', '/usr/share/i18n/locales', '/usr/share/perl', '/etc']
LARGEST = 400_000


def text_of(path):
    """The bytes of a text file that isn't too large, or None."""
    try:
        if os.path.islink(path) or not 0 < os.path.getsize(path) <= LARGEST:
            return None
        with open(path, 'rb') as file:
            text = file.read()
    except OSError:
        return None
    return text if text.endswith(b'\n') and b'\0' not in text else None


def kind_of(path):
    name = os.path.basename(path)
    return os.path.splitext(name)[1] or name


def paths(folders):
    for folder in folders:
        for place, inner, names in os.walk(folder):
            inner.sort()
            for name in sorted(names):
                yield os.path.join(place, name)


def pairs(folders):
    """Two texts of one kind, one after the other, which differ."""
    before = {}
    for path in paths(folders):
        text = text_of(path)
        if text is None:
            continue
        kind = kind_of(path)
        other = before.get(kind)
        before[kind] = (path, text)
        if other and other[1] != text:
            yield other[0], other[1], path, text


def script_of(old, new):
    """The script of `diff -e`, and a write; None where `diff` doesn't take them for text."""
    made = subprocess.run(['diff', '-e', old, new], capture_output=True)
    return made.stdout + b'w\nq\n' if made.returncode == 1 and not made.stdout.startswith(b'Binary') else None


def main():
    count = int(sys.argv[1])
    equal = different = hunks = substitutions = 0
    with tempfile.TemporaryDirectory() as folder:
        copy = os.path.join(folder, 'FILE')
        for old, old_text, new, new_text in pairs(sys.argv[2:] or FOLDERS):
            script = script_of(old, new)
            if script is None:
                continue
            with open(copy, 'wb') as file:
                file.write(old_text)
            ran = subprocess.run([PROGRAM, 'edit', '-s', copy], input=script, capture_output=True)
            with open(copy, 'rb') as file:
                written = file.read()
            if ran.returncode == 0 and ran.stdout == b'' and written == new_text:
                equal += 1
            else:
                different += 1
                print(f'{old} to {new}: status {ran.returncode}, output {ran.stdout[:60]!r}')
            hunks += sum(line[-1:] in b'acd' and line[:1].isdigit() for line in script.splitlines())
            substitutions += script.count(b'\ns/.//\n')
            if equal + different == count:
                break
    print(f'{equal} equal, {different} different; {hunks} hunks, {substitutions} lines that are a full stop')
    sys.exit(different > 0)


if __name__ == '__main__':
    main()
