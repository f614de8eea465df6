#!/usr/bin/env python3
"""Runs the standard's assertion tests of basic regular expressions through `s`.

    assertions.py PTESTS [PROGRAM [WORD..]]

PTESTS is posix/PTESTS of the C library's source (on Debian, of the package glibc: apt-get source glibc). A line of it is
`start|end|pattern|text|`: the first and the last byte of the match, counted from 1; 0|0 for an empty match at the text's begin;
-1 for no match; -2 for a pattern that is at fault. PROGRAM is `edv edit -s` that `make` built, or another editor, such as `ed -s`.
Of each case `s` puts the match between < and >; a match that the test puts elsewhere, or one that isn't told as it should be, is shown.
"""
import os, subprocess, sys, tempfile

HERE = os.path.dirname(os.path.abspath(__file__))
OURS = [os.path.join(HERE, '../../../crates/ed_main/out/ed_main'), 'edit', '-s']
DELIMITERS = b'/,;!@~_"|:'


def cases(path):
    for number, line in enumerate(open(path, 'rb').read().split(b'\n'), 1):
        if line and not line.startswith(b'#'):
            start, end, pattern, text, _ = line.split(b'|')
            yield number, int(start), int(end), pattern, text


def told(program, pattern, text, folder):
    """What the editor leaves of the line; None where it stops at a fault."""
    file = os.path.join(folder, 'F')
    open(file, 'wb').write(text + b'\n')
    delimiter = next(bytes([d]) for d in DELIMITERS if d not in pattern)
    script = b'1s' + delimiter + pattern + delimiter + b'<&>' + delimiter + b'\nw\nq\n'
    ran = subprocess.run(program + [file], input=script, stdout=subprocess.PIPE, stderr=subprocess.DEVNULL, cwd=folder, timeout=20)
    return open(file, 'rb').read()[:-1] if ran.returncode == 0 else None


def wanted(start, end, text):
    if start < 0:
        return None
    begin = max(start - 1, 0)
    return text[:begin] + b'<' + text[begin:end] + b'>' + text[end:]


def main():
    program = sys.argv[2:] or OURS
    equal = different = 0
    with tempfile.TemporaryDirectory() as folder:
        for number, start, end, pattern, text in cases(sys.argv[1]):
            want, got = wanted(start, end, text), told(program, pattern, text, folder)
            if got == want:
                equal += 1
            else:
                different += 1
                print(f'line {number}: {pattern!r} on {text!r}: {got!r}, and not {want!r}')
    print(f'{equal + different} assertions, {equal} equal, {different} different')
    sys.exit(different > 0)


if __name__ == '__main__':
    main()
