"""Follows a hint of `vouch` by its words alone, as a reader would, and compares what GNU ed then leaves with what it left before.

`followed` gives each script that comes of a hint, and its start; `silent` says whether a difference between two scripts over a file is told by
the hint."""
import os
import re
import shlex
import shutil
import subprocess
import sys
import tempfile

sys.path.insert(0, os.path.join(os.path.dirname(os.path.abspath(__file__)), '..'))
from rows import PROGRAM  # noqa: E402 (the path is set first)

ELSE = 'then (?:works on another line|takes back something else)'
# Options as a hint shows them, each with its value as a word of a shell.
OPTIONS = r"(?: --\w+[ =](?:'(?:[^']|'\\'')*'|\w+))+"
# The words of a start that is any file of a line or more.
SOME = ('--min', '1', '--max', 'any', 'F')


def vouch(script, start=SOME):
    """The status and the lines on standard error."""
    run = subprocess.run([PROGRAM, 'vouch', *start], input=script, capture_output=True)
    return run.returncode, run.stderr.decode('utf-8', 'replace').splitlines()


def left_by_gnu(script, files):
    """The status of GNU ed's run of a script over these files, and the files that it leaves."""
    folder = tempfile.mkdtemp()
    try:
        for name, content in files.items():
            with open(f'{folder}/{name}', 'wb') as out:
                out.write(content)
        words = ['ed', '-s', 'F']
        run = subprocess.run(words, cwd=folder, input=script, capture_output=True, timeout=20)
        left = {}
        for name in sorted(os.listdir(folder)):
            with open(f'{folder}/{name}', 'rb') as content:
                left[name] = content.read()
        return run.returncode, left
    finally:
        shutil.rmtree(folder)


def end_of_command(lines, at):
    """The line after the command that begins on a line, with its list and its text; lines count from 0."""
    line = lines[at]
    at += 1
    while line.endswith('\\') and at < len(lines):
        line = lines[at]
        at += 1
    if re.search(r'(^|[/?$.,;0-9+ -])[aic]$', line):
        while at < len(lines) and lines[at] != '.':
            at += 1
        at = min(at + 1, len(lines))
    return at


def globally(lines, at, hint):
    """The lines with a global command in the place of those from one on, as a hint says it."""
    shown = re.match(r'`(.*?)` can\'t fail: ', hint).group(1)
    shown = re.sub(r'\\x([0-9a-f]{2})', lambda byte: chr(int(byte[1], 16)), shown)
    end = end_of_command(lines, at)
    rest = lines[at + 1:end]
    more = re.search(r'the next (?:(\d+) commands|command), ', hint)
    if more:
        for _ in range(int(more.group(1) or 1)):
            stop = end_of_command(lines, end)
            rest += lines[end:stop]
            end = stop
        rest = [f'{line}\\' for line in rest[:-1]] + rest[-1:]
    elif 'each line of its text' in hint:
        rest = rest[:-1]
        rest = [f'{line}\\' for line in rest[:-1]] + rest[-1:]
    else:
        assert not rest, (hint, lines)
    return lines[:at] + [shown] + rest + lines[end:]


def spelled(lines, at, foreign, posix):
    """The lines with one line spelled as POSIX has it. None where the words don't say how."""
    line = lines[at]
    whole = re.fullmatch(r'`(.*)` and `q` on two lines', posix)
    if whole:
        return lines[:at] + [whole.group(1), 'q'] + lines[at + 1:]
    if posix == 'a command for each':
        letter, pattern, rest = re.fullmatch(r'(.*?g)/((?:[^/\\]|\\.)*)/(.*)', line).groups()
        return lines[:at] + [f'{letter}/{part}/{rest}' for part in pattern.split('\\|')] + lines[at + 1:]
    new = re.fullmatch(r'`(.*)`', posix)
    if not new:
        return None
    if foreign == 'number of lines after a letter' or (foreign == '`%`' and new.group(1) != ','):
        return lines[:at] + [new.group(1)] + lines[at + 1:]
    return lines[:at] + [line.replace(foreign.strip('`'), new.group(1))] + lines[at + 1:]


def mended(lines, at, hint):
    """The lines as a hint says. None where it says no line to write."""
    if " can't fail: " in hint and hint.startswith('`'):
        return globally(lines, at, hint)
    if hint == 'write first (w)':
        return lines[:at] + ['w'] + lines[at:]
    if hint.startswith('end with Q'):
        return lines[:at] + ['Q'] + lines[at + 1:]
    if hint.startswith('end the text of '):
        return lines + ['.', 'w' if 'and write (w) after it' in hint else 'Q']
    period = re.search(r'has no `\.`: write it (before|alone in) line (\d+), ', hint)
    if period:
        place = int(period.group(2)) - 1
        return lines[:place] + ['.'] + lines[place + (period.group(1) != 'before'):]
    if 'leave the line out' in hint or 'goes on to the next line: leave it out' in hint:
        return lines[:at] + lines[at + 1:]
    if hint.startswith('POSIX has no `:`'):
        return lines[:at] + [lines[at].lstrip(': ')] + lines[at + 1:]
    if hint.startswith("POSIX has no CR at a line's end"):
        return lines[:at] + [line.rstrip('\r') for line in lines[at:]]
    between = re.match(r'POSIX has no `([;|])` between commands', hint)
    if between:
        return lines[:at] + lines[at].split(between.group(1), 1) + lines[at + 1:]
    spelling = re.match(r'POSIX has no (.*?): write (.*?)(?:; (`.*` can\'t fail: .*))?$', hint)
    if spelling and spelling.group(3):
        return globally(lines, at, spelling.group(3))
    if spelling:
        return spelled(lines, at, spelling.group(1), spelling.group(2))
    other = re.match(r'`([^`]*)` looks for ', hint)
    if other:
        both = other.group(1)
        old = re.sub(r';(?=[/?])', ',', both)
        return lines[:at] + [lines[at].replace(old, both)] + lines[at + 1:]
    if hint.startswith("the last line can't go after itself"):
        front, rest = re.fullmatch(r'(.*)m\$(\\?)', lines[at]).groups()
        return lines[:at] + [f'{front}ka\\', 't$\\', f"'ad{rest}"] + lines[at + 1:]
    return None


def with_options(start, told):
    """The words of a start with those that are told: a bound in the place of the one that is given, a pattern or a chain beside the others."""
    start, words = list(start), shlex.split(told.replace('--has=', '--has '))
    for option, value in zip(words[::2], words[1::2]):
        if option in start and option in ('--min', '--max'):
            start[start.index(option) + 1] = value
        else:
            start.insert(0, f'{option}={value}')
    return start


def lines_of(script):
    return script.decode('latin-1').removesuffix('\n').split('\n') if script else []


def place_of(said, lines):
    """The line that fails by the first of what is said, from 0; where none does before the script ends, the one after all."""
    places = (re.match(r'error: line (\d+)', line) for line in said)
    return int(next(filter(None, places), (0, len(lines) + 1))[1]) - 1


def followed(script, start, said):
    """What each hint leads to that `vouch` says of the first refusal of a script: its text, the script and the words of the start."""
    lines, refusals = lines_of(script), 0
    for line in said:
        refusals += line.startswith('error: ')
        if refusals > 1:
            return
        if not line.startswith('hint: '):
            continue
        hint = text = line.removeprefix('hint: ')
        new_start, new = start, lines
        both = re.match(r'with (--min \d+): (.*)', hint)
        if both:
            new_start, hint = with_options(start, both.group(1)), both.group(2)
        options = re.fullmatch(rf'(?:vouched for|gets further|vouch) with({OPTIONS})(?: \.\.)?(?: \(.*\))?(?:, which run then tests)?', hint)
        if options:
            new_start = with_options(start, options.group(1))
        else:
            new = mended(lines, place_of(said, lines), hint)
        if new is not None:
            yield text, text_of(new), new_start


def steps(script, start):
    """The status of `vouch`, the line that fails, the script's lines, and what each hint leads to."""
    status, said = vouch(script, start)
    lines = lines_of(script)
    return status, place_of(said, lines), lines, list(followed(script, start, said))


def is_further(text, script, said, new, start):
    """Whether what comes of a hint is vouched for, as its words may have it, or fails with less of it left."""
    status, again = vouch(new, start)
    if status == 0:
        return not text.startswith('gets further')
    left, new_left = (len(lines) - place_of(told, lines) for lines, told in ((lines_of(script), said), (lines_of(new), again)))
    return not text.startswith('vouched for') and new_left < left


def text_of(lines):
    return ('\n'.join(lines) + '\n').encode('latin-1')


def left_by_script(lines, files):
    """What a script leaves, ended at its first fault as POSIX has it, and the line of the command that fails, or None. GNU ed goes on
    after a fault: so it is run up to each command."""
    status, left = left_by_gnu(text_of(lines), files)
    if status == 0:
        return None, left
    ends = [0]
    while ends[-1] < len(lines):
        ends.append(end_of_command(lines, ends[-1]))
    for low, high in zip(ends, ends[1:]):
        if left_by_gnu(text_of(lines[:high] + ['Q']), files)[0] != 0:
            return low, left_by_gnu(text_of(lines[:low] + ['Q']), files)[1]
    return None, left


def count_of_matches(script_lines, at, files):
    """How many lines match the first pattern of a line when the script comes to it, and how many lines there are."""
    _, left = left_by_gnu(text_of(script_lines[:at] + ['w snapshot-of-lines', 'Q']), files)
    if 'snapshot-of-lines' not in left or at >= len(script_lines):
        return None
    pattern = re.search(r'([/?])((?:\[\^?\]?[^]]*\]|[^/?\\]|\\.)*)\1', script_lines[at])
    if not pattern:
        pattern = re.search(r's(.)((?:\\.|(?!\1).)*)\1', script_lines[at])
    if not pattern:
        return None
    words = ['grep', '-c', '-e', pattern.group(2)]
    run = subprocess.run(words, input=left['snapshot-of-lines'], capture_output=True)
    return int(run.stdout or 0)


def silent(lines, at, text, new, files):
    """Why the files that two scripts leave differ although the hint that leads from one to the other doesn't say so; or nothing."""
    failed, before = left_by_script(lines, files)
    _, after = left_by_script(lines_of(new), files)
    if before == after:
        return None
    if "can't fail" in text:
        if failed is not None and failed <= at:
            said = 'and the script goes on' in text or 'replaces nothing is no fault' in text
        else:
            count = count_of_matches(lines, at, files)
            many = count is not None and count > 1
            said = many or bool(re.search(rf'{ELSE}(?! unless)|replaces nothing is no fault', text))
    else:
        said = bool(re.search(rf'{ELSE}|the changes are lost|both searches', text))
        said = said or bool(re.search(r'write first \(w\)|has no `\.`|^end the text of|^leave ', text))
    return None if said else f'command at line {failed} failed: {before} became {after}'
