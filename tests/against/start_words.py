#!/usr/bin/env python3
"""Reads the words of a start as a person would, and compares of random files whether they are true with what `fits` says.

    python3 start_words.py COUNT SEED

Each case has chains of landmarks, maybe a pattern and a bound, and a file of up to five lines. `vouch` tells the start in words, of which the
reader here knows what they mean, and nothing of chains: `it` is the line of the condition before, `a line` is any one that matches, and `the first
line` is that one. Without COUNT it is 2000, without SEED 1. It runs the program that `make` built, or PROGRAM."""
import os
import random
import re
import subprocess
import sys
import tempfile

HERE = os.path.dirname(os.path.abspath(__file__))
PROGRAM = os.path.abspath(os.environ.get('PROGRAM', f'{HERE}/../../crates/ed_main/out/ed_main'))
PATTERNS = ['a', 'b', 'c', '^a', 'b$', 'ab', '.', '^$', 'a.']
KEYS = ['a', 'b', '^a', 'b$']
TEXTS = ['a', 'b', 'c', 'ab', 'ba', 'abc', '']
QUOTED = r'`[^`]*`'
LINE = re.compile(
    rf'(?:(?P<any>a line(?P<below_any> below it)? matches )|(?P<some>there is a first line(?P<below_some> below it)? that matches )'
    rf'|(?P<first>the first line(?P<below_first> below it)? that matches )|(?P<just>just one line matches )|(?P<only>the only line that matches ))'
    rf'(?P<pattern>{QUOTED})|there is a line (?P<there>\d+)|line (?P<number>\d+)')
PART = re.compile(
    rf'(?P<below>is below it)|is at least (?P<down>\d+) lines further down|is line (?P<later>\d+) or later|matches (?P<also>{QUOTED}(?: and {QUOTED})*)'
    rf"|doesn't match (?P<lacks>{QUOTED}(?: or {QUOTED})*)|has no line between that matches (?P<between>{QUOTED}(?: or {QUOTED})*)"
    rf'|has no line above it that matches (?P<above>{QUOTED}(?: or {QUOTED})*)')
TAIL = re.compile(r', with at least (\d+) lines? after it')
BOUNDS = re.compile(r' of (?:at least (?P<least>\d+) lines?|at most (?P<most>\d+) lines?|exactly (?P<exact>\d+) lines?|(?P<none>no lines)|(?P<low>\d+) to (?P<high>\d+) lines?)')
HAS = re.compile(rf'(?: with a line that matches | with lines that match |, one of which matches |, with lines that match |, which matches )({QUOTED}(?:(?:, | and ){QUOTED})*)')


def patterns_in(text):
    """The patterns between backquotes."""
    return [found[1:-1] for found in re.findall(QUOTED, text or '')]


def matches(pattern, line):
    return re.search(pattern, line) is not None


class Words:
    """What is left of a sentence."""

    def __init__(self, text):
        self.text = text

    def take(self, form):
        """What a form matches at the front, which is taken away; or nothing."""
        found = form.match(self.text)
        if found:
            self.text = self.text[found.end():]
        return found

    def take_word(self, word):
        if not self.text.startswith(word):
            return False
        self.text = self.text[len(word):]
        return True


def read_condition(words):
    """A condition: which line it is, what is said of it, and how many lines come after it."""
    line = words.take(LINE)
    assert line, words.text
    parts = []
    if words.text.startswith(' ') and not words.text.startswith(' and more'):
        words.take_word(' ')
        while True:
            part = words.take(PART)
            assert part, words.text
            parts.append(part.groupdict())
            if not re.match(r' and (?:is|matches|doesn|has)', words.text):
                break
            words.take_word(' and ')
    tail = words.take(TAIL)
    return line.groupdict(), parts, int(tail.group(1)) if tail else 0


def read_sentence(text):
    """The bounds of a sentence, its patterns and its conditions."""
    words = Words(text)
    assert words.take_word('any F'), text
    bounds = words.take(BOUNDS)
    has = words.take(HAS)
    conditions = []
    if words.take_word(', and in which ') or words.take_word(' in which '):
        conditions.append(read_condition(words))
        while words.take_word(', and '):
            conditions.append(read_condition(words))
    assert not words.text, (text, words.text)
    return bounds.groupdict() if bounds else {}, patterns_in(has.group(1)) if has else [], conditions


def read_list(texts):
    """The same of conditions that stand one a line."""
    bounds, has, conditions = {}, [], []
    for text in texts:
        words = Words(text)
        if found := BOUNDS.fullmatch(f' of {text}'):
            bounds = found.groupdict()
        elif words.take_word('a line that matches '):
            has += patterns_in(text)
        else:
            conditions.append(read_condition(words))
            assert not words.text, (text, words.text)
    return bounds, has, conditions


def is_within(bounds, count):
    number = {key: int(value) for key, value in bounds.items() if value and key != 'none'}
    if bounds.get('none'):
        return count == 0
    if 'exact' in number:
        return count == number['exact']
    return number.get('least', number.get('low', 0)) <= count <= number.get('most', number.get('high', count))


def places(line, lines, it):
    """The lines that a condition may mean, by their numbers from 1."""
    if line['there'] or line['number']:
        number = int(line['there'] or line['number'])
        return [number] if number <= len(lines) else []
    pattern = line['pattern'][1:-1]
    found = [place for place, text in enumerate(lines, 1) if matches(pattern, text)]
    if line['just'] or line['only']:
        return found if len(found) == 1 else []
    if line['below_any'] or line['below_some'] or line['below_first']:
        found = [place for place in found if place > it]
    return found if line['any'] else found[:1]


def is_so(part, lines, it, place):
    """Whether what is said of a line is true."""
    text = lines[place - 1]
    if part['below']:
        return place > it
    if part['down']:
        return place >= it + int(part['down'])
    if part['later']:
        return place >= int(part['later'])
    if part['also']:
        return all(matches(pattern, text) for pattern in patterns_in(part['also']))
    if part['lacks']:
        return not any(matches(pattern, text) for pattern in patterns_in(part['lacks']))
    low = it if part['between'] else 0
    others = lines[low:place - 1]
    return not any(matches(pattern, other) for pattern in patterns_in(part['between'] or part['above']) for other in others)


def are_true(conditions, lines, it=0):
    """Whether conditions are true of a file, where `it` is this line."""
    if not conditions:
        return True
    line, parts, tail = conditions[0]
    for place in places(line, lines, it):
        if place + tail <= len(lines) and all(is_so(part, lines, it, place) for part in parts):
            if are_true(conditions[1:], lines, place):
                return True
    return False


def is_told(sentence, lines):
    bounds, has, conditions = sentence
    matched = all(any(matches(pattern, line) for line in lines) for pattern in has)
    return is_within(bounds, len(lines)) and matched and are_true(conditions, lines)


def landmark(generator):
    key = f'/{generator.choice(KEYS)}/'
    which = generator.choices([key, f'only {key}', str(generator.randrange(1, 5))], [6, 2, 1])[0]
    words = [f'no /{generator.choice(PATTERNS)}/'] if generator.random() < 0.15 else []
    words.append(which)
    if generator.random() < 0.2:
        words.append(f'gap {generator.randrange(2, 4)}')
    if generator.random() < 0.2:
        words.append(f'tail {generator.randrange(1, 3)}')
    while generator.random() < 0.25:
        words.append(f'& {generator.choice(["", "not "])}/{generator.choice(PATTERNS)}/')
    return ' '.join(words)


def chain(generator):
    """A chain; often its first landmark is any line that matches."""
    landmarks = [landmark(generator) for _ in range(generator.choice([1, 2, 2, 3]))]
    if generator.random() < 0.5:
        landmarks[0] = f'/{generator.choice(KEYS)}/'
    return '; '.join(landmarks)


def run(words, script, folder):
    return subprocess.run([PROGRAM, *words], input=script, capture_output=True, cwd=folder)


def told_of(generator, folder):
    """A start in words and as it is read, with its certificate in the folder; nothing where it is none, or not all of it is told."""
    words = [f'--at={chain(generator)}' for _ in range(generator.choice([1, 1, 1, 2]))]
    words += [f'--has={generator.choice(PATTERNS)}' for _ in range(generator.choice([0, 0, 0, 1, 2]))]
    words += generator.choice([[], [], [], ['--max', '4'], ['--min', '2'], ['--max', '1']])
    ran = run(['vouch', *words, 'F'], b'Q\n', folder)
    said = ran.stderr.decode().splitlines()
    if ran.returncode != 0 or not said:
        return None
    with open(os.path.join(folder, 'CERT'), 'wb') as cert:
        cert.write(ran.stdout)
    assert all(line.startswith('vouched for: ') for line in said), said
    first, *more = (line[len('vouched for: '):] for line in said)
    if more:
        assert first == 'any F of which each of these is so', said
        return words, first, read_list(text.removeprefix('  ') for text in more)
    # What is cut for its length is no whole sentence.
    return None if first.endswith(' more') else (words, first, read_sentence(first))


def main():
    count = int(sys.argv[1]) if len(sys.argv) > 1 else 2000
    seed = int(sys.argv[2]) if len(sys.argv) > 2 else 1
    generator = random.Random(seed)
    starts = cases = fit = wrong = 0
    with tempfile.TemporaryDirectory() as folder:
        # A file that isn't there would be told of before the start.
        open(os.path.join(folder, 'F'), 'w').close()
        while cases < count:
            told = told_of(generator, folder)
            if told is None:
                continue
            starts += 1
            words, text, sentence = told
            for _ in range(4):
                lines = [generator.choice(TEXTS) for _ in range(min(generator.randrange(0, 10), 5))]
                with open(os.path.join(folder, 'F'), 'w') as file:
                    file.write(''.join(f'{line}\n' for line in lines))
                fits = run(['fits', 'CERT', 'F'], b'', folder).returncode == 0
                cases += 1
                fit += fits
                if fits != is_told(sentence, lines):
                    wrong += 1
                    print(f'{words}: {text!r} over {lines}: fits is {fits}')
    print(f'{starts} starts, {cases} files of seed {seed}: {fit} fit, {wrong} differ from the words')
    sys.exit(wrong > 0)


main()
