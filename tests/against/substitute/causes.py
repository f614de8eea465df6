"""Why `ed` or `sed` differs from the reference in a substitution: what they do otherwise, and what is done here.

Both take their matches from the C library, which is asked here for each place of the lines, so that a cause is given to it only
where its matches are other ones.
"""
import ctypes
import os
import sys

sys.path.append(os.path.join(os.path.dirname(os.path.abspath(__file__)), '../patterns'))
import reference
from substitution import taken

REFUSED = 'the C library refuses an interval on a repeat; here it repeats the repeat'
REPEATS = 'the C library takes an interval on a repeat, or of empty turns, otherwise; here the turns are those of the definition'
REFERENCES = 'the C library finds another match for a back-reference; here all ways are tried'
GROUPS = 'the C library keeps groups from an earlier turn, or adds an empty turn; here a turn unsets them, and one that is idle ends it'
LOOP = 'ed stops at the second empty match in a row with g; here each is taken'
COUNTED = 'ed counts empty matches otherwise; here each is counted once, and none right after a full match'

LIBRARY = ctypes.CDLL(None)
STARTEND = 4


class Span(ctypes.Structure):
    _fields_ = [('start', ctypes.c_int), ('end', ctypes.c_int)]


class Library:
    """A pattern as the C library reads it."""

    def __init__(self, spelling):
        # Larger than any regex_t.
        self.compiled = ctypes.create_string_buffer(256)
        self.refused = LIBRARY.regcomp(self.compiled, spelling.encode('latin-1'), 0) != 0

    def find(self, line, place):
        """As reference.Match(line).find tells it."""
        spans = (Span * 10)()
        spans[0].start, spans[0].end = place, len(line)
        if LIBRARY.regexec(self.compiled, line.encode('latin-1'), 10, spans, STARTEND) != 0:
            return None
        groups = tuple(None if span.start < 0 else (span.start, span.end) for span in spans[1:])
        return spans[0].start, (spans[0].end, groups)

    def __del__(self):
        if not self.refused:
            LIBRARY.regfree(self.compiled)


def repeats_a_repeat(part):
    """A repeat stands right on a repeat, or on groups with nothing but one in them."""
    if part[0] == 'sequence':
        return any(repeats_a_repeat(item) for item in part[1])
    if part[0] == 'group':
        return repeats_a_repeat(part[2])
    return part[0] == 'repeat' and (part[3][0] == 'repeat' or repeats_a_repeat(part[3]))


def repeats_what_may_be_empty(part):
    if part[0] == 'sequence':
        return any(repeats_what_may_be_empty(item) for item in part[1])
    if part[0] == 'group':
        return repeats_what_may_be_empty(part[2])
    return part[0] == 'repeat' and (may_be_empty(part[3]) or repeats_what_may_be_empty(part[3]))


def may_be_empty(part):
    if part[0] == 'sequence':
        return all(may_be_empty(item) for item in part[1])
    if part[0] == 'group':
        return may_be_empty(part[2])
    if part[0] == 'repeat':
        return part[1] == 0 or may_be_empty(part[3])
    return part[0] != 'set'


def of_matches(tree, lines):
    """The cause for which the C library finds other matches in the lines, or None where it finds the same."""
    library = Library(reference.spelled(tree))
    if library.refused:
        return REFUSED if repeats_a_repeat(tree) else None
    spans = groups = False
    for line in lines:
        match = reference.Match(line)
        for place in range(len(line) + 1):
            here, there = match.find(tree, place), library.find(line, place)
            if here != there:
                same = here is not None and there is not None and (here[0], here[1][0]) == (there[0], there[1][0])
                groups |= same
                spans |= not same
    if spans:
        if reference.refers(tree):
            return REFERENCES
        return REPEATS if repeats_a_repeat(tree) or repeats_what_may_be_empty(tree) else None
    return GROUPS if groups else None


def takes_empty_matches(tree, lines):
    return any(start == end for line in lines for start, end, _ in taken(tree, line))


def cause(program, tree, lines, which, told):
    """Why a program differs, if that is known. What `ed` tells in its help mode comes with it."""
    if program == 'ed' and 'Infinite substitution loop' in told:
        return LOOP
    found = of_matches(tree, lines)
    if found is None and program == 'ed' and which != 1 and takes_empty_matches(tree, lines):
        return COUNTED
    return found
