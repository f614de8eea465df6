"""The patterns that are measured, with the texts in which they are looked for."""

EQUALS = r'\(.*\)=\(.*\)=\1$'
NESTED = (r'\(a*\)*[bc]', 'a*a*a*a*a*[bc]', r'\(a\)*b', r'\(a*\)*', r'\(\(a*\)*b\)*')
# A line of `a` alone lacks the `b`, which is told without a search; one of `a` between two `b` has all bytes and no match.
SEARCHED = (r'\(a*\)*bb', 'a*a*a*a*a*bb', r'\(a\)*bb')


def hostile():
    """Patterns with texts of one line: the pattern, the name of the text, and the texts."""
    for pattern in NESTED:
        yield pattern, 'a', ['a' * size for size in (5_000, 10_000, 20_000)]
    for pattern in SEARCHED:
        yield pattern, 'b, a, b', ['b' + 'a' * size + 'b' for size in (5_000, 10_000, 20_000)]
    yield r'\(a\{0,99\}\)\{0,99\}[bc]', 'a', ['a' * 20, 'a' * 60]
    yield r'\(a*\)\1b', 'a', ['a' * size for size in (500, 1_000, 2_000)]
    yield r'\(a*\)\1b', 'a, cb', ['a' * size + 'cb' for size in (500, 1_000, 2_000)]
    yield EQUALS, 'a', ['a' * size for size in (250, 500)]
    yield EQUALS, 'a=', ['a=' * (size // 2) for size in (250, 500)]
    yield EQUALS, 'nine a and =, x', [('a' * 9 + '=') * (size // 10) + 'x' for size in (250, 500)]
    yield EQUALS, 'a=, x', ['a=' * (size // 2) + 'x' for size in (250, 500)]
    yield EQUALS, '=, x', ['=' * size + 'x' for size in (250, 500)]
    yield r'\(.*\)=\(.*\)=\1b', '=, cb', ['=' * size + 'cb' for size in (250, 500)]


LINES = ('needle', '[0-9][0-9]*', 'foo[0-9]*bar', '^#', '[ ]*$', r'\([a-z]*\) \1', r'x.*y.*z')

# Patterns of each kind that a searcher looks for in its own way.
MANY = (
    'needle', '[0-9][0-9]*', 'foo[0-9]*bar', '^#', '[ ]*$', 'x.*y.*z', r'\([a-z]*\) \([a-z]*\) foo', r'[aeiou]\{3\}x', r'\(ab*\)*c[0-9]',
    'q[^ ]* [^ ]*q', r'[0-9]\{3,5\} [a-z]*$', r'a.\{8\}b', '[a-z]*=[0-9]', 'zz*[ ]',
)

# How long the lines are in which back-references are looked for, but for a few bytes at their ends.
SIZES = (68, 200, 400, 1_000)
# Patterns with back-references whose ways are many: many of them end at one place with the same spans of the groups referred to.
REFERENCES = (
    (r'\(a\{1,2\}[\a]\)*a\1$', 'a', lambda size: 'a' * size),
    (r'\(.*\)*\1', 'a', lambda size: 'a' * size),
    (r'\(a*\)*\1b', 'b, a, cb', lambda size: 'b' + 'a' * size + 'cb'),
    (r'\(a*\)*\1bb', 'b, a, cb', lambda size: 'b' + 'a' * size + 'cbbc'),
    (r'\(\(a\)*b\)*\1\2', 'aab', lambda size: 'aab' * (size // 3)),
    (r'\(a\{0,9\}\)\{0,9\}\1$', 'a, b', lambda size: 'a' * size + 'b'),
    (r'\(a\{1,3\}\)*b\1$', 'a, b, aa', lambda size: 'a' * size + 'baa'),
    (r'\(a*b*\)*\1$', 'ab, c', lambda size: 'ab' * (size // 2) + 'c'),
    (r'\(.\{1,3\}\)*\1\1$', 'a', lambda size: 'a' * size),
    (r'\(a*\)\{2,\}\1b', 'a, b', lambda size: 'a' * size + 'b'),
    (r'\(a\)*\(a\)*\(a\)*\(a\)*b\1b', 'b, a, cb', lambda size: 'b' + 'a' * size + 'cb'),
    (r'\(\(a*a*\)\(a*a*\)\)*b\1b', 'b, a, cb', lambda size: 'b' + 'a' * size + 'cb'),
    (r'\([^,]*\),\(.*,\)*\1$', 'ab,', lambda size: 'ab,' * (size // 3) + 'cd'),
)

# What grows fastest: repeats in one another, which are gone through anew from each turn, items that part after a group that is referred
# to, several such groups, and, without a back-reference, counted repeats in one another that are too many to be written out.
FASTEST = (
    (r'a***\(b\)\1bb', 'b, a, cbbcb', lambda size: 'b' + 'a' * size + 'cbbcb'),
    (r'a****\(b\)\1bb', 'b, a, cbbcb', lambda size: 'b' + 'a' * size + 'cbbcb'),
    (r'\(\(a*\)*\)*\2bb', 'b, a, cbbc', lambda size: 'b' + 'a' * size + 'cbbc'),
    (r'\(\(\(a*\)*\)*\)*\3bb', 'b, a, cbbc', lambda size: 'b' + 'a' * size + 'cbbc'),
    (r'a*\(a*\)a*a*\1bb', 'b, a, cbbc', lambda size: 'b' + 'a' * size + 'cbbc'),
    (r'\(a*\)\(a*\)\(a*\)\1\2\3bb', 'b, a, cbbc', lambda size: 'b' + 'a' * size + 'cbbc'),
    (r'.*\(.*\).*\(.*\).*\1.*\2.*bb', 'b, a, cbbc', lambda size: 'b' + 'a' * size + 'cbbc'),
    (r'\(\(\(a\{0,200\}\)\{0,200\}\)\{0,200\}\)bb', 'b, a, b', lambda size: 'b' + 'a' * size + 'b'),
)
