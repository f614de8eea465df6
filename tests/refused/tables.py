"""The runs in which each allocation is refused: a table for the editor, three for the verifier, and one for the search of patterns."""
import typing

AB = b'a\nb\n'
ABC = b'a\nb\nc\n'
FOO = b'foo\nb\nc\n'
# Longer than what one read of a script or a certificate gives, and than the room that the second one finds.
LONG = b'x' * 150000
# Of so many lines whole chunks move.
MANY = b'1,$t$\n' * 10
# Searches by one pattern, each going on with what the ones before it have learned, on lines that are long enough for an automaton.
DASHES = b'-' * 70
SEARCHES = (b'0a\nx' + DASHES + b'y1\ny' + DASHES + b'x2\nxy3\n' + DASHES + b'4\n-x-y' + DASHES + b'x-y5\n.\n/x.*y/;=\n//;=\n//;=\n'
            b'??;=\n?x.*y?;=\n//p\nv//.=\ng//s//Z&/p\ng//.=\n2;//=\n/z/\n')


class Edit(typing.NamedTuple):
    """A script that `edit` runs: its name, it, the words after `edit`, the files, and after how many bytes of output help mode is on."""
    name: str
    script: bytes
    words: typing.Sequence = ('-s', 'F')
    files: typing.Mapping = {'F': ABC}
    help_on: typing.Optional[int] = None


# A script that is run only if it is vouched for and the file fits.
VOUCHED_FOR = ('--vouched', '-s', 'F')
# Files are replaced whole, when the script has come to its end.
REPLACED_WHOLE = ('--whole', '-s', 'F')
# The same, and the old files are kept beside them.
KEPT = ('--whole', '--backup', '~', '-s', 'F')
# Files that have the bytes already are left alone.
SPARED = ('--unchanged', '-s', 'F')
EDITS = [
    Edit('a line is appended, and the file written', b'$a\nd\n.\nw\nq\n', ('F',)),
    Edit('an empty match after a full one', b's/a*/x/gp\nQ\n', files={'F': b'baaac\n'}),
    Edit('two times undone', b'1d\nu\nu\n,p\nQ\n', files={'F': AB}),
    Edit('changes that are not written', b'1d\nq\n', files={'F': AB}),
    Edit('nothing to undo', b'u\n', files={'F': AB}),
    Edit('a global without a line', b'g/z/d\nu\nq\n', files={'F': AB}),
    Edit('a line that is split', b's/,/\\\n/p\n,n\nQ\n', files={'F': b'a,b\n'}),
    Edit('a prompt, and help', b'1n\nH\nx\n', ('-s', '-p', '> ', 'F'), {'F': AB}, help_on=8),
    Edit('prompting turned on', b'P\n', files={'F': AB}),
    Edit('another file is read', b'1r G\n,p\nQ\n', ('F',), {'F': AB, 'G': b'x'}),
    Edit("a file that isn't there yet", b'a\nx\n.\nw\nq\n', ('F',), {}),
    Edit('a script that is read in pieces', b'$a\n' + LONG + b'\n.\n$p\nw\nq\n', files={'F': AB}),
    Edit('a line is deleted', b'2d\n,p\nQ\n'),
    Edit('lines are changed', b'1,2a\nz\n.\n,p\nQ\n'),
    Edit('lines come in above a deleted one', b'1p\n2a\nx\ny\n.\n1d\n,p\n$p\nQ\n'),
    Edit('prompting, help, and an address that is none', b'P\n1p\nH\nP\n9p\n', help_on=4),
    Edit('marked, moved, copied, joined and inserted', b'/b/ka\n1m$\n1t.\n1,$j\n2i\nx\n.\n,l\n,n\nQ\n'),
    Edit('replaced and split', b'1,2s/[ab]/<&>/gp\n,s/\\(.\\)/\\1\\\n/\n,n\nQ\n'),
    Edit('written, and the name told', b'$a\nd\n.\nw\nf\nq\n', ('F',)),
    Edit('globals, taken back', b'g/^/m0\\\nka\n,p\nu\nu\nv/b/d\nu\n,n\nQ\n'),
    Edit('two times undone, of three lines', b'1d\nu\nu\n,p\nQ\n'),
    Edit('the file is read once more, and edited anew', b'2r F\n,p\nE\n1d\nw\nq\n', ('F',)),
    Edit('all lines are turned round', b'g/^/m0\n,p\nQ\n'),
    Edit('changes of three lines that are not written', b'1d\nq\n'),
    Edit('nothing to undo, of three lines', b'u\n'),
    Edit('a global without a line, of three lines', b'g/z/d\nu\nq\n'),
    Edit('chunks of lines', MANY + b'1,2500d\nu\n$p\nu\n$=\nQ\n'),
    Edit('a file without its last newline is read', b'r OTHER\n,p\nw\nq\n', ('F',), {'F': ABC, 'OTHER': b'x'}),
    Edit('searches by one pattern', SEARCHES),
    Edit('vouched for, and run', b'/b/d\n1d\n,p\nw\nq\n', VOUCHED_FOR),
    Edit('vouched for by a line that is entered', b'$a\nx\n.\n/x/p\nw\nq\n', VOUCHED_FOR),
    Edit('replaced whole', b'1d\nw\nw H\nr F\nw H\n,p\nw\nq\n', REPLACED_WHOLE),
    Edit('replaced whole, but for what stays', b'1d\nw\nu\nw\n1d\nw H\nq\n', REPLACED_WHOLE),
    Edit('a fault after a write that is held back', b'1d\nw\n9p\n', REPLACED_WHOLE),
    Edit('replaced whole, and kept', b'1d\nw\nw H\nw NEW\nr F\nw H\nq\n', KEPT, {'F': ABC, 'H': AB}),
    Edit('kept in place of an older backup', b'1d\nw\n,p\nq\n', KEPT, {'F': ABC, 'F~': AB}),
    Edit('a backup that is a file of the run', b'1d\nw\nw F~\nq\n', KEPT, {'F': ABC, 'F~': AB}),
    Edit('nothing is kept after a fault', b'1d\nw\nw H\n9p\n', KEPT, {'F': ABC, 'H': AB}),
    Edit('spared in place', b'w\n1d\nw\nw\nw NEW\nw NEW\n,p\nq\n', SPARED),
    Edit('spared by another name, and read again', b'1s/a/x/\nu\nw\nr ./F\nw H\nw H\nq\n', SPARED, {'F': ABC, 'H': ABC + ABC}),
    Edit('rehearsed, with what is kept', b'1d\nw\nw H\nu\nw\nq\n', ('-n', *KEPT), {'F': ABC, 'H': AB}),
    Edit('rehearsed, with what is spared', b'1d\nw\nw NEW\nu\nw\nq\n', ('-n', *SPARED)),
    Edit('vouched for over files like another', b'/b/p\n2d\nw\nq\n', ('--vouched', '--like', 'G', '-s', 'F'), {'F': ABC, 'G': ABC}),
    Edit('vouched for over files that F is unlike', b'4d\nw\nq\n', ('--vouched', '--like', 'G', '-s', 'F'), {'F': ABC, 'G': ABC + b'd\n'}),
    Edit('not vouched for', b'1d\n/b/s/c/d/\nw\nq\n', VOUCHED_FOR),
    Edit('vouched for over longer files', b'/b/p\n9d\nw\nq\n', VOUCHED_FOR),
    Edit('vouched for over files with a line that matches', b'/z/d\nw\nq\n', VOUCHED_FOR),
]


class Vouched(typing.NamedTuple):
    """A script for the verifier: its name, it, the words of `vouch` before the file, the files, and the words of `run` after the
    certificate, which end with the file; None where it isn't vouched for."""
    name: str
    script: bytes
    vouch: str
    files: typing.Mapping
    words: typing.Optional[typing.Sequence]


def of_foo(name, script, vouch, is_vouched=True):
    """A script over the three lines of FOO."""
    return Vouched(name, script, vouch, {'F': FOO}, ('-s', 'F') if is_vouched else None)


VOUCHED = [
    Vouched('a global that replaces', b'g/foo/s//bar/\nw\nq\n', '--min 0 --max any', {'F': b'foo\nb\n'}, ('F',)),
    Vouched('a mark', b"2ka\n1d\n'ap\nQ\n", '--min 2 --max any', {'F': ABC}, ('F',)),
    Vouched('a line is deleted', b'1d\nw\nq\n', '--min 1 --max 3', {'F': b'a\n'}, ('F',)),
    Vouched('a change taken back', b'1d\nu\n1p\nQ\n', '--min 1 --max any', {'F': AB}, ('F',)),
    Vouched('a stated pattern', b'/foo/p\nQ\n', '--min 1 --max any --has foo', {'F': b'b\nfoo\n'}, ('-s', 'F')),
    Vouched("a pattern that isn't stated", b'/foo/p\nQ\n', '--min 1 --max any --patterns', {'F': b'foo\n'}, None),
    Vouched('a pattern in version 1', b'/foo/p\nQ\n', '--min 1 --max any', {'F': b'foo\n'}, None),
    Vouched('an entered line', b'$a\nfoo\n.\n/foo/p\nQ\n', '--min 0 --max any --patterns', {'F': AB}, ('-s', 'F')),
    Vouched('an entered line that may be gone', b'$a\nfoo\n.\n1d\n/foo/p\nQ\n', '--min 0 --max any --patterns', {'F': AB}, None),
    Vouched('an entered line that is brought back', b'$a\nfoo\n.\n1d\nu\n/foo/p\nQ\n', '--min 0 --max any --patterns', {'F': AB},
            ('-s', 'F')),
    Vouched('a line that a global took', b'g/foo/?foo?p\nQ\n', '--min 0 --max any --patterns', {'F': b'foo\nb\n'}, ('-s', 'F')),
    Vouched('lines that a global left out', b'v/foo/?foo?p\nQ\n', '--min 0 --max any --patterns', {'F': AB}, None),
    Vouched('patterns that no search asks for', b'/x.*y/p\nw\nQ\n', '--min 1 --max any --has x.*y --has a', {'F': b'a\nx y\n'}, ('F',)),
    Vouched('a certificate that is read in pieces', b'f ' + LONG + b'\nQ\n', '--min 0 --max any', {'F': AB}, ('-s', 'F')),
    Vouched('a list that could go wrong', b'g/x/-1d\nQ\n', '--min 0 --max any', {'F': AB}, None),
    Vouched('a pattern that need not match', b's/x/y/\nw\nq\n', '--min 1 --max any', {'F': AB}, None),
    of_foo('a global that replaces, of three lines', b'g/foo/s//bar/\nw\nq\n', '--min 0 --max any'),
    of_foo('a mark, of three lines', b"2ka\n1d\n'ap\nQ\n", '--min 2 --max any'),
    of_foo('a line of three is deleted', b'1d\nw\nq\n', '--min 1 --max 3'),
    of_foo('a change of three lines taken back', b'1d\nu\n1p\nQ\n', '--min 1 --max any'),
    of_foo('a list that copies and marks, and another path', b'g/o/t.\\\nka\nw\nw G\nq\n', '--min 0 --max 9'),
    of_foo('a mark on a deleted line', b"2ka\n1,2d\n'ap\nQ\n", '--min 2 --max any', False),
    of_foo('a list that deletes the line above', b'g/x/-1d\nQ\n', '--min 1 --max any', False),
    of_foo('three commands that may fail', b'/^a/d\n9p\n/^b/s/b/c/\nq\n', '--min 1 --max any', False),
    of_foo('two that may fail, and a global', b'/^a/d\ng/./p\n/^b/s/b/c/\nq\n', '--min 1 --max any', False),
    of_foo('a stated pattern, of three lines', b'/foo/p\nQ\n', '--min 1 --max any --has foo'),
    of_foo("a pattern that isn't stated, of three lines", b'/foo/p\nQ\n', '--min 1 --max any --patterns', False),
    of_foo('a line entered after three', b'$a\nfoo\n.\n/foo/p\nQ\n', '--min 0 --max any --patterns'),
    of_foo('a line entered after three that may be gone', b'$a\nfoo\n.\n1d\n/foo/p\nQ\n', '--min 0 --max any --patterns', False),
    of_foo('a line entered after three that is brought back', b'$a\nfoo\n.\n1d\nu\n/foo/p\nQ\n', '--min 0 --max any --patterns'),
    of_foo('a line of three that a global took', b'g/foo/?foo?p\nQ\n', '--min 0 --max any --patterns'),
    of_foo('a start that is found', b'/foo/p\n2d\nw\nq\n', ''),
    of_foo('a start that is found without a line', b'$a\nfoo\n.\n/foo/p\nQ\n', ''),
    of_foo('a start of which the most lines are given', b'1d\n?b?p\nQ\n', '--max 9', False),
    of_foo('a start that is proposed from a file', b'2d\nw\nq\n', '--like F'),
    of_foo('a start with a pattern that is proposed from a file', b'/foo/p\n3d\nw\nq\n', '--like F'),
    of_foo('a start that no file like this one has', b'/foo/p\n9d\nw\nq\n', '--like F', False),
    of_foo('a start that is not found', b'/foo/p\n3d\n/b/s/b/d/\nw\nq\n', '', False),
    of_foo('lines of three that a global left out', b'v/foo/?foo?p\nQ\n', '--min 0 --max any --patterns', False),
    of_foo('a landmark', b'/^f/s/oo/x/\nw\nq\n', '--min 1 --max any --at /^f/&/oo/'),
    of_foo('a block between landmarks', b'/foo/;/c/d\nw\nq\n', '--min 1 --max any --at /foo/;only/c/'),
    of_foo('a landmark after a line that comes in, changed and brought back', b'/b/a\nx\n.\n/c/s//d/\nu\n/c/-1d\nw\nq\n',
           '--min 1 --max any --at /foo/;/b/;only/c/'),
    of_foo('a landmark that is gone', b'/b/d\n/b/p\nQ\n', '--min 1 --max any --at only/b/', False),
]


class Judged(typing.NamedTuple):
    """Scripts that are judged without certificates: what they are, the words of `vouch`, the files, the script on standard input, and the
    status."""
    name: str
    words: str
    files: typing.Mapping
    script: bytes
    status: int


FIT = b'/foo/p\n2d\nw\nq\n'
UNFIT = b'1d\n/b/s/b/d/\nw\nq\n'
JUDGED = [
    Judged('two scripts that are vouched for', '-f A -f A F', {'A': FIT}, b'', 0),
    Judged('two scripts, of which one is vouched for', '-f A -f B F', {'A': FIT, 'B': UNFIT}, b'', 1),
    Judged('two scripts with a stated pattern', '--min 2 --max any --has foo -f A -f B F', {'A': FIT, 'B': UNFIT}, b'', 1),
    Judged('two scripts over starts like a file', '--like G -f A -f B F', {'A': FIT, 'B': UNFIT, 'G': FOO}, b'', 1),
    Judged('a script over starts like a file that is missing', '--like G -q F', {}, FIT, 3),
    Judged('all that fails of two scripts', '--all -f B -f A F', {'A': FIT, 'B': UNFIT}, b'', 1),
    Judged('two scripts, of which one is missing', '-f A -f C F', {'A': FIT}, b'', 3),
    Judged('two scripts, quietly', '-q -f A -f B F', {'A': FIT, 'B': UNFIT}, b'', 1),
    Judged('a script, quietly', '-q F', {}, FIT, 0),
]


class Changed(typing.NamedTuple):
    """A certificate of `1d`, `w` and `q` over FOO that is changed, or that doesn't allow the file: what it is, the words of `vouch`, the
    lines that go out and come in, the words that are run with it, and the status by which they end. F is FOO, OTHER the certificate."""
    name: str
    vouch: str
    lines: typing.Sequence
    words: str
    status: int


CHANGED_SCRIPT = b'1d\nw\nq\n'
REFUSED = [(b'final 0 2\n', b'final 0 1\n')]
NONE = [*REFUSED, (b'start 1 3\n', b'start 3 1\n')]
CHANGED = [
    Changed('a certificate that is refused', '--min 1 --max 3', REFUSED, 'check CERT', 1),
    Changed('a certificate that is refused', '--min 1 --max 3', REFUSED, 'explain CERT', 1),
    Changed('what is no certificate', '--min 1 --max 3', NONE, 'explain CERT', 1),
    Changed('what is no certificate', '--min 1 --max 3', NONE, 'check CERT', 1),
    Changed('what is no certificate', '--min 1 --max 3', NONE, 'run CERT -s F', 1),
    Changed('what is no certificate', '--min 1 --max 3', NONE, 'fits CERT F', 1),
    Changed('a start that lies outside', '--min 9 --max any', [], 'fits CERT F', 4),
    Changed('a start that lies outside', '--min 9 --max any', [], 'fits CERT OTHER', 4),
    Changed('a start that lies outside', '--min 9 --max any', [], 'run CERT -s F', 4),
    Changed('a start without the stated pattern', '--min 1 --max any --has z$', [], 'fits CERT F', 4),
    Changed('a start without the stated pattern', '--min 1 --max any --has z$', [], 'run CERT -s F', 4),
    Changed('a start without the landmark', '--min 1 --max any --at /b/;/b/', [], 'fits CERT F', 4),
    Changed('a start without the landmark', '--min 1 --max any --at /z/ --at 9', [], 'run CERT -s F', 4),
]


class Match(typing.NamedTuple):
    """What `bre_ask` is asked: by which word, a pattern, a line, and the places of the match and of its first two groups."""
    task: str
    pattern: str
    line: str
    spans: str


# A searcher makes its automaton on a text of 256 bytes and more.
BLANKS = ' ' * 300
MATCHES = [
    Match('places', r'\(ab\)*\1', 'ababab', '0-6 2-4 -'),
    Match('places', r'\(a*\)*b', 'caaab', '1-5 1-4 -'),
    Match('places', r'a\{0,1\}\(ab\)\{0,1\}', 'ab', '0-2 0-2 -'),
    Match('places', r'\(a\{0,1\}\(ab\)\{0,1\}\)b*', 'abb', '0-3 0-2 0-2'),
    Match('places', r'\(.*\)=\(.*\)=\1$', 'ab=c=ab', '0-7 0-2 3-4'),
    Match('places', r'\(a\{1,2\}[\a]\)*a\1$', 'b' + 'a' * 40, '1-41 36-38 -'),
    Match('places', r'\(a\)*\(a\)*\(a\)*b\1$', 'c' + 'a' * 20 + 'ba', '1-23 20-21 -'),
    Match('places_searched', 'x.*y.*z', BLANKS + 'xayz', '300-304 - -'),
    Match('places_searched', r'\(ab*\)*c[0-9]', BLANKS + 'abac7', '300-305 302-303 -'),
    Match('places_searched', r'\(x\)*[yz]$', BLANKS + 'xy', '300-302 300-301 -'),
    Match('places_searched', r'[ab]\{2,3\}c', BLANKS + 'aabc', '300-304 - -'),
    Match('places_searched', r'\(a\)*\(bc\)*d', BLANKS + 'aabcd', '300-305 301-302 302-304'),
]
