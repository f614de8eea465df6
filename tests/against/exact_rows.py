"""Scripts over a known number of lines for which a rule that forgets too much would give no certificate, or one with bounds too wide.

What each comes to was worked out by hand from the standard. A row's start is a number of lines, or MISSING where the file isn't there, or
NO_PATH where none is named; its answer is the number of lines at the end, with the paths that are written, or what `vouch` says it can't.
"""
import dataclasses

MISSING, NO_PATH = 'missing', 'no path'


@dataclasses.dataclass
class Row:
    name: str
    start: object
    script: str
    lines: int = None
    writes: str = ''
    cannot: str = None


ADDRESS, DESTINATION, UNSAVED = 'invalid address', 'invalid destination', 'buffer modified'
UNFOUND = 'file refused'


def fine(name, start, script, lines, writes=''):
    return Row(name, start, script, lines=lines, writes=writes)


def refused(name, start, script, place, fault):
    return Row(name, start, script, cannot=f'command {place}: {fault}')


TEXTS = (
    fine('a text of a line with two full stops', 3, '3c\n..\n.\n1d\nw\nq\n', 2, '=F'),
    fine('a text enters just its lines', 1, ',.-1a\na\n\n.\nw G\n', 3, '=G'),
    fine('a text after line 0 of an empty buffer', 0, '0a\nx\ny\n.\n2p\nQ\n', 2),
    fine('the last line entered is current', 3, '1a\nx\ny\n.\n+2p\nQ\n', 5),
    refused('the last line entered is current, not one before it', 3, '1a\nx\ny\n.\n+3p\nQ\n', 2, ADDRESS),
    fine('`a` without a text makes its line current', 3, '1a\n.\n+2p\nQ\n', 3),
    fine('`a` without a text may make line 0 current', 3, '0a\n.\n+3p\nQ\n', 3),
    fine('`i` at line 0 stands before line 1', 3, '0i\nx\n.\n4d\nQ\n', 3),
    refused('`i` at line 0 adds its lines, and no more', 3, '0i\nx\n.\n4d\n5p\nQ\n', 3, ADDRESS),
    fine('`i` at line 0 of an empty buffer', 0, '0i\nx\ny\n.\n-1;+1p\nQ\n', 2),
    fine('`i` at another line than 0 stands before it', 4, '0,2i\n.\nc\n.\n,n\nQ\n', 3),
    fine('`i` without a text makes its line current', 3, '2i\n.\n+1p\nQ\n', 3),
    refused('`i` without a text makes no later line current', 3, '2i\n.\n+2p\nQ\n', 2, ADDRESS),
    fine('`i` without a text at line 0 makes line 1 current', 3, '0i\n.\n+2p\nQ\n', 3),
    refused('`i` without a text at line 0 makes line 1 current, and not line 2', 3, '0i\n.\n+3p\nQ\n', 2, ADDRESS),
    fine('`i` without a text in an empty buffer leaves line 0', 0, '0i\n.\n.=\nQ\n', 0),
    refused('a suffix after `i` without a text in an empty buffer', 0, '0ip\n.\nQ\n', 1, ADDRESS),
    fine('`c` at line 0 changes line 1', 3, '0c\nx\n.\n+2p\nQ\n', 3),
    fine('`c` from line 0 on', 3, '0,2c\nx\n.\nw\n', 2, '=F'),
    refused('`c` in an empty buffer', 0, '0c\nx\n.\nQ\n', 1, ADDRESS),
    fine('`c` of all lines', 5, ',c\nx\n.\n1p\nQ\n', 1),
    fine('`c` of all lines from the current one on', 5, '2;\n;c\nx\ny\n.\n3p\nQ\n', 3),
    fine('`c` without addresses changes the current line', 3, 'c\nx\ny\n.\n4p\nQ\n', 4),
    fine('`c` without a text deletes', 5, '2,3c\n.\n+1p\nQ\n', 3),
)
LINES = (
    fine('after `d` the next line is current', 5, '2,3d\n+1p\nQ\n', 3),
    refused('after `d` no later line is current', 5, '2,3d\n+2p\nQ\n', 2, ADDRESS),
    fine('after `d` of the last lines the new last line is current', 5, '4,5d\n-2p\nQ\n', 3),
    fine('after `d` of all lines line 0 is current', 3, ',d\n.=\n$=\nQ\n', 0),
    refused('after `d` of all lines there is none', 3, ',d\np\nQ\n', 2, ADDRESS),
    fine('a suffix after `d` prints line 1', 3, '1dp\nQ\n', 2),
    refused('a suffix after `d` of the only line', 1, '1dp\nQ\n', 1, ADDRESS),
    fine('`j` leaves one line, which is current', 5, '2,4j\n+1p\nQ\n', 3),
    refused('`j` leaves just one line', 5, '2,4j\n+2p\nQ\n', 2, ADDRESS),
    fine('`j` without addresses', 3, '2p\nj\nw\nq\n', 2, '=F'),
    refused('`j` without addresses at the last line', 3, 'j\nQ\n', 1, ADDRESS),
    fine('`j` of one line changes nothing', 3, '1,1j\n2j\nq\n', 3),
    fine('`j` of one line leaves the current line', 3, '1,1j\n-2p\nQ\n', 3),
    fine('lines moved to the top, copied to the end and joined', 3, '2m0\n1,2t$\n4,5j\nw\nq\n', 4, '=F'),
    refused('`m` to one of its own lines', 3, '1,3m2\nQ\n', 1, DESTINATION),
    refused('`m` to its own last line', 3, '1m1\nQ\n', 1, DESTINATION),
    fine('`m` to the line before', 4, '3m2\nw\nq\n', 4, '=F'),
    fine('`m` down', 4, '1m4\n-3p\nQ\n', 4),
    fine('`m` of lines down', 4, '1,2m3\n+1p\nQ\n', 4),
    refused('`m` down, the last one moved is current', 4, '1,2m3\n+2p\nQ\n', 2, ADDRESS),
    fine('`m` up, the last one moved is current', 4, '3,4m1\n-2p\nQ\n', 4),
    refused('`m` up, the first one moved is not current', 4, '3,4m1\n-3p\nQ\n', 2, ADDRESS),
    refused('`m` changes the buffer, also where no line moves', 4, '3m2\nq\n', 2, UNSAVED),
    fine('`t` copies each of its lines', 5, '5c\nx\ny\n.\n,t4\nQ\n', 12),
    fine('`t` of all lines to the end, again and again', 1, ',t$\n,t$\n,t$\n,t$\n16p\nQ\n', 16),
    fine('`t` to line 0', 3, '2,3t0\n-1;+4p\nQ\n', 5),
    fine('`t`, the last copy is current', 4, '1,2t1\n-2p\nQ\n', 6),
    refused('`t`, the first copy is not current', 4, '1,2t1\n-3p\nQ\n', 2, ADDRESS),
    fine('a target is evaluated after a `;`', 4, '2;3t.\n-2p\nQ\n', 6),
    fine('more lines than eight', 8, '8d\n7p\nQ\n', 7),
)
ADDRESSES = (
    fine('the last line is current at the start', 3, '+0p\n-2p\nQ\n', 3),
    refused('the last line is current at the start, and no other', 3, '+1p\nQ\n', 1, ADDRESS),
    fine('from the last line to the current one', 3, '$;.p\nQ\n', 3),
    fine('printing makes its last line current', 3, '1p\n+2p\nQ\n', 3),
    refused('printing makes no line before it current', 3, '1,2p\n+2p\nQ\n', 2, ADDRESS),
    fine('a `;` makes its first address current', 3, '2;+1p\nQ\n', 3),
    refused('a `;` makes no later line current', 3, '2;+2p\nQ\n', 1, ADDRESS),
    refused('a `,` leaves the current line', 3, '2,+1p\nQ\n', 1, ADDRESS),
    fine('a `;` after an address alone', 3, '1;\n+1p\nQ\n', 3),
    fine('line 0 is an address', 3, '0a\nx\n.\n0=\nQ\n', 4),
    refused('line 0 is no line', 3, '0p\nQ\n', 1, ADDRESS),
    refused('line 0 is no line of the null command', 3, '0\nQ\n', 1, ADDRESS),
    refused('no line after the last', 3, '4p\nQ\n', 1, ADDRESS),
    refused('addresses out of order', 3, '3,2p\nQ\n', 1, ADDRESS),
    fine('addresses out of order, of a command that takes the last', 3, '3,2=\n2,1a\nx\n.\nw\nq\n', 4, '=F'),
    fine('an address that is dropped leaves the current line', 3, '1,3=\n.\nQ\n', 3),
    refused('an address that is dropped is evaluated', 3, '4,1=\nQ\n', 1, ADDRESS),
    fine('`=` leaves the current line', 3, '1=\n-2p\nQ\n', 3),
    fine('a suffix prints the current line', 3, '1=p\n-2p\nQ\n', 3),
    refused('a suffix after `=` in an empty buffer', 0, '=p\nQ\n', 1, ADDRESS),
    refused('a suffix after `h` in an empty buffer', 0, 'hp\nQ\n', 1, ADDRESS),
    refused('a suffix after `a` without a text at line 0', 3, '0ap\n.\nQ\n', 1, ADDRESS),
    fine('offsets that make up for one another', 3, '.+999999999-999999999p\n-999999999+999999999p\nQ\n', 3),
    fine('offsets that make up for one another later', 3, '1+999999999+999999999-999999999-999999999p\n+2p\nQ\n', 3),
    refused('a number far above the last line', 3, '999999999p\nQ\n', 1, ADDRESS),
    refused('a thousand offsets down', 3, '$' + '-999999999' * 1000 + 'p\nQ\n', 1, ADDRESS),
    fine('a thousand offsets up, and down again', 3, '1' + '+999999999' * 1000 + '-999999999' * 1000 + 'p\n+2p\nQ\n', 3),
)
FILES_AND_ENDS = (
    fine('`w` of some lines of a buffer that is saved', 3, '2w\nq\n', 3, '=F'),
    refused('`w` of some lines saves nothing', 3, '2d\n1w\nq\n', 3, UNSAVED),
    fine('`w` of all lines by their numbers saves', 2, '1d\n1,$w\nq\n', 1, '=F'),
    fine('`w` saves an empty buffer', 2, ',d\nw\nq\n', 0, '=F'),
    refused('`w` of lines that are not there', 2, ',d\n1,$w\nq\n', 2, ADDRESS),
    fine('`w` with a path saves too', 2, '1d\nw G\nq\n', 1, '=G'),
    fine('`w` with a path leaves the remembered one', 2, '1d\nw G\nw\nq\n', 1, '=F =G'),
    fine('`w` with a path where none is remembered', NO_PATH, 'a\nx\n.\nw G\nw\nq\n', 1, '=G'),
    refused('`w` without a path', NO_PATH, 'a\nx\n.\nw\nq\n', 2, 'no current file name'),
    fine('`f` with a path forgets the one before', 1, 'f G\nw\nq\n', 1, '=G'),
    refused('`f` without a path', NO_PATH, 'f\nQ\n', 1, 'no current file name'),
    fine('`f` with a path that is no UTF-8', 1, 'f \udcff\nw ok\nq\n', 1, '=ok'),
    fine('`f` with such a path, and with another one', 1, 'f \udcff\nf G\nw\nq\n', 1, '=G'),
    fine('such a path after a `q`', 1, '1d\nw\nq\nw \udcff\n', 0, '=F'),
    refused('`w` to such a path', 1, '1p\nw \udcff\n9p\n', 2, UNFOUND),
    refused('`w` to such a path that is remembered', 1, 'f \udcff\nw\nq\n', 2, UNFOUND),
    refused('such a path after a fault', 1, '9d\nw \udcff\n', 1, ADDRESS),
    refused('such a path of `E` after a fault', 1, '9d\nE \udcff\n', 1, ADDRESS),
    refused('a fault of `w` comes before its path', 1, '9w \udcff\nq\n', 1, ADDRESS),
    fine('a file that is missing', MISSING, '$a\nx\n.\nw\nq\n', 1, '=F'),
    fine('`Q` leaves changes', 2, '1d\nQ\n', 1),
    refused('the end saves nothing', 2, '1d\n', 2, UNSAVED),
    refused('`q` saves nothing', 2, '1d\nq\n', 2, UNSAVED),
    fine('as many lines at the end as were entered', 5, '$a\nx\ny\nz\n.\nQ\n', 8),
    fine('no command', 4, '', 4),
    fine('prompts and help', 2, 'P\nH\nh\nHp\n-1p\n', 2),
    fine('no command after a `q`', 3, 'q\n,2a2\n', 3),
    refused('no command after a `q`, which is refused', 3, '1d\nq\n,2a2\n', 2, UNSAVED),
    refused('no command', 3, ',2a2\n', 1, 'invalid command'),
)
ROWS = TEXTS + LINES + ADDRESSES + FILES_AND_ENDS
