"""What is kept of the files that a run writes: the old ones under the names of their backups, and those that have the bytes already as they are."""
import os
import stat
import subprocess
import tempfile
import typing

from folders import BEFORE, MODE, files_in, fresh, modes_stay, read, write

WHOLE = ('edit', '--whole', '-s')
IN_PLACE = ('edit', '-s')
OLD = {'F.orig': b'a\nb\n'}


class Kept(typing.NamedTuple):
    """A run with backups: its name, its script, the file that it begins with and the suffix, what stands at the names of backups before, and what
    the files have then that it makes or changes, its status and what it says."""
    name: str
    script: bytes
    after: typing.Mapping
    file: str = 'F'
    suffix: str = '.orig'
    there: typing.Mapping = {}
    status: int = 0
    says: bytes = b''


def refused(path, why):
    return b'error: "' + path + b'": can\'t be written: ' + why + b'\n'


KEPT = [
    Kept('one file', b'1d\nw\nq\n', {'F': b'b\n', **OLD}),
    Kept('an older backup is replaced', b'1d\nw\nq\n', {'F': b'b\n', **OLD}, there={'F.orig': b'older\n'}),
    Kept('another suffix', b'1d\nw\nq\n', {'F': b'b\n', 'F~': b'a\nb\n'}, suffix='~'),
    Kept('a suffix like an option', b'1d\nw\nq\n', {'F': b'b\n', 'F-x': b'a\nb\n'}, suffix='-x'),
    Kept('two files', b'1d\nw H\nw\nq\n', {'F': b'b\n', 'H': b'b\n', 'H.orig': b'h\n', **OLD}),
    Kept('a file that is written twice', b'1d\nw\n1c\nz\n.\nw\nq\n', {'F': b'z\n', **OLD}),
    Kept('a file with a path', b'1d\nw\nq\n', {'F': b'b\n', **OLD}, file='folder/../F'),
    Kept('a new file has none', b'2w NEW\nq\n', {'NEW': b'b\n'}),
    Kept('a file that has the bytes already has none', b'w\n1d\nw H\nq\n', {'H': b'b\n', 'H.orig': b'h\n'}),
    Kept('none after a fault', b'1d\nw\n9p\n', {}, status=1, says=b'error: line 3: `9p`: invalid address\n'),
    Kept('an older one stays after a fault', b'1d\nw\n9p\n', {'F.orig': b'older\n'}, there={'F.orig': b'older\n'}, status=1,
         says=b'error: line 3: `9p`: invalid address\n'),
    Kept('the script writes it', b'1d\nw\nw F.orig\nq\n', {}, status=3, says=refused(b'F.orig', b'another name of a file that was written')),
    Kept('the script has written it', b'w F.orig\n1d\nw\nq\n', {}, status=3, says=refused(b'F', b'its backup is a file that was written')),
]


def run(tests, words, script, folder):
    return subprocess.run([tests.program, *words], input=script, capture_output=True, cwd=folder)


def backups(tests):
    """The old files are kept where the run has come to its end, and only there."""
    for row in KEPT:
        with fresh() as folder:
            for name, text in row.there.items():
                write(os.path.join(folder, name), text)
            ran = run(tests, (*WHOLE, f'--backup={row.suffix}', row.file), row.script, folder)
            files = files_in(folder)
            is_right = (ran.returncode, ran.stderr) == (row.status, row.says) and files == {**BEFORE, **row.after} and modes_stay(folder)
            tests.check(f'a backup: {row.name}', is_right, f'{ran}, {files}')
    the_old_file(tests)
    beside_others(tests)
    by_a_certificate(tests)


def the_old_file(tests):
    """A backup is the old file itself, with its mode and its times; sed leaves the same bytes."""
    with fresh() as folder, fresh() as other:
        before = os.stat(os.path.join(folder, 'F'))
        ran = run(tests, (*WHOLE, '--backup', '.orig', 'F'), b'1d\nw\nq\n', folder)
        if not os.path.exists(os.path.join(folder, 'F.orig')):
            tests.check('a backup is the old file', False, f'{ran}')
            return
        kept, new = (os.stat(os.path.join(folder, name)) for name in ('F.orig', 'F'))
        same = (kept.st_ino, kept.st_mtime_ns, stat.S_IMODE(kept.st_mode)) == (before.st_ino, before.st_mtime_ns, MODE)
        subprocess.run(['sed', '-i.orig', '1d', 'F'], check=True, cwd=other)
        is_right = ran.returncode == 0 and same and new.st_ino != before.st_ino and kept.st_nlink == 1 and files_in(folder) == files_in(other)
        tests.check('a backup is the old file', is_right, f'{ran}, {files_in(folder)}, {kept}')
        ran = run(tests, (*WHOLE, '--backup', '.orig', 'F'), b'$a\nc\n.\nw\nq\n', folder)
        subprocess.run(['sed', '-i.orig', '$ac', 'F'], check=True, cwd=other)
        tests.check('a backup after a backup', ran.returncode == 0 and files_in(folder) == files_in(other), f'{ran}, {files_in(folder)}')


def beside_others(tests):
    """What isn't a plain file with one link isn't replaced by a backup."""
    makes = {
        b'not a plain file': (lambda path: os.mkdir(path), lambda path: os.symlink('H', path)),
        b'a file with several links': (lambda path: os.link(os.path.join(os.path.dirname(path), 'H'), path),),
    }
    for why, each in makes.items():
        for make in each:
            with fresh() as folder:
                path = os.path.join(folder, 'F.orig')
                make(path)
                before = os.lstat(path)
                for words in ((), ('-n',)):
                    ran = run(tests, (*WHOLE, *words, '--backup', '.orig', 'F'), b'1d\nw\nq\n', folder)
                    stays = os.lstat(path).st_ino == before.st_ino and read(os.path.join(folder, 'F')) == BEFORE['F']
                    tests.check(f'at its name: {why} {words}', (ran.returncode, ran.stderr) == (3, refused(b'F', why)) and stays, f'{ran}')


def by_a_certificate(tests):
    """A run by a certificate keeps the old file too."""
    script = b'1d\nw\n'
    with fresh() as folder, tempfile.NamedTemporaryFile() as certificate:
        made = run(tests, ('vouch', 'F'), script, folder)
        write(certificate.name, made.stdout)
        ran = run(tests, ('run', '--whole', '--backup', '.old', '-s', certificate.name, 'F'), script, folder)
        is_right = ran.returncode == 0 and files_in(folder) == {**BEFORE, 'F': b'b\n', 'F.old': b'a\nb\n'}
        tests.check('a backup by a certificate', is_right, f'{made}, {ran}, {files_in(folder)}')


# Runs in place: words, script, what is written, and whether the file that is written stays as it is, with its times.
SPARED = [
    ('--unchanged', 'F', b'w\nq\n', {}, 'F', True),
    ('--unchanged', 'F', b'1d\nu\nw\nw\nq\n', {}, 'F', True),
    ('--unchanged', 'link', b'w\nq\n', {}, 'F', True),
    ('--unchanged', 'G', b'w\nq\n', {}, 'G', True),
    ('--unchanged', 'F', b'1c\nh\n.\n2d\nw H\nQ\n', {}, 'H', True),
    ('--unchanged', 'F', b'1d\nw\nq\n', {'F': b'b\n'}, 'F', False),
    ('--unchanged', 'F', b'1s/a/c/\nw\nq\n', {'F': b'c\nb\n'}, 'F', False),
    ('--unchanged', 'F', b'$a\nc\n.\nw\nq\n', {'F': b'a\nb\nc\n'}, 'F', False),
    ('--unchanged', 'F', b',d\nw\nq\n', {'F': b''}, 'F', False),
    ('-s', 'F', b'w\nq\n', {}, 'F', False),
]


# Paths that couldn't be written after each other, by the words of the run: the script, and what a rehearsal tells of each write. The run itself is
# refused the last one of them, in the same words.
OTHER = b'another name of a file that was written'
BACKED = ('--whole', '--backup', '.orig')
LONG = b'n' * 251
HINDERED = [
    (('--whole',), b'1d\nw\nw F\nw ./F\nq\n', b'would write "F": 1 line, 2 bytes\n' * 2, refused(b'./F', OTHER)),
    (('--whole',), b'1d\nw folder/../H\nw H\nq\n', b'would write "folder/../H": 1 line, 2 bytes\n', refused(b'H', OTHER)),
    (('--whole',), b'1d\nw NEW\nw folder/../NEW\nq\n', b'would write "NEW": 1 line, 2 bytes\n', refused(b'folder/../NEW', OTHER)),
    (BACKED, b'1d\nw\nw F.orig\nq\n', b'would write "F": 1 line, 2 bytes\n', refused(b'F.orig', OTHER)),
    (BACKED, b'1d\nw F.orig\nw\nq\n', b'would write "F.orig": 1 line, 2 bytes\n', refused(b'F', b'its backup is a file that was written')),
    (BACKED, b'1d\nw H\nw ' + LONG + b'\nq\n', b'would write "H": 1 line, 2 bytes\n', refused(LONG[:100] + b'..', b'File name too long')),
    (BACKED, b'1d\nw link\nq\n', b'', refused(b'link', b'not a plain file')),
    (('--whole',), b'1d\nw H/\nq\n', b'', refused(b'H/', b'not a plain file')),
]


def hindered(tests):
    """A rehearsal tells of each write whether it could be made after those before it, as the run itself does."""
    for words, script, says, wrong in HINDERED:
        for rehearsed in (('-n',), ()):
            with fresh() as folder:
                ran = run(tests, ('edit', *words, *rehearsed, '-s', 'F'), script, folder)
                is_right = (ran.returncode, ran.stderr) == (3, says + wrong if rehearsed else wrong) and files_in(folder) == BEFORE
                tests.check(f'{rehearsed or "run"}, {words}: {script}', is_right, f'{ran}, {files_in(folder)}')
    # In place two names of a file are written one after the other, and a backup of before counts as the file itself.
    with fresh() as folder:
        ran = run(tests, (*IN_PLACE, '-n', 'F'), b'1d\nw\nw ./F\nq\n', folder)
        says = b'would write "F": 1 line, 2 bytes\nwould write "./F": 1 line, 2 bytes\n'
        tests.check('two names in place', (ran.returncode, ran.stderr) == (0, says), f'{ran}')
        os.link(os.path.join(folder, 'F'), os.path.join(folder, 'F.orig'))
        ran = run(tests, ('edit', '-n', *BACKED, '-s', 'F'), b'1d\nw\nq\n', folder)
        tests.check('a backup that is the file', (ran.returncode, ran.stderr) == (0, says[:33]), f'{ran}')


def unchanged(tests):
    """A file that has the bytes already is left alone, and any other is written in place."""
    for word, file, script, after, written, is_to_stay in SPARED:
        with fresh() as folder:
            path = os.path.join(folder, written)
            os.utime(path, (1, 1))
            before = os.stat(path)
            words = ('edit', *dict.fromkeys((word, '-s')), file)
            ran = run(tests, words, script, folder)
            found = os.stat(path)
            stays = (found.st_mtime_ns, found.st_ctime_ns) == (before.st_mtime_ns, before.st_ctime_ns)
            is_right = (ran.returncode, ran.stderr, found.st_ino) == (0, b'', before.st_ino) and stays == is_to_stay
            tests.check(f'{word}: {script}', is_right and files_in(folder) == {**BEFORE, **after}, f'{ran}, {files_in(folder)}, {found}')
    rehearsals(tests)


# What a rehearsal tells, by its words.
REHEARSED = [
    (('--unchanged',), b'w\nq\n', b'would leave "F" as it is: 2 lines, 4 bytes\n'),
    (('--whole',), b'w\nq\n', b'would leave "F" as it is: 2 lines, 4 bytes\n'),
    (('--whole', '--backup', '~'), b'w\nw H\nq\n', b'would leave "F" as it is: 2 lines, 4 bytes\nwould write "H": 2 lines, 4 bytes\n'),
    ((), b'w\nq\n', b'would write "F": 2 lines, 4 bytes\n'),
    (('--unchanged',), b'1d\nw\nu\nw\nq\n', b'would write "F": 1 line, 2 bytes\nwould leave "F" as it is: 2 lines, 4 bytes\n'),
    (('--unchanged',), b'1s/a/c/\nw\nw NEW\nq\n', b'would write "F": 2 lines, 4 bytes\nwould write "NEW": 2 lines, 4 bytes\n'),
]


def rehearsals(tests):
    """A rehearsal says which files would be left alone, and leaves all."""
    for words, script, says in REHEARSED:
        with fresh() as folder:
            path = os.path.join(folder, 'F')
            before = os.stat(path)
            ran = run(tests, (*IN_PLACE, '-n', *words, 'F'), script, folder)
            found = os.stat(path)
            stays = (found.st_mtime_ns, found.st_ctime_ns) == (before.st_mtime_ns, before.st_ctime_ns)
            is_right = (ran.returncode, ran.stderr) == (0, says) and stays and files_in(folder) == BEFORE
            tests.check(f'rehearsed, {words}: {script}', is_right, f'{ran}')


PARTS = {'backups': backups, 'unchanged': unchanged, 'hindered': hindered}
