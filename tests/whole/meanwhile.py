"""What runs do where others are at work on the same files: they change them, lock them, exchange a draft, leave drafts, or edit at once."""
import contextlib
import fcntl
import os
import re
import signal
import stat
import subprocess
import tempfile
import typing

from folders import BEFORE, drafts_in, files_in, fresh, read, write

HERE = os.path.dirname(os.path.abspath(__file__))
EXCHANGE = os.path.join(os.path.dirname(HERE), 'refused/exchange.c')
CHANGED = b'changed since it was read'
LOCKED = b'locked by another process'
WHOLE = ('edit', '--whole', '-s')
IN_PLACE = ('edit', '-s')


def refuses(path, why):
    return b'error: "' + path + b'": can\'t be written: ' + why + b'\n'


def append(path):
    with open(path, 'ab') as file:
        file.write(b'new\n')


def replace(path):
    write(path + '~', read(path))
    os.rename(path + '~', path)


# What others do to a file after it was read, and the file that it is: its bytes stay the same in some of them.
CHANGES = {
    'it grows': ('F', append),
    'it is emptied': ('F', lambda path: write(path, b'')),
    'a file with the same bytes takes its place': ('F', replace),
    'other bytes of the same number': ('F', lambda path: write(path, b'c\nd\n')),
    'it is gone': ('F', os.remove),
    'it is made': ('NEW', lambda path: write(path, b'new\n')),
}
# In place a file that is gone is made anew.
IN_PLACE_ALLOWS = {'it is gone'}


def while_it_runs(tests, words, script, folder, work):
    """Runs a script that reads a pipe, and does this work when it has come there."""
    pipe = os.path.join(folder, 'pipe')
    os.mkfifo(pipe)
    run = subprocess.Popen([tests.program, *words], stdin=subprocess.PIPE, stdout=subprocess.PIPE, stderr=subprocess.PIPE, cwd=folder)
    run.stdin.write(script)
    run.stdin.close()
    with open(pipe, 'wb'):
        work()
    output, errors = run.stdout.read(), run.stderr.read()
    os.remove(pipe)
    return run.wait(), errors


def changed(tests):
    """A file that others have changed since it was read isn't written, neither before nor after a draft of it was made."""
    for name, (file, change) in CHANGES.items():
        for words, script in ((WHOLE, b'0r pipe\nw\nq\n'), (WHOLE, b'w\n0r pipe\nw H\nw\nq\n'), (IN_PLACE, b'0r pipe\nw\nq\n')):
            if words == IN_PLACE and name in IN_PLACE_ALLOWS:
                continue
            with fresh() as folder:
                path = os.path.join(folder, file)
                status, errors = while_it_runs(tests, (*words, file), b'$a\nz\n.\n' + script, folder, lambda: change(path))
                left = files_in(folder)
                wanted = dict(BEFORE)
                with fresh() as other:
                    change(os.path.join(other, file))
                    wanted = files_in(other)
                is_right = status == 3 and refuses(file.encode(), CHANGED) in errors and left == wanted
                tests.check(f'{name}: {words} {script}', is_right, f'{status}, {errors}, {left}')
    for words, script, status in ((WHOLE, b'0r pipe\nw\nq\n', 0), (WHOLE, b'w\n0r pipe\nw\nq\n', 3), (IN_PLACE, b'0r pipe\nw\nq\n', 0)):
        with fresh() as folder:
            path = os.path.join(folder, 'F')
            found, errors = while_it_runs(tests, (*words, 'F'), b'1d\n' + script, folder, lambda: os.chmod(path, 0o604))
            is_right = found == status and stat.S_IMODE(os.stat(path).st_mode) == 0o604
            tests.check(f'its mode is changed: {words} {script}', is_right, f'{found}, {errors}, {os.stat(path)}')
    with fresh() as folder:
        ran = tests.program, *IN_PLACE, 'F'
        ran = subprocess.run(ran, input=b'1d\nw ./F\nw\nw link\n1a\nc\n.\nw\nq\n', capture_output=True, cwd=folder)
        is_right = ran.returncode == 0 and files_in(folder) == {**BEFORE, 'F': b'b\nc\n'}
        tests.check('its own writes by other names', is_right, f'{ran}')


def locked(tests):
    """A file that another process has locked isn't written; a run has locked those that it writes."""
    for words in (WHOLE, IN_PLACE, (*WHOLE, '-n'), (*IN_PLACE, '-n')):
        with fresh() as folder, open(os.path.join(folder, 'F')) as other:
            fcntl.flock(other, fcntl.LOCK_EX)
            ran = subprocess.run([tests.program, *words, 'F'], input=b'1d\nw\nq\n', capture_output=True, cwd=folder)
            is_right = (ran.returncode, ran.stderr, files_in(folder)) == (3, refuses(b'F', LOCKED), BEFORE)
            tests.check(f'locked: {words}', is_right, f'{ran}')
    with fresh() as folder, open(os.path.join(folder, 'F')) as other:
        def is_locked():
            try:
                fcntl.flock(other, fcntl.LOCK_EX | fcntl.LOCK_NB)
            except BlockingIOError:
                found.append(True)
        found = []
        status, errors = while_it_runs(tests, (*WHOLE, 'F'), b'1d\nw\nr pipe\nw\nq\n', folder, is_locked)
        tests.check('it locks what it writes', (status, errors, found) == (0, b'', [True]), f'{status}, {errors}, {found}')


def drafts(tests):
    """Drafts of runs that are over are removed; one that is locked stays, and so does what is no plain file."""
    with fresh() as folder:
        for number in range(2000):
            write(os.path.join(folder, f'.F.edv-{number}'), b'old\n')
        ran = subprocess.run([tests.program, *WHOLE, 'F'], input=b'1d\nw\nq\n', capture_output=True, cwd=folder)
        is_right = (ran.returncode, ran.stderr, files_in(folder)) == (0, b'', {**BEFORE, 'F': b'b\n'})
        tests.check('2000 drafts of runs that are over', is_right, f'{ran}, {len(drafts_in(folder))} drafts')
    with fresh() as folder:
        held = os.path.join(folder, '.F.edv-0')
        for number in (0, 3):
            write(os.path.join(folder, f'.F.edv-{number}'), b'old\n')
        os.symlink('H', os.path.join(folder, '.F.edv-1'))
        os.mkdir(os.path.join(folder, '.F.edv-2'))
        with open(held) as other:
            fcntl.flock(other, fcntl.LOCK_SH)
            ran = subprocess.run([tests.program, *WHOLE, 'F'], input=b'1d\nw\nq\n', capture_output=True, cwd=folder)
        left = drafts_in(folder)
        is_right = (ran.returncode, ran.stderr, left, read(held)) == (0, b'', ['.F.edv-0', '.F.edv-1', '.F.edv-2'], b'old\n')
        tests.check('a draft that is locked, a link and a folder', is_right, f'{ran}, {left}')
    for name in ('n' * 255, 'é' * 127 + 'n', '語' * 85, 'n' + '𝄞' * 63):
        with fresh() as folder:
            write(os.path.join(folder, name), b'a\nb\n')
            write(os.path.join(folder, 'n' + name[1:]), b'a\nb\n')
            ran = subprocess.run([tests.program, *WHOLE, name], input=b'1d\nw\nq\n', capture_output=True, cwd=folder)
            is_right = (ran.returncode, ran.stderr, drafts_in(folder)) == (0, b'', []) and read(os.path.join(folder, name)) == b'b\n'
            tests.check(f'a name of {len(name.encode())} bytes', is_right, f'{ran}, {drafts_in(folder)}')


@contextlib.contextmanager
def preloaded(tests):
    """The library of exchanges and kills."""
    with tempfile.TemporaryDirectory() as place:
        library = os.path.join(place, 'exchange.so')
        if subprocess.run(['cc', '-shared', '-fPIC', '-O1', '-o', library, EXCHANGE]).returncode != 0:
            tests.check('a library', False, 'there is no C compiler')
        yield library


class Killed(typing.NamedTuple):
    """A run that is killed: its name, its script, what the files have after it that it makes or changes, its words, and the drafts of runs that are
    over, or for None a second name of F that was to become its backup."""
    name: str
    script: bytes
    after: typing.Mapping
    words: typing.Sequence = ()
    drafts: typing.Sequence = ()


KILLED = [
    Killed('one file', b'1d\nw\nq\n', {'F': b'b\n'}),
    Killed('one file with a backup', b'1d\nw\nq\n', {'F': b'b\n', 'F~': b'a\nb\n'}, words=('--backup=~',)),
    Killed('three files, one of them new', b'1d\nw NEW\nw H\nw\nr H\nw H\nq\n', {'F': b'b\n', 'H': b'b\nb\n', 'NEW': b'b\n'}),
    Killed('the bytes that the file has', b'w\nw H\nq\n', {'H': b'a\nb\n'}),
    Killed('drafts of runs that are over', b'1d\nw\nq\n', {'F': b'b\n'}, drafts=(b'a\n', b'', b'b\n')),
    Killed('a draft of a run that is over, and a backup', b'1d\nw\nq\n', {'F': b'b\n'}, drafts=(b'a\n', None)),
]


def killed(tests):
    """A run is killed before each call on a file: each file is old or new, and the next run works and leaves nothing but the files."""
    with preloaded(tests) as library:
        for run in KILLED:
            call = 1
            while is_killed(tests, run, call, library):
                call += 1
            print(f'{run.name}: {call - 1} calls on files, killed before each')


def is_killed(tests, run, call, library):
    words, after = (*WHOLE, *run.words, 'F'), {**BEFORE, **run.after}
    with fresh() as folder:
        for number, text in enumerate(run.drafts):
            path = os.path.join(folder, f'.F.edv-{number}')
            if text is None:
                os.link(os.path.join(folder, 'F'), path)
            else:
                write(path, text)
        environment = {**os.environ, 'LD_PRELOAD': library, 'KILL': str(call)}
        ran = subprocess.run([tests.program, *words], input=run.script, capture_output=True, cwd=folder, env=environment)
        left = {file: text for file, text in files_in(folder).items() if '.edv-' not in file}
        each = all(text in (BEFORE.get(file), after.get(file)) for file, text in left.items()) and BEFORE.keys() <= left.keys()
        for file in BEFORE:
            write(os.path.join(folder, file), BEFORE[file])
        again = subprocess.run([tests.program, *words], input=run.script, capture_output=True, cwd=folder)
        is_right = each and (again.returncode, again.stderr, files_in(folder)) == (0, b'', after)
        found = f'{ran}, {left}, {again}, {files_in(folder)}'
        tests.check(f'{run.name}: killed before call {call}', is_right and ran.returncode in (0, -signal.SIGKILL), found)
        return ran.returncode == -signal.SIGKILL


def exchanged(tests):
    """The draft is exchanged for a link at each call: what the link leads to is never touched. The run is refused, or makes another draft."""
    with preloaded(tests) as library:
        for file in ('F', 'NEW'):
            kinds = []
            while each_is_exchanged(tests, file, len(kinds) + 1, library, kinds):
                pass
            print(f'{file}: its draft exchanged for a link before {len(kinds)} calls: {" ".join(kinds)}')
            tests.check(f'{file}: exchanges', kinds[-1] in ('rename', 'link') and 'write' in kinds, kinds)


def each_is_exchanged(tests, file, call, library, kinds):
    with fresh() as folder:
        target = os.path.join(folder, 'folder/target')
        write(target, b'target\n')
        os.chmod(target, 0o604)
        before = os.stat(target)
        ran = subprocess.run([tests.program, *WHOLE, file], input=b'0a\nz\n.\nw\nr ' + file.encode() + b'\nw\nq\n', capture_output=True, cwd=folder,
                             env={**os.environ, 'LD_PRELOAD': library, 'EXCHANGE': str(call), 'TARGET': target})
        met = re.search(rb'^exchanged (\w+)$', ran.stderr, re.M)
        if not met:
            return False
        kinds.append(met[1].decode())
        after = os.stat(target)
        untouched = read(target) == b'target\n' and (after.st_mode, after.st_mtime_ns, after.st_ctime_ns) == (
            before.st_mode, before.st_mtime_ns, before.st_ctime_ns)
        # Nothing tells the run of an exchange at the renaming itself but what it finds after it.
        path = os.path.join(folder, file)
        stays = kinds[-1] in ('rename', 'link') or not os.path.islink(path) and (read(path) if os.path.exists(path) else None) == BEFORE.get(file)
        refused = stays and ran.returncode == 3 and b'its draft was replaced\n' in ran.stderr
        # A draft that is gone before it is locked is taken for one that another run has removed, and another one is made.
        done = ran.returncode == 0 and not os.path.islink(path) and read(path) == (b'z\n' + BEFORE.get(file, b'')) * 2
        is_right = untouched and (refused or kinds[-1] in ('flock', 'stat') and done)
        tests.check(f'{file}: exchanged before call {call}, {kinds[-1]}', is_right, f'{ran}, {untouched}, {stays}')
        return True


def pairs(tests):
    """Two runs at once: what a run that ends with 0 has written is there, and one that is refused says why."""
    for first, second in ((WHOLE, WHOLE), (IN_PLACE, IN_PLACE), (WHOLE, IN_PLACE)):
        told = lost = both = 0
        for number in range(tests.pairs):
            with tempfile.TemporaryDirectory() as folder:
                path = os.path.join(folder, 'F')
                write(path, b'a\nb\n')
                os.utime(path, (1, 1))
                runs = []
                for words, script in ((first, b'$a\nAAA\n.\nw\nq\n'), (second, b'1i\nBBB\n.\nw\nq\n')):
                    run = subprocess.Popen([tests.program, *words, 'F'], stdin=subprocess.PIPE, stderr=subprocess.PIPE, cwd=folder)
                    runs.append((run, script))
                for run, script in runs:
                    run.stdin.write(script)
                    run.stdin.close()
                ends = [(run.wait(), run.stderr.read()) for run, _ in runs]
                left = read(path)
                wanted = {b'a\nb\nAAA\n': (True, False), b'BBB\na\nb\n': (False, True), b'BBB\na\nb\nAAA\n': (True, True)}.get(left)
                done = tuple(status == 0 for status, _ in ends)
                words = all(status == 0 or status == 3 and (CHANGED in said or LOCKED in said) for status, said in ends)
                told += done.count(False)
                both += done == (True, True)
                lost += wanted != done
                tests.check(f'pair {number} of {first} and {second}', words and wanted == done and not drafts_in(folder), f'{ends}, {left}')
        print(f'{tests.pairs} pairs of {" ".join(first)} and {" ".join(second)}: {both} both done, {told} refused, {lost} lost without a word')


PARTS = {'changed': changed, 'locked': locked, 'drafts': drafts, 'killed': killed, 'exchanged': exchanged, 'pairs': pairs}
