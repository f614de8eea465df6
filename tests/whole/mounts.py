"""Runs on a disk that is full, and over layers of files, where this machine lets these be made."""
import contextlib
import os
import subprocess
import tempfile

from folders import files_in, read, write

WHOLE = ('edit', '--whole', '-s')


@contextlib.contextmanager
def mounted(*words):
    """A folder at which this is mounted, or None where that can't be."""
    with tempfile.TemporaryDirectory() as folder:
        if subprocess.run(['mount', *words, folder], capture_output=True).returncode != 0:
            yield None
            return
        try:
            yield folder
        finally:
            subprocess.run(['umount', folder])


def disk(tests):
    """A disk that has no room for a second file beside the first."""
    with mounted('-t', 'tmpfs', '-o', 'size=1m', 'tmpfs') as folder:
        if folder is None:
            print('disk: not tried, since this machine lets no disk be made')
            return
        old = b'0123456789abcde\n' * 40000
        path = os.path.join(folder, 'F')
        write(path, old)
        ran = subprocess.run([tests.program, *WHOLE, 'F'], input=b'1d\nw\nq\n', capture_output=True, cwd=folder)
        wrong = b'error: "F": can\'t be written: No space left on device\n'
        is_right = (ran.returncode, ran.stderr) == (3, wrong) and files_in(folder) == {'F': old}
        tests.check('a full disk', is_right, f'{ran.returncode}, {ran.stderr}, {list(files_in(folder))}')


def layers(tests):
    """A file of a lower layer is copied to the upper one when it is opened to be written. That's no change of it."""
    with mounted('-t', 'tmpfs', 'tmpfs') as place:
        for words in (WHOLE, ('edit', '-s')) if place else ():
            for name in ('lower', 'upper', 'work'):
                os.makedirs(os.path.join(place, words[-2] + name))
            lower, upper, work = (os.path.join(place, words[-2] + name) for name in ('lower', 'upper', 'work'))
            write(os.path.join(lower, 'F'), b'a\nb\n')
            with mounted('-t', 'overlay', '-o', f'lowerdir={lower},upperdir={upper},workdir={work}', 'overlay') as folder:
                if folder is None:
                    print('layers: not tried, since this machine lets none be made')
                    return
                ran = subprocess.run([tests.program, *words, 'F'], input=b'1d\nw\nq\n', capture_output=True, cwd=folder)
                is_right = (ran.returncode, ran.stderr, read(os.path.join(folder, 'F'))) == (0, b'', b'b\n')
                tests.check(f'a lower layer: {words}', is_right and read(os.path.join(lower, 'F')) == b'a\nb\n', f'{ran}')


PARTS = {'disk': disk, 'layers': layers}
