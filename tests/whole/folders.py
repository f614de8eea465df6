"""The files that each run with --whole finds, and what is left of them."""
import contextlib
import os
import pathlib
import stat
import tempfile

MODE = 0o640

# Beside them stand `link`, a link to F, `double`, a second link of G, and the folder `folder`.
BEFORE = {'F': b'a\nb\n', 'G': b'x\ny\n', 'H': b'h\n'}


@contextlib.contextmanager
def fresh():
    """A folder with the files that a run finds."""
    with tempfile.TemporaryDirectory() as folder:
        for name, content in BEFORE.items():
            write(os.path.join(folder, name), content)
        os.symlink('F', os.path.join(folder, 'link'))
        os.link(os.path.join(folder, 'G'), os.path.join(folder, 'double'))
        os.mkdir(os.path.join(folder, 'folder'))
        yield folder


def write(path, content):
    pathlib.Path(path).write_bytes(content)
    os.chmod(path, MODE)


def read(path):
    return pathlib.Path(path).read_bytes()


def files_in(folder):
    """All plain files of a folder and of those in it, with what they have."""
    found = {}
    for place, _, names in os.walk(folder):
        for name in names:
            path = os.path.join(place, name)
            if not os.path.islink(path):
                found[os.path.relpath(path, folder)] = read(path)
    found.pop('double', None)
    return found


def drafts_in(folder):
    return sorted(name for name in os.listdir(folder) if '.edv-' in name)


def modes_stay(folder):
    return all(stat.S_IMODE(os.stat(os.path.join(folder, name)).st_mode) == MODE for name in BEFORE)
