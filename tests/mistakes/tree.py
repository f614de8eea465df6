"""The tree that the edits belong to: its crates, what stands below each, the texts of its files, and copies of it to try edits on."""
import contextlib
import functools
import glob
import os
import re
import shutil
import tempfile

from mistakes import running

TOP = os.path.dirname(os.path.dirname(os.path.dirname(os.path.abspath(__file__))))
# What a crate is proved from, and what a check of it keeps for later ones.
PARTS = ('src', 'specs', 'proofs')
KEPT = ('rlib', 'incremental')
COPY = 'wrong-bodies.'


class Tree:
    """A tree at its top folder, whose files stay as they are while it is read."""

    def __init__(self, top=TOP):
        self.top = top
        self.text = functools.cache(self.text)
        self.libraries = functools.cache(self.libraries)

    def text(self, path):
        """The text of a file, or None where there is none."""
        path = os.path.join(self.top, path)
        if not os.path.isfile(path):
            return None
        with open(path, encoding='utf-8', errors='surrogateescape', newline='') as source:
            return source.read()

    def crates(self):
        """The folders of all crates, by name."""
        return sorted(os.path.basename(folder) for folder in glob.glob(f'{self.top}/crates/*') if os.path.isdir(folder))

    def files(self, folder):
        """All files under a folder."""
        walked = os.walk(os.path.join(self.top, folder))
        return sorted(os.path.relpath(os.path.join(at, name), self.top) for at, _, names in walked for name in names)

    def libraries(self, crate):
        """The libraries that crates.txt names for a crate, those of the toolchain among them."""
        line = re.search(rf'^{crate}\b[^:\n]*:(.*)', self.text('crates.txt'), re.MULTILINE)
        return tuple(line[1].split()) if line else ()

    def with_all_below(self, crate):
        """A crate and the crates of this tree that it stands on, directly or not."""
        found, left = set(), [crate]
        while left:
            name = left.pop()
            if name not in found and os.path.isdir(os.path.join(self.top, 'crates', name)):
                found.add(name)
                left += self.libraries(name)
        return sorted(found)


@contextlib.contextmanager
def copied(tree, crates):
    """A copy of the tree without wrong bodies, with what earlier checks of these crates proved, so that only the edits are left to
    check. It is removed at the end, and with it those of runs that were killed before they could do it."""
    def left_out(folder, names):
        if os.path.basename(folder) != 'out':
            return {'must-fail', 'wrong-bodies'}
        return set(names) - set(KEPT if os.path.basename(os.path.dirname(folder)) in needed else ())

    needed = {part for crate in crates for part in tree.with_all_below(crate)}
    for copy in glob.glob(os.path.join(tempfile.gettempdir(), f'{COPY}*')):
        process = os.path.basename(copy)[len(COPY):].split('.')[0]
        if os.stat(copy).st_uid == os.getuid() and process.isdigit() and not os.path.isdir(f'/proc/{process}'):
            shutil.rmtree(copy, ignore_errors=True)
    with tempfile.TemporaryDirectory(prefix=f'{COPY}{os.getpid()}.', ignore_cleanup_errors=True) as copy:
        shutil.copytree(os.path.join(tree.top, 'crates'), os.path.join(copy, 'crates'), symlinks=True, ignore=left_out)
        for name in ('crates.txt', 'HANDLES'):
            shutil.copy2(os.path.join(tree.top, name), copy)
        yield copy


def build_libraries(tree, copy, crates):
    """Builds what the crates stand on, before several of them ask for it at once."""
    for library in dict.fromkeys(library for crate in crates for library in tree.libraries(crate)):
        folder = os.path.join(copy, 'crates', library)
        if os.path.isdir(folder):
            running.told(['rt', 'lib'], folder)
