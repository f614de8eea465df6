"""What became of edits that were tried, kept on this machine by the checksum of all that a verdict rests on.

The file has a line for each verdict, `CHECKSUM VERDICT`. Each is added by one write at its end, so that several runs may add to it at once,
and a run can be killed at any time; a line that isn't whole counts for nothing. It lies outside of the tree, and any clone uses it, since
a checksum says of what the verdict was.
"""
import functools
import hashlib
import os
import re
import subprocess

from mistakes.tree import PARTS

REFUSED, LET_THROUGH = 'refused', 'let-through'
# To be raised where what counts as refused changes: earlier verdicts then count no longer.
WAY = 1
LINE = re.compile(rf'^([0-9a-f]{{64}}) ({REFUSED}|{LET_THROUGH})$', re.MULTILINE)


class Verdicts:
    """The verdicts on some edits that hold for a tree as it stood when this was made."""

    def __init__(self, tree, edits):
        caches = os.environ.get('XDG_CACHE_HOME') or os.path.join(os.path.expanduser('~'), '.cache')
        self.tree, self.path = tree, os.path.join(caches, 'mullerfawn', 'wrong-bodies')
        self.crate_sum = functools.cache(self.crate_sum)
        self.start = f'{WAY} {subprocess.run(["rt", "version"], capture_output=True, text=True, check=True).stdout.strip()}'
        self.known = {}
        if os.path.isfile(self.path):
            with open(self.path, encoding='ascii', errors='replace') as kept:
                self.known = dict(LINE.findall(kept.read()))
        self.keys = {(edit.crate, edit.name): self.key(edit) for edit in edits}

    def crate_sum(self, crate):
        """The checksum of all that a crate is proved from itself: its sources, definitions and proofs, and what crates.txt says of it."""
        total = hashlib.sha256(repr((crate, self.tree.libraries(crate))).encode())
        for path in (path for part in PARTS for path in self.tree.files(f'crates/{crate}/{part}')):
            with open(os.path.join(self.tree.top, path), 'rb') as file:
                total.update(f'{path} {hashlib.sha256(file.read()).hexdigest()}\n'.encode())
        return total.hexdigest()

    def key(self, edit):
        """The checksum of all that the verdict on an edit rests on: the toolchain, its crate and all below it, and its changes."""
        below = [(crate, self.crate_sum(crate)) for crate in self.tree.with_all_below(edit.crate)]
        changes = [tuple(change) for change in edit.changes]
        return hashlib.sha256(repr((self.start, edit.crate, below, changes)).encode('utf-8', 'surrogateescape')).hexdigest()

    def of(self, edit):
        """The verdict on an edit, or None where none is known."""
        return self.known.get(self.keys[edit.crate, edit.name])

    def add(self, edit, verdict):
        """Keeps a verdict."""
        key = self.keys[edit.crate, edit.name]
        self.known[key] = verdict
        os.makedirs(os.path.dirname(self.path), exist_ok=True)
        with open(self.path, 'ab', buffering=0) as kept:
            # What a run that was killed in mid-write left stays a line of its own.
            kept.write(f'\n{key} {verdict}\n'.encode())
