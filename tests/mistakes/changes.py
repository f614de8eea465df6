"""Which edits tell something about what changed since a revision."""
import subprocess
import sys
import tempfile

from mistakes.forms import edits_of
from mistakes.functions import around, functions_in, outside, without_comments
from mistakes.tree import TOP, Tree


class Changes:
    """A tree beside the one of a revision."""

    def __init__(self, tree, revision):
        self.folder = tempfile.TemporaryDirectory()
        packed = subprocess.run(['git', 'archive', revision, 'crates', 'crates.txt'], cwd=TOP, capture_output=True)
        if packed.returncode:
            sys.exit(f'there is no tree to compare with at {revision}: {packed.stderr.decode().strip()}')
        subprocess.run(['tar', '-xf', '-', '-C', self.folder.name], input=packed.stdout, check=True)
        self.tree, self.before = tree, Tree(self.folder.name)
        self.edits = {(edit.crate, edit.name): edit.changes for crate in self.before.crates() for edit in edits_of(self.before, crate)}
        self.defined = {crate for crate in tree.crates() if self.specs(crate, tree) != self.specs(crate, self.before)}

    @staticmethod
    def specs(crate, tree):
        """The definitions of a crate, by file."""
        return {path: tree.text(path) for path in tree.files(f'crates/{crate}/specs')}

    def concern(self, edit):
        """Whether an edit is new or another one, changes a function whose body or contract changed, or is of a crate whose definitions
        changed."""
        if edit.crate in self.defined or self.edits.get((edit.crate, edit.name)) != edit.changes:
            return True
        return any(self.concerns_part(f'crates/{edit.crate}/{file}', old) for file, old, _ in edit.changes)

    def concerns_part(self, path, old):
        """Whether a text stands in what changed of a file, comments aside: in a function that isn't there in the revision as it is now, as
        often as now, or outside of functions. One that isn't there as it stands, since only an earlier change of the edit makes it, counts
        as changed with the file."""
        before, now = self.before.text(path), self.tree.text(path)
        if before == now:
            return False
        if before is None or now is None or old not in now:
            return True
        function = around(functions_in(now), now.find(old))
        before, now = ('\n' + without_comments(text if function else outside(text)) for text in (before, now))
        if not function:
            return before != now
        part = '\n' + without_comments(self.tree.text(path)[function.start:function.end])
        return before.count(part) < now.count(part)
