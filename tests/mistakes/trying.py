"""Tries edits on a copy of the tree: the prover has to refuse each.

A function is proved from its own body and the contracts of what it calls. So edits of the bodies of different functions are made
together, and each is refused where the prover says of its function that it isn't proved. What that doesn't tell is tried alone, as
`rt must-fail` tries it: an edit of something else than a body, one that the reader refuses, and one of which another function's proof
fails.
"""
import collections
import os
import re
import shutil

from mistakes import running
from mistakes.forms import CannotBeMade
from mistakes.functions import around, functions_in
from mistakes.verdicts import LET_THROUGH, REFUSED

# How many edits one call of `rt must-fail` tries, which tells nothing before its end: as many as a run that is killed may lose.
AT_A_TIME = 4


def changed_function(tree, edit):
    """The file and the function, by its type and name, whose body holds all that an edit changes; None if there is no such one."""
    found = set()
    for file, old, _ in edit.changes:
        text = tree.text(f'crates/{edit.crate}/{file}')
        function = around(functions_in(text), text.find(old)) if file.endswith('.rt') else None
        found.add((file, function.kind, function.name) if function and function.body <= text.find(old) else None)
    return found.pop() if len(found) == 1 else None


def rounds(tree, edits):
    """Groups of edits, each of at most one edit a function, with the functions."""
    groups, seen = collections.defaultdict(list), collections.Counter()
    for edit in edits:
        function = changed_function(tree, edit)
        if function:
            groups[seen[function]].append((edit, function))
            seen[function] += 1
    return groups.values()


def is_refused(crate, function, verdicts):
    """Whether the lines of a check say of the function, or of a closure in it, that a proof of its own fails, and not just that of one that
    it calls."""
    file, kind, name = function
    # A method stands where its type does, whatever file it is in.
    modules = [] if kind else [part for part in file[len('src/'):-len('.rt')].split('/') if part not in ('lib', 'main', 'mod')]
    path = f'(?:.*::)?{kind}[A-Za-z]*(?:<.*>)?::{name}' if kind else f'(?:.*::)?{name}'
    # What waits for the proof of a function that it calls has not failed by that.
    told = re.compile(rf'fn {"::".join([crate, *modules, path])}(?:(?:::|\+).*)?: (?:not proved|no proof: (?!it calls ).*)')
    failed = re.compile(rf'\./{"/".join(["proofs", *modules, path.replace("::", "/")])}/[^:]*\.antt:[0-9:]* error: .*')
    return any(told.fullmatch(verdict) or failed.fullmatch(verdict) for verdict in verdicts)


def write(folder, texts):
    for file, text in texts.items():
        with open(os.path.join(folder, file), 'w', encoding='utf-8', errors='surrogateescape', newline='') as source:
            source.write(text)


class Trial:
    """The trial of a crate's edits on a copy of the tree. tell(edit, verdict) is called with each verdict as it comes."""

    def __init__(self, tree, copy, crate, tell):
        self.tree, self.copy, self.crate, self.tell = tree, copy, crate, tell
        self.folder = os.path.join(copy, 'crates', crate)

    def text(self, file):
        return self.tree.text(f'crates/{self.crate}/{file}')

    def run(self, edits):
        """Tries edits, first those that can be made together."""
        refused = set()
        for group in rounds(self.tree, edits):
            refused.update(self.together(group))
        rest = [edit for edit in edits if edit.name not in refused]
        for start in range(0, len(rest), AT_A_TIME):
            self.alone(rest[start:start + AT_A_TIME])

    def together(self, group):
        """The names of those edits of a group that are refused."""
        texts, made = {}, []
        for edit, function in group:
            try:
                texts.update(edit.made(lambda file: texts.get(file) or self.text(file)))
                made.append((edit, function))
            except CannotBeMade:
                # tests/edits says so; alone, rt does.
                continue
        write(self.folder, texts)
        verdicts = running.told(['rt', 'check'], self.folder).split('\n')
        write(self.folder, {file: self.text(file) for file in texts})
        refused = [edit for edit, function in made if is_refused(self.crate, function, verdicts)]
        for edit in refused:
            self.tell(edit, REFUSED)
        return [edit.name for edit in refused]

    def alone(self, edits):
        """Tries edits by `rt must-fail`, and shows what it says of them."""
        folder = os.path.join(self.folder, 'must-fail')
        os.makedirs(folder)
        for edit in edits:
            write(folder, {f'{edit.name}.edit': edit.alone()})
        told = running.told(['rt', 'must-fail', self.crate], self.copy)
        shutil.rmtree(folder)
        print(told, end='', flush=True)
        for edit in edits:
            found = re.search(rf'\b{edit.name}(?:\.edit)?: (refused, as it must be|NOT REFUSED)', told)
            self.tell(edit, {'NOT REFUSED': LET_THROUGH}.get(found[1], REFUSED) if found else None)
