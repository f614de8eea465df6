"""How mistakes are written. Each is an edit: it has a name, and changes files of one crate, in each change one text for another.

In crates/NAME/must-fail/ each edit is a file of its own, as `rt` reads it. In crates/NAME/wrong-bodies/ they lie as the files that they
change: wrong-bodies/editor/addressing.edits has those of src/editor/addressing.rt, and wrong-bodies/specs/Buffer.edits those of
specs/Buffer.antt, each under a heading `## its_name`. In both there are pairs of lines

    old: TEXT
    new: TEXT

The old text stands just once in its file, and further pairs apply to what the earlier ones made. A line `file: src/other.rt` stands before
what is changed in another file; in must-fail/ also before the first pair. After `new:` there may be nothing.

In tests/wrong-rules/NAME.edits a text can be of several lines, since a rule stands in its definition and in its body, which are laid out:
they follow the line `old:` or `new:`, each after `| `. Elsewhere a text is one line, as `rt must-fail` wants it. Three lines more say of a
rule which function is its body, what is wrong with it, and a script on which the program with that rule raises a false alarm or tells other
bounds than the run's, after the start that it needs.
"""
import dataclasses
import os
import re
import typing

LINE = re.compile(r'(\w+):(?:[ \r](.*))?')
NAME = re.compile(r'\w+', re.ASCII)
NOTES = ('body', 'wrong', 'alarm')


class CannotBeMade(Exception):
    """Why an edit can't be made."""


class Change(typing.NamedTuple):
    """A change: the file in the crate, the text that goes out, and the one that comes in."""
    file: str
    old: str
    new: str


@dataclasses.dataclass
class Edit:
    """A wrong body: its crate, its name, where it stands, its changes in order, what else is said of it, and a line that it can't have."""
    crate: str
    name: str
    where: str
    changes: list = dataclasses.field(default_factory=list)
    notes: dict = dataclasses.field(default_factory=dict)
    stray: typing.Optional[str] = None

    def made(self, text_of):
        """The texts of the files that it changes, as it leaves them. text_of gives the text of a file of its crate as it finds it."""
        if self.stray is not None:
            raise CannotBeMade(f'stray: {self.stray}')
        if not self.changes:
            raise CannotBeMade('it changes nothing')
        texts = {}
        for file, old, new in self.changes:
            text = texts[file] if file in texts else text_of(file)
            if text is None:
                raise CannotBeMade(f'there is no file {file}')
            if text.count(old) != 1:
                raise CannotBeMade(f'an old text stands {text.count(old)} times in {file}')
            texts[file] = text.replace(old, new)
        return texts

    def alone(self):
        """The edit as must-fail/ has it."""
        text, now = '', None
        for file, old, new in self.changes:
            text += ('' if file == now else f'file: {file}\n') + f'old: {old}\nnew: {new}\n'
            now = file
        return text


def read_edit(edit, file, text, notes=()):
    """Reads an edit, which begins in this file, if in any. notes are the keys of what else is said of it; with them a text may have several
    lines, which are made one until they are read."""
    old = None
    for line in (re.sub(r'\n\| ?', '\r', text) if notes else text).split('\n'):
        key, said = entry.groups() if (entry := LINE.fullmatch(line)) else (None, None)
        if key == 'file' and said and old is None:
            file = said
        elif key == 'old' and said and old is None and file:
            old = said
        elif key == 'new' and old is not None:
            edit.changes.append(Change(file, *(part.replace('\r', '\n') for part in (old, said or ''))))
            old = None
        elif key in notes and said and not edit.changes:
            edit.notes[key] = said
        elif line and edit.stray is None:
            edit.stray = line
    if edit.stray is None and (old is not None or not NAME.fullmatch(edit.name) or set(edit.notes) != set(notes)):
        edit.stray = f'## {edit.name}' if old is None else f'old: {old}'
    return edit


def read_headed(crate, path, text, file, notes=()):
    """The edits of a text that has each under a heading."""
    head, *parts = re.split(r'^## ', text, flags=re.MULTILINE)
    edits = [Edit(crate, '', path, stray=f'text before the first heading: {head}')] if head else []
    for name, _, lines in (part.partition('\n') for part in parts):
        edits.append(read_edit(Edit(crate, name, f'{path}: {name}'), file, lines, notes))
    return edits


def edits_of(tree, crate, folders=('must-fail', 'wrong-bodies')):
    """The wrong bodies of a crate that stand in these folders."""
    edits = []
    for path in (path for folder in folders for path in tree.files(f'crates/{crate}/{folder}')):
        folder, stem, form = re.fullmatch(r'crates/\w+/([\w-]+)/(.+?)(\.\w+)?', path).groups()
        if (folder, form) == ('must-fail', '.edit'):
            edits.append(read_edit(Edit(crate, stem, path), None, tree.text(path)))
        elif (folder, form) == ('wrong-bodies', '.edits'):
            file = f'{stem}.antt' if stem.startswith('specs/') else f'src/{stem}.rt'
            edits += read_headed(crate, path, tree.text(path), file)
        else:
            edits.append(Edit(crate, '', path, stray='the file of a wrong body has another name'))
    return edits


def rules_of(tree):
    """All wrong rules; tests/wrong-rules/NAME.edits has those of the crate NAME."""
    files = (path for path in tree.files('tests/wrong-rules') if path.endswith('.edits'))
    return [rule for path in files for rule in read_headed(os.path.basename(path)[:-len('.edits')], path, tree.text(path), None, NOTES)]
