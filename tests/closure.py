"""What the definitions of specs/ rest on, by their names: each definition with all that it names, and what these name in turn.

A file is told by its crate and its name, as `cert_check/checker/Sound`; a definition by its file and its own name. A constructor counts as
its type. What is declared in code, and std, aren't definitions of specs/. A variable that has the name of a definition counts as that: so
what is found may be a little too much, and never too little.
"""
import re
from functools import lru_cache
from pathlib import Path

USE = re.compile(r'^(?:pub )?use Rattle\.([\w.]+?)(?:\.\{([^}]*)\})?(?: as (\w+))?$', re.M)
SPECS = re.compile(r'(\w+)\.specs\.(?!declared\b)((?:[a-z]\w*\.)*[A-Z]\w*)$')
HEAD = re.compile(r'(?:abbrev |unfoldable )?(?:pub )?(?:record |data )?([^\s({]+)')
CONSTRUCTOR = re.compile(r'^  ([^\s({:]+) :', re.M)
WORD = re.compile(r"[^\W\d][\w'-]*(?:\.[^\W\d][\w'-]*)*")


class Definitions:
    """The definitions of one file: the text of each by its name, the type of each constructor, and what other files' names mean here."""

    def __init__(self, text):
        text = re.sub(r'(^|\s)--.*$', '', text, flags=re.M)
        # What is defined together stands one step further in.
        text = re.sub(r'^abbrev mutual\n((?:  .*\n|\s*\n)+)', lambda block: re.sub(r'^  ', '', block[1], flags=re.M), text, flags=re.M)
        self.texts, self.types, self.named, self.aliases = {}, {}, {}, {}
        for place, names, alias in USE.findall(text):
            file = SPECS.match(place)
            if not file:
                continue
            file = f'{file[1]}/{file[2].replace(".", "/")}'
            if alias:
                self.aliases[alias] = file
            for name in filter(None, map(str.strip, names.split(','))):
                name, _, here = name.partition(' as ')
                self.named[here or name] = file, name
        for block in re.split(r'^(?=\S)', USE.sub('', text), flags=re.M):
            if name := HEAD.match(block):
                self.texts[name[1]] = self.texts.get(name[1], '') + block
                if re.match(r'(?:pub )?data ', block):
                    self.types.update(dict.fromkeys(CONSTRUCTOR.findall(block), name[1]))

    def names_in(self, text):
        """The names that a text has, each with the file in which it is to be looked for, or None for this one."""
        for word in WORD.findall(text):
            first, *fields = word.split('.')
            if first in self.aliases:
                yield self.aliases[first], fields[0] if fields else ''
            else:
                yield self.named.get(first, (None, first))
        for sign, named in self.named.items():
            if '◌' in sign and all(part in text for part in sign.split('◌')):
                yield named


@lru_cache(maxsize=None)
def definitions_of(file):
    path = Path('crates/' + file.replace('/', '/specs/', 1) + '.antt')
    return Definitions(path.read_text(encoding='utf-8') if path.exists() else '')


def definition(file, name):
    """The definition that a name means in a file, where it means one."""
    here = definitions_of(file)
    name = here.types.get(name, name)
    if name in here.texts:
        return file, name
    return definition(*here.named[name]) if name in here.named else None


def rests_on(roots, closed=()):
    """The definitions that some rest on, themselves among them. What is closed isn't looked into, and doesn't count."""
    on, open_ = set(), list(roots)
    while open_:
        one = open_.pop()
        if one in on or one in closed:
            continue
        on.add(one)
        file, name = one
        here = definitions_of(file)
        open_ += filter(None, (definition(where or file, word) for where, word in here.names_in(here.texts[name])))
    return on
