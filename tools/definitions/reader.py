"""Reads the files of definitions of a folder.

A file is read when a name of it is needed for the first time, and an equation when its definition is. So what no
action is written in, such as a type or a theorem, is never looked at.
"""

import re
from dataclasses import dataclass

import library
from expressions import Constructed, DefinitionError, Equations, Scope
from syntax import Parser

IMPORT = re.compile(r"(?:pub )?use Rattle\.mi_model\.specs\.(\w+)\.\{(.*)\}")
FIXITY = re.compile(r"infix([lr]?) (\d+) (.*)")
SIGNATURE = re.compile(r"(?:abbrev|unfoldable) (?:pub )?(\S+) : (.*)", re.DOTALL)
NO_EQUATION = {"pub", "use", "record", "data", "mutual", "abbrev", "unfoldable"}
CONSTRUCTORS = {"[]", "∷", "tt"}


@dataclass(frozen=True)
class Signature:
    """The type of a definition, as it is written, and the comment above it."""

    name: str
    type: str
    comment: str


class Definition:
    """What a name stands for, by the texts of its equations."""

    def __init__(self, name, module):
        self.name = name
        self.module = module
        self.texts = []

    def value(self):
        """The value, a function where the equations have patterns."""
        equations = [self.equation(text) for text in self.texts]
        patterns, body = equations[0]
        return Equations(self.name, self.module, equations) if patterns else body.value_in(Scope(self.module, {}))

    def equation(self, text):
        """The patterns and the expression of an equation."""
        try:
            return Parser(text, self.module.fixities).equation()
        except DefinitionError as error:
            raise DefinitionError(f"{self.module.name}.{self.name}: {error}") from None


class Module:
    """A file of definitions."""

    def __init__(self, name, text, modules):
        self.name = name
        self.modules = modules
        self.definitions = {}
        self.signatures = []
        self.imports = {}
        self.values = {}
        self.fixities = dict(library.FIXITIES)
        comment = []
        for paragraph in paragraphs_of(text):
            if paragraph.startswith("--"):
                comment.append(paragraph[2:].strip())
            else:
                self.add(paragraph, " ".join(comment))
                comment = []

    def add(self, paragraph, comment):
        """Takes up an import, a fixity, a signature or an equation; what else there is isn't needed."""
        if found := IMPORT.match(paragraph):
            self.add_imports(found[1], [operator_name(name) for name in found[2].split(", ")])
        elif found := FIXITY.match(paragraph):
            for operator in found[3].split():
                self.fixities[operator_name(operator)] = (int(found[2]), found[1] == "r")
        elif found := SIGNATURE.match(paragraph):
            self.signatures.append(Signature(operator_name(found[1]), found[2], comment))
        elif paragraph.split()[0] not in NO_EQUATION:
            name = operator_name(paragraph.split()[0])
            self.definitions.setdefault(name, Definition(name, self)).texts.append(paragraph)

    def add_imports(self, module_name, names):
        """Takes up names of another file, and how tight those that are operators bind."""
        for name in names:
            self.imports[name] = module_name
        if module_name in self.modules:
            fixities = self.modules.module(module_name).fixities
            self.fixities.update((name, fixities[name]) for name in names if name in fixities)

    def value_of(self, name):
        """What a name stands for in this file."""
        if name not in self.values:
            self.values[name] = self.found_value(name)
        return self.values[name]

    def found_value(self, name):
        if name in self.definitions:
            return self.definitions[name].value()
        origin = self.imports.get(name)
        if origin in self.modules and name in self.modules.module(origin).definitions:
            return self.modules.module(origin).value_of(name)
        if name in library.VALUES:
            return library.VALUES[name]
        if name[0].isupper() or name in CONSTRUCTORS:
            return Constructed(name)
        raise DefinitionError(f"{self.name} uses {name}, which isn't known")


class Modules:
    """The files of definitions in a folder."""

    def __init__(self, folder):
        self.paths = {path.stem: path for path in sorted(folder.glob("*.antt"))}
        self.loaded = {}

    def __contains__(self, name):
        return name in self.paths

    def __iter__(self):
        return (self.module(name) for name in self.paths)

    def module(self, name):
        """The file of this name, which is read the first time."""
        if name not in self.loaded:
            self.loaded[name] = Module(name, self.paths[name].read_text(encoding="utf-8"), self)
        return self.loaded[name]


def operator_name(name):
    """A name without the places that stand for an operator's arguments."""
    return name.strip("◌")


def paragraphs_of(text):
    """The lines of a text, each with the lines behind it that are indented; a blank line belongs to none."""
    paragraphs = []
    for line in text.split("\n"):
        if line[:1] in (" ", "}"):
            paragraphs[-1] += "\n" + line
        elif line.strip():
            paragraphs.append(line)
    return paragraphs
