# SPDX-License-Identifier: MIT OR Apache-2.0
"""What decides whether a body meets its contract, as texts.

Of a function these are its text, the contracts and types of the code that this names, what these name in turn, and the
definitions of specs/ that all of them reach, in its crate and in those below. Words are taken for names wherever they stand,
so more is found than is meant. A value's type stands in what made it, so a method counts where its type was
reached and its name stands in the function, or it is of a trait, which an operator or a loop may call. Not among them are other bodies, which a proof of this one doesn't see, and
proofs/: what is false has no proof, whatever the lemmas are.

Of a file of worked proofs these are its text, those of the files of its kind that it stands on, and the definitions that they reach.
In which crate of tests they stand decides nothing.
"""
import collections
import functools
import os
import re
from dataclasses import dataclass

import specs
from repository import below, crate_folder, libraries

WORD = re.compile(r"[A-Za-z_]\w*")
WORKED = re.compile(r"^use Rattle\.(\w+_tests)\.proofs\.(\w+)", re.M)
FUNCTION = re.compile(r'( *)(?:pub(?:\([a-z ]+\))? )?(?:const )?(?:unsafe )?(?:extern "C" )?fn (\w+)')
TYPE = re.compile(r"(?:pub(?:\([a-z ]+\))? )?(?:unsafe )?(?:struct|enum|union|trait|type|const|static) (\w+)")


@dataclass(frozen=True)
class Item:
    """A function, a type, or what an impl says beside its functions. Owners are the types of whose impl it is, and its trait."""
    file: str
    name: str
    owners: frozenset
    statement: str
    whole: str
    ghosts: str  # the lines `ghost use` by which its clauses are read
    is_of_trait: bool = False


def without_comments(text):
    return "".join(line for line in text.splitlines(keepends=True) if not line.lstrip().startswith(("//", "#[inline")))


def parts(lines, indentation):
    """Cuts lines into items: each ends with a line at this indentation that ends with } or ;."""
    found, current = [], []
    for line in lines:
        current.append(line)
        is_outermost = len(line) - len(line.lstrip()) == indentation and line.strip()
        if is_outermost and line.rstrip().endswith(("}", ";")):
            found.append("".join(current))
            current = []
    return found + (["".join(current)] if "".join(current).strip() else [])


def statement_of(text, indentation):
    """A function without its body."""
    lines = text.splitlines(keepends=True)
    for place, line in enumerate(lines):
        if line.rstrip().endswith("{") and len(line) - len(line.lstrip()) == indentation:
            return "".join(lines[: place + 1])
    return text


def own_ghosts(lines):
    """The lines `ghost use` inside a trait or an impl."""
    return "".join(line for line in lines if line.startswith((" ", "\t")) and line.lstrip().startswith("ghost use "))


def read_part(file, part, ghosts):
    """The items of one that stands outermost in a file."""
    head = next((line for line in part.splitlines() if line.strip() and not line.startswith("#[")), "")
    function, named = FUNCTION.match(head), TYPE.match(head)
    if function:
        return [Item(file, function[2], frozenset(), statement_of(part, 0), part, ghosts)]
    if named:
        return [Item(file, named[1], frozenset(), part, part, ghosts + own_ghosts(part.splitlines(keepends=True)))]
    if not re.match(r"(unsafe )?impl\b", head):
        return []
    opening, *lines = part[part.index(head):].splitlines(keepends=True)
    while not opening.rstrip().endswith(("{", "{}")) and lines:
        opening += lines.pop(0)
    owners, rest, items = frozenset(WORD.findall(opening)), "", []
    ghosts += own_ghosts(lines)
    for inner in parts(lines[:-1], 4):
        method = next((FUNCTION.match(line) for line in inner.splitlines() if FUNCTION.match(line)), None)
        if method and len(method[1]) == 4:
            items.append(Item(file, method[2], owners, statement_of(inner, 4), inner, ghosts, " for " in opening))
        else:
            rest += inner
    return [*items, Item(file, "", owners, opening + rest, part, ghosts)]


@functools.lru_cache(None)
def items_of(crate):
    """The items of a crate's sources, and what its files call items of others, by that name."""
    found, called = [], collections.defaultdict(set)
    for folder, folders, names in os.walk(os.path.join(crate_folder(crate, specs.TOP), "src")):
        folders.sort()
        for name in sorted(it for it in names if it.endswith(".rt")):
            file = os.path.relpath(os.path.join(folder, name), specs.TOP)
            text = without_comments(specs.read(file))
            ghosts = "".join(re.findall(r"^ghost use .*\n", text, re.M))
            for part in parts(text.splitlines(keepends=True), 0):
                found += read_part(file, part, ghosts)
            for other, here in re.findall(r"\b(\w+) as (\w+)\b", re.sub(r"^ *ghost use .*$", "", text, flags=re.M)):
                called[here].add(other)
    return found, called


@functools.lru_cache(None)
def scope_of(crates):
    """The items of some crates and of those below them: those by name that stand alone, methods by type, what impls say by type."""
    alone, methods, said, called = (collections.defaultdict(list) for _ in range(4))
    for name in below(crates, libraries(specs.TOP)):
        items, others = items_of(name)
        for here, them in others.items():
            called[here] += them
        for item in items:
            if not item.owners:
                alone[item.name].append(item)
            for owner in item.owners:
                (methods if item.name else said)[owner].append(item)
    return alone, methods, said, called


@functools.lru_cache(None)
def defined(path, name):
    """Of a definition of specs/ its file and text and what that names; of what a module hands on where it stands."""
    here = specs.module(path)
    if not here:
        return None, ()
    if name in here[2]:
        text = "\n".join(here[2][name])
        names = {*specs.named(text, here[0], here[1]), *((path, other) for other in specs.are_said(here[2], specs.tokens_of(text)))}
        return (f"{here[3]} {name}", text), tuple(names)
    return None, (here[0][name],) if name in here[0] else ()


class Reach:
    """Collects what some text rests on."""

    def __init__(self, crates, calls):
        self.alone, self.methods, self.said, self.called = scope_of(tuple(crates))
        self.calls, self.texts = calls, {}
        self.words, self.definitions, self.waiting = set(), set(), []

    def add_item(self, item):
        place = f"{item.file} {' '.join(sorted(item.owners))} {item.name}"
        if (place, item.statement) not in self.texts:
            self.texts[place, item.statement] = item.statement
            self.add_text(item.statement, item.ghosts)
            self.waiting += item.owners

    def add_text(self, text, ghosts):
        self.waiting += WORD.findall(text)
        for target in ghost_names(text, ghosts):
            self.add_definition(*target)

    def add_definition(self, path, name):
        waiting = [(path, name)]
        while waiting:
            target = waiting.pop()
            if target in self.definitions:
                continue
            self.definitions.add(target)
            if ".specs.declared." in target[0]:
                self.waiting += [target[1], target[0].removesuffix(".TheVariants").rsplit(".", 1)[1]]
                continue
            found, names = defined(*target)
            if found:
                self.texts[found] = found[1]
            waiting += names

    def close(self):
        """Follows all words to what stands alone, to what impls of types say, and to the methods that are called."""
        while self.waiting:
            word = self.waiting.pop()
            if word in self.words:
                continue
            self.words.add(word)
            self.waiting += self.called.get(word, ())
            for item in [*self.alone.get(word, ()), *self.said.get(word, ())]:
                self.add_item(item)
            for item in self.methods.get(word, ()):
                if item.is_of_trait or item.name in self.calls:
                    self.add_item(item)
        return self.texts


@functools.lru_cache(None)
def ghost_names(text, ghosts):
    return tuple(specs.named(text, *specs.imported(ghosts, "ghost use ")))


def function_around(file, crate, place):
    """The function in which a place of a file lies, or None: of the file without comments, by the text that stands there."""
    return next((item for item in items_of(crate)[0] if item.file == file and item.name and place in item.whole and FUNCTION.search(item.whole)), None)


def of_function(crate, item, more=""):
    """The texts on which a function rests, with what is to be put into its body."""
    reach = Reach([crate], set(WORD.findall(item.whole + more)))
    reach.texts[item.file, item.whole] = item.whole
    reach.add_text(item.whole + more, item.ghosts)
    reach.waiting += item.owners
    return reach.close()


def worked_files(path):
    """A file of worked proofs and those that it stands on, their texts by their paths."""
    texts, waiting = {}, [path]
    while waiting:
        path = waiting.pop()
        if path not in texts:
            texts[path] = specs.read(path)
            waiting += [f"crates/{crate}/proofs/{name}.antt" for crate, name in WORKED.findall(texts[path])]
    return texts


def of_worked_file(path):
    """The texts on which the worked proofs of a file of a crate of tests rest."""
    files = worked_files(path)
    named = {crate for text in files.values() for crate in re.findall(r"\bRattle\.(\w+)\.", text) if not crate.endswith("_tests")}
    reach = Reach(sorted(named & set(libraries(specs.TOP))), set())
    for at, text in files.items():
        reach.texts[at, text] = text
        for target in specs.named(text, *specs.imported(text, "use ")):
            reach.add_definition(*target)
    return {(in_any_crate(at), in_any_crate(text)): in_any_crate(text) for (at, _), text in reach.close().items()}


def in_any_crate(text):
    """A text that doesn't say which crate of tests it means."""
    return re.sub(r"\b(crates/|Rattle\.)\w+_tests(?=[/.])", r"\1tests", text)


def of_crate(crate):
    """The texts on which all of a crate rests: its sources and definitions, and what these name below it."""
    items, _ = items_of(crate)
    reach = Reach([crate], {word for item in items for word in WORD.findall(item.whole)})
    for item in items:
        reach.texts[item.file, item.whole] = item.whole
        reach.add_text(item.whole, item.ghosts)
    return reach.close()
