# SPDX-License-Identifier: MIT OR Apache-2.0
"""What the tools read of specs/: of each file its imports and the text of each definition, and which of these a text names."""
import collections
import functools
import os
import re

from repository import TOP

TOKEN = re.compile(r"[^\s(){}\[\],;]+")
ITEM = re.compile(r"(?:(?:pub|abbrev|unfoldable|opaque|data|record) )*([^\s:(){}]+)")


def read(path):
    with open(os.path.join(TOP, path), encoding="utf-8") as file:
        return file.read()


def imported(text, word):
    """What `use` lines bring: of each name where it stands and what it is called there, and of each other name its module."""
    names, modules = {}, {}
    for path, group, alias in re.findall(rf"^\s*{word}(Rattle\.[\w.]+?)(?:\.\{{(.*)\}}| as (\S+?))?;?$", text, re.M):
        for each in filter(None, group.split(", ")):
            name, _, other = each.partition(" as ")
            names[other or name] = path, name
        if not group:
            modules[alias or path.rsplit(".", 1)[1]] = path
    return names, modules


def tokens_of(text):
    return set(TOKEN.findall(re.sub(r"--.*", "", text)))


def are_said(names, tokens):
    """Which of some names these tokens say; one with holes, as ◌≡◌, if they have all its parts."""
    return [name for name in names if all(part in tokens for part in name.split("◌") if part)]


def is_equation_of(name, line):
    """Whether a line is an equation of a name with holes: that begins with another word, as a ⊕ b = ..."""
    return bool(name) and "◌" in name and " : " not in line and bool(are_said([name], tokens_of(line)))


@functools.lru_cache(None)
def module(path):
    """Of a file of specs/ the imports, and of each definition its text; None for one that isn't of this repository."""
    crate, *inside = path.split(".")[1:]
    file = os.path.join("crates", crate, *inside) + ".antt"
    if not os.path.exists(os.path.join(TOP, file)):
        return None
    items, current = collections.OrderedDict(), None
    text = read(file)
    for line in text.splitlines():
        if line.startswith("--") or not line.strip():
            continue
        if not line.startswith((" ", "\t")):
            if re.match(r"(pub |unfoldable )*(use|mod) ", line):
                current = None
                continue
            item = ITEM.match(line)
            if item and not is_equation_of(current, line):
                current = item.group(1)
        if current:
            items.setdefault(current, []).append(line)
    names, modules = imported(text, r"(?:unfoldable )?(?:pub )?use ")
    for child in re.findall(r"^(?:unfoldable )?pub use (\w+)\.\*$", text, re.M):
        below = module(f"{path.rsplit('.', 1)[0] if path.endswith('.Lib') else path}.{child}")
        names.update({name: (f"{path}.{child}", name) for name in below[2]} if below else {})
    return names, modules, items, file


def named(text, names, modules):
    """The names of a text that stand elsewhere: where, and what each is called there."""
    tokens = tokens_of(text)
    for token in tokens:
        first, _, rest = token.partition(".")
        if first in modules and rest:
            yield modules[first], rest.split(".")[0]
        elif first in names:
            yield names[first]
    for name in are_said([it for it in names if "◌" in it], tokens):
        yield names[name]
