# SPDX-License-Identifier: MIT OR Apache-2.0
"""What the tools share: where the repository and the toolchain are, and what crates.txt says."""
import functools
import os
import subprocess
from dataclasses import dataclass

TOP = os.path.dirname(os.path.dirname(os.path.realpath(__file__)))


@functools.lru_cache(None)
def kit():
    """The toolchain's folder."""
    page = subprocess.run(["rt", "doc"], capture_output=True, text=True, check=True).stdout.strip()
    return os.path.dirname(page)


def rattle():
    """The path of the compiler and prover."""
    return os.path.join(kit(), "bin", "rattle")


def keeps_proofs():
    """Whether `rt ci` leaves out what it proved before, but with --anew, and takes the names of crates. Not every kit's does."""
    return "--anew" in subprocess.run(["rt", "help"], stdout=subprocess.PIPE, stderr=subprocess.STDOUT, text=True).stdout


@dataclass(frozen=True)
class Crate:
    """A line of crates.txt."""

    name: str
    uses: tuple


def crates_in(text):
    """The crates of a text like crates.txt, by their names. # begins a comment."""
    found = {}
    for line in text.splitlines():
        head, colon, uses = line.partition("#")[0].partition(":")
        if colon:
            found[head.strip()] = Crate(head.strip(), tuple(uses.split()))
    return found


def crates(top=TOP):
    """The crates of crates.txt, by their names."""
    with open(os.path.join(top, "crates.txt"), encoding="utf-8") as file:
        return crates_in(file.read())


def libraries(top=TOP):
    """What each crate uses."""
    return {name: list(crate.uses) for name, crate in crates(top).items()}


def below(names, uses):
    """These crates and all of crates/ that they stand on, each behind those that it uses."""
    found = []

    def add(name):
        if name in uses and name not in found:
            for other in uses[name]:
                add(other)
            found.append(name)

    for name in names:
        add(name)
    return found


def crate_folder(crate, top=TOP):
    return os.path.join(top, "crates", crate)


def root_file(crate, top=TOP):
    """The file of a crate at which the compiler begins, in its folder."""
    program = os.path.join("src", "main.rt")
    return program if os.path.exists(os.path.join(crate_folder(crate, top), program)) else os.path.join("src", "lib.rt")


def sources(crate, top=TOP):
    """The paths of a crate's files, in their order."""
    for part in ("src", "specs", "proofs"):
        for at, folders, names in os.walk(os.path.join(crate_folder(crate, top), part)):
            folders.sort()
            yield from (os.path.join(at, name) for name in sorted(names))
