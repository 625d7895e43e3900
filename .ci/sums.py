"""Sums over what a crate is made from: its text, and that of all below it. Where a sum is what it was, so is what was
proved of the crate, and what was refused of its wrong bodies."""
import hashlib
import os
import re

from toolchain import CRATES, KIT, ROOT, logic

# What only tests doesn't go into a sum: no library and no program is made from it.
MOD_TESTS = re.compile(r"^#\[cfg\(test\)\]\nmod tests;\n", re.M)


def texts_of(folder):
    """The files that a crate is made from, with their paths in its folder."""
    for part in ("src", "specs", "proofs"):
        for at, folders, names in os.walk(f"{folder}/{part}"):
            folders.sort()
            inside = os.path.relpath(at, folder)
            if inside == "src/tests" or inside.startswith("src/tests/"):
                continue
            for name in sorted(names):
                if inside == "src" and name == "tests.rt":
                    continue
                with open(f"{at}/{name}", "rb") as file:
                    text = file.read()
                if inside == "src" and name in ("lib.rt", "main.rt"):
                    text = MOD_TESTS.sub("", text.decode()).encode()
                yield f"{inside}/{name}", text


def sums(first, root=ROOT):
    """A sum for each crate of the repository that stands in a folder, begun with some bytes."""
    done = {}

    def sum_of(name):
        if name not in done:
            found = hashlib.sha256(first)
            for file in texts_of(f"{root}/crates/{name}"):
                found.update(repr(file).encode())
            for below in CRATES[name]:
                found.update(f"{below} {sum_of(below) if below in CRATES else ''}\n".encode())
            done[name] = found.hexdigest()
        return done[name]

    return {name: sum_of(name) for name in CRATES}


def library_sums(root=ROOT):
    """The sums of libraries and programs, which are of one kit: another one of the same logic may write other bytes."""
    return sums((KIT / "WHAT").read_bytes(), root)


def edit_sums(folder):
    """The sums of the wrong bodies that stand in that folder of a crate, which are of one logic, whichever the kit."""
    found = {}
    for name, sum in sums(logic().encode()).items():
        edits = sorted((ROOT / "crates" / name / folder).glob("*.edit"))
        if edits:
            found[name] = hashlib.sha256(repr([sum, *((it.name, it.read_bytes()) for it in edits)]).encode()).hexdigest()
    return found
