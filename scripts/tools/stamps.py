#!/usr/bin/env python3
"""Stamps that say that a crate's must-fail edits were tried (crates/NAME/must-fail/TRIED.md).

`scripts/tools/stamps.py NAME ..` writes those of crates whose edits a green run of `make test` tried, on this very
text, or one of `rt ci NAME ..` over a copy of the tree: whoever calls this has seen it.
"""
import hashlib
import os
import re
import subprocess
import sys

ROOT = os.path.dirname(os.path.dirname(os.path.dirname(os.path.realpath(__file__))))
TEXT = """Each edit of this folder was tried, and the prover refused it{where}:
{who} wrote this. CONTRIBUTING.md says what the two lines say, and what they don't.

tree: {tree}
rt: {kit}
"""


def kit():
    """The toolchain's line of `rt version`."""
    return subprocess.run(["rt", "version"], capture_output=True, text=True, check=True).stdout.strip()


def logic_of(kit_line):
    """What a line of `rt version` says of the logic in which proofs are checked, and not of the kit that it came
    with."""
    return kit_line.partition(" logic ")[2] or kit_line


def files_of(crate):
    """The files of a crate that its edits stand on, in order."""
    for part in ("src", "specs", "proofs", "must-fail"):
        for at, folders, files in os.walk(f"{crate}/{part}"):
            folders.sort()
            yield from (f"{at}/{it}" for it in sorted(files) if it.endswith((".rt", ".antt", ".edit")))


def tree_of(crate):
    """The hash of a crate's sources, definitions, proofs and edits, by their paths and bytes."""
    whole = hashlib.sha256()
    for file in files_of(crate):
        with open(file, "rb") as it:
            text = it.read()
        whole.update(f"{os.path.relpath(file, crate)} {len(text)}\n".encode() + text)
    return whole.hexdigest()


def edits_of(crate):
    """The files of a crate's edits, in order."""
    folder = f"{crate}/must-fail"
    names = sorted(os.listdir(folder)) if os.path.isdir(folder) else []
    return [f"{folder}/{it}" for it in names if it.endswith(".edit")]


def stamp_of(crate):
    """What a crate's stamp says: `tree`, of which text, `rt`, by which kit, and `on the tree`, if tried on another
    text."""
    try:
        with open(f"{crate}/must-fail/TRIED.md") as it:
            return dict(re.findall(r"(?m)^(tree|rt|on the tree):? (\w.*?),?$", it.read()))
    except OSError:
        return {}


def is_tried(crate, kit_line):
    """Whether the crate has a stamp that says of it as it stands, and of this toolchain's logic, that its edits were
    tried."""
    said = stamp_of(crate)
    return said.get("tree") == tree_of(crate) and logic_of(said.get("rt", "")) == logic_of(kit_line)


def write_stamp(crate, tree, kit_line, where="", who=None):
    """Writes that the edits of this text of the crate were refused by this toolchain, where, and who says it."""
    who = who or f"`make edits NAME={os.path.basename(crate)}`"
    with open(f"{crate}/must-fail/TRIED.md", "w") as it:
        it.write(TEXT.format(where=where, who=who, tree=tree, kit=kit_line))


if __name__ == "__main__":
    if len(sys.argv) < 2:
        sys.exit("stamps.py NAME ..")
    for name in sys.argv[1:]:
        crate = f"{ROOT}/crates/{name}"
        write_stamp(crate, tree_of(crate), kit(), " in a run of the gate", "`scripts/tools/stamps.py`")
