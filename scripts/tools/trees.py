"""The tree from which a program is built: the crates that it is made of, a copy of them, and which tree it is.

`install`, `quick`, `gate` and `dist.py` import it. What `svamon --version` says of a build is a constant in BUILD_FILE.
`install` and `quick` write it in their copies, and never in the work tree, where it says `built in place`.
"""
import hashlib
import os
import re
import shutil
import subprocess
import sys

import stamps

TOP = stamps.ROOT
PROGRAM = "svamon"
BUILD_FILE = f"crates/{PROGRAM}/src/build.rt"
# Which sources the programs are of that the gate left.
BUILT = f"{TOP}/out/built.txt"
DIGITS = 40


def crates_used():
    """The crates of the repository that each crate of it names, by crates.txt."""
    with open(f"{TOP}/crates.txt") as it:
        lines = re.findall(r"(?m)^(\w+)[^:\n]*:(.*)$", it.read())
    return {name: [dep for dep in deps.split() if os.path.isdir(f"{TOP}/crates/{dep}")] for name, deps in lines}


def program_of(root, name):
    """Where rt leaves a crate's program."""
    return f"{root}/crates/{name}/out/{name}"


def keep_programs(room, sources):
    """Leaves the programs that a copy of this tree has, each where rt would, and says of which sources they are."""
    if os.path.exists(BUILT):
        os.remove(BUILT)
    for name in crates_used():
        made, kept = program_of(room, name), program_of(TOP, name)
        if os.path.isfile(made):
            os.makedirs(os.path.dirname(kept), exist_ok=True)
            put(made, kept)
    with open(BUILT, "w") as it:
        it.write(f"{sources}\n")


def below(name, used):
    """A crate and those that it is made of, lowest first."""
    found = []
    for dep in used[name]:
        found += [it for it in below(dep, used) if it not in found]
    return [*found, name]


def lay_out(room, crates):
    """Makes a tree of these crates: what they are proved from, and what their programs are run on."""
    shutil.copy2(f"{TOP}/HANDLES", room)
    with open(f"{TOP}/crates.txt") as lines, open(f"{room}/crates.txt", "w") as kept:
        kept.writelines(line for line in lines if re.split(r"\W", line)[0] in crates)
    left_out = shutil.ignore_patterns("out", "must-fail")
    for name in crates:
        shutil.copytree(f"{TOP}/crates/{name}", f"{room}/crates/{name}", ignore=left_out)


def git(*words):
    """What git says of this tree, or None where it says nothing."""
    try:
        ran = subprocess.run(["git", "--no-optional-locks", "-C", TOP, *words], capture_output=True, text=True)
    except OSError:
        return None
    return ran.stdout.strip() if ran.returncode == 0 else None


def sum_of_files():
    """A hash of all crates, by what stamps hash of each."""
    whole = hashlib.sha256()
    for name in sorted(crates_used()):
        whole.update(f"{name} {stamps.tree_of(f'{TOP}/crates/{name}')}\n".encode())
    return whole.hexdigest()[:DIGITS]


def tree_said():
    """Which tree this is: git's hash of a clean checkout, else one of the crates' files, and whether that is because
    of changes."""
    is_checkout = git("rev-parse", "--show-prefix") == ""
    tree = git("rev-parse", "HEAD^{tree}") if is_checkout else None
    if tree and git("status", "--porcelain") == "":
        return f"tree {tree}"
    changed = f"tree {tree} with changes, " if tree else ""
    return f"{changed}files {sum_of_files()}"


def write_build(room, said):
    """Has the program of a copy of the tree say which build it is."""
    file = f"{room}/{BUILD_FILE}"
    with open(file) as it:
        text, count = re.subn(r'"[^"]*"', lambda _: f'"{said}\\n"', it.read())
    if count != 1:
        raise ValueError(f"{BUILD_FILE} has {count} constants")
    with open(file, "w") as it:
        it.write(text)


def stop_on_no_place(placed):
    """Stops if a program can't be put there, before the work and not after it."""
    folder = os.path.dirname(placed)
    try:
        os.makedirs(folder, exist_ok=True)
    except OSError as error:
        sys.exit(f"{folder}: {error.strerror}")
    if os.path.isdir(placed) or not os.access(folder, os.W_OK):
        sys.exit(f"{placed} can't be written")


def put(program, placed):
    """Puts a program where it is wanted, at once and whole."""
    made = f"{placed}.{os.getpid()}"
    shutil.copyfile(program, made)
    os.chmod(made, 0o755)
    os.replace(made, placed)
