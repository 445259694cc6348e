#!/usr/bin/env python3
"""make dist: an archive of a proved build of this very tree: scripts/tools/dist.py PROGRAM GATE FOLDER

PROGRAM is what `make install` built, and GATE a file with the last lines of a green `make test`, which leaves them in
out/gate.txt. Both must say that they are of this tree. FOLDER gets svamon-VERSION-x86_64-linux.tar.gz, with the
program, the documents of its use, the licence and which build it is, and a Containerfile that only unpacks it.
"""
import gzip
import io
import os
import re
import subprocess
import sys
import tarfile

import trees

DOCUMENTS = ("USING", "COMMANDS", "REFUSALS", "PROFILE", "AXI4", "IMPORT", "REGRESSION")
BUILD = """svamon {version}
{build}
It asks the machine for the C library glibc {library} or later, and for nothing else.

The last lines of the gate:
{gate}"""
CONTAINERFILE = """# svamon over the C library that it asks for, glibc {library} or later:
#     podman build -t svamon .
#     podman run --rm -v "$PWD:/work" svamon check --vcd dump.vcd --sva rules.sva
FROM docker.io/library/debian:12-slim
ADD {name}.tar.gz /usr/local/
WORKDIR /work
ENTRYPOINT ["/usr/local/{name}/svamon"]
"""


def stop(why):
    sys.exit(f"dist: {why}")


def read(path):
    with open(path, "rb") as it:
        return it.read()


def version_of(program):
    """The version of a program, and which build it says that it is."""
    try:
        ran = subprocess.run([program, "--version"], stdin=subprocess.DEVNULL, capture_output=True, text=True)
    except OSError as error:
        stop(f"{program}: {error.strerror}; make install makes it")
    version, _, build = ran.stdout.strip().partition("\n")
    return version.removeprefix("svamon "), build


def library_of(program):
    """The least version of the C library that has all that a program asks for."""
    found = re.findall(rb"GLIBC_(\d+)\.(\d+)", read(program))
    return ".".join(map(str, max((int(it), int(part)) for it, part in found)))


def gate_of(path):
    """The last lines of the gate."""
    try:
        return read(path).decode()
    except OSError as error:
        stop(f"{path}: {error.strerror}; a green make test leaves it")


def stop_on_others(program, build, gate):
    """Stops unless the program is proved, and the gate was green, both on this tree."""
    tree = trees.tree_said()
    if not build.startswith("proved: "):
        stop(f"{program} is no proved build ({build}); make install makes one")
    if not build.startswith(f"proved: {tree}, "):
        stop(f"{program} is of another tree ({build}) than this one ({tree}); make install builds it")
    if f"gate: {tree}\n" not in gate or not gate.endswith(", 0 failed\n"):
        stop(f"the gate's lines are not those of a green run on this tree ({tree}); make test makes them")


def files_of(program):
    """The files of the archive, each by its name there and where it lies."""
    yield "svamon", program
    yield "LICENSE", f"{trees.TOP}/LICENSE"
    for name in DOCUMENTS:
        if os.path.exists(f"{trees.TOP}/docs/{name}.md"):
            yield f"docs/{name}.md", f"{trees.TOP}/docs/{name}.md"
    folder = "scripts/regression"
    for name in sorted(os.listdir(f"{trees.TOP}/{folder}")):
        if os.path.isfile(f"{trees.TOP}/{folder}/{name}"):
            yield f"{folder}/{name}", f"{trees.TOP}/{folder}/{name}"


def add(archive, name, data, is_program=False):
    """Adds a file, with nothing of who made it and when."""
    entry = tarfile.TarInfo(name)
    entry.size, entry.mode = len(data), 0o755 if is_program else 0o644
    archive.addfile(entry, io.BytesIO(data))


def pack(program, gate, folder):
    """Makes the archive and the Containerfile, and returns where the archive is."""
    version, build = version_of(program)
    name, library = f"svamon-{version}-x86_64-linux", library_of(program)
    os.makedirs(folder, exist_ok=True)
    with open(f"{folder}/{name}.tar.gz", "wb") as raw, gzip.GzipFile("", "wb", 9, raw, 0) as packed:
        with tarfile.open(fileobj=packed, mode="w") as archive:
            for file, path in files_of(program):
                add(archive, f"{name}/{file}", read(path), os.access(path, os.X_OK))
            said = BUILD.format(version=version, build=build, library=library, gate=gate)
            add(archive, f"{name}/BUILD", said.encode())
    with open(f"{folder}/Containerfile", "w") as it:
        it.write(CONTAINERFILE.format(name=name, library=library))
    return f"{folder}/{name}.tar.gz"


def main(program, gate, folder):
    lines = gate_of(gate)
    stop_on_others(program, version_of(program)[1], lines)
    print(f"dist: {pack(program, lines, folder)} is there, and a Containerfile beside it")


if __name__ == "__main__":
    if len(sys.argv) != 4:
        sys.exit("dist.py PROGRAM GATE FOLDER")
    main(*sys.argv[1:])
