"""The parts of what a program `answers_` must print, each under its line `== NAME`: one is read, or written anew.

It is for `stdout` of crates whose program has several parts; a part's answers have no such line with a name below.
"""
import re

NAMES = ("texts", "types", "tokens", "values", "bytecode", "verifier", "machine", "cores", "dumps", "reports", "calls")
HEAD = re.compile(rf"^== ({'|'.join(NAMES)})\n", re.MULTILINE)


def parts_of(text):
    """Each part by its name."""
    before, *found = HEAD.split(text)
    assert before == "", before
    return dict(zip(found[::2], found[1::2], strict=True))


def read_part(path, name):
    with open(path, newline="", encoding="utf-8") as file:
        return parts_of(file.read())[name]


def write_part(path, name, text):
    """Writes a part anew, and leaves the others; the file need not be there."""
    try:
        with open(path, newline="", encoding="utf-8") as file:
            parts = parts_of(file.read())
    except FileNotFoundError:
        parts = {}
    parts[name] = text
    with open(path, "w", newline="", encoding="utf-8") as file:
        file.write("".join(f"== {it}\n{parts[it]}" for it in NAMES if it in parts))
