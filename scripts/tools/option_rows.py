"""The options of each command, by the built program: those of docs/COMMANDS.md are those that `svamon COMMAND --help`
prints, with the ranges and what counts if one is not given. `outside` imports it.
"""
import os
import re

PAGE = f"{os.path.dirname(os.path.realpath(__file__))}/../../docs/COMMANDS.md"


def sections():
    """The text of each section of the page, by its heading."""
    with open(PAGE, encoding="utf-8") as page:
        parts = re.split(r"(?m)^## (.*)\n", page.read())
    return dict(zip(parts[1::2], parts[2::2]))


def help_of(shell, words):
    """What is printed for help, which is status 2 on standard error."""
    status, out, said = shell.run(f"{words} --help".strip())
    shell.tally.note(f"help of {words or 'svamon'}", (2, b""), (status, out))
    return said.decode()


def options_of(text):
    """The options of a help text but `--help`, each with what is said of it."""
    parts = re.split(r"(?m)^ +(?:-\w, )?--([a-z-]+)", text.partition("Options:\n")[2])
    return {name: " ".join(said.split()) for name, said in zip(parts[1::2], parts[2::2]) if name != "help"}


def limits_of(said):
    """The range and the default of a help text, as the page says them."""
    bounds, default = re.search(r"from (\d+) to ([\d,]+)", said), re.search(r"\[default: (\w+)\]", said)
    return [*([f"from {bounds[1]} to {bounds[2].replace(',', '')}"] if bounds else []),
            *([f" {default[1]} if not given"] if default else [])]


def try_option_rows(shell):
    """Each command has a section, with its options and no others; a row of one option has its range and default."""
    pages, listed = sections(), help_of(shell, "").partition("\nOptions:")[0]
    commands = [it for it in re.findall(r"(?m)^  (\w+)  ", listed) if it != "help"]
    shell.tally.note("docs/COMMANDS.md: its sections", sorted(commands), sorted(pages))
    rows = dict(re.findall(r"(?m)^\| `--([a-z-]+) [^`]*` \| (.*) \|$", "".join(pages.values())))
    for command in commands:
        options = options_of(help_of(shell, command))
        found = set(re.findall(r"--([a-z][a-z-]*)", pages.get(command, "")))
        shell.tally.note(f"docs/COMMANDS.md: options of {command}", sorted(options), sorted(found))
        for name, said in options.items():
            missing = [it for it in limits_of(said) if name in rows and it not in rows[name]]
            shell.tally.note(f"docs/COMMANDS.md: limits of --{name} of {command}", [], missing)
