"""Reports and refusals of small texts over dumps, and the rules of AXI4 ports with their reports, by the built program.

`outside` imports it. The texts and what must be told of them, worked out by hand from IEEE 1800-2017, are the table of
`crates/answers_reports`. Rules of ports and what is wrong with a port file are those of `scripts/models/axi4_rules.py`,
which has a table and a reader of its own, and reports on ports those of `scripts/models/axi4_judge.py`, which judges
what the rules mean and reads none of them.
"""
import itertools
import os
import random
import sys

HERE = os.path.dirname(os.path.realpath(__file__))
sys.path += [f"{HERE}/../models", f"{HERE}/../random"]

import axi4_judge
import axi4_rules
import edge_ports
import least_axi4
from stored_parts import read_part

CRATE = f"{HERE}/../../crates/answers_reports"
WINDOWS = (1, 2, 3, 1000, 1024, 65536)
TEAMS = [f"--workers 1 --window {size}" for size in WINDOWS] + ["--workers 4 --window 2"]


def put(shell, name, text):
    with open(f"{shell.folder}/{name}", "wb") as file:
        file.write(text.encode())


def read_table():
    with open(f"{CRATE}/data/reports.txt", newline="") as file:
        return file.read()


def parts(table):
    """The dumps of the table, each with the titles and texts that are run over it."""
    for part in table.split("\n== dump")[1:]:
        head, *texts = part.split("\n== ")
        yield head.partition("\n")[2], [text.partition("\n")[::2] for text in texts]


def told():
    """What must be told of each text, by its place: the title, the report or the line of a fault, and the status."""
    for block in read_part(f"{CRATE}/stdout", "reports").removeprefix("== ").split("\n== "):
        title, _, rest = block.rstrip("\n").partition("\n")
        text, _, status = rest.rpartition("status ")
        yield title, text, int(status)


def try_told(shell, title, words, text, status):
    """A command tells the report, or ends with the fault's line, after which a line may explain it."""
    found, out, said = shell.run(words)
    front = text.encode() if status > 1 else b""
    wanted = (status, b"" if status > 1 else text.encode(), front)
    shell.tally.note(f"{title}: {words}", wanted, (found, out, said[:len(front)] if front else said))


def try_reports_told(shell):
    """Each text by `judge`, and by `check` through windows of each size and by a team."""
    wanted = told()
    for dump, texts in parts(read_table()):
        put(shell, "row.vcd", dump)
        for title, text in texts:
            name, report, status = next(wanted)
            shell.tally.note("a row's title", title, name)
            put(shell, "row.sva", text)
            try_told(shell, title, "judge --vcd row.vcd --sva row.sva", report, status)
            for team in TEAMS:
                try_told(shell, title, f"check --vcd row.vcd --sva row.sva {team}", report, status)
    shell.tally.note("rows that are left", [], list(wanted))


def tokens_of(text):
    """What stands between white space, comments left out."""
    return [token for line in text.splitlines() if not line.startswith("//") for token in line.split()]


def try_rules_of(shell, text):
    """The rules of a port file's ports, or its fault."""
    put(shell, "ports.row", text)
    status, out, said = shell.run("rules --axi ports.row")
    answer = axi4_rules.answer(text)
    if answer.startswith("X"):
        line = f"svamon: {answer}\n".encode()
        shell.tally.note(text, (2, b"", line), (status, out, said[:len(line)]))
        return
    wanted = [token for port in axi4_rules.read(text) for rule in axi4_rules.rules(port) for token in rule]
    shell.tally.note(text, (0, wanted, b""), (status, tokens_of(out.decode()), said))


def try_port_reports(shell):
    """Ports at the edges of a port file over random values: no fault, and the report of what their rules mean."""
    chance = random.Random(1)
    put(shell, "none.sva", "")
    for ports in edge_ports.cases():
        dump = edge_ports.dump(axi4_rules.port_of(ports.split("\n")[0], 1), chance, 8)
        put(shell, "ports.row", ports)
        put(shell, "row.vcd", dump)
        report = axi4_judge.report(dump, ports)
        status = int(any(line.startswith("fail ") for line in report.splitlines()))
        files = "--vcd row.vcd --sva none.sva --axi ports.row"
        try_told(shell, ports, f"judge {files}", report, status)
        try_told(shell, ports, f"check {files} --window 3", report, status)


def try_worked_ports(shell):
    """How many rules a port has, and least traces of some rules, worked out by hand from the table of rules."""
    for more, count in (("", 61), (" mode=single", 65), (" wait=0 mode=single watch=3,5", 64)):
        put(shell, "ports.row", f"port p clock=c reset=r prefix=a_ addr=32 data=64 id=4{more}\n")
        told = shell.run("rules --axi ports.row")[1].decode()
        shell.tally.note(f"rules{more}", count, tokens_of(told).count("assert"))
    ports = least_axi4.BASE + "\n"
    put(shell, "ports.row", ports)
    for rows, wanted, unwanted in least_axi4.worked():
        dump = least_axi4.dump_of(axi4_rules.port_of(least_axi4.BASE, 1), rows)
        put(shell, "row.vcd", dump)
        report = axi4_judge.report(dump, ports)
        lines = set(report.splitlines())
        shell.tally.note(f"{rows}: worked out", (set(wanted), set()), (lines & set(wanted), lines & set(unwanted)))
        status = int(any(line.startswith("fail ") for line in lines))
        for command in ("check", "judge"):
            try_told(shell, f"{rows}", f"{command} --vcd row.vcd --axi ports.row", report, status)


def try_report_rows(shell):
    try_worked_ports(shell)
    try_reports_told(shell)
    for text in itertools.chain(axi4_rules.edge_ports(), axi4_rules.worked_ports(), axi4_rules.fault_files()):
        try_rules_of(shell, text)
    try_port_reports(shell)
