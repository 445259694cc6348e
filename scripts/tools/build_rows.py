"""`make quick`, `make verify-quick`, `make demo` and the archive of `make dist`, on a clean copy of the tree.

`outside` imports it. What it starts ends with this, and this ends with whoever started it. If a loop of arithmetic
takes longer than on an idle processor, `make quick` may take as many times as long.
"""
import os
import re
import shutil
import signal
import subprocess
import sys
import time

import dist

MINUTES, GIGABYTES, DEMO_GIGABYTES = 5, 4, 2
# A loop of so many turns, and its seconds of an idle processor.
TURNS, IDLE = 1_000_000, 0.05
LOOPS = 8
# A loop that ends with whoever holds the other end of its standard input.
LOOP = """
import select, sys
while not select.select([sys.stdin], [], [], 0)[0]:
    for _ in range(100000):
        pass
"""
TREE = r"(tree [0-9a-f]{40}( with changes, files [0-9a-f]{40})?|files [0-9a-f]{40})"
QUICK = re.compile(rf"svamon \d+\.\d+\.\d+\nquick: not proved here; {TREE}\n")
# What a program may ask of the machine.
LIBRARIES = ["ld-linux-x86-64.so.2", "libc.so.6"]


def on(processors):
    """Has a process, once it is started, run on so many processors alone."""
    return lambda: os.sched_setaffinity(0, sorted(os.sched_getaffinity(0))[:processors])


def waited(run, parent):
    """What a process used, once it has ended. If whoever started this has ended, it is ended, too."""
    while True:
        pid, status, used = os.wait4(run.pid, os.WNOHANG)
        if pid:
            run.returncode = os.waitstatus_to_exitcode(status)
            return used
        if os.getppid() != parent:
            sys.exit("outside: whoever started it has ended")
        time.sleep(0.1)


def run_make(copy, processors, *words):
    """Runs make in a copy of the tree; returns its status, what it wrote, how long it took and what it used."""
    parent, began = os.getppid(), time.monotonic()
    kept = {name: value for name, value in os.environ.items() if not name.startswith(("MAKE", "MFLAGS"))}
    with open(f"{copy}.said", "w+", errors="replace") as said:
        how = {"stdin": subprocess.DEVNULL, "stdout": said, "stderr": said, "env": kept}
        how |= {"start_new_session": True, "preexec_fn": on(processors)}
        run = subprocess.Popen(["make", "--no-print-directory", "-C", copy, *words], **how)
        try:
            used = waited(run, parent)
        finally:
            if run.returncode is None:
                os.killpg(run.pid, signal.SIGTERM)
                run.wait()
        said.seek(0)
        return run.returncode, said.read(), time.monotonic() - began, used


def slowness():
    """How many times as long as on an idle processor a loop of arithmetic takes here."""
    began, total = time.process_time(), 0
    for at in range(20 * TURNS):
        total += at
    return (time.process_time() - began) / (20 * IDLE)


def took(name, seconds, used):
    """Prints what a target took, and returns its minutes of a processor and the gigabytes of its largest process."""
    minutes, gigabytes = (used.ru_utime + used.ru_stime) / 60, used.ru_maxrss * 1024 / 1e9
    print(f"outside: make {name}: {seconds:.0f} seconds, {60 * minutes:.0f} of a processor, at most {gigabytes:.1f} GB",
          flush=True)
    return minutes, gigabytes


def try_quick(shell, copy):
    """It is built within its limits, says what it is, and says the same as the proved program."""
    before = slowness()
    status, said, seconds, used = run_make(copy, 2, "quick", f"PREFIX={copy}/made")
    slow = max(1, (before + slowness()) / 2)
    minutes, gigabytes = took("quick on two processors", seconds, used)
    print(f"outside: a loop of arithmetic takes {slow:.2f} times its time on an idle processor", flush=True)
    shell.tally.note("make quick", (0, ""), (status, "" if status == 0 else said))
    shell.tally.note("make quick: its minutes", True, minutes <= MINUTES * slow)
    shell.tally.note("make quick: its gigabytes", True, gigabytes <= GIGABYTES)
    program = f"{copy}/made/bin/svamon"
    said = subprocess.run([program, "--version"], capture_output=True, text=True).stdout if status == 0 else ""
    shell.tally.note("make quick: its build", True, bool(QUICK.fullmatch(said)))
    status, said, _, _ = run_make(copy, 2, "verify-quick", f"QUICK={program}", f"PROVED={shell.program}")
    shell.tally.note("make verify-quick", (0, ""), (status, "" if status == 0 else said))


def busy():
    """Loops on one processor, and the end of a pipe with which they end. They have a low priority: else they would hold
    up the gate for a quarter of an hour."""
    reads, writes = os.pipe()
    words = ["nice", sys.executable, "-c", LOOP]
    loops = [subprocess.Popen(words, stdin=reads, preexec_fn=on(1)) for _ in range(LOOPS)]
    os.close(reads)
    return loops, writes


def try_demo(shell, copy):
    """On a processor with busy loops the demo shows what it has to, and says how to go on."""
    loops, writes = busy()
    try:
        status, said, seconds, used = run_make(copy, 1, "demo")
    finally:
        os.close(writes)
        for loop in loops:
            loop.wait()
    _, gigabytes = took(f"demo beside {LOOPS} loops on one processor", seconds, used)
    with open(f"{copy}/crates/demo/stdout") as it:
        shell.tally.note("make demo", (0, True), (status, it.read() in said))
    shell.tally.note("make demo: its gigabytes", True, gigabytes <= DEMO_GIGABYTES)
    shell.tally.note("make demo: its last line", True, "make quick" in said.splitlines()[-1])


def asked_for(program):
    """The files of this machine with which a program is loaded."""
    ran = subprocess.run(["ldd", program], capture_output=True, text=True)
    return re.findall(r"(?m)^\t(?:\S+ => )?(/\S+) \(", ran.stdout)


def lay_out_root(shell, root, archive, libraries):
    """Makes a root that has an archive unpacked, a dump with a text, and the files with which a program is loaded."""
    os.makedirs(root)
    subprocess.run(["tar", "-xzf", archive, "-C", root], check=True)
    for name in ("d.vcd", "r.sva"):
        shutil.copy(f"{shell.folder}/{name}", root)
    for path in libraries:
        os.makedirs(os.path.dirname(f"{root}{path}"), exist_ok=True)
        shutil.copy(os.path.realpath(path), f"{root}{path}")


def run_in_root(root, *words):
    """Runs a program with another root; returns its status and what it wrote, or None where there is no leave."""
    enter = ["chroot"] if os.geteuid() == 0 else ["unshare", "--user", "--map-root-user", "chroot"]
    if not shutil.which(enter[0]):
        print(f"outside: no {enter[0]}: no other root is tried", flush=True)
        return None
    ran = subprocess.run([*enter, root, *words], stdin=subprocess.DEVNULL, capture_output=True)
    if ran.stderr.startswith((b"chroot: ", b"unshare: ")):
        print(f"outside: no other root is tried: {ran.stderr.decode().strip()}", flush=True)
        return None
    return ran.returncode, ran.stdout, ran.stderr


def try_archive(shell):
    """The archive of the built program runs with another root, and asks for the C library alone."""
    archive = dist.pack(shell.program, "gate: none\n", f"{shell.folder}/dist")
    name = os.path.basename(archive).removesuffix(".tar.gz")
    root = f"{shell.folder}/root"
    libraries = asked_for(shell.program)
    shell.tally.note("the archive: its libraries", LIBRARIES, sorted(map(os.path.basename, libraries)))
    lay_out_root(shell, root, archive, libraries)
    with open(f"{root}/{name}/BUILD") as it:
        begins = f"svamon {name.split('-')[1]}\nbuilt in place\n"
        shell.tally.note("the archive: its build", True, it.read().startswith(begins))
    found = run_in_root(root, f"/{name}/svamon", "check", "--vcd", "/d.vcd", "--sva", "/r.sva")
    if found:
        shell.tally.note("the archive: a report", (1, shell.report("fails_at_its_tick"), b""), found)
    words = [f"{os.path.dirname(dist.__file__)}/dist.py", shell.program, "/dev/null", f"{shell.folder}/dist"]
    ran = subprocess.run(words, capture_output=True, text=True)
    wanted = f"dist: {shell.program} is no proved build (built in place); make install makes one\n"
    shell.tally.note("make dist of another build", (1, "", wanted), (ran.returncode, ran.stdout, ran.stderr))


def try_builds(root, shell):
    """All of them."""
    signal.signal(signal.SIGTERM, lambda number, _: sys.exit(128 + number))
    copy = f"{shell.folder}/clean"
    left_out = shutil.ignore_patterns("out", ".git", "__pycache__")
    shutil.copytree(root, copy, symlinks=True, ignore=left_out)
    try_archive(shell)
    try_quick(shell, copy)
    try_demo(shell, copy)
