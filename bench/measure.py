"""Runs the built program over a script."""
import os
import shutil
import subprocess
import sys
import tempfile
from typing import NamedTuple

TOP = os.path.dirname(os.path.dirname(os.path.abspath(__file__)))
BUILT = os.path.join(TOP, "crates", "fedcm", "out", "fedcm")
# Another one is named to try the scripts with.
PROGRAM = os.path.abspath(os.environ.get("FEDCM_PROGRAM", BUILT))
# Counting takes some fifty times as long as running: what is longer is not counted, in bytes.
COUNTED = 12_000_000
# A `rep stosb` would be counted byte by byte, which no processor does.
TUNABLES = "glibc.cpu.x86_rep_stosb_threshold=1000000000:glibc.cpu.x86_rep_movsb_threshold=1000000000"
# GNU time tells the peak of the program alone; what the system tells of a child begins with the memory of the process that started it.
TIME = ["/usr/bin/time", "-f", "%M"]
COUNT = ["valgrind", "--tool=cachegrind", "--cache-sim=no", "--cachegrind-out-file=/dev/null"]


def need_program():
    if not os.access(PROGRAM, os.X_OK):
        sys.exit("build the program first: ./fedcm build")


def transcript(path):
    """The transcript of the script at this path."""
    need_program()
    with open(path, "rb") as script:
        return subprocess.run([PROGRAM, "run"], stdin=script, stdout=subprocess.PIPE, check=True).stdout.decode()


def instructions(path, *words, most=COUNTED):
    """The instructions that the program with these words, `run` without any, takes over the input at this path, as valgrind counts them:
    they do not hang on what else the machine does. `nan` where there is no valgrind or the input has more than so many bytes."""
    need_program()
    if os.path.getsize(path) > most or not shutil.which("valgrind"):
        return float("nan")
    with open(path, "rb") as script:
        told = subprocess.run(
            [*COUNT, PROGRAM, *(words or ["run"])],
            stdin=script,
            stdout=subprocess.DEVNULL,
            stderr=subprocess.PIPE,
            env=dict(os.environ, GLIBC_TUNABLES=TUNABLES),
            check=True,
        ).stderr.decode()
    [count] = [line.split()[-1] for line in told.splitlines() if "refs:" in line]
    return int(count.replace(",", ""))


class Run(NamedTuple):
    """What a run took: seconds of a processor, and the peak of memory in MB."""

    seconds: float
    peak: float


def started(words, source):
    """The program with these words over this standard input."""
    need_program()
    command = [*TIME, PROGRAM, *words] if os.access(TIME[0], os.X_OK) else [PROGRAM, *words]
    return subprocess.Popen(command, stdin=source, stdout=subprocess.DEVNULL, stderr=subprocess.PIPE)


def waited(child):
    """What the program took, once it has ended well."""
    told = child.stderr.read().split()
    _, status, usage = os.wait4(child.pid, 0)
    if status != 0:
        sys.exit(f"status {os.waitstatus_to_exitcode(status)}")
    return Run(usage.ru_utime + usage.ru_stime, (int(told[-1]) if told else usage.ru_maxrss) / 1024)


def run(path, *words):
    """What the program with these words, `run` without any, takes over the input at this path."""
    with open(path, "rb") as script:
        return waited(started(words or ["run"], script))


def piped(lines):
    """What the program takes where these lines come one after the other through a pipe, which are nowhere kept."""
    child = started(["run"], subprocess.PIPE)
    for line in lines:
        child.stdin.write(line.encode())
    child.stdin.close()
    return waited(child)


class Measured(NamedTuple):
    """What a run over a script took: the script's events and MB, seconds of a processor, the peak of memory in MB, and instructions."""

    events: int
    megabytes: float
    seconds: float
    peak: float
    instructions: float


def write(path, header, events):
    """Writes the script of this header and these lines of events, which may come one after another, and tells how many there are."""
    count = 0
    with open(path, "w", encoding="utf-8") as script:
        script.write(header)
        for event in events:
            script.write(event)
            count += 1
    return count


def measured(header, events):
    """The run over the script of this header and these lines of events."""
    with tempfile.TemporaryDirectory() as folder:
        path = os.path.join(folder, "script.jsonl")
        count = write(path, header, events)
        return Measured(count, os.path.getsize(path) / 1e6, *run(path), instructions(path))


def each(instructions, count):
    """Instructions for one of so many, for a table."""
    return "" if instructions != instructions else f"{instructions / count:,.0f}"
