"""Runs a command and samples the provers below it: see bench/gate."""

import os
import resource
import subprocess
import sys
import time
from dataclasses import dataclass, field

INTERVAL = 0.5
TICK = os.sysconf("SC_CLK_TCK")
PAGE = os.sysconf("SC_PAGE_SIZE")


@dataclass
class Process:
    parent: int
    seconds: float
    memory: int


@dataclass
class Task:
    begin: float
    end: float = 0.0
    peak: int = 0
    # by process and the time it began at, as a number may come again
    seconds: dict = field(default_factory=dict)

    def worked(self):
        return sum(self.seconds.values())


def processes():
    """All processes by number, with when each began."""
    found = {}
    for name in os.listdir("/proc"):
        if not name.isdigit():
            continue
        try:
            with open(f"/proc/{name}/stat", encoding="utf-8", errors="replace") as it:
                words = it.read().rpartition(")")[2].split()
        except OSError:
            continue
        seconds = (int(words[11]) + int(words[12])) / TICK
        found[int(name)] = words[19], Process(int(words[1]), seconds, int(words[21]) * PAGE)
    return found


def task_of(number):
    """The crate and the kind of task of a prover, by its words and its folder."""
    try:
        with open(f"/proc/{number}/cmdline", encoding="utf-8", errors="replace") as it:
            words = it.read().split("\0")
        folder = os.readlink(f"/proc/{number}/cwd")
    except OSError:
        return None
    if "--crate-name" not in words or not words[0].endswith("rattle"):
        return None
    crate = words[words.index("--crate-name") + 1]
    kind = "edits" if "/rt-edit-" in folder else "tests" if "--test" in words else "proof"
    return crate, kind


def sample(top, known, tasks, now):
    """Adds what the provers below the process `top` have done by now, and returns the memory that they hold."""
    table = processes()

    def owner(number):
        key = number, table[number][0]
        if known.get(key) is None:
            parent = table[number][1].parent
            above = owner(parent) if number != top and parent in table else None
            known[key] = task_of(number) or above
        return known[key]

    def is_below(number):
        while number in table and number != top:
            number = table[number][1].parent
        return number == top

    held = {}
    for number, (began, process) in table.items():
        if not is_below(number) or not owner(number):
            continue
        task = tasks.setdefault(owner(number), Task(now))
        task.end = now
        task.seconds[number, began] = process.seconds
        held[owner(number)] = held.get(owner(number), 0) + process.memory
    for key, memory in held.items():
        tasks[key].peak = max(tasks[key].peak, memory)
    return sum(held.values())


def below():
    """What each crate of crates.txt rests on."""
    with open("crates.txt", encoding="utf-8") as it:
        lines = [line.split("#")[0].partition(":") for line in it]
    return {name.split()[0]: rest.split() for name, _, rest in lines if name.strip()}


def chain(tasks):
    """The tasks that waited for one another and ended last, first to last."""
    rests = below()
    key, found = max(tasks, key=lambda it: tasks[it].end), []
    while key:
        found.append(key)
        crate, kind = key
        waited = [(crate, "proof"), (crate, "tests")] if kind == "edits" else [(it, "proof") for it in rests.get(crate, [])]
        key = max((it for it in waited if it in tasks), key=lambda it: tasks[it].end, default=None)
    return found[::-1]


def show(tasks, most, wall, out):
    def row(*cells):
        print("| " + " | ".join(str(it) for it in cells) + " |", file=out)

    def clock(seconds):
        return f"{int(seconds) // 60}:{int(seconds) % 60:02}"

    row("Crate", "Task", "Processor seconds", "Peak, MB", "Begin", "End")
    row("---", "---", "---:", "---:", "---:", "---:")
    for (crate, kind), task in sorted(tasks.items(), key=lambda it: it[1].begin):
        row(crate, kind, f"{task.worked():.0f}", task.peak // 1_000_000, clock(task.begin), clock(task.end))
    print(file=out)
    row("Task", "Processor seconds")
    row("---", "---:")
    for kind in ("proof", "tests", "edits"):
        row(kind, f"{sum(task.worked() for (_, it), task in tasks.items() if it == kind):.0f}")
    used = resource.getrusage(resource.RUSAGE_CHILDREN)
    row("all, and what is beside the prover", f"{used.ru_utime + used.ru_stime:.0f}")
    print(file=out)
    print(f"{clock(wall)} minutes on {os.cpu_count()} processors; at most {most // 1_000_000} MB at one time.", file=out)
    steps = [f"{crate} {kind} {clock(tasks[crate, kind].end - tasks[crate, kind].begin)}" for crate, kind in chain(tasks)]
    print("Longest chain: " + ", ".join(steps) + ".", file=out)


def main(command):
    began = time.monotonic()
    started = subprocess.Popen(command, stdin=subprocess.DEVNULL)
    known, tasks, most = {}, {}, 0
    while started.poll() is None:
        most = max(most, sample(started.pid, known, tasks, time.monotonic() - began))
        time.sleep(INTERVAL)
    wall = time.monotonic() - began
    if tasks:
        file = os.environ.get("TABLE")
        if file:
            with open(file, "w", encoding="utf-8") as out:
                show(tasks, most, wall, out)
        else:
            show(tasks, most, wall, sys.stderr)
    return started.returncode


if __name__ == "__main__":
    sys.exit(main(sys.argv[1:]))
