"""Measures the commands on the documents: measure.py PROGRAM FOLDER RUNS [EXAMPLES]

Each command reads the file of a document as its standard input, with nothing between: what counts is
the processor time of that process alone, the user's and the system's. The commands take turns, so
that a noisy machine hits all alike, and the best run of each counts. A first round, which doesn't
count, brings the file into memory and compares the reports.

`cat` shows what reading alone takes. jq reads the document without the path lines before it, and
writes the values without their lengths.
"""
import filecmp
import json
import os
import resource
import shutil
import subprocess
import sys
from dataclasses import dataclass

import documents
import peers

OURS = "ours"
FAST = "fast"
# The calls of the library that look one path up, and the documents in which they do, near the start
# of `start` and near the end of the others.
CALLS = ["get", "get_unchecked"]
CALLED = ["records", "start", "strings", "200-deep", "brackets"]
# Bytes of memory that a command may take: jq would take all for many arrays, and ends with an error.
MOST_MEMORY = 4 * 10**9


@dataclass
class Command:
    name: str
    words: list
    # Where in the file it begins to read.
    start: int = 0
    # Whether it writes the reports that the program writes.
    reports: bool = True
    # Whether it takes so long that two runs have to do.
    slow: bool = False
    # What the runs came to.
    seconds: float = float("inf")
    peak: float = 0
    status: int = 0
    same: str = ""

    def run(self, path, out):
        """Runs once on a file."""
        source = os.open(path, os.O_RDONLY)
        os.lseek(source, self.start, os.SEEK_SET)
        none = os.open(os.devnull, os.O_WRONLY)
        streams = [(os.POSIX_SPAWN_DUP2, file, stream) for stream, file in enumerate((source, out, none))]
        process = os.posix_spawnp(self.words[0], self.words, os.environ, file_actions=streams)
        _, status, usage = os.wait4(process, 0)
        os.close(source)
        os.close(none)
        self.status = os.waitstatus_to_exitcode(status)
        return usage.ru_utime + usage.ru_stime, megabytes(usage)

    def count(self, path):
        """Runs once more, and keeps the least time and the highest peak."""
        out = os.open(os.devnull, os.O_WRONLY)
        seconds, peak = self.run(path, out)
        os.close(out)
        self.seconds = min(self.seconds, seconds)
        self.peak = max(self.peak, peak)

    def report(self, path, into):
        """Runs once, and keeps what it writes."""
        out = os.open(into, os.O_WRONLY | os.O_CREAT | os.O_TRUNC)
        self.run(path, out)
        os.close(out)


def megabytes(usage):
    """The peak of memory."""
    return usage.ru_maxrss * 1024 / 10**6


def head_of(path):
    """The paths of a document's file, and where the document begins."""
    paths = []
    with open(path, "rb") as lines:
        for line in iter(lines.readline, b"\n"):
            paths.append(json.loads(line))
        return paths, lines.tell()


def filter_of(paths):
    """The paths as jq says them."""
    return ",".join("." + "".join(f"[{json.dumps(step)}]" for step in path) for path in paths)


def commands_for(path, program, others):
    paths, start = head_of(path)
    yield Command("cat", ["cat"], reports=False)
    yield Command(OURS, [program])
    yield Command(FAST, [program, "fast"])
    for name, command in others.items():
        if name == "jq":
            yield Command(name, [command, "-c", filter_of(paths)], start, reports=False, slow=True)
        else:
            yield Command(name, [command])


def compare_reports(commands, path, folder):
    ours = os.path.join(folder, "ours.out")
    other = os.path.join(folder, "other.out")
    for command in commands:
        if command.name == OURS:
            command.report(path, ours)
        elif command.reports:
            command.report(path, other)
            command.same = "same" if filecmp.cmp(ours, other, shallow=False) else "differs"
            os.remove(other)
    os.remove(ours)


def ratio(ours, other):
    """Of the processor times, where both came to an answer."""
    return "-" if ours.status or other.status else f"{ours.seconds / other.seconds:.2f}"


def peak_of(command):
    """A process begins with the peak of the one that starts it, and less can't be seen."""
    least = megabytes(resource.getrusage(resource.RUSAGE_SELF)) + 1
    return f"{command.peak:.0f}" if command.peak > least else f"<{least:.0f}"


def measure(name, folder, program, others, runs):
    path = documents.path_of(folder, name)
    commands = list(commands_for(path, program, others))
    compare_reports(commands, path, folder)
    for turn in range(runs):
        for command in commands:
            if turn < 2 or not command.slow:
                command.count(path)

    size = os.path.getsize(path) / 10**6
    cat, ours = commands[:2]
    for it in commands:
        row = f"{name:9} {size:4.0f} {it.name:11} {it.seconds:7.3f} {it.seconds / cat.seconds:7.1f}"
        row += f" {peak_of(it):>8} {it.status:7} {it.same:>8}"
        print(row + ("" if it in (cat, ours) else f" {ratio(ours, it):>10}"), flush=True)


def count_writes(command, path):
    """How many calls write its report, where strace is there to count them."""
    if not shutil.which("strace"):
        return "-"
    with open(path, "rb") as source:
        traced = ["strace", "-qq", "-e", "trace=write", *command.words]
        run = subprocess.run(traced, stdin=source, stdout=subprocess.DEVNULL, stderr=subprocess.PIPE)
    return run.stderr.count(b"write(1, ")


def measure_word(word, name, folder, program, runs):
    """Another command than `get`, beside `cat`: `list` of a million items, or `fill` of a record."""
    path = documents.path_of(folder, name)
    cat, ours = Command("cat", ["cat"]), Command(word, [program, word])
    for _ in range(runs):
        cat.count(path)
        ours.count(path)
    size = os.path.getsize(path) / 10**6
    row = f"{name:9} {size:4.0f} {ours.name:11} {ours.seconds:7.3f} {ours.seconds / cat.seconds:7.1f}"
    print(row + f" {peak_of(ours):>8} {ours.status:7} {count_writes(ours, path):>8}", flush=True)


def lookups(path, examples, peers):
    """The look-ups of a document's first path: a name, where it begins to read, and the command for so
    many of them. Copying is no look-up, and shows what passing the bytes takes at least."""
    paths, start = head_of(path)
    words = [str(step) for step in paths[0]]
    for call in CALLS:
        yield call, start, lambda times, call=call: [examples, call, times, *words]
    for name, command in peers.items():
        yield name, 0 if name == "simdjson" else start, lambda times, command=command: [command, times]


def measure_calls(name, folder, examples, peers, runs):
    """One look-up, in a document that was read: what ten more of them take."""
    path = documents.path_of(folder, name)
    size = os.path.getsize(path) / 10**6
    pairs = [(call, [Command(call, words(times), start) for times in ("1", "11")]) for call, start, words in lookups(path, examples, peers)]
    for _ in range(runs):
        for _, pair in pairs:
            for command in pair:
                command.count(path)
    for call, (once, more) in pairs:
        seconds = (more.seconds - once.seconds) / 10
        print(f"{name:9} {size:4.0f} {call:13} {seconds:7.4f} {1000 * seconds / size:7.3f}", flush=True)


def main():
    program, folder, runs = sys.argv[1], sys.argv[2], int(sys.argv[3])
    examples = sys.argv[4] if len(sys.argv) > 4 else None
    others = peers.build(folder, peers.simdjson, peers.serde_json, peers.yyjson, peers.jq)
    resource.setrlimit(resource.RLIMIT_AS, (MOST_MEMORY, MOST_MEMORY))
    print(f"{'document':9} {'MB':>4} {'command':11} {'cpu s':>7} {'to cat':>7} {'peak MB':>8} {'status':>7} {'report':>8} {'ours to it':>10}")
    for name in documents.DOCUMENTS:
        measure(name, folder, program, others, runs)
    print(f"{'input':9} {'MB':>4} {'command':11} {'cpu s':>7} {'to cat':>7} {'peak MB':>8} {'status':>7} {'writes':>8}")
    for name in documents.LISTS:
        measure_word("list", name, folder, program, runs)
    for name in documents.FILLS:
        measure_word("fill", name, folder, program, runs)
    if examples:
        beside = peers.build(folder, peers.simdjson, peers.memcpy)
        print(f"{'document':9} {'MB':>4} {'call':13} {'cpu s':>7} {'ns/byte':>7}")
        for name in CALLED:
            measure_calls(name, folder, examples, beside, runs)


main()
