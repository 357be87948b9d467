"""Refuses the Nth allocation of commands and calls: refuse.py REPOSITORY PROGRAM FOLDER commands|calls..

Each case is a file in FOLDER, and its words are in another one. The commands are those of PROGRAM, over
an allocator that refuses (refuse.c). The calls are made by a program that `rt try --cases` builds once
for each N, and runs on each case. A command has to end as it does with all its memory, or with the
status 7 and nothing written; a call with memory lacking, and its object as it was or as its contract
says, or as it does with all its memory.
"""
import os
import re
import shutil
import subprocess
import sys
from concurrent.futures import ThreadPoolExecutor
from dataclasses import dataclass, field

# The words of a command and its input.
COMMANDS = {
    "get": (["get"], '["u"]\n["unknown_key"]\n["a","b\\u0063"]\n\n{"u": 123, "a": {"bc": [null, {"k":"found"}]}}'),
    "get, last key": (["get", "--keys", "last"], '["u"]\n["a","b\\u0063"]\n\n{"u": 123, "a": 1, "a": {"bc": [null, {"k":"found"}]}}'),
    "get, one line": (["get"], '["a"]\n\n{"a": tru}'),
    "list": (["list"], '{"a\\n": 1, "b": {"c":[]}}'),
    "list, cut": (["list"], "[1, [2]"),
    "edit": (["edit"], '["set",["a",1],true]\n["pair",["b"],"z",[1]]\n\n{"a" : [1, 2] , "b":{ "c" : 0 }}'),
    "edit, refused": (["edit"], '["take",["b"]]\n\n{"a":1}'),
    "fill": (["fill"], '{"obj":{"a":2},"l":[]}\n{"obj":{"a":[1], "b":1},"l":"x\\ny"}'),
    "fast": (["fast"], '["a"]\n["b"]\n\n{"a" : [ 1 ]} '),
    "index": (["index"], '{"a\\n": [1, {"b":"x"}], "c": {}}'),
    "index, cut": (["index"], "[[1], {"),
    "lines": (["lines"], '["a"]\n["b",0]\n\n{"a":1,"b":[[2]]}\n\n{"a":tru}\n{"a":"\\u00e9"}\n'),
    "patch": (
        ["patch"],
        '[{"op":"add","path":"/a/0","value":{"b":[1]}},{"op":"move","from":"/a/1","path":"/c"},'
        '{"op":"test","path":"/a/0","value":{"b": [1]}}]\n{"a":[ 7 ]}',
    ),
    "min": (["min"], '{ "a" : [1, 2 ] }'),
    "indent": (["indent", "2"], '{ "a" : [1, {} ] }'),
    "patch, refused": (["patch"], '[{"op":"remove","path":"/b"}]\n{"a": 1}'),
    "gen": (["gen", "2"], ""),
    "usage": (["got"], ""),
}
# The calls of refused_calls.txt, by the words that ask for them.
CALLS = """
FastStr::new FastStr::clone FastStr::slice RawNumber::from_str validate get get_many get_many_with
find_many find_many_by fill_room append_rows Rows::feed Rows::finish
LazyValue::as_str LazyValue::as_raw_faststr ObjectJsonIter::next ArrayJsonIter::next skip_one
Descent::value JsonIndex::build minify indent OwnedLazyValue::from_str OwnedLazyValue::from_lazy
OwnedLazyValue::clone OwnedLazyValue::to_string OwnedLazyValue::fmt LazyArray::fmt LazyObject::fmt load get_mut pointer_mut as_object_mut with_mut edit
LazyArray::with_capacity push LazyObject::with_capacity append_pair add_path Value::from_str Value::clone Value::to_string Value::fmt
get_by_schema parse_by_schema path_of_line read_paths edit_of_line read_edits edit_all
read_patch same apply
read_all MemorySink::new
""".split()
# A number that no run comes to: nothing is refused.
NONE = 10**9
# So many numbers in a row that change nothing of a case are past its last allocation.
QUIET = 3
NO_MEMORY = 7
# So many numbers are tried side by side, each over crates of its own.
LANES = max(1, (os.cpu_count() or 1) - 1)
# What the library's crates are needed for.
LIBRARIES = "error text input io parser pointer paths find lazy lines owned edits value index min patch"


@dataclass
class Case:
    words: list
    text: str = ""
    # The status and the output with all memory, and then with each number refused.
    whole: tuple = None
    runs: list = field(default_factory=list)

    def is_done(self):
        """Whether the last numbers changed nothing."""
        return len(self.runs) >= QUIET and all(it == self.whole for it in self.runs[-QUIET:])

    def refused(self):
        """The runs in which something was refused."""
        changed = [n for n, run in enumerate(self.runs) if run != self.whole]
        return self.runs[: changed[-1] + 1] if changed else []


def copy(repository, folder):
    """The crates, and beside them a program that makes one call."""
    crates = [line for line in open(f"{repository}/crates.txt") if not re.match("sonic_(c|examples) ", line)]
    for name in (line.split(":")[0] for line in crates if line.startswith("sonic_")):
        for part in ("src", "specs", "proofs"):
            if os.path.isdir(f"{repository}/crates/{name}/{part}"):
                shutil.copytree(f"{repository}/crates/{name}/{part}", f"{folder}/crates/{name}/{part}")
    os.makedirs(f"{folder}/crates/refused_calls/src")
    shutil.copy(f"{repository}/bench/refused_calls.txt", f"{folder}/crates/refused_calls/src/main.rt")
    rests = " ".join(f"sonic_{name}" for name in LIBRARIES.split())
    open(f"{folder}/crates.txt", "w").writelines([*crates, f"refused_calls: {rests}\n"])
    shutil.copy(f"{repository}/HANDLES", folder)


def lay(cases, folder):
    """A file for each case, by its number."""
    os.makedirs(folder)
    for number, case in enumerate(cases):
        open(f"{folder}/{number}", "w").write(case.text)
        open(f"{folder}/{number}.args", "w").write("".join(word + "\n" for word in case.words))


def allocator(bench, folder):
    """The allocator that refuses, built."""
    built = f"{folder}/refuse.so"
    subprocess.run([os.environ.get("CC", "cc"), "-O1", "-shared", "-fPIC", "-o", built, f"{bench}/refuse.c"], check=True)
    return built


def run_commands(program, allocator):
    """What runs each case by a program, with one allocation refused: the status and the output by its number."""

    def run_one(name, folder, refused):
        words = open(f"{folder}/{name}.args").read().splitlines()
        environment = {"LD_PRELOAD": allocator, "REFUSED": str(refused)}
        with open(f"{folder}/{name}") as text:
            ran = subprocess.run([program, *words], stdin=text, env=environment, capture_output=True, text=True, errors="replace")
        return ran.returncode, ran.stdout

    def run(folder, refused):
        names = [name for name in os.listdir(folder) if not name.endswith(".args")]
        return {int(name): run_one(name, folder, refused) for name in names}

    return run


def run_calls(crate):
    """The same by a program that is built for each number."""
    return lambda folder, refused: try_cases(crate, folder, refused)


def try_cases(crate, folder, refused):
    """The status and the output of each case by its number, with one allocation refused."""
    words = ["rt", "try", "--fail-alloc", str(refused), "--cases", folder]
    ran = subprocess.run(words, cwd=crate, capture_output=True, text=True, errors="replace")
    outputs = dict(re.findall(r"^== (\d+)\n(.*?)(?=^== \d+\n|\Z)", ran.stdout, re.M | re.S))
    ends = re.findall(r"^case=(\d+) run=(\w+)(?: status=(\d+))?", ran.stderr, re.M)
    if not ends:
        sys.exit(ran.stderr)
    return {int(n): (int(status) if status else how, outputs.get(n, "")) for n, how, status in ends}


def refuse(cases, lanes, folder):
    """Runs the cases with each allocation refused in turn, each as long as that changes something."""
    lay(cases, folder)
    for number, ended in lanes[0](folder, NONE).items():
        cases[number].whole = ended
    first = 1
    with ThreadPoolExecutor(len(lanes)) as pool:
        while os.listdir(folder):
            for ends in pool.map(lambda run, n: run(folder, n), lanes, range(first, first + len(lanes))):
                for number, ended in ends.items():
                    cases[number].runs.append(ended)
            first += len(lanes)
            for number, case in enumerate(cases):
                if case.is_done() and os.path.exists(f"{folder}/{number}"):
                    os.remove(f"{folder}/{number}")
                    os.remove(f"{folder}/{number}.args")


def counted(words):
    """The words, each with how often it comes."""
    return ", ".join(f"{words.count(word)} x {word}" for word in dict.fromkeys(words)) or "-"


def command_row(name, case):
    """How a command ended."""
    silent = (NO_MEMORY, "")
    words = {silent: "status 7, nothing written", case.whole: f"status {case.whole[0]}, the report"}
    ends = [words.get(it, f"WRONG: {it}") for it in case.refused()]
    return name, len(ends), counted(ends), "-"


def call_row(name, case):
    """How a call ended, and what its object was: refusals before the call don't count."""
    lines = [it[1].splitlines() for it in case.refused()]
    lines = [it for it in lines if it and it[0].startswith("made")]
    whole = case.whole[1].splitlines()
    ends = [it[1] if len(it) > 1 else "WRONG: nothing told" for it in lines]
    ends = [it if it.startswith("no memory") or it == whole[1] else f"WRONG: {it}" for it in ends]
    left = [it[2].removeprefix("left ") for it in lines if len(it) > 2]
    made = [it[0].removeprefix("made ") for it in lines if len(it) > 2]
    left = ["as before" if old == new else new for old, new in zip(made, left)]
    return name, len(ends), counted(ends), counted(left)


def show(title, rows):
    """Prints a table, and whether all ended as it should."""
    print(f"| {title} | allocations | how each refusal ended | the object afterwards |\n|---|---|---|---|")
    for row in rows:
        print("| " + " | ".join(map(str, row)) + " |", flush=True)
    print()
    return not any("WRONG" in row[2] for row in rows)


def main(repository, program, folder, *parts):
    right = True
    if "commands" in parts:
        cases = {name: Case(words, text) for name, (words, text) in COMMANDS.items()}
        refuse(list(cases.values()), [run_commands(program, allocator(f"{repository}/bench", folder))], f"{folder}/commands")
        right &= show("command", [command_row(*it) for it in cases.items()])
    if "calls" in parts:
        lanes = [f"{folder}/{lane}" for lane in range(LANES)]
        for lane in lanes:
            copy(repository, lane)
        cases = {name: Case([name]) for name in CALLS}
        refuse(list(cases.values()), [run_calls(f"{lane}/crates/refused_calls") for lane in lanes], f"{folder}/calls")
        right &= show("call", [call_row(*it) for it in cases.items()])
    sys.exit(0 if right else 1)


main(*sys.argv[1:])
