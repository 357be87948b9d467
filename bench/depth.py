"""Runs commands and tests over what is deep on a small stack: depth.py PROGRAM FOLDER LEVELS STACK TESTS.."""
import os
import resource
import subprocess
import sys

# The words of a command, what comes before the deep value and after it, and the status where it isn't 0.
COMMANDS = [
    (["get"], '["b"]\n["a"]\n["a",0,0]\n\n{"a":', ',"b":1}'),
    (["get", "--keys", "last"], '["a",0]\n\n{"a":', ',"a":[1]}'),
    (["list"], "[", ",2]"),
    (["fast"], '["b"]\n\n{"a":', ',"b":1}'),
    (["lines"], '["a",0]\n\n{"a":', "}\n"),
    (["index"], "", ""),
    (["min"], " ", " "),
    (["indent", "0"], "", ""),
    (["edit"], '["set",["a",0],true]\n["push",["b"],[1]]\n\n{"a":', ',"b":[]}'),
    (["patch"], '[{"op":"move","from":"/a","path":"/b"}]\n{"a":', "}"),
    (["patch"], '[{"op":"copy","from":"/a","path":"/b"},{"op":"test","path":"/b","value":1}]\n{"a":', "}", 1),
    (["fill"], '{"b":1}\n{"a":', ',"b":2}'),
]
# The same with a path of as many nodes as one may have, for half that stack.
PATH = "[" + ",".join(["0"] * 255) + "]"
POINTER = "/0" * 255
FOLLOWED = [
    (["get"], f"{PATH}\n\n", ""),
    (["fast"], f"{PATH}\n\n", ""),
    (["lines"], f"{PATH}\n\n", "\n"),
    (["edit"], f'["push",{PATH},[1]]\n["set",{PATH},2]\n\n', ""),
    (["patch"], f'[{{"op":"move","from":"{POINTER}","path":""}}]\n', ""),
]
TEST = "goes_as_deep_as_memory_lasts"


def on_stack(kibibytes):
    """What a process does first to have that stack."""
    return lambda: resource.setrlimit(resource.RLIMIT_STACK, (kibibytes * 1024, kibibytes * 1024))


def ended(words, given, stack):
    """How a command ended, its output let go."""
    with open(given) as text:
        return subprocess.run(words, stdin=text, stdout=subprocess.DEVNULL, preexec_fn=on_stack(stack)).returncode


def tests_of(program, stack):
    """The tests of a program that go deep, with how each ended."""
    listed = subprocess.run([program, "--list"], capture_output=True, text=True).stdout.splitlines()
    for name in (line.removesuffix(": test") for line in listed if TEST in line):
        yield name, subprocess.run([program, name], stdout=subprocess.DEVNULL, preexec_fn=on_stack(stack)).returncode


def main(program, folder, levels, stack, tests):
    bad = 0
    given = os.path.join(folder, "input")
    for part, kibibytes in ((COMMANDS, stack), (FOLLOWED, stack // 2)):
        for words, before, after, *other in part:
            with open(given, "w") as file:
                file.write(before + "[" * levels + "]" * levels + after)
            status = ended([program, *words], given, kibibytes)
            good = [status] == (other or [0])
            bad += not good
            wrong = "" if good else ", and it should not be"
            print(f"{' '.join(words)} on {kibibytes} KiB: status {status}{wrong}", flush=True)
    for built in filter(os.path.exists, tests):
        for name, status in tests_of(built, stack):
            bad += status != 0
            print(f"{os.path.basename(built)} {name}: status {status}", flush=True)
    sys.exit(1 if bad else 0)


if __name__ == "__main__":
    main(sys.argv[1], sys.argv[2], int(sys.argv[3]), int(sys.argv[4]), sys.argv[5:])
