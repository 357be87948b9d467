"""Builds the other readers of JSON. Each is a command behind the contract of the program, but jq."""
import os
import shutil
import subprocess

HERE = os.path.dirname(os.path.abspath(__file__))
# Where Debian's packages librust-*-dev put the sources of crates.
CRATES = "/usr/share/cargo/registry"
# The peers may use all that this machine's processor has.
OPTIMIZED = ["-O3", "-march=native", "-DNDEBUG"]


class LeftOut(Exception):
    """Why a peer isn't measured."""


def tool(*names):
    for name in names:
        if shutil.which(name):
            return name
    raise LeftOut(f"no {names[0]}")


def compiled(command, **options):
    done = subprocess.run(command, stdout=subprocess.PIPE, stderr=subprocess.STDOUT, text=True, **options)
    if done.returncode != 0:
        errors = [line for line in done.stdout.splitlines() if "error" in line]
        raise LeftOut(errors[0].strip() if errors else f"{command[0]} failed")


def with_simdjson(folder, name):
    """A program over Debian's library."""
    out = os.path.join(folder, name)
    source = os.path.join(HERE, "peers", f"{name}.cpp")
    compiled([tool("c++", "g++", "clang++"), "-std=c++17", *OPTIMIZED, source, "-lsimdjson", "-o", out])
    return out


def simdjson(folder):
    return with_simdjson(folder, "simdjson")


def iterate_many(folder):
    """No reader of documents: it reads a stream of them."""
    return with_simdjson(folder, "iterate_many")


def simdjson_texts(folder):
    """It writes whole documents."""
    return with_simdjson(folder, "simdjson_texts")


def map(folder):
    out = os.path.join(folder, "map")
    compiled([tool("c++", "g++", "clang++"), "-std=c++17", *OPTIMIZED, os.path.join(HERE, "peers", "map.cpp"), "-o", out])
    return out


def serde_json(folder):
    cargo = tool("cargo")
    if not os.path.isdir(CRATES):
        raise LeftOut(f"no {CRATES}")
    # cargo writes beside the manifest, so it gets a copy.
    project = os.path.join(folder, "serde_json.project")
    shutil.copytree(os.path.join(HERE, "peers", "serde_json"), project, dirs_exist_ok=True)
    source = ["--config", "source.crates-io.replace-with='debian'", "--config", f"source.debian.directory='{CRATES}'"]
    native = {**os.environ, "RUSTFLAGS": "-C target-cpu=native"}
    compiled([cargo, "build", "--release", "--offline", *source, "--target-dir", "target"], cwd=project, env=native)
    return os.path.join(project, "target", "release", "serde_json_peer")


def with_yyjson(folder, name):
    """A program over the sources of yyjson."""
    out = os.path.join(folder, name)
    sources = os.environ.get("YYJSON")
    if not sources:
        raise LeftOut("YYJSON names no folder of its sources")
    sources = os.path.abspath(sources)
    files = [os.path.join(HERE, "peers", f"{name}.c"), os.path.join(sources, "yyjson.c")]
    compiled([tool("cc", "gcc", "clang"), *OPTIMIZED, f"-I{sources}", *files, "-o", out])
    return out


def yyjson(folder):
    return with_yyjson(folder, "yyjson")


def yyjson_texts(folder):
    """It writes whole documents."""
    return with_yyjson(folder, "yyjson_texts")


def memcpy(folder):
    """No reader: it copies a document so many times. It is measured beside single calls alone."""
    out = os.path.join(folder, "memcpy")
    compiled([tool("cc", "gcc", "clang"), *OPTIMIZED, os.path.join(HERE, "peers", "copy.c"), "-o", out])
    return out


def jq(folder):
    return tool("jq")


def build(folder, *peers):
    """The peers that are here, by name, and the command of each. Says which are left out, and why."""
    commands = {}
    for peer in peers:
        try:
            commands[peer.__name__] = peer(folder)
        except LeftOut as why:
            print(f"{peer.__name__} is left out: {why}")
    return commands
