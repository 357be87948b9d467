"""Builds the package: its files, and beside them the shared objects that examples/build made, from the folder
that JIHLUKA_OUT names, or out/ of the repository. Where there is none, the package takes the installed one.

It reads pyproject.toml by lines, as older Pythons have no reader of it."""
import base64
import hashlib
import io
import os
import re
import tarfile
import zipfile

HERE = os.path.dirname(os.path.abspath(__file__))
LIBRARY = "libjihluka.so.0"
# The shared object, the one for processors with AVX2, and one without a call, which asks the loader for either.
CARRIED = (LIBRARY, f"glibc-hwcaps/x86-64-v3/{LIBRARY}", "libjihluka-beside.so")


def _read(name):
    with open(os.path.join(HERE, name), "rb") as it:
        return it.read()


def _field(name):
    return re.search(rf'^{name} = "(.*)"$', _read("pyproject.toml").decode(), re.M).group(1)


def _metadata():
    lines = ["Metadata-Version: 2.1"]
    lines += [f"{title}: {_field(name)}" for title, name in (("Name", "name"), ("Version", "version"), ("Summary", "description"))]
    lines += ["License: Apache-2.0", f"Requires-Python: {_field('requires-python')}", "Description-Content-Type: text/markdown"]
    return ("\n".join(lines) + "\n\n").encode() + _read("README.md")


def _carried():
    """The names and paths of the objects that are there."""
    folder = os.environ.get("JIHLUKA_OUT") or os.path.join(HERE, "..", "..", "out")
    path = os.path.join(folder, LIBRARY)
    if not os.path.exists(path) and "JIHLUKA_OUT" in os.environ:
        raise FileNotFoundError(path)
    paths = {name: os.path.join(folder, name) for name in CARRIED}
    return {name: path for name, path in paths.items() if os.path.exists(path)}


def build_wheel(wheel_directory, config_settings=None, metadata_directory=None):
    carried = _carried()
    tag = "py3-none-linux_x86_64" if carried else "py3-none-any"
    files = {f"jihluka/{name}": _read(f"src/jihluka/{name}") for name in sorted(os.listdir(os.path.join(HERE, "src/jihluka"))) if "." in name}
    for name, path in carried.items():
        with open(path, "rb") as it:
            files[f"jihluka/{name}"] = it.read()
    info = f"jihluka-{_field('version')}.dist-info"
    files[f"{info}/METADATA"] = _metadata()
    files[f"{info}/WHEEL"] = f"Wheel-Version: 1.0\nGenerator: jihluka\nRoot-Is-Purelib: {str(not carried).lower()}\nTag: {tag}\n".encode()
    sums = {name: base64.urlsafe_b64encode(hashlib.sha256(text).digest()).rstrip(b"=").decode() for name, text in files.items()}
    rows = [f"{name},sha256={sums[name]},{len(text)}" for name, text in files.items()]
    files[f"{info}/RECORD"] = ("\n".join(rows) + f"\n{info}/RECORD,,\n").encode()
    wheel = f"jihluka-{_field('version')}-{tag}.whl"
    with zipfile.ZipFile(os.path.join(wheel_directory, wheel), "w", zipfile.ZIP_DEFLATED) as it:
        for name, text in files.items():
            it.writestr(name, text)
    return wheel


def build_sdist(sdist_directory, config_settings=None):
    top = f"jihluka-{_field('version')}"
    with tarfile.open(os.path.join(sdist_directory, f"{top}.tar.gz"), "w:gz", format=tarfile.PAX_FORMAT) as it:
        for name in ("README.md", "backend.py", "pyproject.toml", "src/jihluka"):
            it.add(os.path.join(HERE, name), f"{top}/{name}", filter=lambda file: None if "__pycache__" in file.name else file)
        info, text = tarfile.TarInfo(f"{top}/PKG-INFO"), _metadata()
        info.size = len(text)
        it.addfile(info, io.BytesIO(text))
    return f"{top}.tar.gz"
