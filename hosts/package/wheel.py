"""The wheels: the module of hosts/python with the shared library in it.

Where hosts/out/python has an extension for CPython (exprlang/*.abi3.so), there is a second wheel, with it and for CPython alone.
"""

from __future__ import annotations

import base64
import hashlib
import pathlib
import re

from .archive import zipped
from .made import OUT, TOP, Failed, Made, run
from .papers import LICENSE

PURE, NATIVE = "py3-none", "cp310-abi3"
# glibc 2.17 and later; `check` looks whether that is so
PLATFORM, NEWEST = "manylinux_2_17_x86_64", (2, 17)


def extensions() -> list[pathlib.Path]:
    """The extension for CPython, if it was built."""
    return sorted((OUT / "python/exprlang").glob("*.abi3.so"))


def modules() -> dict[str, bytes]:
    folder = TOP / "hosts/python"
    files = sorted(path for path in (folder / "exprlang").iterdir() if path.suffix in (".py", ".pyi", ".typed"))
    return {path.relative_to(folder).as_posix(): path.read_bytes() for path in files}


def field(name: str) -> str:
    """A string of hosts/python/pyproject.toml."""
    text = (TOP / "hosts/python/pyproject.toml").read_text(encoding="utf-8")
    found = re.search(rf'(?m)^{name} = "(.*)"$', text)
    if not found:
        raise Failed(f"hosts/python/pyproject.toml has no {name}")
    return found[1]


def metadata(made: Made, python: str) -> str:
    head = {
        "Metadata-Version": "2.1",
        "Name": "exprlang",
        "Version": made.marked("+"),
        "Summary": field("description"),
        "License": LICENSE,
        "Requires-Python": python,
        "Classifier": "Operating System :: POSIX :: Linux",
        "Description-Content-Type": "text/markdown",
    }
    lines = "".join(f"{name}: {value}\n" for name, value in head.items())
    return lines + "Classifier: Typing :: Typed\n\n" + (TOP / "hosts/package/README.md").read_text(encoding="utf-8")


def newest_glibc(file: pathlib.Path) -> tuple[int, ...]:
    """The newest glibc of which a file needs a symbol, or (0,) if it needs none."""
    found = re.findall(r"GLIBC_([\d.]+)", run("objdump", "-T", file)) if needed(file) else []
    return max((tuple(map(int, it.split("."))) for it in found), default=(0,))


def needed(file: pathlib.Path) -> list[str]:
    """The libraries that a file asks for."""
    return re.findall(r"\(NEEDED\).*\[(.*)\]", run("readelf", "-d", file))


def check(file: pathlib.Path) -> None:
    """Raises Failed if a library isn't what PLATFORM promises."""
    beyond = [name for name in needed(file) if name not in ("libc.so.6", "libm.so.6", "libpthread.so.0")]
    if beyond:
        raise Failed(f"{file} needs {', '.join(beyond)}")
    if newest_glibc(file) > NEWEST:
        raise Failed(f"{file} needs glibc {'.'.join(map(str, newest_glibc(file)))}")


def record_of(name: str, content: bytes) -> str:
    digest = base64.urlsafe_b64encode(hashlib.sha256(content).digest()).rstrip(b"=").decode()
    return f"{name},sha256={digest},{len(content)}\n"


def pack(made: Made, to: pathlib.Path, tag: str, python: str, libraries: list[pathlib.Path]) -> pathlib.Path:
    """Packs one wheel. The libraries lie beside the modules."""
    stem = f"exprlang-{made.marked('+')}"
    info = f"{stem}.dist-info"
    files = modules()
    for library in libraries:
        check(library)
        files[f"exprlang/{library.name}"] = library.read_bytes()
    files[f"{info}/PROOF.txt"] = (OUT / "doc/PROOF.txt").read_bytes()
    for name in ("LICENSE", "LICENSES-KIT.txt"):
        files[f"{info}/licenses/{name}"] = (OUT / "doc" / name).read_bytes()
    about = f"Wheel-Version: 1.0\nGenerator: exprlang bin/package\nRoot-Is-Purelib: false\nTag: {tag}-{PLATFORM}\n"
    files[f"{info}/METADATA"] = metadata(made, python).encode()
    files[f"{info}/WHEEL"] = about.encode()
    files[f"{info}/top_level.txt"] = b"exprlang\n"
    files = dict(sorted(files.items()))
    rows = "".join(record_of(name, content) for name, content in files.items())
    files[f"{info}/RECORD"] = f"{rows}{info}/RECORD,,\n".encode()
    file = to / f"{stem}-{tag}-{PLATFORM}.whl"
    zipped(files, file, made.date)
    return file


def make(made: Made, to: pathlib.Path) -> list[pathlib.Path]:
    library = OUT / "lib/libexprlang.so.0"
    wheels = [pack(made, to, PURE, field("requires-python"), [library])]
    if extensions():
        wheels.append(pack(made, to, NATIVE, ">=3.10", [library, *extensions()]))
    return wheels
