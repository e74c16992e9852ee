"""What the gate said of these sources. It is kept beside the proved library, since one run of the gate proves only what changed.

A crate's verdict is kept under a checksum of all that its proof reads, and the gate's last lines under one of all crates.
"""

from __future__ import annotations

import collections.abc
import os
import pathlib
import re

from .crates import ROOTS, below, kit, sum_of
from .made import Made, run, TOP

def place() -> pathlib.Path:
    cache = os.environ.get("XDG_CACHE_HOME") or os.path.join(os.environ.get("HOME") or TOP, ".cache")
    return pathlib.Path(cache) / "expr"


def verdicts(lines: collections.abc.Iterable[str]) -> dict[str, str]:
    """The verdict of each crate that a log of `rt ci` says is proved."""
    found, verdict = {}, ""
    for line in lines:
        proved = re.fullmatch(r"rt: (\w+) proved", line)
        if line.startswith("logic="):
            verdict = line
        elif proved and verdict.startswith("logic=proved"):
            found[proved[1]] = verdict
        if line.startswith("== ") or proved:
            verdict = ""
    return found


def keep(log: str) -> int:
    """Keeps what a log of the gate says, and returns how many crates it has verdicts of."""
    lines = pathlib.Path(log).read_text(encoding="utf-8", errors="replace").splitlines()
    found = verdicts(lines)
    for name, verdict in found.items():
        written(place() / "verdicts" / sum_of(name), f"{name}: {verdict}\n")
    # `rt ci` says so where nothing failed, in one of its last lines; those of bin/edits follow
    ends = [at for at, line in enumerate(lines) if line.startswith("rt: ok;")]
    if ends:
        written(place() / "gates" / run(TOP / "bin/kept", "all").strip(), "\n".join(lines[ends[-1] :]) + "\n")
    return len(found)


def written(path: pathlib.Path, text: str) -> None:
    path.parent.mkdir(parents=True, exist_ok=True)
    new = path.with_name(f"{path.name}.{os.getpid()}")
    new.write_text(text, encoding="utf-8")
    new.replace(path)


def text_of(path: pathlib.Path) -> str:
    return path.read_text(encoding="utf-8") if path.is_file() else ""


def page(made: Made) -> tuple[str, list[str]]:
    """The page PROOF.txt, and the crates of which no verdict is kept."""
    head = f"exprlang {made.version}, {made.built}\n\n"
    if not made.is_proved:
        return f"{head}Nothing in this package is proved.\n", []
    products = {name: crate for name, crate in ROOTS.items() if name == "libexprlang" or name in made.programs}
    names = dict.fromkeys(it for crate in products.values() for it in below(crate))
    said = {name: text_of(place() / "verdicts" / sum_of(name)) for name in names}
    last = text_of(place() / "gates" / run(TOP / "bin/kept", "all").strip())
    made_of = "".join(f"{name} is made of {crate} and the crates below it.\n" for name, crate in products.items())
    rows = "".join(line or f"{name}: the gate's log is not here\n" for name, line in said.items())
    kit_id = (kit() / "KIT-ID").read_text(encoding="utf-8").strip()
    return (
        f"{head}{made_of}Rattle proved and compiled them: {kit_id}.\n\n"
        f"The last lines of the gate over all sources:\n\n{last or 'The log is not here.'}\n"
        f"The verdict of the prover on each crate, the lowest first:\n\n{rows}"
    ), [name for name, line in said.items() if not line]
