"""What bin/hosts has left in hosts/out: its version, whether it is proved, and when its sources were committed."""

from __future__ import annotations

import dataclasses
import os
import pathlib
import re
import subprocess
import sys

TOP = pathlib.Path(__file__).resolve().parents[2]
OUT = TOP / "hosts/out"
# Of which zip files and the oldest tools can say nothing older.
OLDEST = 315_532_800


class Failed(Exception):
    """A package that can't be made, or does something wrong."""


class Missing(Exception):
    """A tool that isn't here. What needs it is left out."""


def tell(text: str) -> None:
    print(f"package: {text}", file=sys.stderr, flush=True)


def run(*words: str | os.PathLike[str], **how: object) -> str:
    """Runs a command and returns what it prints. Raises Failed with all that it said if its status isn't 0."""
    try:
        ended = subprocess.run(words, stdout=subprocess.PIPE, stderr=subprocess.STDOUT, text=True, errors="replace", **how)
    except FileNotFoundError as fault:
        raise Missing(f"there is no {words[0]} here") from fault
    if ended.returncode:
        raise Failed(f"{' '.join(map(str, words))}: status {ended.returncode}\n{ended.stdout}")
    return ended.stdout


@dataclasses.dataclass(frozen=True)
class Made:
    version: str
    """Of the file VERSION."""
    built: str
    """The kit, the sources, and `proved` or `unproved`, as expr_version() says them."""
    date: int
    """In seconds since 1970: what the files of packages are dated."""

    @property
    def is_proved(self) -> bool:
        return self.built.endswith(", proved")

    @property
    def mark(self) -> str:
        """What the names of packages say behind the version."""
        return "" if self.is_proved else "unproved"

    def marked(self, sign: str) -> str:
        """The version with the mark behind it, and a sign between the two."""
        return self.version + (sign + self.mark if self.mark else "")

    @property
    def programs(self) -> list[str]:
        return [name for name in ("exprlang", "expr_lines", "expr_check") if (OUT / "bin" / name).is_file()]


def date_of_sources() -> int:
    """SOURCE_DATE_EPOCH, or when the last commit was made."""
    said = os.environ.get("SOURCE_DATE_EPOCH") or subprocess.run(
        ["git", "-C", TOP, "log", "-1", "--format=%ct"], capture_output=True, text=True, check=False
    ).stdout.strip()
    return max(int(said), OLDEST) if said.isdigit() else OLDEST


def made() -> Made:
    """Reads hosts/out. Raises Failed if it has no libraries of these sources."""
    file = OUT / "lib/libexprlang.so.0"
    if not file.is_file():
        raise Failed("hosts/out has no libraries: run .ci/run, or bin/quick and bin/hosts hosts/out/quick")
    found = re.search(rb"(\d+\.\d+\.\d+), ((?:kit [^,\0]+, )?sources (\w+), (?:un)?proved)\0", file.read_bytes())
    if not found:
        raise Failed(f"{file} doesn't say what it is")
    version, built, sources = (part.decode() for part in found.groups())
    now = run(TOP / "bin/kept", "sources").strip()[:16]
    if version != (TOP / "VERSION").read_text(encoding="utf-8").strip() or sources not in (now, "unknown"):
        raise Failed(f"hosts/out has libraries of other sources, {version}, {built}: run bin/hosts again")
    return Made(version, built, date_of_sources())
