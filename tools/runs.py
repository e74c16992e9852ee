"""Runs programs on rows, and on streams that fail."""
from __future__ import annotations

import os
import shutil
import subprocess
from dataclasses import dataclass

TOP = os.path.realpath(os.path.join(os.path.dirname(os.path.abspath(__file__)), ".."))
EPIPE, ENOSPC, EINTR, EIO = 32, 28, 4, 5


@dataclass(frozen=True)
class Ending:
    """How a run ends: what it writes, what it says on standard error, and its status."""

    written: bytes
    said: bytes = b""
    status: int = 0

    def is_wanted(self, wanted: Ending) -> bool:
        """Whether this is an ending that is wanted, in which `..` stands for any lines."""
        pairs = [(self.written, wanted.written), (self.said, wanted.said)]
        return self.status == wanted.status and all(is_ in (it, b"..\n") for it, is_ in pairs)


def run(words: list[str], stream: bytes = b"", **added: str) -> Ending:
    """The ending of a run with some words, a stream and more of an environment."""
    environment = {**os.environ, **added}
    ended = subprocess.run(words, input=stream, capture_output=True, env=environment)
    return Ending(ended.stdout, ended.stderr, ended.returncode)


def broken(folder: str) -> str | None:
    """Makes what breaks the streams of a program, tools/broken.c; none without a compiler."""
    compiler = next(filter(None, map(shutil.which, ("cc", "gcc", "clang"))), None)
    if not compiler:
        return None
    made = os.path.join(folder, "broken.so")
    words = [compiler, "-O2", "-shared", "-fPIC", "-o", made, f"{TOP}/tools/broken.c"]
    subprocess.run(words, check=True)
    return made


class Tally:
    """Counts runs, and tells of those that end otherwise than is wanted."""

    def __init__(self, name: str) -> None:
        self.name, self.ran, self.differ = name, 0, 0

    def compare(self, what: str, given: Ending, wanted: Ending) -> None:
        self.ran += 1
        if not given.is_wanted(wanted):
            self.differ += 1
            print(f"{self.name}: {what}\n    is    {given}\n    wants {wanted}")

    def check(self, what: str, is_met: bool) -> None:
        self.ran += 1
        if not is_met:
            self.differ += 1
            print(f"{self.name}: {what}")

    def end(self) -> int:
        print(f"{self.name}: {self.ran} ran, {self.differ} differ")
        return self.differ > 0 or self.ran == 0
