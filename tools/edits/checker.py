"""Has the prover check a copy of a crate with other text in it."""

from __future__ import annotations

import dataclasses
import os
import pathlib
import shutil
import subprocess
from collections.abc import Callable, Iterator

from crates import Crates

from .edit import Texts, text_of

PARTS = ("src", "specs", "proofs")
"""The folders of a crate that a check reads."""


@dataclasses.dataclass(frozen=True)
class Said:
    """How a check ended."""

    status: int
    lines: list[str]


class Checker:
    """Checks a crate, over the libraries that the gate left or that `rt check` makes."""

    def __init__(self, crate: str, crates: Crates) -> None:
        self.crate, self.crates = crate, crates
        self.prover: list[str] = []
        """The command that checks it over the gate's libraries, if they are all there."""

    def is_ready(self, in_gate: bool) -> str:
        """Finds the libraries below the crate, or has them built. Returns "" or why that fails.

        In the gate nothing is built here.
        """
        wanted = self.crates.below(self.crate)
        if all(is_left(self.crates.folder(it)) for it in wanted):
            self.prover = self.command()
            return ""
        if in_gate:
            return "a library below it isn't there, or is older than its sources: run the gate"
        if all((self.crates.folder(it) / "out/rlib/stamp").is_file() for it in wanted):
            return ""
        said = run(["rt", "check", "--jobs", "1", "--only="], self.crates.folder(self.crate))
        return "\n".join(said.lines).strip()[-200:] if said.status else ""

    def command(self) -> list[str]:
        """Returns the command that checks the crate over the libraries that the gate left."""
        kit = kit_folder()
        folders = {it: self.crates.folder(it) / "out/rlib" for it in self.crates.below(self.crate)}
        has_library = (self.crates.folder(self.crate) / "src/lib.rt").is_file()
        words = [f"{kit}/bin/rattle", "check", "--crate-name", self.crate]
        words += ["src/lib.rt" if has_library else "src/main.rt"]
        for it in dict.fromkeys(["std", *self.crates.uses[self.crate]]):
            words += ["--extern", f"{it}={folders.get(it, kit / 'rlibs')}/{it}.rlib"]
        for folder in [kit / "rlibs", *folders.values()]:
            words += ["-L", f"dependency={folder}"]
        words += ["--antt-project", f"{kit}/rattle/logic/antt-project.json"]
        return [*words, "--logic-built", f"{kit}/logic_built", "--jobs", "1"]

    def copy_to(self, room: pathlib.Path) -> pathlib.Path:
        """Copies all that a check of the crate reads and that earlier checks kept of it.

        That includes the crates below, unless it is checked over the gate's libraries. Returns the
        folder of the crate's copy.
        """
        below = [] if self.prover else self.crates.below(self.crate)
        names = {*below, self.crate}
        lines = "".join(line + "\n" for it, line in self.crates.lines.items() if it in names)
        (room / "crates.txt").write_text(lines, encoding="utf-8")
        handles = self.crates.top / "HANDLES"
        if handles.is_file():
            shutil.copy(handles, room)
        for it in [*below, self.crate]:
            old, new = self.crates.folder(it), room / "crates" / it
            for part in PARTS:
                if (old / part).is_dir():
                    shutil.copytree(old / part, new / part)
            if it == self.crate:
                copy_kept(old / "out/incremental", new / "out/incremental")
            else:
                copy_kept(old / "out/rlib", new / "out/rlib", links=True)
        return room / "crates" / self.crate

    def check(self, folder: pathlib.Path, texts: Texts, asked: list[str]) -> Said:
        """Checks functions in a copy of the crate with these texts in place of its own.

        Checks the whole crate if one of the names that are asked for is "".
        """
        words = (
            [word for it in sorted(set(asked)) for word in ("--only", it)] if all(asked) else []
        )
        old = {file: text_of(folder / file) for file in texts}
        try:
            write(folder, texts)
            return run([*(self.prover or ["rt", "check", "--jobs", "1"]), *words], folder)
        finally:
            write(folder, old)


def kit_folder() -> pathlib.Path:
    ended = subprocess.run(["rt", "doc"], stdout=subprocess.PIPE, text=True, check=True)
    return pathlib.Path(ended.stdout.strip()).parent


def run(words: list[str], folder: pathlib.Path) -> Said:
    ended = subprocess.run(
        words,
        cwd=folder,
        stdin=subprocess.DEVNULL,
        stdout=subprocess.PIPE,
        stderr=subprocess.STDOUT,
        text=True,
        errors="replace",
        check=False,
    )
    return Said(ended.returncode, ended.stdout.split("\n"))


def write(folder: pathlib.Path, texts: Texts) -> None:
    for file, text in texts.items():
        (folder / file).write_text(text, encoding="utf-8")


def copy_kept(old: pathlib.Path, new: pathlib.Path, links: bool = False) -> None:
    """Copies what a build kept, if it is there: by hard links if that may be and can be."""
    if not old.is_dir():
        return
    copy: Callable[[str, str], object] = shutil.copy2
    if links:
        copy = os.link
    try:
        shutil.copytree(old, new, copy_function=copy)
    except (OSError, shutil.Error):
        # (another file system, say)
        shutil.rmtree(new, ignore_errors=True)
        shutil.copytree(old, new)


def sources_of(folder: pathlib.Path) -> Iterator[pathlib.Path]:
    """Yields all files that a check of the crate in a folder reads, in a fixed order."""
    for part in PARTS:
        for at, folders, files in os.walk(folder / part):
            folders.sort()
            yield from (pathlib.Path(at, file) for file in sorted(files))


def is_left(folder: pathlib.Path) -> bool:
    """Returns whether the gate left the library of the crate, and no source changed since."""
    library = folder / f"out/rlib/{folder.name}.rlib"
    if not library.is_dir():
        return False
    built = library.stat().st_mtime
    return all(it.stat().st_mtime <= built for it in sources_of(folder))
