"""Reads edits, and puts them into the text of a crate."""

from __future__ import annotations

import collections
import dataclasses
import pathlib
import re

FILES = ("GATE.md", "TRIED.md")
"""The pages of edits in a folder must-fail, beside its files *.edit."""

Texts = dict[str, str]
"""New text for files of a crate, each by its path in the crate."""


class Unreadable(Exception):
    """A folder must-fail that can't be read."""


@dataclasses.dataclass(frozen=True)
class Pair:
    """One replacement of an edit: a text that its file has once, and what takes its place."""

    file: str
    old: str
    new: str


@dataclasses.dataclass(frozen=True)
class Edit:
    crate: str
    name: str
    text: str
    file: str
    """The file of must-fail that has it."""

    def __str__(self) -> str:
        return f"{self.crate}/{self.name}"

    def pairs(self) -> list[Pair]:
        file, old, pairs = "", "", []
        for line in self.text.splitlines():
            if line.startswith("file: "):
                file = line.removeprefix("file: ").strip()
            elif line.startswith("old: "):
                old = line.removeprefix("old: ")
            elif line.startswith("new:") and file and old:
                pairs.append(Pair(file, old, line.removeprefix("new:").removeprefix(" ")))
                old = ""
        return pairs

    def put_into(self, texts: Texts, folder: pathlib.Path) -> str:
        """Puts the edit into the texts of a crate. Returns why it doesn't apply, or ""."""
        pairs = self.pairs()
        if not pairs:
            return "it has no pair of `old:` and `new:`"
        for pair in pairs:
            if not (folder / pair.file).is_file():
                return f"there is no file {pair.file}"
            text = texts.get(pair.file) or text_of(folder / pair.file)
            if text.count(pair.old) != 1:
                return f"an `old:` text stands in {pair.file} {text.count(pair.old)} times"
            texts[pair.file] = text.replace(pair.old, pair.new)
        return ""


def text_of(path: pathlib.Path) -> str:
    return path.read_text(encoding="utf-8", errors="replace")


def edits_of(crate: str, folder: pathlib.Path) -> list[Edit]:
    """Returns the edits of a folder must-fail. Raises Unreadable if two have one name."""
    if not folder.is_dir():
        return []
    files = sorted(it for it in folder.iterdir() if it.name.endswith(".edit"))
    found = [Edit(crate, it.name.removesuffix(".edit"), text_of(it), it.name) for it in files]
    for page in FILES:
        if (folder / page).is_file():
            found += edits_of_page(crate, page, text_of(folder / page))
    twice = [
        name for name, count in collections.Counter(it.name for it in found).items() if count > 1
    ]
    if twice:
        place = "/".join(folder.parts[-3:])
        raise Unreadable(f"{place} has two edits named {', '.join(twice)}")
    return found


def edits_of_page(crate: str, page: str, text: str) -> list[Edit]:
    """Returns the edits of a page. Each has a heading with its name, and is indented by four."""
    found = []
    for part in re.split(r"(?m)^## ", text)[1:]:
        lines = [it.removeprefix("    ") for it in part.splitlines()[1:] if it.startswith("    ")]
        found.append(Edit(crate, part.split()[0], "\n".join(lines), page))
    return found


def together(edits: list[Edit], folder: pathlib.Path) -> Texts | None:
    """Returns the texts with all of these edits, or None if one doesn't apply beside others."""
    texts: Texts = {}
    return None if any(it.put_into(texts, folder) for it in edits) else texts
