"""Keeps what edits came to in crates/CRATE/out/edits. A run goes on where another was cut off."""

from __future__ import annotations

import hashlib
import pathlib
import subprocess

from crates import Crates

from .checker import sources_of
from .edit import Edit, text_of
from .verdict import UNTRIED, Kind, Verdict


class Notes:
    """The notes of a repository. Each is under a checksum of all that the outcome rests on."""

    def __init__(self, crates: Crates) -> None:
        self.crates = crates
        self._version = b""
        self._sums: dict[str, str] = {}

    def of(self, edit: Edit) -> Verdict:
        """Returns what an edit came to in an earlier run, or UNTRIED."""
        return self._of_crate(edit.crate).get(self.sum_of(edit), UNTRIED)

    def add(self, edit: Edit, verdict: Verdict) -> None:
        path = self._path(edit.crate)
        path.parent.mkdir(parents=True, exist_ok=True)
        parts = [self.sum_of(edit), edit.name, verdict.kind.value, verdict.why.replace("\t", " ")]
        with path.open("a", encoding="utf-8") as file:
            file.write("\t".join(parts) + "\n")

    def sum_of(self, edit: Edit) -> str:
        """Returns a checksum of an edit, the kit, the crate and those below it."""
        pairs = [(it.file, it.old, it.new) for it in edit.pairs()]
        whole = hashlib.sha256(repr(pairs).encode())
        whole.update(self._version_of_kit())
        for crate in [*self.crates.below(edit.crate), edit.crate]:
            whole.update(self._sum_of_crate(crate).encode())
        return whole.hexdigest()

    def _version_of_kit(self) -> bytes:
        if not self._version:
            ended = subprocess.run(["rt", "version"], stdout=subprocess.PIPE, check=False)
            self._version = ended.stdout
        return self._version

    def _sum_of_crate(self, crate: str) -> str:
        if crate not in self._sums:
            whole = hashlib.sha256()
            for path in sources_of(self.crates.folder(crate)):
                name = path.relative_to(self.crates.top)
                whole.update(f"{name}\n{text_of(path)}".encode())
            self._sums[crate] = whole.hexdigest()
        return self._sums[crate]

    def _of_crate(self, crate: str) -> dict[str, Verdict]:
        path = self._path(crate)
        lines = text_of(path).splitlines() if path.is_file() else []
        kinds = {kind.value: kind for kind in Kind}
        parts = [it.split("\t") for it in lines]
        return {
            it[0]: Verdict(kinds[it[2]], it[3]) for it in parts if len(it) == 4 and it[2] in kinds
        }

    def _path(self, crate: str) -> pathlib.Path:
        return self.crates.folder(crate) / "out/edits"
