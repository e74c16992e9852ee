"""Finds the functions that an edit changes."""

from __future__ import annotations

import dataclasses
import pathlib

from .edit import Edit, Texts, text_of
from .functions import functions_in


@dataclasses.dataclass(frozen=True)
class Place:
    """A function that an edit changes or adds."""

    file: str
    name: str
    """Its name in the module, or "" if the change is outside of all functions."""
    module: str

    @property
    def path(self) -> str:
        """What the prover calls it. A method is under the module of its type."""
        return (
            self.name if "::" in self.name else "::".join(filter(None, (self.module, self.name)))
        )

    def unit(self, folder: pathlib.Path) -> str:
        """Returns what has one proof: the function, or its cycle of calls."""
        found = functions_in(text_of(folder / self.file)).get(self.name)
        return f"+{found.cycle}" if found and found.cycle else self.name


def places_of(edit: Edit, folder: pathlib.Path) -> list[Place]:
    """Returns what an edit of the crate in a folder changes or adds."""
    found: list[Place] = []
    texts: Texts = {}
    edit.put_into(texts, folder)
    for file, text in texts.items():
        old, new = bodies_of(text_of(folder / file)), bodies_of(text)
        changed = [name for name, body in new.items() if old.get(name) != body]
        found += [Place(file, name, module_of(file)) for name in changed or [""]]
    return found


def bodies_of(text: str) -> dict[str, str]:
    return {name: text[it.begin : it.end] for name, it in functions_in(text).items()}


def module_of(file: str) -> str:
    """Returns the path of the module that a file of src/ is."""
    parts = file[len("src/") : -len(".rt")].split("/")
    return "::".join(it for it in parts if it not in ("lib", "main"))
