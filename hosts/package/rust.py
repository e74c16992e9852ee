"""The crate: hosts/rust with the static library in it. `cargo package` builds it once from the file that it makes."""

from __future__ import annotations

import os
import pathlib
import re
import shutil
import tempfile

from .made import OUT, TOP, Failed, Made, run
from .papers import LICENSE


def sources(made: Made, to: pathlib.Path) -> None:
    """Copies hosts/rust, with the library and the papers in it, and the mark in its version."""
    shutil.copytree(TOP / "hosts/rust", to, ignore=shutil.ignore_patterns("target", "lib", ".gitignore"))
    (to / "lib").mkdir()
    shutil.copyfile(OUT / "lib/libexprlang.a", to / "lib/libexprlang.a")
    for name in ("PROOF.txt", "LICENSES-KIT.txt"):
        shutil.copyfile(OUT / "doc" / name, to / name)
    replaced(to / "Cargo.lock", "version", made.marked("+"))
    replaced(to / "Cargo.toml", "version", made.marked("+"))
    replaced(to / "Cargo.toml", "license", LICENSE)


def replaced(file: pathlib.Path, field: str, value: str) -> None:
    """Gives a field another value, which is the first of its name in the file."""
    text, count = re.subn(rf'(?m)^{field} = ".*"$', f'{field} = "{value}"', file.read_text(encoding="utf-8"), count=1)
    if not count:
        raise Failed(f"hosts/rust/{file.name} has no {field}")
    file.write_text(text, encoding="utf-8")


def make(made: Made, to: pathlib.Path) -> list[pathlib.Path]:
    with tempfile.TemporaryDirectory() as work:
        folder, target = pathlib.Path(work, "exprlang"), pathlib.Path(work, "target")
        sources(made, folder)
        # without the variable, build.rs finds the library in the package alone
        known = {name: value for name, value in os.environ.items() if name != "EXPRLANG_LIB"}
        known["CARGO_TARGET_DIR"] = str(target)
        run("cargo", "package", "--quiet", "--offline", "--allow-dirty", "--manifest-path", folder / "Cargo.toml", env=known)
        file = target / f"package/exprlang-{made.marked('+')}.crate"
        shutil.copyfile(file, to / file.name)
    return [to / file.name]
