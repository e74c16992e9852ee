"""The papers that come with each package: the licences, what was proved, and the checksums of the sources."""

from __future__ import annotations

import shutil

from . import proof
from .crates import ROOTS, below, files_of, kit, of_kit, sum_of_file
from .made import OUT, TOP, Made, tell

LICENSE = "MIT AND Apache-2.0 AND Unicode-3.0"
"""Of what is compiled into the libraries: the notices are those of `notices`."""
APACHE = "LICENSE-APACHE"
OTHERS = ["crates.txt", "hosts/c/border.h", "hosts/c/exprlang.c", "hosts/c/exprlang.h"]


def roots(made: Made) -> list[str]:
    return [crate for name, crate in ROOTS.items() if name == "libexprlang" or name in made.programs]


def notices(made: Made) -> list[tuple[list[str], str]]:
    """The licences of the kit's crates, each with the crates that have it. Of MIT or Apache 2.0, MIT is taken."""
    found: dict[str, list[str]] = {}
    for name in of_kit(roots(made)):
        files = sorted((kit() / "rattle" / name).glob("LICENSE*"))
        if any(file.name == "LICENSE-MIT" for file in files):
            files = [file for file in files if file.name != APACHE]
        for file in files:
            found.setdefault(file.read_text(encoding="utf-8").strip("\n"), []).append(name)
    return sorted((names, text) for text, names in found.items())


def licences(made: Made) -> str:
    """The page LICENSES-KIT.txt."""
    with_notice = notices(made)
    named = {name for names, _ in with_notice for name in names}
    others = [name for name in of_kit(roots(made)) if name not in named]
    text = "These crates of the Rattle kit are compiled into this package. Their notices follow.\n"
    text += f"Crates without a notice of their own: {', '.join(others)}.\n"
    for names, notice in with_notice:
        text += f"\n{'=' * 72}\n{', '.join(names)}\n{'=' * 72}\n\n{notice}\n"
    return text


def checksums(made: Made) -> str:
    """The page SOURCES.sha256, which `sha256sum -c` reads at the top of the repository."""
    names = sorted({it for crate in roots(made) for it in below(crate)})
    files = [TOP / it for it in OTHERS] + [file for name in names for file in files_of(name)]
    head = f"# exprlang {made.version}, {made.built}\n"
    return head + "".join(f"{sum_of_file(file)}  {file.relative_to(TOP)}\n" for file in files)


def write(made: Made) -> None:
    """Writes the papers into hosts/out/doc."""
    folder = OUT / "doc"
    shutil.rmtree(folder, ignore_errors=True)
    folder.mkdir(parents=True)
    for source in ("CHANGELOG.md", "LICENSE", "hosts/package/README.md"):
        shutil.copyfile(TOP / source, folder / source.rpartition("/")[2])
    page, lacking = proof.page(made)
    if lacking:
        tell(f"no verdict is kept of {len(lacking)} crates, such as {lacking[0]}: .ci/run keeps them, or bin/package --gate LOG")
    pages = {"PROOF.txt": page, "LICENSES-KIT.txt": licences(made), "SOURCES.sha256": checksums(made)}
    for name, text in pages.items():
        (folder / name).write_text(text, encoding="utf-8")
