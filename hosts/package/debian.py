"""The Debian packages, of what the Makefile installs under /usr."""

from __future__ import annotations

import collections.abc
import email.utils
import gzip
import hashlib
import os
import pathlib
import re
import shutil
import tempfile

from .archive import installed
from .crates import of_kit
from .made import OUT, TOP, Failed, Made, run, tell
from .papers import notices, roots
from .wheel import extensions, field, metadata, modules, needed, newest_glibc

HERE = TOP / "hosts/package/debian"
REVISION = "1"
APACHE_TEXT = "Version 2.0, January 2004"


def version_of(made: Made) -> str:
    """An unproved package is older than the proved one of its version, so that one takes its place."""
    return f"{made.marked('~')}-{REVISION}"


def libc_for(*files: pathlib.Path) -> str:
    """What a package with these files depends on, or nothing if none needs a C library."""
    newest = max(newest_glibc(file) for file in files)
    return f"libc6 (>= {'.'.join(map(str, newest))})" if any(needed(file) for file in files) else ""


class Package:
    """A binary package, as it is put together in a folder."""

    def __init__(self, made: Made, folder: pathlib.Path, name: str, architecture: str) -> None:
        self.made, self.name, self.architecture = made, name, architecture
        self.root = folder / name
        (self.root / "DEBIAN").mkdir(parents=True)
        self.doc = self.root / "usr/share/doc" / name
        self.doc.mkdir(parents=True)

    def take(self, stage: pathlib.Path, *patterns: str) -> None:
        """Moves what patterns name out of the folder of an installation."""
        for pattern in patterns:
            found = sorted(stage.glob(pattern))
            if not found:
                raise Failed(f"{self.name}: make install leaves no {pattern}")
            for path in found:
                to = self.root / path.relative_to(stage)
                to.parent.mkdir(parents=True, exist_ok=True)
                path.rename(to)

    def add(self, name: str, content: bytes, mode: int = 0o644) -> None:
        path = self.root / name
        path.parent.mkdir(parents=True, exist_ok=True)
        path.write_bytes(content)
        path.chmod(mode)

    def control(self, depends: collections.abc.Iterable[str]) -> None:
        """Writes DEBIAN/control of the template, with what this build knows."""
        text = (HERE / f"{self.name}.control").read_text(encoding="utf-8")
        version = version_of(self.made)
        needs = ", ".join(filter(None, depends))
        sizes = sum(-(-path.stat().st_size // 1024) for path in self.root.rglob("*") if path.is_file())
        head = f"Package: {self.name}\nSource: exprlang\nVersion: {version}\nArchitecture: {self.architecture}\n"
        head += f"Maintainer: {maintainer()}\nInstalled-Size: {sizes}\n" + (f"Depends: {needs}\n" if needs else "")
        if not self.made.is_proved:
            text += " .\n This build is for trying: nothing of it is proved.\n"
        self.add("DEBIAN/control", (head + text.replace("@VERSION@", version)).encode())

    def papers(self) -> None:
        """Writes the copyright and the changelogs, as Debian's policy has them."""
        self.add(self.doc_name("copyright"), copyright_of(self.made).encode())
        self.add(self.doc_name("changelog.gz"), squeezed((TOP / "CHANGELOG.md").read_bytes()))
        date = email.utils.formatdate(self.made.date)[:-5] + "+0000"
        text = f"exprlang ({version_of(self.made)}) unstable; urgency=medium\n\n  * {self.made.built}.\n\n"
        self.add(self.doc_name("changelog.Debian.gz"), squeezed(f"{text} -- {maintainer()}  {date}\n".encode()))

    def doc_name(self, name: str) -> str:
        return f"usr/share/doc/{self.name}/{name}"

    def build(self, to: pathlib.Path) -> pathlib.Path:
        for man in self.root.glob("usr/share/man/*/*"):
            man.with_name(man.name + ".gz").write_bytes(squeezed(man.read_bytes()))
            man.unlink()
        for path in [self.root, *self.root.rglob("*")]:
            if path.is_dir():
                path.chmod(0o755)
        files = sorted(path for path in self.root.rglob("*") if path.is_file() and not path.is_symlink() and "DEBIAN" not in path.parts)
        sums = (f"{hashlib.md5(path.read_bytes()).hexdigest()}  {path.relative_to(self.root)}\n" for path in files)
        self.add("DEBIAN/md5sums", "".join(sums).encode())
        for path in [*self.root.rglob("*"), self.root]:
            os.utime(path, (self.made.date, self.made.date), follow_symlinks=False)
        file = to / f"{self.name}_{version_of(self.made)}_{self.architecture}.deb"
        known = {**os.environ, "SOURCE_DATE_EPOCH": str(self.made.date), "DPKG_DEB_THREADS_MAX": "1"}
        run("dpkg-deb", "--root-owner-group", "-Zxz", "--build", self.root, file, env=known)
        return file


def maintainer() -> str:
    return (HERE / "maintainer").read_text(encoding="utf-8").strip()


def squeezed(content: bytes) -> bytes:
    return gzip.compress(content, 9, mtime=0)


def copyright_of(made: Made) -> str:
    """The licence, with the notices of the kit's crates. Debian has the text of Apache 2.0 itself."""
    text = (TOP / "LICENSE").read_text(encoding="utf-8").strip()
    text += "\n\n\nCrates of the Rattle kit are compiled into this package. Their notices follow. "
    named = {name for names, _ in notices(made) for name in names}
    text += f"Without a notice of their own are: {', '.join(it for it in of_kit(roots(made)) if it not in named)}.\n"
    for names, notice in notices(made):
        if APACHE_TEXT in notice:
            notice = "Under the Apache License, Version 2.0: see /usr/share/common-licenses/Apache-2.0."
        text += f"\n=== {', '.join(names)}\n\n{notice}\n"
    return text


def symbols(made: Made, library: pathlib.Path) -> bytes:
    """The symbols that programs may link, in the form of dpkg-gensymbols. Raises Failed if they aren't those of the file."""
    text = (HERE / "libexprlang0.symbols").read_text(encoding="utf-8")
    known = set(re.findall(r"(?m)^ (\w+)@Base ", text))
    found = set(re.findall(r" [TDRB] (\w+)", run("nm", "-D", "--defined-only", library)))
    if found != known:
        raise Failed(
            f"libexprlang0.symbols lacks {', '.join(sorted(found - known)) or 'nothing'}, "
            f"and libexprlang.so.0 lacks {', '.join(sorted(known - found)) or 'nothing'}"
        )
    # what is built with an unproved library may run with it
    return re.sub(rf"@Base {re.escape(made.version)}\b", f"@Base {made.marked('~')}", text).encode()


def shared(made: Made, work: pathlib.Path, stage: pathlib.Path, architecture: str) -> Package:
    package = Package(made, work, "libexprlang0", architecture)
    package.take(stage, "usr/lib/*/libexprlang.so.0")
    library = next(package.root.glob("usr/lib/*/libexprlang.so.0"))
    run("strip", "--strip-unneeded", "--remove-section=.comment", library)
    for name in ("PROOF.txt", "SOURCES.sha256"):
        package.add(package.doc_name(f"{name}.gz"), squeezed((OUT / "doc" / name).read_bytes()))
    package.add("DEBIAN/symbols", symbols(made, library))
    package.add("DEBIAN/shlibs", f"libexprlang 0 libexprlang0 (>= {made.marked('~')})\n".encode())
    package.add("DEBIAN/triggers", b"activate-noawait ldconfig\n")
    package.control([libc_for(library)])
    return package


def development(made: Made, work: pathlib.Path, stage: pathlib.Path, architecture: str) -> Package:
    package = Package(made, work, "libexprlang-dev", architecture)
    package.take(stage, "usr/lib/*/libexprlang.*", "usr/lib/*/pkgconfig", "usr/lib/*/cmake", "usr/include", "usr/share/man/man3")
    package.add(package.doc_name("README.md"), (OUT / "doc/README.md").read_bytes())
    run("strip", "--strip-unneeded", "--remove-section=.comment", "--enable-deterministic-archives", next(package.root.glob("usr/lib/*/*.a")))
    package.control([f"libexprlang0 (= {version_of(made)})"])
    return package


def programs(made: Made, work: pathlib.Path, stage: pathlib.Path, architecture: str) -> Package:
    package = Package(made, work, "exprlang", architecture)
    package.take(stage, "usr/bin/*", "usr/share/man/man1")
    files = sorted(package.root.glob("usr/bin/*"))
    run("strip", "--remove-section=.comment", *files)
    package.control([libc_for(*files)])
    return package


def python(made: Made, work: pathlib.Path, architecture: str) -> Package:
    native = extensions()
    package = Package(made, work, "python3-exprlang", architecture if native else "all")
    place = "usr/lib/python3/dist-packages"
    for name, content in modules().items():
        package.add(f"{place}/{name}", content)
    for file in native:
        package.add(f"{place}/exprlang/{file.name}", file.read_bytes())
    package.add(f"{place}/exprlang-{made.marked('+')}.egg-info", metadata(made, field("requires-python")).encode())
    for script in ("postinst", "prerm"):
        package.add(f"DEBIAN/{script}", (HERE / f"python3-exprlang.{script}").read_bytes(), 0o755)
    oldest = field("requires-python").lstrip(">=")
    package.control([f"python3:any (>= {oldest})", f"libexprlang0 (= {version_of(made)})", libc_for(*native) if native else ""])
    return package


def make(made: Made, to: pathlib.Path) -> list[pathlib.Path]:
    architecture = run("dpkg", "--print-architecture").strip()
    with tempfile.TemporaryDirectory() as folder:
        work = pathlib.Path(folder)
        stage = work / "stage"
        installed(stage, "PREFIX=/usr", "LIBDIR=/usr/lib/x86_64-linux-gnu", "PC_LIBDIR=$${prefix}/lib/x86_64-linux-gnu", "PC_INCLUDEDIR=$${prefix}/include")
        shutil.rmtree(stage / "usr/share/doc")
        packages = [shared(made, work, stage, architecture), development(made, work, stage, architecture), python(made, work, architecture)]
        if made.programs:
            packages.append(programs(made, work, stage, architecture))
        else:
            tell("the package exprlang is left out: hosts/out/bin has no programs")
        left = [path for path in stage.rglob("*") if not path.is_dir()]
        if left:
            raise Failed(f"no package takes {left[0].relative_to(stage)}")
        for package in packages:
            package.papers()
        return [package.build(to) for package in packages]
