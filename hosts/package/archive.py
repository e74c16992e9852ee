"""The archive, and archives of which two builds give the same bytes: sorted, and all files of one date."""

from __future__ import annotations

import gzip
import os
import pathlib
import tarfile
import tempfile
import time
import zipfile

from .made import TOP, Made, run

PLATFORM = "x86_64-linux-gnu"


def installed(to: pathlib.Path, *words: str) -> None:
    """Installs hosts/out into a folder, by the rules of the Makefile."""
    run("make", "-s", "-C", TOP, "install", f"DESTDIR={to}", *words)


def relocatable(to: pathlib.Path) -> None:
    """Installs what works wherever the whole is moved to."""
    prefix = ["PREFIX=", "PC_PREFIX=$${pcfiledir}/../.."]
    installed(to, *prefix, "PC_LIBDIR=$${prefix}/lib", "PC_INCLUDEDIR=$${prefix}/include")


def tar(folder: pathlib.Path, to: pathlib.Path, date: int) -> None:
    """Packs a folder, under its own name."""
    with open(to, "wb") as file, gzip.GzipFile("", "wb", 9, file, mtime=date) as packed:
        with tarfile.open(fileobj=packed, mode="w", format=tarfile.USTAR_FORMAT) as archive:
            for path in [folder, *sorted(folder.rglob("*"))]:
                info = archive.gettarinfo(path, os.fspath(path.relative_to(folder.parent)))
                info.mtime, info.uid, info.gid, info.uname, info.gname = date, 0, 0, "root", "root"
                info.mode = 0o755 if path.is_dir() or info.mode & 0o100 else 0o644
                if info.isfile():
                    with open(path, "rb") as content:
                        archive.addfile(info, content)
                else:
                    archive.addfile(info)


def zipped(files: dict[str, bytes], to: pathlib.Path, date: int) -> None:
    """Packs files by their names, in the order in which they are given."""
    with zipfile.ZipFile(to, "w", zipfile.ZIP_DEFLATED, compresslevel=9) as archive:
        for name, content in files.items():
            info = zipfile.ZipInfo(name, time.gmtime(date)[:6])
            info.compress_type = zipfile.ZIP_DEFLATED
            info.create_system, info.external_attr = 3, 0o100644 << 16
            archive.writestr(info, content)


def make(made: Made, to: pathlib.Path) -> list[pathlib.Path]:
    name = f"exprlang-{made.marked('-')}-{PLATFORM}"
    with tempfile.TemporaryDirectory() as work:
        folder = pathlib.Path(work, name)
        relocatable(folder)
        tar(folder, to / f"{name}.tar.gz", made.date)
    return [to / f"{name}.tar.gz"]
