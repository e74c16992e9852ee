"""Installs each package where nothing else is, takes its first result, removes it and looks whether anything is left."""

from __future__ import annotations

import collections.abc
import dataclasses
import os
import pathlib
import platform
import re
import shutil
import subprocess
import tarfile
import tempfile
import time

from . import archive, debian, proof, rust, wheel
from .made import TOP, Failed, Made, Missing, run, tell

# What a program may know of the machine: nothing that leads to the repository.
BARE = {"PATH": "/usr/local/sbin:/usr/local/bin:/usr/sbin:/usr/bin:/sbin:/bin", "LC_ALL": "C.UTF-8"}
ORDER = '{"price": 60, "count": 2, "blocked": false}\n'
IN_PYTHON = """
import exprlang
rule = exprlang.compile("price * count > 100 and not blocked")
print(rule.run({"price": 60, "count": 2, "blocked": False}), exprlang.library_version(), sep="; ")
"""
LINTIAN = ["--allow-root", "--fail-on", "error,warning", "--suppress-tags", "initial-upload-closes-no-bugs"]


def same(what: str, found: object, wanted: object) -> None:
    if found != wanted:
        raise Failed(f"{what} is\n    {found}\nwhere this is right:\n    {wanted}")


def tool(name: str) -> str:
    found = shutil.which(name)
    if not found:
        raise Missing(f"there is no {name} here")
    return found


def files_in(folder: pathlib.Path) -> set[str]:
    return {os.fspath(path.relative_to(folder)) for path in folder.rglob("*") if path.is_symlink() or not path.is_dir()}


def nothing_left(what: str, before: set[str], after: set[str]) -> None:
    left, lost = sorted(after - before), sorted(before - after)
    if left or lost:
        raise Failed(f"{what}: its removal leaves {left[:5] or 'nothing'} and takes {lost[:5] or 'nothing'} of others")


def first_of_programs(made: Made, folder: pathlib.Path, *before: str) -> None:
    """Runs the programs in a folder, if the package has them."""
    if "exprlang" in made.programs:
        said = run(*before, folder / "exprlang", "a + 2 * b", "a=1", "b=3", env=BARE)
        same("the result of exprlang", said, "7\n")
    if "expr_lines" in made.programs:
        said = run(*before, folder / "expr_lines", "count == 2", input=ORDER, env=BARE)
        same("the result of expr_lines", said, ORDER)
    if "expr_check" in made.programs:
        said = run(*before, folder / "expr_check", "-p", "-", input="count==2\n", env=BARE)
        same("the result of expr_check", said, "count == 2\n")


def first_in_c(program: os.PathLike[str] | str, *before: str, **known: str) -> None:
    same(f"the result of {program}", run(*before, program, input=ORDER, env={**BARE, **known}), "true\n")


def by_pkg_config(files: pathlib.Path, to: pathlib.Path, root: pathlib.Path | None = None) -> None:
    """Compiles rules.c by the words of a file for pkg-config, below a root where there is one."""
    known = {**BARE, "PATH": os.environ["PATH"], "PKG_CONFIG_LIBDIR": str(files), "PKG_CONFIG_ALLOW_SYSTEM_CFLAGS": "1"}
    known["PKG_CONFIG_ALLOW_SYSTEM_LIBS"] = "1"
    if root:
        known["PKG_CONFIG_SYSROOT_DIR"] = str(root)
    words = run(tool("pkg-config"), "--cflags", "--libs", "exprlang", env=known).split()
    run(tool("gcc"), "-o", to, TOP / "hosts/c/rules.c", *words)


def by_cmake(prefix: pathlib.Path, work: pathlib.Path, version: str) -> None:
    """Compiles rules.c by CMake, with both libraries, and runs what it makes."""
    cmake, made = tool("cmake"), work / "cmake"
    words = [f"-DCMAKE_PREFIX_PATH={prefix}", f"-DRULES={TOP / 'hosts/c/rules.c'}", f"-DVERSION={version}"]
    run(cmake, "-S", TOP / "hosts/package/trial", "-B", made, *words)
    run(cmake, "--build", made)
    for kind in ("exprlang", "static"):
        first_in_c(made / f"rules_{kind}")


def archive_is_well(made: Made, files: list[pathlib.Path], work: pathlib.Path) -> str:
    """Unpacks the archive in two places, so that nothing in it may lean on where it is."""
    home = work / "moved"
    with tarfile.open(files[0]) as packed:
        packed.extractall(work)
    (work / files[0].name.removesuffix(".tar.gz")).rename(home)
    first_of_programs(made, home / "bin")
    exported = run("nm", "-g", "--defined-only", home / "lib/libexprlang.a").split("\n")
    others = [line for line in exported if re.search(r" [A-Z] (?!expr_)", line)]
    same("what libexprlang.a exports beside expr_*", others, [])
    run(tool("gcc"), "-o", work / "static", TOP / "hosts/c/rules.c", f"-I{home}/include", home / "lib/libexprlang.a")
    first_in_c(work / "static")
    by_pkg_config(home / "lib/pkgconfig", work / "shared")
    first_in_c(work / "shared", LD_LIBRARY_PATH=str(home / "lib"))
    by_cmake(home, work, made.version)
    if shutil.which("mandoc"):
        run("mandoc", "-Tlint", "-Wwarning", *sorted((home / "share/man").glob("*/*")))
    else:
        tell("there is no mandoc here: the manual pages are not checked (bin/tools)")
    return "in C by hand, by pkg-config and by CMake" + (", and the programs" if made.programs else "; there are no programs")


def installation_is_well(made: Made, work: pathlib.Path) -> str:
    """Tries `make install` and `make uninstall` beside a file of another program."""
    root = work / "root"
    (root / "usr/local/lib").mkdir(parents=True)
    (root / "usr/local/lib/libother.so").write_text("")
    before = files_in(root)
    run("make", "-s", "-C", TOP, "install", f"DESTDIR={root}")
    first_of_programs(made, root / "usr/local/bin")
    by_pkg_config(root / "usr/local/lib/pkgconfig", work / "rules", root)
    first_in_c(work / "rules", LD_LIBRARY_PATH=str(root / "usr/local/lib"))
    count = len(files_in(root) - before)
    run("make", "-s", "-C", TOP, "uninstall", f"DESTDIR={root}")
    nothing_left("make uninstall", before, files_in(root))
    return f"{count} files, and none of them after make uninstall"


def wheel_is_well(made: Made, files: list[pathlib.Path], work: pathlib.Path) -> str:
    """Installs each wheel in an environment of its own, and has pip check it."""
    seconds = 0.0
    for file in files:
        home = work / file.stem
        try:
            run(tool("python3"), "-m", "venv", home)
        except Failed as fault:
            raise Missing(f"python3 makes no virtual environment ({fault})") from fault
        python, before, began = home / "bin/python", files_in(home), time.monotonic()
        run(python, "-m", "pip", "--quiet", "install", "--no-index", "--no-cache-dir", "--disable-pip-version-check", file)
        said = run(python, "-I", "-c", IN_PYTHON, env=BARE, cwd=work).strip()
        same("the result of the module", said, f"True; {made.version}, {made.built}")
        seconds = max(seconds, time.monotonic() - began)
        inside = run(python, "-I", "-c", "import exprlang; print(exprlang.__file__)", env=BARE, cwd=work)
        same("the folder of the module", pathlib.Path(inside.strip()).is_relative_to(home), True)
        run(python, "-m", "pip", "--disable-pip-version-check", "check")
        run(python, "-m", "pip", "--quiet", "--disable-pip-version-check", "uninstall", "--yes", "exprlang")
        # (pip and what comes with it are compiled as they are used)
        own = re.compile(r"/(pip|setuptools|pkg_resources|_distutils_hack)/")
        after = {path for path in files_in(home) if path in before or not own.search(path)}
        nothing_left(file.name, before, after)
    return f"{len(files)} in a new environment of Python {platform.python_version()}, the first result after {seconds:.0f} s"


def crate_is_well(made: Made, files: list[pathlib.Path], work: pathlib.Path) -> str:
    """Builds a program over the crate, out of the file alone."""
    with tarfile.open(files[0]) as packed:
        packed.extractall(work)
    folder, user = work / files[0].name.removesuffix(".crate"), work / "user"
    (user / "src").mkdir(parents=True)
    shutil.copyfile(TOP / "hosts/rust/examples/rules.rs", user / "src/main.rs")
    manifest = '[package]\nname = "user"\nversion = "0.0.0"\nedition = "2021"\n\n[dependencies]\n'
    (user / "Cargo.toml").write_text(f'{manifest}exprlang = {{ path = "{folder}" }}\n')
    known = {name: value for name, value in os.environ.items() if not name.startswith(("EXPRLANG_", "CARGO_TARGET"))}
    said = run(tool("cargo"), "run", "--quiet", "--offline", cwd=user, env=known, input="price=60 count=2\n")
    same("the last line of the program over the crate", said.split("\n")[-2:], ["true", ""])
    return "by a program over it"


def suite() -> str:
    """The name of this machine's Debian, so that what is compiled here runs there."""
    known = pathlib.Path("/etc/os-release").read_text(encoding="utf-8")
    found = re.search(r"(?m)^ID=debian$", known) and re.search(r"(?m)^VERSION_CODENAME=(\w+)$", known)
    return found[1] if found else "stable"


def empty_root(work: pathlib.Path) -> pathlib.Path:
    """Makes a Debian with Python and nothing else, of the one that is kept, or by debootstrap, which takes minutes and the net."""
    tool("debootstrap")
    if os.geteuid():
        raise Missing("debootstrap and chroot are for root alone")
    root, kept = work / "root", proof.place() / f"debian-{suite()}.tar"
    root.mkdir()
    if not kept.is_file():
        tell(f"debootstrap makes an empty Debian, to be kept as {kept}")
        try:
            run("debootstrap", "--variant=minbase", "--include=python3", suite(), root)
        except Failed as fault:
            raise Missing(f"debootstrap makes no root: {str(fault).strip().splitlines()[-1]}") from fault
        run("chroot", root, "apt-get", "clean", env=BARE)
        kept.parent.mkdir(parents=True, exist_ok=True)
        run("tar", "-C", root, "-cf", f"{kept}.{os.getpid()}", ".")
        os.replace(f"{kept}.{os.getpid()}", kept)
    else:
        run("tar", "-C", root, "-xpf", kept)
    return root


def own_files(root: pathlib.Path) -> set[str]:
    """The files of a Debian, without what dpkg and ldconfig write down of every package."""
    kept = re.compile(r"var/lib/dpkg/|var/log/|var/cache/|etc/ld\.so\.cache$|packages/|trial$")
    return {path for path in files_in(root) if not kept.match(path)}


def unpacked_is_well(made: Made, files: list[pathlib.Path], root: pathlib.Path) -> None:
    """Unpacks the packages into a folder and uses what is there: the most that can be tried without an empty Debian."""
    for file in files:
        run(tool("dpkg-deb"), "-x", file, root)
    first_of_programs(made, root / "usr/bin")
    paths = {"PYTHONPATH": str(root / "usr/lib/python3/dist-packages"), "EXPRLANG_LIB": str(root / "usr/lib/x86_64-linux-gnu")}
    said = run(tool("python3"), "-B", "-c", IN_PYTHON, env={**BARE, **paths}, cwd=root).strip()
    same("the result of the module", said, f"True; {made.version}, {made.built}")


def debian_is_well(made: Made, files: list[pathlib.Path], work: pathlib.Path) -> str:
    """Installs the packages in an empty Debian, uses each, and purges them."""
    if shutil.which("lintian"):
        run("lintian", *LINTIAN, *files)
    else:
        tell("there is no lintian here: what it would say of the Debian packages is not known (bin/tools)")
    try:
        root = empty_root(work)
    except Missing as lack:
        unpacked_is_well(made, files, work / "unpacked")
        raise Missing(f"{lack}, so the packages were unpacked and used, and not installed") from lack
    before = own_files(root)
    shutil.copytree(files[0].parent, root / "packages", ignore=lambda _, names: {it for it in names if not it.endswith(".deb")})
    inside = ["chroot", str(root)]
    began = time.monotonic()
    run(*inside, "dpkg", "--install", *(f"/packages/{file.name}" for file in files), env=BARE)
    said = run(*inside, "python3", "-c", IN_PYTHON, env=BARE).strip()
    same("the result of the module", said, f"True; {made.version}, {made.built}")
    seconds = time.monotonic() - began
    first_of_programs(made, pathlib.Path("/usr/bin"), *inside)
    by_pkg_config(root / "usr/lib/x86_64-linux-gnu/pkgconfig", root / "trial", root)
    first_in_c("/trial", *inside)
    names = [file.name.partition("_")[0] for file in files]
    run(*inside, "dpkg", "--purge", *names, env=BARE)
    nothing_left("dpkg --purge", before, own_files(root))
    return f"in an empty Debian {suite()}, the first result after {seconds:.0f} s, and nothing is left"


def made_alike(kind: str, made: Made, files: list[pathlib.Path], work: pathlib.Path) -> None:
    """Makes the packages of a kind once more and compares them byte by byte."""
    again = work / "again"
    again.mkdir()
    same("the packages made again", sorted(file.name for file in KINDS[kind].make(made, again)), [file.name for file in files])
    for file in files:
        if file.read_bytes() != (again / file.name).read_bytes():
            raise Failed(f"{file.name} has other bytes when it is made again")


def attempt(what: str, trial: collections.abc.Callable[[pathlib.Path], str]) -> int:
    """Tries something in a folder of its own and says how it went. Returns what bin/package ends with."""
    began = time.monotonic()
    with tempfile.TemporaryDirectory(prefix="exprlang-") as work:
        try:
            said = trial(pathlib.Path(work))
        except Missing as lack:
            tell(f"{what}: not tried to the end: {lack} (bin/tools)")
            return 2
        except (Failed, subprocess.SubprocessError, OSError) as fault:
            tell(f"{what}: {fault}")
            return 1
    tell(f"{what}: well: {said}; {time.monotonic() - began:.0f} s")
    return 0


@dataclasses.dataclass(frozen=True)
class Kind:
    """A kind of packages: the names of its files, how they are made, and what says how they do."""

    pattern: str
    make: collections.abc.Callable[[Made, pathlib.Path], list[pathlib.Path]]
    attempt: collections.abc.Callable[[Made, list[pathlib.Path], pathlib.Path], str]


KINDS = {
    "tar": Kind("*.tar.gz", archive.make, archive_is_well),
    "wheel": Kind("*.whl", wheel.make, wheel_is_well),
    "deb": Kind("*.deb", debian.make, debian_is_well),
    "crate": Kind("*.crate", rust.make, crate_is_well),
}


def files_of(kind: str, place: pathlib.Path) -> list[pathlib.Path]:
    return sorted(place.glob(KINDS[kind].pattern))


def all_of(kinds: list[str], made: Made, place: pathlib.Path) -> int:
    """Tries the packages of these kinds, and `make install` with the archive. Returns what bin/package ends with."""
    ends = []
    for kind in kinds:
        files = files_of(kind, place)
        if not files:
            continue

        def trial(work: pathlib.Path, kind: str = kind, files: list[pathlib.Path] = files) -> str:
            made_alike(kind, made, files, work)
            return KINDS[kind].attempt(made, files, work)

        ends.append(attempt(kind, trial))
    if "tar" in kinds:
        ends.append(attempt("make install", lambda work: installation_is_well(made, work)))
    return 1 if 1 in ends else max(ends, default=0)
