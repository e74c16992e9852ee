"""Makes the distribution exprlang, of the number in VERSION at the top of the repository.

It has the module, and for CPython from 3.10 on the extension, if hosts/out has the header and the
static library. Without the extension, EXPRLANG_LIB names the folder of the shared library, where
the system has none.
"""

import pathlib
import sys

import setuptools

HERE = pathlib.Path(__file__).resolve().parent
TOP = HERE.parents[1]
LIBRARY = TOP / "hosts/out/lib/libexprlang.a"
SOURCES = "engines values program records members runs lines module"
IS_CPYTHON = sys.implementation.name == "cpython" and sys.version_info >= (3, 10)

native = setuptools.Extension(
    "exprlang._native",
    [f"native/{name}.c" for name in SOURCES.split()],
    depends=["native/native.h", "native/runs.h"],
    include_dirs=[str(TOP / "hosts/out/include")],
    extra_objects=[str(LIBRARY)],
    extra_compile_args=["-std=gnu11", "-O2", "-fvisibility=hidden"],
    extra_link_args=["-Wl,--exclude-libs,ALL", "-Wl,--gc-sections"],
    py_limited_api=True,
    optional=True,
)
setuptools.setup(
    version=(TOP / "VERSION").read_text(encoding="utf-8").strip(),
    ext_modules=[native] if IS_CPYTHON and LIBRARY.exists() else [],
    options={"bdist_wheel": {"py_limited_api": "cp310"}} if IS_CPYTHON else {},
)
